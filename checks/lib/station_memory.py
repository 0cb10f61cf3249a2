"""Compares the memory that a station of the library for C allocates with what docs/C.md says of it.

    python3 checks/lib/station_memory.py LINES

LINES are those of c/memory.c. The figures are read from the page, and the daemon's message
(c/link/handles.c) has to have the same formula. Prints what was compared, or what differs.
"""

import re
import sys
from pathlib import Path

# Imports leave no compiled files among the sources.
sys.dont_write_bytecode = True

from program import TOP

NUMBERS = "zero one two three four five six seven eight nine ten eleven twelve".split()
# The sentences of the page, whose lines may break anywhere.
FORMULA = re.compile(
    r"(\d+) \+ capacity \* \((\d+) \+ (\d+) \* remember\) bytes, in (\w+) allocations"
)
EXAMPLES = re.compile(
    r"With the defaults that is (\d+) bytes; with capacity (\d+) and `remember` (\d+) it is (\d+)\."
)
BLOCKS = re.compile(
    r"The limit of sources takes twice (\d+) bytes of it, and `deliver_once` (\d+)\."
)
OF_THE_DAEMON = re.compile(r"\((\d+) \+ places \+ c->capacity \* \((\d+) \+ (\d+)u \* c->remember\)\)")


def found(pattern, path):
    """The groups of a sentence in a file, whose white space is one space each."""
    text = " ".join((TOP / path).read_text().split())
    match = pattern.search(text)
    return match.groups() if match else sys.exit(f"{path}: no sentence like {pattern.pattern}")


def compare(rows):
    """Yields what differs in the rows: capacity, remember, bytes, and the size of each block."""
    *figures, word = found(FORMULA, "docs/C.md")
    base, each, number = map(int, figures)
    if found(OF_THE_DAEMON, "c/link/handles.c") != tuple(figures):
        yield "docs/C.md and c/link/handles.c have other formulas"
    for capacity, remember, total, *blocks in rows:
        wanted = base + capacity * (each + number * remember)
        if (total, len(blocks)) != (wanted, NUMBERS.index(word)):
            yield (f"capacity {capacity}, remember {remember}: {total} bytes in {len(blocks)} allocations;"
                   f" docs/C.md says {wanted} in {word}")
    default, *example, largest = map(int, found(EXAMPLES, "docs/C.md"))
    totals = {(capacity, remember): total for capacity, remember, total, *_ in rows}
    if rows[0][2] != default or totals.get(tuple(example)) != largest:
        yield f"the examples of docs/C.md: {rows[0][2]} bytes by default, {totals.get(tuple(example))}"
    for size in map(int, found(BLOCKS, "docs/C.md")):
        if any(size not in blocks for _, _, _, *blocks in rows):
            yield f"docs/C.md speaks of {size} bytes, and no block has them: {rows[0][3:]}"
    sources, _ = map(int, found(BLOCKS, "docs/C.md"))
    if any(blocks.count(sources) != 2 for _, _, _, *blocks in rows):
        yield f"docs/C.md speaks of two blocks of {sources} bytes: {rows[0][3:]}"


def main(path):
    rows = [list(map(int, line.split())) for line in Path(path).read_text().splitlines()]
    if len(rows) < 2:
        sys.exit(f"{path}: no rows")
    wrong = list(compare(rows))
    print("\n".join(wrong) or f"memory of {len(rows)} stations")
    return 1 if wrong else 0


if __name__ == "__main__":
    sys.exit(main(*sys.argv[1:]))
