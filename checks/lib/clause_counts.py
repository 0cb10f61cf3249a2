"""How many clauses of contracts are word for word another one: a figure, which fails nothing.

    python3 checks/lib/clause_counts.py [N]    prints the N most frequent (default 40), and in which
                                               crates they are

A clause is a condition or a promise of a function or a closure in a source, without its name and
with one space between words. Crates of tests are not counted.
"""

import re
import sys
from collections import Counter

from program import crate_names
from proved import sources

HEAD = re.compile(r"\b(ensures|requires)\b *\*?(?: \w+)? \{")


def end_of(text, at):
    """Where the brace closes that is open at this place."""
    open_braces = 1
    while open_braces:
        open_braces += {"{": 1, "}": -1}.get(text[at], 0)
        at += 1
    return at - 1


def clauses_of(crate):
    """The clauses of a crate."""
    for path in sources(crate):
        text = re.sub(r"^ *//.*\n", "", path.read_text(), flags=re.M)
        for head in HEAD.finditer(text):
            words = text[head.end() : end_of(text, head.end())].split()
            yield f"{head[1]} {' '.join(words)}"


def counted():
    """Each clause with the crates that have it, once for each time."""
    found = {}
    for crate in crate_names():
        if not crate.startswith("test_"):
            for clause in clauses_of(crate):
                found.setdefault(clause, []).append(crate)
    return found


def figure():
    """The count in words."""
    counts = [len(crates) for crates in counted().values()]
    repeated = sum(count for count in counts if count > 1)
    return f"{repeated} of {sum(counts)} clauses are word for word another one"


def main(words):
    print(figure())
    rows = sorted(counted().items(), key=lambda row: -len(row[1]))
    for clause, crates in rows[: int(words[0]) if words else 40]:
        where = ", ".join(f"{name} {count}" for name, count in Counter(crates).items())
        print(f"{len(crates)}  {clause}\n    {where}")


if __name__ == "__main__":
    main(sys.argv[1:])
