"""The numbers of the worked run in docs/formats/scenario.md, against checks/lib/air.py.

    python3 checks/lib/worked_run.py

The generator has to give the vector that its authors published, the page has to have its state and
its numbers for seed 0, and the run of the page has to draw these numbers and to have these lines.
`checks/cases` compares the same lines with the program.
"""

import itertools
import re
import sys
import tomllib
from pathlib import Path

import air

PAGE = Path(__file__).resolve().parents[2] / "docs/formats/scenario.md"
# The first outputs of xoshiro256++ for the state 1, 2, 3, 4, as published with the algorithm.
PUBLISHED = [
    41943041, 58720359, 3588806011781223, 3591011842654386, 9228616714210784205,
    9973669472204895162, 14011001112246962877, 12406186145184390807, 15849039046786891736,
    10450023813501588000,
]  # fmt: skip
ROW = re.compile(r"\| (\d+) \| (\d+) \| (\d+) \| (\d+) \| .* \|")


def fail(why):
    sys.exit(f"docs/formats/scenario.md: {why}")


def numbers(draws, count):
    return [draws.draw(1 << 64) for _ in range(count)]


def block(text, head):
    """The lines of the block that begins with this line."""
    if f"\n{head}\n" not in text:
        fail(f"there is no block {head}")
    return text.partition(f"\n{head}\n")[2].partition("\n```")[0]


class Recording(air.Xoshiro256PlusPlus):
    """A generator that keeps what was drawn, and of which modulus."""

    def __init__(self, seed):
        super().__init__(seed)
        self.drawn = []

    def draw(self, below):
        number = super().draw(1 << 64)
        self.drawn.append((number, below))
        return number % below


def lines_of(world):
    """The lines of a run with its notes."""
    return air.lines(world.run(), world, True)


def run(scenario):
    """The lines of a run with its notes, and what it drew."""
    runs, made = [], air.Xoshiro256PlusPlus
    air.Xoshiro256PlusPlus = lambda seed: runs.append(Recording(seed)) or runs[-1]
    try:
        shown = list(lines_of(air.World(scenario)))
    finally:
        air.Xoshiro256PlusPlus = made
    return shown, runs[0].drawn


def main():
    text = PAGE.read_text()
    known = air.Xoshiro256PlusPlus(0)
    known.words = [1, 2, 3, 4]
    if numbers(known, len(PUBLISHED)) != PUBLISHED:
        sys.exit("checks/lib/air.py: the generator is not the published xoshiro256++")
    state = " ".join(f"{word:016x}" for word in air.Xoshiro256PlusPlus(0).words)
    if f"\n    {state}\n" not in text:
        fail(f"the state of seed 0 is {state}")
    rows = [tuple(map(int, row.groups())) for row in map(ROW.fullmatch, text.splitlines()) if row]
    if [number for _, number, _, _ in rows] != numbers(air.Xoshiro256PlusPlus(0), 10):
        fail("the table does not have the first ten numbers of seed 0")
    for place, (index, number, below, rest) in enumerate(rows, 1):
        if index != place or number % below != rest:
            fail(f"row {place} of the table: {number} modulo {below} is {number % below}")
    shown, drawn = run(tomllib.loads(block(text, "```toml worked.toml")))
    if drawn != [(number, below) for _, number, below, _ in rows]:
        fail(f"the worked run draws {drawn}")
    wanted = block(text, "$ ./geostation sim --notes worked.toml").splitlines()
    for number, (ours, theirs) in enumerate(itertools.zip_longest(wanted, shown), 1):
        if ours != theirs:
            fail(f"line {number} of the worked run is {theirs!r}, not {ours!r}")
    return 0


if __name__ == "__main__":
    sys.exit(main())
