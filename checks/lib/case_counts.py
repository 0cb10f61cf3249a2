"""The numbers of commands that the transcripts have, a line per file in cases.count.

A command that is no longer run changes the number of its file. `checks/cases --count` writes the
file after cases were added or taken away on purpose.
"""

from program import TOP

KEPT = TOP / "checks/lib/cases.count"


def kept():
    """The number of each file that is kept."""
    lines = (line.split() for line in KEPT.read_text().splitlines())
    return {path: int(number) for path, number in lines}


def write(count):
    """Keeps the numbers of commands by file."""
    KEPT.write_text("".join(f"{path} {number}\n" for path, number in sorted(count.items())))


def differences(count):
    """What differs from the numbers that are kept: a line per file."""
    wanted = kept()
    return [
        f"{path}: {count.get(path, 0)} commands, and {KEPT.relative_to(TOP)} has"
        f" {wanted.get(path, 0)}: run checks/cases --count if that is meant"
        for path in sorted({*count, *wanted})
        if count.get(path, 0) != wanted.get(path, 0)
    ]
