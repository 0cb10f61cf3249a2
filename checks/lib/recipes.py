"""Follows the lists of files in CONTRIBUTING.md. A line of a list begins with a folder, or with a
crate without `crates/`, and goes on with files in it. An indented line belongs to the one before it.
"""

import re

from program import TOP

PAGE = "CONTRIBUTING.md"


def lists_in(text):
    """The folders and files of all lists, in order."""
    part = text.partition("\n## Where things go\n")[2]
    for block in re.findall(r"^```\n(.*?)^```", part, re.M | re.S):
        folder = ""
        for line in block.splitlines():
            words = line.split()
            if not line.startswith(" "):
                folder = words.pop(0)
            yield from ((folder, name) for name in words)


def lost_in(text):
    """What is wrong with the lists, and how many files they name."""
    wrong, count = [], 0
    for folder, name in lists_in(text):
        count += 1
        crate = TOP / "crates" / folder
        if not ((crate if crate.exists() else TOP / folder) / name).is_file():
            wrong.append(f"{PAGE}: no {name} in {folder}")
    return wrong, count


def follow():
    """The same of the page. A list with a file that isn't there has to be refused."""
    text = (TOP / PAGE).read_text()
    wrong, count = lost_in(text)
    if not count or not lost_in(text.replace("src/kind.rt", "src/kinds.rt"))[0]:
        wrong.append(f"{PAGE}: the lists of files are not read")
    return wrong, count
