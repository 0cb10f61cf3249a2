"""How many words of Markdown are written by hand.

A word has a letter or a digit. Transcripts (cases/) aren't counted, nor what is in a block of code,
nor pages that are written from the sources.
"""

import re
import subprocess

from pages import is_written
from program import TOP

FENCE = re.compile(r"\s*(```|~~~)")


def prose(text):
    """The lines of a page that are not in a block of code, with their numbers."""
    inside = False
    for number, line in enumerate(text.splitlines(), 1):
        if FENCE.match(line):
            inside = not inside
        elif not inside:
            yield number, line


def by_hand():
    """The words of all pages that the repository has."""
    listed = subprocess.run(
        ["git", "ls-files", "--cached", "--others", "--exclude-standard", "*.md"],
        cwd=TOP, capture_output=True, text=True, check=True,
    )  # fmt: skip
    paths = [TOP / name for name in listed.stdout.split() if not name.startswith("cases/")]
    pages = [path for path in paths if path.exists() and not is_written(path)]
    lines = (line for path in pages for _, line in prose(path.read_text()))
    words = (word for line in lines for word in line.split())
    return sum(1 for word in words if re.search(r"\w", word))
