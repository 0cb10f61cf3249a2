"""The page SPECS.md: the definitions of each crate, from the comments of its specs.

Each crate of crates.txt that has definitions is a section. Each file of `specs/` begins with a
comment, its subject. A row is a definition and the comment above it, or what it is declared as if
it has none.
"""

import os

from program import TOP, crate_names

HEAD = """# Definitions, by crate

<!-- Written by checks/docs from the sources. -->

These are the definitions that the clauses of the crates use, in the words of their comments.
[READING.md]({proof}/READING.md) explains the notation,
[DEFINITIONS.md]({proof}/DEFINITIONS.md) how to read those of the protocol and of geometry.
"""
KEYWORDS = {"abbrev", "unfoldable", "pub", "record", "data"}


def read_comment(lines, at):
    """The text of the comment that ends above a line."""
    first = at
    while first > 0 and lines[first - 1].startswith("--"):
        first -= 1
    return " ".join(line.lstrip("- ").strip() for line in lines[first:at])


def declared(lines, at, name):
    """What a definition without a comment is: its first equation, or its type."""
    text = lines[at].partition(" : ")[2].removesuffix(" where")
    if lines[at + 1].startswith(f"{name} ") and " = " in lines[at + 1]:
        text = lines[at + 1]
    return f"`{text}`" if text else "(see the file)"


def rows_of(lines):
    """The definitions of a file: their names, and what they mean."""
    for at, line in enumerate(lines):
        words = line.split()
        if line[:1].strip() and words[0] in KEYWORDS and "pub" in words[:2] and "use" not in words:
            name = next(word for word in words if word not in KEYWORDS)
            comment = read_comment(lines, at)
            yield name, comment.replace("|", "\\|") or declared(lines, at, name).replace("|", "\\|")


class Page:
    """The page, with its links from a folder, and what is wrong in the sources for it."""

    def __init__(self, folder):
        self.folder, self.wrong, self.definitions = folder, [], 0
        proof = os.path.relpath(TOP / "docs/proof", folder)
        lines = HEAD.format(proof=proof).rstrip("\n").split("\n")
        for crate in crate_names():
            lines += self.section(crate)
        self.text = "\n".join(lines) + "\n"

    def section(self, crate):
        lines = []
        for path in sorted((TOP / "crates" / crate / "specs").rglob("*.antt")):
            if path.name != "Lib.antt":
                lines += self.part(path)
        return ["", f"## `{crate}`", *lines] if lines else []

    def part(self, path):
        """The part of the page for a file."""
        lines = path.read_text().split("\n")
        end = next(at for at, line in enumerate(lines) if not line.startswith("--"))
        subject, rows = read_comment(lines, end), list(rows_of(lines[end:]))
        if not subject:
            self.wrong.append(f"{path.relative_to(TOP)}: it has no subject")
        self.definitions += len(rows)
        text = ["", f"[`{path.stem}`]({os.path.relpath(path, self.folder)}): {subject}"]
        if rows:
            text += ["", "| Definition | Meaning |", "|---|---|"]
            text += [f"| `{name}` | {meaning} |" for name, meaning in rows]
        return text
