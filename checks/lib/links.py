"""Follows the links of README, CONTRIBUTING, SECURITY and docs/ to files and headings of this
repository.

A link to another site is ignored: nothing is fetched. In docs/proof and in docs/ARCHITECTURE.md
each name in backquotes that has an underscore is a function or a definition. It has to occur in a
source.
"""

import re

from program import TOP

LINK = re.compile(r"\]\(([^)\s]+)\)")
BLOCK = re.compile(r"^```.*?^```", re.MULTILINE | re.DOTALL)
SOURCES = ("*.rt", "*.antt")


def kept_pages():
    """The pages of the repository."""
    top = [TOP / f"{name}.md" for name in ("README", "CONTRIBUTING", "SECURITY")]
    return [*top, *sorted((TOP / "docs").rglob("*.md"))]


def anchors(page):
    """The headings of a page, as a link names them."""
    heads = re.findall(r"^#+ (.+)$", BLOCK.sub("", page.read_text()), re.MULTILINE)
    plain = (re.sub(r"[^\w\- ]", "", head.lower()) for head in heads)
    return {head.replace(" ", "-") for head in plain}


def broken(page):
    """The links of a page that lead nowhere, and how many it has."""
    links = LINK.findall(BLOCK.sub("", page.read_text()))
    inner = [link for link in links if "://" not in link and not link.startswith("mailto:")]
    wrong = []
    for link in inner:
        path, _, anchor = link.partition("#")
        target = (page.parent / path).resolve() if path else page
        if not target.exists() or anchor and anchor not in anchors(target):
            wrong.append(f"{page.relative_to(TOP)}: no {link}")
    return wrong, len(inner)


def unknown_names():
    """Names in the pages about the code that no source has."""
    crates, known, wrong = TOP / "crates", set(), []
    for crate in sorted(crates.iterdir()):
        known.add(crate.name)
        for part in ("src", "specs", "proofs"):
            for path in (found for kind in SOURCES for found in (crate / part).rglob(kind)):
                known.update(re.findall(r"\w+", path.read_text()))
    for page in [TOP / "docs/ARCHITECTURE.md", *sorted((TOP / "docs/proof").glob("*.md"))]:
        for quoted in re.findall(r"`([^`\n]+)`", page.read_text()):
            for name in re.findall(r"\w+", quoted):
                if "_" in name.strip("_") and name[0] != "_" and name not in known:
                    wrong.append(f"{page.relative_to(TOP)}: no {name} in the sources")
    return wrong


def follow(pages):
    """Returns what is wrong with the links of the pages and with names in the pages about the code,
    and how many links there are."""
    found = [broken(page) for page in pages]
    wrong = [line for lines, _ in found for line in lines]
    return wrong + unknown_names(), sum(count for _, count in found)
