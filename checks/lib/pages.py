"""The pages that are written from the sources: one for each crate, which the repository has in
docs/proof, one of the purposes of the tester, and one of all definitions, which it does not have.
`checks/conformance --write` writes another one, of results.
"""

import sys

import proved
import specs
from program import TOP, crate_names

WRITTEN = TOP / "out"
PROOF = TOP / "docs/proof"
TESTER, PURPOSES = TOP / "tester", TOP / "docs/PURPOSES.md"
MARKS = (
    proved.MARK,
    "<!-- Written by checks/docs --write from the purposes in tester/suite. -->",
    "<!-- Written by checks/conformance --write from the results of its runs. -->",
)


def write_pages(top):
    """The pages that are not kept in the repository by their paths, with links as if they were
    below this folder."""
    return {"docs/proof/SPECS.md": specs.Page(top / "docs/proof")}


def keep_pages():
    """Writes these pages to out/. Returns them by their paths there."""
    pages = {WRITTEN / name: page for name, page in write_pages(WRITTEN).items()}
    for path, page in pages.items():
        path.parent.mkdir(parents=True, exist_ok=True)
        path.write_text(page.text)
    return pages


def crate_pages():
    """The pages of the crates by their paths. Crates of tests have none (docs/proof/TESTS.md)."""
    names = [name for name in crate_names() if not name.startswith("test_")]
    pages = {PROOF / f"{name}.md": proved.Page(name, PROOF) for name in names}
    return {path: page for path, page in pages.items() if not page.is_empty}


def is_written(path):
    """Whether a page is written from the sources."""
    text = path.read_text()
    return any(mark in text for mark in MARKS)


def page_of_purposes():
    """The text of the page of purposes."""
    sys.path.insert(1, str(TESTER))
    from geostation_tester.pages import page
    from geostation_tester.purposes import read_purpose

    return page([read_purpose(path) for path in sorted((TESTER / "suite").glob("*.toml"))])


def stale(pages):
    """The kept pages that are not what the sources say."""
    kept = {path for path in PROOF.glob("*.md") if is_written(path)}
    fresh = {path for path, page in pages.items() if path in kept and path.read_text() == page.text}
    if not PURPOSES.exists() or PURPOSES.read_text() != page_of_purposes():
        kept.add(PURPOSES)
    return sorted(str(path.relative_to(TOP)) for path in {*kept, *pages} - fresh)


def write_crate_pages(pages):
    """Writes the pages of the crates and of the purposes. Removes those of crates that are gone."""
    PURPOSES.write_text(page_of_purposes())
    for path in PROOF.glob("*.md"):
        if is_written(path) and path not in pages:
            path.unlink()
    for path, page in pages.items():
        path.write_text(page.text)
