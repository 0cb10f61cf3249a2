"""The documentation site that docs/build makes: what it has to have.

Each function of geostation.h, each method of Station in C++, and each public name of the Python
package is in the references. Each link between its pages leads somewhere.
"""

import re
import subprocess
from pathlib import Path

from need import need_tool, skip
from program import TOP

# Modules of the Python that runs sphinx, and their packages.
MODULES = {"myst_parser": "python3-myst-parser", "breathe": "python3-breathe"}
# Fewer names in the references than these show that this file reads no source.
LEAST = 60


def need_builders():
    sphinx = Path(need_tool("sphinx-build", "python3-sphinx"))
    need_tool("doxygen")
    python = sphinx.read_text().partition("\n")[0].removeprefix("#!").split()[0]
    for module, package in MODULES.items():
        asked = subprocess.run([python, "-c", f"import {module}"], capture_output=True)
        if asked.returncode != 0:
            skip(f"{module} isn't installed: apt-get install {package}")


def public_names():
    """The names that each page of references has to have."""
    header = (TOP / "c/geostation.h").read_text()
    class_text = (TOP / "c/geostation.hpp").read_text()
    package = TOP / "python/geostation"
    sources = "\n".join(path.read_text() for path in package.glob("*.py"))
    old = set(re.findall(r"^(\w+) = \w+ +# deprecated", sources, re.MULTILINE))
    init = (package / "__init__.py").read_text()
    return {
        "c.html": re.findall(r"^[a-z].*[ *](geostation_\w+)\(", header, re.MULTILINE),
        "cpp.html": re.findall(r"^    (?!return| )[\w:<> ]+ (\w+)\(", class_text, re.MULTILINE),
        "python.html": sorted(set(re.findall(r'^    "(\w+)",$', init, re.MULTILINE)) - old),
    }


def look_for_names(html):
    """What the references lack, and how many names they have to have."""
    wrong, count = [], 0
    for page, names in public_names().items():
        text = re.sub(r"<[^>]*>", "", (html / "site" / page).read_text())
        wrong += [f"{page}: no {name}" for name in names if not re.search(rf"\b{name}\b", text)]
        count += len(names)
    if count < LEAST:
        wrong.append(f"only {count} names in the references")
    return wrong, count


def follow_links(html):
    """Links between the pages that lead nowhere, and how many pages and links there are. The pages
    of rustdoc are its own."""
    pages = [page for page in html.rglob("*.html") if "rust" not in page.relative_to(html).parts]
    texts = {page: page.read_text() for page in pages}
    anchors = {page: set(re.findall(r'\bid="([^"]*)"', text)) for page, text in texts.items()}
    wrong, links = [], 0
    for page, text in texts.items():
        for link in re.findall(r'href="([^":]*)"', text):
            path, _, anchor = link.partition("#")
            target = (page.parent / path).resolve() if path else page
            links += 1
            is_lost = anchor and target in anchors and anchor not in anchors[target]
            if not target.exists() or is_lost:
                wrong.append(f"{page.relative_to(html)}: no {link}")
    return wrong, len(pages), links


def check_site(folder):
    """Builds the site in a folder. Returns what is wrong with it, and what it has."""
    built = subprocess.run([TOP / "docs/build", folder], capture_output=True, text=True)
    if built.returncode != 0:
        return [built.stdout + built.stderr, "docs/build failed"], ""
    html = folder / "html"
    lacking, names = look_for_names(html)
    lost, pages, links = follow_links(html)
    return lacking + lost, f"{pages} pages, {names} names in the references, {links} links"
