"""Compares the kit that README and BY_CRATE name with the one that is installed.

What is proved depends on the logic of the kit's prover, whose sum `rt version` prints as `logic SUM`.
Kits of several names may have the same logic, so only the sum is compared.
"""

import re
import shutil
import subprocess

from program import TOP

PAGES = ("README.md", "docs/proof/BY_CRATE.md")
SUM = re.compile(r"\blogic ([0-9a-f]{16})\b")
KIT = re.compile(r"\brattle-kit-\w+")


def installed():
    """The line of `rt version`, or None if there is no kit."""
    if shutil.which("rt") is None:
        return None
    asked = subprocess.run(["rt", "version"], stdout=subprocess.PIPE, text=True, check=True)
    return asked.stdout.strip()


def compare(texts, version):
    """What is wrong with the texts of pages, by name, if `rt version` prints this line, or None."""
    wrong = []
    found = {page: (set(SUM.findall(text)), set(KIT.findall(text))) for page, text in texts.items()}
    for page, (sums, kits) in found.items():
        if len(sums) != 1 or not kits:
            wrong.append(f"{page}: has to name one `logic SUM`, and the kits that have it")
        elif (sums, kits) != found[min(found)]:
            wrong.append(f"{page}: names another logic or other kits than {min(found)}")
        elif version is not None and sums != set(SUM.findall(version)):
            wrong.append(f"{page}: names logic {min(sums)}, and rt version prints {version}")
    return wrong


def check():
    """What is wrong with the pages, and what was compared."""
    version = installed()
    texts = {page: (TOP / page).read_text() for page in PAGES}
    wrong = compare(texts, version)
    return wrong, version or "rt isn't installed, so no kit was compared"
