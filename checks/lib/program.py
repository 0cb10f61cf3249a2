"""The program that the checks run: the one that was built, or the one that GEOSTATION names. The
crates of the repository.
"""

import os
from pathlib import Path

TOP = Path(__file__).resolve().parents[2]
BUILT = TOP / "crates/geostation/out/geostation"
PROGRAM = Path(os.environ.get("GEOSTATION") or BUILT).absolute()


def crate_names():
    """The crates of the repository, in the order of crates.txt."""
    lines = (line.split("#")[0].partition(":")[0].split() for line in (TOP / "crates.txt").open())
    return [words[0] for words in lines if words]
