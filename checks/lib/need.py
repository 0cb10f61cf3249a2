"""What a check needs. Each function ends the check with 77 if it is missing, and prints what to
install or build. `need.sh` has the same for the shell.
"""

import os
import shutil
import sys

from program import PROGRAM


def skip(reason):
    """Ends the check, which can't run."""
    print(reason)
    sys.exit(77)


def need_tool(name, package=None):
    """Returns the path of a command."""
    path = shutil.which(name)
    return path or skip(f"{name} isn't installed: apt-get install {package or name}")


def need_kit():
    if shutil.which("rt") is None:
        skip("rt isn't installed: put the kit's bin on the path")


def need_library():
    """The library for C, or the kit, which builds it."""
    if not os.environ.get("GEOSTATION_PREFIX"):
        need_kit()


def need_program(path=PROGRAM):
    if not os.access(path, os.X_OK):
        skip("the program isn't built: './geostation --build' or 'rt ci' builds it")


def need_compiler():
    """Returns the path of a compiler for C: the one that CC names, otherwise gcc or clang."""
    return shutil.which(os.environ.get("CC") or "gcc") or shutil.which("clang") or need_tool("gcc")


def need_tomllib():
    """Python's reader of TOML."""
    if sys.version_info < (3, 11):
        skip("python3 is older than 3.11")
