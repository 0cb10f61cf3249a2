"""Files and folders that are either complete or missing."""

from __future__ import annotations

import itertools
import os
import shutil
import socket
from pathlib import Path
from typing import Iterable

from .errors import cannot

_NUMBERS = itertools.count()


def scratch_path(path: Path) -> Path:
    """Returns a temporary name beside a path, which no other process uses."""
    return path.with_name(
        f".{path.name}-{socket.gethostname()}-{os.getpid()}-{next(_NUMBERS)}"
    )


def write(path: Path, parts: Iterable[bytes]) -> None:
    """Writes a file under a temporary name, and renames it once it is complete.

    Raises `StudyError` with status 3 if it can't be written. Exceptions of `parts` pass through.
    """
    scratch = scratch_path(path)
    try:
        path.parent.mkdir(parents=True, exist_ok=True)
        with open(scratch, "xb") as file:
            for octets in parts:
                file.write(octets)
        os.replace(scratch, path)
    except BaseException as error:
        scratch.unlink(missing_ok=True)
        if isinstance(error, OSError):
            raise cannot("write", path, error) from None
        raise


def _is_running(process: str) -> bool:
    """Returns whether a process of this machine runs. A zombie does not."""
    try:
        state = Path("/proc", process, "stat").read_text().rpartition(")")[2].split()[0]
    except (OSError, IndexError):
        return False
    return state not in ("Z", "X")


def remove_leftovers(folder: Path) -> None:
    """Removes temporary files of processes of this machine that have ended."""
    mark = f"-{socket.gethostname()}-"
    places = (folder, folder / "scenarios", folder / "moves")
    for path in (path for place in places for path in place.glob(f".*{mark}*")):
        process = path.name.rpartition(mark)[2].partition("-")[0]
        if not process.isdigit() or _is_running(process):
            continue
        if path.is_dir():
            shutil.rmtree(path, ignore_errors=True)
        else:
            path.unlink(missing_ok=True)
