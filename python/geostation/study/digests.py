"""Hashes of files and of the inputs of a run."""

from __future__ import annotations

import hashlib
import json
import os
from functools import lru_cache
from pathlib import Path
from typing import Any

from .errors import cannot

# Number of hexadecimal digits of a hash in the name of a folder or file.
NAME_LENGTH = 16


@lru_cache(maxsize=256)
def _digest(path: str, device: int, inode: int, size: int, changed: int) -> str:
    found = hashlib.sha256()
    with open(path, "rb") as file:
        while octets := file.read(1 << 20):
            found.update(octets)
    return found.hexdigest()


def digest(path: Path) -> str:
    """Returns the SHA-256 of a file. An unchanged file is read once per process.

    Raises `StudyError` with status 3 if the file can't be read.
    """
    try:
        seen = os.stat(path)
        return _digest(str(path), seen.st_dev, seen.st_ino, seen.st_size, seen.st_mtime_ns)
    except OSError as error:
        raise cannot("read", path, error) from None


def digest_of(value: Any) -> str:
    """Returns the SHA-256 of a JSON value. The order of keys does not count."""
    text = json.dumps(value, sort_keys=True, separators=(",", ":"))
    return hashlib.sha256(text.encode()).hexdigest()


def short(name: str) -> str:
    """Returns the beginning of a hash that names a folder or file."""
    return name[:NAME_LENGTH]
