"""Builds the package's wheel (PEP 517, PEP 660) with the standard library only, so that pip fetches
nothing. A wheel is a zip archive of the package's files and three files of metadata."""

from __future__ import annotations

import base64
import hashlib
import re
import struct
import zipfile
from pathlib import Path
from typing import Any, Dict, List, Optional, Tuple

HERE = Path(__file__).resolve().parent
PACKAGE = "geostation"
SUFFIXES = (".py", ".typed", ".so.5")
# The processors of the library, by the number in the header of an ELF file.
MACHINES = {62: "x86_64", 183: "aarch64"}


def _project(key: str) -> str:
    """Returns a string of the table [project] in pyproject.toml. It must be on one line."""
    found = re.search(rf'^{key} = "(.*)"$', (HERE / "pyproject.toml").read_text(), re.MULTILINE)
    assert found is not None, key
    return found.group(1)


def _metadata() -> str:
    return (
        "Metadata-Version: 2.1\n"
        f"Name: {PACKAGE}\n"
        f"Version: {_project('version')}\n"
        f"Summary: {_project('description')}\n"
        f"Requires-Python: {_project('requires-python')}\n"
    )


def _platform(files: Dict[str, bytes]) -> str:
    """Returns the tag of the platform: `any`, or that of the library if the files include one."""
    for path, octets in files.items():
        if path.endswith(".so.5"):
            assert octets[:6] == b"\x7fELF\x02\x01", f"{path} is not a library for 64-bit Linux"
            (machine,) = struct.unpack_from("<H", octets, 18)
            return f"linux_{MACHINES[machine]}"
    return "any"


def _write(folder: str, files: Dict[str, bytes]) -> str:
    """Writes a wheel of these files and the metadata, and returns its name."""
    begin = f"{PACKAGE}-{_project('version')}"
    platform = _platform(files)
    info, name = f"{begin}.dist-info", f"{begin}-py3-none-{platform}.whl"
    pure = "true" if platform == "any" else "false"
    files = dict(files)
    files[f"{info}/METADATA"] = _metadata().encode()
    files[f"{info}/WHEEL"] = (
        f"Wheel-Version: 1.0\nGenerator: backend\nRoot-Is-Purelib: {pure}\n"
        f"Tag: py3-none-{platform}\n"
    ).encode()
    record = f"{info}/RECORD"
    lines: List[str] = []
    for path, octets in files.items():
        digest = base64.urlsafe_b64encode(hashlib.sha256(octets).digest()).rstrip(b"=").decode()
        lines.append(f"{path},sha256={digest},{len(octets)}\n")
    files[record] = "".join([*lines, f"{record},,\n"]).encode()
    with zipfile.ZipFile(Path(folder) / name, "w", zipfile.ZIP_DEFLATED) as wheel:
        for path, octets in files.items():
            wheel.writestr(path, octets)
    return name


def build_wheel(
    wheel_directory: str,
    config_settings: Optional[Dict[str, Any]] = None,
    metadata_directory: Optional[str] = None,
) -> str:
    """Builds a wheel of the package and its subpackages.

    It includes a libgeostation.so.5 in the folder of the package. Then the wheel is for the
    processor of that library only."""
    paths = sorted((HERE / PACKAGE).rglob("*"))
    files: List[Tuple[str, bytes]] = [
        (path.relative_to(HERE).as_posix(), path.read_bytes())
        for path in paths
        if path.is_file() and path.name.endswith(SUFFIXES)
    ]
    return _write(wheel_directory, dict(files))


def build_editable(
    wheel_directory: str,
    config_settings: Optional[Dict[str, Any]] = None,
    metadata_directory: Optional[str] = None,
) -> str:
    """Builds a wheel that points to this folder (`pip install -e`)."""
    return _write(wheel_directory, {f"{PACKAGE}.pth": f"{HERE}\n".encode()})
