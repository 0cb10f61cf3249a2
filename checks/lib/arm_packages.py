"""The packages for arm64 in a bare Debian, and the package for Python:

    python3 checks/lib/arm_packages.py PREFIX

PREFIX is where c/build, c/link/build and c/program/build put the files for aarch64. Prints what was
tried, or why it was skipped.
"""

import importlib.machinery
import importlib.util
import os
import re
import shutil
import sys
import tempfile
from pathlib import Path

LIB = Path(__file__).resolve().parent
TOP = LIB.parents[1]
sys.path.insert(0, str(LIB))
sys.path.insert(0, str(TOP / "python"))
sys.dont_write_bytecode = True

import arm_debian  # noqa: E402
import backend  # noqa: E402

TARGET = "aarch64-linux-gnu"


def load_install():
    """checks/install as a module."""
    loader = importlib.machinery.SourceFileLoader("install", str(TOP / "checks/install"))
    spec = importlib.util.spec_from_loader("install", loader)
    module = importlib.util.module_from_spec(spec)
    loader.exec_module(module)
    return module


install = load_install()
SHARED = "libgeostation.so." + install.LIBRARY.removeprefix("libgeostation")


def make_packages(prefix, room, notes):
    """The paths of the packages, which are the same twice and without an error by lintian."""
    environment = {**os.environ, "GEOSTATION_PREFIX": str(prefix)}
    made = []
    for number in range(2):
        folder = room / f"deb{number}"
        printed = install.run(TOP / "install/deb", "--target", TARGET, folder, env=environment)
        paths = [Path(line) for line in printed.splitlines()]
        made.append([path.read_bytes() for path in paths])
    if made[0] != made[1]:
        install.fail("install/deb makes other bytes the second time")
    if not all(path.name.endswith("_arm64.deb") for path in paths) or len(paths) < 3:
        install.fail(f"install/deb makes {paths}")
    install.check_lint(paths, notes)
    return paths


def check_dist(prefix, room):
    """The tarball has the library and the programs that were built, and is the same twice."""
    environment = {**os.environ, "GEOSTATION_PREFIX": str(prefix)}
    made = []
    for number in range(2):
        words = ("--dist", "--target", TARGET, room / f"dist{number}")
        path = Path(install.run(install.WRAPPER, *words, env=environment).strip())
        made.append(path.read_bytes())
    if made[0] != made[1]:
        install.fail("--dist --target makes other bytes the second time")
    if not path.name.endswith("-aarch64-linux.tar.xz"):
        install.fail(f"--dist --target makes {path.name}")
    names = install.run("tar", "-tf", path).splitlines()
    programs = {Path(name).name for name in names if Path(name).parent.name == "bin"}
    if programs != {file.name for file in prefix.glob("bin/*")}:
        install.fail(f"the programs of the tarball: {programs}")
    if not any(name.endswith(f"/lib/{SHARED}") for name in names):
        install.fail("the tarball has no library")


def check_wheel(prefix, room):
    """A wheel with the library in it has the processor in its name. Without it, it has none."""
    copy = room / "python"
    shutil.copytree(TOP / "python", copy)
    shutil.copy(prefix / "lib" / SHARED, copy / "geostation")
    backend.HERE = copy
    name = backend.build_wheel(str(room))
    if not name.endswith("-py3-none-linux_aarch64.whl"):
        install.fail(f"the wheel for aarch64 is {name}")
    (copy / "geostation" / SHARED).unlink()
    name_of_any = backend.build_wheel(str(room))
    if not name_of_any.endswith("-py3-none-any.whl"):
        install.fail(f"the wheel without a library is {name_of_any}")


# The tests of the package for Python that call the library. The others are slow under qemu, and
# what they test has no part for a processor.
PYTHON_TESTS = ("tests.test_alike", "tests.test_layers", "tests.test_samples", "tests.test_station")


def test_python(prefix, root, inside, notes):
    """These tests run in this Debian, with the library in the package."""
    room = root / "tmp/python"
    shutil.copytree(TOP / "python", room)
    shutil.copy(prefix / "lib" / SHARED, room / "geostation")
    shutil.copytree(TOP / "cases/data", root / "tmp/data")
    words = ["env", "PYTHONDONTWRITEBYTECODE=1", "GEOSTATION_SAMPLES=/tmp/data"]
    if (prefix / "bin/geostation").exists():
        shutil.copy(prefix / "bin/geostation", root / "tmp/geostation")
        words.append("GEOSTATION_PROGRAM=/tmp/geostation")
    tests = " ".join(PYTHON_TESTS)
    words += ["sh", "-c", f"cd /tmp/python && exec python3 -m unittest {tests} 2>&1"]
    said = install.run(*inside, *words)
    ran = re.search(r"^Ran (\d+) tests", said, re.M)
    skipped = re.search(r"^OK(?: \(skipped=(\d+)\))?$", said, re.M)
    if not ran or not skipped or int(ran[1]) < 14:
        install.fail(f"the tests of the package for Python:\n{said}")
    count = int(skipped[1] or 0)
    notes.append(f"the tests for Python: {int(ran[1]) - count} passed, {count} skipped")


def main():
    prefix, notes = Path(sys.argv[1]).resolve(), []
    why = arm_debian.make()
    for tool in ("dpkg-deb", f"{TARGET}-strip"):
        why = why or (None if shutil.which(tool) else f"{tool} isn't installed")
    if why:
        print(f"no packages for arm64 installed: {why}")
        return
    with tempfile.TemporaryDirectory(prefix="arm.") as name:
        room = Path(name).resolve()
        paths = make_packages(prefix, room, notes)
        check_dist(prefix, room)
        check_wheel(prefix, room)
        with install.copy_of_debian(arm_debian.DEBIAN, room) as root:
            inside = (sys.executable, LIB / "arm_debian.py", root)
            install.use_packages(root, paths, inside)
            notes.append(f"{len(paths)} packages installed, used, upgraded and purged")
            test_python(prefix, root, inside, notes)
    print("in a bare Debian for arm64: " + ", ".join(notes))


if __name__ == "__main__":
    main()
