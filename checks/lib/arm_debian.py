"""A bare Debian for arm64, and programs that run in it by qemu's user mode.

    python3 checks/lib/arm_debian.py ROOT COMMAND..    runs a command in that Debian

debootstrap makes it once, as root, in ~/.cache/geostation/debian-arm64 or the folder that
GEOSTATION_DEBIAN_ARM64 names. Its packages are unpacked and not configured. What runs in it is in a
user namespace of its own. There binfmt_misc starts qemu for each program for aarch64, also for
those that dpkg starts. That needs Linux 6.7. The machine itself keeps its settings.
"""

import os
import shutil
import subprocess
import sys
import time
from pathlib import Path

DEBIAN = Path(
    os.environ.get("GEOSTATION_DEBIAN_ARM64") or Path.home() / ".cache/geostation/debian-arm64"
)
QEMU = "qemu-aarch64-static"
# The first bytes of a program for aarch64, and which bits of them count.
MAGIC = rb"\x7fELF\x02\x01\x01" + rb"\x00" * 9 + rb"\x02\x00\xb7\x00"
MASK = rb"\xff" * 7 + rb"\x00" + rb"\xff" * 8 + rb"\xfe" + rb"\xff" * 3
# It waits until its ids are mapped. Then it is root of the namespace.
WAIT = 'until [ "$(id -u)" = 0 ]; do sleep 0.05; done; exec sh -c "$@"'
REGISTER = """set -e
mount -t tmpfs none /mnt
mkdir /mnt/binfmt
mount -t binfmt_misc none /mnt/binfmt
printf '%s' "$1" > /mnt/binfmt/register
shift
exec "$@"
"""


def start(words, **more):
    """Starts a command in a namespace where programs for aarch64 run."""
    rule = b":aarch64:M::" + MAGIC + b":" + MASK + b":" + shutil.which(QEMU).encode() + b":F"
    own = os.readlink("/proc/self/ns/user")
    child = subprocess.Popen(
        ["unshare", "--user", "--mount", "sh", "-c", WAIT, "sh", REGISTER, "sh", rule, *words],
        **more,
    )
    while child.poll() is None and os.readlink(f"/proc/{child.pid}/ns/user") == own:
        time.sleep(0.01)
    for kind in ("gid", "uid"):
        Path(f"/proc/{child.pid}/{kind}_map").write_text("0 0 65536\n")
    return child


def run_inside(root, *words):
    """Runs a command in that Debian, and returns its status."""
    path = "PATH=/usr/sbin:/usr/bin:/sbin:/bin"
    kept = ("LC_ALL=C.UTF-8", "HOME=/root", "DEBIAN_FRONTEND=noninteractive", path)
    command = ["chroot", str(root), "/usr/bin/env", "-i", *kept, *map(str, words)]
    return start(command).wait()


def unpack(root):
    """Unpacks the packages that debootstrap fetched, and lists them as installed. Its second stage
    would also configure each of them, which is slow under qemu."""
    status = []
    for path in sorted(root.glob("var/cache/apt/archives/*.deb")):
        subprocess.run(["dpkg-deb", "--extract", path, root], check=True)
        control = subprocess.run(
            ["dpkg-deb", "--field", path], check=True, capture_output=True, text=True
        ).stdout
        first, rest = control.split("\n", 1)
        status.append(f"{first}\nStatus: install ok installed\n{rest.rstrip()}\n")
        name = first.removeprefix("Package: ")
        if "\nMulti-Arch: same" in control:
            name += ":arm64"
        (root / f"var/lib/dpkg/info/{name}.list").touch()
        path.unlink()
    (root / "var/lib/dpkg/status").write_text("\n".join(status))
    for name in ("passwd", "group"):
        shutil.copy(root / f"usr/share/base-passwd/{name}.master", root / f"etc/{name}")
    # The lock of these two, which a configured Debian has.
    (root / "etc/.pwd.lock").touch()
    shutil.rmtree(root / "debootstrap")


def make():
    """Makes the Debian if it is missing. Returns the reason if that fails, otherwise None."""
    for tool in (QEMU, "unshare", "debootstrap"):
        if not shutil.which(tool):
            return f"{tool} isn't installed"
    if os.geteuid() != 0:
        return "it needs root"
    tried = start(["true"], stderr=subprocess.PIPE)
    _, text = tried.communicate()
    if tried.returncode != 0:
        return f"no binfmt_misc in a user namespace: {text.decode().strip()}"
    if DEBIAN.is_dir():
        return None
    made = Path(f"{DEBIAN}.{os.getpid()}")
    made.parent.mkdir(parents=True, exist_ok=True)
    options = ("--arch=arm64", "--foreign", "--variant=minbase", "--include=python3")
    first = subprocess.run(
        ["timeout", "3000", "debootstrap", *options, "stable", str(made)], capture_output=True
    )
    if first.returncode == 0:
        unpack(made)
        made.rename(DEBIAN)
        return None
    subprocess.run(["rm", "-rf", "--one-file-system", str(made)], capture_output=True)
    return "debootstrap failed"


if __name__ == "__main__":
    sys.exit(run_inside(sys.argv[1], *sys.argv[2:]))
