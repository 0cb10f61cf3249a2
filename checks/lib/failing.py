"""Runs of the program with failing.c between it and the C library, for checks/failures."""

import os
import struct
import subprocess
import tempfile
import threading
from concurrent.futures import ThreadPoolExecutor
from dataclasses import dataclass
from pathlib import Path

from need import need_compiler, need_program
from program import PROGRAM, TOP

DATA = TOP / "cases/data"
# A run that takes longer than this, in seconds, hangs.
LONGEST = 120
NO_MEMORY = b"geostation: out of memory\n"
# The numbers that failing.c keeps: of allocations, of writes to standard output, and of the octets
# that were allocated at most.
TALLY = struct.Struct("=QQQ")


@dataclass(frozen=True)
class Run:
    """A run of the program: its arguments; what it prints where nothing fails, as a text, as octets
    or as a sample's name, where the check knows it; its status then; the file that it makes; what
    it reads on standard input; and what is in that file, where the check knows it."""

    words: str
    wanted: str | bytes | Path | None = None
    status: int = 0
    makes: str | None = None
    typed: str = ""
    content: bytes | None = None

    def command(self):
        return self.words.split()[0]

    def printed(self):
        """The octets that it prints where nothing fails, where they are known."""
        if isinstance(self.wanted, Path):
            return self.wanted.read_bytes()
        return self.wanted.encode() if isinstance(self.wanted, str) else self.wanted


@dataclass(frozen=True)
class Left:
    """What a run leaves: its status, what it printed and said, and the file that it made."""

    status: int
    out: bytes = b""
    err: bytes = b""
    made: bytes | None = None


@dataclass(frozen=True)
class Ended:
    """How a run ended: what it left, how many allocations and writes to standard output it asked
    for, and how many octets it had allocated at most."""

    left: Left
    allocations: int
    writes: int
    most: int


class Bench:
    """Runs the program in folders, one for each thread."""

    def __init__(self, room, shim, files):
        self.room = room
        self.shim = shim
        self.files = files
        self.own = threading.local()

    def folder(self):
        """This thread's folder, in which the files of runs lie."""
        if not hasattr(self.own, "folder"):
            self.own.folder = Path(tempfile.mkdtemp(dir=self.room))
            (self.own.folder / "data").symlink_to(DATA)
            for name, octets in self.files.items():
                (self.own.folder / name).parent.mkdir(exist_ok=True)
                (self.own.folder / name).write_bytes(octets)
            (self.own.folder / "tally").write_bytes(bytes(TALLY.size))
        return self.own.folder

    def run(self, run, out=None, **failing):
        """Makes a run, with these variables for failing.c. Standard output is a file, or what is
        given."""
        folder = self.folder()
        if run.makes:
            (folder / run.makes).unlink(missing_ok=True)
        with open(folder / "tally", "r+b") as tally:
            tally.write(bytes(TALLY.size))
        with open(folder / "printed", "w+b") as printed:
            done = subprocess.run(
                [PROGRAM, *run.words.split()],
                cwd=folder,
                env={"LD_PRELOAD": str(self.shim), "FAILING_TALLY": "tally", **failing},
                input=run.typed.encode(),
                stdout=printed if out is None else out,
                stderr=subprocess.PIPE,
                timeout=LONGEST,
                # A closed pipe and a full file make a write fail, and send no signal.
                restore_signals=False,
            )
            printed.seek(0)
            octets = printed.read()
        made = folder / run.makes if run.makes else None
        there = made.read_bytes() if made and made.exists() else None
        left = Left(done.returncode, octets, done.stderr, there)
        return Ended(left, *TALLY.unpack((folder / "tally").read_bytes()))


def map_all(call, items):
    """The results of a call, of as many items at once as there are processors."""
    with ThreadPoolExecutor(os.cpu_count()) as pool:
        return list(pool.map(call, items))


def make(tries):
    """Makes tries: what is wrong with each that is otherwise than it has to be. A try is a function
    and what it is called with: a bench, a run, and more."""

    def made(one):
        call, bench, run, *more = one
        try:
            return call(bench, run, *more)
        except subprocess.TimeoutExpired:
            return f"{run.words}: hangs"

    return [wrong for wrong in map_all(made, tries) if wrong]


def run_parts(parts):
    """Runs the parts of a check, and gives the status of its process. A part is the files of its
    runs, and a function that is called with a bench. It gives what is otherwise than it has to be,
    how much it tried, and what it saw if nothing is."""
    need_program()
    compiler = need_compiler()
    seen = []
    with tempfile.TemporaryDirectory(prefix="failing.") as room:
        shim = Path(room) / "failing.so"
        flags = ["-O2", "-Wall", "-Wextra", "-Werror", "-shared", "-fPIC"]
        source = Path(__file__).with_suffix(".c")
        subprocess.run([compiler, *flags, "-o", shim, source], check=True)
        for files, check in parts:
            faults, tries, saw = check(Bench(Path(room), shim, files))
            if faults:
                print("\n".join(faults[:20]))
                print(f"{len(faults)} of {tries} are otherwise")
                return 1
            seen.append(saw)
    print("; ".join(seen))
    return 0
