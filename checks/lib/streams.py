"""Runs of the program where reads fail or come in pieces, where files are full, and in little
memory, for checks/failures.

A command ends with status 3 at the read that fails, whichever it is, and printed what the octets
before it gave. Lines are the same in pieces of any size, also if every second read is interrupted.
If a file has room for N octets, it holds the first N of the whole, and the status is 3. A million
damaged records, a hundred thousand lines and lines of a mebibyte take little memory. From a pipe,
`show`, `check` and `replay` print the line of a record before they get the next one.
"""

import errno
import os
import select
import struct
import subprocess
from dataclasses import dataclass

from failing import DATA, NO_MEMORY, Left, Run, make
from file_rows import (
    HIGH_BLOCKS,
    HIGH_PCAP,
    LOW_BLOCKS,
    NAMED,
    PCAP_HEADER,
    PLAIN,
    SECTION,
    packet,
    record,
)
from program import PROGRAM

# The stations of this address stand at (0, 0).
FIRST = "1400020000000001 0 0"


def frames_file(moment, frames):
    """A pcapng file of `--frames`, of one station, which gave these frames."""
    return SECTION + NAMED + b"".join(packet(moment, frame) for frame in frames)


def single_hop(payload):
    """The frame of a single-hop broadcast of the first station, for port 1, which never moved."""
    size = struct.pack(">H", 4 + len(payload))
    return b"".join(
        [
            bytes.fromhex("ffffffffffff020000000001894711001a0120500080"),
            size + bytes.fromhex("01001400020000000001") + bytes(20),
            bytes.fromhex("00010000") + payload,
        ]
    )


def sending(payloads):
    """A scenario whose one station sends these at moment 1000."""
    keys = 'station = 0, at = 1000, do = "shb", port = 1, info = 0, tc = 0'
    events = "".join(f'  {{{keys}, payload = "{payload.hex()}"}},\n' for payload in payloads)
    station = 'station = [{address = "1400020000000001", lat = 0, lon = 0}]'
    return f"{station}\nevent = [\n{events}]\n"


BEACON = (DATA / "beacon.cap").read_bytes()
BEACON_LINE = (DATA / "beacon.show").read_text()
# A record whose frame is of one octet, which is no frame, and one of no octet, which is no record.
DAMAGED = record(5, b"\0")
BAD = BEACON + DAMAGED + record(5, b"")

LINES = "7 00ff\n8 aabbcc\n"
IMPORTED = record(7, b"\x00\xff") + record(8, b"\xaa\xbb\xcc")

# What a station is told, and what it answers: a line that opens a port, one that closes it, one
# that can't be read, and a beacon of another station.
OPEN = '{"at":0,"do":"open","port":2002}\n'
OPENED = '{"at":0,"result":"opened"}\n'
CLOSE = '{"at":0,"do":"close","port":2002}\n'
CLOSED = '{"at":0,"result":"closed"}\n'
UNREAD = '{"line":2,"error":"not JSON"}\n'
HEARD = """\
{"at":1,"do":"receive","frame":"ffffffffffff020000000002894711001a0100100080000001001400\
02000000000200000000000000000000000000000000"}
"""
ACCEPTED = '{"at":1,"result":"accepted","source":"1400020000000002"}\n'

# What one frame carries; and what so many do that the buffer before their file, of 32768 octets, is
# written out before the last.
ONE = [b"\xaa\xff"]
MANY = [bytes(1000)] * 40

FILES = {
    "bad.cap": BAD,
    "xyz.cap": record(5, b"xyz"),
    "high.pcap": HIGH_PCAP,
    "low.pcapng": LOW_BLOCKS,
    "high.pcapng": HIGH_BLOCKS,
    "lines.txt": LINES.encode(),
    "one.toml": sending(ONE).encode(),
    "many.toml": sending(MANY).encode(),
}

SHOWN = Run("show data/beacon.cap", BEACON_LINE)
CHECKED = Run("check data/beacon.cap", "1 records, 0 refused\n")
MADE = Run("import lines.txt made.cap", "", makes="made.cap", content=IMPORTED)
RUN = Run("sim data/warning.toml", DATA / "warning.out")
SERVED = Run(f"station {FIRST}", OPENED + UNREAD, 1, typed=OPEN + "x\n")


def whole(run):
    """What a run leaves where nothing fails."""
    return Left(run.status, run.printed(), made=run.content)


@dataclass(frozen=True)
class Try:
    """A run, what it has to leave, and the variables for failing.c."""

    run: Run
    wanted: Left
    failing: dict[str, str]


@dataclass(frozen=True)
class Input:
    """A run, the file that it reads, `-` where that is standard input, how many octets that has,
    and what is printed once so many of them were read."""

    run: Run
    file: str
    size: int
    marks: tuple[tuple[int, str], ...] = ()

    def printed(self, count):
        """What is printed once so many octets were read."""
        texts = [text for size, text in self.marks if size <= count]
        return texts[-1].encode() if texts else b""


def shown(name, octets, line):
    """A file of one record, whose line is printed once all of it was read."""
    return Input(Run(f"show {name}", line, 1), name, len(octets), ((len(octets), line),))


INPUTS = [
    Input(SHOWN, "data/beacon.cap", len(BEACON), ((len(BEACON), BEACON_LINE),)),
    shown("high.pcap", HIGH_PCAP, "2007 refused P4\n"),
    shown("low.pcapng", LOW_BLOCKS, "1 refused L1\n"),
    shown("high.pcapng", HIGH_BLOCKS, "0 refused P4\n"),
    Input(CHECKED, "data/beacon.cap", len(BEACON)),
    Input(MADE, "lines.txt", len(LINES)),
    Input(RUN, "data/warning.toml", (DATA / "warning.toml").stat().st_size),
    Input(
        SERVED,
        "-",
        len(SERVED.typed),
        ((len(OPEN), OPENED), (len(SERVED.typed), OPENED + UNREAD)),
    ),
]


def tries_of_reads():
    """Each read gives one octet, and one of them fails: any of a short input, of a longer one the
    first, the middle one and the last, which tells the end."""
    for given in INPUTS:
        failing = {"FAILING_PIECE": "1"}
        if given.file != "-":
            failing["FAILING_INPUT"] = given.file
        said = f"geostation: cannot read {given.file}\n".encode()
        last = given.size + 1
        for nth in range(1, last + 1) if last < 120 else (1, last // 2, last):
            wanted = Left(3, given.printed(nth - 1), said)
            yield Try(given.run, wanted, {**failing, "FAILING_READ": str(nth)})
        yield Try(given.run, whole(given.run), {**failing, "FAILING_READ": str(last + 1)})


def tries_of_causes():
    """A read for which there is no memory is told apart."""
    failing = {"FAILING_PIECE": "1", "FAILING_READ": "5", "FAILING_CAUSE": str(errno.ENOMEM)}
    yield Try(SERVED, Left(3, b"", NO_MEMORY), failing)
    yield Try(MADE, Left(3, b"", NO_MEMORY), {**failing, "FAILING_INPUT": "lines.txt"})


# The digits of the longest frame; and so many that a line has a mebibyte and more.
DIGITS = 2 * 1468
MEBIBYTE = 1 << 20

# Lines for `import`, and what they leave.
TEXTS = [
    (
        f"7 00\n18446744073709551615 {'0' * DIGITS}\n\n8 01",
        Left(0, made=record(7, b"\0") + record(2**64 - 1, bytes(1468)) + record(8, b"\1")),
    ),
    (f"7 {'0' * 3 * DIGITS}\n", Left(1, err=b"geostation: line 1: length\n")),
    (f"7 {'0' * (3 * DIGITS + 1)}\n", Left(1, err=b"geostation: line 1: hex\n")),
]
# A piece ends at the end of a line, or where no more of a line is kept, or nearby.
PIECES = [1, 2, 4, 5, 6, 2957, 2962, 2963, 2964, 2965, 2968, 9000]


def tries_of_pieces():
    """Each read gives a piece, and every second one is interrupted."""
    for text, wanted in TEXTS:
        run = Run("import - made.cap", makes="made.cap", typed=text)
        for size in PIECES:
            yield Try(run, wanted, {"FAILING_PIECE": str(size), "FAILING_HALT": "1"})
    yield Try(SERVED, whole(SERVED), {"FAILING_PIECE": "1", "FAILING_HALT": "1"})


ANSWERS = [OPENED, UNREAD, ACCEPTED]
ANSWERED = Run(
    f"station {FIRST} --capacity 1 --remember 1",
    "".join(ANSWERS),
    1,
    typed=OPEN + "x\n" + HEARD,
)


def converted(name, content):
    """A run that makes this file of one record."""
    return Run(f"convert xyz.cap {name}", "", makes=name, content=content)


# Runs of which what they print, or the file that they make, has room for a part alone.
WRITTEN = [
    converted("made.cap", record(5, b"xyz")),
    converted("made.pcap", PCAP_HEADER + struct.pack("<IIII", 0, 5000, 3, 3) + b"xyz"),
    converted("made.pcapng", SECTION + PLAIN + packet(5, b"xyz")),
    Run("show bad.cap", f"{BEACON_LINE}5 refused L1\ncapture: C2 at record 2\n", 1),
    Run("check bad.cap", "record 1: L1\ncapture: C2 at record 2\n2 records, 1 refused\n", 1),
    MADE,
    Run("import lines.txt -", IMPORTED),
    RUN,
    Run("sim --json data/warning.toml", DATA / "warning.json"),
    Run(
        "sim --frames made.pcapng one.toml",
        "0 1000 0 sent 0\n",
        makes="made.pcapng",
        content=frames_file(1000, map(single_hop, ONE)),
    ),
    ANSWERED,
]

# A run that writes a part of its file of frames before its last event.
AMID = Run(
    "sim --frames made.pcapng many.toml",
    "".join(f"{number} 1000 0 sent {number}\n" for number in range(len(MANY))),
    makes="made.pcapng",
    content=frames_file(1000, map(single_hop, MANY)),
)


def cut(run, room):
    """What a run leaves whose files have so much room, which is too little. A file that it makes is
    named; of standard output nothing is said."""
    left = whole(run)
    if left.made is None:
        return Left(3, left.out[:room])
    said = f"geostation: cannot write {run.makes}\n"
    return Left(3, left.out[:room], said.encode(), left.made[:room])


def tries_of_rooms():
    """Files with room for each number of octets, up to the whole."""
    for run in WRITTEN:
        size = len(run.content or run.printed())
        for room in range(size):
            yield Try(run, cut(run, room), {"FAILING_ROOM": str(room)})
        yield Try(run, whole(run), {"FAILING_ROOM": str(size)})


def tries_of_answers():
    """Each answer is written by itself, and the station ends at the write that fails."""
    for nth in range(1, len(ANSWERS) + 1):
        wanted = Left(3, "".join(ANSWERS[: nth - 1]).encode())
        yield Try(ANSWERED, wanted, {"FAILING_WRITE": str(nth)})
    yield Try(ANSWERED, whole(ANSWERED), {"FAILING_WRITE": str(len(ANSWERS) + 1)})


def try_amid(bench, run, room):
    """What is wrong with a run in which the file of frames is full long before its end: it ends
    there, and has the lines of the first events."""
    left = bench.run(run, FAILING_ROOM=str(room)).left
    lines = whole(run).out.splitlines(keepends=True)
    first = [b"".join(lines[:count]) for count in range(1, len(lines))]
    wanted = cut(run, room)
    if left.out in first and left == Left(3, left.out, wanted.err, wanted.made):
        return None
    return f"{run.words}: a file of {room} octets: left {left!r:.400}"


# The most octets that a run over much may allocate at once: buffers, arguments and the longest record
# or line have some 225,000 of them.
LITTLE = 230_000
RECORDS = 1_000_000
PAIRS = 50_000


def runs_over_much():
    """Runs over many records, many lines or lines that are long; what each has to leave; and how
    often it writes, where each answer has to come by itself."""
    damaged = DAMAGED.decode() * RECORDS
    shown = Run("show /dev/stdin", "5 refused L1\n" * RECORDS, 1, typed=damaged)
    yield shown, whole(shown), None
    lines = "".join(f"record {number}: L1\n" for number in range(RECORDS))
    count = f"{RECORDS} records, {RECORDS} refused\n"
    checked = Run("check /dev/stdin", lines + count, 1, typed=damaged)
    yield checked, whole(checked), None
    small = f"station {FIRST} --capacity 1 --remember 1"
    served = Run(small, (OPENED + CLOSED) * PAIRS, typed=(OPEN + CLOSE) * PAIRS)
    yield served, whole(served), 2 * PAIRS
    for line, fault in ((f"7 {'0' * MEBIBYTE}", "length"), ("0" * MEBIBYTE, "moment")):
        run = Run("import - made.cap", makes="made.cap", typed=line)
        yield run, Left(1, err=f"geostation: line 1: {fault}\n".encode()), None


def try_run(bench, run, wanted, failing):
    """What is wrong with a run, with these variables for failing.c, that has to leave this."""
    left = bench.run(run, **failing).left
    if left == wanted:
        return None
    under = " ".join(f"{name}={value}" for name, value in failing.items())
    return f"{run.words}: {under}:\n  left {left!r:.400}\n  not  {wanted!r:.400}"


def try_little(bench, run, wanted, writes):
    """What is wrong with a run in little memory."""
    ended = bench.run(run)
    if ended.left != wanted:
        return f"{run.words}: over much: left {ended.left!r:.400}"
    if ended.most > LITTLE:
        return f"{run.words}: allocates {ended.most} octets at once, and not {LITTLE} at most"
    if writes not in (None, ended.writes):
        return f"{run.words}: writes {ended.writes} times, and not {writes}"
    return None


# After so many seconds without its line, a record is taken to be kept back: no measure of speed.
LONGEST = 120
# What a record makes is a line, of any length.
LINE = -1


def tries_of_turns():
    """Commands that read records as they come, each with the head of a file, its records, and how
    many octets each of them makes."""
    captured = [record(moment, b"\0") for moment in (5, 6, 7)]
    packets = [packet(moment, b"\0") for moment in (5, 6, 7)]
    for words in ("show -", "show --json -", "check -", f"replay - {FIRST}"):
        yield Run(words), b"", captured, [LINE] * 3
        yield Run(words), SECTION + PLAIN, packets, [LINE] * 3
    # A record of a capture has 10 octets before its frame. A pcap file has 24, and a record of it 16.
    yield Run("convert - - --to capture"), b"", captured, [11, 11, 11]
    yield Run("convert - - --to pcap"), b"", captured, [24 + 17, 17, 17]


def try_turns(_bench, run, head, records, sizes):
    """What is wrong with a command that has to write what a record makes, of this size, before it
    gets the next one."""
    pipe = subprocess.PIPE
    command = [PROGRAM, *run.words.split()]
    with subprocess.Popen(command, stdin=pipe, stdout=pipe, stderr=pipe) as ran:
        ran.stdin.write(head)
        for number, (one, size) in enumerate(zip(records, sizes)):
            ran.stdin.write(one)
            ran.stdin.flush()
            wrong = await_octets(ran, size)
            if wrong:
                ran.kill()
                return f"{run.words}: {wrong} record {number}"
        ran.stdin.close()
    return None


def await_octets(ran, size):
    """Reads as many octets as are wanted, or a line. Returns what is wrong if they don't come."""
    octets = b""
    while not (octets.endswith(b"\n") if size == LINE else len(octets) == size):
        if not select.select([ran.stdout], [], [], LONGEST)[0]:
            return "waits for more input before it writes"
        more = os.read(ran.stdout.fileno(), 65536 if size == LINE else size - len(octets))
        if not more:
            return "ends before it writes"
        octets += more
    return ""


TRIES = [tries_of_reads, tries_of_causes, tries_of_pieces, tries_of_rooms, tries_of_answers]


def check(bench):
    """Makes all runs: what is wrong with each, how many were made, and what was seen."""
    tries = [(try_little, bench, *one) for one in runs_over_much()]
    for some in TRIES:
        tries += [(try_run, bench, one.run, one.wanted, one.failing) for one in some()]
    tries += [(try_turns, bench, *one) for one in tries_of_turns()]
    tries.append((try_amid, bench, AMID, 1000))
    saw = f"{len(tries)} runs with reads that fail, files that are full, or little memory"
    return make(tries), len(tries), saw
