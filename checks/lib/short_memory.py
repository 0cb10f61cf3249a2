"""Runs of the program where memory runs out, and where its output fails, for checks/failures.

failing.c counts allocations and writes, and has them fail. Each run is made with ample memory, and
then once for each of its allocations, so that this one fails with all later ones, and once so that
it fails alone. Then the program ends as with ample memory, or with status 3, `geostation: out of
memory` on standard error and, on standard output, nothing or the first of the lines that it prints
with ample memory. Of a file that it makes there is nothing then, or the beginning. An import makes
no file before all its lines are read. If standard output fails, at any of its writes or on a device
that is full, it ends with status 3 and says nothing. On a pipe that nobody reads it ends with 141,
as programs do that SIGPIPE ends.
"""

import os

from failing import DATA, NO_MEMORY, Run, make, map_all

# So many of the first allocations fail in turn, and behind them as many more, evenly spread.
FIRST = 200
# These print as they go, so the first of their lines may stand there where memory runs out.
STREAM = {
    "show", "check", "stats", "follow", "sim", "view", "mesh", "replay", "verdict", "station"
}  # fmt: skip
# These have all the memory that they need before they print the last line.
EARLY = {"show", "check"}

# A geobroadcast for a circle round (0, 0), the frame in which the station here passes it on, and a
# single-hop broadcast of its own.
GEOBROADCAST = (
    "ffffffffffff020000000001894711001a0a2040008000060a000000000014000200000000010000000000000000"
    "00000000000000000000000000000000006400000000000007d200006869"
)
RELAYED = (
    "ffffffffffff020000000002894711001a092040008000060a000000000014000200000000010000000000000000"
    "00000000000000000000000000000000006400000000000007d200006869"
)
SINGLE_HOP = (
    "ffffffffffff020000000002894711001a0120500080000601001400020000000002000000000000"
    "01c100000000000000000000000000010000aaff"
)

# The scenario and the moves of cases/moving.md.
TOWN = """\
moves = {gone = 1500, ports = [2002]}
air = {range = 500, loss = 50, seed = 7}
event = [
  {id = "v2", at = 1000, do = "gbc", port = 2002, info = 0, tc = 0, lt = 26, hops = 10,
   shape = "circle", alat = 36000, alon = 0, a = 500, b = 0, angle = 0, payload = "6869"},
]
"""
MOVES = "at,id,lat,lon\n0,v1,0,0\n1000,v2,36000,0\n1000,v1,1000,0\n"
MOVED = """\
0 0 0 move moved
1 0 0 open opened
2 1000 1 move moved
3 1000 1 open opened
4 1000 0 move moved
5 1000 1 gbc sent 0
6 1001 0 deliver 0 accepted port 2002 info 0 6869 sent 1
"""

# Two lines, and the capture that they make.
LINES = b"7 00ff\n8 aabbcc\n"
IMPORTED = bytes.fromhex("0000000000000007" "0002" "00ff" "0000000000000008" "0003" "aabbcc")

# The files of a run beside cases/data: that geobroadcast as a capture, the page of cases/view.md.
FILES = {
    "town.toml": TOWN.encode(),
    "moves.csv": MOVES.encode(),
    "empty": b"",
    "lines.txt": LINES,
    "hi.cap": bytes.fromhex("00000000000003e8004c" + GEOBROADCAST),
    "page/index.html": b'<!doctype html>\n<link rel="stylesheet" href="a.css">\n<p>A page</p>\n'
    b'<script type="application/jsonl" id="inside"></script>\n<script src="b.js"></script>\n',
    "page/a.css": b"p { color: red }\n",
    "page/b.js": b"show();\n",
}

# What a station is told on standard input, and what it answers.
TYPED = f"""\
{{"at":0,"do":"open","port":2002}}
{{"at":1,"do":"receive","frame":"{GEOBROADCAST}"}}
{{"at":2,"do":"shb","port":1,"info":0,"tc":0,"payload":"aaff"}}
{{"at":1}}"""
ANSWERS = f"""\
{{"at":0,"result":"opened"}}
{{"at":1,"result":"accepted","source":"1400020000000001","port":2002,"info":0,"payload":"6869",\
"frame":"{RELAYED}"}}
{{"at":2,"result":"sent","frame":"{SINGLE_HOP}"}}
{{"line":4,"error":"do","reason":"missing"}}
"""

SECOND = "1400020000000002 449 0"
# The station of data/verdict, in the area of its packets.
JUDGED = "1400020000000100 481000000 115000000"
REPLAYED = "1000 accepted port 2002 info 0 6869 sent 0\n"
RUNS = [
    Run("--help"),
    Run("--version"),
    Run("show empty", ""),
    Run("show data/beacon.cap", DATA / "beacon.show"),
    Run("show data/gbc.cap", DATA / "gbc.show"),
    Run("show --json data/captured.pcapng"),
    Run("show --json --fields record,kind,rate data/captured.pcapng"),
    Run("show --json --partial data/captured.pcapng"),
    Run("show --explain data/refused.cap", DATA / "refused.explained", 1),
    Run("check empty", "0 records, 0 refused\n"),
    Run("check data/gbc.cap", "2 records, 0 refused\n"),
    Run("check data/refused.cap", status=1),
    Run("stats data/captured.pcapng"),
    Run("stats --json data/gbc.cap"),
    Run("follow data/follow/near.pcap data/follow/far.pcap"),
    Run("follow --json --by payload data/follow/near.pcap data/follow/far.pcap"),
    Run("follow --summary data/follow/near.pcap data/follow/far.pcap"),
    Run("show --signed data/signed.pcap", DATA / "signed.show", 1),
    Run("show --signed --json --count 3 data/signed.pcap"),
    Run("stats --signed --json data/signed.pcap", DATA / "signed.stats.json"),
    Run("convert --signed --frames-only --count 3 data/signed.pcap made.pcap", "", makes="made.pcap"),
    Run("convert data/captured.pcapng made.cap", "", makes="made.cap"),
    Run("convert data/gbc.cap made.pcapng", "", makes="made.pcapng"),
    Run("import empty made.cap", "", makes="made.cap"),
    Run("import lines.txt made.cap", "", makes="made.cap", content=IMPORTED),
    Run("sim empty", ""),
    Run("sim data/warning.toml", DATA / "warning.out"),
    Run("sim --json data/warning.toml", DATA / "warning.json"),
    Run("sim data/row.toml", DATA / "row.out"),
    Run("sim --frames made.pcapng data/row.toml", DATA / "row.out", makes="made.pcapng"),
    Run("sim --summary data/row.toml"),
    Run("sim --moves moves.csv town.toml", MOVED),
    Run("sim --moves moves.csv --summary town.toml"),
    Run("sim --moves moves.csv --frames made.pcapng town.toml", MOVED, makes="made.pcapng"),
    Run("view --viewer page data/row.toml"),
    Run("view --viewer page -o made.html data/row.toml", makes="made.html"),
    Run("mesh empty", ""),
    Run("mesh data/warning.toml"),
    Run(f"replay data/gbc.cap {SECOND} --port 2002"),
    Run(f"replay hi.cap {SECOND} --port 2002 --frames made.cap", REPLAYED, makes="made.cap"),
    Run(f"replay --signed --count 2 data/signed.pcap {SECOND} --port 2002"),
    Run(f"replay data/verdict/iut.cap {JUDGED} --against 020000000100 --within 20"),
    Run("verdict --all data/verdict/iut.toml data/verdict/iut.cap", status=1),
    Run("verdict --json data/verdict/iut.toml empty"),
    Run(f"station {SECOND} --capacity 1 --remember 1", ANSWERS, 1, typed=TYPED),
]


def pipe_nobody_reads():
    """The end to write to of a pipe whose other end is closed."""
    reading, writing = os.pipe()
    os.close(reading)
    return writing


def expect_ample(run, whole):
    """What is wrong with a run with ample memory."""
    left = whole.left
    if left.status != run.status:
        return f"ends with status {left.status}: {left.err.decode()}"
    if run.printed() not in (None, left.out):
        return f"prints {left.out!r}"
    if run.makes and left.made is None:
        return f"makes no {run.makes}"
    if run.content not in (None, left.made):
        return f"makes {left.made!r}"
    if whole.allocations == 0:
        return "asks for no memory: is the program linked with another allocator?"
    return None


def expect_short(run, whole, nth, alone, ended):
    """What is wrong with a run whose allocation of this number failed."""
    left, ample = ended.left, whole.left
    if ended.allocations < nth:
        return f"asks for {ended.allocations} allocations only"
    # Without any memory no run is done.
    if left == ample and (alone or nth > 1):
        return None
    if left.status != 3 or left.err != NO_MEMORY:
        return f"ends with status {left.status}: {left.err!r}"
    first_lines = ample.out.startswith(left.out) and left.out[-1:] in (b"", b"\n")
    if left.out and not (first_lines and run.command() in STREAM):
        return f"prints {left.out!r}"
    if left.out and left.out == ample.out and run.command() in EARLY:
        return "prints all"
    # An import makes its file once all lines are read: of all memory its buffer comes behind.
    if run.command() == "import" and left.made is not None and nth < whole.allocations:
        return f"makes {left.made!r}"
    if left.made and not ample.made.startswith(left.made):
        return f"makes {left.made!r}"
    return None


def expect_full(whole, ended, status=3):
    """What is wrong with a run whose output failed."""
    left = ended.left
    if left.status != status or left.err:
        return f"ends with status {left.status}: {left.err!r}"
    if not whole.left.out.startswith(left.out):
        return f"prints {left.out!r}"
    return None


def points(allocations):
    """The numbers of the allocations that fail."""
    step = max(1, (allocations - FIRST) // FIRST)
    return [*range(1, min(FIRST, allocations) + 1), *range(FIRST + 1, allocations + 1, step)]


def try_short(bench, run, whole, nth, alone):
    failing = {"FAILING_ALLOCATION": str(nth), "FAILING_ONLY": "1" if alone else "0"}
    wrong = expect_short(run, whole, nth, alone, bench.run(run, **failing))
    which = f"where allocation {nth} fails" + (" alone" if alone else "")
    return wrong and f"{run.words}: {which}: {wrong}"


def try_write(bench, run, whole, nth):
    wrong = expect_full(whole, bench.run(run, FAILING_WRITE=str(nth)))
    return wrong and f"{run.words}: where write {nth} fails: {wrong}"


def try_device(bench, run, whole):
    with open("/dev/full", "wb") as full:
        wrong = expect_full(whole, bench.run(run, out=full))
    return wrong and f"{run.words}: on a full device: {wrong}"


def try_pipe(bench, run, whole, unread):
    wrong = expect_full(whole, bench.run(run, out=unread), status=141)
    return wrong and f"{run.words}: on a pipe that nobody reads: {wrong}"


def tries_of(bench, run, whole, unread):
    """All that is tried of a run: calls that give what is wrong."""
    for nth in points(whole.allocations):
        yield try_short, bench, run, whole, nth, False
        yield try_short, bench, run, whole, nth, True
    for nth in range(1, whole.writes + 1):
        yield try_write, bench, run, whole, nth
    if whole.left.out:
        yield try_device, bench, run, whole
        yield try_pipe, bench, run, whole, unread


def check(bench, names):
    """Makes all runs, or those of these commands: what is wrong with each, how many were made, and
    what was seen."""
    runs = [run for run in RUNS if not names or run.command() in names]
    # Made before any thread is: a program that another thread is just starting would hold the end
    # to read from for a moment, and a write would succeed.
    unread = pipe_nobody_reads()
    wholes = map_all(bench.run, runs)
    wrongs = [(run, expect_ample(run, whole)) for run, whole in zip(runs, wholes)]
    faults = [f"{run.words}: {wrong}" for run, wrong in wrongs if wrong]
    if faults:
        return faults, len(runs), ""
    tries = [
        one for run, whole in zip(runs, wholes) for one in tries_of(bench, run, whole, unread)
    ]
    saw = f"{len(runs)} runs, and {len(tries)} of them short of memory or with an output that fails"
    return make(tries), len(tries), saw
