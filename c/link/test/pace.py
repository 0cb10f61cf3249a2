"""Entities of different speeds under different loads: pace.py PROGRAM [SECONDS]
pace.py PROGRAM entity PATH is one of these entities, which answers after a millisecond.

Each cell of the table is a station with an entity that needs some time for each answer, frames that
come at some rate, and an own warning every half second. The entity counts what it did and how long
it had nothing to do. A cell is judged by these counts and never by a time:
- each own warning is signed, and each frame has one outcome
- what the entity accepted was used
- it was busy if more came than it can do, and otherwise verified what came: half of it, if it gives
  so few answers while a frame may wait that one of them is much
- beside a flood of messages that it refuses, the messages of a neighbour are verified
A cell that fails is run again, twice at most: the entity may have had no processor for a while.
"""

import json
import multiprocessing
import os
import random
import socket
import statistics
import subprocess
import sys
import tempfile
import threading
import time
from concurrent.futures import ThreadPoolExecutor

import frames
from common import OTHER, now_ms, udp_command
from entity import Entity, secured
from frames import GBC
from net import Daemon

OWN_EACH = 0.5  # seconds
AT_A_TIME, TRIES = 3, 3
SETTLED = 1.0  # seconds; then no frame waits any more
WAITS = 0.4  # seconds; so long may a frame wait
ACCEPTED, REFUSED, SIGNED, IDLE = range(4)
JUNK = 0xFF  # the first octet of a message that the entity refuses
NEIGHBOUR = OTHER & (1 << 48) - 1
OUTCOMES = ("verified", "rejected", "unanswered", "overrun")


# ---- the entity, a process of its own


def serve(entity, took, did, workers=1):
    """Answers requests, each after `took` seconds of work, so many at a time."""
    entity.accept()
    entity.one.settimeout(None)
    busy = threading.Lock()
    for _ in range(workers - 1):
        threading.Thread(target=work, args=(entity, took, did, busy, workers)).start()
    work(entity, took, did, busy, workers)


def work(entity, took, did, busy, workers):
    while True:
        before = time.monotonic()
        datagram = entity.one.recv(65536)
        if not datagram:
            return
        with busy:
            did[IDLE] += (time.monotonic() - before) / workers
        time.sleep(took)
        with busy:
            did[answer(entity, json.loads(datagram))] += 1


def answer(entity, request):
    if request["do"] == "sign":
        entity.sign(request)
        return SIGNED
    if int(request["message"][:2], 16) == JUNK or request["message"] == "00":
        entity.say(id=request["id"], error="no")
        return REFUSED
    entity.verify(request)
    return ACCEPTED


# ---- one cell


class Load:
    """Frames of a neighbour, and junk, at steady rates."""

    def __init__(self, port, rate, junk_rate, junk_from):
        self.socket = socket.socket(socket.AF_INET, socket.SOCK_DGRAM)
        self.port, self.rate, self.junk_rate, self.junk_from = port, rate, junk_rate, junk_from
        self.good = self.junk = 0
        self.going, self.thread = True, threading.Thread(target=self.run)

    def frame_of_neighbour(self):
        self.good += 1
        payload = now_ms().to_bytes(8, "big")
        return secured(frames.gbc(OTHER, now_ms(), self.good, payload))

    def frame_of_junk(self):
        self.junk += 1
        message = bytes([JUNK]) + random.randbytes(100)
        frame = secured(frames.gbc(OTHER, 5, self.junk, b""), message)
        senders = {"one": 0x02AA00000001, "neighbour": NEIGHBOUR,
                   "any": 0x020000000000 | random.getrandbits(32)}
        return frame[:6] + senders[self.junk_from].to_bytes(6, "big") + frame[12:]

    def run(self):
        """Both in step with the clock, so a late turn sends what is due."""
        start = time.monotonic()
        base = self.good, self.junk
        while self.going:
            passed = time.monotonic() - start
            while self.good - base[0] < passed * self.rate:
                self.socket.sendto(self.frame_of_neighbour(), ("127.0.0.1", self.port))
            while self.junk - base[1] < passed * self.junk_rate:
                self.socket.sendto(self.frame_of_junk(), ("127.0.0.1", self.port))
            time.sleep(0.3 / max(self.rate, self.junk_rate, 10))

    def begin(self):
        self.thread.start()

    def end(self):
        self.going = False
        self.thread.join()


def warn(daemon):
    """An own warning. The time until its answer, or None if it was not signed."""
    before = time.monotonic()
    answer = daemon.ask(**GBC, payload="00")
    assert answer["result"] == "sent" or answer["code"] in ("not signed", "no security"), answer
    return time.monotonic() - before if answer["result"] == "sent" else None


def warn_for(daemon, seconds):
    """How long each own warning took."""
    took, end = [], time.monotonic() + seconds
    while (before := time.monotonic()) < end:
        took.append(warn(daemon))
        time.sleep(max(0, min(before + OWN_EACH, end) - time.monotonic()))
    return took


def measure(daemon, load, did, seconds):
    """The outcome of frames and own warnings while the load lasted, and what the entity did."""
    tries = 1
    while warn(daemon) is None:  # until the time of an answer is known
        tries += 1
        assert tries < 20, "no own warning is signed"
        time.sleep(0.1)
    daemon.seen()
    before, did_before, start = daemon.counts()["link"], list(did), time.monotonic()
    load.begin()
    took = warn_for(daemon, seconds)
    did_then, lasted = list(did), time.monotonic() - start
    load.end()
    time.sleep(SETTLED)
    after = daemon.counts()["link"]
    ages = [e["at"] - int(e["payload"], 16) for e in daemon.seen() if e["event"] == "delivered"]
    return {
        "frames": load.good + load.junk, "good": load.good, "lasted": lasted,
        "idle": (did_then[IDLE] - did_before[IDLE]) / lasted,
        "own": len(took), "own_took": [1000 * t for t in took if t is not None], "ages": ages,
        "accepted": did[ACCEPTED] - did_before[ACCEPTED],
        **{key: after[key] - before[key] for key in OUTCOMES},
    }


def run_cell(number, answers, workers, rate, junk_rate, junk_from, seconds):
    """One cell, in a process of its own. Prints its figures."""
    own, other = 48000 + 2 * number, 48001 + 2 * number
    did = multiprocessing.Array("d", 4)
    with tempfile.TemporaryDirectory() as room:
        entity = Entity(f"{room}/security")
        process = multiprocessing.Process(target=serve,
                                          args=(entity, workers / answers, did, workers))
        process.start()
        daemon = Daemon([*udp_command(1, own, f"127.0.0.1:{other}"), "--security", entity.path,
                         "--security-workers", str(workers)])
        try:
            load = Load(own, rate, junk_rate, junk_from)
            figures = measure(daemon, load, did, seconds)
        finally:
            daemon.end()
            process.join()
            entity.end()
    print(json.dumps(figures))


# ---- the table


def cells():
    """Answers a second of the entity, its workers, and what comes a second: frames, junk, and the
    senders of junk."""
    for answers in (5, 50, 500):
        for rate in (1, 10, 100, 1000):
            yield answers, 1, rate, 0, "one"
    yield 20, 4, 100, 0, "one"
    for junk_from in ("one", "any", "neighbour"):
        yield 50, 1, 10, 1000, junk_from


def run(program, number, cell, seconds):
    """The figures of a cell, and what is wrong with it."""
    command = [sys.executable, __file__, program, "cell", number, *cell, seconds]
    for _ in range(TRIES):
        done = subprocess.run([str(word) for word in command], capture_output=True, text=True)
        assert done.returncode == 0, (cell, done.stderr)
        figures = json.loads(done.stdout)
        if not (wrong := list(judge(cell, figures))):
            break
    return figures, wrong


def judge(cell, f):
    """What is wrong with a cell."""
    answers, _, rate, junk_rate, junk_from = cell
    if len(f["own_took"]) != f["own"]:
        yield f"{len(f['own_took'])} of {f['own']} own warnings signed"
    if sum(f[key] for key in OUTCOMES) != f["frames"]:
        yield f"{f['frames']} frames, and the outcomes of {sum(f[key] for key in OUTCOMES)}"
    if f["verified"] < 0.9 * f["accepted"]:
        yield f"{f['accepted']} accepted, and {f['verified']} verified"
    more = (rate + junk_rate + 1 / OWN_EACH) / answers
    if more >= 1.5 and f["idle"] > 0.1:
        yield f"the entity had nothing to do for {f['idle']:.0%} of the time"
    spare = more <= 0.8 or (junk_rate and junk_from != "neighbour")
    least = 0.9 if answers * WAITS >= 4 else 0.5
    if spare and f["verified"] < least * f["good"]:
        yield f"{f['verified']} of {f['good']} good frames verified"


def spread(values):
    if not values:
        return "-"
    return f"{statistics.median(values):.0f} / {max(values):.0f}"


def row(cell, f):
    answers, workers, rate, junk_rate, junk_from = cell
    junk = f" and {junk_rate} of junk, senders: {junk_from}" if junk_rate else ""
    answers = f"{answers}, {workers} workers" if workers > 1 else answers
    a_second = [f["verified"] / f["lasted"], f["overrun"] / f["lasted"],
                f["unanswered"] / f["lasted"]]
    return (f"| {answers} | {rate}{junk} | {' | '.join(f'{n:.1f}' for n in a_second)} "
            f"| {f['idle']:.0%} | {len(f['own_took'])} of {f['own']} | {spread(f['own_took'])} "
            f"| {spread(f['ages'])} |")


def main(program, seconds):
    print("| Answers/s | Frames/s | Verified/s | Dropped/s | Unanswered/s | Entity idle "
          "| Own signed | Took ms, median / most | Age at delivery ms, median / most |\n"
          "|---|---|---|---|---|---|---|---|---|")
    listed = list(cells())
    with ThreadPoolExecutor(AT_A_TIME) as pool:
        found = list(pool.map(lambda n: run(program, n, listed[n], seconds), range(len(listed))))
    wrong = []
    for cell, (figures, texts) in zip(listed, found):
        print(row(cell, figures))
        wrong += [f"failed: {cell}: {text}" for text in texts]
    print("\n".join(wrong) or f"{len(listed)} loads on entities of 5, 50 and 500 answers a second")
    sys.exit(bool(wrong))


if __name__ == "__main__":
    if sys.argv[2:3] == ["entity"]:
        serve(Entity(sys.argv[3]), 0.001, [0, 0, 0, 0])
    elif sys.argv[2:3] == ["cell"]:
        *numbers, whose, length = sys.argv[3:]
        run_cell(*map(int, numbers), whose, float(length))
    else:
        main(sys.argv[1], float((sys.argv + ["4"])[2]))
