"""Floods at a station whose security entity does 50 answers a second:
endure_signed.py PROGRAM FLOOD MINUTES

Station A sends a signed warning a second to station B, and B sends one of its own, while floods of
each kind come to B from an attacker. A bridge joins them; A and the attacker don't hear each other.
Prints a row for each flood. Ends with 1 if B dies, if its memory grows, if less than 0.9 of B's
warnings are signed, or less than 0.9 of A's arrive. Junk under A's own address looks as A's
warnings do: there they may be lost. A process that waits for a processor may miss a warning.
"""

import multiprocessing
import statistics
import subprocess
import sys
import tempfile
import threading
import time

import frames
from common import PROGRAM, now_ms
from entity import Entity, secured
from frames import GBC
from net import Net
from pace import ACCEPTED, IDLE, JUNK, REFUSED, serve

FLOOD, MINUTES = sys.argv[2], float(sys.argv[3])
SOURCE = 0x1400020000000900
RATE, HIGH = 1000, 20000
EACH = 1.0  # seconds between two warnings


def floods(warning):
    """Each kind: its name, frames a second, changes, the frame, and whether A's must arrive."""
    plain = frames.gbc(SOURCE, now_ms(), 0, b"x" * 60)
    junk = secured(plain, bytes([JUNK]) + bytes(120))
    under_a = junk[:6] + warning[6:12] + junk[12:]
    long = secured(plain, bytes([JUNK]) + bytes(1399))
    yield "none", 0, "-", junk, True
    yield "junk of one sender", RATE, "g", junk, True
    yield "junk of one sender", HIGH, "g", junk, True
    yield "junk of new senders", RATE, "sg", junk, True
    yield "junk of new senders", HIGH, "sg", junk, True
    yield "junk of 1400 octets", HIGH, "g", long, True
    yield "junk under A's address", RATE, "g", under_a, False
    yield "copies of a warning", HIGH, "-", warning, True
    yield "good messages of one source", RATE, "n", secured(plain), True
    yield "unsecured frames", HIGH, "n", plain, True


class Signed:
    """A station with an entity of its own, which takes some seconds for each answer."""

    def __init__(self, net, k, took, room):
        self.did = multiprocessing.Array("d", 4)
        self.entity = Entity(f"{room}/{k}")
        self.process = multiprocessing.Process(target=serve, args=(self.entity, took, self.did))
        self.process.start()
        self.daemon = net.station(k, "--port", 2002, "--security", self.entity.path, limits=True)
        net.callback(self.end)
        while self.daemon.ask(**GBC, payload="00")["result"] != "sent":
            time.sleep(0.2)

    def end(self):
        self.daemon.end()
        self.process.join()
        self.entity.end()


class Warnings:
    """One warning a second of a station. Its thread alone talks with the daemon."""

    def __init__(self, station, payloads):
        self.station, self.payloads = station, payloads
        self.took, self.refused, self.sent, self.going = [], 0, {}, True
        self.thread = threading.Thread(target=self.run)
        self.thread.start()

    def run(self):
        while self.going:
            before, payload = time.monotonic(), next(self.payloads)
            self.sent[payload] = now_ms()
            if self.station.daemon.ask(**GBC, payload=payload)["result"] == "sent":
                self.took.append(time.monotonic() - before)
            else:
                self.refused += 1
            time.sleep(max(0, before + EACH - time.monotonic()))

    def end(self):
        self.going = False
        self.thread.join()


def numbers(first):
    while True:
        first += 1
        yield f"{first:08x}"


def run_flood(net, a, b, flood, payloads, seconds):
    """One row of the table, and what is wrong with it."""
    name, rate, changes, frame, arrives = flood
    b.daemon.seen()
    before, did, start = b.daemon.counts()["link"], list(b.did), time.monotonic()
    own, others = Warnings(b, payloads["b"]), Warnings(a, payloads["a"])
    count = 0
    if rate:
        done = subprocess.run(net.enter(2, FLOOD, "v", rate, seconds, changes, frame.hex()),
                              capture_output=True, check=True)
        count = int(done.stdout)
    else:
        time.sleep(seconds)
    idle = min(1, (b.did[IDLE] - did[IDLE]) / (time.monotonic() - start))
    own.end()
    others.end()
    time.sleep(1)
    ages = {e["payload"]: e["at"] - others.sent[e["payload"]] for e in b.daemon.seen()
            if e["event"] == "delivered" and e["payload"] in others.sent}
    after = b.daemon.counts()["link"]
    there, all_sent = len(ages), len(others.took)
    median = f"{statistics.median(ages.values()):.0f}" if ages else "-"
    print(f"| {name} | {count / seconds:.0f} | {there} of {all_sent} | {median} "
          f"| {len(own.took)} of {len(own.took) + own.refused} | {1000 * max(own.took):.0f} "
          f"| {(b.did[ACCEPTED] - did[ACCEPTED]) / seconds:.0f} "
          f"| {(b.did[REFUSED] - did[REFUSED]) / seconds:.0f} | {idle:.0%} "
          f"| {after['overrun'] - before['overrun']} |", flush=True)
    if own.refused > 0.1 * (own.refused + len(own.took)):
        yield f"{name}: {own.refused} warnings of B are not signed"
    if arrives and there < 0.9 * all_sent:
        yield f"{name}: {there} of {all_sent} warnings of A arrived"


def main():
    with Net(PROGRAM, 3) as net, tempfile.TemporaryDirectory() as room:
        net.join()  # A and the attacker don't hear each other
        a, b = Signed(net, 0, 0.0005, room), Signed(net, 1, 0.02, room)
        warning = bytes.fromhex(a.daemon.ask(**GBC, payload="00")["frame"])
        kinds, payloads = list(floods(warning)), {"a": numbers(0), "b": numbers(1 << 30)}
        seconds, wrong, data = max(4, round(MINUTES * 60 / len(kinds))), [], set()
        print("| Flood | Frames/s | A's warnings arrived | Median ms | B's own signed | Most ms "
              "| Accepted/s | Refused/s | Entity idle | Dropped |\n|" + "---|" * 10)
        for flood in kinds:
            wrong += run_flood(net, a, b, flood, payloads, seconds)
            data.add(b.daemon.memory())
        if len(data) != 1:
            wrong.append(f"memory grows: {sorted(data)} kB of data")
        if b.daemon.process.poll() is not None:
            wrong.append(f"the process died: {b.daemon.process.poll()}")
        for text in wrong:
            print("failed:", text)
        print(f"{len(kinds)} floods of {seconds} s each at an entity of 50 answers a second")
        sys.exit(bool(wrong))


main()
