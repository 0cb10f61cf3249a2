"""Floods at a station of a legitimate pair: endure.py PROGRAM FLOOD MINUTES

Station A sends ten SHBs and one GBC a second to station B, while floods of each kind come to B from
an attacker. A bridge joins them; A and the attacker don't hear each other. Prints a row for each
flood. Ends with 1 if B dies, if its memory grows, if a beacon of B is late by more than 100 ms, or
if a frame of A is lost that the kernel handed to B.
"""

import ctypes
import json
import socket
import struct
import subprocess
import sys
import threading
import time
from pathlib import Path

import frames
from frames import GBC
from net import GEONETWORKING, Net, inside

PROGRAM, FLOOD, MINUTES = sys.argv[1], sys.argv[2], float(sys.argv[3])
SOURCE = 0x1400020000000900
B_ADDRESS = bytes.fromhex("020000000101")
LATEST_BEACON = 3.75 + 0.1
RADIO, HIGH = 5000, 50000
OTHER_PORT = 4711


def stamp():
    return int((time.time() + 5 - 1072915200) * 1000)


def tagged(frame, *tags):
    return frame[:12] + b"".join(struct.pack(">HH", 0x8100, t) for t in tags) + frame[12:]


def floods(a_address):
    """Each kind: its name, frames a second, what changes, and the frames."""
    beacon, shb = frames.beacon(SOURCE, stamp()), frames.shb(SOURCE, stamp(), OTHER_PORT, b"x" * 20)
    gbc = frames.gbc(SOURCE, stamp(), 0, b"x" * 40, port=OTHER_PORT)
    far = frames.gbc(SOURCE, stamp(), 0, b"x" * 40, port=OTHER_PORT, lat=frames.LAT + 900000)
    forged = frames.shb(a_address, stamp() - 60000, OTHER_PORT, b"forged")
    long = beacon + bytes(1450)
    llc = beacon[:12] + b"\0\x40" + b"\xaa\xaa\x03\0\0\0\x89\x47" + beacon[14:]
    other = beacon[:12] + b"\x08\0" + beacon[14:]
    yield "none", 0, None, [beacon]
    yield "beacons of new sources", HIGH, "s", [beacon]
    yield "SHBs of new sources", HIGH, "s", [shb]
    yield "GBCs of new sources", HIGH, "S", [gbc]
    yield "GBCs of one source, new numbers", RADIO, "n", [gbc]
    yield "GBCs for elsewhere", RADIO, "n", [far]
    yield "SHBs to an open port", RADIO, "-", [frames.shb(SOURCE, stamp(), 2002, b"flood")]
    yield "random octets", HIGH, "r", [beacon]
    yield "cut frames", HIGH, "c", [beacon, shb, gbc]
    yield "mutated frames", RADIO, "nf", [gbc]
    yield "oversize frames", HIGH, "-", [long]
    yield "VLAN 5 and VLAN 0", HIGH, "-", [tagged(beacon, 5), tagged(beacon, 0)]
    yield "two VLAN tags", HIGH, "-", [tagged(beacon, 5, 6)]
    yield "LLC, another EtherType", HIGH, "-", [llc, other]
    yield "A's address, forged", HIGH, "-", [forged]
    yield "all mixed", RADIO, "f", [beacon, shb, gbc, far, long, forged, tagged(beacon, 5)]


def open_beacons(namespace):
    """A socket that gets beacons of B alone."""
    code = [(0x28, 0, 0, 6), (0x15, 0, 6, int.from_bytes(B_ADDRESS[:2], "big")),
            (0x20, 0, 0, 8), (0x15, 0, 4, int.from_bytes(B_ADDRESS[2:], "big")),
            (0x30, 0, 0, 19), (0x54, 0, 0, 0xF0), (0x15, 0, 1, 0x10),
            (0x06, 0, 0, 0xFFFF), (0x06, 0, 0, 0)]
    packed = b"".join(struct.pack("HBBI", *step) for step in code)
    held = ctypes.create_string_buffer(packed)
    with inside(namespace):
        s = socket.socket(socket.AF_PACKET, socket.SOCK_RAW, 0)
        s.setsockopt(socket.SOL_SOCKET, 26, struct.pack("HL", len(code), ctypes.addressof(held)))
        s.bind(("v", GEONETWORKING))
        s.settimeout(0.5)
    return s


class Watch:
    """What A sent, what B delivered, and when B's beacons came."""

    def __init__(self, a, b, beacons):
        self.a, self.b, self.beacons = a, b, beacons
        self.sent, self.took, self.number = {}, [], 0
        self.last, self.gap = time.monotonic(), 0.0
        self.going, self.lost_events = True, 0
        self.rest = b""
        for work in (self.send, self.read, self.listen):
            threading.Thread(target=work, daemon=True).start()

    def send(self):
        next_at = time.monotonic()
        while self.going:
            self.number += 1
            payload = f"{self.number:08x}"
            kind = GBC if self.number % 11 == 0 else {"do": "shb", "port": 2002, "info": 0, "tc": 2}
            self.sent[payload] = time.monotonic()
            answer = self.a.ask(**kind, payload=payload)
            if answer["result"] != "sent":
                del self.sent[payload]
            next_at += 1 / 11
            time.sleep(max(0, next_at - time.monotonic()))

    def read(self):
        for line in self.b.process.stdout:
            event = json.loads(line)
            if event.get("event") == "lost":
                self.lost_events += event["count"]
            at = self.sent.pop(event.get("payload"), None)
            if at is not None:
                self.took.append(time.monotonic() - at)

    def listen(self):
        while self.going:
            try:
                self.beacons.recv(2048)
            except TimeoutError:
                continue
            now = time.monotonic()
            self.gap, self.last = max(self.gap, now - self.last), now

    def take(self):
        """What was counted since it was asked last. A frame is lost if it isn't there 5 s later."""
        asked = time.monotonic()
        while (lost := [p for p, at in list(self.sent.items()) if at < asked]):
            if time.monotonic() > asked + 5:
                break
            time.sleep(0.05)
        for payload in lost:
            self.sent.pop(payload, None)
        took, self.took = sorted(self.took), []
        gap, self.gap = self.gap, 0.0
        return took, len(lost), gap


def memory(pid):
    text = Path(f"/proc/{pid}/status").read_text()
    rows = dict(line.split(":", 1) for line in text.splitlines())
    return {key: int(rows[key].split()[0]) for key in ("VmRSS", "VmData")}


def backlog_drops():
    rows = Path("/proc/net/softnet_stat").read_text().splitlines()
    return sum(int(row.split()[1], 16) for row in rows)


def milliseconds(took, part):
    return f"{1000 * took[min(int(len(took) * part), len(took) - 1)]:.2f}" if took else "-"


def run_flood(net, watch, flood, seconds):
    """One row of the table, and what is wrong with it."""
    name, rate, changes, made = flood
    b, before, dropped = watch.b, watch.b.counts(), backlog_drops()
    count = 0
    if changes is None:
        time.sleep(seconds)
    else:
        done = subprocess.run(
            net.enter(2, FLOOD, "v", rate, seconds, changes, *(f.hex() for f in made)),
            capture_output=True, check=True)
        count = int(done.stdout)
    took, lost, gap = watch.take()
    after, now = b.counts(), memory(b.process.pid)
    kernel = after["link"]["kernel_dropped"] - before["link"]["kernel_dropped"]
    elsewhere = backlog_drops() - dropped
    print(f"| {name} | {count / 1e6:.2f} M | {kernel} | {lost} of {lost + len(took)} "
          f"| {milliseconds(took, 0.5)} | {milliseconds(took, 0.99)} | {now['VmRSS']} "
          f"| {gap:.2f} |", flush=True)
    wrong = []
    if gap > LATEST_BEACON:
        wrong.append(f"{name}: a beacon after {gap:.2f} s")
    if lost and not kernel and not elsewhere and not watch.lost_events:
        wrong.append(f"{name}: {lost} legitimate frames lost that the kernel handed over")
    return now, wrong


def main():
    with Net(PROGRAM, 3) as net:
        net.join()  # A and the attacker don't hear each other
        beacons = open_beacons(net.names[2])
        a, b = net.station(0), net.station(1, "--port", 2002)
        kinds = list(floods(int(a.ready["address"], 16)))
        watch = Watch(a, b, beacons)
        time.sleep(2)
        seconds = max(4, round(MINUTES * 60 / len(kinds) - 0.5))
        print("| Flood | Sent | Kernel drops | Legitimate lost | p50 ms | p99 ms | RSS kB "
              "| Longest beacon gap s |\n|---|---|---|---|---|---|---|---|")
        rows = [run_flood(net, watch, flood, seconds) for flood in kinds]
        watch.going = False
        wrong = [text for _, texts in rows for text in texts]
        data = {now["VmData"] for now, _ in rows}
        if len(data) != 1:
            wrong.append(f"memory grows: {sorted(data)} kB of data")
        if b.process.poll() is not None:
            wrong.append(f"the process died: {b.process.poll()}")
        for text in wrong:
            print("failed:", text)
        print(f"{len(rows)} floods of {seconds} s each beside a legitimate pair")
        sys.exit(1 if wrong else 0)


main()
