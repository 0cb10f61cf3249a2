"""The daemon beside a bare loop of poll and recv, in turns: measure.py PROGRAM WIRE"""

import statistics
import subprocess
import sys
from pathlib import Path

import frames
from net import Net

PROGRAM, WIRE = sys.argv[1:3]
ROUNDS, BEACONS, GBCS = 3, 150000, 2000
SOURCE = 0x1400020000000900


def spent(pid):
    """Nanoseconds of processor time."""
    return int(Path(f"/proc/{pid}/schedstat").read_text().split()[0])


def start(net, what):
    pipe = subprocess.PIPE
    p = subprocess.Popen(net.enter(0, WIRE, what, "v"), stdin=pipe, stdout=pipe)
    assert p.stdout.readline() == b"ready\n"
    return p


def send(net, *arguments):
    command = ["nsenter", f"--net=/run/netns/{net.air}", WIRE, *map(str, arguments)]
    return subprocess.run(command, check=True, capture_output=True).stdout.split()


def flood(net, pid):
    before = spent(pid)
    send(net, "flood", "a0", frames.beacon(SOURCE, 1).hex(), BEACONS)
    return before


def bare(net):
    p = start(net, "sink")
    before = flood(net, p.pid)
    after = spent(p.pid)
    return (after - before) / int(p.communicate(b"\n")[0])


def daemon(net):
    d = net.station(0)
    before = flood(net, d.process.pid)
    after = spent(d.process.pid)
    taken = d.counts()["link"]["frames"]
    d.end()
    return (after - before) / taken


def ping(net):
    return int(send(net, "ping", "a0", frames.gbc(SOURCE, 1, 0, b"x" * 20).hex(), GBCS)[0]) / 1000


def echo(net):
    p = start(net, "echo")
    took = ping(net)
    p.communicate(b"\n")
    return took


def relay(net):
    d = net.station(0, "--forward-spread", 0)
    took = ping(net)
    assert d.counts()["relayed"] == GBCS
    d.end()
    return took


def main():
    with Net(PROGRAM, 1) as net:
        found = {f: [] for f in (bare, daemon, echo, relay)}
        for _ in range(ROUNDS):
            for function, values in found.items():
                values.append(function(net))
        least, beacon, back, relayed = (statistics.median(v) for v in found.values())
        ratio = statistics.median(d / b for d, b in zip(found[daemon], found[bare]))
        added = statistics.median(r - e for r, e in zip(found[relay], found[echo]))
        print(f"a beacon: {beacon:.0f} ns, by poll and recv alone {least:.0f} ns; "
              f"ratio {ratio:.2f} (at most 1.2)")
        print(f"a relayed GBC: {relayed:.1f} us, sent back {back:.1f} us; "
              f"added {added:.1f} us (at most 5)")


main()
