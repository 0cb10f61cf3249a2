"""What the limits of geostation-link bound: storms of echoes, own packets, hops and deliveries."""

import time

from air import Air
from common import PROGRAM, gbc, has, notes
from frames import GBC
from net import Net

# The default limits: frames at once and per second, of all sources and of one.
FORWARD, SOURCE, OWN = (50, 100), (20, 20), (50, 50)
WARNINGS = 128


def bound(limit, seconds):
    burst, rate = limit
    return burst + rate * seconds


def storm(net, *options):
    """A burst of geobroadcasts with 255 hops among three stations, twice as many as a duplicate
    packet list has. It ends, or this waits for ever. Returns the counts of the stations, and how
    many seconds it took at most."""
    began = time.monotonic()
    air = Air(net.ends())
    a, b, c = (net.station(k, "--port", 2002, "--own-rate", 0, *options, limits=True)
               for k in range(3))
    for k in range(WARNINGS):
        has({"result": "sent"}, a.ask(**{**GBC, "hops": 255}, payload=f"{k:04x}"))
    air.run(1)
    counts = [d.counts() for d in (a, b, c)]
    return counts, time.monotonic() - began, [d.seen() for d in (b, c)]


def test_storm():
    """The rates alone bound it: hops and deliveries have no limit here."""
    with Net(PROGRAM, 3) as net:
        counts, seconds, _ = storm(net, "--hop-cap", 0, "--deliver-once", 0)
        relayed = [n["relayed"] for n in counts]
        most = min(bound(SOURCE, seconds), bound(FORWARD, seconds))
        assert all(n <= most for n in relayed), (relayed, most)
        # A fifth of the burst of all passes at once at each of two stations. Then the source has a share.
        assert sum(relayed) >= 2 * FORWARD[0] // 5, relayed
        suppressed = sum(n["link"]["suppressed"] for n in counts)
        assert suppressed >= 2 * (WARNINGS - most), counts
        notes.append(f"a storm of {WARNINGS} packets with 255 hops ended after {sum(relayed)} "
                     f"forwarded frames of three stations, at most {3 * int(most)} by their rates")


def test_storm_by_default():
    """No packet with 255 hops is forwarded, and each is delivered once to each."""
    with Net(PROGRAM, 3) as net:
        counts, _, seen = storm(net)
        assert [n["relayed"] for n in counts] == [0, 0, 0], counts
        wanted = [f"{k:04x}" for k in range(WARNINGS)]
        for events in seen:
            got = sorted(e["payload"] for e in events if e["event"] == "delivered")
            assert got == wanted, len(got)
        assert [n["link"]["suppressed"] for n in counts[1:]] == [WARNINGS, WARNINGS], counts


def test_echo():
    """A packet that the station has forgotten is not delivered or forwarded a second time."""
    with Net(PROGRAM, 1) as net:
        (end,) = net.ends()
        first, second = gbc(1), gbc(2)
        d = net.station(0, "--port", 2002, "--remember", 1, limits=True)
        for frame in (first, second, first):
            end.send(frame)
        counts = d.until(lambda n: n["received"] == 3)
        assert (counts["accepted"], counts["delivered"], counts["relayed"]) == (3, 2, 2), counts
        has({"suppressed": 1, "repeated": 1, "over_rate": 0}, counts["link"])
        d.end()
        d = net.station(0, "--port", 2002, "--remember", 1, "--deliver-once", 0, limits=True)
        for frame in (first, second, first):
            end.send(frame)
        counts = d.until(lambda n: n["received"] == 3)
        assert (counts["accepted"], counts["delivered"], counts["relayed"]) == (3, 3, 3), counts
        has({"suppressed": 0, "repeated": 0}, counts["link"])


def test_echo_by_requests():
    """A `receive` is within the limits too: such a packet is not delivered a second time."""
    with Net(PROGRAM, 1) as net:
        first, second = gbc(1), gbc(2)
        d = net.station(0, "--port", 2002, "--remember", 1, limits=True)
        for frame in (first, second):
            has({"result": "accepted", "payload": "78"}, d.ask(do="receive", frame=frame.hex()))
        answer = d.ask(id=1, do="receive", frame=first.hex())
        has({"id": 1, "result": "ignored", "why": "delivered before"}, answer)
        assert "payload" not in answer, answer
        counts = d.counts()
        assert (counts["accepted"], counts["delivered"], counts["relayed"]) == (3, 2, 2), counts
        has({"suppressed": 1, "repeated": 1}, counts["link"])


def test_own_rate():
    """Own packets over their rate are refused; beacons and other requests are not."""
    with Net(PROGRAM, 1) as net:
        d = net.station(0, "--own-rate", 1, "--own-burst", 2, limits=True)
        began = time.monotonic()
        answers = [d.ask(do="shb", port=1, info=0, tc=0, payload="") for _ in range(40)]
        seconds = time.monotonic() - began
        sent = [x for x in answers if x["result"] == "sent"]
        refused = [x for x in answers if x["result"] == "refused"]
        assert 2 <= len(sent) <= bound((2, 1), seconds) + 1, (len(sent), seconds)
        assert len(sent) + len(refused) == 40 and refused, answers
        assert {x["code"] for x in refused} == {"over rate"}, refused
        has({"result": "opened"}, d.ask(do="open", port=5))
        has({"over_rate": len(refused), "suppressed": 0}, d.ask(do="counts")["link"])
        has({"over_rate": len(refused)}, d.counts()["link"])


def test_hop_cap():
    """A packet with more hops left than the cap is delivered, and not forwarded."""
    with Net(PROGRAM, 1) as net:
        (end,) = net.ends()
        d = net.station(0, "--port", 2002, "--hop-cap", 9, limits=True)
        end.send(gbc(1))  # ten hops
        few = bytearray(gbc(2))
        few[17] = 9
        end.send(bytes(few))
        counts = d.until(lambda n: n["received"] == 2)
        assert (counts["delivered"], counts["relayed"]) == (2, 1), counts
        has({"suppressed": 1}, counts["link"])
