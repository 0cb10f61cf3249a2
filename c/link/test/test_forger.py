"""A forger before a station whose frames all pass a sound security entity: 10,000 frames that are
drawn, and what he can do all the same."""

import json
import random
import threading

import frames
from common import OTHER, has, notes, stamp
from entity import PLAIN_AT, message_of, secured
from frames import GBC
from test_security import Bench, is_beacon

DRAWN, BATCH, WARNINGS = 10_000, 40, 40


class Sound(threading.Thread):
    """An entity that returns a plain part only for a message as which it was sealed."""

    def __init__(self, entity):
        super().__init__(daemon=True)
        self.entity, self.sealed, self.too_old = entity, {}, set()
        entity.one.settimeout(None)
        self.start()

    def seal(self, frame):
        """The secured frame of a packet that another station's entity sealed."""
        self.sealed[message_of(frame[PLAIN_AT:])] = frame[PLAIN_AT:]
        return secured(frame)

    def answer(self, request):
        if request["do"] == "sign":
            plain = bytes.fromhex(request["plain"])
            self.sealed[message_of(plain)] = plain
            return {"message": message_of(plain).hex()}
        message = bytes.fromhex(request["message"])
        if message in self.sealed and message not in self.too_old:
            return {"plain": self.sealed[message].hex()}
        return {"error": "not sealed, or too old"}

    def run(self):
        try:
            while datagram := self.entity.one.recv(65536):
                request = json.loads(datagram)
                self.entity.say(id=request["id"], **self.answer(request))
        except OSError:
            pass  # the test is over


def in_envelope(draw, message):
    """A secured frame with this message: lifetime, hops and both link addresses are drawn."""
    target = draw.choice([b"\xff" * 6, b"\xff" * 6, frames.mid_of(0x3c00020000000001), draw.randbytes(6)])
    head = target + draw.choice([frames.mid_of(OTHER), draw.randbytes(6)]) + b"\x89\x47"
    return head + bytes([0x12, 0, draw.randrange(256), draw.randrange(256)]) + message


def changed(draw, octets):
    """With one octet changed, or cut."""
    at = draw.randrange(len(octets))
    if draw.random() < 0.3:
        return octets[:at]
    return octets[:at] + bytes([octets[at] ^ draw.randrange(1, 256)]) + octets[at + 1:]


def forged(draw, warnings):
    """A frame as a forger may send it."""
    known = draw.choice(warnings)
    message = known[PLAIN_AT:]
    kind = draw.randrange(8)
    if kind < 2:
        return in_envelope(draw, message)
    if kind == 2:
        return in_envelope(draw, changed(draw, message) or b"\0")
    if kind == 3:
        return changed(draw, known)
    if kind == 4:
        return draw.randbytes(draw.randrange(1, 300))
    if kind == 5:
        return in_envelope(draw, draw.randbytes(draw.randrange(1, 300)))
    invented = frames.gbc(OTHER, stamp(), draw.randrange(65536), b"invented")
    return invented if kind == 6 else secured(invented)


def sent_by(bench):
    """What the station sent up to now, but for beacons."""
    bench.link.setblocking(False)
    found = []
    try:
        while True:
            frame = bench.link.recv(4096)
            found += [] if is_beacon(frame) else [frame]
    except BlockingIOError:
        return found


def test_forger():
    """Only what was sealed is delivered, each once, and only what was sealed goes on."""
    draw = random.Random(1)
    with Bench() as b:
        entity = Sound(b.entity)
        warnings = [entity.seal(frames.gbc(OTHER, stamp(), k, b"%d" % k)) for k in range(WARNINGS)]
        sent, own = [], 0
        for first in range(0, DRAWN, BATCH):
            for _ in range(BATCH):
                b.send(forged(draw, warnings[:1 + first * WARNINGS // DRAWN]))
            b.daemon.until(lambda n: n["link"]["frames"] == first + BATCH)
            sent += sent_by(b)
            if first % 1000 == 0:
                has({"result": "sent"}, b.daemon.ask(**GBC, payload="%04x" % first))
                own += 1
        for frame in warnings:
            b.send(frame)
        b.daemon.until(lambda n: n["link"]["frames"] == DRAWN + WARNINGS)
        counts = b.daemon.until(lambda n: sum(n["link"][k] for k in (
            "verified", "rejected", "unanswered", "overrun", "dropped_early", "unsecured"))
            == DRAWN + WARNINGS)
        sent += sent_by(b)
        delivered = [e for e in b.daemon.seen() if e["event"] == "delivered"]
    payloads = [e["payload"] for e in delivered]
    wanted = [(b"%d" % k).hex() for k in range(WARNINGS)]
    assert all(e["source"] == f"{OTHER:016x}" and e["port"] == 2002 for e in delivered), delivered
    assert len(set(payloads)) == len(payloads) and set(payloads) <= set(wanted), payloads
    assert len(payloads) > WARNINGS // 2, payloads
    mine = frames.mid_of(0x3c00020000000001)
    assert len(sent) > own and all(f[6:12] == mine for f in sent), sent
    assert all(f[14] == 0x12 and f[PLAIN_AT:] in entity.sealed for f in sent), sent
    assert counts["accepted"] == len(payloads), (counts, payloads)
    for kind in ("verified", "rejected", "dropped_early", "unsecured"):
        assert counts["link"][kind] > 100, counts
    notes.append(f"of {DRAWN} frames of a forger {len(payloads)} of {WARNINGS} warnings were delivered, "
                 f"each once, and {len(sent) - own} went on")


def test_what_a_forger_can_do():
    """He silences a warning by a copy with one hop, and after a restart a recorded frame is delivered
    again. The entity refuses what is too old: it does nothing."""
    with Bench() as b:
        entity = Sound(b.entity)
        frame = entity.seal(frames.gbc(OTHER, stamp(), 1, b"ice"))
        b.send(frame[:17] + b"\x01" + frame[18:])
        has({"payload": b"ice".hex()}, b.daemon.event("delivered"))
        b.send(frame)
        counts = b.daemon.until(lambda n: n["link"]["verified"] == 2)
        assert counts["ignored"]["duplicate"] == 1 and counts["relayed"] == 0, counts
        assert sent_by(b) == []
        recorded = entity.seal(frames.gbc(OTHER, stamp(), 2, b"snow"))
        for times in (1, 2):
            b.send(recorded)
            has({"payload": b"snow".hex()}, b.daemon.event("delivered"))
            b.daemon.until(lambda n: n["relayed"] == times)
            has({"result": "restarted"}, b.daemon.ask(do="restart", number=0))
            has({"result": "opened"}, b.daemon.ask(do="open", port=2002))
        old = entity.seal(frames.gbc(OTHER, stamp(), 3, b"rain"))
        entity.too_old.add(old[PLAIN_AT:])
        b.send(old)
        counts = b.daemon.until(lambda n: n["link"]["rejected"] == 1)
        assert counts["relayed"] == 2 and counts["accepted"] == 3, counts
        assert not [e for e in b.daemon.seen() if e["event"] == "delivered"]
