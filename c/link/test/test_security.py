"""The daemon with a security entity that answers right, wrong, late, twice, or not at all."""

import json
import os
import pwd
import select
import signal
import socket
import subprocess
import sys
import tempfile
import time
from contextlib import ExitStack
from pathlib import Path

import frames
from common import (OTHER, PROGRAM, connect, gbc, has, has_no_clock, notes, now_ms, run,
                    stopped_clock, udp_command, until)
from entity import PLAIN_AT, PROBE, Entity, message_of, secured
from frames import GBC
from net import PATIENCE, Daemon, Net

OWN_PORT, TEST_PORT = 47801, 47802
SHB = {"do": "shb", "port": 2002, "info": 0, "tc": 0}
COUNTS = ("verified", "rejected", "unanswered", "overrun", "dropped_early", "unsecured", "signed",
          "unsigned", "strays")
LONG = ("--security-timeout", "10000")


def is_beacon(frame):
    """Whether a secured frame has a beacon, in a message of entity.py."""
    return len(frame) > PLAIN_AT + 2 and frame[PLAIN_AT] == 0 and frame[PLAIN_AT + 2] >> 4 == 1


class Bench(ExitStack):
    """A station over UDP, the other end of its link, and its entity. Clocks go on by `wait` alone
    if they are stopped."""

    def __init__(self, *more, entity=True, stopped=False):
        super().__init__()
        self.started = time.monotonic()
        room = self.enter_context(tempfile.TemporaryDirectory())
        self.path = f"{room}/security"
        self.entity = Entity(self.path) if entity else None
        self.link = self.enter_context(socket.socket(socket.AF_INET, socket.SOCK_DGRAM))
        self.link.bind(("127.0.0.1", TEST_PORT))
        self.link.settimeout(PATIENCE)
        command = udp_command(1, OWN_PORT, f"127.0.0.1:{TEST_PORT}")
        self.listen = f"{room}/clients"
        self.clock = stopped_clock(room) if stopped else None
        self.daemon = Daemon([*command, "--security", self.path, "--listen", self.listen,
                              "--forward-spread", "0", *more],
                             env=self.clock.environment if stopped else None)
        self.callback(self.daemon.end)
        if entity:
            self.entity.accept()
        self.callback(lambda: self.entity and self.entity.end())

    def wait(self, ms):
        self.clock.wait(ms)
        self.daemon.counts()  # it looks at its clock

    def send(self, frame):
        if self.clock is not None:
            self.clock.catch_up()
        self.link.sendto(frame, ("127.0.0.1", OWN_PORT))

    def received(self):
        """The next frame that the station sent, but for beacons."""
        limit = time.monotonic() + PATIENCE
        while is_beacon(frame := self.link.recv(4096)):
            assert time.monotonic() < limit, "no frame but for beacons"
        return frame

    def is_quiet(self, length=0.3):
        self.link.settimeout(length)
        try:
            self.received()
            return False
        except TimeoutError:
            return True
        finally:
            self.link.settimeout(PATIENCE)

    def counts(self, **wanted):
        """Waits for these counts of signed packets; all others have to be 0. Beacons are signed, or
        not, besides. One that is not is tried again after a second."""
        def is_there(n):
            tries = 1 + int(time.monotonic() - self.started)
            more = {"signed": n["sent"]["beacons"], "unsigned": tries}
            return all(wanted.get(k, 0) <= n["link"][k] <= wanted.get(k, 0) + more.get(k, 0)
                       for k in COUNTS)

        return self.daemon.until(is_there)

    def let_read(self):
        """Lets the daemon read what clients sent: it does that between two signals."""
        self.daemon.counts()
        self.daemon.counts()

    def put_off_beacons(self):
        """Sends a packet, so that no beacon comes in the next 3 s."""
        self.daemon.put(**GBC, payload="00")
        self.entity.sign(self.next_of("sign"))
        has({"result": "sent"}, self.daemon.answer())
        self.received()

    def next_of(self, kind):
        """The next request, which has to be of this kind."""
        request = self.entity.request()
        assert request["do"] == kind, request
        return request


def test_signed_packets():
    """What the entity is asked for each kind, what is sent then, and what the answer says."""
    if has_no_clock():
        return
    with Bench(*LONG, stopped=True) as b:
        requests = [("shb", {**SHB}), ("gbc", {**GBC}), ("gac", {**GBC, "do": "gac", "port": 2001})]
        for kind, keys in requests:
            b.daemon.put(id="x", **keys, payload="abcd")
            asked = b.next_of("sign")
            assert list(asked) == ["id", "do", "kind", "port", "plain"], asked
            has({"kind": kind, "port": keys["port"]}, asked)
            plain = bytes.fromhex(asked["plain"])
            assert plain[-6:] == keys["port"].to_bytes(2, "big") + bytes.fromhex("0000abcd")
            assert b.is_quiet(0.02), "it was sent before it was signed"
            b.entity.sign(asked)
            sent, answer = b.received(), b.daemon.answer()
            assert sent[14:15] == b"\x12" and sent[PLAIN_AT:] == message_of(plain), sent.hex()
            assert frames.kind_of(sent[:14] + b"\x11" + sent[15:18] + plain) == kind
            assert list(answer) == ["id", "at", "result", "frame"], answer
            has({"id": "x", "result": "sent", "frame": sent.hex()}, answer)
        b.daemon.put(do="tick", jitter=0)  # early: nothing is due
        has({"result": "quiet"}, b.daemon.answer())
        b.wait(3750)
        asked = b.entity.any_request()
        assert list(asked) == ["id", "do", "kind", "plain"] and asked["kind"] == "beacon", asked
        b.entity.sign(asked)
        sent = b.link.recv(4096)
        assert is_beacon(sent) and sent[PLAIN_AT + 1 :] == bytes.fromhex(asked["plain"]), sent.hex()


def test_verified_frames():
    """What the entity is asked, what is delivered then, and what is forwarded."""
    with Bench(*LONG) as b:
        frame = gbc(1, b"ice")
        b.send(secured(frame))
        asked = b.next_of("verify")
        wanted = {"do": "verify", "message": message_of(frame[PLAIN_AT:]).hex(), "lt": "1a",
                  "hops": 10, "from": "020000000009"}
        assert list(asked) == ["id", "do", "message", "lt", "hops", "from", "at"], asked
        has(wanted, asked)
        assert abs(asked["at"] - now_ms()) < 60000, asked
        b.entity.verify(asked, psid=37, generated=2**63 + 1)
        delivered = b.daemon.event("delivered")
        assert list(delivered) == ["at", "event", "source", "port", "info", "tc", "payload", "psid",
                                   "generated"], delivered
        has({"source": f"{OTHER:016x}", "payload": b"ice".hex(), "psid": 37,
             "generated": 2**63 + 1}, delivered)
        relayed = b.received()
        own = bytes.fromhex("020000000001")
        assert relayed == b"\xff" * 6 + own + secured(frame)[12:17] + b"\x09" + secured(frame)[18:]
        b.send(secured(gbc(2, b"snow")))
        b.entity.verify(b.next_of("verify"))
        delivered = b.daemon.event("delivered")
        assert "psid" not in delivered and "generated" not in delivered, delivered
        b.counts(verified=2)


def test_order_of_signatures():
    """Packets are sent in the order of their signatures, and answers come in that of requests."""
    with Bench(*LONG, "--security-workers", "4") as b:
        for k in range(4):
            b.daemon.put(id=k, **GBC, payload=f"0{k}")
        b.daemon.put(id=4, do="counts")
        asked, sent = [b.next_of("sign") for _ in range(4)], {}
        for k in (3, 1, 0, 2):
            b.entity.sign(asked[k])
            sent[k] = b.received()
            assert sent[k][-1] == k
            if 0 not in sent:
                assert b.daemon.line(0.05) is None, "an answer before its turn"
        answers = [b.daemon.answer() for _ in range(5)]
        assert [a["id"] for a in answers] == [0, 1, 2, 3, 4], answers
        assert [a.get("frame") for a in answers[:4]] == [sent[k].hex() for k in range(4)], answers
        assert answers[4]["result"] == "counts"


def test_not_signed():
    """An error, an answer of another kind, one in another form, one of another packet, and none."""
    if has_no_clock():
        return
    with Bench("--security-timeout", "300", stopped=True) as b:
        wrong = [{"error": "no"}, {"plain": "00"}, {"message": "0"}, {"message": "0g"}, {},
                 {"message": 5}, {"message": ""}, {"message": "00", "error": "x"},
                 {"message": "00" * 2293}, {"message": "038001" + "00"}]
        for keys in wrong:
            b.daemon.put(id=1, **GBC, payload="00")
            b.entity.say(id=b.next_of("sign")["id"], **keys)
            answer = b.daemon.answer()
            has({"id": 1, "result": "refused", "code": "not signed"}, answer)
            assert "reason" in answer and "frame" not in answer, answer
        b.daemon.put(id=1, **GBC, payload="00")
        late = b.next_of("sign")
        b.wait(299)
        assert b.daemon.line(0.05) is None, "an answer before its time"
        b.wait(1)
        has({"id": 1, "code": "not signed"}, b.daemon.answer())
        b.entity.sign(late)
        b.counts(unsigned=len(wrong) + 1, strays=1)
        assert b.is_quiet()
        notes.append(f"{len(wrong) + 2} wrong answers of an entity, after which nothing was sent")


def test_without_entity():
    """At the start, and after an entity died: nothing is sent or received; then it comes back."""
    with Bench(*LONG, "--security-workers", "2", entity=False) as b:
        d = b.daemon
        assert d.event("security")["up"] is False
        has({"event": "ready"}, json.loads(connect(b.listen)[1].readline()))
        for keys in ({**GBC, "payload": "00"}, {**SHB, "payload": ""}, {"do": "tick", "jitter": 0}):
            answer = d.ask(id=5, **keys)
            has({"id": 5, "result": "refused", "code": "no security"}, answer)
            assert "reason" in answer, answer
        has({"result": "opened"}, d.ask(do="open", port=9))
        b.send(secured(gbc(1)))
        b.counts(unanswered=1)
        b.entity = Entity(b.path).accept()
        assert d.event("security")["up"] is True
        d.put(**GBC, payload="01")
        first = b.next_of("sign")
        b.entity.sign(first)
        assert b.received()[-1] == 1
        d.answer()
        d.put(**GBC, payload="02")
        left = [b.next_of("sign")]
        b.send(secured(gbc(2)))
        left.append(b.next_of("verify"))
        b.entity.end()
        has({"code": "not signed"}, d.answer())
        assert d.event("security")["up"] is False
        b.counts(unanswered=2, signed=1, unsigned=1)
        b.entity = Entity(b.path).accept()
        assert d.event("security")["up"] is True
        for request in left:
            b.entity.serve(request)
        d.put(**GBC, payload="03")
        last = b.next_of("sign")
        assert last["id"] > max(r["id"] for r in left) > first["id"], (first, left, last)
        b.entity.sign(last)
        assert b.received()[-1] == 3
        b.counts(unanswered=2, signed=2, unsigned=1, strays=2)
        assert "event" not in d.answer()
        assert b"there" in d.end()[2]


def test_no_beacon_without_entity():
    with Bench(*LONG, entity=False) as b:
        assert b.is_quiet(4.5), "a beacon without a signature"
        assert b.daemon.counts()["sent"]["beacons"] == 0
        b.entity = Entity(b.path).accept()
        asked = b.entity.any_request()
        has({"do": "sign", "kind": "beacon"}, asked)
        b.entity.sign(asked)
        assert b.link.recv(4096)[PLAIN_AT:] == message_of(bytes.fromhex(asked["plain"]))


def test_receive_lines():
    """No application passes a frame to the station, in any spelling."""
    with Bench(*LONG) as b:
        frame = gbc(1, b"ice")
        lines = [{"frame": frame.hex()}, {"frame": ""}, {"frame": "00"},
                 {"frame": frame[:40].hex()},
                 {"frame": secured(frame).hex(), "plain": frame[PLAIN_AT:].hex()}]
        for keys in lines:
            answer = b.daemon.ask(id=1, do="receive", **keys)
            has({"id": 1, "result": "refused", "code": "not verified"}, answer)
        b.daemon.process.stdin.write(b'{"do":"\\u0072eceive","frame":"' + frame.hex().encode()
                                     + b'"}\n')
        b.daemon.process.stdin.flush()
        has({"result": "refused", "code": "not verified"}, b.daemon.answer())
        has({"error": "frame"}, b.daemon.ask(do="receive"))
        counts = b.counts()
        assert counts["received"] == 0, counts
        assert not [e for e in b.daemon.seen() if e["event"] == "delivered"]


def test_frames_that_need_no_entity():
    """Unsecured frames, octets that are not a secured frame, and frames for others."""
    with Bench(*LONG) as b:
        good = secured(gbc(1))
        unsecured = [gbc(1), frames.beacon(OTHER, 5), gbc(1)[:15]]
        wrong = [b"", good[:13], good[:12] + b"\x08\0" + good[14:], good.ljust(2311, b"\0"),
                 good.ljust(2500, b"\0"), good[:14], good[:14] + b"\x13" + good[15:],
                 good[:14] + b"\x22" + good[15:], good[:15] + b"\1" + good[16:],
                 good[:17] + b"\0" + good[18:], good[:17], good[:18],
                 bytes.fromhex("020000000002") + good[6:], bytes.fromhex("0180c2000000") + good[6:]]
        for frame in unsecured + wrong:
            b.send(frame)
        b.counts(unsecured=len(unsecured), dropped_early=len(wrong))
        for frame in (bytes.fromhex("020000000001") + good[6:], good.ljust(2310, b"\0")):
            b.send(frame)
            asked = b.next_of("verify")
            assert asked["message"] == frame[PLAIN_AT:].hex()
            b.entity.say(id=asked["id"], error="no")
        counts = b.counts(unsecured=len(unsecured), dropped_early=len(wrong), rejected=2)
        assert counts["received"] == 0, counts


def readable(plain):
    """A message in which the daemon finds the plain part: unsecured data of IEEE 1609.2."""
    return b"\x03\x80\x82" + len(plain).to_bytes(2, "big") + plain


def test_wrong_verdicts():
    """No answer of these brings a frame to the station."""
    with Bench(*LONG, "--security-workers", "2") as b:
        wrong = [{"error": "no"}, {"message": "00"}, {"plain": "0"}, {"plain": "zz"}, {},
                 {"plain": None}, {"plain": ["00"]}, {"plain": "00" * 2293},
                 {"plain": gbc(1)[PLAIN_AT:].hex(), "error": "but"},
                 {"plain": gbc(1)[PLAIN_AT:].hex(), "psid": "37"},
                 {"plain": gbc(1)[PLAIN_AT:].hex(), "generated": -1},
                 {"plain": gbc(1)[PLAIN_AT:].hex(), "psid": 1.5},
                 {"plain": gbc(1)[PLAIN_AT:].hex(), "psid": 1 << 64}]
        for k, keys in enumerate(wrong):
            b.send(secured(gbc(k)))
            b.entity.say(id=b.next_of("verify")["id"], **keys)
        b.counts(rejected=len(wrong))
        # Two with answers exchanged: the daemon reads the plain parts in the messages.
        for k in (100, 101):
            b.send(secured(gbc(k), readable(gbc(k)[PLAIN_AT:])))
        one, two = b.next_of("verify"), b.next_of("verify")
        b.entity.say(id=one["id"], plain=two["message"][10:])
        b.entity.say(id=two["id"], plain=one["message"][10:])
        b.counts(rejected=len(wrong) + 2)
        # One with the answer of another, of which the daemon cannot read the plain part, is the
        # entity's word. One that is not a packet is the station's to refuse.
        b.send(secured(gbc(102), readable(b"")))
        b.entity.say(id=b.next_of("verify")["id"], plain="")
        counts = b.counts(rejected=len(wrong) + 2, verified=1)
        assert counts["accepted"] == 0 and counts["refused"]["frame"] == 1, counts
        assert not [e for e in b.daemon.seen() if e["event"] == "delivered"]
        assert b.is_quiet()


def test_which_messages_are_read():
    """A plain part that isn't the one in the message is an error if and only if the message can be
    read: the samples of signed frames, each with a wrong answer."""
    sys.path.append(str(Path(__file__).resolve().parent.parent.parent.parent / "checks/lib"))
    try:
        from signed_rows import SAMPLES
    except ImportError:
        notes.append("python3-cryptography isn't installed: no samples of signed frames")
        return
    kinds = {"rejected": 0, "verified": 0, "dropped_early": 0, "unsecured": 0}
    with Bench(*LONG) as b:
        for sample in SAMPLES:
            code = (sample.refused or "").partition(" at ")[0]
            readable = code in ("", "L4") or code.startswith("L6")
            kind = "rejected" if readable else "dropped_early"
            kind = "verified" if code in ("E1", "E2") else kind
            kind = "unsecured" if "plain" in sample.values else kind
            if sample.name == "the warning, forwarded":
                continue  # a copy of the message before it
            kinds[kind] += 1
            b.send(sample.frame)
            if kind in ("verified", "rejected"):
                request = b.next_of("verify")
                assert request["message"] == sample.frame[PLAIN_AT:].hex(), sample.name
                b.entity.say(id=request["id"], plain="00")
            b.counts(**kinds)
    assert min(kinds.values()) > 0, kinds


def test_strays():
    """Answers to no open request are skipped: no JSON, no id, an id not used yet, or one done."""
    if has_no_clock():
        return
    with Bench("--security-timeout", "500", stopped=True) as b:
        good = {"plain": gbc(1)[PLAIN_AT:].hex()}
        b.send(secured(gbc(1)))
        asked = b.next_of("verify")
        number = b"%d" % asked["id"]
        datagrams = [b"", b"{", b"5", b"[]", b"\xff\0", b'{"id":}', json.dumps(good).encode(),
                     *(b'{"id":%s,"plain":"00"}' % n for n in (
                         b"0", b"999", b"-1", number + b".0", number + b"e0",
                         b'"' + number + b'"', b"null", b"18446744073709551616")),
                     b'{"id":%s,"plain":"' % number + b"00" * 20000 + b'"}',
                     b'{"id":%s,"plain":"00"}x' % number]
        for datagram in datagrams:
            b.entity.send(datagram)
        b.entity.verify(asked)
        b.daemon.event("delivered")
        b.entity.verify(asked)
        b.counts(verified=1, strays=len(datagrams) + 1)
        b.send(secured(gbc(2)))
        late = b.next_of("verify")
        b.wait(500)
        b.counts(verified=1, strays=len(datagrams) + 1, unanswered=1)
        b.entity.verify(late)
        b.counts(verified=1, strays=len(datagrams) + 2, unanswered=1)
        assert not [e for e in b.daemon.seen() if e["event"] == "delivered"]
        # With blanks, other keys, and keys in another order it is a good answer.
        b.send(secured(gbc(3)))
        asked = b.next_of("verify")
        text = json.dumps({"more": [{}], "plain": asked["message"][2:].upper(), "id": asked["id"]},
                          indent=2)
        b.entity.send(text.encode() + b"\n")
        b.daemon.event("delivered")
        notes.append(f"{len(datagrams) + 2} answers to no open request were skipped")


def fixed(k):
    """A frame whose octets are always the same."""
    return secured(frames.gbc(OTHER, 5, k, b"x"))


def copies_of(frame, count):
    """The frame as other stations forward it: from other link addresses, with fewer hops."""
    for k in range(count):
        source = bytes([2, 0, 0, 0, 0, 16 + k])
        yield frame[:6] + source + frame[12:17] + bytes([9 - k]) + frame[18:]


def test_copies():
    """Copies of a message cost one question, whether they come before its answer or after it."""
    if has_no_clock():
        return
    with Bench(*LONG, stopped=True) as b:
        frame = secured(gbc(1, b"ice"))
        b.send(frame)
        for copy in copies_of(frame, 3):
            b.send(copy)
        asked = b.next_of("verify")
        has({"hops": 10, "from": "020000000009"}, asked)
        assert b.entity.is_quiet(0.2)
        b.entity.verify(asked)
        b.counts(verified=4)
        b.wait(999)
        b.send(list(copies_of(frame, 5))[4])
        counts = b.counts(verified=5)
        assert counts["accepted"] == 1 and counts["ignored"]["duplicate"] == 4, counts
        wrong = secured(gbc(2))
        b.send(wrong)
        b.send(wrong)
        b.entity.say(id=b.next_of("verify")["id"], error="no")
        b.counts(verified=5, rejected=2)
        b.send(wrong)
        b.counts(verified=5, rejected=3)
        assert b.entity.is_quiet(0.1)
        b.wait(1)
        b.send(frame)
        b.entity.verify(b.next_of("verify"))
        b.counts(verified=6, rejected=3)


def test_late_answer():
    """An answer that is late counts for a copy that waited, and for one that comes later."""
    if has_no_clock():
        return
    with Bench("--security-timeout", "200", stopped=True) as b:
        b.put_off_beacons()
        frame = secured(gbc(1, b"ice"))
        b.send(frame)
        asked = b.entity.any_request()
        b.wait(200)
        b.counts(unanswered=1, signed=1)
        first, second = copies_of(frame, 2)
        b.send(first)
        b.daemon.until(lambda n: n["link"]["frames"] == 2)
        b.entity.verify(asked)
        b.daemon.event("delivered")
        b.send(second)
        counts = b.counts(unanswered=1, verified=2, strays=1, signed=1)
        assert counts["delivered"] == 1, counts
        b.entity.serve_by_itself(b.entity.any_request())
        assert b.entity.is_quiet(0.3)


def test_lost_question():
    """If a question is lost, the entity is asked whether it lives, and a copy is a new question."""
    if has_no_clock():
        return
    with Bench("--security-timeout", "300", stopped=True) as b:
        b.put_off_beacons()
        frame = secured(gbc(1, b"ice"))
        b.send(frame)
        first = b.entity.any_request()
        b.wait(150)
        b.send(next(copies_of(frame, 1)))
        b.daemon.until(lambda n: n["link"]["frames"] == 2)
        b.wait(150)
        probe = b.entity.any_request()
        assert list(probe) == list(first), (probe, first)
        has({"do": "verify", "message": PROBE, "lt": "00", "hops": 1, "from": "000000000000"},
            probe)
        b.entity.say(id=probe["id"], error="no message")
        second = b.next_of("verify")
        assert first["message"] == second["message"] and first["id"] < second["id"]
        b.entity.verify(second)
        b.daemon.event("delivered")
        b.counts(verified=1, unanswered=1, signed=1)
        assert not [e for e in b.daemon.events if e["event"] == "security"], b.daemon.events


def test_hanging_entity():
    """One that does not answer: an event, a note, a metric, and the same when it answers again."""
    if has_no_clock():
        return
    with Bench("--security-timeout", "200", "--metrics", "/run/geostation-metrics",
               stopped=True) as b:
        def is_up():
            s = socket.socket(socket.AF_UNIX)
            s.connect("/run/geostation-metrics")
            return "\ngeostation_security_up 1.000\n" in s.makefile().read()

        b.put_off_beacons()
        assert is_up()
        b.send(secured(gbc(1)))
        b.daemon.put(id=1, **GBC, payload="01")
        waiting = [b.entity.any_request() for _ in range(2)]
        b.wait(200)
        has({"id": 1, "code": "not signed"}, b.daemon.answer())
        assert is_up()
        b.wait(200)
        assert b.daemon.event("security")["up"] is False
        assert not is_up()
        has({"id": 2, "code": "no security"}, b.daemon.ask(id=2, **GBC, payload="02"))
        b.send(secured(gbc(2)))
        b.counts(unanswered=2, signed=1, unsigned=1)
        for request in waiting:
            b.entity.serve(request)
        assert b.daemon.event("security")["up"] is True
        assert is_up()
        b.counts(unanswered=2, signed=1, unsigned=1, strays=2)
        b.daemon.put(id=3, **GBC, payload="03")
        b.entity.sign(b.next_of("sign"))
        has({"id": 3, "result": "sent"}, b.daemon.answer())
        said = b.daemon.end()[2]
        assert b"has not answered for" in said and b"answers again" in said, said


def test_stopped_entity():
    """A process that is stopped and goes on, as a machine that is overloaded."""
    with tempfile.TemporaryDirectory() as room:
        path = f"{room}/security"
        other = subprocess.Popen([sys.executable, Path(__file__).with_name("pace.py"), PROGRAM,
                                  "entity", path])
        until(lambda: os.path.exists(path), "no socket")
        d = Daemon([*udp_command(1, OWN_PORT, f"127.0.0.1:{TEST_PORT}"), "--security", path])
        until(lambda: d.ask(**GBC, payload="00")["result"] == "sent", "it is not signed")
        d.seen()
        other.send_signal(signal.SIGSTOP)
        d.ask(**GBC, payload="01")
        assert d.event("security")["up"] is False
        has({"code": "no security"}, d.ask(**GBC, payload="02"))
        other.send_signal(signal.SIGCONT)
        assert d.event("security")["up"] is True
        until(lambda: d.ask(**GBC, payload="03")["result"] == "sent", "it is not signed")
        d.end()
        other.kill()
        other.wait()


def test_answers_are_kept_for_256():
    if has_no_clock():
        return
    with Bench(stopped=True) as b:
        for k in range(257):
            b.send(fixed(k))
            b.entity.verify(b.next_of("verify"))
            b.daemon.event("delivered")
        b.send(fixed(1))
        b.counts(verified=258)
        b.send(fixed(0))
        assert bytes.fromhex(b.next_of("verify")["message"]) == fixed(0)[PLAIN_AT:]


def test_places():
    """Two requests are with the entity at a time, or one if it was slow, and no frame waits for
    long. Own packets have as many places of their own, and 16 to wait in."""
    with Bench(*LONG) as b:
        b.put_off_beacons()
        for k in range(100):
            b.send(fixed(k))
        asked = b.entity.burst()
        messages = [fixed(k)[PLAIN_AT:].hex() for k in range(2)]
        assert asked and [r["message"] for r in asked] == messages[: len(asked)], asked
        dropped = 100 - len(asked)
        b.counts(overrun=dropped, signed=1)
        clients = [connect(b.listen) for _ in range(3)]
        for number, (s, lines) in enumerate(clients):
            lines.readline()
            for k in range(7):
                s.sendall(json.dumps({"id": k, **SHB, "payload": f"{number:02x}{k:02x}"}).encode()
                          + b"\n")
            b.let_read()  # the next client's come after these
        signs = b.entity.burst()
        assert 1 <= len(signs) <= 2 and all(r["do"] == "sign" for r in signs), signs
        count = 16 + len(signs)
        b.counts(overrun=dropped, unsigned=21 - count, signed=1)
        for request in signs:
            b.entity.sign(request)
        while len(signs) < count:
            signs.append(b.next_of("sign"))
            b.entity.sign(signs[-1])
        wanted = [f"{n:02x}{k:02x}" for n in range(3) for k in range(7)][:count]
        assert [r["plain"][-4:] for r in signs] == wanted, signs
        for request in asked:
            b.entity.verify(request)
        b.counts(overrun=dropped, unsigned=21 - count, signed=1 + count, verified=len(asked))


def test_entity_dies_while_all_wait():
    """Each request has its outcome at once, and each place is free again for the next entity."""
    with Bench(*LONG) as b:
        asked = 0
        for turn in range(1, 4):
            b.put_off_beacons()
            for k in range(100):
                b.send(fixed(100 * turn + k))
            before, asked = asked, asked + len(b.entity.burst())
            b.counts(overrun=100 * turn - asked, unanswered=before, unsigned=20 * (turn - 1),
                     signed=turn)
            clients = [connect(b.listen) for _ in range(4)]
            for s, lines in clients:
                lines.readline()
                s.sendall((json.dumps({**SHB, "payload": ""}).encode() + b"\n") * 5)
            b.let_read()
            b.entity.end()
            for s, lines in clients:
                found = [json.loads(lines.readline()) for _ in range(6)]
                answers = [a for a in found if "event" not in a]
                assert [a["code"] for a in answers] == ["not signed"] * 5, found
                lines.close()
                s.close()
            b.counts(overrun=100 * turn - asked, unanswered=asked, unsigned=20 * turn, signed=turn)
            b.entity = Entity(b.path).accept()
            assert b.daemon.event("security")["up"] is False
            assert b.daemon.event("security")["up"] is True


def test_pipelined_clients():
    """A client's requests behind one that waits are answered in order, however many there are."""
    with Bench(*LONG) as b:
        s, lines = connect(b.listen)
        lines.readline()
        text = b"".join(b'{"id":%d,"do":"counts"}\n' % k for k in range(1, 40))
        s.sendall(json.dumps({"id": 0, **GBC, "payload": ""}).encode() + b"\n" + text
                  + b'{"id":40,"do":"counts"}')
        s.shutdown(socket.SHUT_WR)
        asked = b.next_of("sign")
        has({"result": "counts"}, b.daemon.ask(do="counts"))
        b.entity.sign(asked)
        found = [json.loads(line) for line in lines]
        assert [a["id"] for a in found] == list(range(41)), found
        assert found[0]["result"] == "sent"


def test_waiting_clients_leave_places():
    """Sixteen clients with as many requests as they can have: another one is answered at once."""
    with Bench(*LONG) as b:
        clients = [connect(b.listen) for _ in range(16)]
        for s, lines in clients:
            lines.readline()
            s.sendall(json.dumps({**GBC, "payload": "00"}).encode() + b"\n"
                      + b'{"do":"counts"}\n' * 20)
        asked = b.entity.burst()
        has({"result": "counts"}, b.daemon.ask(do="counts"))
        for request in asked:
            b.entity.sign(request)
        for _ in range(16 - len(asked)):
            b.entity.sign(b.next_of("sign"))
        for _, lines in clients:
            found = [json.loads(lines.readline())["result"] for _ in range(21)]
            assert found == ["sent"] + ["counts"] * 20, found


def test_client_that_is_gone():
    """A client that sends one request and closes at once: its packet is sent."""
    with Bench(*LONG) as b:
        for k in range(120):  # more than there are places for answers
            s, lines = connect(b.listen)
            lines.readline()
            s.sendall(json.dumps({**GBC, "payload": f"{k:02x}"}).encode() + b"\n")
            lines.close()
            s.close()
            b.entity.sign(b.next_of("sign"))
            assert b.received()[-1] == k
        has({"result": "counts"}, b.daemon.ask(do="counts"))


def test_end_waits_for_signatures():
    """The end of standard input, and SIGTERM: requests that came before are answered."""
    if has_no_clock():
        return
    for how in ("input", "signal"):
        with tempfile.TemporaryDirectory() as room:
            entity = Entity(f"{room}/security")
            d = Daemon([*udp_command(1, OWN_PORT, f"127.0.0.1:{TEST_PORT}"), "--security",
                        entity.path, *LONG], env=stopped_clock(room).environment)
            entity.accept()
            d.put(id=1, **GBC, payload="00")
            asked = entity.request()
            if how == "input":
                d.process.stdin.close()
            else:
                d.process.send_signal(signal.SIGTERM)
            time.sleep(0.1)
            entity.sign(asked)
            has({"id": 1, "result": "sent"}, d.answer())
            assert d.process.wait(PATIENCE) == 0
            d.end()
            entity.end()


def test_longer_than_the_mtu():
    """A signed frame over the MTU is not sent, and counted."""
    with Net(PROGRAM, 1) as net, tempfile.TemporaryDirectory() as room:
        entity = Entity(f"{room}/security")
        d = net.station(0, "--security", entity.path, *LONG)
        entity.accept()
        d.put(**GBC, payload="00")
        request = entity.request()
        entity.say(id=request["id"], message="00" * 1600)
        has({"result": "refused", "code": "too long"}, d.answer())
        counts = d.counts()  # a beacon may have been signed before
        assert counts["link"]["dropped"] == 1, counts
        assert counts["link"]["signed"] == 1 + counts["sent"]["beacons"], counts
        entity.end()


AS_OTHER = """
import os, socket, sys
os.setgid(65534)
os.setuid(65534)
s = socket.socket(socket.AF_UNIX, socket.SOCK_SEQPACKET)
s.bind(sys.argv[1])
s.listen()
while True:
    one = s.accept()[0]
    one.recv(65536) and print("asked", flush=True)
    one.close()
"""


def test_other_user():
    """An entity of another user is refused and reported, unless --security-user names it."""
    if os.geteuid() != 0 or "4294967295" not in open("/proc/self/uid_map").read():
        notes.append("there is only one user here: entities of others are not tested")
        return
    name = pwd.getpwuid(65534).pw_name
    for more in ((), ("--security-user", name)):
        with tempfile.TemporaryDirectory() as room:
            os.chmod(room, 0o777)
            path = f"{room}/security"
            other = subprocess.Popen([sys.executable, "-c", AS_OTHER, path], stdout=subprocess.PIPE)
            until(lambda: os.path.exists(path), "no socket")
            d = Daemon([*udp_command(1, OWN_PORT, f"127.0.0.1:{TEST_PORT}"), "--security", path,
                        *more])
            if more:
                d.put(**GBC, payload="00")
                assert select.select([other.stdout], [], [], PATIENCE)[0], "it is not asked"
                assert other.stdout.readline() == b"asked\n"
            else:
                assert d.event("security")["up"] is False
                has({"code": "no security"}, d.ask(**GBC, payload="00"))
            other.kill()
            other.wait()
            assert (b"run by user 65534" in d.end()[2]) == (not more)


def test_entity_in_c():
    """Two stations with the example of an entity in C: a warning of one arrives at the other."""
    example = Path(__file__).resolve().parent.parent.parent.parent / "examples/security"
    sources = [example / name for name in ("entity.c", "rules.c", "hsm.c")]
    with ExitStack() as stack:
        room = stack.enter_context(tempfile.TemporaryDirectory())
        subprocess.run(["cc", "-std=c11", "-O2", "-o", f"{room}/entity", *sources], check=True)
        names = {1: "3c00020000000001", 2: "3c00020000000002"}
        Path(f"{room}/keys").write_text("".join(f"{a} {k:064x}\n" for k, a in names.items()))
        stations = {}
        for k, address in names.items():
            path = f"{room}/{k}"
            entity = subprocess.Popen([f"{room}/entity", f"{room}/keys", address, path])
            stack.callback(entity.wait)
            stack.callback(entity.kill)
            until(lambda: os.path.exists(path), "no socket")
            peer = f"127.0.0.1:{OWN_PORT + 2 - k}"
            stations[k] = Daemon([*udp_command(k, OWN_PORT + k - 1, peer), "--security", path,
                                  "--security-timeout", "2000"])
            stack.callback(stations[k].end)
        until(lambda: stations[1].ask(**GBC, payload="696365")["result"] == "sent", "not signed")
        has({"source": names[1], "payload": "696365", "psid": 37},
            stations[2].event("delivered"))


def test_options():
    """Which options belong together, and their ranges."""
    place = ("--udp", "127.0.0.1:0", "--to", "127.0.0.1:9", "--address", "3c00020000000001",
             "--position", "0,0")
    for more in (("--security-user", "root"), ("--security-timeout", "5"),
                 ("--security-workers", "2"), ("--security", "/x", "--security-workers", "0"),
                 ("--security", "/x", "--security-workers", "13"),
                 ("--security", "/x", "--security-user", "nobody here"),
                 ("--security", "/x", "--security-timeout", "0"),
                 ("--security", "/x", "--security-timeout", "10001"),
                 ("--security", "/" + "x" * 108)):
        p = run(*place, *more)
        assert p.returncode == 2 and "geostation-link: " in p.stderr, (more, p)


def test_metrics_of_signed_packets():
    """The counts for Prometheus, with the same numbers."""
    with Bench(*LONG, "--metrics", "/run/geostation-metrics") as b:
        b.send(gbc(1))
        b.send(secured(gbc(1)))
        b.entity.verify(b.next_of("verify"))
        b.counts(verified=1, unsecured=1)
        s = socket.socket(socket.AF_UNIX)
        s.connect("/run/geostation-metrics")
        text = s.makefile().read()
        for line in ('security_frames_total{outcome="verified"} 1', "security_up 1.000",
                     'security_frames_total{outcome="unsecured"} 1', "security_strays_total 0"):
            assert f"geostation_{line}\n" in text, text
