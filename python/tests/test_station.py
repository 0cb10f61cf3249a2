"""Two stations of the library. Moments of beacons are those of the standard, 3 s after the last
packet; lengths those of its headers."""

import copy
import ctypes
import ctypes.util
import dataclasses
import json
import os
import pickle
import shutil
import signal
import subprocess
import sys
import tempfile
import threading
import time
import unittest
from pathlib import Path

from geostation import (
    LAST_MOMENT,
    NO_LIMITS,
    SECURED_FRAME_MAX,
    Area,
    BadArgument,
    BadFrame,
    Contention,
    ContentionCounts,
    Fault,
    IgnoreReason,
    Kind,
    Limits,
    Message,
    OverRate,
    Reception,
    Refused,
    Shape,
    Station,
    Status,
    errors,
    frame_length,
    library,
    message_of,
    plain_part,
    read_frame,
    seal,
)

A, B = 0x1400020000000001, 0x1400020000000002
INCLUDE = Path(os.environ.get("GEOSTATION_PREFIX", "/usr")) / "include"
CC = shutil.which(os.environ.get("CC", "cc"))
CIRCLE = Area.circle(200, latitude=449, longitude=0)


class Stations(unittest.TestCase):
    def test_delivered_and_relayed(self):
        with Station(A, latitude=449, longitude=0) as a:
            with Station("1400020000000002", degrees=(0.0000449, 0.00009)) as b:
                b.open_port(0, 2002)
                frame = a.send_gbc(10, port=2002, payload=b"hi", area=CIRCLE, info=7, max_hops=5)
                got = b.receive(11, frame)
                self.assertEqual((None, Message(2002, 7, b"hi")), (got.ignored, got.delivered))
                self.assertEqual(76, len(got.relay))
                self.assertEqual(Reception(IgnoreReason.OWN_SOURCE), a.receive(12, got.relay))
                self.assertEqual(A, got.source)
                self.assertEqual("duplicate", str(b.receive(12, frame).ignored))
                told = read_frame(got.relay)
                self.assertEqual((Kind.GBC, A, 449), (told.kind, told.vector.address, 449))
                self.assertEqual((4, 5, CIRCLE, 0), (told.hops_left, told.max_hops, told.area, 0))

    def test_fields_of_frames(self):
        a = Station(A, latitude=1, longitude=-2)
        area = Area.rectangle(30, 20, 359, degrees=(-0.0000005, 0.0000007))
        told = read_frame(a.send_gac(10, port=1, payload=b"x", area=area, traffic_class=3))
        self.assertEqual((Kind.GAC, 0, area), (told.kind, told.number, told.area))
        self.assertEqual((b"\xff" * 6, bytes.fromhex("020000000001")), (told.target, told.source))
        self.assertEqual((0x1A, 3, True, None), (told.lifetime, told.traffic_class, True, None))
        self.assertEqual((1, -2), (told.vector.latitude, told.vector.longitude))
        self.assertEqual((1e-7, -2e-7), told.vector.degrees)
        told = read_frame(a.send_shb(10, port=9, info=1, payload=bytearray()))
        self.assertEqual((Kind.SHB, bytes(4), None), (told.kind, told.media, told.area))
        self.assertEqual(Message(9, 1, b""), told.message)
        with self.assertRaises(dataclasses.FrozenInstanceError):
            told.kind = Kind.GBC

    def test_beacons_make_neighbours(self):
        a, b = Station(A, latitude=0, longitude=0), Station(B, latitude=0, longitude=0)
        b.move(1, latitude=5, longitude=6, speed=-7, heading=8)
        self.assertEqual(1, b.next_beacon())
        self.assertEqual(50, len(b.tick(1)))
        self.assertEqual(3001, b.next_beacon())
        self.assertIsNone(b.tick(3000))
        a.receive(3001, b.tick(3001))
        heard = list(a.neighbours(3001))
        self.assertEqual([(B, 1, 5, 6, -7, 8, True)], [dataclasses.astuple(v) for v in heard])
        self.assertEqual(heard[0], a.look_up(3001, B))
        self.assertIsNone(a.look_up(23002, B))
        self.assertEqual([], list(a.neighbours(23002)))

    def test_a_fix_a_lifetime_and_a_number(self):
        a = Station(A, latitude=0, longitude=0)
        a.move_at(1000, 4294967295, latitude=5, longitude=6, accurate=False)
        told = read_frame(a.send_shb_with_lifetime(1000, 0x05, port=9, payload=b"x"))
        self.assertEqual((0x05, 4294967295), (told.lifetime, told.vector.timestamp))
        self.assertEqual((5, 6, False), dataclasses.astuple(told.vector)[2:4] + (False,))
        self.assertEqual(0x1A, read_frame(a.send_shb(1000, port=9, payload=b"x")).lifetime)
        # 3 s after the last packet, and the jitter.
        self.assertEqual(4750, a.next_beacon(750))
        with self.assertRaises(Refused) as told:
            a.next_beacon(751)
        self.assertEqual("S9", told.exception.code)
        self.assertEqual(0, a.next_number())
        a.restart(1000, 65535)
        self.assertEqual(65535, a.next_number())

    def test_media_dependent_data(self):
        """They are octets 50 to 53 of the frame of an SHB, and nothing else differs."""
        a, b = Station(A, latitude=0, longitude=0), Station(B, latitude=0, longitude=0)
        media, zeros = bytes.fromhex("4d5a00ff"), bytes(4)
        plain = a.send_shb(10, port=9, payload=b"x")
        frame = a.send_shb(10, port=9, payload=b"x", media=bytearray(media))
        self.assertEqual(plain[:50] + media + plain[54:], frame)
        self.assertEqual(media, read_frame(frame).media)
        self.assertEqual(zeros, plain[50:54])
        longer = a.send_shb_with_lifetime(10, 0x05, port=9, payload=b"x", media=media)
        self.assertEqual((0x05, media), (longer[16], longer[50:54]))
        self.assertEqual([media, zeros], [b.receive(11, it).media for it in (frame, plain)])
        self.assertEqual(Reception(IgnoreReason.OWN_SOURCE), a.receive(11, frame))
        self.assertEqual(Reception(source=A), b.receive(11, a.tick(3010)))
        for wrong in (b"", bytes(3), bytes(5)):
            with self.assertRaises(BadArgument) as told:
                a.send_shb(3010, port=9, payload=b"x", media=wrong)
            self.assertEqual("media", told.exception.name)
        for wrong in (4, "00000000", None):
            with self.assertRaises(TypeError):
                a.send_shb(3010, port=9, payload=b"x", media=wrong)

    def test_a_road_side_unit_its_counts_and_padding(self):
        a = Station(A, latitude=0, longitude=0, mobile=False, number=65535)
        frame = a.send_gbc(5, port=1, payload=b"", area=CIRCLE)
        told = read_frame(frame)
        self.assertEqual((False, 65535, 0), (told.mobile, told.number, a.next_number()))
        beacon = Station(B, latitude=0, longitude=0).tick(0)
        padded = beacon + bytes(60 - len(beacon))
        self.assertEqual((50, 0), (frame_length(padded), frame_length(padded[1:])))
        self.assertEqual(Reception(source=B), a.receive(5, padded))
        with self.assertRaises(BadFrame):
            a.receive(5, b"")
        counts = a.counts()
        self.assertEqual((2, 1, 0, 0), dataclasses.astuple(counts)[:4])
        self.assertEqual((0, 0, 1, 0, 0, 0), dataclasses.astuple(counts.refused))
        self.assertEqual((0, 0, 1, 0), dataclasses.astuple(counts.sent))

    def test_signed_packets(self):
        a, b = Station(A, latitude=449, longitude=0), Station(B, latitude=449, longitude=900)
        b.open_port(0, 2002)
        frame = a.send_gbc(10, port=2002, payload=b"hi", area=CIRCLE, info=7, max_hops=5)
        plain, message = plain_part(frame), b"\x03\x81\x40"
        self.assertEqual(frame[18:], plain)
        secured = seal(frame, message)
        # The link addresses, 12 in place of 11, lifetime and hop limit, and the message.
        self.assertEqual(frame[:14] + b"\x12" + frame[15:18] + message, secured)
        self.assertEqual(message, message_of(bytearray(secured)))
        got = b.receive_verified(11, secured, plain)
        self.assertEqual((None, Message(2002, 7, b"hi")), (got.ignored, got.delivered))
        relayed = secured[:6] + bytes.fromhex("020000000002") + secured[12:17] + b"\x04" + message
        self.assertEqual((relayed, A), (got.relay, got.source))
        self.assertEqual("duplicate", str(b.receive(12, frame).ignored))
        self.assertEqual("own-source", str(a.receive_verified(12, got.relay, plain).ignored))
        counts = b.counts()
        self.assertEqual((2, 1, 1, 1), dataclasses.astuple(counts)[:4])

    def test_the_longest_secured_frame(self):
        a = Station(A, latitude=449, longitude=0)
        frame = a.send_gbc(10, port=2002, payload=b"", area=CIRCLE)
        secured = seal(frame, bytes(SECURED_FRAME_MAX - 18))
        self.assertEqual(SECURED_FRAME_MAX, len(secured))
        relay = Station(B, latitude=449, longitude=900).receive_verified(
            11, secured, plain_part(frame)
        ).relay
        self.assertEqual(secured[18:], relay[18:])
        for message in (b"", bytes(SECURED_FRAME_MAX - 17)):
            with self.assertRaises(BadArgument) as told:
                seal(frame, message)
            self.assertEqual("message", told.exception.name)

    def test_faults_of_signed_packets(self):
        a = Station(A, latitude=449, longitude=0)
        frame = a.send_gbc(10, port=2002, payload=b"hi", area=CIRCLE, max_hops=5)
        plain, secured = plain_part(frame), seal(frame, b"s")
        more = secured[:17] + b"\x06" + secured[18:]
        for octets, part, fault, text in [
            (b"", plain, "L1", "a frame of fewer than 14 octets"),
            (secured + bytes(3000), plain, "L3", "a frame that is too long"),
            (frame, plain, "L5 G3 at 0", "no Common Header after the Basic Header, at octet 0"),
            (secured[:18], plain, "L5 G1 at 4", "a truncated packet, at octet 4"),
            (secured, b"", "L6 G1 at 4", "a truncated packet, at octet 4"),
            (more, plain, "L6 G9 at 10", "more hops left than the maximum, at octet 10"),
            (secured, plain + b"s", "L4", "octets after the packet"),
        ]:
            with self.assertRaises(BadFrame) as told:
                a.receive_verified(10, octets, part)
            self.assertEqual(("S3 " + fault, text), (told.exception.code, str(told.exception)))
            self.assertEqual(told.exception.fault, errors.refused_by("S3 " + fault).fault)
        for call in (plain_part, lambda octets: seal(octets, b"s")):
            with self.assertRaises(BadFrame) as told:
                call(secured)
            self.assertEqual("L5 G3 at 0", told.exception.code)
        with self.assertRaises(Refused) as told:
            message_of(frame)
        self.assertEqual(Status.BAD_FRAME, told.exception.status)
        with self.assertRaises(Refused) as told:
            a.receive_verified(9, b"", b"")
        self.assertEqual("S1", told.exception.code)
        for call in (
            lambda: a.receive_verified(10, "00", plain),
            lambda: a.receive_verified(10, secured, 7),
            lambda: seal(frame, "00"),
            lambda: message_of("00"),
        ):
            self.assertRaises(TypeError, call)

    def test_signed_packets_by_lines(self):
        a = Station(A, latitude=449, longitude=0)
        frame = a.send_gbc(10, port=2002, payload=b"hi", area=CIRCLE)
        told = b'{"do":"seal","frame":"%s","message":"03"}' % frame.hex().encode()
        answer, secured = a.handle_json(10, told)
        self.assertEqual(seal(frame, b"\x03"), secured)
        wanted = b'{"at":10,"result":"sealed","frame":"%s"}' % secured.hex().encode()
        self.assertEqual(wanted, answer)

    def test_lines_are_answered(self):
        with Station(A, latitude=449, longitude=0) as a, Station(
            A, latitude=449, longitude=0
        ) as twin:
            answer, frame = a.handle_json(5, b'{"do":"shb","port":2002,"info":7,"tc":2,"payload":"6869"}')
            sent = twin.send_shb(5, port=2002, info=7, traffic_class=2, payload=b"hi")
            self.assertEqual(sent, frame)
            told = b'{"at":5,"result":"sent","frame":"' + frame.hex().encode() + b'"}'
            self.assertEqual(told, answer)
            self.assertEqual((b"", b""), a.handle_json(5, b""))
            answer, frame = a.handle_json(5, b"{}", number=9)
            self.assertTrue(answer.startswith(b'{"line":9,"error":"do"'))
            self.assertEqual(b"", frame)

    def test_refusals(self):
        a = Station(A, latitude=0, longitude=0)
        a.open_port(5, 1)
        cases = [
            ("S8 B2", Status.PORT_ALREADY_OPEN, lambda: a.open_port(5, 1)),
            ("S1", Status.MOMENT_EARLIER, lambda: a.open_port(4, 2)),
            ("S2", Status.MOMENT_TOO_LATE, lambda: a.restart((1 << 62) + 1, 2)),
            ("S8 B4", Status.PORT_NOT_OPEN, lambda: a.close_port(5, 2)),
            ("S9", Status.JITTER_RANGE, lambda: a.tick(5, 751)),
            ("S6", Status.PAYLOAD_TOO_LONG, lambda: a.send_shb(5, port=1, payload=bytes(1395))),
            (
                "S7",
                Status.HOP_LIMIT_ZERO,
                lambda: a.send_gbc(5, port=1, payload=b"", area=CIRCLE, max_hops=0),
            ),
        ]
        for code, status, call in cases:
            with self.assertRaises(Refused) as told:
                call()
            self.assertEqual((code, status), (told.exception.code, told.exception.status))
        with self.assertRaises(BadFrame) as told:
            a.receive(5, b"")
        self.assertEqual((Fault(1), "S3 L1"), (told.exception.fault, told.exception.code))
        self.assertEqual("a frame of fewer than 14 octets", str(told.exception))
        frame = bytearray(a.send_gbc(5, port=1, payload=b"", area=CIRCLE))
        frame[17], frame[24] = 2, 1
        with self.assertRaises(BadFrame) as told:
            read_frame(frame)
        self.assertEqual("L5 G9 at 10", told.exception.code)
        self.assertEqual("more hops left than the maximum, at octet 10", str(told.exception))

    def test_arguments_out_of_range_are_named(self):
        a = Station(A, latitude=0, longitude=0)
        for name, call in [
            ("port", lambda: a.open_port(5, 65536)),
            ("now", lambda: a.open_port(-1, 1)),
            ("latitude", lambda: a.move(5, degrees=(90.0000001, 0))),
            ("speed", lambda: a.move(5, latitude=0, longitude=0, speed=16384)),
            ("a", lambda: Area.circle(0, latitude=0, longitude=0)),
            ("angle", lambda: Area.ellipse(1, 1, 360, latitude=0, longitude=0)),
            ("capacity", lambda: Station(A, latitude=0, longitude=0, capacity=4097)),
            ("address", lambda: Station("1400010000000001", latitude=0, longitude=0)),
            ("address", lambda: Station("14", latitude=0, longitude=0)),
        ]:
            with self.assertRaises(BadArgument) as told:
                call()
            self.assertEqual((name, 20, ""), (told.exception.name, told.exception.status, ""))
        for call in [
            lambda: a.move(5, latitude=0.5, longitude=0),
            lambda: a.move(5, latitude=0, longitude=0, degrees=(0, 0)),
            lambda: a.move(5),
            lambda: a.open_port(5, True),
            lambda: a.receive(5, "00"),
            lambda: a.send_shb(5, port=1, payload=5),
        ]:
            self.assertRaises(TypeError, call)
        a.free()
        a.free()
        self.assertRaises(ValueError, a.next_beacon)

    def test_another_thread_is_refused(self):
        a, told = Station(A, latitude=0, longitude=0), []

        def use():
            for call in (
                a.next_beacon,
                a.free,
                lambda: a.open_port(0, 1),
                lambda: next(a.neighbours(0)),
            ):
                try:
                    call()
                except RuntimeError as error:
                    told.append(str(error))

        thread = threading.Thread(target=use)
        thread.start()
        thread.join()
        self.assertEqual(4, len(told), told)
        a.open_port(0, 1)


class Misuse(unittest.TestCase):
    def test_no_copies(self):
        a = Station(A, latitude=0, longitude=0)
        for make in (copy.copy, copy.deepcopy, pickle.dumps):
            with self.assertRaisesRegex(TypeError, "can't be copied or pickled"):
                make(a)
        a.open_port(0, 1)

    def test_made_once(self):
        a = Station(A, latitude=0, longitude=0, number=7)
        with self.assertRaisesRegex(RuntimeError, "made once"):
            a.__init__(B, latitude=0, longitude=0)
        self.assertEqual(7, a.next_number())
        with self.assertRaises(BadArgument):
            Station.__new__(Station).__init__(A, latitude=0, longitude=0, capacity=0)

    def test_a_call_within_a_call(self):
        # A slow machine spends all its time in the handler if the timer is faster. It also makes more
        # calls than a station sends at once.
        a, told, found = Station(A, latitude=0, longitude=0, limits=NO_LIMITS), [], set()

        def use(*_):
            try:
                told.append(a.send_shb(0, port=1, payload=b"handler"))
            except RuntimeError as error:
                told.append(str(error))

        before = signal.signal(signal.SIGALRM, use)
        signal.setitimer(signal.ITIMER_REAL, 0.01, 0.01)
        try:
            limit = time.monotonic() + 20
            while not any("within another" in t for t in told if isinstance(t, str)):
                found.add(a.send_shb(0, port=1, payload=b"outer"))
                self.assertLess(time.monotonic(), limit)
        finally:
            signal.setitimer(signal.ITIMER_REAL, 0)
            signal.signal(signal.SIGALRM, before)
        self.assertEqual({b"outer"}, {read_frame(frame).message.payload for frame in found})
        frames = [t for t in told if isinstance(t, bytes)]
        self.assertTrue(all(read_frame(t).message.payload == b"handler" for t in frames))

    def test_a_call_of_the_payload(self):
        a = Station(A, latitude=0, longitude=0)

        class Payload:
            def __bytes__(self):
                return a.send_shb(0, port=1, payload=b"inner")

        with self.assertRaisesRegex(RuntimeError, "within another"):
            a.send_shb(0, port=1, payload=Payload())
        self.assertEqual(b"x", read_frame(a.send_shb(0, port=1, payload=b"x")).message.payload)

    def test_refusals_are_pickled(self):
        a = Station(A, latitude=0, longitude=0)
        for call in (
            lambda: a.send_shb(0, port=1, payload=bytes(1395)),
            lambda: a.open_port(0, 70000),
            lambda: a.receive(0, b""),
            lambda: read_frame(b""),
        ):
            with self.assertRaises(Refused) as told:
                call()
            one = told.exception
            for two in (pickle.loads(pickle.dumps(one)), copy.copy(one)):
                self.assertIs(type(one), type(two))
                self.assertEqual((str(one), one.code), (str(two), two.code))
                self.assertEqual(vars(one), vars(two))

    def test_an_area_of_another_type(self):
        a = Station(A, latitude=0, longitude=0)
        self.assertRaises(TypeError, a.send_gbc, 0, port=1, payload=b"", area=None)

    def test_another_library_is_refused(self):
        code = "import geostation; geostation.Station(1, latitude=0, longitude=0)"
        other = ctypes.util.find_library("m") or "libm.so.6"
        told = subprocess.run(
            [sys.executable, "-c", code],
            env={**os.environ, "GEOSTATION_LIBRARY": other},
            capture_output=True,
            text=True,
        )
        self.assertIn(f"ImportError: {other} is not the libgeostation of this package", told.stderr)


class TestLimits(unittest.TestCase):
    """Buckets as RFC 3290 describes them: a burst at once, then so many per second."""

    def test_defaults_are_the_librarys(self):
        config = library.Config()
        library.load().config_init(config)
        for field in dataclasses.fields(Limits):
            with self.subTest(field.name):
                self.assertEqual(getattr(config, field.name), getattr(Limits(), field.name))

    def test_ranges(self):
        names = [f.name for f in dataclasses.fields(Limits) if f.name != "deliver_once"]
        for name in names:
            for wrong in (-1, 256 if name == "hop_cap" else 1_000_001):
                with self.subTest(name=name, wrong=wrong):
                    with self.assertRaises(BadArgument) as told:
                        Limits(**{name: wrong})
                    self.assertEqual(name, told.exception.name)
        Station(A, latitude=0, longitude=0, limits=Limits(hop_cap=255, own_rate=1_000_000))

    def test_own_packets_over_their_rate(self):
        limits = dataclasses.replace(NO_LIMITS, own_rate=10, own_burst=2)
        a = Station(A, latitude=0, longitude=0, limits=limits)
        a.send_shb(1000, port=9, payload=b"")
        a.send_gbc(1000, port=9, payload=b"", area=CIRCLE)
        for now in (1000, 1099):
            with self.assertRaises(OverRate) as told:
                a.send_gbc(now, port=9, payload=b"", area=CIRCLE)
        self.assertEqual(("", 1), (told.exception.code, a.next_number()))
        self.assertEqual("own packets are over their rate", str(told.exception))
        again = pickle.loads(pickle.dumps(told.exception))
        self.assertEqual((OverRate, 22), (type(again), again.status))
        a.send_gbc(1100, port=9, payload=b"", area=CIRCLE)
        counts = a.counts()
        self.assertEqual((0, 0, 2), (counts.suppressed, counts.repeated, counts.over_rate))
        self.assertEqual((0, 1, 2, 0), dataclasses.astuple(counts.sent))

    def test_forwarded_frames_hops_and_echoes(self):
        a = Station(A, latitude=0, longitude=0, limits=NO_LIMITS)
        limits = Limits(forward_rate=10, forward_burst=2, source_rate=0, hop_cap=4)
        b = Station(B, latitude=0, longitude=9, remember=1, limits=limits)
        b.open_port(0, 9)
        relayed = []
        frames = [a.send_gbc(10, port=9, payload=b"x", area=CIRCLE, max_hops=n)
                  for n in (5, 4, 4, 4)]
        for frame in frames:
            told = b.receive(10, frame)
            self.assertIsNotNone(told.delivered)
            relayed.append(told.relay is not None)
        self.assertEqual([False, True, True, False], relayed)
        echo = b.receive(10, frames[1])
        self.assertEqual(("repeated", None, None), (str(echo.ignored), echo.delivered, echo.relay))
        counts = b.counts()
        self.assertEqual((3, 1, 0), (counts.suppressed, counts.repeated, counts.over_rate))
        self.assertEqual((4, 2), (counts.delivered, counts.relayed))


class Messages(unittest.TestCase):
    """A call that fails has the message that the answer to the same request has as its reason."""

    def setUp(self):
        self.a = Station(A, latitude=0, longitude=0, capacity=1)
        self.addCleanup(self.a.free)

    def check(self, status, now, request, call):
        """Compares the reason in the answer to a request with the exception of the same call."""
        answer, _ = self.a.handle_json(now, json.dumps(request).encode())
        with self.assertRaises(Refused) as failed:
            call()
        self.assertEqual(status, failed.exception.status)
        self.assertEqual(json.loads(answer)["reason"], str(failed.exception))

    def test_times_and_ports(self):
        a, late = self.a, LAST_MOMENT + 1
        for port in range(64):
            a.open_port(5, port)
        known, new = {"do": "close", "port": 1}, {"do": "open", "port": 99}
        closed = {"do": "close", "port": 99}
        self.check(Status.MOMENT_EARLIER, 4, known, lambda: a.close_port(4, 1))
        self.check(Status.MOMENT_TOO_LATE, late, known, lambda: a.close_port(late, 1))
        self.check(Status.PORT_ALREADY_OPEN, 5, {**known, "do": "open"}, lambda: a.open_port(5, 1))
        self.check(Status.PORTS_FULL, 5, new, lambda: a.open_port(5, 99))
        self.check(Status.PORT_NOT_OPEN, 5, closed, lambda: a.close_port(5, 99))

    def test_packets(self):
        a = self.a
        one, other = (
            Station(B + k, latitude=0, longitude=0).send_shb(0, port=1, payload=b"") for k in (0, 1)
        )
        a.receive(5, one)
        shb = {"do": "shb", "port": 1, "info": 0, "tc": 0, "payload": "00" * 1395}
        area = {"shape": "circle", "alat": 449, "alon": 0, "a": 200, "b": 0, "angle": 0}
        gbc = {**shb, **area, "do": "gbc", "lt": 26, "hops": 0, "payload": ""}
        far = {"port": 1, "area": CIRCLE, "max_hops": 0, "payload": b""}
        full = {"do": "receive", "frame": other.hex()}
        jitter = {"do": "tick", "jitter": 751}
        self.check(Status.TABLE_FULL, 5, full, lambda: a.receive(5, other))
        self.check(
            Status.PAYLOAD_TOO_LONG, 5, shb, lambda: a.send_shb(5, port=1, payload=bytes(1395))
        )
        self.check(Status.HOP_LIMIT_ZERO, 5, gbc, lambda: a.send_gbc(5, **far))
        self.check(Status.JITTER_RANGE, 5, jitter, lambda: a.tick(5, jitter=751))


def as_sent_by(frame, number, hops):
    """The frame as the station with this last byte of its address forwards it."""
    return frame[:11] + bytes([number]) + frame[12:17] + bytes([hops]) + frame[18:]


class Contending(unittest.TestCase):
    """The station is 300 m north of the sender: it waits for 71 ms of 1 to 100."""

    def setUp(self):
        a = Station(A, latitude=0, longitude=0)
        a.move(500, latitude=0, longitude=0)
        area = Area.circle(1000, latitude=0, longitude=0)
        self.frame = a.send_gbc(1000, port=2002, payload=b"hi", area=area)

    def station(self, **keys):
        rule = Contention(**keys)
        b = Station(B, latitude=26950, longitude=0, limits=NO_LIMITS, contention=rule)
        b.open_port(0, 2002)
        return b

    def test_held_and_released(self):
        b = self.station()
        self.assertIsNone(b.next_due())
        got = b.receive(1001, self.frame)
        self.assertEqual((None, 1072, False), (got.relay, got.due, got.cancelled))
        self.assertEqual((b"hi", A), (got.delivered.payload, got.source))
        self.assertEqual((1072, None), (b.next_due(), b.release(1071)))
        self.assertEqual(as_sent_by(self.frame, 2, 9), b.release(1072))
        self.assertEqual((None, None), (b.release(1072), b.next_due()))
        counts = b.counts()
        self.assertEqual(ContentionCounts(held=1, released=1), counts.contention)
        self.assertEqual(1, counts.relayed)
        with self.assertRaises(Refused) as told:
            b.release(1000)
        self.assertEqual(Status.MOMENT_EARLIER, told.exception.status)

    def test_copies(self):
        b = self.station()
        b.receive(1001, self.frame)
        copies = [b.receive(1010, as_sent_by(self.frame, number, 9)) for number in (3, 3, 4)]
        self.assertEqual([False, False, True], [got.cancelled for got in copies])
        self.assertEqual([None] * 3, [got.due for got in copies])
        self.assertIsNone(b.release(1072))
        b.restart(1080, 0)
        b.receive(1081, self.frame)
        b.restart(1082, 0)
        self.assertEqual(ContentionCounts(2, 0, 1, 1, 0), b.counts().contention)

    def test_signed_packets(self):
        b, secured = self.station(copies=1), seal(self.frame, b"s" * 2000)
        self.assertEqual(1072, b.receive_verified(1001, secured, plain_part(self.frame)).due)
        self.assertEqual(as_sent_by(secured, 2, 9), b.release(1072))

    def test_values_out_of_range(self):
        wrong = [("max", 0), ("max", 1001), ("min", -1), ("min", 101), ("range", 0)]
        wrong += [("range", 65536), ("copies", 0), ("copies", 4)]
        for name, value in wrong:
            with self.assertRaises(BadArgument) as told:
                Contention(**{name: value})
            self.assertEqual(name, told.exception.name)
        self.assertRaises(TypeError, lambda: Contention(copies=1.0))
        for rule in (Contention(1000, 1000, 65535, 3), Contention(0, 1, 1, 1)):
            Station(A, latitude=0, longitude=0, contention=rule).free()

    def test_no_contention(self):
        b = Station(B, latitude=26950, longitude=0)
        got = b.receive(1001, self.frame)
        self.assertEqual((as_sent_by(self.frame, 2, 9), None), (got.relay, got.due))
        self.assertEqual((None, None), (b.next_due(), b.release(2000)))
        self.assertEqual(ContentionCounts(), b.counts().contention)


class Library(unittest.TestCase):
    def test_sentences_are_the_librarys(self):
        known = library.load()
        for status, text in errors.TEXTS.items():
            self.assertEqual(text, known.status_text(status).decode())
        for layer, text in errors.FAULT_TEXTS.items():
            self.assertEqual(text, known.fault_text(layer, 0).decode())
        for kind, text in errors.PACKET_TEXTS.items():
            self.assertEqual(text, known.fault_text(5, kind).decode())
        self.assertEqual((4, 12), (len(errors.FAULT_TEXTS), len(errors.PACKET_TEXTS)))

    def test_other_layouts_are_refused(self):
        class Other:
            @staticmethod
            def geostation_abi():
                return 77

        with self.assertRaisesRegex(ImportError, "has ABI 77"):
            library.check_abi(Other)
        for struct, size in library.SIZES.items():
            self.assertEqual(size, ctypes.sizeof(struct))

    @unittest.skipUnless(INCLUDE.is_dir() and CC, "a C compiler or the header isn't there")
    def test_layouts_are_the_headers(self):
        structs = {
            "reception": library.Reception,
            "config": library.Config,
            "counts": library.Counts,
            "shb_request": library.ShbRequest,
            "shb_options": library.ShbOptions,
            "area_request": library.AreaRequest,
            "vector": library.Vector,
            "area": library.Area,
            "message": library.Message,
            "packet": library.Packet,
        }
        code, own = ['#include "geostation.h"', "#include <stdio.h>", "int main(void) {"], []
        for name, struct in structs.items():
            code.append(f'printf("%zu\\n", sizeof(struct geostation_{name}));')
            own.append(ctypes.sizeof(struct))
            for field, _ in struct._fields_:
                code.append(f'printf("%zu\\n", offsetof(struct geostation_{name}, {field}));')
                own.append(getattr(struct, field).offset)
        with tempfile.TemporaryDirectory() as folder:
            program = f"{folder}/layouts"
            command = [CC, "-I", str(INCLUDE), "-x", "c", "-o", program, "-"]
            subprocess.run(command, input="\n".join([*code, "}"]), text=True, check=True)
            told = subprocess.run([program], capture_output=True, text=True, check=True).stdout
        self.assertEqual([int(line) for line in told.split()], own)

    def test_shapes_are_those_of_areas(self):
        self.assertEqual([0, 1, 2], [Shape.CIRCLE, Shape.RECTANGLE, Shape.ELLIPSE])


if __name__ == "__main__":
    unittest.main()
