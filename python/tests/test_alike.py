"""Both kinds of station give the same answers to random calls: in the library and over a pipe."""

import os
import random
import shutil
import unittest

import geostation
from geostation import (
    NO_LIMITS,
    Area,
    BadArgument,
    BadFrame,
    Contention,
    PipeStation,
    ProcessExited,
    Reception,
    Refused,
    Station,
    plain_part,
    seal,
)

PROGRAM = os.environ.get("GEOSTATION_PROGRAM", "geostation")
PORTS = (1, 2, 2002)


def outcome(call, station):
    """What a call gives, or how it is refused."""
    try:
        return call(station)
    except Refused as refused:
        return type(refused), refused.code, refused.status, str(refused)


def media_in(payload):
    """Media-dependent data out of a payload, zeros if that is empty."""
    return payload[:4].ljust(4, b"\0")


class Traffic:
    """Random calls: moments mostly rise, frames are those of another station, or nearly so."""

    def __init__(self, seed, contends=False):
        self.draws = random.Random(seed)
        self.now = 0
        self.contends = contends
        self.others = [
            Station(0x1400020000000100 + n, latitude=n, longitude=0, limits=NO_LIMITS)
            for n in range(6)
        ]

    def place(self):
        return {"latitude": self.draws.randint(-20, 20), "longitude": self.draws.randint(-20, 20)}

    def area(self):
        draws, make = self.draws, self.draws.choice([Area.circle, Area.rectangle, Area.ellipse])
        sizes = [draws.randint(1, 300)]
        if make != Area.circle:
            sizes += [draws.randint(1, 300), draws.randint(0, 359)]
        return make(*sizes, **self.place())

    def sending(self):
        draws = self.draws
        length = draws.choice([0, 1, 50, 1394, 1395, 40000])
        return {"port": draws.choice(PORTS), "info": draws.randint(0, 65535),
                "payload": draws.randbytes(length), "traffic_class": draws.randint(0, 255)}

    def single_hop(self):
        keys = self.sending()
        return {**keys, "media": media_in(keys["payload"])}

    def to_area(self):
        draws = self.draws
        return {**self.sending(), "area": self.area(), "lifetime": draws.randint(0, 255),
                "max_hops": draws.choice([0, 1, 2, 10, 255])}

    def frame(self):
        draws = self.draws
        keys = {"port": draws.choice(PORTS), "payload": draws.randbytes(draws.randint(0, 40))}
        other = draws.choice(self.others)
        kind = draws.randrange(4)
        if kind == 0:
            frame = other.tick(self.now) or b""
        elif kind == 1:
            frame = other.send_shb(self.now, media=media_in(keys["payload"]), **keys)
        else:
            send = other.send_gbc if kind == 2 else other.send_gac
            frame = send(self.now, area=self.area(), **keys)
        if frame and draws.randrange(4) == 0:
            at = draws.randrange(len(frame))
            frame = frame[:at] + bytes([draws.randrange(256)]) + frame[at + 1 :]
        if draws.randrange(10) == 0:
            # Zeros behind a short frame are left out by the library, and refused on a pipe.
            frame = frame[: draws.randrange(len(frame) + 1)] + b"\1" * draws.choice([0, 3, 3000])
        return frame

    def secured(self):
        """A secured frame, or nearly one, and its plain part, or nearly that."""
        draws, frame = self.draws, b""
        while not frame:
            try:
                frame = self.frame()
                plain = plain_part(frame)
                message = draws.randbytes(draws.choice([1, 1, 60, 2292]))
                frame = seal(frame, message)
            except BadFrame:
                frame = b""
        if draws.randrange(4) == 0:
            at = draws.randrange(18)
            frame = frame[:at] + bytes([draws.randrange(256)]) + frame[at + 1 :]
        if draws.randrange(6) == 0:
            frame = frame[: draws.randrange(len(frame) + 1)] + bytes(draws.choice([0, 0, 3000]))
        if draws.randrange(4) == 0:
            at = draws.randrange(len(plain))
            plain = plain[:at] + bytes([draws.randrange(256)]) + plain[at + 1 :]
        if draws.randrange(6) == 0:
            plain = plain[: draws.randrange(len(plain) + 1)] + bytes(draws.choice([0, 1, 40000]))
        return frame, plain

    def copy(self):
        """The last frame, as another station forwards it."""
        frame, sender = getattr(self, "last", b"")[:1468], self.draws.randrange(4)
        if len(frame) < 18:
            return frame
        return frame[:11] + bytes([sender]) + frame[12:17] + bytes([frame[17] - 1 & 255]) + frame[18:]

    def call(self):
        """A call, as a function of a station."""
        draws = self.draws
        self.now += draws.choice([0, 1, 100, 3000])
        now = draws.choice([self.now] * 20 + [max(self.now - 1, 0), (1 << 62) + 1])
        word = draws.choice(
            ["move", "open_port", "close_port", "tick", "send_shb", "send_gbc", "send_gac"]
            + ["next_beacon", "look_up", "neighbours", "counts"] + ["receive"] * 7
            + ["receive_verified"] * 4 + ["restart"] * (draws.randrange(10) == 0) + ["bad"]
            + ["release", "copy", "next_due"] * (3 * self.contends)
        )
        if word == "release":
            return lambda s: s.release(now)
        if word == "next_due":
            return lambda s: s.next_due()
        if word == "copy":
            copy = self.copy()
            return lambda s: s.receive(now, copy)
        if word == "receive":
            frame = self.frame()
            if draws.randrange(4) == 0:
                self.last = getattr(self, "last", frame)
                frame = self.last
            self.last = frame
            return lambda s: s.receive(now, frame)
        if word == "receive_verified":
            frame, plain = self.secured()
            return lambda s: s.receive_verified(now, frame, plain)
        if word == "next_beacon":
            jitter = draws.choice([0, 750, 751])
            return lambda s: s.next_beacon(jitter)
        if word == "look_up":
            address = 0x1400020000000100 + draws.randrange(7)
            return lambda s: s.look_up(now, address)
        if word in ("neighbours", "counts"):
            return lambda s: list(s.neighbours(now)) if word == "neighbours" else s.counts()
        keys = {
            "move": lambda: {**self.place(), "accurate": draws.random() < 0.5,
                             "speed": draws.randint(-16384, 16383),
                             "heading": draws.randint(0, 65535)},
            "open_port": lambda: {"port": draws.choice(PORTS)},
            "close_port": lambda: {"port": draws.choice(PORTS)},
            "restart": lambda: {"number": draws.randint(0, 65535)},
            "tick": lambda: {"jitter": draws.choice([0, 750, 751])},
            "send_shb": self.single_hop,
            "send_gbc": self.to_area,
            "send_gac": self.to_area,
            "bad": lambda: {"port": 65536},
        }[word]()
        word = "open_port" if word == "bad" else word
        return lambda s: getattr(s, word)(now, **keys)


@unittest.skipUnless(shutil.which(PROGRAM), "the program isn't built")
class Alike(unittest.TestCase):
    def test_a_thousand_random_calls(self):
        place = {"latitude": 3, "longitude": -3, "capacity": 4, "remember": 2}
        kinds = set()
        traffic = Traffic(7)
        # A station on a pipe has no limits.
        with Station(0x1400020000000001, limits=NO_LIMITS, **place) as station:
            with PipeStation(0x1400020000000001, **place, program=PROGRAM) as line:
                for number in range(1000):
                    call = traffic.call()
                    want = outcome(call, station)
                    self.assertEqual(want, outcome(call, line), f"call {number}")
                    kinds.add(self.kind(want))
                    kinds |= {"media"} if any(getattr(want, "media", b"")) else set()
        wanted = {"S1", "S2", "S4", "S6", "S7", "S8 B2", "S8 B4", "S9", "", "NoneType", "bytes",
                  "int", "Vector", "list", "Counts",
                  "ignored", "accepted", "delivered", "relay", "media"}
        self.assertEqual(set(), wanted - kinds)
        self.assertTrue({"S3 L1", "S3 L3", "S3 L4"} <= kinds)
        self.assertTrue(any(kind.startswith("S3 L6 ") for kind in kinds))

    def test_stations_that_contend(self):
        place = {"latitude": 3, "longitude": -3, "capacity": 64, "remember": 64}
        rule, traffic, kinds = Contention(2, 300, 1, 1), Traffic(8, contends=True), set()
        address, keys = 0x1400020000000001, {**place, "contention": rule}
        with Station(address, limits=NO_LIMITS, **keys) as station:
            with PipeStation(address, program=PROGRAM, **keys) as line:
                for number in range(1500):
                    call = traffic.call()
                    want = outcome(call, station)
                    self.assertEqual(want, outcome(call, line), f"call {number}")
                    if isinstance(want, Reception):
                        kinds |= {"held"} if want.due is not None else set()
                        kinds |= {"cancelled"} if want.cancelled else set()
                counts = station.counts().contention
        self.assertEqual({"held", "cancelled"}, kinds)
        self.assertTrue(counts.released > 0 and counts.dropped > 0, counts)

    @staticmethod
    def kind(told):
        """A word for what a call gave, so that each is seen."""
        if isinstance(told, tuple):
            return told[1]
        if not isinstance(told, Reception):
            return type(told).__name__
        if told.ignored:
            return "ignored"
        return "delivered" if told.delivered else "relay" if told.relay else "accepted"


class Names(unittest.TestCase):
    def test_the_old_names_are_there(self):
        self.assertIs(PipeStation, geostation.Line)
        self.assertIs(ProcessExited, geostation.Ended)
        self.assertIs(geostation.IgnoreReason, geostation.Why)


@unittest.skipUnless(shutil.which(PROGRAM), "the program isn't built")
class PipeStations(unittest.TestCase):
    def test_what_the_program_says(self):
        line = PipeStation(0x1400020000000001, latitude=0, longitude=0, program=[PROGRAM])
        answer = line.ask("open", 0, port=2002)
        self.assertEqual({"at": 0, "result": "opened"}, answer)
        with self.assertRaises(BadArgument) as told:
            line.ask("open", 0, port=-1)
        self.assertEqual("port", told.exception.name)
        line.free()
        self.assertRaises(ValueError, lambda: line.tick(0))

    def test_the_program_seals(self):
        with Station(0x1400020000000001, latitude=0, longitude=0) as station:
            frame = station.send_shb(0, port=2002, payload=b"hi")
        with PipeStation(0x1400020000000001, latitude=0, longitude=0, program=[PROGRAM]) as line:
            self.assertEqual(seal(frame, b"s"), line.seal(frame, b"s"))
            for message in (b"", bytes(2293), bytes(100000)):
                with self.assertRaises(BadArgument) as told:
                    line.seal(frame, message)
                self.assertEqual("message", told.exception.name)
            with self.assertRaises(BadFrame) as told:
                line.seal(seal(frame, b"s"), b"s")
            self.assertEqual("L5 G3 at 0", told.exception.code)

    def test_a_program_that_ends(self):
        line = PipeStation(0x1400020000000001, latitude=0, longitude=0, program=["false"])
        with self.assertRaises(ProcessExited) as told:
            line.tick(0)
        self.assertEqual(1, told.exception.status)


if __name__ == "__main__":
    unittest.main()
