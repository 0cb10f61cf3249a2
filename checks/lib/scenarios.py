"""Writes random scenarios into a folder, for checks/air.

    python3 checks/lib/scenarios.py FOLDER COUNT

Each is drawn from its number alone:

- COUNT of them are random-N.toml, with an air;
- as many are moves-N.toml, each with a file of moves, moves-N.csv;
- a fourth of COUNT are crowd-N.toml: many stations in each other's hearing, small tables, stations
  that leave and come back;
- as many are plain-N.toml, without an air: frames are delivered by events, some of them late;
- COUNT are contend-N.toml, in which stations contend, and a fourth of COUNT are
  contend-moves-N.toml, each with contend-moves-N.csv.
"""

import json
import random
import re
import sys
from pathlib import Path

# Places on the equator and the prime meridian, in the north, in the south, at the line of the date
# and a few kilometres off the pole.
HOMES = [
    (0, 0), (481000000, 115000000), (-338600000, 1512000000), (100000000, 1799950000),
    (899700000, -300000000),
]  # fmt: skip
# Where timestamps wrap, and where moments end.
STARTS = [0, 2**31 - 4000, 2**32 - 4000, 2**62 - 4000]
SHAPES = ["circle", "rectangle", "ellipse"]
WORDS = {
    "gbc": 24, "gac": 14, "move": 16, "shb": 10, "deliver": 14, "tick": 10, "open": 6, "close": 3,
    "restart": 3,
}  # fmt: skip


class Maker:
    def __init__(self, number):
        self.draw = random.Random(number)
        self.beacons = number % 3 != 0
        # Few places and moments, so that stations are on borders and events at last moments.
        self.coarse = number % 4 == 1
        self.home = (0, 0) if self.coarse else HOMES[number % len(HOMES)]
        self.spread = 40000 if self.coarse else self.draw.choice([8000, 40000, 150000])
        self.stations = self.draw.randint(3, 9)
        # Many in a strip to the north, of which few are in range.
        self.many = number % 5 == 3 and not self.coarse
        if self.many:
            self.stations, self.spread = self.draw.randint(40, 80), 150000
        self.start = 0 if self.beacons else STARTS[number // 3 % len(STARTS)]
        self.span = 45000 if self.coarse else self.draw.choice([6000, 9000, 45000])
        delays = [0, 1000, 10000, 20000] if self.coarse else [None, None, 0, 1, 7, 400, 25000]
        self.delay = self.draw.choice(delays)
        # Stations that forget soon relay a frame again and again: only its hops end that.
        self.forgetful = self.delay in (10000, 20000, 25000) or self.rarely(2)
        self.ample = self.start != 0 or self.rarely(2)
        # Stations that come and leave, and what they send by themselves.
        self.comes = self.rarely(2)
        self.sends = self.start == 0 and not self.many and self.rarely(2)
        self.places = []
        self.parts = []

    def rarely(self, times):
        return self.draw.randrange(times) == 0

    def add(self, head, keys):
        lines = [f"{key} = {json.dumps(value)}" for key, value in keys.items() if value is not None]
        self.parts.append("\n".join([head, *lines, ""]))

    def moment(self, last):
        at = self.draw.randint(0, last)
        return self.start + (at - at % 1000 if self.coarse else at)

    def place(self):
        if self.coarse:
            # The least differences that are so many metres or more.
            metres = [self.draw.choice([0, 300, 400]) for _ in range(2)]
            lat, lon = (-(-m * 10**6 // 11132) for m in metres)
            return self.draw.choice([lat, -lat]), self.draw.choice([lon, -lon])
        lat = self.home[0] + self.draw.randint(-self.spread, self.spread)
        # A few kilometres off the pole the meridians are close.
        wide = 1800000000 if self.home[0] > 890000000 else self.spread
        wide //= 10 if self.many else 1
        lon = self.home[1] + self.draw.randint(-wide, wide)
        return lat, (lon + 1800000000) % 3600000000 - 1800000000

    def add_air(self):
        until = self.moment(self.span + 20000)
        reach = self.draw.randint(self.spread // 150, self.spread // 40)
        reach = self.spread // 1000 if self.many else reach
        self.add("[air]", {
            "range": self.draw.choice([300, 400, 500]) if self.coarse else reach,
            "delay": self.delay,
            "loss": 100 if self.rarely(20) else self.draw.choice([None, None, 0, 5, 30, 60]),
            "seed": self.draw.choice([None, 1, 2**63 - 1, self.draw.randrange(2**63)]),
            "beacons": True if self.beacons else self.draw.choice([None, False]),
            "until": min(until, 2**62) if self.rarely(2) else None,
        })  # fmt: skip

    def add_station(self, number):
        lat, lon = self.place()
        self.places.append((lat, lon))
        address = (self.draw.randrange(2**16) << 48) | (0x02 << 40) | number
        remember = self.draw.choice([1, 1, 2, 3, None]) if self.forgetful else None
        self.add("[[station]]", {
            "address": f"{address | (self.draw.randrange(2**24) << 16):016x}",
            "lat": lat,
            "lon": lon,
            "capacity": None if self.ample else self.draw.choice([None, 1, 2, 4]),
            "remember": self.draw.choice([8, 64, None]) if remember is None else remember,
            "absent": self.draw.choice([True, False]) if self.comes and self.rarely(2) else None,
        })  # fmt: skip

    def add_every(self):
        for _ in range(self.draw.randint(1, 2)):
            self.add("[[every]]", {
                "period": self.draw.choice([1000, 2500, 2500, 20000]),
                "port": self.port(),
                "info": self.draw.randrange(65536),
                "tc": self.draw.randrange(256),
                "octets": self.draw.choice([0, 1, 30, 1394]),
            })  # fmt: skip

    def add_event(self, do, at=None, station=None, **keys):
        if station is None:
            station = self.draw.randrange(self.stations)
            station = self.draw.choice([self.stations, 65535]) if self.rarely(50) else station
        if at is None:
            at = self.moment(self.span)
        self.add("[[event]]", {"station": station, "at": at, "do": do, **keys})

    def message(self):
        length = self.draw.choice([1394, 1395]) if self.rarely(40) else self.draw.randint(0, 4)
        return {
            "port": self.port(),
            "info": self.draw.randrange(65536),
            "tc": self.draw.randrange(256),
            "payload": self.draw.randbytes(length).hex(),
        }

    def port(self):
        return 2002 if not self.rarely(3) else self.draw.choice([0, 2001, 65535])

    def area(self):
        alat, alon = self.place() if self.rarely(2) else self.draw.choice(self.places)
        shape = self.draw.choice(SHAPES)
        a, b = (self.draw.randint(1, self.spread // 60) for _ in range(2))
        if self.coarse:
            alat, alon = (alat, alon) if self.rarely(3) else (0, 0)
            a, b = (self.draw.choice([50, 300, 400]) for _ in range(2))
        angle = self.draw.choice([0, 90, 180, 270, 359, *self.draw.sample(range(360), 7)])
        if shape == "circle":
            b = angle = 0
        centre = {} if self.rarely(4) else {"alat": alat, "alon": alon}
        return {"shape": shape, **centre, "a": a, "b": b, "angle": angle}

    def keys(self, do):
        if do in ("gbc", "gac"):
            hops = self.draw.choice([1, 2, 3] if self.forgetful else [1, 2, 3, 5, 10, 255])
            hops = 0 if self.rarely(20) else hops
            return {**self.message(), "lt": self.draw.randrange(256), "hops": hops, **self.area()}
        if do == "shb":
            return self.message()
        if do == "move":
            lat, lon = self.place()
            speed, heading = self.draw.randint(-16384, 16383), self.draw.randrange(65536)
            pai = self.rarely(2)
            return {"lat": lat, "lon": lon, "pai": pai, "speed": speed, "heading": heading}
        if do == "tick":
            return {"jitter": self.draw.randint(0, 850)}
        if do == "restart":
            return {"number": self.draw.choice([0, 1, 65535])}
        if do == "deliver":
            return {"frame": self.draw.randrange(2**32 if self.rarely(10) else 40)}
        return {"port": self.port()}

    def make(self):
        self.add_air()
        for number in range(self.stations):
            self.add_station(number)
        for station in range(self.stations):
            for port in (2002, 65535):
                if not self.rarely(5):
                    self.add_event("open", at=self.start, station=station, port=port)
        if self.rarely(8):
            for port in range(66):
                self.add_event("open", at=self.start, station=0, port=port)
        if self.sends:
            self.add_every()
        count = self.draw.randint(10, 60) if self.beacons else self.draw.randint(60, 120)
        for do in self.draw.choices([*WORDS], [*WORDS.values()], k=count):
            self.add_event(do, **self.keys(do))
        for _ in range(self.draw.randint(1, 12) if self.comes else 0):
            do = self.draw.choice(["leave", "move"])
            self.add_event(do, **(self.keys(do) if do == "move" else {}))
        return "\n".join(self.parts)


class CrowdMaker(Maker):
    """A scenario whose numbers have something of everything: see checks/lib/run_numbers.py."""

    def __init__(self, number):
        super().__init__(number)
        self.many = self.coarse = self.sends = False
        self.beacons = self.comes = True
        self.home, self.spread, self.start, self.span = (0, 0), 20000, 0, 9000
        self.stations = self.draw.randint(24, 32)
        self.delay = self.draw.choice([20, 200])
        self.ample = self.forgetful = False
        # Small tables and losses, or neither: then a packet comes to twenty stations and more.
        self.are_small = number % 3 != 0

    def add_air(self):
        self.add("[air]", {
            "range": 350, "delay": self.delay,
            "loss": self.draw.choice([20, 60]) if self.are_small else 0,
            "seed": self.draw.randrange(2**63), "beacons": self.draw.choice([True, None]),
            "until": self.span + 1000 if self.rarely(2) else None,
        })  # fmt: skip

    def add_station(self, number):
        lat, lon = self.place()
        self.places.append((lat, lon))
        self.add("[[station]]", {
            "address": f"14000200000000{number:02x}",
            "lat": lat,
            "lon": lon,
            "capacity": self.draw.choice([None, None, 1, 2, 3]) if self.are_small else None,
            "absent": True if self.rarely(8) else None,
        })  # fmt: skip

    def area(self):
        # Round one of the places, wide enough for most or for a few.
        alat, alon = self.draw.choice(self.places)
        a = self.draw.choice([100, 600])
        return {"shape": "circle", "alat": alat, "alon": alon, "a": a, "b": 0, "angle": 0}

    def make(self):
        self.add_air()
        for number in range(self.stations):
            self.add_station(number)
        for station in range(self.stations):
            self.add_event("open", at=0, station=station, port=2002)
        for _ in range(self.draw.randint(4, 7)):
            at = self.draw.randint(500, self.span)
            do = self.draw.choice(["gbc", "gbc", "gac"])
            self.add_event(do, at=at, **{**self.keys(do), "port": 2002, "hops": 3})
            # While its frames are under way a port closes, and a station goes away.
            behind = at + self.delay // 2
            self.add_event("close", at=behind, port=2002)
            self.add_event("move", at=behind, **{**self.keys("move"), "lat": 200000})
        for station in range(0, self.stations, 4):
            for _ in range(self.draw.randint(0, 3)):
                first, second = sorted(self.draw.sample(range(self.span), 2))
                self.add_event("leave", at=first, station=station)
                self.add_event("move", at=second, station=station, **self.keys("move"))
        self.add_event("leave", at=self.span + 900)
        for _ in range(3):
            self.add_event("deliver", **self.keys("deliver"))
        return "\n".join(self.parts)


class PlainMaker(Maker):
    """A scenario without an air: frames are delivered by events."""

    def __init__(self, number):
        super().__init__(number)
        self.many = self.coarse = self.sends = self.comes = False
        self.home, self.spread, self.start, self.span = (0, 0), 8000, 0, 6000
        self.stations = self.draw.randint(4, 7)
        self.ample = self.rarely(2)
        self.forgetful = False

    def area(self):
        # Without an air an area has its own centre.
        alat, alon = self.draw.choice(self.places)
        return {"alat": alat, "alon": alon, **super().area()}

    def make(self):
        for number in range(self.stations):
            self.add_station(number)
        for station in range(self.stations):
            if not self.rarely(6):
                self.add_event("open", at=0, station=station, port=2002)
        at, frames = 0, 1
        for do in self.draw.choices(["gbc", "gac", "shb", "move", "deliver", "close"],
                                    [4, 2, 2, 1, 30, 1], k=120):  # fmt: skip
            keys = self.keys(do)
            if do == "deliver":
                keys = {"frame": self.draw.randrange(max(frames - 6, 0), frames + 1)}
            at += self.draw.choice([0, 1, 30])
            # Some come after what the station did later: that is refused.
            late = self.draw.randint(0, at) if do == "deliver" and self.rarely(4) else at
            self.add_event(do, at=late, **keys)
            frames += do in ("gbc", "gac", "shb")
        return "\n".join(self.parts)


def contention_keys(draw):
    """The keys of contention of an air, some of them left out."""
    longest = draw.choice([None, 1, 3, 20, 100, 1000])
    shortest = draw.choice([None, None, 0, 1, longest or 50])
    return {
        "contention": draw.choice([True, True, None, False]),
        "contention_max": longest,
        "contention_min": min(shortest, longest or 100) if shortest is not None else None,
        "contention_range": draw.choice([None, 1, 200, 500, 65535]),
        "contention_copies": draw.choice([None, 1, 1, 2, 3]),
    }


class ContendMaker(Maker):
    """A scenario whose stations contend, with packets that most of them receive."""

    def __init__(self, number):
        super().__init__(number)
        self.many = self.coarse = False
        self.home, self.spread, self.start = (0, 0), 20000, self.draw.choice([0, 0, 2**62 - 4000])
        self.beacons = self.start == 0 and self.rarely(3)
        self.sends = self.start == 0 and self.rarely(6)
        self.comes = self.rarely(2)
        self.stations = self.draw.randint(4, 16)
        self.span = self.draw.choice([300, 2000, 4000])
        self.delay = self.draw.choice([None, None, 0, 1, 7, 40])
        # Tables that forget a packet, so that it is accepted and held again; and never full ones.
        self.forgetful, self.ample = self.rarely(3), not self.rarely(4)
        # Few places, so that stations wait equally long.
        self.spots = [self.place() for _ in range(self.draw.choice([2, 5, 40]))]

    def add_air(self):
        late = min(self.moment(self.span + 300), 2**62)
        self.add("[air]", {
            "range": self.draw.choice([150, 300, 400]),
            "delay": self.delay,
            "loss": self.draw.choice([None, None, 0, 10, 40]),
            "seed": self.draw.randrange(2**63),
            "beacons": True if self.beacons else None,
            "until": late if self.rarely(3) else None,
            **contention_keys(self.draw),
        })  # fmt: skip

    def add_station(self, number):
        lat, lon = self.draw.choice(self.spots)
        self.places.append((lat, lon))
        self.add("[[station]]", {
            "address": f"14000200000000{number:02x}",
            "lat": lat,
            "lon": lon,
            "capacity": None if self.ample else self.draw.choice([None, 2, 4]),
            "remember": self.draw.choice([1, 2]) if self.forgetful else None,
            "absent": True if self.comes and self.rarely(6) else None,
            "contention": self.draw.choice([None, None, None, True, False]),
        })  # fmt: skip

    def area(self):
        alat, alon = self.draw.choice(self.places)
        a = self.draw.choice([150, 600, 600])
        return {"shape": "circle", "alat": alat, "alon": alon, "a": a, "b": 0, "angle": 0}

    def make(self):
        self.add_air()
        for number in range(self.stations):
            self.add_station(number)
        for station in range(self.stations):
            if not self.rarely(4):
                self.add_event("open", at=self.start, station=station, port=2002)
            if not self.rarely(3):
                lat, lon = self.places[station]
                keys = {**self.keys("move"), "lat": lat, "lon": lon, "pai": not self.rarely(5)}
                self.add_event("move", at=self.start, station=station, **keys)
        if self.sends:
            self.add_every()
        words = {"gbc": 20, "gac": 4, "move": 12, "deliver": 14, "restart": 5, "shb": 3, "close": 2}
        if self.comes:
            words["leave"] = 6
        burst = self.draw.choice([0, 0, 70])
        for do in self.draw.choices([*words], [*words.values()], k=self.draw.randint(15, 70)):
            self.add_event(do, **self.keys(do) if do != "leave" else {})
        # Held frames, and others, come to stations by events too, to their holders among them.
        for _ in range(self.draw.choice([0, 30, 60])):
            at = self.start + self.draw.randint(0, self.span // 3)
            self.add_event("deliver", at=at, frame=self.draw.randrange(10))
        # One source fills the places of a station.
        at = self.moment(self.span)
        for _ in range(burst):
            self.add_event("gbc", at=at, station=0, **{**self.keys("gbc"), "hops": 3})
        return "\n".join(self.parts)


# What a file of moves calls its columns after SUMO, and how many decimals these have of the own
# unit.
SUMO = {
    "at": ("timestep_time", 3), "lat": ("vehicle_y", 7), "lon": ("vehicle_x", 7),
    "speed": ("vehicle_speed", 2), "heading": ("vehicle_angle", 1), "id": ("vehicle_id", 0),
}  # fmt: skip
# Some are the beginnings of others.
IDS = [
    "v1", "v10", "v", "bus 7", "bus", "tram", "flow.0", "Ä-9", "a,b", 'say "hi"', "x;y", "0", "i" * 64,
]  # fmt: skip
# What no column takes.
BAD = {
    "at": ["", "-1", "1x", "9" * 20, "4611686018427387905"],
    "id": ["", "a\tb", "\x7f", "\x85", "i" * 65, "Ä" * 33],
    "lat": ["900000001", "-900000001", "+1", "1e3", "90.00000006"],
    "lon": ["1800000001", "", ".5", "1.2.3", "-180.00000005"],
    "speed": ["16384", "-16385", "fast", "1" * 20, "163.835"],
    "heading": ["3601", "-1", " 1", "360.05", "1-"],
}


class MovesMaker(Maker):
    """A scenario that is run with moves, and the file of these."""

    def __init__(self, number):
        super().__init__(number)
        # Most stations are made by rows. Where moments are coarse, they meet those of events.
        self.many, self.start = False, 0
        self.stations = self.draw.randint(0, 4)
        self.span = min(self.span, 9000)
        self.sends = self.rarely(2)
        self.comes = True
        self.places = [self.place()]
        self.ids = self.draw.sample(IDS, self.draw.randint(1, 7))
        self.begin = self.draw.choice([None, 0, 500, 2000, 2**40])
        self.sumo = self.rarely(2)
        self.separator = self.draw.choice(",;")
        self.words = ["at", "id", "lat", "lon"]
        self.words += [word for word in ("speed", "heading") if not self.rarely(3)]
        self.others = self.draw.sample(["vehicle_lane", "note", ""], self.draw.randint(0, 2))
        self.draw.shuffle(order := [*self.words, *self.others])
        self.order = order

    def add_moves(self):
        mid = self.draw.choice([None, None, "0A0000000000", "020000000000"])
        if self.rarely(10):
            # Others' addresses, and a group's, are a few stations away.
            taken = re.findall(r'address = "\w{4}(\w{12})"', "\n".join(self.parts))
            last = int(self.draw.choice(["feffffffffff", *taken]), 16)
            mid = f"{max(last - self.draw.randint(0, 2), 0x020000000000):012x}"
        ports = self.draw.choice([None, None, [], [2002], [65535, 2002], [*range(64)]])
        self.add("[moves]", {
            "begin": self.begin,
            "gone": self.draw.choice([None, 1, 300, 1000, 1000, 2500, 60000]),
            "mid": mid,
            "capacity": self.draw.choice([None, None, 1, 2, 4096]),
            "remember": self.draw.choice([None, 1, 64]),
            "ports": ports,
        })  # fmt: skip

    def add_event(self, do, at=None, station=None, **keys):
        # Nothing is delivered by events of the file, and `station` is one of its own.
        if do == "deliver" or (station is not None and station >= self.stations):
            return
        whose = {"station": station}
        if station is None:
            whose = {"id": self.draw.choice([*self.ids, *self.ids, "nobody"])}
            if self.stations and self.rarely(2):
                whose = {"station": self.draw.randrange(self.stations)}
            elif self.rarely(8):
                # It is passed over, whatever it is.
                whose["station"] = self.draw.choice([0, 70000, "one"])
        at = self.moment(self.span) if at is None else at
        self.add("[[event]]", {**whose, "at": at, "do": do, **keys})

    def make(self):
        super().make()
        self.add_moves()
        return "\n".join(self.parts)

    def number(self, word, number):
        """A number as the file writes it."""
        if not self.sumo:
            return self.field(str(number))
        places, size, behind = SUMO[word][1], abs(number), ""
        if self.rarely(3):
            behind = self.draw.choice(["0", "4", "4999"])
        elif size and self.rarely(4):
            # A half is rounded away from zero.
            size, behind = size - 1, "5"
        digits = str(size).rjust(places + 1, "0")
        text = f"{'-' if number < 0 else ''}{digits[:-places]}.{digits[-places:]}{behind}"
        if not behind and self.rarely(2):
            text = text.rstrip("0").removesuffix(self.draw.choice([".", "no point"]))
        return self.field(text)

    def field(self, text):
        """A field, in quotation marks where it has to be."""
        if any(mark in text for mark in ',;"') or self.rarely(8):
            cut = len(text) if text[-1:] in ',;"' or not self.rarely(3) else len(text) - 1
            return '"' + text[:cut].replace('"', '""') + '"' + text[cut:]
        return text

    def row(self, at):
        """The fields of a row, by their words."""
        lat, lon = self.place()
        heading = self.draw.choice([0, 3600, self.draw.randint(0, 3600)])
        speed = self.draw.randint(-16384, 16383)
        numbers = {"at": at, "lat": lat, "lon": lon, "speed": speed, "heading": heading}
        fields = {word: self.number(word, number) for word, number in numbers.items()}
        fields["id"] = self.field(self.draw.choice(self.ids))
        fields.update({word: self.draw.choice(["", "0", '"a,;b"']) for word in self.others})
        return fields

    def line(self, fields):
        return self.separator.join(fields[word] for word in self.order)

    def head(self):
        names = [SUMO[w][0] if self.sumo and w in SUMO else w for w in self.order]
        if self.rarely(25):
            names[0] = self.draw.choice(["at", "vehicle_id", "lat"])
        names = [f'"{name}"' if self.rarely(6) else name for name in names]
        return ("\ufeff" if self.rarely(4) else "") + self.separator.join(names)

    def csv(self):
        begin = self.begin or 0
        moments = [begin + self.moment(self.span) for _ in range(self.draw.randint(0, 40))]
        if begin and self.rarely(2):
            # Rows before the begin are judged and passed over.
            moments += [self.draw.randrange(begin) for _ in range(3)]
        lines = [self.head()]
        for at in sorted(moments):
            if self.sumo and self.rarely(8):
                lines.append(self.line(dict.fromkeys(self.order, "")))
            if self.rarely(15):
                lines.append("")
            lines.append(self.line(self.row(at)))
        if self.rarely(3):
            self.spoil(lines, begin + self.span)
        end = self.draw.choice(["\n", "\n", "\r\n"])
        return end.join(lines) + ("" if self.rarely(5) else end)

    def spoil(self, lines, last):
        """Puts a line in that is bad, most often."""
        place, fields = self.draw.randint(1, len(lines)), self.row(last)
        word = self.draw.choice([*BAD, *BAD, "fields", "length"])
        if word in self.order:
            fields[word] = self.draw.choice(BAD[word])
        line = self.line(fields)
        line += self.separator if word == "fields" else "x" * 4097 if word == "length" else ""
        lines.insert(place, line)


class ContendMovesMaker(MovesMaker):
    """A scenario that is run with moves, in which stations contend."""

    def __init__(self, number):
        super().__init__(number)
        self.coarse = False
        self.home, self.spread, self.span = (0, 0), 20000, 4000
        self.places = [self.place()]
        self.ids = self.draw.sample(IDS, self.draw.randint(3, 7))
        self.delay = self.draw.choice([None, 0, 1, 20])
        self.ample, self.forgetful = True, False

    def add_air(self):
        self.add("[air]", {
            "range": self.draw.choice([200, 400]),
            "delay": self.delay,
            "loss": self.draw.choice([None, 0, 20]),
            "seed": self.draw.randrange(2**63),
            "beacons": True if self.rarely(3) else None,
            "until": self.moment(self.span + 500) if self.rarely(3) else None,
            **contention_keys(self.draw),
        })  # fmt: skip

    def area(self):
        alat, alon = self.place()
        a = self.draw.choice([200, 600, 600])
        return {"shape": "circle", "alat": alat, "alon": alon, "a": a, "b": 0, "angle": 0}

    def add_moves(self):
        super().add_moves()
        own = self.draw.choice([None, None, "true", "false"])
        self.parts[-1] += f"contention = {own}\n" if own else ""


def expectations(name):
    """What is expected of the run of a scenario, by draws of its own. Most have none."""
    draw, parts = random.Random(name), [""]
    for _ in range(draw.choice([0, 0, 1, 2])):
        parts += ["[[expect]]", f"send = {draw.choice([0, 0, 1, 2, 40])}"]
        parts.append(f"reached = {draw.choice([0, 1, 2, 5, json.dumps('all'), json.dumps('all')])}")
        parts += [f"within = {draw.choice([0, 1, 8, 500, 30000])}"] if draw.randrange(2) else []
    return "\n".join([*parts, ""])


def write_scenario(folder, name, text):
    (folder / f"{name}.toml").write_text(text + expectations(name))


folder, count = Path(sys.argv[1]), int(sys.argv[2])
for number in range(count):
    write_scenario(folder, f"random-{number}", Maker(number).make())
    maker = MovesMaker(number)
    write_scenario(folder, f"moves-{number}", maker.make())
    (folder / f"moves-{number}.csv").write_text(maker.csv(), newline="")
    write_scenario(folder, f"contend-{number}", ContendMaker(number).make())
for number in range(-(-count // 4)):
    maker = ContendMovesMaker(number)
    write_scenario(folder, f"contend-moves-{number}", maker.make())
    (folder / f"contend-moves-{number}.csv").write_text(maker.csv(), newline="")
    write_scenario(folder, f"crowd-{number}", CrowdMaker(number).make())
    write_scenario(folder, f"plain-{number}", PlainMaker(number).make())
