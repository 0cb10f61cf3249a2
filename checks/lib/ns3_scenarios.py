"""Draws scenarios for `geostation sim` and, as commands, for stations inside ns-3.

A scenario has one radio range, no losses and a fixed delay, which is 0 in every other scenario.
What ns-3 cannot do in the same way is left out: a station that comes back after it has left (its
application starts again with an empty table), and a call of a station that has left.
"""

import random

# Origins of the plane of ns-3: the equator, towns north and south, the far north, the date line.
ORIGINS = [
    (0, 0), (481419040, 115783520), (-338688000, 1512093000), (696492000, 189553000),
    (-169000000, 1799980000), (890000, -1200000000), (-899000, -1799990000),
]  # fmt: skip
SHAPES = ["circle", "rectangle", "ellipse"]
# A tenth of a microdegree of latitude has 1.1132 cm.
METRE = 1 / 0.011132
PORTS = [2001, 2002, 2003]


class Scenario:
    """A drawn scenario: `toml` for the program, `commands` for ns-3."""

    def __init__(self, seed):
        self.draw = random.Random(seed)
        self.events = []
        self.count = self.draw.randint(4, 36)
        self.range = self.draw.randint(100, 500)
        self.delay = 0 if seed % 2 == 0 else self.draw.choice([1, 1, 2, 5])
        self.width = self.draw.randint(2, 12) * self.range / 2
        self.height = self.draw.randint(1, 6) * self.range / 2
        self.origin = ORIGINS[seed % len(ORIGINS)]
        self.stations = [self.draw_station(number) for number in range(self.count)]
        self.phases()

    def draw_place(self):
        lat, lon = self.origin
        north = int(self.draw.uniform(0, self.height) * METRE)
        # Wider than its metres where degrees of longitude are short: that is no matter.
        east = int(self.draw.uniform(0, self.width) * METRE * self.stretch())
        lon = (lon + east + 1800000000) % 3600000000 - 1800000000
        return lat + north, lon

    def stretch(self):
        return {696492000: 2.9, 481419040: 1.5, -338688000: 1.2}.get(self.origin[0], 1)

    def draw_station(self, number):
        small = self.draw.random() < 0.15
        return {
            "mac": f"02{self.draw.getrandbits(24):06x}{number:04x}",
            "place": self.draw_place(),
            "capacity": self.draw.randint(3, 12) if small else 64,
            "remember": self.draw.choice([1, 8, 8, 64]),
            "from": 0,
            "to": None,
            "ports": [port for port in PORTS if self.draw.random() < 0.8],
        }

    def add(self, at, station, call):
        self.events.append((at, station, call))

    def phases(self):
        """Two phases of calls. Between them no frame is sent: stations leave and others come."""
        first, gap = 100, self.draw.choice([3000, 3000, 21000])
        middle = first + 150 * self.draw.randint(10, 30)
        come = middle + gap
        last = come + 100 + 150 * self.draw.randint(5, 25)
        self.until = last + 3000
        for number, station in enumerate(self.stations):
            fate = self.draw.random()
            if fate < 0.1:
                station["from"] = come + number
            elif fate < 0.2:
                station["to"] = come + number
        for begin, end in ((first, middle), (come + 100, last)):
            alive = [
                number
                for number, it in enumerate(self.stations)
                if it["from"] < end and (it["to"] is None or it["to"] > end)
            ]
            if alive:
                self.draw_calls(begin, end, alive)

    def draw_calls(self, begin, end, alive):
        for station in alive:
            if self.draw.random() < 0.9:
                self.add(self.moment(begin, end - 60), station, self.draw_shb())
        for _ in range(self.draw.randint(20, 60)):
            station = self.draw.choice(alive)
            call = self.draw.choices(
                [self.draw_shb, self.draw_area, self.draw_tick, self.draw_port, self.draw_restart],
                [3, 10, 3, 1, 0.4],
            )[0]()
            self.add(self.moment(begin, end), station, call)
        for _ in range(self.draw.randint(0, 20)):
            place = self.draw_place()
            # Moves have moments of their own, so that no packet has an old and a new position.
            at = self.moment(begin, end) // 10 * 10
            self.add(at, self.draw.choice(alive), ("move", *place))

    def moment(self, begin, end):
        at = self.draw.randint(begin, end)
        return at + 1 if at % 10 == 0 else at

    def payload(self):
        size = self.draw.choice([0, 1, 2, 50, 300])
        return self.draw.randbytes(size).hex() or "-"

    def head(self):
        return (self.draw.choice(PORTS), self.draw.choice([0, 7]), self.draw.choice([0, 1, 2, 3]))

    def draw_shb(self):
        return ("shb", *self.head(), self.payload())

    def draw_area(self):
        hops = self.draw.choice([1, 2, 3, 10, 10, 10, 10, 255])
        if self.draw.random() < 0.02:
            hops = 0  # the station rejects it
        size = max(self.width, self.height)
        a, b = (max(1, int(self.draw.uniform(0.05, 0.6) * size)) for _ in range(2))
        call = self.draw.choice(["gbc", "gbc", "gbc", "gac"])
        shape = self.draw.choice(SHAPES)
        angle = self.draw.randrange(360)
        if shape == "circle":
            b = angle = 0
        head, place = self.head(), self.draw_place()
        return (call, *head, 26, hops, shape, *place, a, b, angle, self.payload())

    def draw_tick(self):
        return ("tick", self.draw.choice([0, 0, 10, 750]))

    def draw_port(self):
        return (self.draw.choice(["open", "close"]), self.draw.choice(PORTS))

    def draw_restart(self):
        return ("restart", self.draw.randrange(65536))

    def ordered(self):
        """All events by their moments, those of one moment in the order of drawing."""
        return sorted(self.events, key=lambda event: event[0])

    def commands(self):
        lines = [f"air {self.range} {self.delay} {self.until}", "origin {} {}".format(*self.origin)]
        for it in self.stations:
            mac = ":".join(it["mac"][i : i + 2] for i in range(0, 12, 2))
            to = self.until if it["to"] is None else it["to"]
            place = "{} {}".format(*it["place"])
            lines.append(
                f"station {mac} {place} {it['capacity']} {it['remember']} {it['from']} {to}"
            )
        for number, it in enumerate(self.stations):
            # Before its start an application remembers which ports are open.
            lines += [f"at 0 {number} open {port}" for port in it["ports"]]
        for at, station, call in self.ordered():
            lines.append(f"at {at} {station} " + " ".join(map(str, call)))
        return "\n".join(lines) + "\n"

    def toml(self):
        parts = [f"[air]\nrange = {self.range}\ndelay = {self.delay}\nuntil = {self.until}"]
        for it in self.stations:
            lat, lon = it["place"]
            parts.append(
                f'[[station]]\naddress = "1400{it["mac"]}"\nlat = {lat}\nlon = {lon}\n'
                f"capacity = {it['capacity']}\nremember = {it['remember']}\n"
                f"absent = {str(it['from'] > 0).lower()}"
            )
        events, opened = [], [set(it["ports"]) for it in self.stations]
        for number, it in enumerate(self.stations):
            events.append((it["from"], number, ("move", *it["place"])))
            events += [(it["from"], number, ("open", port)) for port in it["ports"]]
            if it["to"] is not None:
                events.append((it["to"], number, ("leave",)))
        for at, station, call in self.ordered():
            events.append((at, station, call))
            if call[0] == "open":
                opened[station].add(call[1])
            elif call[0] == "close":
                opened[station].discard(call[1])
            elif call[0] == "restart":
                # In ns-3 the application opens the ports again.
                events += [(at, station, ("open", port)) for port in sorted(opened[station])]
        events.sort(key=lambda event: event[0])
        return "\n".join(parts + [self.event(*event) for event in events]) + "\n"

    def event(self, at, station, call):
        name, *values = call
        keys = {
            "move": ["lat", "lon"],
            "open": ["port"],
            "close": ["port"],
            "tick": ["jitter"],
            "restart": ["number"],
            "shb": ["port", "info", "tc", "payload"],
            "leave": [],
        }
        area = ["port", "info", "tc", "lt", "hops", "shape", "alat", "alon", "a", "b", "angle"]
        names = keys.get(name, [*area, "payload"])
        lines = ["[[event]]", f"station = {station}", f"at = {at}", f'do = "{name}"']
        for key, value in zip(names, values):
            if key in ("payload", "shape"):
                value = '"' + ("" if value == "-" else value) + '"'
            lines.append(f"{key} = {value}")
        if name == "move":
            lines += ["pai = true", "speed = 0", "heading = 0"]
        return "\n".join(lines)
