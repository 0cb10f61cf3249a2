"""The table of crates/its_headers/octets.txt, and packets that are drawn by it.

Values are those of the table's keys, as integers. A signed field has a signed value. `payload` is
what follows the BTP-B header.
"""

import random
import re
from typing import NamedTuple

from program import TOP

PATH = "crates/its_headers/octets.txt"
# The header type of each kind, and the header in which its further fields are.
TYPES = {"beacon": 1, "gac": 3, "gbc": 4, "shb": 5}
HEADERS = {"beacon": "BEACON", "shb": "SHB", "gbc": "GBC, GAC", "gac": "GBC, GAC"}
COMMON = ("Basic Header", "Common Header")
ROW = re.compile(r"^ *(\d+) +(\d+|-) +(\d+|-)  ([^\s].*?)  +(\S.*?)(?: +(signed))?$")


class Field(NamedTuple):
    """A field: its key, its name in the standard, its first bit, its bits, and whether its value
    has a sign. A part, such as a vector, has the key of its header and no bits."""

    key: str
    name: str
    start: int
    bits: int
    is_signed: bool

    def octets(self):
        """Where the field is, in words."""
        last = (self.start + self.bits - 1) // 8
        first = self.start // 8
        return f"octet {first}" if first == last else f"octets {first} to {last}"


def read_rows(text):
    """The headers of the table, each with its fields in order."""
    headers, name = {}, None
    for line in text.splitlines():
        row = ROW.match(line)
        if row:
            octet, bit, bits, standard, key, sign = row.groups()
            start = 8 * int(octet) + (0 if bit == "-" else int(bit))
            size = 0 if bits == "-" else int(bits)
            headers[name].append(Field(key, standard, start, size, sign is not None))
        elif line and not line.startswith("#"):
            name = line.strip()
            headers[name] = []
    return headers


class Table:
    """The table: its headers, and the fields of each kind of packet."""

    def __init__(self, text=None):
        self.headers = read_rows(text or (TOP / PATH).read_text())
        self.fields = {field.key: field for rows in self.headers.values() for field in rows}

    def holes(self):
        """Fields that don't begin where the one before them ends."""
        wrong = []
        for kind in TYPES:
            end, last = 0, "the packet"
            for field in self.layout(kind):
                if field.start != end:
                    wrong.append(f"{PATH}: {kind}: {field.key} is not where {last} ends")
                end, last = field.start + field.bits, field.key
        return wrong

    def layout(self, kind):
        """The fields of a kind of packet up to its payload, from its first octet."""
        for header in (*COMMON, HEADERS[kind]):
            for field in self.headers[header]:
                for inner in self.headers.get(field.key, []):
                    yield inner._replace(start=field.start + inner.start)
                if field.bits:
                    yield field

    def places(self, kind):
        """The fields of a kind by their keys."""
        return {field.key: field for field in self.layout(kind)}

    def keys_at(self, kind, octet):
        """The keys of the fields that are in an octet of a packet, or `payload`."""
        at = range(8 * octet, 8 * octet + 8)
        there = [it for it in self.layout(kind) if it.start < at.stop]
        keys = [it.key for it in there if it.start + it.bits > at.start]
        return " or ".join(keys) or "payload"

    def payload_start(self, kind):
        """The octet at which the payload begins, or at which a beacon ends."""
        last = list(self.layout(kind))[-1]
        end = (last.start + last.bits) // 8
        return end - 4 if kind != "beacon" else end

    def encode(self, kind, values):
        """The octets of a packet with these values."""
        number, end = 0, 0
        for field in self.layout(kind):
            number = number << field.bits | values[field.key] % (1 << field.bits)
            end = field.start + field.bits
        return number.to_bytes(end // 8, "big") + values["payload"]

    def decode(self, octets):
        """The kind and the values of a packet."""
        whole = int.from_bytes(octets, "big")

        def value_of(field):
            value = whole >> (8 * len(octets) - field.start - field.bits) & (1 << field.bits) - 1
            above = field.is_signed and value >> (field.bits - 1)
            return value - (1 << field.bits) if above else value

        number = value_of(self.fields["type"])
        kind = next(name for name, type_number in TYPES.items() if type_number == number)
        values = {field.key: value_of(field) for field in self.layout(kind)}
        last = list(self.layout(kind))[-1]
        return kind, values | {"payload": octets[(last.start + last.bits) // 8 :]}

    def draw(self, rng, kind):
        """The values of a packet of this kind, of which each field may be anything in its range."""
        values = {field.key: rng.getrandbits(field.bits) for field in self.layout(kind)}
        size = rng.randrange(9) if kind != "beacon" else 0
        values |= {key: 0 for key in values if key.endswith("_reserved")}
        values |= {"version": 1, "basic_next": 1, "payload": rng.randbytes(size)}
        values |= {"next": 0 if kind == "beacon" else 2, "type": TYPES[kind], "sub_type": 0}
        values["length"] = 0 if kind == "beacon" else 4 + size
        values["hops_left"] = rng.randint(1, values["max_hops"] or 1)
        values["max_hops"] = values["max_hops"] or 1
        values["address"] &= ~(1 << 40)
        for key in ("latitude", "longitude", "area_latitude", "area_longitude"):
            most = 900_000_000 if key.endswith("latitude") else 1_800_000_000
            if key in values:
                values[key] = rng.randint(-most, most)
        values["speed"] -= 1 << 14
        if kind in ("gbc", "gac"):
            shape = rng.randrange(3)
            turned = {"b": rng.randint(1, 65535), "angle": rng.randrange(360)}
            values |= turned if shape else {"b": 0, "angle": 0}
            values |= {"sub_type": shape, "a": rng.randint(1, 65535)}
        return values


def drawn_packets(table, seed, count):
    """Packets of each kind: the kind, the values and the octets."""
    rng = random.Random(seed)
    for _ in range(count):
        for kind in TYPES:
            values = table.draw(rng, kind)
            yield kind, values, table.encode(kind, values)
