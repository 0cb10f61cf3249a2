"""Compares the crate of headers with the table of octets: its constants, the widths with which they
are read and written, what each accessor reads, and both definitions of a packet. Each function
returns what is wrong, as lines.
"""

import re

from planting import find

FIELDS = "crates/its_headers/src/wire/fields.rt"
LAYOUT = "crates/its_headers/specs/Layout.antt"
ENCODING = "crates/its_headers/specs/Encoding.antt"
INNER = "crates/its_headers/specs/Inner.antt"
CODE = "crates/its_headers/src/**/*.rt"

# The constants, by the first field in their octet. That of a vector or of a payload is where such a
# part begins, and a header ends where the next begins.
CONSTANTS = {
    "VERSION": "version",
    "BASIC_RESERVED": "basic_reserved",
    "LIFETIME": "lifetime",
    "HOPS_LEFT": "hops_left",
    "NEXT": "next",
    "TYPE": "type",
    "CLASS": "traffic_class",
    "FLAGS": "mobile",
    "LENGTH": "length",
    "MAX_HOPS": "max_hops",
    "COMMON_RESERVED": "common_reserved",
    "MEDIA": "media",
    "NUMBER": "number",
    "NUMBER_RESERVED": "number_reserved",
    "AREA_LATITUDE": "area_latitude",
    "AREA_LONGITUDE": "area_longitude",
    "DISTANCE_A": "a",
    "DISTANCE_B": "b",
    "ANGLE": "angle",
    "AREA_RESERVED": "area_reserved",
    "ADDRESS": "address",
    "TIMESTAMP": "timestamp",
    "LATITUDE": "latitude",
    "LONGITUDE": "longitude",
    "MOTION": "accurate",
    "HEADING": "heading",
}
# Where a part begins: the header and the part.
PARTS = {
    "VECTOR": ("BEACON", "Long Position Vector"),
    "AREA_VECTOR": ("GBC, GAC", "Long Position Vector"),
    "SHB_PAYLOAD": ("SHB", "BTP-B"),
    "AREA_PAYLOAD": ("GBC, GAC", "BTP-B"),
}
# The constants that the body of each accessor names.
ACCESSORS = {
    "basic_in": {"LIFETIME", "HOPS_LEFT"},
    "class": {"CLASS"},
    "mobile": {"FLAGS"},
    "hops": {"MAX_HOPS"},
    "kind": {"TYPE"},
    "shape": {"TYPE"},
    "number": {"NUMBER"},
    "vector_at": {"VECTOR", "AREA_VECTOR"},
    "payload": {"SHB_PAYLOAD", "AREA_PAYLOAD"},
    "area_in": {"AREA_LATITUDE", "AREA_LONGITUDE", "DISTANCE_A", "DISTANCE_B", "ANGLE"},
    "vector_in": {"ADDRESS", "TIMESTAMP", "LATITUDE", "LONGITUDE", "MOTION", "HEADING"},
}
# A function of an accessor: its name and its body.
FUNCTION = re.compile(r"^ *(?:pub(?:\(crate\))? )?fn (\w+).*?^ *\{\n(.*?)^ *\}$", re.M | re.S)
# The octets of what reads or writes a field by its constant.
CALLS = re.compile(
    r"\b(?:(octet_(?:at|in))|(?:u|write_u)(16|32|64)(?:_at|_in)?|(?:pass_number|check_octets)"
    r"(?=\(\w+, (?:at \+ )?[A-Z_]+, (\d+)\)))\(&?[\w.]+, (?:at \+ )?([A-Z_]+)\b"
)
# A step of a format: what it reads, and the names that it gives to that.
STEP = re.compile(r"^ *(number|octets|halves|after) \(?(\w+).* λ ([\w ]+)\.$", re.M)
# The steps of each format of Layout, in order: the fields, or the part, and the names.
FORMATS = {
    "basic_format_of": (
        ("version basic_next", "_ _"), ("basic_reserved", "_"), ("lifetime", "lifetime"),
        ("hops_left", "left"),
    ),
    "type_format": (("next next_reserved", "next _"), ("type sub_type", "type s")),
    "rest_format": (
        ("traffic_class", "class"), ("mobile flags_reserved", "flags"), ("length", "length"),
        ("max_hops", "max"), ("common_reserved", "_"),
    ),
    "vector_format": (
        ("address", "address"), ("timestamp", "timestamp"), ("latitude", "latitude"),
        ("longitude", "longitude"), ("accurate speed", "motion"), ("heading", "heading"),
    ),
    "area_format": (
        ("area_latitude", "latitude"), ("area_longitude", "longitude"), ("a", "a"), ("b", "b"),
        ("angle", "angle"),
    ),
    "shb_format": (("vector_format", "vector"), ("media", "media"), ("length", "payload")),
    "area_packet_format": (
        ("number", "sequence"), ("number_reserved", "_"), ("vector_format", "vector"),
        ("area_format", "area"),
    ),
    "area_packet_rest": (("area_reserved", "_"), ("length", "payload")),
}  # fmt: skip
# What Encoding writes, in order: the octets, and words that stand in them.
ENCODINGS = {
    "basic_header": ((1, "17"), (1, "0"), (1, "lifetime"), (1, "left")),
    "common_header": (
        (1, "common_next"), (1, "header_type"), (1, "class"), (1, "mobile"),
        (2, "payload_length"), (1, "max_hops"), (1, "0"),
    ),
    "vector_octets": (
        (8, "address"), (4, "timestamp"), (4, "latitude"), (4, "longitude"), (2, "motion"),
        (2, "heading"),
    ),
    "area_octets": (
        (4, "centre.latitude"), (4, "centre.longitude"), (2, "a.a"), (2, "a.b"), (2, "a.angle"),
    ),
    "message_octets": ((2, "port"), (2, "info")),
    "area_packet_octets": (
        (2, "number"), (2, "0"), (0, "vector_octets"), (0, "area_octets"), (2, "0"),
        (0, "message_octets"),
    ),
}  # fmt: skip
# The fields of what Encoding writes.
ENCODED = {
    "basic_header": (("version", "basic_next"), "basic_reserved", "lifetime", "hops_left"),
    "common_header": (
        ("next", "next_reserved"), ("type", "sub_type"), "traffic_class",
        ("mobile", "flags_reserved"), "length", "max_hops", "common_reserved",
    ),
    "vector_octets": (
        "address", "timestamp", "latitude", "longitude", ("accurate", "speed"), "heading",
    ),
    "area_octets": ("area_latitude", "area_longitude", "a", "b", "angle"),
    "message_octets": ("port", "info"),
    "area_packet_octets": ("number", "number_reserved", None, None, "area_reserved", None),
}  # fmt: skip


def starts_of(table):
    """The octet of each constant."""
    starts = {name: table.fields[key].start // 8 for name, key in CONSTANTS.items()}
    for name, (header, part) in PARTS.items():
        starts[name] = next(it for it in table.headers[header] if it.key == part).start // 8
    starts["BASIC_END"] = starts["NEXT"]
    starts["BEACON_END"] = table.payload_start("beacon")
    return starts


def check_constants(table, sources):
    """The constants, each at the octet of its field."""
    constant = re.compile(r"^pub(?:\(crate\))? const (\w+): usize = (\d+);", re.M)
    said = {name: int(number) for name, number in constant.findall(sources.text(FIELDS))}
    wanted = starts_of(table)
    wrong = [
        f"{FIELDS}: {name} is {said.get(name)}, but octet {octet} by the table"
        for name, octet in wanted.items()
        if said.get(name) != octet
    ]
    lost = [name for name in said if name not in wanted]
    return wrong + [f"{FIELDS}: the table has nothing for {name}" for name in lost]


def bits_at(table, constant):
    """The bits of the fields from that of a constant on that share its octets."""
    first = table.fields[CONSTANTS[constant]]
    rows = next(rows for rows in table.headers.values() if first in rows)
    end = first.start + first.bits
    for field in rows[rows.index(first) + 1 :]:
        if end % 8:
            end = field.start + field.bits
    return end - first.start


def check_widths(table, sources):
    """Each call that reads or writes a field by its constant has the field's octets."""
    wrong = []
    for path in find(CODE):
        for octet, bits, count, constant in CALLS.findall(sources.text(path)):
            width = 1 if octet else int(bits) // 8 if bits else int(count)
            octets = bits_at(table, constant) // 8 if constant in CONSTANTS else width
            if width != octets:
                wrong.append(f"{path}: {constant} with {width} octets, but {octets} by the table")
    return wrong


def check_accessors(sources):
    """What each accessor reads: the constants that its body names, and no octet by its number."""
    wrong, seen, names = [], set(), {*CONSTANTS, *PARTS}
    for path in find(CODE):
        for name, body in FUNCTION.findall(sources.text(path)):
            read = names.intersection(re.findall(r"\b[A-Z_]+\b", body))
            if re.search(r"\boctets\[\d", body):
                wrong.append(f"{path}: {name} names an octet by its number")
            if name in ACCESSORS and read:
                seen.add(name)
                if read != ACCESSORS[name]:
                    wanted = " and ".join(sorted(ACCESSORS[name]))
                    wrong.append(f"{path}: {name} reads {' and '.join(sorted(read))}, not {wanted}")
    return wrong + [f"{CODE}: no accessor {name}" for name in ACCESSORS if name not in seen]


def definition(text, name):
    """The lines of a definition of specs/ after its head."""
    found = re.search(rf"^{name}\b(?! :)[^\n]*?=(?:\n((?: .*\n)+)| (.*)$)", text, re.M)
    return (found[1] or found[2]) if found else ""


def bits_of(table, keys):
    """The bits of these fields, by their keys with blanks between them."""
    return sum(table.fields[key].bits for key in keys.split())


def check_formats(table, sources):
    """The formats of Layout: what each step reads, and how wide that is, in the wire's order."""
    text, wrong = sources.text(LAYOUT), []
    for name, steps in FORMATS.items():
        found = STEP.findall(definition(text, name))
        for (keys, names), step in zip(steps, found + [("nothing", "", "")] * len(steps)):
            is_part = step[0] == "after" or step[1] == "length"
            size = 8 if step[0] == "halves" else step[1] if is_part else 8 * int(step[1] or 0)
            wanted = keys if is_part else bits_of(table, keys)
            if size != wanted or step[2] != names:
                said = f"{step[0]} {step[1]} λ {step[2]}"
                wrong.append(f"{LAYOUT}: {name}: {said}, and not {keys} of {wanted} as {names}")
        wrong += [f"{LAYOUT}: {name}: {step} is too much" for step in found[len(steps) :]]
    return wrong


def check_places(table, sources):
    """The places of Layout's vector and area: the octets and the width of each number."""
    text, wrong = sources.text(LAYOUT), []
    number = re.compile(r"big_number (\d+) \(drop (?:at|\(at \+ (\d+)\)|(\d+)) w\)")
    for name, steps in (("vector_at", "vector_format"), ("area_at", "area_format")):
        said = [
            (int(more or octet or 0), int(width))
            for width, more, octet in number.findall(definition(text, name))
        ]
        wanted = [
            (table.fields[keys.split()[0]].start // 8, bits_of(table, keys) // 8)
            for keys, _ in FORMATS[steps]
        ]
        for (keys, _), ours, theirs in zip(FORMATS[steps], wanted, said + [None] * len(wanted)):
            if ours != theirs:
                wrong.append(f"{LAYOUT}: {name}: {keys} at {theirs}, but {ours} by the table")
    return wrong


def pieces_of(text):
    """The parts of an encoding, in order: the octets of each, 0 for another encoding, and its
    text."""
    for part in re.split(r" ∷ | \+\+ ", " ".join(text.split())):
        part = part.strip(" ()")
        wide = re.match(r"big_bytes (\d+) (.*)", part)
        if part.startswith("[]") or part == "m.payload":
            continue
        if wide:
            yield int(wide[1]), wide[2]
        else:
            yield (0 if re.match(r"\w+_octets\b", part) else 1), part


def check_encoding(table, sources):
    """The octets of Encoding: the width of each part, and the field that it has."""
    text, wrong = sources.text(ENCODING), []
    for name, wanted in ENCODINGS.items():
        found = list(pieces_of(definition(text, name)))
        for number, (width, word) in enumerate(wanted):
            said = found[number] if number < len(found) else (None, "nothing")
            if said[0] != width or not re.search(rf"(?<!\w){re.escape(word)}(?!\w)", said[1]):
                wrong.append(f"{ENCODING}: {name}: {said[1]} in place of {word}")
            keys = ENCODED[name][number]
            keys = (keys,) if isinstance(keys, str) else keys
            bits = sum(table.fields[key].bits for key in keys or ())
            if keys and bits != 8 * (said[0] or 0):
                wrong.append(f"{ENCODING}: {name}: {said[0]} octets for {word}, but {bits} bits")
        if len(found) != len(wanted):
            wrong.append(f"{ENCODING}: {name} has {len(found)} parts, and not {len(wanted)}")
    first = re.compile(r"^(?:inner_octets|secured_header) .* = (\d+) ∷", re.M)
    inner = first.findall(sources.text(INNER))
    if inner != ["17", "18"]:
        wrong.append(f"{INNER}: the first octets are {inner}, and not 17 and 18")
    return wrong


def check_crate(table, sources):
    """All that is wrong in the crate of headers."""
    wrong = check_constants(table, sources) + check_widths(table, sources)
    wrong += check_accessors(sources) + check_formats(table, sources)
    return wrong + check_places(table, sources) + check_encoding(table, sources)
