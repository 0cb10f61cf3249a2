"""Sources that have places of fields as numbers: texts that each has, with the numbers of the table
of octets. Most places count from the first octet of a frame.
"""

from packet_rows import LINK


def field_starts(table, kind):
    """The octets of a packet in which the fields from the payload length on begin, up to the
    payload."""
    places = table.places(kind)
    first, end = places["length"].start, 8 * table.payload_start(kind)
    return sorted({it.start // 8 for it in places.values() if first <= it.start < end})


def listed(octets):
    """The octets from a payload length on, as an array of Rust names the first of them."""
    return ", ".join(["LENGTH", *map(str, octets[1:])])


def cut_frames(table):
    """What the reader of cut frames knows of a packet: where fields begin and end."""
    area, beacon = table.places("gbc"), table.places("beacon")
    numbers = {
        "TYPE": area["type"].start // 8,
        "LENGTH": area["length"].start // 8,
        "DISTANCE_A": area["a"].start // 8 + 1,
        "DISTANCE_B": area["b"].start // 8 + 1,
        "BEACON_END": table.payload_start("beacon"),
        "SHB_PAYLOAD": table.payload_start("shb"),
        "AREA_PAYLOAD": table.payload_start("gbc"),
        "AREA_ADDRESS_END": area["address"].start // 8 + 8,
        "ADDRESS_END": beacon["address"].start // 8 + 8,
        "PORT": area["port"].bits // 8,
    }
    texts = [f"\nconst {name}: usize = {number};" for name, number in numbers.items()]
    texts.append(f" {listed(field_starts(table, 'gbc'))},\n];")
    return [*texts, f" = [{listed(field_starts(table, 'shb'))}];"]


def octets_needed(table):
    """How many octets of a cut frame each key of `show` needs: those up to the end of its field."""
    area, beacon = table.places("gbc"), table.places("beacon")

    def end(key, start):
        return (area[key].start + area[key].bits) // 8 - start

    vector, payload = area["address"].start // 8, table.payload_start("gbc")
    other, shb = beacon["address"].start // 8, table.payload_start("shb")
    keys = {"Tst": "timestamp", "Lat": "latitude", "Lon": "longitude", "Heading": "heading",
            "Pai | Field::Speed": "speed", "_": "address"}  # fmt: skip
    areas = {"Alat": "area_latitude", "Alon": "area_longitude", "A": "a", "B": "b",
             "Angle": "angle"}  # fmt: skip
    rows = {name: f"vector + {end(key, vector)}" for name, key in keys.items()}
    rows |= {name: f"PACKET + {end(key, 0)}" for name, key in areas.items()}
    rows["Port"] = f"payload + {end('port', payload)}"
    rows["Info | Field::Payload"] = f"payload + {end('info', payload)}"
    texts = [f" {'' if name == '_' else 'Field::'}{name} => {row}," for name, row in rows.items()]
    texts.append(f"Shb => (PACKET + {other}, PACKET + {shb}),")
    return [*texts, f"Gac => (PACKET + {vector}, PACKET + {payload}),"]


def places_in(table):
    """The texts of each source."""
    link = len(LINK)
    at = {key: link + field.start // 8 for key, field in table.places("gbc").items()}
    beacon = {key: link + field.start // 8 for key, field in table.places("beacon").items()}
    media = link + table.places("shb")["media"].start // 8
    end, source, other = at["next"], beacon["address"], at["address"]
    payload = {kind: link + table.payload_start(kind) for kind in ("shb", "gbc", "gac")}
    shb, area = payload["shb"], payload["gbc"]
    common = link + 12
    return {
        "examples/security/rules.py": [f"{{3: 8 + {area - end - 8}, 4: 8 + {area - end - 8}, "
                                       f"5: 8 + {shb - end - 8}}}"],
        "examples/security/rules.c": [f"== GAC ? {other - end} : {source - end}), 8);",
                                      f"== SHB ? {shb - end} : {area - end};"],
        "c/link/security.h": [f"BASIC_END = {end},"],
        "c/link/security.c": [f"r->octets[{link}] == 0x11"],
        "c/link/conflict.c": [f"STAMP_AT = {at['timestamp'] - end} /*"],
        "c/link/packet.c": [f"HEADER = {link} /*"],
        "c/link/test/wire.c": [f"ADDRESS_END = {source + 7}, NUMBER = {at['number']},"],
        "c/link/test/air.py": [f"frame[{at['number']}:{at['number'] + 2}], "
                               f"frame[{other}:{other + 8}]"],
        "c/link/test/entity.py": [f"PLAIN_AT = {end}\n"],
        "c/memory.c": [f" ADDRESS_AT = {source},"],
        "c/bench/bench.c": [f"PLAIN_AT {end}\n"],
        "crates/its_linkframe/src/fields.rt": [
            f"PACKET: usize = {link};",
            f"LIFETIME: usize = PACKET + {at['lifetime'] - link};",
            f"MESSAGE: usize = {end};",
        ],
        "crates/cap_records/src/cut.rt": cut_frames(table),
        "crates/cap_records/src/signed.rt": [f"MESSAGE: usize = {end};"],
        "crates/cmd_captures/src/field.rt": octets_needed(table),
        "ns3/geostation-ns3.hpp": [
            f"kHeader = {link};",
            f"kTrafficClass = kHeader + {end - link} + {at['traffic_class'] - end};",
        ],
        "python/geostation/line.py": [f"MEDIA = slice({media}, {media + 4})"],
        "checks/lib/counted.py": [
            f'"beacon": {link} + 12 + {link + table.payload_start("beacon") - common}, '
            f'"shb": {link} + 12 + {shb - common} + 4, "gbc": {link} + 12 + {area - common} + 4}}'
        ],
        "checks/lib/secured.py": [f"LINK, BASIC = {link}, {end - link}"],
        "checks/lib/dissect_signed.py": [f"LINK, BASIC = {link}, {end - link}"],
        "checks/lib/signed_rows.py": [
            f"HOPS_AT, BODY = {at['hops_left']}, {end}",
            f'{{"shb": {link} + {shb - link}, "gbc": {link} + {area - link}, '
            f'"gac": {link} + {area - link}}}',
        ],
        "viewer/secured.js": [f"MESSAGE = {end};"],
        "viewer/peek.js": [
            f"TYPE = {at['type']};",
            f"{{beacon: {source}, shb: {source}, gbc: {other}, gac: {other}}};",
            f"{{shb: {shb}, gbc: {area}, gac: {area}}};",
        ],
    }  # fmt: skip


def check_places(table, sources, packets):
    """Sources that have places as numbers."""
    return [
        f"{path}: there is no {text.strip()}, as the table has it"
        for path, texts in places_in(table).items()
        for text in texts
        if text not in sources.text(path)
    ]
