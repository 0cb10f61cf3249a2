"""Compares second opinions of the layout with the table of octets, by values: packets are drawn,
and each reader has to find each field's value, each writer to make the very octets. Each function
returns what is wrong, as lines.
"""

import ast
import functools
import json
import shutil
import subprocess
import tempfile
from pathlib import Path

from cut_rows import SHAPES
from file_rows import classic
from octets_numbers import check_places
from octets_table import TYPES
from packet_rows import LINK

# Fields by the keys of lines of JSON.
KEYS = {
    "tst": "timestamp",
    "lat": "latitude",
    "lon": "longitude",
    "pai": "accurate",
    "speed": "speed",
    "heading": "heading",
    "lt": "lifetime",
    "tc": "traffic_class",
    "mobile": "mobile",
    "hops": "hops_left",
    "max_hops": "max_hops",
    "number": "number",
    "alat": "area_latitude",
    "alon": "area_longitude",
    "a": "a",
    "b": "b",
    "angle": "angle",
    "port": "port",
    "info": "info",
}


def of_line(line):
    """The values of a line of JSON."""
    values = {key: int(line[word]) for word, key in KEYS.items() if word in line}
    if "address" in line:
        values["address"] = int(line["address"], 16)
    if "shape" in line:
        values["sub_type"] = SHAPES.index(line["shape"])
    if "payload" in line:
        values["payload"] = bytes.fromhex(line["payload"])
    return values


def line_of(kind, values):
    """The line of JSON of a packet's values, as far as it says them."""
    line = {"from": LINK[6:12].hex(), "to": LINK[:6].hex(), "kind": kind}
    line["address"] = f"{values['address']:016x}"
    line |= {word: values[key] for word, key in KEYS.items() if key in values}
    line |= {word: bool(line[word]) for word in ("pai", "mobile")}
    if kind in ("gbc", "gac"):
        line["shape"] = SHAPES[values["sub_type"]]
    if kind != "beacon":
        line["payload"] = values["payload"].hex()
    return line


def compare(where, table, packets, read, left_out=()):
    """What a reader finds of the packets. Each field that it may find has to be among its values,
    but reserved fields, the numbers of the kind and length, and those of `left_out`."""
    wrong = {}
    for kind, values, octets in packets:
        found = read(kind, octets)
        for key, field in table.places(kind).items():
            fixed = key.endswith("_reserved") or key in ("version", "basic_next", "next", "type")
            if fixed or key in ("length", "sub_type", "media") and key not in found:
                continue
            if key not in left_out and found.get(key) != values[key]:
                said = f"{field.octets()} of a {kind} are {values[key]} ({field.name})"
                wrong.setdefault(key, f"{where}: {key} is {found.get(key)}, but {said}")
    return list(wrong.values())


def same_octets(where, table, packets, write):
    """What a writer makes of the packets' values: the first field that is otherwise."""
    wrong = {}
    for kind, values, octets in packets:
        made = write(kind, values)
        if made == octets:
            continue
        if len(made) != len(octets):
            said = f"{len(made)} octets of a {kind}, not {len(octets)}"
            wrong.setdefault("length", f"{where}: {said}")
            continue
        at = next(place for place in range(len(octets)) if made[place] != octets[place])
        key = table.keys_at(kind, at)
        wrong.setdefault(key, f"{where}: octet {at} of a {kind} is wrong: {key}")
    return list(wrong.values())


def check_cut_rows(table, sources, packets):
    """`show --partial` as checks/lib/cut_rows.py expects it, of whole frames."""
    module = sources.module(path := "checks/lib/cut_rows.py")

    def read(kind, octets):
        return of_line(module.read_of(LINK + octets, len(LINK + octets)))

    return compare(path, table, packets, read)


def check_packets(table, sources, packets):
    """The frames that checks/packets makes of lines of JSON."""
    module = sources.module(path := "checks/packets")

    def write(kind, values):
        media = values.get("media", 0).to_bytes(4, "big")
        return module.frame_of(line_of(kind, values), media)[len(LINK) :]

    return same_octets(path, table, packets, write)


def check_single_bits(table, sources, packets):
    """The fields of checks/lib/single_bits.py, by the bits at which they begin."""
    module = sources.module(path := "checks/lib/single_bits.py")
    words = {"Common Header": "basic_next", "hops": "hops_left", "most hops": "max_hops",
             "time": "timestamp", "speed": "accurate", "latitude of the area": "area_latitude",
             "longitude of the area": "area_longitude"}  # fmt: skip
    wrong = []
    for kind, _, octets in packets:
        found, places = module.read(octets), table.places(kind)
        if found.fault:
            wrong.append(f"{path}: a {kind} is {found.fault}")
        starts = {
            words.get(name, name.replace("-", "_").replace(" ", "_")): start
            for name, start in found.starts.items()
            if name != "reserved"
        }
        for key, start in starts.items():
            if key not in places or places[key].start != start:
                wrong.append(f"{path}: {key} is at bit {start} of a {kind}")
        read = {key for key in places if not key.endswith("_reserved")} - {"speed", "port", "info"}
        if not found.fault:
            wrong += [f"{path}: no {key} in a {kind}" for key in sorted(read - starts.keys())]
    return sorted(set(wrong))


# The fields at which each fault may be.
FAULTS = {
    "G2": ["version"],
    "G3": ["basic_next"],
    "G4": ["basic_reserved", "next_reserved", "flags_reserved", "common_reserved",
           "number_reserved", "area_reserved"],
    "G5": ["hops_left"],
    "G6": ["next"],
    "G7": ["type"],
    "G8": ["sub_type"],
    "G9": ["max_hops"],
    "G10": ["length"],
    "G11": ["address", "latitude", "longitude"],
    "G12": ["area_latitude", "area_longitude", "a", "b", "angle"],
}  # fmt: skip


def check_packet_rows(table, sources, packets):
    """The rows of checks/lib/packet_rows.py: the values of right packets, and the field at which
    each wrong one is wrong."""
    module, wrong = sources.module(path := "checks/lib/packet_rows.py"), []
    for row in module.kinds():
        _, values = table.decode(row.frame[len(LINK) :])
        for key, value in of_line(row.values).items():
            if value != values[key]:
                said = f"{key} is {value}, but {values[key]} by the table"
                wrong.append(f"{path}: {row.name}: {said}")
    for packet, types, fields in module.WRONG:
        places = table.places(next(k for k, n in TYPES.items() if n == types >> 4))
        for place, put, fault in fields:
            allowed = [places[key] for key in FAULTS[fault] if key in places]
            fits = [it for it in allowed if it.start // 8 == place and it.bits <= 8 * len(put)]
            if not fits:
                wrong.append(f"{path}: {fault} at {place}, where no such field begins")
    return sorted(set(wrong))


def check_time_stamps(table, sources, packets):
    """The time stamp in a frame."""
    module = sources.module(path := "checks/lib/time_stamps.py")
    return sorted({
        f"{path}: timestamp of a {kind} is another"
        for kind, values, octets in packets
        if module.time_stamp_in(LINK + octets) != values["timestamp"]
    })  # fmt: skip


def check_link_frames(table, sources, packets):
    """The frames of the daemon's tests, which make some fields and read others."""
    module, wrong = sources.module(path := "c/link/test/frames.py"), []
    words = {"address": "address", "stamp": "timestamp", "lat": "latitude", "lon": "longitude",
             "speed": "speed", "heading": "heading", "pai": "accurate"}  # fmt: skip

    def write(kind, values):
        address, stamp = values["address"], values["timestamp"]
        if kind == "beacon":
            return module.beacon(address, stamp)[len(LINK) :]
        if kind == "shb":
            return module.shb(address, stamp, values["port"], values["payload"])[len(LINK) :]
        rest = {"port": values["port"], "lat": values["area_latitude"]}
        made = module.gbc(address, stamp, values["number"], values["payload"], **rest)
        return made[len(LINK) :]

    fixed = {"lifetime": 0x1A, "traffic_class": 0, "mobile": 1, "latitude": module.LAT,
             "longitude": module.LON, "accurate": 1, "speed": 0, "heading": 0, "media": 0,
             "info": 0, "area_longitude": module.LON, "a": 500, "b": 0, "angle": 0,
             "sub_type": 0}  # fmt: skip
    made = []
    for kind, values, octets in packets:
        frame = LINK + octets
        vector = module.vector_of(frame)
        for word, key in words.items():
            if vector[word] != values[key]:
                wrong.append(f"{path}: {key} of a {kind} is another")
        if (module.kind_of(frame), module.mobile_of(frame)) != (kind, values["mobile"]):
            wrong.append(f"{path}: type or mobile of a {kind} is another")
        if kind != "gac":
            hops = dict.fromkeys(("hops_left", "max_hops"), 10 if kind == "gbc" else 1)
            here = {key: value for key, value in (fixed | hops).items() if key in values}
            changed = values | here
            made.append((kind, changed, table.encode(kind, changed)))
    return sorted(set(wrong)) + same_octets(path, table, made, write)


# The bits of scapy's fields.
SCAPY = {"XByteField": 8, "ByteField": 8, "ShortField": 16, "LenField": 16, "IntField": 32,
         "XIntField": 32, "SignedIntField": 32, "XLongField": 64}  # fmt: skip
# The kinds of which each condition holds.
HELD = {
    "_has_common": {"beacon", "shb", "gbc", "gac"},
    "_is_known": {"beacon", "shb", "gbc", "gac"},
    "_is_to_area": {"gbc", "gac"},
    "_is_single_hop": {"shb"},
}
# Names of scapy's fields that are others than the keys.
OF_SCAPY = {
    "reserved": "basic_reserved",
    "next_header": "next",
    "common_reserved": "next_reserved",
    "subtype": "sub_type",
    "flags": "flags_reserved",
    "common_reserved_2": "common_reserved",
}


def scapy_fields(node, kinds=frozenset(TYPES)):
    """The fields of a list of scapy, and the kinds that each is in."""
    for it in node:
        if isinstance(it, ast.Starred):
            condition, *inner = it.value.args
            yield from scapy_fields(inner, HELD[condition.id])
        else:
            kind = it.func.id
            bits = SCAPY.get(kind) or it.args[2].value
            is_signed = kind.startswith("Signed")
            yield it.args[0].value, bits, is_signed, kinds


def check_scapy(table, sources, packets):
    """The layers for scapy, from their source: the name, the bits and the sign of each field."""
    path, wrong = "python/geostation/scapy.py", []
    for node in ast.parse(sources.text(path)).body:
        if isinstance(node, ast.ClassDef) and node.name in ("GeoNetworking", "BTPB"):
            fields = next(it.value.elts for it in node.body if isinstance(it, ast.Assign)
                          and it.targets[0].id == "fields_desc")  # fmt: skip
            rows = list(scapy_fields(fields))
            for kind in TYPES:
                wanted = [it for it in table.layout(kind) if it.key not in ("port", "info")]
                wanted = table.headers["BTP-B"] if node.name == "BTPB" else wanted
                found = [row[:3] for row in rows if kind in row[3]]
                found = [(OF_SCAPY.get(name, name), *rest) for name, *rest in found]
                for ours, theirs in zip(wanted, found + [None] * len(wanted)):
                    if (ours.key, ours.bits, ours.is_signed) != theirs:
                        said = f"{ours.key} of {ours.bits} bits at {ours.octets()}"
                        wrong.append(f"{path}: {kind}: {theirs}, but {said}")
                        break
    return sorted(set(wrong))


NODE = """
const vm = require('node:vm');
const input = JSON.parse(require('node:fs').readFileSync(0, 'utf8'));
globalThis.geostation = {dom: {element() {}}};
for (const script of input.scripts) vm.runInThisContext(script);
const module_ = {exports: {}};
new Function('module', input.writer)(module_);
const read = input.frames.map((hex) => {
  const {packet, fault} = geostation.frame.decode(hex);
  return {packet, fault, rows: packet && geostation.packet.fields(packet)};
});
const made = input.packets.map((packet) => module_.exports.frame(packet.to, packet.from, packet));
console.log(JSON.stringify({read, made}));
"""
VIEWER = {"lifetime": "lifetime", "left": "hops_left", "max": "max_hops", "tst": "timestamp",
          "trafficClass": "traffic_class", "mobile": "mobile", "lat": "latitude",
          "lon": "longitude", "pai": "accurate", "speed": "speed", "heading": "heading",
          "number": "number", "port": "port", "info": "info"}  # fmt: skip
OF_AREA = {"lat": "area_latitude", "lon": "area_longitude", "a": "a", "b": "b", "angle": "angle"}


def of_viewer(packet):
    """The values of a packet of the page."""
    values = {key: packet[word] for word, key in VIEWER.items() if word in packet}
    values["address"] = int(packet["address"], 16)
    if "area" in packet:
        values |= {key: packet["area"][word] for word, key in OF_AREA.items()}
        values["sub_type"] = SHAPES.index(packet["area"]["shape"])
    if "payload" in packet:
        values["payload"] = bytes.fromhex(packet["payload"])
    return values


def viewer_packet(kind, values):
    """A packet as the writer of the page's samples takes it."""
    source = {word: values[key] for word, key in VIEWER.items() if key in values}
    source["address"] = f"{values['address']:016x}"
    packet = {"kind": kind, "to": LINK[:6].hex(), "from": LINK[6:12].hex(), "source": source}
    packet |= {word: source[word] for word in ("lifetime", "left", "max")}
    packet["tc"] = values["traffic_class"]
    if kind in ("gbc", "gac"):
        area = {word: values[key] for word, key in OF_AREA.items()}
        packet |= {"number": values["number"]}
        packet["area"] = area | {"shape": SHAPES[values["sub_type"]]}
    if kind != "beacon":
        packet |= {"port": values["port"], "info": values["info"]}
        packet["payload"] = values["payload"].hex()
    return packet


def degrees(value):
    return f"{value / 1e7:.7f}°"


def panel_of(kind, values):
    """Texts that the panel of a frame has in some of its rows, by the name of the row."""
    rows = {
        "hops left": f"{values['hops_left']} of {values['max_hops']}",
        "source": f"{values['address']:016x}",
        "time stamp": f"{values['timestamp']} ms",
        "position": degrees(values["latitude"]) + ", " + degrees(values["longitude"]),
        "traffic class": f"{values['traffic_class']:02x}",
        "mobile": "yes" if values["mobile"] else "no",
    }
    if kind in ("gbc", "gac"):
        rows["sequence number"] = str(values["number"])
        rows["area"] = f"at {degrees(values['area_latitude'])}, {degrees(values['area_longitude'])}"
    if kind != "beacon":
        rows["port, info"] = f"{values['port']}, {values['info']}"
    return rows


def check_viewer(table, sources, packets):
    """The page: its reader of frames, the fields of its panel, and the writer of its samples."""
    scripts = [sources.text("viewer/frame.js"), sources.text("viewer/packet.js")]
    # The writer of samples has a mobile source, and no media-dependent data.
    written = [
        (kind, changed := values | {"mobile": 1} | ({"media": 0} if kind == "shb" else {}),
         table.encode(kind, changed))
        for kind, values, _ in packets
    ]  # fmt: skip
    asked = {
        "scripts": scripts,
        "writer": sources.text("viewer/test/encode.js"),
        "frames": [(LINK + octets).hex() for _, _, octets in packets],
        "packets": [viewer_packet(kind, values) for kind, values, _ in written],
    }
    words = ["node", "-e", NODE]
    run = subprocess.run(words, input=json.dumps(asked), capture_output=True, text=True)
    if run.returncode:
        return [f"viewer: node: {run.stderr.strip().splitlines()[-1]}"]
    answer = json.loads(run.stdout)
    found = {octets: it for (_, _, octets), it in zip(packets, answer["read"])}
    wrong = [f"viewer/frame.js: {it['fault']}" for it in answer["read"] if it.get("fault")]
    if wrong:
        return sorted(set(wrong))
    wrong = compare("viewer/frame.js", table, packets, lambda _, w: of_viewer(found[w]["packet"]))
    for kind, values, octets in packets:
        rows = dict(found[octets]["rows"])
        for name, text in panel_of(kind, values).items():
            if text not in rows.get(name, ""):
                wrong.append(f"viewer/packet.js: {name} of a {kind} has no {text}")
    made = iter([bytes.fromhex(text)[len(LINK) :] for text in answer["made"]])
    return wrong[:9] + same_octets(
        "viewer/test/encode.js", table, written, lambda kind, values: next(made)
    )


TWIN = """
mod geometry;
mod packets;
use packets::{encode_into, read_frame, to_packet, Kind};
fn main() {
    for line in std::io::stdin().lines() {
        let text = line.unwrap();
        let octets: Vec<u8> = (0..text.len() / 2)
            .map(|k| u8::from_str_radix(&text[2 * k..2 * k + 2], 16).unwrap())
            .collect();
        let Ok(frame) = read_frame(&octets) else { println!("{{}}"); continue };
        let p = frame.packet;
        let v = p.vector;
        let mut out = vec![0; octets.len()];
        let n = encode_into(&to_packet(&p), &mut out).unwrap();
        print!("{{\\"lifetime\\":{},\\"left\\":{},\\"max\\":{}", p.lifetime, p.left, p.max);
        print!(",\\"trafficClass\\":{},\\"mobile\\":{}", p.class, p.mobile as u8);
        print!(",\\"address\\":\\"{:016x}\\",\\"tst\\":{}", v.address, v.tst);
        print!(",\\"lat\\":{},\\"lon\\":{}", v.place.lat, v.place.lon);
        print!(",\\"pai\\":{},\\"speed\\":{},\\"heading\\":{}", v.pai as u8, v.speed, v.heading);
        if let Kind::Gbc(number, a) | Kind::Gac(number, a) = &p.kind {
            print!(",\\"number\\":{number},\\"area\\":{{\\"shape\\":{}", a.shape as u8);
            print!(",\\"lat\\":{},\\"lon\\":{}", a.centre.lat, a.centre.lon);
            print!(",\\"a\\":{},\\"b\\":{},\\"angle\\":{}}}", a.a, a.b, a.angle);
        }
        let hex = |octets: &[u8]| octets.iter().map(|o| format!("{o:02x}")).collect::<String>();
        println!(",\\"body\\":\\"{}\\",\\"made\\":\\"{}\\"}}", hex(p.payload), hex(&out[..n]));
    }
}
"""


def run_twin(sources, typed):
    """The lines of the program of bench/twin, or why it isn't built."""
    with tempfile.TemporaryDirectory(prefix="octets.") as folder:
        for name in ("packets.rs", "geometry.rs"):
            (Path(folder) / name).write_text(sources.text(f"bench/twin/{name}"))
        (Path(folder) / "main.rs").write_text(TWIN)
        words = ["rustc", "--edition", "2021", "-A", "warnings", "-o", f"{folder}/twin"]
        built = subprocess.run([*words, f"{folder}/main.rs"], capture_output=True, text=True)
        if built.returncode:
            raise RuntimeError(built.stderr.strip().splitlines()[0])
        run = subprocess.run([f"{folder}/twin"], input=typed, capture_output=True, text=True)
        return [json.loads(line) for line in run.stdout.splitlines()]


def check_twin(table, sources, packets):
    """The second program of bench/: its reader and its writer of packets."""
    path = "bench/twin/packets.rs"
    try:
        typed = "".join((LINK + octets).hex() + "\n" for _, _, octets in packets)
        printed = run_twin(sources, typed)
    except RuntimeError as why:
        return [f"{path}: {why}"]
    found, wrong = {}, []
    for (kind, _, octets), it in zip(packets, printed):
        if not it:
            return [f"{path}: a {kind} is refused"]
        if "area" in it:
            it["area"]["shape"] = SHAPES[it["area"]["shape"]]
        body = bytes.fromhex(it.pop("body"))
        if kind != "beacon":
            it["port"], it["info"] = (int.from_bytes(body[at : at + 2], "big") for at in (0, 2))
            it["payload"] = body[4:].hex()
        found[octets] = it
    wrong = compare(path, table, packets, lambda _, w: of_viewer(found[w]))
    made = {octets: bytes.fromhex(it["made"]) for octets, it in found.items()}
    return wrong + same_octets(
        path, table, packets, lambda kind, values: made[table.encode(kind, values)]
    )


@functools.lru_cache(maxsize=None)
def wireshark(octets):
    """What tshark reads in frames of packets, as JSON."""
    capture = classic(False, *((0, 0, LINK + packet) for packet in octets))
    words = ["tshark", "-r", "-", "-T", "json", "-x"]
    run = subprocess.run(words, input=capture, capture_output=True)
    return json.loads(run.stdout) if run.stdout else []


def check_dissect(table, sources, packets):
    """checks/lib/dissect.py, over what Wireshark's own dissectors read in the packets. So the table
    is compared with Wireshark too."""
    module = sources.module(path := "checks/lib/dissect.py")
    read = wireshark(tuple(octets for _, _, octets in packets))
    if len(read) != len(packets):
        return [f"{path}: tshark reads {len(read)} of {len(packets)} packets"]
    found = {
        octets: of_line(module.values_of(it["_source"]["layers"]))
        for (_, _, octets), it in zip(packets, read)
    }
    return compare(path, table, packets, lambda _, w: found[w])


# Each second opinion, and what its check runs.
CHECKS = {
    "checks/lib/cut_rows.py": (check_cut_rows, None),
    "checks/packets": (check_packets, None),
    "checks/lib/single_bits.py": (check_single_bits, None),
    "checks/lib/packet_rows.py": (check_packet_rows, None),
    "checks/lib/time_stamps.py": (check_time_stamps, None),
    "c/link/test/frames.py": (check_link_frames, None),
    "examples/security/rules.py": (check_places, None),
    "python/geostation/scapy.py": (check_scapy, None),
    "viewer/frame.js": (check_viewer, "node"),
    "bench/twin/packets.rs": (check_twin, "rustc"),
    "checks/lib/dissect.py": (check_dissect, "tshark"),
}


def missing_tools():
    """The tools that aren't installed, without which a second opinion isn't compared."""
    return sorted(tool for _, tool in CHECKS.values() if tool and shutil.which(tool) is None)
