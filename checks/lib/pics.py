"""What can be computed of docs/PROFILE.md, the PICS and PIXIT: its constants, header types, codes,
options and names are those of the sources, and the purposes of the tester name its items. What is
read: tables of rows `| Item | .. |`.
"""

import re
import tomllib
from typing import NamedTuple

from program import TOP

PAGE = TOP / "docs/PROFILE.md"
EVIDENCE, SUITE = TOP / "docs/EVIDENCE.md", TOP / "tester/suite"
ITEM = re.compile(r"(CAP|MIB|PKT|FUN|PIX)-(\d+)$")
STATUS = re.compile(r"[mco-]( \?)?$")
SUPPORT = re.compile(r"[YNP-](/[YN-]/[YN-])?$")
PRODUCTS = ("L", "D", "S")


class Row(NamedTuple):
    """A row of the page: its line, its cells, and the cells by the names of their columns."""

    line: int
    cells: list
    by_name: dict


def read_rows(text):
    """The rows that begin with the number of an item, in order."""
    heads, rows = [], []
    for number, line in enumerate(text.splitlines(), 1):
        if not line.startswith("|"):
            heads = []
            continue
        cells = [cell.strip() for cell in line.strip()[1:-1].split("|")]
        heads = heads or cells
        if ITEM.match(cells[0]):
            rows.append(Row(number, cells, dict(zip(heads, cells))))
    return rows


def number_in(path, form):
    """The one number that a source has in this form."""
    found = re.findall(form, (TOP / path).read_text())
    if len(found) != 1:
        raise ValueError(f"{path} has {len(found)} times {form}")
    return int(found[0].replace("_", ""), 0)


def constant(path, name):
    return number_in(path, rf"const {name}: \w+ = ([\w]+);")


def field(path, name):
    return number_in(path, rf"\b{name}: (\d+),")


def lifetime(octet):
    """Seconds."""
    return (octet >> 2) * (0.05, 1, 10, 100)[octet & 3]


def rate(name):
    """Frames per second and at once, by the limits that are on by default."""
    text = (TOP / "crates/its_governor/src/rate.rt").read_text()
    burst, second = re.search(
        rf"const {name}: Rate = Rate {{\s*burst: (\d+),\s*per_second: (\d+),", text
    ).groups()
    return f"{second}, {burst}"


def constants():
    """What the cells of the table of constants have, by the constant: for the three products."""
    layout, link = "crates/its_c/src/layout.rt", "c/link"
    sending = "crates/its_station/src/sending.rt"
    scenario = "crates/sim_scenario/src/events/station.rt"
    usual = re.search(r"const USUAL: Config = Config \{.*?\};", (TOP / layout).read_text(), re.S)[0]

    def usual_of(name):
        return int(re.search(rf"\b{name}: (\d+)", usual)[1])

    payload = constant("crates/its_headers/src/payload.rt", "LONGEST_PAYLOAD")
    life = constant("crates/its_loctable/src/renewal.rt", "ENTRY_LIFE") // 1000
    wait, jitter = constant(sending, "BEACON_WAIT"), constant(sending, "MAX_JITTER")
    short = lifetime(constant("crates/its_station/src/requests.rt", "SHORT_LIFETIME"))
    version = constant("crates/its_headers/src/wire/basic.rt", "VERSION_1")
    road_side = number_in(f"{link}/parts.h", r"ROAD_SIDE_UNIT = (\d+)")
    metres = number_in(f"{link}/arguments.c", r"\.pai_metres = (\d+)")
    refresh = number_in(f"{link}/place.c", r"TOLD_EACH = (\d+)")
    hops = re.search(r"CHANNEL: Limits.*?hop_cap: (\d+)", (TOP / "crates/its_governor/src/rate.rt")
                     .read_text(), re.S)[1]
    link_sizes = {name: number_in(f"{link}/arguments.c", rf"o->station\.{name} = (\d+);")
                  for name in ("capacity", "remember")}

    rule = re.search(r"const DEFAULT: ContentionRule = ContentionRule \{(.*?)\};",
                     (TOP / "crates/its_contention/src/rule.rt").read_text(), re.S)[1]
    least, most, reach = (re.search(rf"{name}: (\d+)", rule)[1]
                          for name in ("min_wait", "max_wait", "range"))
    in_scenarios = [constant("crates/sim_settings/src/air_keys.rt", f"USUAL_{name}")
                    for name in ("MIN_WAIT", "MAX_WAIT", "RANGE")]

    def alike(text):
        return (str(text),) * 3

    return {
        "itsGnProtocolVersion": alike(version),
        "itsGnStationType": ("chosen", str(road_side), "chosen"),
        "itsGnIsMobile": (str(usual_of("mobile")), "0", "1"),
        "itsGnMinUpdateFrequencyEPV": ("chosen", f"{refresh} ms", "chosen"),
        "itsGnPaiInterval": ("chosen", f"{2 * metres} m", "chosen"),
        "itsGnMaxSduSize": alike(f"{payload} octets"),
        "itsGnLifetimeLocTE": alike(f"{life} s"),
        "itsGnBeaconServiceRetransmitTimer": alike(f"{wait} ms"),
        "itsGnBeaconServiceMaxJitter": alike(f"{jitter} ms"),
        "itsGnDPLLength": (str(usual_of("remember")), str(link_sizes["remember"]),
                           str(constant(scenario, "USUAL_NUMBERS"))),
        "itsGnMaxPacketLifetime": alike(f"{lifetime(0xff):.0f} s"),
        "itsGnDefaultPacketLifetime": alike(f"{short:.0f} s"),
        "itsGnDefaultTrafficClass": alike(0),
        "size of the location table": (str(usual_of("capacity")), str(link_sizes["capacity"]),
                                       str(constant(scenario, "USUAL_ENTRIES"))),
        "forwarded frames per second, at once": (*[rate("CHANNEL_FORWARD")] * 2, "none"),
        "the same per source": (*[rate("CHANNEL_SOURCE")] * 2, "none"),
        "own packets per second, at once": (*[rate("CHANNEL_OWN")] * 2, "none"),
        "greatest RHL that is forwarded": (hops, hops, "none"),
        "itsGnCbfMinTime, CbfMaxTime, DefaultMaxCommunicationRange, BroadcastCBFDefSectorAngle":
            (*[f"{least} ms, {most} ms, {reach} m, none"] * 2,
             "{} ms, {} ms, {} m, none".format(*in_scenarios)),
    }  # fmt: skip


def check_constants(rows):
    """Each number in the table is one that was computed, and each computed one is there."""
    wanted, wrong = constants(), []
    there = {row.by_name["Constant"]: row for row in rows if row.cells[0].startswith("MIB")}
    for name in wanted.keys() - there.keys():
        wrong.append(f"it has no row of {name}")
    for name, row in there.items():
        found = tuple(row.by_name[product] for product in PRODUCTS)
        if name in wanted and found != wanted[name]:
            wrong.append(f"line {row.line}: {name}: {found}, the sources have {wanted[name]}")
        if name not in wanted and re.search(r"\d", " ".join(found)):
            wrong.append(f"line {row.line}: {name}: nothing computes {found}")
    return wrong


def check_packets(rows):
    """The kinds that are transmitted and received are those of the crate of headers."""
    text = (TOP / "crates/its_headers/src/wire/common.rt").read_text()
    numbers = re.findall(r"const TYPE_(\w+): u8 = (\d+);", text)
    types = {name: int(value) for name, value in numbers}
    found = {}
    for row in rows:
        support = {row.by_name[product] for product in PRODUCTS if product in row.by_name}
        if row.cells[0].startswith("PKT") and any("Y" in cell for cell in support):
            found[row.by_name["Packet"]] = int(row.by_name["HT, HST"].split(",")[0])
            if len(support) != 1:
                return [f"line {row.line}: the products run one core"]
    return [] if found == types else [f"packets: {found}, the sources have {types}"]


def places():
    """The octets at which each code may be, by the crate of headers."""
    wire = TOP / "crates/its_headers/src/wire"
    faults = (TOP / "crates/its_faults/src/packet.rt").read_text()
    codes = dict(re.findall(r'FaultKind::(\w+) => "(G\d+)"', faults))
    fields = dict(re.findall(r"const (\w+): usize = (\d+);", (wire / "fields.rt").read_text()))
    found = set()
    for path in wire.glob("*.rt"):
        for name, kind in re.findall(r"fault\((\w+), FaultKind::(\w+)\)", path.read_text()):
            if name in fields:
                found.add((codes[kind], fields[name]))
    return found


def check_codes(text):
    known = places()
    return [f"{code} at {at}: the sources have no such fault"
            for code, at in re.findall(r"\b(G\d+) at (\d+)", text) if (code, at) not in known]


def check_options(text):
    """Each option is one of the daemon."""
    table = (TOP / "install/geostation-link.options").read_text()
    known = set(re.findall(r"^-  (--[\w-]+)", table, re.M))
    return [f"{name}: geostation-link has no such option"
            for name in sorted(set(re.findall(r"--[a-z][a-z-]+", text)) - known)]


def check_names(text):
    """Each name in brackets is one of a definition, a law or a case in the sources."""
    named = re.findall(r"\(`(\w+)`(?:, `(\w+)`)*\)|laws? `(\w+)`(?:, `(\w+)`)?", text)
    names = {name for group in named for name in group if name}
    crates = TOP / "crates"
    paths = [*crates.glob("its_*/specs/**/*.antt"), *crates.glob("its_*/src/**/*.rt")]
    sources = [path.read_text() for path in [*paths, TOP / "c/geostation.h"]]
    words = set(re.findall(r"\w+", "\n".join(sources)))
    for name in ("counts.c", "events.c"):
        words |= set(re.findall(r'"(\w+)\\?"', (TOP / "c/link" / name).read_text()))
    return [f"{name}: no definition" for name in sorted(names - words)]


def check_purposes(rows):
    """Each purpose of the tester names rows of the page, and has a row on the page of results."""
    known, wrong = {row.cells[0] for row in rows}, []
    text = EVIDENCE.read_text() if EVIDENCE.exists() else ""
    results = set(re.findall(r"^\| ([A-Z]+-\d+) \| [A-Z]+-", text, re.M))
    paths = {path.stem: path for path in sorted(SUITE.glob("*.toml"))}
    for name, path in paths.items():
        items = tomllib.loads(path.read_text()).get("pics", [])
        wrong += [] if items else [f"purpose {name} names no row"]
        wrong += [f"purpose {name}: no row {item}" for item in items if item not in known]
    wrong += [f"docs/EVIDENCE.md has no result of {name}" for name in paths.keys() - results]
    return wrong + [f"docs/EVIDENCE.md: no purpose {name}" for name in results - paths.keys()]


def check_form(rows):
    """Items are numbered in order; each status and each support is one of those that it explains;
    and what is not plainly supported has a remark."""
    wrong, last = [], {}
    for row in rows:
        table, number = ITEM.match(row.cells[0]).groups()
        if int(number) != last.get(table, 0) + 1:
            wrong.append(f"line {row.line}: {row.cells[0]} after {table}-{last.get(table, 0)}")
        last[table] = int(number)
        if len(row.cells) != len(row.by_name):
            wrong.append(f"line {row.line}: {len(row.cells)} cells, {len(row.by_name)} columns")
        if table in ("CAP", "PKT", "FUN"):
            support = [row.by_name[product] for product in PRODUCTS]
            if not STATUS.match(row.by_name["Status"]):
                wrong.append(f"line {row.line}: the status {row.by_name['Status']}")
            if not all(SUPPORT.match(cell) for cell in support):
                wrong.append(f"line {row.line}: the support {support}")
            if re.search("[NP]", "".join(support)) and not row.by_name["What a station does"]:
                wrong.append(f"line {row.line}: {row.cells[0]} has no remark")
        references = re.findall(r"\b((?:CAP|MIB|PKT|FUN|PIX)-\d+)", " ".join(row.cells))
        known = {other.cells[0] for other in rows}
        wrong += [f"line {row.line}: no row {name}" for name in references if name not in known]
    return wrong + [f"no row {table}" for table in ("CAP", "MIB", "PKT", "FUN", "PIX")
                    if table not in last]


def check(text=None):
    """What is wrong with the page, and what it has."""
    text = PAGE.read_text() if text is None else text
    rows = read_rows(text)
    wrong = check_form(rows)
    if not wrong:
        wrong = check_constants(rows) + check_packets(rows)
    wrong += check_codes(text) + check_options(text) + check_names(text) + check_purposes(rows)
    return [f"docs/PROFILE.md: {line}" for line in wrong], f"{len(rows)} rows of the PICS and PIXIT"
