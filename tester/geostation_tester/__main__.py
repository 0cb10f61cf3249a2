"""Plays test purposes against a station on an interface, records what happens, and judges the
recording by `geostation verdict`.

    geostation-tester --iut FILE --interface IFACE [--record FILE] [--junit FILE] [--tap FILE]
        [--upper HOST:PORT | --upper-json PATH] [--security PATH [--stranger PATH]]
        [--program PATH] [--suite FOLDER] [PURPOSE ..]

The status is 0 if no purpose fails, 1 if one does, 2 for wrong arguments, files or purposes, and 3
if there is no recording or no verdict.
"""

from __future__ import annotations

import argparse
import sys
from collections.abc import Callable
from pathlib import Path

from . import pages
from .bench import Partners, LostFrames
from .campaign import Setting, claims_of, recording_of, run
from .entity import Entity
from .outputs import expect_apart
from .purposes import Purpose, read_purpose
from .reports import claims_line, junit, line, tap, total_line
from .station_file import read_station_file
from .tables import BadFile
from .upper import JsonUpper, UdpUpper
from .verdicts import NoVerdict

SUITE = Path(__file__).resolve().parents[1] / "suite"


def parser() -> argparse.ArgumentParser:
    found = argparse.ArgumentParser(
        prog="geostation-tester",
        description="Test a GeoNetworking station on an interface, by purposes.",
    )
    found.add_argument("--iut", type=Path, help="station file of the station under test")
    found.add_argument("--interface", help="interface that leads to it")
    found.add_argument("--record", type=Path, default=Path("run.pcapng"), metavar="FILE",
                       help="recording [default: run.pcapng]")  # fmt: skip
    found.add_argument("--junit", type=Path, metavar="FILE", help="write the results as JUnit XML")
    found.add_argument("--tap", type=Path, metavar="FILE", help="write the results as TAP")
    found.add_argument("--program", default="geostation", help="the program [default: geostation]")
    found.add_argument("--upper", metavar="HOST:PORT", help="upper tester of TR 103 099")
    found.add_argument("--upper-json", metavar="PATH", help="socket of geostation-link --listen")
    found.add_argument("--security", metavar="PATH",
                       help="security entity: a key that the station trusts")  # fmt: skip
    found.add_argument("--stranger", metavar="PATH",
                       help="security entity: a key that it does not know")  # fmt: skip
    found.add_argument("--suite", type=Path, default=SUITE, metavar="FOLDER",
                       help="folder of the purposes [default: that of the tester]")  # fmt: skip
    found.add_argument("--list", action="store_true", help="print a table of the purposes, and end")
    found.add_argument("purposes", nargs="*", metavar="PURPOSE", help="names [default: all]")
    return found


def purposes_of(suite: Path, names: list[str]) -> list[Purpose]:
    chosen = [suite / f"{name}.toml" for name in dict.fromkeys(names)]
    paths = chosen or sorted(suite.glob("*.toml"))
    if not paths:
        raise BadFile(f"{suite}: no purposes")
    return [read_purpose(path) for path in paths]


def udp_upper(address: str) -> UdpUpper:
    host, _, port = address.rpartition(":")
    if not host or not port.isdigit():
        raise BadFile(f"--upper {address}: not HOST:PORT")
    return UdpUpper(host, int(port))


def connected(option: str, connect: Callable, address: str | None):
    """The program at an address, or None if the option has none."""
    if address is None:
        return None
    try:
        return connect(address)
    except OSError as why:
        raise BadFile(f"{option} {address}: {why.strerror or why}") from None


def partners_of(a: argparse.Namespace) -> Partners:
    by_json = connected("--upper-json", JsonUpper, a.upper_json)
    return Partners(
        by_json or connected("--upper", udp_upper, a.upper),
        connected("--security", Entity, a.security),
        connected("--stranger", Entity, a.stranger),
    )


def check_outputs(a: argparse.Namespace, purposes: list[Purpose]) -> None:
    """Fails before anything is written if a file would be written over."""
    own = {f"the recording of {p.name}": p for p in purposes if p.restarts()}
    records = {"--record": a.record} | {k: recording_of(a.record, p) for k, p in own.items()}
    claims = {f"the claims beside {name}": claims_of(path) for name, path in records.items()}
    more = {"--junit": a.junit, "--tap": a.tap}
    reports = {name: path for name, path in more.items() if path}
    expect_apart({"--iut": a.iut}, records | claims | reports)


def test(a: argparse.Namespace, purposes: list[Purpose]) -> int:
    check_outputs(a, purposes)
    setting = Setting(a.interface, read_station_file(a.iut), a.record, a.program, partners_of(a))
    print(claims_line(setting.station), flush=True)
    results = run(setting, purposes)
    for result in results:
        print(line(result))
    print(total_line(results))
    if a.junit:
        a.junit.write_bytes(junit(results))
    if a.tap:
        a.tap.write_text(tap(results))
    return int(any(r.verdict == "fail" for r in results))


def main() -> int:
    p = parser()
    a = p.parse_args()
    if not a.list and (a.iut is None or a.interface is None):
        p.error("--iut and --interface are needed")
    try:
        purposes = purposes_of(a.suite, a.purposes)
        if a.list:
            print(pages.table(purposes), end="")
            return 0
        return test(a, purposes)
    except (BadFile, OSError) as why:
        print(f"geostation-tester: {why}", file=sys.stderr)
        return 2 if isinstance(why, BadFile) or why.filename else 3
    except (LostFrames, NoVerdict) as why:
        print(f"geostation-tester: {why}", file=sys.stderr)
        return 3


if __name__ == "__main__":
    sys.exit(main())
