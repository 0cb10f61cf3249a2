"""The station file of `geostation verdict`: what a purpose asks of it, and the copy with the claims
of a bench. `geostation verdict` says what a claim means, and refuses wrong keys."""

from __future__ import annotations

import json
from dataclasses import dataclass, replace
from pathlib import Path

from .actions import UPPER
from .areas import Place
from .tables import read_file

CONTENTION, OTHER = "cbf", "other"  # values of `area`
# What a purpose may need of the station: without it the purpose is not applicable.
NEEDS = {
    "simple": lambda claims: claims.get("area") == "simple",
    "contention": lambda claims: claims.get("area") == CONTENTION,
    "greedy": lambda claims: claims.get("elsewhere") == "greedy",
    "remember 8": lambda claims: claims.get("remember", 8) == 8,
    "capacity 16": lambda claims: claims.get("capacity", 0) >= 16,
    "life 20000": lambda claims: claims.get("life", 20_000) == 20_000,
    "unlimited": lambda claims: claims.get("unlimited", False) is True,
    "gapless": lambda claims: claims.get("gapless", False) is True,
    "profile": lambda claims: claims.get("profile", False) is True,
}
# What it may need of the bench besides an upper tester: one that opens ports, a security entity
# with a key that the station trusts, and one with a key that it does not know.
PORTS, SECURED, STRANGER = "ports", "secured", "stranger"
PARTNERS = (UPPER, PORTS, SECURED, STRANGER)
OVER_RESTARTS = ("steady", "fresh")
# The tester made every frame, and its own port is the tap.
BENCH = {"sent": True, "received": True, "delivered": True}


@dataclass(frozen=True)
class StationFile:
    """`within` is the greatest time from a reception to the frame that it causes, `life` that of a
    location table entry, both in ms."""

    address: bytes
    mac: bytes
    place: Place
    within: int
    life: int
    station: dict
    claims: dict
    capture: dict

    @property
    def source(self) -> int:
        """Its address as the source of a packet."""
        return int.from_bytes(self.address, "big")

    def lacks(self, needs: tuple[str, ...], there: set[str]) -> list[str]:
        """`there` are the partners of the bench. A station whose packets are signed accepts no
        others."""
        claims = (need for need in needs if need in NEEDS)
        lacking = [need for need in claims if not NEEDS[need](self.claims)]
        lacking += [need for need in PARTNERS if need in needs and need not in there]
        return lacking + (["unsecured"] if SECURED in there and SECURED not in needs else [])

    def restarted(self) -> StationFile:
        """The file without the claims that a restart makes wrong."""
        kept = {name: v for name, v in self.claims.items() if name not in OVER_RESTARTS}
        return replace(self, claims=kept)

    def bench_claims(self) -> dict[str, object]:
        """The claims of the file, and those of a bench, without those that are false."""
        claims = {**self.claims, **self.capture, **BENCH}
        return self.station | {name: v for name, v in claims.items() if v is not False}

    def text(self, until: int) -> str:
        """The file with the claims of a bench, and the time up to which its recording is complete,
        in ms since 1970. `geostation verdict` does not know contention yet."""
        contends = self.claims.get("area") == CONTENTION
        parts = {
            "station": self.station,
            "claims": {**self.claims, "area": OTHER} if contends else self.claims,
            "capture": {**self.capture, **BENCH, "until": until},
        }
        lines = (f"[{name}]\n" + "".join(map(line, part.items())) for name, part in parts.items())
        return "\n".join(lines)


def line(item: tuple[str, object]) -> str:
    """Strings, whole numbers and truth values are written as in JSON."""
    return f"{item[0]} = {json.dumps(item[1])}\n"


def read_station_file(path: Path) -> StationFile:
    t = read_file(path)
    tables = {name: t.table(name) for name in ("station", "claims", "capture")}
    kept = {name: dict(part.values) if part else {} for name, part in tables.items()}
    station = tables["station"]
    if station is None:
        raise t.wrong("station is missing")
    address = station.octets("address")
    if len(address) != 8:
        raise station.wrong("address is not 16 hexadecimal digits")
    mac = station.mac("mac", address[2:].hex())
    place = (
        station.whole("lat", -900_000_000, 900_000_000),
        station.whole("lon", -1_800_000_000, 1_800_000_000),
    )
    within = kept["capture"].get("within", 50)
    life = kept["claims"].get("life", 20_000)
    return StationFile(address, mac, place, within, life, *kept.values())
