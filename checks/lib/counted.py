"""Compares the tables of `geostation stats --json` with those of what Wireshark read.

    python3 checks/lib/counted.py DISSECTED STATS

DISSECTED has the lines of `checks/lib/dissect.py`, STATS the object of `stats`. All tables are
computed by checks/lib/capture_counts.py, from Wireshark's fields alone.
"""

import json
import sys

# Imports leave no compiled files among the sources.
sys.dont_write_bytecode = True

from capture_counts import Counts, Seen

# The octets of a frame before its payload: Ethernet (14), basic and common header (12), the header
# of the kind, and BTP (4).
HEADERS = {"beacon": 14 + 12 + 24, "shb": 14 + 12 + 28 + 4, "gbc": 14 + 12 + 44 + 4}
HEADERS["gac"] = HEADERS["gbc"]


def seen(frame: dict) -> Seen:
    octets = HEADERS[frame["kind"]] + len(frame.get("payload", "")) // 2
    keys = {key: frame[key] for key in ("moment", "kind", "address", "hops")}
    return Seen(**keys, octets=octets, port=frame.get("port"), number=frame.get("number"))


with open(sys.argv[1]) as lines, open(sys.argv[2]) as one:
    wanted = Counts([seen(json.loads(line)) for line in lines], [], None).all()
    found = json.load(one)
if found != wanted:
    sys.exit(f"Wireshark's counts are {wanted}, those of stats {found}")
