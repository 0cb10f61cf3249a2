"""Blocks of the language `scenario` in transcripts: a scenario with a line per station and event.

    station ADDRESS LAT LON KEY=VALUE ..
    MOMENT STATION ACTION KEY=VALUE ..

STATION is a number, or the id of a vehicle. A key that is left out has the value of DEFAULTS. `KEY=`
leaves it out of the scenario, and the value `-` is the empty text. Any other line is copied.
As a program it writes the scenario of its standard input.
"""

import sys
from itertools import groupby

AREA = "lt=26 hops=10 shape=circle alat=0 alon=0 a=100 b=0 angle=0"
DEFAULTS = {
    "open": "port=2002",
    "close": "port=2002",
    "tick": "jitter=0",
    "move": "lat=0 lon=0 pai=false speed=0 heading=0",
    "deliver": "frame=0",
    "restart": "number=0",
    "shb": "port=2002 info=0 tc=0 payload=6869",
    "gbc": f"port=2002 info=0 tc=0 {AREA} payload=6869",
    "gac": f"port=2002 info=0 tc=0 {AREA} payload=6869",
    "leave": "",
}
TEXTS = ("address", "do", "id", "payload", "shape")


def table(pairs):
    """An inline table of TOML."""
    texts = (f'{key} = "{value}"' if key in TEXTS else f"{key} = {value}" for key, value in pairs)
    return f"{{{', '.join(texts)}}}"


def pairs_of(words):
    return [word.split("=", 1) for word in words]


def read_line(line):
    """The array that a line belongs to, if any, and its text there."""
    words = line.split()
    if len(words) >= 4 and words[0] == "station":
        keys = zip(("address", "lat", "lon"), words[1:4])
        return "station", table([*keys, *pairs_of(words[4:])])
    if len(words) >= 3 and words[2] in DEFAULTS:
        moment, station, action = words[:3]
        given = dict(pairs_of([*DEFAULTS[action].split(), *words[3:]]))
        keys = {key: "" if value == "-" else value for key, value in given.items() if value}
        who = ("station" if station.isdigit() else "id", station)
        return "event", table([who, ("at", moment), ("do", action), *keys.items()])
    return None, line


def expand(lines):
    """The scenario of a block, in TOML: each run of stations or events is an array."""
    text = ""
    for array, group in groupby(map(read_line, lines), key=lambda read: read[0]):
        shown = [line for _, line in group]
        if array is None:
            text += "".join(f"{line}\n" for line in shown)
        elif len(shown) == 1:
            text += f"{array} = [{shown[0]}]\n"
        else:
            text += f"{array} = [\n" + "".join(f"  {line},\n" for line in shown) + "]\n"
    return text


if __name__ == "__main__":
    sys.stdout.write(expand(sys.stdin.read().splitlines()))
