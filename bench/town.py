"""A town for `geostation sim`: `town.py STATIONS SECONDS [contending]` prints its scenario.

160 stations a square kilometre stand in disorder, of one seed. Each sends beacons and, once a
second, a single-hop message of 50 octets; five geobroadcasts go out beside these. Where the stations
contend, ten geobroadcasts go out each second, to areas twice as wide.
"""

import math
import random
import sys

DENSITY = 160
RANGE = 400
PORT = 2002
LAT, LON = 481_000_000, 115_000_000
NORTH = 1.1132 / 100
EAST = NORTH * math.cos(math.radians(LAT / 10_000_000))
WARNINGS = 5
FIRST = 0x1400020000000001


# How the stations contend: the range is that of the radio.
CONTENTION = f"""contention = true
contention_min = 1
contention_max = 100
contention_range = {RANGE}
contention_copies = 2"""


def main(stations, seconds, contend):
    draws = random.Random(stations)
    side = 1000 * math.sqrt(stations / DENSITY)

    def place():
        lat = LAT + int(side * draws.random() / NORTH)
        lon = LON + int(side * draws.random() / EAST)
        return lat, lon

    until = 1000 * seconds - 1
    warnings, radius = (10 * seconds, 600) if contend else (WARNINGS, 300)
    print(f"[air]\nrange = {RANGE}\nseed = 1\nbeacons = true\nuntil = {until}")
    if contend:
        print(CONTENTION)
    print(f"[[every]]\nperiod = 1000\nport = {PORT}\ninfo = 0\ntc = 0\noctets = 50")
    for number in range(stations):
        lat, lon = place()
        print(f'[[station]]\naddress = "{FIRST + number:016x}"\nlat = {lat}\nlon = {lon}')
        print("capacity = 256")
    for number in range(stations):
        print(f'[[event]]\nstation = {number}\nat = 0\ndo = "open"\nport = {PORT}')
    for warning in range(1, warnings + 1):
        lat, lon = place()
        station = int(stations * draws.random())
        moment = until * warning // (warnings + 1)
        print(f'[[event]]\nstation = {station}\nat = {moment}\ndo = "gbc"\nport = {PORT}')
        print(f'info = 0\ntc = 0\nlt = 26\nhops = 10\nshape = "circle"\nalat = {lat}')
        print(f'alon = {lon}\na = {radius}\nb = 0\nangle = 0\npayload = "696365"')


main(int(sys.argv[1]), int(sys.argv[2]), "contending" in sys.argv[3:])
