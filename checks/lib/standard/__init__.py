"""A station that is not ours, written from the clauses of EN 302 636-4-1 V1.4.1, EN 302 636-5-1 and
EN 302 931, and from no source of this repository. Where docs/PROFILE.md says that this project does
otherwise, it follows the item of that page.

- `packets`: the octets of frames, their encoder and decoder
- `areas`: places and areas
- `station`: a station with its location table
- `dissected`: frames, as Wireshark dissects them
- `traffic`: drawn traffic
- `wire`: one wire with that traffic and two parties
- `judged`: the station, judged by the library
- `daemon`: the daemon, judged by the station
- `faults`: the same station with one mistake each
"""
