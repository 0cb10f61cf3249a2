"""A tester of GeoNetworking stations on a link: it plays test purposes and records what happens.

- `purposes`: test purposes, read from TOML
- `neighbours`: the tester's own stations, and the frames that they send
- `play`: what is sent when
- `bench`: an interface, and the clock
- `upper`, `entity`: its partners: an upper tester, a security entity
- `recording`: a pcapng file with a comment per record
- `reports`: lines, JUnit XML and TAP
"""
