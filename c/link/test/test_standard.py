"""What the daemon does by itself, against EN 302 636-4-1: the mobile bit of a road-side unit, the
first sequence number, PAI, and the lifetime of frames that wait."""

import re
import shlex
import struct
import tempfile
import time
from pathlib import Path

import frames
from common import OTHER, PROGRAM, gbc, has, run, stamp, udp_command, until, write
from entity import secured
from frames import GBC
from net import Daemon, Net
from test_fixes import Gpsd, report, until_sent
from test_security import LONG, Bench

LIFETIME_AT = 16
SHORT, MINUTE = 0x04, 0x1A  # 50 ms and 60 s
WAITING = 64
IMPLIED = b"is a road-side unit"


PAGE = Path(__file__).resolve().parents[3] / "docs/PROFILE.md"
PACKET = 14  # its first octet in a frame


def with_octets(frame, at, octets):
    """A frame with other octets in its packet."""
    at += PACKET
    return frame[:at] + octets + frame[at + len(octets) :]


def living(frame, lifetime):
    return with_octets(frame, LIFETIME_AT - PACKET, bytes([lifetime]))


def sent_by(d):
    return bytes.fromhex(d.ask(**GBC, payload="00")["frame"])


def test_mobile_bit():
    """A road-side unit does not move unless it says so, and the start says what was implied."""
    with Net(PROGRAM, 1) as net:
        for options, mobile, is_implied in (
            ((), 0, True),
            (("--station-type", 15), 0, True),
            (("--stationary",), 0, False),
            (("--mobile",), 1, False),
            (("--station-type", 15, "--mobile"), 1, False),
            (("--station-type", 5), 1, False),
            (("--station-type", 5, "--stationary"), 0, False),
            (("--station-type", 5, "--mobile"), 1, False),
            (("--address", "3c00020000000100"), 0, True),
            (("--address", "1400020000000100"), 1, False),
        ):
            d = net.station(0, *options)
            found = frames.mobile_of(sent_by(d))
            said = d.end()[2]
            assert (found, said.count(IMPLIED)) == (mobile, is_implied), (options, found, said)


def test_first_number():
    """The first packet has this number, also after the next start."""
    for number, wanted in (("0", [0, 1]), ("0", [0, 1]), ("65535", [65535, 0])):
        d = Daemon([*udp_command(1, 47951, "127.0.0.1:47952"), "--first-number", number])
        found = [int.from_bytes(sent_by(d)[26:28], "big") for _ in wanted]
        assert found == wanted, (number, found)
        assert d.end()[0] == 0


def test_pai_metres():
    """PAI is set up to this error of a fix: here the standard's 40 m."""
    gpsd = Gpsd(8, "--pai-metres", "40")
    for k, (error, pai) in enumerate(((10.1, 1), (40, 1), (40.1, 0), (5, 1), (99, 0))):
        lat = 514776500 + k * 1000
        gpsd.link.sendall(report(eph=error, lat=lat / 1e7, lon=-0.001))
        until_sent(gpsd.station, lat=lat, pai=pai)
    assert gpsd.end()[0] == 0


def test_options_of_the_standard():
    """They have a place in a configuration file too, and the two flags exclude each other."""
    with tempfile.TemporaryDirectory() as room:
        good = "interface = lo\nposition = 0,0\nmobile\nfirst-number = 0\npai-metres = 40\n"
        path = write(f"{room}/good", good)
        p = run("--config", path, "--check-config")
        assert (p.returncode, p.stderr) == (0, ""), p
        for more, said in (("stationary", "--stationary and --mobile"),
                           ("pai-metres = 0", "not a number from 1 to 1000"),
                           ("first-number = 65536", "not a number from 0 to 65535")):
            p = run("--config", write(f"{room}/bad", good + more + "\n"), "--check-config")
            assert p.returncode == 2 and said in p.stderr, (more, p)


def test_command_of_the_page():
    """The command that PROFILE.md has for a test bench."""
    command = PAGE.read_text().split("```sh\ngeostation-link ")[1].split("```")[0]
    p = run(*shlex.split(command.replace("\\\n", "")), "--check-config")
    assert (p.returncode, p.stderr) == (0, ""), p
    with Net(PROGRAM, 1) as net:
        words = shlex.split(command.replace("\\\n", "").replace("eth0", "v"))
        d = Daemon(net.enter(0, PROGRAM, *words))
        for number in range(100):
            sent = sent_by(d)
            assert frames.mobile_of(sent) == 0 and sent[26:28] == bytes([0, number]), sent.hex()
        d.end()


def refused_packets():
    """Packets that no station of this project processes, by the rows of the page that say so."""
    beacon, area = frames.beacon(OTHER, stamp()), gbc(1)
    hop = frames.shb(OTHER, stamp(), 2002, b"x")
    rectangle = with_octets(with_octets(area, 5, b"\x41"), 50, b"\0\1")
    return {
        "CAP-3": [(area, 0, b"\x12")],
        "CAP-5": [(area, 4, b"\x10"), (hop, 4, b"\x30")],
        "MIB-2": [(area, 0, b"\x21")],
        "PKT-2": [(area, 5, b"\x20")],
        "PKT-6": [(hop, 5, b"\x51")],
        "PKT-7": [(area, 5, b"\x60"), (area, 5, b"\x61")],
        "PKT-8": [(beacon, 0, b"\x10")],
        "PKT-9": [(area, 4, b"\0"), (hop, 4, b"\0"), (beacon, 4, b"\x20")],
        "PKT-10": [(hop, 8, b"\0\0"), (area, 8, b"\0\3"), (beacon, 8, b"\0\4")],
        "PKT-11": [(beacon, 3, b"\0")],
        "PKT-12": [(beacon, 24, struct.pack(">i", 900000001)), (beacon, 14, b"\1"),
                   (hop, 28, struct.pack(">i", 1800000001))],
        "PKT-13": [(area, 50, b"\0\1"), (area, 52, b"\0\1"), (rectangle, 52, b"\1\x68")],
        "PKT-14": [(area, 1, b"\1"), (hop, 7, b"\x81"), (area, 15, b"\1"), (area, 54, b"\x80")],
        "FUN-14": [(area, 3, b"\x0b")],
    }  # fmt: skip


def test_codes_of_the_page():
    """A row of PROFILE.md has each code that its packets are refused with, and no other one."""
    with Net(PROGRAM, 1) as net:
        d = net.station(0)
        for item, packets in refused_packets().items():
            row = next(x for x in PAGE.read_text().splitlines() if x.startswith(f"| {item} |"))
            wanted = set(re.findall(r"G\d+(?: at \d+)?", row))
            found = set()
            for frame, at, octets in packets:
                answer = d.ask(do="read_frame", frame=with_octets(frame, at, octets).hex())
                code = answer["code"].removeprefix("L5 ")
                found.add(code if code in wanted else code.split(" at ")[0])
            assert found == wanted, (item, found, wanted)
        for frame in (gbc(1), frames.beacon(OTHER, stamp())):
            has({"result": "read"}, d.ask(do="read_frame", frame=frame.hex()))


def test_lifetime_of_forwarded_frames():
    """Of frames that wait up to a second, most with 50 ms to live are not sent; all others are."""
    for lifetime, least in ((MINUTE, 0), (SHORT, WAITING // 2)):
        with Net(PROGRAM, 1) as net:
            d, (end,) = net.station(0, "--forward-spread", 1000), net.ends()
            for k in range(WAITING):
                end.send(living(gbc(k), lifetime))
            d.until(lambda n: n["relayed"] == WAITING)
            forwarded = set()
            end.settimeout(1.5)
            try:
                while True:
                    frame = end.recv(2048)
                    if frames.kind_of(frame) == "gbc":
                        forwarded.add(frame)
            except TimeoutError:
                pass
            counts = d.counts()["link"]
            assert len(forwarded) + counts["expired"] == WAITING, (len(forwarded), counts)
            assert (counts["expired"] == 0) == (least == 0) and counts["expired"] >= least, counts


def test_lifetime_at_the_entity():
    """What the entity answers after its lifetime is delivered, and not sent."""
    with Bench(*LONG) as b:
        for number, lifetime in ((1, SHORT), (2, MINUTE)):
            b.send(secured(living(gbc(number, b"ice"), lifetime)))
            asked = b.next_of("verify")
            time.sleep(0.2)
            b.entity.verify(asked)
            assert b.daemon.event("delivered")["payload"] == b"ice".hex()
            if lifetime == SHORT:
                assert b.is_quiet(), "it was forwarded after its lifetime"
        assert b.received()[LIFETIME_AT] == MINUTE
        has({"expired": 1}, b.daemon.counts()["link"])
        for lifetime, wanted in ((SHORT, {"result": "refused", "code": "lifetime over"}),
                                 (MINUTE, {"result": "sent"})):
            b.daemon.put(**{**GBC, "lt": lifetime}, payload="00")
            asked = b.next_of("sign")
            time.sleep(0.2)
            b.entity.sign(asked)
            has(wanted, b.daemon.answer())
        assert b.received()[LIFETIME_AT] == MINUTE
        counts = until(lambda: b.daemon.counts(), "no counts")
        has({"expired": 2}, counts["link"])
        has({"geobroadcasts": 1}, counts["sent"])
