"""Signed packets: the octets that are sent, and what is judged of those that come back."""

import tempfile
import unittest
from pathlib import Path

from geostation_tester.bench import Record, Sent
from geostation_tester.frames import Key
from geostation_tester.neighbours import Played as Neighbour
from geostation_tester.play import steps
from geostation_tester.purposes import read_purpose
from geostation_tester.results import Played, result_of
from geostation_tester.secured import opened, plain_in
from geostation_tester.station_file import read_station_file

PURPOSE = """title = "signed packets"
group = "TS 103 096-2"
expected = "forwarded if they are good"
needs = ["secured", "stranger", "simple"]

[[tester]]
name = "A"
mac = "020000000101"

[[play]]
name = "good"
at = 0
do = "gbc"
from = "A"
circle = { a = 300 }
signed = "trusted"
port = 2002

[[play]]
name = "flipped"
at = 10
do = "gbc"
from = "A"
circle = { a = 300 }
signed = "trusted"
port = 2002
octet = -1
xor = 2

[[play]]
name = "unknown"
at = 20
do = "gbc"
from = "A"
circle = { a = 300 }
signed = "unknown"
port = 2002

[[play]]
at = 30
do = "beacon"
from = "A"
signed = "trusted"

[[expect]]
of = "good"
to = "all"

[[expect]]
of = "flipped"
relays = 0

[[expect]]
of = "unknown"
relays = 0
"""
OWN = PURPOSE.partition("[[expect]]")[0] + "[[expect]]\nsecured = 1\n"
STATION = (
    '[station]\naddress = "3c00020000000100"\nlat = 514776500\nlon = -10000\n'
    '[claims]\narea = "simple"\n'
)
# By hand from clause 9.8.6: Basic Header (0 more octets), Common Header, position vector.
BEACON = bytes.fromhex(
    "11001a01" "0010008000000100" "3c00020000000100" "00000007" "1eaeddb4" "ffffd8f0" "8000" "0000"
)  # fmt: skip
LINK = bytes.fromhex("ffffffffffff" "020000000100" "8947")
# IEEE 1609.2: version 3, signed data, SHA-256, a payload of unsecured data and no hash, 32 octets.
SIGNED, TAIL = bytes.fromhex("0381" "00" "40" "0380" "20"), bytes.fromhex("400125")


class FakeEntity:
    """Signs by a word behind the plain part, and notes what it is asked for."""

    def __init__(self, word: bytes):
        self.word, self.asked = word, []

    def sign(self, kind, port, plain):
        self.asked.append((kind, port))
        length = len(plain).to_bytes(1, "big")
        return SIGNED[:-1] + length + plain + TAIL + self.word


class Secured(unittest.TestCase):
    def setUp(self):
        room = tempfile.TemporaryDirectory()
        self.addCleanup(room.cleanup)
        self.room = Path(room.name)
        self.station = read_station_file(self.written("iut.toml", STATION))
        self.signers = {"trusted": FakeEntity(b"good"), "unknown": FakeEntity(b"evil")}

    def written(self, name, text):
        path = self.room / name
        path.write_text(text)
        return path

    def play(self, text):
        self.purpose = read_purpose(self.written("P-01.toml", text))
        macs = {n.name: n.mac for n in self.purpose.neighbours}
        neighbour = Neighbour(self.purpose.neighbours[0], self.station, {}, self.signers)
        self.records = []
        for step in steps(self.purpose):
            frame, key = neighbour.frame(7, step.action, macs)
            self.records.append(Record(len(self.records), 0, frame, Sent(step, key)))
        return [r.frame for r in self.records]

    def relay(self, index, changes=()):
        """The frame of an action as the station forwards it, with other octets."""
        frame = bytearray(self.records[index].frame)
        frame[6:12], frame[17] = self.station.mac, 9
        for at, octet in changes:
            frame[at] = octet
        return Record(len(self.records), 0, bytes(frame), None)

    def judged(self, *records):
        played = Played(self.purpose, [*self.records, *records], [], "", True, 1.0)
        found = result_of(played, self.station, [])
        return found.verdict, found.why.removeprefix("checked by the tester, not proved: ")

    def test_the_message_replaces_the_plain_part(self):
        good, flipped, unknown, beacon = self.play(PURPOSE)
        for frame, word in ((good, b"good"), (unknown, b"evil")):
            self.assertEqual(frame[12:18].hex(), "8947" "12001a0a")
            self.assertEqual(frame[18:25].hex(), "038100400380" "38")
            self.assertEqual(frame[25:33].hex(), "2040008000040a00")
            self.assertEqual(frame[81:], TAIL + word)
        self.assertEqual(flipped[:-1] + b"f", flipped)
        self.assertEqual(flipped[-4:], b"goof")
        self.assertEqual(beacon[14:26].hex(), "12001a01" "038100400380" "2000")
        self.assertEqual(self.signers["unknown"].asked, [("gbc", 2002)])
        asked = [("gbc", 2002), ("gbc", 2002), ("beacon", 20001)]
        self.assertEqual(self.signers["trusted"].asked, asked)

    def test_a_secured_frame_is_read_by_its_plain_part(self):
        message = SIGNED + BEACON[4:] + TAIL
        secured = LINK + b"\x12" + BEACON[1:4] + message
        self.assertEqual(opened(secured), LINK + BEACON)
        self.assertEqual(opened(LINK + BEACON), LINK + BEACON)
        for other in (secured[:-5], LINK + b"\x12", LINK):
            self.assertEqual(opened(other), other)

    def test_the_forms_of_a_message(self):
        for length, plain in (
            ("05", b"plain"),
            ("8105", b"plain"),
            ("820005", b"plain"),
            ("81c8", bytes(200)),
            ("820400", bytes(1024)),
        ):
            octets = bytes.fromhex(length) + plain
            self.assertEqual(plain_in(SIGNED[:-1] + octets + TAIL), plain)
            self.assertEqual(plain_in(b"\x03\x80" + octets), plain)
            self.assertIsNone(plain_in(SIGNED[:-1] + octets[:-1]))
        for other in ("", "03", "0382" "05", "0281" "00400380" "00", "0381" "00600380" "00",
                      "0380" "83000001" "00", "0380" "80"):  # fmt: skip
            self.assertIsNone(plain_in(bytes.fromhex(other)), other)

    def test_a_message_as_it_came_is_a_pass(self):
        self.play(PURPOSE)
        self.assertEqual(self.records[2].sent.key, Key(0x1400020000000101, 2))
        text = "no duty of the verdict; 3 checked by the tester, not proved"
        self.assertEqual(self.judged(self.relay(0)), ("pass", text))

    def test_a_message_that_is_changed_is_a_fail(self):
        self.play(PURPOSE)
        last = len(self.records[0].frame) - 1
        for changes, text in (
            ([(last, 0)], f"D13: octet {last - 14} of good is changed #4"),
            ([(16, 0x1B)], "D13: octet 2 of good is changed #4"),
        ):
            with self.subTest(text):
                self.assertEqual(self.judged(self.relay(0, changes)), ("fail", text))

    def test_a_message_with_more_octets_is_a_fail(self):
        self.play(PURPOSE)
        relay = self.relay(0)
        longer = relay._replace(frame=relay.frame + b"\0")
        text = f"D13: octet {len(relay.frame) - 14} of good is changed #4"
        self.assertEqual(self.judged(longer), ("fail", text))

    def test_a_relay_of_what_is_not_good_is_a_fail(self):
        self.play(PURPOSE)
        for index, name in ((1, "flipped"), (2, "unknown")):
            found = self.judged(self.relay(0), self.relay(index))
            self.assertEqual(found, ("fail", f"D21: {name} was forwarded 1 times, not 0 #4"))

    def test_own_packets_have_to_be_secured_and_good(self):
        self.play(OWN)
        message = SIGNED + BEACON[4:] + TAIL
        secured = Record(4, 0, LINK + b"\x12" + BEACON[1:4] + message, None)
        unsecured = Record(5, 0, LINK + BEACON, None)
        refused = secured._replace(number=6, refusal="the signer is unknown")
        self.assertEqual(self.judged(secured)[0], "pass")
        self.assertEqual(self.judged(), ("fail", "secured: 0 own packets, not 1"))
        for record, text in (
            (unsecured, "secured: an own packet is not secured #5"),
            (refused, "secured: the security entity refuses an own packet:"
                      " the signer is unknown #6"),
        ):  # fmt: skip
            self.assertEqual(self.judged(secured, record), ("fail", text))

    def test_signed_and_unsecured_purposes_exclude_each_other(self):
        lacks = self.station.lacks
        self.assertEqual(lacks(("simple",), {"secured"}), ["unsecured"])
        self.assertEqual(lacks(("secured", "simple"), {"secured"}), [])
        self.assertEqual(lacks(("secured", "stranger"), set()), ["secured", "stranger"])


if __name__ == "__main__":
    unittest.main()
