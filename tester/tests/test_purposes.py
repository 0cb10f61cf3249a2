"""Wrong purposes and wrong station files are refused, with the name of what is wrong."""

import re
import tempfile
import unittest
from pathlib import Path

from geostation_tester import actions, areas, expected, purposes
from geostation_tester.keys import KEYS
from geostation_tester.purposes import read_purpose
from geostation_tester.station_file import read_station_file
from geostation_tester.tables import BadFile

SUITE = Path(__file__).resolve().parents[1] / "suite"
RIGHT = """title = "a relay"
group = "PON/GBC"
expected = "it is forwarded"

[[tester]]
name = "A"
mac = "020000000101"

[[play]]
name = "gbc"
at = 0
do = "gbc"
from = "A"
circle = { a = 300 }

[[expect]]
of = "gbc"

[duties]
D13 = 1
"""
# What is replaced by what, and the message.
WRONG = [
    ('title = "a relay"\n', "", "title is missing"),
    ('title = "a relay"', "title = 7", "title is not str"),
    ('group = "PON/GBC"', 'group = "PON/GBC"\ncolour = 1', "unknown key colour"),
    ('group = "PON/GBC"', 'group = "PON/GBC"\nneeds = ["luck"]', "needs is not of simple,"),
    ('group = "PON/GBC"', 'group = "PON/GBC"\npics = ["FUN19"]',
     "pics has FUN19, which is no item of the PICS"),
    ('group = "PON/GBC"', 'group = "PON/GBC"\npics = [19]', "pics has 19, which is no item"),
    ('mac = "020000000101"', 'mac = "0200000001"', "tester 0: mac is not the MAC of a station"),
    ('mac = "020000000101"', 'mac = "030000000101"', "tester 0: mac is not the MAC of a station"),
    ('mac = "020000000101"', 'mac = "02000000010x"', "tester 0: mac is not hexadecimal"),
    ('name = "A"', 'name = "all"', "tester 0: name is empty or a keyword"),
    ('name = "A"', 'name = "A"\nnorth = 100001', "tester 0: north is not from -100000 to 100000"),
    ('name = "A"', 'name = "A"\npai = 1', "tester 0: pai is not bool"),
    ('name = "A"', 'name = "A"\ncount = true', "tester 0: count is not int"),
    ('do = "gbc"', 'do = "guc"',
     "play 0: do is not one of beacon, shb, gbc, gac, copy, raw, upper, wait"),
    ('do = "gbc"', 'do = "upper"\nask = "guc"',
     "play 0: ask is not one of shb, gbc, gac, open, move, initialize"),
    ('do = "gbc"', 'do = "upper"\nask = "gbc"', "play 0: unknown key from"),
    ('do = "gbc"', 'do = "raw"\nframe = "MMS"', "a gbc or gac has an area, and nothing else"),
    ('do = "gbc"\nfrom = "A"\ncircle = { a = 300 }', 'do = "raw"\nfrom = "A"\nframe = "MMS"',
     "play 0: frame is not hexadecimal"),
    ('from = "A"', 'from = "B"', "play 0: from names no tester"),
    ('from = "A"', 'from = "A"\nsender = "B"', "play 0: sender names no tester"),
    ('from = "A"', 'from = "A"\nto = "B"', "play 0: to names no tester"),
    ('from = "A"', 'from = "A"\nsigned = "yes"',
     "play 0: signed is not one of no, trusted, unknown"),
    ('from = "A"', 'from = "A"\nsigned = "trusted"',
     "needs has no secured, and a packet is signed by it"),
    ('from = "A"', 'from = "A"\nsigned = "unknown"',
     "needs has no stranger, and a packet is signed by it"),
    ('from = "A"', 'from = "A"\noctet = -1469', "play 0: octet is not from -1468 to 1468"),
    ('of = "gbc"', 'of = "gbc"\nnumber = 0', "expect 0: of names no upper"),
    ('of = "gbc"', "secured = 0", "expect 0: secured is not from 1 to 65536"),
    ('from = "A"', 'from = "A"\nhops = 256', "play 0: hops is not from 0 to 255"),
    ('from = "A"', 'from = "A"\noctet = 3', "play 0: xor is missing"),
    ('from = "A"', 'from = "A"\nport = 65535\nports = 2', "play 0: ports is not from 1 to 1"),
    ('from = "A"', 'from = "A"\nxor = 3', "play 0: unknown key xor"),
    ('from = "A"', 'from = "A"\nevery = 10', "play 0: until is missing"),
    ("circle = { a = 300 }", "", "play 0: a gbc or gac has an area, and nothing else"),
    ("circle = { a = 300 }", "circle = { a = 0 }", "play 0: circle: a is not from 1 to 65535"),
    ("circle = { a = 300 }", "circle = { a = 3, b = 3 }", "play 0: circle: unknown key b"),
    ("circle = { a = 300 }", "ellipse = { a = 3 }", "play 0: ellipse: b is missing"),
    ('of = "gbc"', 'of = "gac"', "expect 0: of names no gbc or gac"),
    ('of = "gbc"', 'of = "gbc"\nsent = 1', "expect 0: of names no upper"),
    ('of = "gbc"', 'of = "gbc"\ndelivered = -1', "expect 0: delivered is not from 0 to 64"),
    ('of = "gbc"', "numbers = 1", "expect 0: numbers is not from 2 to 65536"),
    ('of = "gbc"', 'of = "gbc"\nto = "B"', "expect 0: to names no tester"),
    ('of = "gbc"', 'of = "gbc"\nduty = "D17"', "expect 0: unknown key duty"),
    ('of = "gbc"', 'of = "gbc"\nrelays = 0\nduty = "D13"',
     "expect 0: duty is not one of D15, D17, D18, D21, D23"),
    ('of = "gbc"', 'of = "gbc"\nrelays = 0\nto = "A"', "expect 0: unknown key to"),
    ("D13 = 1", "D20 = 1", "duties: D20 is not judged by geostation verdict: use [[expect]]"),
    ("D13 = 1", "D13 = 0", "duties: D13 is not from 1 to 65535"),
    ("[duties]\nD13 = 1", "[[play]]\nat = 0\ndo = 'copy'\nof = 'x'\nfrom = 'A'",
     "x names no action before its copy"),
    ("[duties]\nD13 = 1", "[[play]]\nname = 'gbc'\nat = 0\ndo = 'wait'",
     "two actions with one name"),
    ("[duties]\nD13 = 1", "[[tester]]\nname = 'A'\nmac = '020000000102'",
     "two testers with one name or MAC"),
    ("[duties]\nD13 = 1", "[[tester]]\nname = 'B'\nmac = '020000000101'",
     "two testers with one name or MAC"),
    ("title", "title title", "purpose.toml: Expected"),
]  # fmt: skip
STATION = '[station]\naddress = "3c00020000000100"\nlat = 514776500\nlon = -10000\n'
WRONG_STATIONS = [
    ("[station]", "[stations]", "station is missing"),
    ("3c00020000000100", "3c000200000001", "station: address is not 16 hexadecimal digits"),
    ("3c00020000000100", "3c00030000000100", "station: mac is not the MAC of a station"),
    ("lat = 514776500", "lat = 900000001", "station: lat is not from -900000000 to 900000000"),
    ("lon = -10000\n", "", "station: lon is missing"),
    ("lat = 514776500", "lat = 51.47765", "station: lat is not int"),
]


class WrongFiles(unittest.TestCase):
    def setUp(self):
        room = tempfile.TemporaryDirectory()
        self.addCleanup(room.cleanup)
        self.path = Path(room.name) / "purpose.toml"

    def refusal(self, read, text):
        self.path.write_text(text)
        with self.assertRaises(BadFile) as caught:
            read(self.path)
        return str(caught.exception)

    def test_the_right_purpose_is_read(self):
        self.path.write_text(RIGHT)
        found = read_purpose(self.path)
        self.assertEqual(found.duties, {"D13": 1})
        self.assertEqual([a.names for a in found.actions], [("A",)])

    def test_each_wrong_purpose_is_refused_by_name(self):
        for old, new, message in WRONG:
            with self.subTest(message):
                self.assertEqual(RIGHT.count(old), 1)
                self.assertIn(message, self.refusal(read_purpose, RIGHT.replace(old, new, 1)))

    def test_without_a_duty_or_an_expectation_it_is_refused(self):
        text = RIGHT.partition("[[expect]]")[0]
        self.assertIn("aims at no duty, and expects nothing", self.refusal(read_purpose, text))

    def test_each_wrong_station_file_is_refused_by_name(self):
        for old, new, message in WRONG_STATIONS:
            with self.subTest(message):
                self.assertIn(message, self.refusal(read_station_file, STATION.replace(old, new)))

    def test_an_upper_tester_has_to_be_needed(self):
        text = RIGHT.replace('do = "gbc"\nfrom = "A"', 'do = "upper"\nask = "gbc"')
        text = text.partition("[[expect]]")[0] + "[duties]\nD4 = 1\n"
        self.assertIn("needs has no upper", self.refusal(read_purpose, text))

    def test_all_purposes_of_the_suite_are_read(self):
        for path in SUITE.glob("*.toml"):
            self.assertEqual(read_purpose(path).name, path.stem)

    def test_the_page_has_each_key(self):
        """The keys that the sources take, by the calls of `Table`."""
        call = re.compile(r"(?:take|whole|optional|one_of|octets|mac|table|all_of)\(\s*\"(\w+)\"")
        sources = (purposes, actions, areas, expected)
        taken = {key for s in sources for key in call.findall(Path(s.__file__).read_text())}
        taken |= {*areas.SHAPES, *expected.OWN, *purposes.JUDGED}
        tables = {"tester", "play", "duties", "expect"}
        of_an_area = {"a", "b", "angle"}
        shown = {name for key in KEYS for name in key.names}
        self.assertEqual(taken - tables - of_an_area, shown)

    def test_the_neighbours_of_two_purposes_have_different_macs(self):
        macs = [n.mac for path in SUITE.glob("*.toml") for n in read_purpose(path).neighbours]
        self.assertEqual(len(macs), len(set(macs)))


if __name__ == "__main__":
    unittest.main()
