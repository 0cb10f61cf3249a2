"""How the verdict on a purpose follows from the verdicts on its records, and from what was seen."""

import io
import tempfile
import tomllib
import unittest
from pathlib import Path
from unittest import mock
from xml.etree import ElementTree

from geostation_tester.areas import moved
from geostation_tester.bench import Partners, Record, Sent
from geostation_tester.campaign import Setting, expect_judge
from geostation_tester.frames import Key
from geostation_tester.neighbours import Played as Neighbour
from geostation_tester.play import steps
from geostation_tester.purposes import read_purpose
from geostation_tester.recording import Recording
from geostation_tester.reports import claims_line, junit, line, tap, total_line
from geostation_tester.results import Played, result_of
from geostation_tester.station_file import read_station_file
from geostation_tester.upper import Delivered, JsonUpper, UdpUpper
from geostation_tester.verdicts import NoVerdict, Verdict, verdicts_on

PURPOSE = """title = "a relay"
group = "PON/GBC"
expected = "it is forwarded"
needs = ["simple"]

[[tester]]
name = "A"
mac = "020000000101"

[[tester]]
name = "B"
mac = "020000000102"

[[play]]
name = "gbc"
at = 0
do = "gbc"
from = "A"
circle = { north = 100, a = 300 }
number = 258
payload = "0a0b"

[[play]]
at = 10
do = "copy"
of = "gbc"
from = "B"
hops = 3

[[expect]]
of = "gbc"
to = "all"
hops = 9

[duties]
D13 = 1
"""
STATION = """[station]
address = "3c00020000000100"
lat = 514776500
lon = -10000
id = "a \\"b\\""

[claims]
area = "simple"
steady = true
"""
# By hand from clause 9.8.5: Basic Header, Common Header, SN and reserved, position vector (M 0 and
# station type 5: 0x14), area, BTP-B, payload. The radius is 300 m, the centre 100 m further north.
GBC = (
    "ffffffffffff" "020000000101" "8947" "11001a0a" "2040" "0080" "0006" "0a00" "0102" "0000"
    "1400020000000101" "00000007" "1eaeddb4" "ffffd8f0" "8000" "0000"
    "{centre}" "012c" "0000" "0000" "0000" "4e21" "0000" "0a0b"
)  # fmt: skip


def written(room, name, text):
    path = Path(room) / name
    path.write_text(text)
    return path


class Results(unittest.TestCase):
    def setUp(self):
        room = tempfile.TemporaryDirectory()
        self.addCleanup(room.cleanup)
        self.room = room.name
        self.purpose = read_purpose(written(self.room, "P-01.toml", PURPOSE))
        self.station = read_station_file(written(self.room, "iut.toml", STATION))
        made = {}
        macs = {n.name: n.mac for n in self.purpose.neighbours}
        neighbours = {n.name: Neighbour(n, self.station, made, {}) for n in self.purpose.neighbours}
        self.records = []
        for step in steps(self.purpose):
            frame, key = neighbours[step.name].frame(7, step.action, macs)
            self.records.append(Record(len(self.records), 0, frame, Sent(step, key)))

    def relay(self, hops=9, target="ffffffffffff", cut=None):
        frame = bytearray(self.records[0].frame)
        frame[:12], frame[17] = bytes.fromhex(target) + self.station.mac, hops
        return Record(len(self.records), 0, bytes(frame[:cut]), None)

    def result(self, *relays, lacks="", verdicts=(Verdict("pass", "D13", 2, "one hop fewer"),)):
        played = Played(self.purpose, [*self.records, *relays], [], lacks, True, 1.0)
        return result_of(played, self.station, list(verdicts))

    def test_the_octets_of_a_frame(self):
        centre = moved(self.station.place, 100, 0)
        self.assertEqual(centre, (514785483, -10000))
        octets = b"".join(part.to_bytes(4, "big", signed=True) for part in centre)
        self.assertEqual(self.records[0].frame.hex(), GBC.format(centre=octets.hex()))

    def test_a_copy_has_its_sender_and_its_hops(self):
        first, copy = (r.frame for r in self.records)
        self.assertEqual(copy[6:12].hex(), "020000000102")
        self.assertEqual(copy[17], 3)
        self.assertEqual(first[12:17] + first[18:], copy[12:17] + copy[18:])
        self.assertEqual(self.records[1].sent.key, Key(0x1400020000000101, 258))

    def test_a_relay_and_a_pass_are_a_pass(self):
        found = self.result(self.relay())
        self.assertEqual((found.verdict, found.proved, found.checked), ("pass", (), ()))
        self.assertEqual(
            found.why, "passed by the verdict: D13 1; 1 checked by the tester, not proved"
        )

    def test_each_of_some_ports_has_to_deliver(self):
        play = 'name = "gbc"\nat = 0\nevery = 5\nuntil = 25\nports = 3'
        text = PURPOSE.replace('name = "gbc"\nat = 0', play).partition("[[expect]]")[0]
        text += '[[expect]]\nof = "gbc"\ndelivered = 2\n'
        purpose = read_purpose(written(self.room, "P-02.toml", text))
        ports = [step.action.port for step in steps(purpose) if step.action.name]
        self.assertEqual(ports, [20001, 20002, 20003, 20001, 20002, 20003])
        delivered = [Delivered(port, b"\x0a\x0b") for port in ports]
        for found, verdict, why in (
            (delivered, "pass", "no duty of the verdict; 1 checked by the tester, not proved"),
            (delivered[:-1], "fail", "checked by the tester, not proved:"
             " delivery: gbc was delivered 1 times at port 20003, not 2"),
        ):  # fmt: skip
            result = result_of(Played(purpose, [], found, "", True, 1.0), self.station, [])
            self.assertEqual((result.verdict, result.why), (verdict, why))

    def test_an_upper_tester_over_udp_opens_no_ports(self):
        partners = Partners(mock.Mock(opens_ports=UdpUpper.opens_ports))
        self.assertEqual(partners.names(), {"upper"})
        self.assertEqual(self.station.lacks(("upper", "ports"), partners.names()), ["ports"])
        partners = Partners(mock.Mock(opens_ports=JsonUpper.opens_ports))
        self.assertEqual(self.station.lacks(("upper", "ports"), partners.names()), [])

    def test_a_fail_of_any_duty_is_a_fail(self):
        fail = Verdict("fail", "D1", 2, "G4 at 1")
        found = self.result(self.relay(), verdicts=[fail])
        self.assertEqual((found.verdict, found.why), ("fail", "D1: record 2: G4 at 1"))
        self.assertEqual(found.proved, ("D1",))

    def test_a_fail_of_another_purpose_is_not_one(self):
        fail, right = Verdict("fail", "D1", 3, "G4 at 1"), Verdict("pass", "D13", 2, "")
        self.assertEqual(self.result(self.relay(), verdicts=[right, fail]).verdict, "pass")

    def test_a_duty_that_was_not_exercised_is_inconclusive(self):
        found = self.result(self.relay(), verdicts=[Verdict("inconclusive", "D13", 2, "")])
        self.assertEqual((found.verdict, found.why), ("inconc", "D13 passed 0 times, not 1"))

    def test_what_the_tester_sees_itself_says_so(self):
        for relays, duty, text in (
            ((), "D20", "gbc was forwarded 0 times, not 1"),
            ((self.relay(), self.relay()), "D15", "gbc was forwarded 2 times, not 1 #2 #2"),
            ((self.relay(target="020000000102"),), "D19", "gbc was forwarded to B, not to all #2"),
            ((self.relay(hops=2),), "D15", "gbc has 2 hops left, not 9 #2"),
            ((self.relay(cut=-1),), "D13", "gbc has 75 octets, not 76 #2"),
        ):
            with self.subTest(duty):
                found = self.result(*relays)
                expected = f"checked by the tester, not proved: {duty}: {text}"
                self.assertEqual((found.verdict, found.why), ("fail", expected))
                self.assertEqual((found.proved, found.checked), ((), (duty,)))

    def test_a_failed_preamble_is_inconclusive(self):
        found = self.result(lacks="nothing was sent")
        self.assertEqual((found.verdict, found.why), ("inconc", "nothing was sent"))

    def test_a_claim_that_is_missing_makes_it_not_applicable(self):
        self.assertEqual(self.station.lacks(("simple", "greedy"), {"upper"}), ["greedy"])
        played = Played(self.purpose, [], [], "needs greedy", False, 0.0)
        self.assertEqual(result_of(played, self.station, [])[1:4], ("none", "needs greedy", None))

    def test_the_reports_have_each_result(self):
        results = [self.result(self.relay()), self.result(), self.result(lacks="nothing")]
        shown = line(results[0]._replace(recording="run.pcapng"))
        self.assertIn("P-01 pass (records 0..2 of run.pcapng): ", shown)
        skipped = "ok 3 - P-01 # SKIP inconc: nothing"
        self.assertIn(f"ok 1 - P-01\nnot ok 2 - P-01\n{skipped}", tap(results))
        suite = ElementTree.fromstring(junit(results))
        self.assertEqual([suite.get(k) for k in ("tests", "failures", "skipped")], ["3", "1", "1"])

    def test_a_report_begins_with_the_claims_and_ends_with_a_total(self):
        claims = 'address "3c00020000000100", lat 514776500, lon -10000, mobile false,'
        claims += ' area "simple", steady, within 20, sent, received, delivered'
        text = STATION.replace('id = "a \\"b\\""', "mobile = false")
        text += "gapless = false\n\n[capture]\nwithin = 20\n"
        station = read_station_file(written(self.room, "more.toml", text))
        self.assertEqual(claims_line(station), f"claimed: {claims}")
        results = [self.result(self.relay()), self.result(), self.result(lacks="nothing")]
        total = "3 purposes: 1 pass, 1 fail, 1 inconc, 0 none"
        self.assertEqual(total_line(results), total)

    def test_the_claims_of_a_bench_are_added(self):
        found = tomllib.loads(self.station.text(9))
        self.assertEqual(found["station"], tomllib.loads(STATION)["station"])
        bench = {"sent": True, "received": True, "delivered": True, "until": 9}
        self.assertEqual(found["capture"], bench)

    def test_contention_is_another_area_forwarding_for_the_verdict(self):
        text = STATION.replace('"simple"', '"cbf"')
        station = read_station_file(written(self.room, "cbf.toml", text))
        self.assertEqual(station.lacks(("contention", "simple"), set()), ["simple"])
        self.assertEqual(tomllib.loads(station.text(9))["claims"]["area"], "other")

    def test_a_program_without_a_total_gives_no_verdict(self):
        for program in ("true", "false", "no such program"):
            with self.subTest(program), self.assertRaises(NoVerdict):
                verdicts_on("run.pcapng", "iut.toml", program)

    def test_the_duties_of_purposes_have_to_be_judged(self):
        counts = '{"total":{"D1":{}},"unexercised":["D2"]}'
        fake = written(self.room, "fake", f"#!/bin/sh\necho '{counts}'")
        fake.chmod(0o700)
        record = written(self.room, "run.pcapng", "")
        setting = Setting("lo", self.station, record, str(fake))
        missing = "does not judge D3, D4, D5, D6, D10, D12, D13, D14, D15, D16, D17, D19"
        with self.assertRaisesRegex(NoVerdict, missing):
            expect_judge(setting)

    def test_a_comment_is_in_the_recording(self):
        out = io.BytesIO()
        self.assertEqual(Recording(out).put(1, b"abcde", "play 0"), 0)
        self.assertIn(b"abcde\0\0\0\x01\0\x06\0play 0\0\0", out.getvalue())


if __name__ == "__main__":
    unittest.main()
