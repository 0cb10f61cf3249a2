"""Which purposes share a recording, and what is claimed of it."""

import io
import tempfile
import unittest
from pathlib import Path
from unittest import mock

from geostation_tester import campaign
from geostation_tester.campaign import Setting
from geostation_tester.purposes import read_purpose
from geostation_tester.results import Played
from geostation_tester.station_file import read_station_file

SUITE = Path(__file__).resolve().parents[1] / "suite"
STATION = (
    '[station]\naddress = "3c00020000000100"\nlat = 514776500\nlon = -10000\n'
    '[claims]\narea = "simple"\nsteady = true\nfresh = true\n'
)


class Recordings(unittest.TestCase):
    def setUp(self):
        room = tempfile.TemporaryDirectory()
        self.addCleanup(room.cleanup)
        iut = Path(room.name) / "iut.toml"
        iut.write_text(STATION)
        record = Path(room.name) / "run.pcapng"
        self.setting = Setting("lo", read_station_file(iut), record, "no program")
        self.recorded = []

    def record(self, setting, purposes, progress):
        names = [p.name for p in purposes]
        self.recorded.append((setting.record.name, setting.claims.name, names))
        self.recorded.append(sorted(setting.station.claims))
        return [Played(p, [], [], "", True, 0.0) for p in purposes]

    def run_purposes(self, *names):
        purposes = [read_purpose(SUITE / f"{name}.toml") for name in names]
        with (
            mock.patch.object(campaign, "record", self.record),
            mock.patch.object(campaign, "verdicts_on", lambda *_: []),
        ):
            results = campaign.run(self.setting, purposes, io.StringIO())
        return [(r.name, Path(r.recording).name) for r in results]

    def test_a_purpose_that_restarts_the_station_has_a_recording_of_its_own(self):
        found = self.run_purposes("MGT-01", "MGT-03", "MGT-04")
        self.assertEqual(found, [("MGT-01", "run.pcapng"), ("MGT-03", "run.MGT-03.pcapng"),
                                 ("MGT-04", "run.pcapng")])  # fmt: skip
        self.assertEqual(self.recorded, [
            ("run.pcapng", "run.iut.toml", ["MGT-01", "MGT-04"]),
            ["area", "fresh", "steady"],
            ("run.MGT-03.pcapng", "run.MGT-03.iut.toml", ["MGT-03"]),
            ["area"],
        ])  # fmt: skip

    def test_a_restart_alone_writes_no_other_recording(self):
        self.assertEqual(self.run_purposes("MGT-03"), [("MGT-03", "run.MGT-03.pcapng")])
        self.assertEqual(len(self.recorded), 2)


if __name__ == "__main__":
    unittest.main()
