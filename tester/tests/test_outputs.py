"""Wrong arguments: no output may be the station file, or another output."""

import contextlib
import io
import os
import sys
import tempfile
import unittest
from pathlib import Path
from unittest import mock

from geostation_tester.__main__ import main
from geostation_tester.purposes import JUDGED

STATION = '[station]\naddress = "3c00020000000100"\nlat = 514776500\nlon = -10000\n'


class Outputs(unittest.TestCase):
    def setUp(self):
        room = tempfile.TemporaryDirectory()
        self.addCleanup(room.cleanup)
        self.room = Path(room.name)
        self.iut = self.room / "run.iut.toml"
        self.iut.write_text(STATION)

    def run_tester(self, *words):
        """The status, and what is printed. There is no such program, so that nothing is played."""
        command = ["geostation-tester", "--iut", str(self.iut), "--interface", "no interface"]
        command += ["--program", "no program", *words]
        errors, nowhere = io.StringIO(), contextlib.redirect_stdout(io.StringIO())
        with mock.patch.object(sys, "argv", command), contextlib.redirect_stderr(errors), nowhere:
            status = main()
        self.assertEqual(self.iut.read_text(), STATION)
        return status, errors.getvalue()

    def path(self, name):
        return str(self.room / name)

    def assert_refused(self, message, *words):
        before = sorted(self.room.iterdir())
        self.assertEqual(self.run_tester(*words), (2, f"geostation-tester: {message}\n"))
        self.assertEqual(sorted(self.room.iterdir()), before)

    def test_no_output_is_the_station_file(self):
        iut, other = str(self.iut), self.path("other.pcapng")
        run = self.path("run.pcapng")
        self.assert_refused(f"--record {iut}: is also the file of --iut", "--record", iut)
        claims = f"the claims beside --record {iut}: is also the file of --iut"
        self.assert_refused(claims, "--record", run)
        for option in ("--junit", "--tap"):
            message = f"{option} {iut}: is also the file of --iut"
            self.assert_refused(message, "--record", other, option, iut)

    def test_no_output_is_another_one(self):
        run, claims = self.path("a.pcapng"), self.path("a.iut.toml")
        same, beside = self.path("a.xml"), "the claims beside --record"
        for words, message in (
            (("--junit", run), f"--junit {run}: is also the file of --record"),
            (("--tap", run), f"--tap {run}: is also the file of --record"),
            (("--junit", claims), f"--junit {claims}: is also the file of {beside}"),
            (("--tap", claims), f"--tap {claims}: is also the file of {beside}"),
            (("--junit", same, "--tap", same), f"--tap {same}: is also the file of --junit"),
        ):
            with self.subTest(message):
                self.assert_refused(message, "--record", run, *words)

    def test_no_output_is_that_of_a_purpose_with_a_recording_of_its_own(self):
        run, own = self.path("a.pcapng"), self.path("a.MGT-03.pcapng")
        claims, name = self.path("a.MGT-03.iut.toml"), "the recording of MGT-03"
        for words, message in (
            (("--tap", own), f"--tap {own}: is also the file of {name}"),
            (("--tap", claims), f"--tap {claims}: is also the file of the claims beside {name}"),
        ):
            with self.subTest(message):
                self.assert_refused(message, "--record", run, *words)
                self.assertEqual(self.run_tester("--record", run, *words, "MGT-01")[0], 3)
                for path in self.room.glob("a.*"):
                    path.unlink()

    def test_another_path_of_a_file_is_the_file(self):
        link, hard = self.path("link.toml"), self.path("hard.toml")
        os.symlink(self.iut, link)
        os.link(self.iut, hard)
        other = self.path("other.pcapng")
        for path in (link, hard, self.path("../" + self.room.name + "/run.iut.toml")):
            with self.subTest(path):
                message = f"--tap {path}: is also the file of --iut"
                self.assert_refused(message, "--record", other, "--tap", path)

    def test_an_interface_that_is_missing_is_named(self):
        duties = ",".join(f'"{duty}"' for duty in JUDGED)
        fake = self.room / "fake"
        fake.write_text(f"#!/bin/sh\necho '{{\"total\":{{}},\"unexercised\":[{duties}]}}'\n")
        fake.chmod(0o700)
        words = ("--record", self.path("a.pcapng"), "--program", str(fake))
        status, printed = self.run_tester(*words, "MGT-01")
        self.assertEqual(status, 2)
        self.assertRegex(printed, "geostation-tester: .*: 'no interface'\n")

    def test_devices_may_be_named_twice(self):
        words = ("--record", self.path("a.pcapng"), "--junit", "/dev/null", "--tap", "/dev/null")
        status, printed = self.run_tester(*words)
        self.assertEqual(status, 3)
        self.assertIn("cannot run no program", printed)


if __name__ == "__main__":
    unittest.main()
