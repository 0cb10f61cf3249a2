"""Sweeps over a program that stands for the real one: what is run, kept, tabled and summed up.
Expected numbers are counted by hand from what that program says of itself."""

import contextlib
import gzip
import importlib.util
import io
import itertools
import json
import os
import random
import signal
import subprocess
import sys
import tempfile
import unittest
import warnings
from concurrent.futures import Executor, Future, ThreadPoolExecutor
from pathlib import Path
from unittest import mock

from geostation.study import Study, StudyError, StudyWarning, load
from geostation.study import __main__ as command
from geostation.study import files, jobs, parameters, scenario, statistics, traces

HERE = Path(__file__).resolve().parent
SAMPLES = Path(os.environ.get("GEOSTATION_SAMPLES", HERE.parents[1] / "cases/data"))
SCENARIO = """# A comment.
[air]
range = 250

[[event]]
id = "5"
at = 20000
do = "gbc"
hops = 10
"""
MOVES = "at,id,lat,lon\n" + "".join(f"0,{name},0,0\n" for name in range(100))
XML = """<?xml version="1.0" encoding="UTF-8"?>
<!-- generated -->
<fcd-export xmlns:xsi="http://www.w3.org/2001/XMLSchema-instance">
    <timestep time="0.00"/>
    <timestep time="1.00">
        <vehicle id="a" x="11.50" y="48.10" angle="90.00" type="t" speed="1.50" lane="b;c"/>
        <person id="p" x="11.50" y="48.10" angle="0.00" speed="0.00"/>
    </timestep>
    <timestep time="2.00">
        <vehicle id="b;&quot;&#252;" x="-11.5000001" y="-48.1" speed="0.00"/>
    </timestep>
</fcd-export>
"""
CSV = """timestep_time;vehicle_id;vehicle_x;vehicle_y;vehicle_speed;vehicle_angle
1.00;a;11.50;48.10;1.50;90.00
2.00;"b;""\u00fc";-11.5000001;-48.1;0.00;0
"""


def reads_toml():
    try:
        return scenario.loads("") == {}
    except StudyError:
        return False


needs_toml = unittest.skipUnless(reads_toml(), "neither Python 3.11 nor tomli")


def rows_of(octets, equipped=None):
    stream = io.BufferedReader(io.BytesIO(octets))
    return b"".join(traces.read_rows(stream, "town", equipped))


class Shuffled(Executor):
    """Does all runs once the last one was submitted, in an order of its own."""

    def __init__(self, count, seed):
        self._waiting, self._count, self._seed = [], count, seed

    def submit(self, function, *arguments):
        future = Future()
        self._waiting.append((future, function, arguments))
        if len(self._waiting) == self._count:
            random.Random(self._seed).shuffle(self._waiting)
            for waiting, job, given in self._waiting:
                waiting.set_result(job(*given))
        return future


class Folder(unittest.TestCase):
    """A folder with a scenario, traces and the program that stands for the real one."""

    def setUp(self):
        room = tempfile.TemporaryDirectory()
        self.addCleanup(room.cleanup)
        self.folder = Path(room.name).resolve()
        self.program = self.folder / "program"
        text = (HERE / "fake_program.py").read_text()
        self.program.write_text(f"#!{sys.executable} -S\n{text}")
        self.program.chmod(0o755)
        self.scenario = self.folder / "warning.toml"
        self.scenario.write_text(SCENARIO)
        self.moves = self.folder / "moves.csv"
        self.moves.write_text(MOVES)
        self.out = self.folder / "runs"
        self.log = self.folder / "log"
        given = {"FAKE_LOG": str(self.log), "GEOSTATION_PROGRAM": str(self.program)}
        patch = mock.patch.dict(os.environ, given)
        patch.start()
        self.addCleanup(patch.stop)

    def study(self, moves=None):
        return Study(self.scenario, moves)

    def sweep(self, moves=None, **options):
        options.setdefault("executor", ThreadPoolExecutor(1))
        options.setdefault("out", self.out)
        return self.study(moves).sweep(**options)

    def count(self):
        """How many runs the program did since the last call."""
        done = len(self.log.read_text().splitlines()) if self.log.exists() else 0
        self.log.unlink(missing_ok=True)
        return done


class Sweeps(Folder):
    def test_rows_are_in_the_order_of_the_parameters(self):
        runs = self.sweep(loss=[20, 0], range=[250, 400], seeds=2)
        self.assertEqual(len(runs), 8)
        rows = runs.rows()
        points = [(row["loss"], row["range"], row["seed"]) for row in rows]
        wanted = itertools.product((20, 0), (250, 400), (1, 2))
        self.assertEqual(points, list(wanted))
        self.assertEqual([row["reached"] for row in rows], [7, 6, 7, 6, 9, 8, 9, 8])
        self.assertEqual(rows[0]["reach"], 70)

    def test_each_run_is_done_once(self):
        self.sweep(loss=[0, 20], seeds=2)
        self.assertEqual(self.count(), 4)
        runs = self.sweep(loss=[0, 20, 40], seeds=3)
        self.assertEqual(self.count(), 5)
        self.assertEqual(runs.record["sweep"]["found"], 4)
        self.sweep(loss=[0, 20, 40], seeds=3, force=True)
        self.assertEqual(self.count(), 9)
        self.assertEqual(len(self.whole_folders()), 9)

    def whole_folders(self):
        """The folders of runs. Nothing else is left beside them."""
        names = {path.name for path in self.out.iterdir()} - {"study.json", "scenarios", "moves"}
        self.assertFalse([name for name in names if name.startswith(".")])
        return names

    def test_another_program_scenario_or_trace_is_another_run(self):
        self.sweep(self.moves)
        self.moves.write_text(MOVES + "1000,1,0,0\n")
        self.sweep(self.moves)
        self.scenario.write_text(SCENARIO + "# Changed.\n")
        self.sweep(self.moves)
        self.program.write_text(self.program.read_text() + "# Changed.\n")
        self.sweep(self.moves)
        self.assertEqual(self.count(), 4)
        self.sweep(self.moves)
        self.assertEqual(self.count(), 0)

    def test_the_order_in_which_runs_end_changes_nothing(self):
        first = self.sweep(loss=[0, 20, 90, 97], seeds=3).csv()
        for seed in range(3):
            executor = Shuffled(12, seed)
            runs = self.sweep(loss=[0, 20, 90, 97], seeds=3, executor=executor, force=True)
            self.assertEqual(runs.csv(), first)

    def test_a_pool_of_processes_has_the_same_table(self):
        one = self.sweep(loss=[0, 20], seeds=3).csv()
        many = self.sweep(loss=[0, 20], seeds=3, executor=None, jobs=2, out=self.folder / "two")
        self.assertEqual(many.csv(), one)
        self.assertEqual(many.record["sweep"]["processes"], 2)
        self.assertGreater(many.record["sweep"]["busy"], 0)

    def test_parts_share_the_work(self):
        for index in range(3):
            runs = self.sweep(loss=[0, 20], seeds=5, part=(index, 3))
        self.assertEqual(self.count(), 10)
        self.assertFalse(runs.failed)
        self.assertEqual(runs.csv(), self.sweep(loss=[0, 20], seeds=5).csv())
        self.assertEqual(self.count(), 0)

    def test_a_failed_run_is_a_row(self):
        runs = self.sweep(loss=[0, 90, 96, 97, 98, 99])
        self.assertEqual([run.status for run in runs], [0, 1, 1, 0, 3, -signal.SIGKILL])
        rows = {row["loss"]: row for row in runs.rows()}
        self.assertEqual(rows[90]["reached"], 0)
        self.assertIn("reached 0 of 10", rows[90]["message"])
        self.assertEqual(rows[96]["message"], "moves: line 7: lat")
        self.assertIn("SIGKILL", rows[99]["message"])
        for loss in (96, 97, 98, 99):
            self.assertIsNone(rows[loss]["reached"])
        self.assertEqual(len(runs.failed), 4)

    def test_what_may_be_the_fault_of_the_machine_is_done_again(self):
        self.sweep(loss=[0, 90, 96, 97, 98, 99])
        self.count()
        runs = self.sweep(loss=[0, 90, 96, 97, 98, 99])
        self.assertEqual(self.count(), 2)
        # Those that failed before are counted too.
        self.assertEqual(runs.record["sweep"]["failed"], 4)

    def test_a_run_that_was_cut_off_is_missing(self):
        runs = self.sweep(loss=[0, 20], seeds=2)
        whole = runs.csv()
        (list(runs)[1].folder / "run.json").write_text('{"status": 0')
        left = load(self.out)
        self.assertEqual([run.status for run in left], [0, None, 0, 0])
        self.count()
        self.assertEqual(self.sweep(loss=[0, 20], seeds=2).csv(), whole)
        self.assertEqual(self.count(), 1)

    def test_a_worker_that_fails_leaves_its_run_missing(self):
        class Broken(ThreadPoolExecutor):
            def submit(self, function, job):
                if job.parameters["seed"] == 2:
                    future = Future()
                    future.set_exception(RuntimeError("the worker is gone"))
                    return future
                return super().submit(function, job)

        runs = self.sweep(seeds=3, executor=Broken(1))
        self.assertEqual([run.status for run in runs], [0, None, 0])
        self.assertEqual(runs.record["sweep"]["failed"], 1)
        self.assertEqual(runs.record["sweep"]["faults"], ["RuntimeError: the worker is gone"])
        self.assertIn("start the sweep again", runs.rows()[1]["message"])

    def test_an_input_that_changes_ends_the_sweep(self):
        class Changing(ThreadPoolExecutor):
            def submit(executor, function, job):
                self.moves.write_text(MOVES + "5,5,5,5\n")
                return super().submit(function, job)

        with self.assertRaisesRegex(StudyError, "moves.csv is not what it was"):
            self.sweep(self.moves, executor=Changing(1))
        self.assertEqual(self.count(), 0)

    def test_what_a_process_left_is_removed_once_it_has_ended(self):
        ended = subprocess.Popen([sys.executable, "-c", ""])
        self.addCleanup(ended.wait)
        # It has ended, and nobody has waited for it yet.
        os.waitid(os.P_PID, ended.pid, os.WEXITED | os.WNOWAIT)
        self.out.mkdir()
        with mock.patch("os.getpid", return_value=ended.pid):
            old = files.scratch_path(self.out / "abc")
        mine = files.scratch_path(self.out / "abc")
        old.mkdir()
        mine.mkdir()
        self.sweep()
        self.assertFalse(old.exists())
        self.assertTrue(mine.exists())

    @needs_toml
    def test_the_record_says_what_was_run(self):
        runs = self.sweep(self.moves, loss=[0, 20], seeds=[4])
        record = json.loads((self.out / "study.json").read_text())
        self.assertEqual(record["program"]["version"], "geostation 0.0.0")
        self.assertEqual(record["seeds"], [4])
        self.assertEqual(record["parameters"], {"loss": [0, 20]})
        self.assertEqual(record["scenarios"][0]["air"], {"range": 250})
        run = json.loads((list(runs)[1].folder / "run.json").read_text())
        self.assertEqual(run["air"], {"range": 250, "loss": 20, "seed": 4})
        # The command is one that a shell runs, in the folder of the run.
        again = list(runs)[1].folder
        (again / "sends.csv").rename(self.folder / "sends.csv")
        subprocess.run(["sh", "-c", run["command"]], cwd=again, check=True, capture_output=True)
        self.assertEqual(
            (again / "sends.csv").read_text(), (self.folder / "sends.csv").read_text()
        )

    def test_the_record_has_the_frames_that_were_held(self):
        runs = self.sweep(contention=[False, True], loss=[0, 97, 98])
        held = [(run.record["held"], run.record["cancelled"]) for run in runs]
        # One station of ten is missed by the seed. A run of loss 98 does not go to its end.
        self.assertEqual(held, [(0, 0), (0, 0), (None, None), (9, 8), (0, 0), (None, None)])

    @needs_toml
    def test_a_path_changes_a_copy_of_the_scenario(self):
        runs = self.sweep(**{"event.0.hops": [1, 5], "moves.capacity": 64})
        self.assertEqual(self.scenario.read_text(), SCENARIO)
        copies = [scenario.loads(p.read_text()) for p in (self.out / "scenarios").iterdir()]
        self.assertEqual(sorted(c["event"][0]["hops"] for c in copies), [1, 5])
        self.assertEqual([c["moves"] for c in copies], [{"capacity": 64}] * 2)
        self.assertEqual([row["event.0.hops"] for row in runs.rows()], [1, 5])

    @needs_toml
    def test_a_star_changes_each_entry_that_has_the_key(self):
        second = '\n[[event]]\nid = "6"\nat = 1\ndo = "open"\nport = 1\n'
        third = '\n[[event]]\nid = "7"\nat = 30000\ndo = "gac"\nhops = 3\n'
        self.scenario.write_text(SCENARIO + second + third)
        runs = self.sweep(**{"event.*.hops": [1, 5]})
        copies = [scenario.loads(p.read_text()) for p in (self.out / "scenarios").iterdir()]
        hops = sorted([e.get("hops") for e in c["event"]] for c in copies)
        self.assertEqual(hops, [[1, None, 1], [5, None, 5]])
        self.assertEqual([row["event.*.hops"] for row in runs.rows()], [1, 5])

    def test_tied_parameters_change_together(self):
        given = {"loss": [0, 20, 20], "range": [250, 250, 400]}
        runs = self.sweep(**given, until=[5, 6], seeds=2, tied=("loss", "range"))
        points = [tuple(run.parameters.values()) for run in runs]
        pairs = [(0, 250), (20, 250), (20, 400)]
        wanted = [(*pair, until, seed) for pair in pairs for until in (5, 6) for seed in (1, 2)]
        self.assertEqual(points, wanted)
        self.assertEqual(runs.record["tied"], [("loss", "range")])
        # A loss of 20 goes with two ranges: its mean would mix them. Each pair is one.
        with self.assertRaisesRegex(StudyError, "range has several values"):
            runs.summary_rows("reached", by="loss", where={"until": 5})
        rows = runs.summary_rows("reached", by=["loss", "range"], where={"until": 5})
        self.assertEqual([row["mean"] for row in rows], [8.5, 6.5, 6.5])

    def test_one_tied_parameter_stands_for_the_others(self):
        runs = self.sweep(loss=[0, 20], range=[250, 400], tied=[["loss", "range"]])
        rows = runs.summary_rows("reached", by="range")
        self.assertEqual([(row["range"], row["mean"]) for row in rows], [(250, 9), (400, 7)])

    @needs_toml
    def test_scenarios_and_traces_are_parameters(self):
        other = self.folder / "other.toml"
        other.write_text(SCENARIO.replace('id = "5"', 'id = "7"'))
        few = self.folder / "few-{seed}.csv"
        for seed in (1, 2):
            rows = MOVES.splitlines(keepends=True)[: 1 + 10 * seed]
            (self.folder / f"few-{seed}.csv").write_text("".join(rows))
        study = Study([self.scenario, other], [few, self.moves])
        options = {"penetration": [0, 100], "seeds": 2, "executor": ThreadPoolExecutor(1)}
        runs = study.sweep(out=self.out, **options)
        names = [str(self.scenario), str(other)], [str(few), str(self.moves)]
        keys = ("scenario", "moves", "penetration", "seed")
        points = [tuple(row[key] for key in keys) for row in runs.rows()]
        self.assertEqual(points, list(itertools.product(*names, (0, 100), (1, 2))))
        # Vehicle 5 or 7 has a station at any share. The first ten rows have both.
        frames = [row["frames"] for row in runs.rows()]
        self.assertEqual(frames, 2 * [1, 1, 10, 20, 1, 1, 100, 100])
        scenarios = [each["path"] for each in runs.record["scenarios"]]
        self.assertEqual(scenarios, [str(self.scenario), str(other)])
        self.assertEqual(len(runs.record["moves"]), 3)
        # The vehicle that an event of this run names is in the feed, and not that of the other one.
        kept = {run.record["command"].partition("--keep ")[2][0] for run in list(runs)[:8]}
        self.assertEqual(kept, {"5"})

    @needs_toml
    def test_a_vehicle_that_a_parameter_names_has_a_station(self):
        runs = self.sweep(self.moves, penetration=0, **{"event.0.id": ["8", "9"]})
        kept = [run.record["command"].partition("--keep ")[2][0] for run in runs]
        self.assertEqual(kept, ["8", "9"])

    @needs_toml
    def test_a_share_of_the_vehicles_comes_through_a_pipe(self):
        runs = self.sweep(self.moves, penetration=[0, 30, 100], seeds=2)
        frames = [row["frames"] for row in runs.rows()]
        # The sender has a station at any share.
        self.assertEqual(frames[:2] + frames[4:], [1, 1, 100, 100])
        self.assertTrue(all(15 <= count <= 45 for count in frames[2:4]), frames)

    @needs_toml
    def test_packed_traces_are_unpacked_once(self):
        packed = self.folder / "moves.csv.gz"
        packed.write_bytes(gzip.compress(MOVES.encode()))
        plain = self.sweep(self.moves, penetration=50).csv()
        self.assertEqual(self.sweep(packed, penetration=50).csv(), plain)
        self.assertEqual([p.read_text() for p in (self.out / "moves").iterdir()], [MOVES])

    @needs_toml
    def test_each_seed_may_have_traces_of_its_own(self):
        for seed in (1, 2):
            rows = MOVES.splitlines(keepends=True)[: 1 + 10 * seed]
            (self.folder / f"town-{seed}.csv").write_text("".join(rows))
        runs = self.sweep(self.folder / "town-{seed}.csv", penetration=100, seeds=2)
        self.assertEqual([row["frames"] for row in runs.rows()], [10, 20])

    def test_wrong_arguments_are_named(self):
        wrong = [
            ({"rnage": 250}, "did you mean range"),
            ({"loss": []}, "no value"),
            ({"loss": [0, 0]}, "given twice"),
            ({"loss": 0.5}, "not a whole number"),
            ({"beacons": 1}, "not true or false"),
            ({"contention": 1}, "not true or false"),
            ({"contention_copies": True}, "not a whole number"),
            ({"contention_copy": 1}, "did you mean contention_copies"),
            ({"penetration": 101}, "not a percentage"),
            ({"penetration": [0.05, 1]}, "0.05 is below 1 %: write 5 for 5 % of the vehicles"),
            ({"scenario": "a.toml"}, "list the files"),
            ({"loss": [1, 2], "range": [1, 2], "tied": ["loss"]}, "at least two"),
            ({"loss": [1, 2], "range": 1, "tied": ["loss", "range"]}, "loss has 2, range has 1"),
            ({"loss": 1, "range": 1, "tied": [("loss", "range", "loss")]}, "named twice"),
            ({"loss": 1, "tied": ["loss", "rnage"]}, "rnage is not a parameter"),
            ({"loss": [1, 1], "range": [2, 2], "tied": ["loss", "range"]}, "given twice"),
            ({"seed": 1}, "use seeds"),
            ({"seeds": 0}, "not a number of seeds"),
            ({"seeds": [-1]}, "2\\^63"),
            ({"air.loss": 1}, "without its table: loss"),
            ({"penetration": 10}, "needs moves"),
            ({"jobs": 0, "executor": None}, "at least 1"),
            ({"part": (3, 3)}, "part 3/3"),
        ]
        for options, text in wrong:
            with self.subTest(options), self.assertRaisesRegex(StudyError, text):
                self.sweep(**options)
        self.assertEqual(self.count(), 0)

    @needs_toml
    def test_paths_that_lead_nowhere_are_named(self):
        with self.assertRaisesRegex(StudyError, "not a number from 0 to 0"):
            self.sweep(**{"event.1.hops": 1})
        with self.assertRaisesRegex(StudyError, "did you mean hops"):
            self.sweep(**{"event.0.hosp": 1})
        with self.assertRaisesRegex(StudyError, "did you mean hops"):
            self.sweep(**{"event.*.hosp": 1})
        with self.assertRaisesRegex(StudyError, "no station there"):
            self.sweep(**{"station.*.capacity": 1})

    def test_numbers_of_other_libraries_are_numbers(self):
        class Whole:
            def __index__(self):
                return 20

        self.assertEqual(self.sweep(loss=[Whole()]).rows()[0]["loss"], 20)


class Summaries(Folder):
    def test_the_mean_of_runs_with_its_interval(self):
        runs = self.sweep(loss=[0, 20], seeds=3)
        rows = runs.summary_rows("reached", by="loss")
        # By seed 9, 8 and 10 of ten.
        self.assertEqual([row["mean"] for row in rows], [9, 7])
        self.assertEqual([row["n"] for row in rows], [3, 3])
        # All three draws are 8 once in 27, which is more often than once in 40.
        self.assertEqual([(row["low"], row["high"]) for row in rows], [(8, 10), (6, 8)])

    def test_the_load_has_metrics_too(self):
        runs = self.sweep(seeds=3)
        self.assertEqual(runs.summary_rows("busy_most")[0]["mean"], 2)

    def test_failed_runs_are_counted(self):
        rows = self.sweep(loss=[0, 90, 98], seeds=3).summary_rows("reached", by=["loss"])
        self.assertEqual([row["failed"] for row in rows], [0, 3, 3])
        self.assertEqual([row["n"] for row in rows], [3, 3, 0])
        self.assertIsNone(rows[2]["mean"])

    def test_times_of_a_warning_that_nobody_had_are_no_zeros(self):
        runs = self.sweep(loss=[0, 90], seeds=[1, 2, 3])
        self.assertEqual([row["last"] for row in runs.rows()], [2, 2, 2, None, None, 2])
        self.assertEqual([row["n"] for row in runs.summary_rows("last", by="loss")], [3, 1])

    def test_the_stations_have_metrics_too(self):
        runs = self.sweep(loss=[10, 20], seeds=3)
        # Two stations: one is busy 100, 200 or 300, the other never.
        self.assertEqual(runs.summary_rows("busy", by="loss")[0]["mean"], 100)
        # `lost` is a column of warnings, where it is 0, and of stations.
        self.assertEqual(runs.summary_rows("lost", by="loss")[0]["mean"], 0)
        rows = runs.summary_rows("lost", by="loss", table="stations")
        self.assertEqual([row["mean"] for row in rows], [5, 10])
        rows = runs.rows("stations", {"loss": 20})
        self.assertEqual([row["id"] for row in rows], 3 * ["a", "b"])

    def test_frames_that_were_held_have_metrics(self):
        runs = self.sweep(contention=[False, True], loss=[0, 97], seeds=3)
        # By seed 9, 8 and 10 of ten. A loss of 97 sends nothing, so no frame could be held.
        held = [row["held"] for row in runs.rows(where={"contention": True})]
        self.assertEqual(held, [9, 8, 10, None, None, None])
        cancelled = [row["cancelled"] for row in runs.rows(where={"contention": False})]
        self.assertEqual(cancelled, [0, 0, 0, None, None, None])
        rows = runs.summary_rows("cancelled", by="contention", where={"loss": 0})
        means = [(row["contention"], row["mean"]) for row in rows]
        self.assertEqual(means, [(False, 0), (True, 8)])
        rows = runs.summary_rows("held", by="contention", where={"loss": 0}, table="stations")
        self.assertEqual([row["mean"] for row in rows], [0, 5])
        # Without contention there are no such columns.
        simple = self.sweep(loss=[0, 20], out=self.folder / "simple")
        self.assertNotIn("held", simple.rows()[0])

    def test_a_mean_over_other_parameters_is_refused(self):
        runs = self.sweep(loss=[0, 20], range=[250, 400])
        with self.assertRaisesRegex(StudyError, "range has several values"):
            runs.summary("reached", by="loss")
        rows = runs.summary_rows("reached", by="loss", where={"range": 250})
        self.assertEqual([row["n"] for row in rows], [1, 1])
        self.assertEqual([row["low"] for row in rows], [None, None])

    def test_names_that_are_none_are_refused(self):
        runs = self.sweep()
        with self.assertRaisesRegex(StudyError, "rechaed: no such column"):
            runs.summary("rechaed")
        with self.assertRaisesRegex(StudyError, "los: no such parameter"):
            runs.summary("reached", by="los")
        with self.assertRaisesRegex(StudyError, "a column of texts"):
            runs.summary("kind")
        with self.assertRaisesRegex(StudyError, "there is no such table"):
            runs.rows("send")

    @unittest.skipUnless(importlib.util.find_spec("matplotlib"), "matplotlib isn't installed")
    def test_a_figure_is_the_same_each_time(self):
        runs = self.sweep(loss=[0, 20, 98], range=[250, 400], seeds=3)
        for kind in ("svg", "pdf"):
            texts = []
            for _ in range(2):
                text = io.BytesIO()
                runs.plot("reach", over="loss", by="range").savefig(text, format=kind)
                texts.append(text.getvalue())
            self.assertEqual(texts[0], texts[1])
            self.assertNotIn(b"<dc:date>", texts[0])
            self.assertNotIn(b"CreationDate", texts[0])


class Doubts(Folder):
    """Runs with a warning, which are those of odd seeds with an `until` of 7."""

    FULL = "7 receptions met a full location table: raise capacity (least 1)"

    def test_they_are_counted_and_kept(self):
        runs = self.sweep(until=[5, 7], seeds=3)
        self.assertEqual(repr(runs), "<6 runs in runs, 0 failed, 2 warned>")
        self.assertEqual([run.parameters["seed"] for run in runs.warned], [1, 3])
        record = json.loads((runs.warned[0].folder / "run.json").read_text())
        self.assertEqual(record["warnings"], [self.FULL])
        study = json.loads((self.out / "study.json").read_text())
        self.assertEqual(study["sweep"]["warned"], 2)
        self.assertEqual([len(run["warnings"]) for run in study["runs"]], [0, 0, 0, 1, 0, 1])
        self.assertEqual([row["warnings"] for row in runs.rows()], [0, 0, 0, 1, 0, 1])
        # Those that were kept from before are counted too.
        again = self.sweep(until=[5, 7], seeds=3)
        self.assertEqual(again.record["sweep"]["warned"], 2)

    def test_an_expectation_that_was_not_met_is_no_doubt(self):
        runs = self.sweep(loss=90, seeds=[1])
        self.assertEqual((len(runs.failed), len(runs.warned)), (1, 0))

    def test_a_summary_counts_names_and_may_leave_out(self):
        runs = self.sweep(until=[5, 7], seeds=3)
        with self.assertWarns(StudyWarning) as seen:
            runs.summary("reached", by="until")
        said = str(seen.warning)
        self.assertIn("may be wrong: 2", said)
        for run in runs.warned:
            self.assertIn(f"until=7 seed={run.parameters['seed']}, in {run.folder.name}", said)
        self.assertIn(self.FULL, said)
        rows = runs.summary_rows("reached", by="until")
        # By seed 9, 8 and 10 of ten.
        found = [(row["mean"], row["n"], row["warned"]) for row in rows]
        self.assertEqual(found, [(9, 3, 0), (9, 3, 2)])
        rows = runs.summary_rows("reached", by="until", without_warned=True)
        found = [(row["mean"], row["n"], row["warned"]) for row in rows]
        self.assertEqual(found, [(9, 3, 0), (8, 1, 2)])
        with warnings.catch_warnings():
            warnings.simplefilter("error")
            runs.summary("reached", by="until", without_warned=True)
            runs.summary("reached", where={"until": 5})

    def test_a_table_names_them_and_may_leave_them_out(self):
        runs = self.sweep(until=7, seeds=3)
        with self.assertWarns(StudyWarning):
            self.assertEqual(len(runs.csv().splitlines()), 4)
        with self.assertWarns(StudyWarning):
            self.assertEqual(len(runs.frame("load")), 3)
        self.assertEqual(len(runs.csv(without_warned=True).splitlines()), 2)
        self.assertEqual([row["seed"] for row in runs.rows(without_warned=True)], [2])

    def test_only_some_are_named(self):
        runs = self.sweep(until=7, seeds=20)
        with self.assertWarnsRegex(StudyWarning, "may be wrong: 10\\n(.*\\n){5}  and 5 more$"):
            runs.csv()

    @unittest.skipUnless(importlib.util.find_spec("matplotlib"), "matplotlib isn't installed")
    def test_a_figure_has_hollow_marks(self):
        def written(**options):
            text = io.BytesIO()
            runs.plot("reach", over="until", **options).savefig(text, format="svg")
            return text.getvalue()

        runs = self.sweep(until=[5, 7], seeds=3)
        with self.assertWarns(StudyWarning):
            self.assertIn(b"hollow: with warnings", written())
        with warnings.catch_warnings():
            warnings.simplefilter("error")
            self.assertNotIn(b"hollow", written(without_warned=True))
            self.assertNotIn(b"hollow", written(where={"until": 5}))


class Statistics(unittest.TestCase):
    def test_the_interval_of_two_values(self):
        # Half of the draws are one of each; a quarter are twice the same.
        self.assertEqual(statistics.interval([0, 1]), (0, 1))
        self.assertEqual(statistics.interval([0, 1], level=0.4), (0.5, 0.5))

    def test_the_interval_of_many_values(self):
        # The mean of 0 to 99 has a standard error of 2.887: 1.96 of it to each side.
        low, high = statistics.interval(list(range(100)))
        self.assertAlmostEqual(low, 49.5 - 5.66, delta=0.3)
        self.assertAlmostEqual(high, 49.5 + 5.66, delta=0.3)

    def test_the_interval_hangs_on_the_values_alone(self):
        draws = random.Random(1)
        values = [draws.random() for _ in range(30)]
        first = statistics.interval(values)
        self.assertEqual(statistics.interval(values), first)
        self.assertEqual(statistics.interval(values[::-1]), first)
        self.assertNotEqual(statistics.interval(values, seed=2), first)

    def test_equal_values_and_few(self):
        self.assertEqual(statistics.interval([3, 3, 3]), (3, 3))
        self.assertEqual(statistics.interval([3]), (None, None))
        with self.assertRaises(StudyError):
            statistics.interval([1, 2], level=1)


class Scenarios(unittest.TestCase):
    @needs_toml
    def test_a_copy_has_the_same_values(self):
        paths = [path for path in SAMPLES.rglob("*.toml")]
        documents = [scenario.loads(path.read_text()) for path in paths]
        documents.append({"a b": 'x"\\\n\x7f\u00e9', "n": [1, [2.5, True]], "t": {"u": {"v": -1}}})
        documents.append({"event": [{}], "empty": [], "moves": {}})
        self.assertGreater(len(documents), 3)
        for document in documents:
            self.assertEqual(scenario.loads(scenario.dumps(document)), document)

    @needs_toml
    def test_not_toml(self):
        with self.assertRaisesRegex(StudyError, "not TOML"):
            scenario.loads("a = ")


class Traces(unittest.TestCase):
    def test_fcd_output_as_csv(self):
        self.assertEqual(rows_of(XML.encode()).decode(), CSV)
        self.assertEqual(rows_of(gzip.compress(XML.encode())).decode(), CSV)
        self.assertEqual(rows_of(CSV.encode()).decode(), CSV)

    def test_what_is_no_fcd_output(self):
        wrong = [
            ("<routes/>", "line 1: not SUMO's FCD output"),
            (XML.replace('x="11.50" y="48.10" angle="90.00"', 'x="691600" y="0"'), "in degrees"),
            (XML.replace('id="a" ', ""), "line 6: a vehicle without id"),
            (XML.replace('id="a"', 'id="&#10;"'), "can't be the id"),
            (XML.replace('x="11.50"', 'x="east"'), "not a number"),
            (XML[:-20], "line "),
            (f'<!DOCTYPE x [<!ENTITY e "e">]>{XML[39:]}', "entities"),
        ]
        for text, why in wrong:
            with self.subTest(why), self.assertRaisesRegex(StudyError, why):
                rows_of(text.encode())
        with self.assertRaisesRegex(StudyError, "damaged gzip"):
            rows_of(gzip.compress(XML.encode())[:-20])

    def test_rows_without_a_station_are_empty_lines(self):
        none = traces.Equipped(0, 1, ["a"])
        kept = rows_of(CSV.encode(), none).decode()
        self.assertEqual(kept, "".join(CSV.splitlines(keepends=True)[:2]) + "\n")
        self.assertEqual(rows_of(XML.encode(), none).decode(), kept)
        other = traces.Equipped(0, 1, ['b;"\u00fc'])
        self.assertIn('"b;', rows_of(CSV.encode(), other).decode())

    def test_a_file_without_ids_is_the_programs_to_refuse(self):
        self.assertEqual(rows_of(b"at,lat\n1,2\n", traces.Equipped(0, 1)), b"at,lat\n1,2\n")

    def test_a_share_is_drawn_by_seed_and_id(self):
        names = [b"%d" % number for number in range(10_000)]
        for seed in (1, 2):
            drawn = {
                percent: {name for name in names if traces.Equipped(percent, seed)[name]}
                for percent in (0, 10, 30, 100)
            }
            # Four standard deviations of a binomial draw: 120 and 183.
            self.assertAlmostEqual(len(drawn[10]), 1000, delta=120)
            self.assertAlmostEqual(len(drawn[30]), 3000, delta=183)
            self.assertEqual((len(drawn[0]), len(drawn[100])), (0, 10_000))
            self.assertLess(drawn[10], drawn[30])
        self.assertNotEqual(
            [traces.Equipped(50, 1)[name] for name in names],
            [traces.Equipped(50, 2)[name] for name in names],
        )


class Commands(Folder):
    def call(self, *words):
        out, err = io.StringIO(), io.StringIO()
        with contextlib.redirect_stdout(out), contextlib.redirect_stderr(err):
            try:
                status = command.main([str(word) for word in words])
            except SystemExit as end:
                status = end.code
        return status, out.getvalue(), err.getvalue()

    def test_a_sweep_and_its_tables(self):
        words = ["--set", "loss=0,20", "--seeds", "2", "--out", self.out, "--jobs", "1"]
        status, said, _ = self.call("sweep", self.scenario, *words)
        self.assertEqual(status, 0)
        wanted = ": 4 runs done, 0 kept from before, 0 failed, 0 warned, in .* s, processors busy "
        self.assertRegex(said, wanted)
        status, table, _ = self.call("table", self.out)
        self.assertEqual((status, table), (0, load(self.out).csv()))
        _, table, _ = self.call("table", self.out, "--metric", "reached", "--by", "loss")
        wanted = "loss,mean,low,high,n,failed,warned\n0,8.5,8.0,9.0,2,0,0\n20,6.5,6.0,7.0,2,0,0\n"
        self.assertEqual(table, wanted)
        _, table, _ = self.call("table", self.out, "--where", "loss=20")
        self.assertEqual(len(table.splitlines()), 3)

    def test_failed_runs_are_status_1(self):
        words = ["--set", "loss=0,98", "--out", self.out, "--jobs", "1"]
        status, _, said = self.call("sweep", self.scenario, *words)
        self.assertEqual(status, 1)
        self.assertIn("failed runs: 1; the first, loss=98 seed=1, in ", said)

    def test_runs_with_warnings_are_named(self):
        words = ["--set", "until=5,7", "--seeds", "2", "--out", self.out, "--jobs", "1"]
        status, said, error = self.call("sweep", self.scenario, *words)
        self.assertEqual(status, 0)
        self.assertIn(" 0 failed, 1 warned, in ", said)
        self.assertIn("runs with warnings: 1; the first, until=7 seed=1, in ", error)
        self.assertIn(": 7 receptions met a full location table", error)
        self.assertEqual(self.call("sweep", self.scenario, *words, "--strict")[0], 1)
        table = ["table", self.out, "--metric", "reached", "--by", "until"]
        status, text, error = self.call(*table)
        self.assertEqual((status, text.splitlines()[2]), (0, "7,8.5,8.0,9.0,2,0,1"))
        self.assertTrue(error.startswith("geostation.study: runs with warnings, "), error)
        self.assertIn("until=7 seed=1, in ", error)
        _, text, error = self.call(*table, "--without-warned")
        self.assertEqual((text.splitlines()[2], error), ("7,8.0,,,1,0,1", ""))
        status, text, error = self.call("table", self.out)
        self.assertEqual((status, len(text.splitlines())), (0, 5))
        self.assertIn("until=7 seed=1, in ", error)
        _, text, error = self.call("table", self.out, "--without-warned", "--of", "load")
        self.assertEqual((len(text.splitlines()), error), (4, ""))

    def test_several_files_and_ties(self):
        other = self.folder / "other.toml"
        other.write_text(SCENARIO + "# Another one.\n")
        words = ["--set", "loss=0,20", "--set", "range=250,400", "--tie", "loss,range"]
        words += ["--moves", self.moves, "--out", self.out, "--jobs", "1"]
        self.assertEqual(self.call("sweep", self.scenario, other, *words)[0], 0)
        found = [tuple(run.parameters.values()) for run in load(self.out)]
        names = str(self.scenario), str(other)
        pairs = (0, 250), (20, 400)
        self.assertEqual(found, [(name, *pair, 1) for name in names for pair in pairs])

    @needs_toml
    def test_a_text_of_the_scenario_stays_a_text(self):
        words = ["--set", "event.0.id=7,8", "--out", self.out, "--jobs", "1"]
        self.assertEqual(self.call("sweep", self.scenario, *words)[0], 0)
        self.assertEqual([run.parameters["event.0.id"] for run in load(self.out)], ["7", "8"])

    def test_seeds_and_parts(self):
        self.assertEqual(command._seeds("30"), 30)
        self.assertEqual(command._seeds("3-5"), [3, 4, 5])
        self.assertEqual(command._seeds("7,9"), [7, 9])
        self.assertEqual(command._part("2/10"), (2, 10))

    def test_errors_are_sentences(self):
        sweep = ["sweep", self.scenario, "--out", self.out]
        calls = [
            ([*sweep, "--set", "rnage=1"], 2, "rnage: unknown parameter (did you mean range?)"),
            ([*sweep, "--set", "loss"], 2, "'loss' is not KEY=VALUE"),
            ([*sweep, "--set", "loss=1", "--set", "loss=2"], 2, "given twice"),
            ([*sweep, "--seeds", "x"], 2, "not a number of seeds"),
            ([*sweep, "--program", "none"], 3, "there is no such program"),
            ([*sweep, "--moves", "none.csv"], 3, "none.csv (no such file or directory)"),
            (["sweep", "none.toml", "--out", self.out], 3, "none.toml (no such file"),
            (["table", self.folder], 3, "study.json (no such file"),
            (["table", self.out, "--by", "loss"], 3, "study.json"),
            (["plot", self.out, "--metric", "x", "--over", "y", "-o", "x.doc"], 2, "x.doc"),
            (["fcd", "none.xml"], 3, "none.xml (no such file"),
            (["fcd", self.moves, "--penetration", "101"], 2, "not a percentage"),
            (["fcd", self.moves, "--penetration", "0.3"], 2, "write 30 for 30 % of the vehicles"),
            ([*sweep, "--set", "loss=1,2", "--tie", "loss"], 2, "at least two"),
            ([], 2, "required"),
        ]
        for words, status, text in calls:
            with self.subTest(words):
                ended, _, said = self.call(*words)
                self.assertEqual((ended, text in said), (status, True), said)
                self.assertTrue(said.startswith("geostation.study: "))


class Values(unittest.TestCase):
    def test_the_points_of_a_grid(self):
        found = parameters.points({"a.b": [1, 2]}, [7, 8])
        wanted = [(1, 7), (1, 8), (2, 7), (2, 8)]
        self.assertEqual([tuple(point.values()) for point in found], wanted)

    def test_a_message_is_one_line(self):
        with tempfile.TemporaryDirectory() as folder:
            path = Path(folder, "messages.txt")
            path.write_text("geostation: a\ngeostation: b\n")
            self.assertEqual(jobs._message(path, 0), "a; b")
            path.write_text("x" * 1000)
            self.assertLess(len(jobs._message(path, 0)), 600)


if __name__ == "__main__":
    unittest.main()
