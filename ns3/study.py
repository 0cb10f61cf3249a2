#!/usr/bin/env python3
"""The same town and warning in `geostation sim` and in ns-3: a table and a figure.

    python3 ns3/study.py --out FOLDER

Needs SUMO, matplotlib, the program, and `ns3/out/town` (make -C ns3). Makes a town of one square
kilometre and its traffic with SUMO, runs each rule at each density with several seeds, and writes
`runs.csv`, `table.md`, `ns3.svg` and `ns3.pdf` to the folder. Intervals are those of
`geostation.study`. A run that `runs.csv` has is not done again.
"""

import argparse
import csv
import functools
import math
import os
import subprocess
import sys
import threading
from concurrent.futures import ThreadPoolExecutor
from pathlib import Path
from statistics import mean
from typing import NamedTuple

TOP = Path(__file__).resolve().parent.parent
sys.path.insert(0, str(TOP / "python"))

from geostation.study.statistics import interval  # noqa: E402

os.environ.setdefault("SUMO_HOME", "/usr/share/sumo")
TOOLS = Path(os.environ["SUMO_HOME"]) / "tools"
# A run begins at this second of SUMO, with the warning after AT seconds.
BEGIN, AT = 240, 0.3
RANGE, RADIUS, RATE, BYTES = 300, 400, 5, 600
# Seconds between two vehicles that set out, for each density.
PERIODS = [2.8, 1.4, 0.7]
# The greatest wait of a frame at a contending station, and until it is sent, in seconds.
WAIT = 0.102


class Rule(NamedTuple):
    """A rule of forwarding: its name in the table and in ns-3, the greatest wait of a station in
    seconds, and attributes of ns-3."""

    name: str
    forward: str
    wait: float
    attributes: dict

    def after(self):
        """How many seconds a run goes on after the warning."""
        return 0.1 + 6 * self.wait


def contention(copies, range):
    name = f"contention, {copies} {'copy' if copies == 1 else 'copies'}, {range} m"
    station = "geostation::StationApplication::Contention"
    return Rule(name, "contention", WAIT, {f"{station}Copies": copies, f"{station}Range": range})


def any_copy(range):
    return Rule(f"any copy, {range} m", "any", WAIT, {"AnyCopyApplication::Reach": range})


RULES = {
    "now": Rule("at once", "now", 0, {}),
    "spread": Rule("simple", "spread", 0, {}),
    **{f"copies-{n}-{m}": contention(n, m) for m in (300, 1000) for n in (2, 1)},
    **{f"any-{m}": any_copy(m) for m in (300, 1000)},
}
SIM = ("sim", "now")
# Medium and rule of each kind of run, and its name in the table; without a medium it is 802.11p.
KINDS = {
    SIM: "`sim`",
    **{("range", key): f"lossless, {RULES[key].name}" for key in RULES if key != "now"},
    **{("wifi", key): RULES[key].name for key in RULES},
}
COLUMNS = ["period", "seed", "medium", "rule", "vehicles", "inside", "reached", "frames", "lost",
           "hops", "p50", "p95", "last"]  # fmt: skip
SCENARIO = """
[air]
range = {range}
delay = 1
seed = {seed}
until = {until}
[moves]
begin = {begin}
ports = [2001, 2002]
[[every]]
period = {period}
port = 2001
info = 0
tc = 2
octets = {bytes}
[[event]]
id = "{id}"
at = {at}
do = "gbc"
port = 2002
info = 0
tc = 0
lt = 26
hops = 10
shape = "circle"
a = {radius}
b = 0
angle = 0
payload = "696365"
"""


def run(words, **options):
    options = {"stdout": subprocess.PIPE, "stderr": subprocess.PIPE, "text": True} | options
    done = subprocess.run([str(word) for word in words], **options)
    if done.returncode != 0:
        sys.exit(f"{' '.join(map(str, words))}: status {done.returncode}\n{done.stderr}")
    return done.stdout


def make_streets(folder):
    """Streets of 200 m, 1000 m in each direction, with a location on the earth."""
    net = folder / "town.net.xml"
    if not net.exists():
        plain = folder / "streets.net.xml"
        run(["netgenerate", "--grid", "--grid.number", 6, "--grid.length", 200, "-o", plain])
        place = 'netOffset="-691600.00,-5334700.00"'
        text = plain.read_text().replace('netOffset="0.00,0.00"', place)
        text = text.replace('projParameter="!"', 'projParameter="+proj=utm +zone=32 +ellps=WGS84"')
        net.write_text(text)
    return net


def make_traffic(folder, net, period, seed):
    """The positions of all vehicles every 100 ms, as `sim --moves` reads them."""
    moves = folder / f"moves-{period}-{seed}.csv"
    if not moves.exists():
        trips, fcd = folder / f"trips-{period}-{seed}.xml", folder / f"fcd-{period}-{seed}.xml"
        words = ["-n", net, "-o", trips, "-e", BEGIN + 5, "-p", period, "--seed", seed]
        run(["python3", TOOLS / "randomTrips.py", *words, "--min-distance", 600], cwd=folder)
        end = ["-e", BEGIN + 2, "--step-length", 0.1, "--device.fcd.begin", BEGIN]
        output = ["--fcd-output", fcd, "--fcd-output.geo", "--precision.geo", 7]
        run(["sumo", "-n", net, "-r", trips, "--seed", seed, "--no-step-log", *end, *output])
        environment = os.environ | {"PYTHONPATH": str(TOP / "python")}
        rows = run([sys.executable, "-m", "geostation.study", "fcd", fcd], env=environment)
        moves.write_text(rows)
    return moves


def choose_warner(moves):
    """The vehicle in the middle of those at the time of the warning, and how many there are."""
    with open(moves, newline="") as file:
        first = file.readline()
        file.seek(0)
        rows = list(csv.DictReader(file, delimiter=";" if ";" in first else ","))
    own = "at" in rows[0]
    at, ident, lat, lon = (
        ("at", "id", "lat", "lon")
        if own
        else ("timestep_time", "vehicle_id", "vehicle_y", "vehicle_x")
    )
    scale = 1000 if own else 1
    wanted = (BEGIN + AT) * scale
    there = [row for row in rows if row[ident] and abs(float(row[at]) - wanted) < 0.05 * scale]
    # Only vehicles that are there from the beginning to the end.
    until = BEGIN + AT + max(rule.after() for rule in RULES.values())
    last = {row[ident] for row in rows if row[ident] and float(row[at]) >= until * scale}
    first = {row[ident] for row in rows if row[ident] and float(row[at]) <= BEGIN * scale}
    y, x = mean(float(row[lat]) for row in there), mean(float(row[lon]) for row in there)
    shrink = math.cos(math.radians(48))

    def distance(row):
        return math.hypot(float(row[lat]) - y, (float(row[lon]) - x) * shrink)

    whole = [row for row in there if row[ident] in first and row[ident] in last]
    return min(whole, key=distance)[ident], len(there)


def run_sim(arguments, moves, warner, seed, sends):
    """Runs the town in `sim`."""
    scenario = sends.with_suffix(".toml")
    until = int(1000 * (AT + RULES[SIM[1]].after()))
    times = {"begin": 1000 * BEGIN, "at": int(1000 * AT), "until": until}
    sizes = {"range": RANGE, "radius": RADIUS, "period": 1000 // RATE, "bytes": BYTES}
    scenario.write_text(SCENARIO.format(seed=seed, id=warner, **times, **sizes))
    run([arguments.program, "sim", "--summary", "--moves", moves, "--sends", sends, scenario])


def run_ns3(arguments, moves, warner, seed, medium, rule, sends):
    """Runs the town in ns-3."""
    words = [f"--moves={moves}", f"--begin={BEGIN}", f"--id={warner}", f"--forward={rule.forward}"]
    words += [f"--medium={medium}", f"--at={AT}", f"--until={AT + rule.after():.3f}"]
    words += [f"--range={RANGE}", f"--radius={RADIUS}", f"--rate={RATE}", f"--bytes={BYTES}"]
    words += [f"--loss={arguments.loss}", f"--RngRun={seed}", f"--sends={sends}"]
    words += [f"--{name}={value}" for name, value in rule.attributes.items()]
    words += ["--geostation::StationApplication::Capacity=1024"]
    run([arguments.town, *words])


def run_one(arguments, folder, moves, period, seed, medium, key):
    """Does one run, and returns its row."""
    warner, vehicles = choose_warner(moves)
    rule = RULES[key]
    sends = folder / f"sends-{period}-{seed}-{medium}-{key}.csv"
    if medium == "sim":
        run_sim(arguments, moves, warner, seed, sends)
    else:
        run_ns3(arguments, moves, warner, seed, medium, rule, sends)
    with open(sends, newline="") as file:
        (row,) = csv.DictReader(file)
    if float(row["last"]) > 1000 * (rule.after() - rule.wait):
        sys.exit(f"{sends}: a station may still hold the warning at the end of the run")
    found = {name: row[name] for name in COLUMNS if name in row}
    names = {"period": period, "seed": seed, "medium": medium, "rule": key}
    return {**names, "vehicles": vehicles, **found}


def values_of(rows, name):
    """The values of a column; for `reach` the percentages."""
    if name == "reach":
        return [100 * int(row["reached"]) / int(row["inside"]) for row in rows]
    return [float(row[name]) for row in rows]


def select(rows, period, medium, rule):
    found = [row for row in rows if (row["medium"], row["rule"]) == (medium, rule)]
    return [row for row in found if float(row["period"]) == period]


@functools.cache
def mean_and_ends(values):
    """The mean of some values, and the ends of its 95 % interval."""
    low, high = interval(values) if len(values) > 1 else values * 2
    return mean(values), low, high


def row_of_table(some, name):
    whole = sum(row["reached"] == row["inside"] for row in some)
    cells = [f"{mean(values_of(some, 'vehicles')):.0f}", name]
    for column in ("reach", "frames", "p95"):
        at, low, high = mean_and_ends(tuple(values_of(some, column)))
        cells.append(f"{at:.1f} ({low:.1f}–{high:.1f})")
    cells.insert(3, f"{whole}/{len(some)}")
    return "| " + " | ".join(cells) + " |"


def write_table(rows, path):
    head = "| Vehicles | Run | Reached % | All | Frames | p95 ms |"
    lines = [head, "|" + "---|" * (head.count("|") - 1)]
    for period in sorted({float(row["period"]) for row in rows}, reverse=True):
        for kind, name in KINDS.items():
            if some := select(rows, period, *kind):
                lines.append(row_of_table(some, name))
    path.write_text("\n".join(lines) + "\n")
    print("\n".join(lines))


# What a panel shows: the column, the label of its axis, its scale, its ends and its ticks.
PANELS = [
    ("reach", "Stations reached (%)", "linear", (50, 102), range(50, 101, 10)),
    ("frames", "Frames per warning", "log", (4, 130), [5, 10, 20, 50, 100]),
    ("p95", "Time to 95 % of them (ms)", "log", (0.2, 200), [0.3, 1, 3, 10, 30, 100]),
]
# The rules of a row of panels, with colour, mark and dash: those of Okabe and Ito, which differ in
# grey too, and hollow marks for the simple rules.
LINES = {
    "now": ("At once", "#000000", "s", ":", "white"),
    "spread": ("Simple", "#0072b2", "o", "--", "white"),
    "copies-2-{}": ("Contention, 2 copies", "#009e73", "D", "-", None),
    "copies-1-{}": ("Contention, 1 copy", "#e69f00", "^", "-.", None),
    "any-{}": ("Any copy (F.3)", "#d55e00", "v", (0, (5, 1, 1, 1, 1, 1)), None),
}


def draw_line(panel, rows, periods, name, rule, shift, style):
    """A rule in a panel: means over the mean number of vehicles, with their intervals as bars."""
    label, colour, mark, dash, face = style
    points = [some for period in periods if (some := select(rows, period, "wifi", rule))]
    found = [mean_and_ends(tuple(values_of(some, name))) for some in points]
    means = [at for at, _, _ in found]
    # Of equal values the ends are the mean, but for a rounding.
    bars = [
        [max(0, at - low) for at, low, _ in found],
        [max(0, high - at) for at, _, high in found],
    ]
    # Marks of one density lie side by side, so that no bar hides another one.
    places = [mean(values_of(some, "vehicles")) * 1.035**shift for some in points]
    panel.errorbar(
        places, means, yerr=bars, color=colour, marker=mark, linestyle=dash, label=label,
        markerfacecolor=face or colour, capsize=1.8, capthick=0.7, elinewidth=0.7,
    )  # fmt: skip


def draw_panel(panel, rows, periods, letter, shown, reach):
    """A panel: a column of the runs with one range of contention."""
    name, label, scale, ends, ticks = shown
    for place, (rule, style) in enumerate(LINES.items()):
        draw_line(panel, rows, periods, name, rule.format(reach), place - 2, style)
    panel.set_xscale("log")
    panel.set_yscale(scale)
    places = [mean(values_of(select(rows, period, *SIM), "vehicles")) for period in periods]
    panel.set_xticks(places, [f"{place:.0f}" for place in places])
    panel.set_yticks(ticks, [f"{tick:g}" for tick in ticks])
    panel.minorticks_off()
    panel.set_xlim(places[0] / 1.25, places[-1] * 1.25)
    panel.set_ylim(ends)
    panel.set_ylabel(label)
    panel.set_title(f"({letter}) contention range {reach} m", loc="left", fontsize=8)
    panel.grid(axis="y", linewidth=0.3, color="#cccccc")
    panel.set_axisbelow(True)


def draw(rows, folder):
    """The figure as SVG and PDF, 183 mm wide: 802.11p, a row of panels for each range."""
    import matplotlib

    matplotlib.use("agg")
    import matplotlib.pyplot as plt

    plt.rcParams.update({
        "font.size": 8, "axes.labelsize": 8, "legend.fontsize": 8, "xtick.labelsize": 7,
        "ytick.labelsize": 7, "axes.linewidth": 0.6, "axes.spines.top": False,
        "axes.spines.right": False, "lines.linewidth": 1, "lines.markersize": 3.5,
        "svg.hashsalt": "geostation", "svg.fonttype": "none", "pdf.fonttype": 42,
    })  # fmt: skip
    figure, grid = plt.subplots(2, 3, figsize=(7.2, 4.6), layout="constrained")
    figure.get_layout_engine().set(rect=(0, 0.06, 1, 0.94))
    periods = sorted({float(row["period"]) for row in rows}, reverse=True)
    letters = iter("abcdef")
    for panels, reach in zip(grid, (300, 1000)):
        for panel, shown in zip(panels, PANELS):
            draw_panel(panel, rows, periods, next(letters), shown, reach)
    for panel in grid[1]:
        panel.set_xlabel("Vehicles in 1 km²")
    handles, labels = grid[0][0].get_legend_handles_labels()
    figure.legend(handles, labels, loc="lower center", ncols=5, frameon=False, handlelength=3)
    figure.savefig(folder / "ns3.svg", metadata={"Date": None})
    figure.savefig(folder / "ns3.pdf", metadata={"CreationDate": None})


def read_rows(path):
    if not path.exists():
        return []
    with open(path, newline="") as file:
        return list(csv.DictReader(file))


def main():
    parser = argparse.ArgumentParser(description=__doc__.split("\n")[0])
    parser.add_argument("--out", type=Path, required=True, help="folder of the results")
    parser.add_argument("--seeds", type=int, default=30, help="seeds of each density [default: 30]")
    parser.add_argument("--jobs", type=int, default=os.cpu_count(), help="runs at once")
    parser.add_argument("--loss", default="log", help="disk, log or nakagami [default: log]")
    parser.add_argument("--periods", type=float, nargs="+", default=PERIODS, help="densities")
    parser.add_argument("--program", default=str(TOP / "geostation"), help="the program")
    parser.add_argument("--town", default=str(TOP / "ns3/out/town"), help="the built example")
    arguments = parser.parse_args()
    folder = arguments.out.resolve()
    folder.mkdir(parents=True, exist_ok=True)
    kept = folder / "runs.csv"
    rows = read_rows(kept)
    done = {(row["period"], row["seed"], row["medium"], row["rule"]) for row in rows}
    # All of a seed come before the next one: if it is stopped, each kind has as many runs.
    wanted = [
        (period, seed, medium, rule)
        for seed in range(1, arguments.seeds + 1)
        for period in arguments.periods
        for medium, rule in KINDS
        if (str(period), str(seed), medium, rule) not in done
    ]
    net = make_streets(folder)
    pairs = sorted({(period, seed) for period, seed, _, _ in wanted})
    lock = threading.Lock()
    with ThreadPoolExecutor(arguments.jobs) as pool:
        moves = dict(zip(pairs, pool.map(lambda pair: make_traffic(folder, net, *pair), pairs)))

        def do(it):
            row = run_one(arguments, folder, moves[it[:2]], *it)
            with lock:
                rows.append(row)
                print(f"{len(rows)} runs: {row}", file=sys.stderr, flush=True)
                with open(kept, "w", newline="") as file:
                    writer = csv.DictWriter(file, COLUMNS)
                    writer.writeheader()
                    writer.writerows(rows)

        list(pool.map(do, wanted))
    write_table(rows, folder / "table.md")
    draw(rows, folder)


if __name__ == "__main__":
    main()
