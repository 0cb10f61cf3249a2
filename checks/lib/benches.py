"""Stations and benches for `conformance`: one station, one wire and one purpose per run."""

import multiprocessing
import os
import re
import socket
import subprocess
import sys
import time
from contextlib import contextmanager
from pathlib import Path
from typing import NamedTuple

import pics
from program import TOP

EXAMPLE = TOP / "examples/security"
sys.path[1:1] = [str(TOP / "tester"), str(EXAMPLE)]

from entity import make_key
from geostation_tester import campaign
from geostation_tester.actions import PORT, UPPER
from geostation_tester.bench import Partners, LostFrames
from geostation_tester.entity import Entity
from geostation_tester.purposes import Purpose, read_purpose
from geostation_tester.results import Result
from geostation_tester.station_file import read_station_file
from geostation_tester.upper import JsonUpper, UdpUpper
from geostation_tester.verdicts import NoVerdict
from liar import lie
from liar_faults import FAULTS

SUITE = TOP / "tester/suite"
UPPER_TESTER = TOP / "examples/upper-tester/upper_tester.py"
HOME, DEGREES = (514_776_500, -10_000), "51.4776500,-0.0010000"
ADDRESS = "3c0002000001{:04x}"  # of the station on a wire; its MID is the MAC
PATIENCE = 30  # s
# What the runs of this machine claim. A busy machine may be late by so much.
STATION = """[station]
address = "{address}"
lat = {place[0]}
lon = {place[1]}
accuracy = 0
tolerance = 0
age = 1500
mobile = false

[claims]
area = "{area}"
elsewhere = "greedy"
remember = 8
capacity = 64
profile = true
gapless = true
steady = true
fresh = true
unlimited = true
unbuffered = true

[capture]
within = {within}
queue = 100
"""
CHOSEN = ("--interface", "--position", "--port")
CONTENDS = ["--area-forwarding", "contention", "--contention-max", "1000",
            "--contention-copies", "1"]  # fmt: skip
SECURES = ["--security-timeout", "2000"]
DAEMONS = ("standard", "defaults", "udp", "contention", "secured")
# The names of keys, and which of them each security entity trusts.
TRUSTED = {"bench": ["station"], "stranger": [], "station": ["bench"]}


class Run(NamedTuple):
    """`station` is one of DAEMONS, a mistake, or "" for a station without one."""

    station: str
    purpose: str
    wire: int
    program: str
    daemon: str
    room: str
    attempt: int = 0

    @property
    def folder(self) -> Path:
        return Path(self.room) / f"{self.wire}.{self.attempt}"

    @property
    def upper(self) -> str:
        """The socket of the upper tester."""
        return str(self.folder / "upper")

    @property
    def label(self) -> str:
        return f"{self.purpose} with {self.station or 'no mistake'}"


def contends(run: Run) -> bool:
    """Whether the station claims contention."""
    return run.station == "contention" or run.purpose.startswith("CBF") and run.station in FAULTS


def secures(run: Run) -> bool:
    """Whether the station sends and accepts signed packets only."""
    return run.station == "secured" or run.purpose.startswith("SEC") and run.station not in DAEMONS


def station_file(run: Run) -> str:
    area, within = ("cbf", 1_600) if contends(run) else ("simple", 500)
    address = ADDRESS.format(run.wire)
    return STATION.format(address=address, place=HOME, area=area, within=within)


class Outcome(NamedTuple):
    run: Run
    result: Result
    line: str


def wait_for(path: str) -> None:
    """Until a socket has this name."""
    latest = time.monotonic() + PATIENCE
    while not os.path.exists(path):
        assert time.monotonic() < latest, path
        time.sleep(0.01)


def keys_of(room: str, name: str) -> list[Path]:
    """The paths of a key, and of the public keys that are trusted with it."""
    return [Path(room, f"{name}.pem"), *(Path(room, f"{other}.pem.pub") for other in TRUSTED[name])]


@contextmanager
def entity_on(room: str, name: str, path: str):
    """The security entity of examples/ with this key, at a socket."""
    key, *trusted = keys_of(room, name)
    command = [sys.executable, str(EXAMPLE / "entity.py"), "--key", key]
    command += [word for public in trusted for word in ("--trust", public)]
    process = subprocess.Popen([*command, path])
    try:
        wait_until_it_listens(path)
        yield
    finally:
        process.kill()
        process.wait()


def wait_until_it_listens(path: str) -> None:
    latest = time.monotonic() + PATIENCE
    while True:
        with socket.socket(socket.AF_UNIX, socket.SOCK_SEQPACKET) as trial:
            if trial.connect_ex(path) == 0:
                return
        assert time.monotonic() < latest, path
        time.sleep(0.01)


@contextmanager
def bench_entities(room: str):
    """The security entities of all benches, at the sockets that `entities_of` names."""
    for name in TRUSTED:
        make_key(keys_of(room, name)[0])
    with (
        entity_on(room, "bench", f"{room}/bench.sock"),
        entity_on(room, "stranger", f"{room}/stranger.sock"),
    ):
        yield


def entities_of(run: Run) -> list[Entity]:
    """Those of the bench of a run."""
    names = ("bench", "stranger") if secures(run) else ()
    return [Entity(f"{run.room}/{name}.sock") for name in names]


@contextmanager
def station_entity_on(run: Run):
    """The security entity of the daemon, if it has one. Yields the daemon's options."""
    if run.station != "secured":
        yield []
        return
    path = str(run.folder / "entity.sock")
    with entity_on(run.room, "station", path):
        yield ["--security", path, *SECURES]


def pixit_options() -> list[str]:
    """The options of the daemon for tests, by PROFILE.md, without those that a run chooses."""
    block = re.search(r"```sh\n(geostation-link .*?)```", pics.PAGE.read_text(), re.S)[1]
    _, *words = block.replace("\\\n", " ").split()
    pairs = zip(words[::2], words[1::2])
    return [word for name, value in pairs if name not in CHOSEN for word in (name, value)]


@contextmanager
def daemon_on(run: Run):
    """The daemon, once it is ready."""
    limits = [] if run.station == "defaults" else pixit_options()
    limits = [*limits, *(CONTENDS if run.station == "contention" else [])]
    command = [run.daemon, "--interface", f"s{run.wire}", "--position", DEGREES, *limits]
    command += ["--listen", run.upper]
    with station_entity_on(run) as options, process_on([*command, *options]):
        yield


@contextmanager
def process_on(command: list[str]):
    """A program, once it is ready."""
    pipe = subprocess.PIPE
    process = subprocess.Popen(command, stdin=pipe, stdout=pipe, stderr=subprocess.DEVNULL)
    try:
        assert b"ready" in process.stdout.readline(), command
        yield
    finally:
        process.kill()
        process.communicate()


@contextmanager
def upper_on(run: Run, purpose: Purpose):
    """The upper tester, if the purpose needs one."""
    if UPPER not in purpose.needs:
        yield None
        return
    if run.station != "udp":
        yield JsonUpper(run.upper)
        return
    port = 4300 + run.wire
    command = [sys.executable, str(UPPER_TESTER), "--link", run.upper, "--position", DEGREES]
    command += ["--port", str(PORT), "--udp", f"127.0.0.1:{port}"]
    with process_on(command):
        yield UdpUpper("127.0.0.1", port)


@contextmanager
def liar_on(run: Run, seconds: float):
    address = int(ADDRESS.format(run.wire), 16)
    keys = keys_of(run.room, "station") if secures(run) else None
    arguments = (f"s{run.wire}", address, HOME, run.station, run.upper, seconds, keys)
    process = multiprocessing.Process(target=lie, args=arguments)
    process.start()
    try:
        wait_for(run.upper)
        yield
    finally:
        process.kill()
        process.join()


def play(run: Run) -> Outcome:
    """One station, one wire, one purpose. What can't be judged is an error."""
    purpose = read_purpose(SUITE / f"{run.purpose}.toml")
    try:
        result = result_of(run, purpose)
    except (LostFrames, NoVerdict, OSError, AssertionError) as why:
        result = Result(purpose.name, "error", repr(why), None, (), (), 0.0)
    return Outcome(run, result, f"{run.label}: {result.verdict}: {result.why}")


def result_of(run: Run, purpose: Purpose) -> Result:
    run.folder.mkdir()
    iut = run.folder / "iut.toml"
    iut.write_text(station_file(run))
    seconds = purpose.length() / 1000 + PATIENCE
    station = daemon_on(run) if run.station in DAEMONS else liar_on(run, seconds)
    with station, upper_on(run, purpose) as upper:
        partners, record = Partners(upper, *entities_of(run)), run.folder / "run.pcapng"
        setting = campaign.Setting(
            f"t{run.wire}", read_station_file(iut), record, run.program, partners
        )
        with open(os.devnull, "w") as nowhere:
            return campaign.run(setting, [purpose], nowhere)[0]


def output(*command: str) -> str:
    return subprocess.run(command, check=True, capture_output=True, text=True).stdout


def make_wires(count: int) -> None:
    """Interfaces s0, s1, .. of stations, each with a wire to t0, t1, .. of the tester."""
    lines = []
    for k in range(count):
        mac = bytes.fromhex(ADDRESS.format(k))[2:].hex(":")
        lines.append(f"link add s{k} address {mac} type veth peer name t{k}")
        lines += [f"link set {end}{k} up" for end in "st"]
    subprocess.run(["ip", "-batch", "-"], input="\n".join(lines), text=True, check=True)
    latest = time.monotonic() + PATIENCE
    while "state DOWN" in (shown := output("ip", "-o", "link")) or "LOWERLAYERDOWN" in shown:
        assert time.monotonic() < latest, shown
        time.sleep(0.1)
