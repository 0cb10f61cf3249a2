"""The trial of the service, inside a container that systemd booted: see checks/service."""

import json
import os
import shutil
import signal
import socket
import subprocess
import time
from pathlib import Path

PATIENCE = 60
CONFIG = Path("/etc/geostation/its0.conf")
GOOD = "position = 51.47765,-0.001\nstationary\nport = 2001\nport = 2002\n"
REQUEST = {"do": "shb", "port": 2002, "info": 0, "tc": 2, "payload": "696365"}
UNIT = "geostation-link@its0"


def run(*command, good=True):
    done = subprocess.run(command, capture_output=True, text=True, timeout=PATIENCE)
    assert done.returncode == 0 or not good, (command, done, journal())
    return done


def journal(unit=UNIT):
    return subprocess.run(["journalctl", "--no-pager", "-o", "cat", "-u", unit],
                          capture_output=True, text=True).stdout


def show(key, unit=UNIT):
    return run("systemctl", "show", "--value", "-p", key, unit).stdout.strip()


def until(test, why):
    limit = time.monotonic() + PATIENCE
    while not (found := test()):
        assert time.monotonic() < limit, (why, show("ActiveState"), journal())
        time.sleep(0.05)
    return found


def ask(keys, name="its0"):
    """The answer to a line, by a client of its own."""
    with socket.socket(socket.AF_UNIX) as s:
        s.settimeout(PATIENCE)
        s.connect(f"/run/geostation/{name}")
        s.sendall(json.dumps(keys).encode() + b"\n")
        s.shutdown(socket.SHUT_WR)
        with s.makefile() as lines:
            return next(a for a in map(json.loads, lines) if "event" not in a)


def answers(name="its0"):
    try:
        return ask({"do": "counts"}, name)
    except OSError:
        return None


def sends(name="its0"):
    answer = answers(name) and ask(REQUEST, name)
    return answer and answer["result"] == "sent"


def add_interface(name="its0"):
    run("ip", "link", "add", name, "type", "veth", "peer", "name", f"{name}far")
    for end in (name, f"{name}far"):
        run("ip", "link", "set", end, "up")


def start():
    add_interface()
    for folder in ("/etc/tmpfiles.d", "/etc/sysctl.d"):  # here /etc is empty
        os.makedirs(folder, exist_ok=True)
    run("sh", "-e", "-c", "cd /box && . /box/page")
    CONFIG.write_text(GOOD)
    run("systemctl", "restart", UNIT)
    assert show("ActiveState") == "active" and show("Type") == "notify"
    until(sends, "it doesn't send")
    pid = show("MainPID")
    status = Path(f"/proc/{pid}/status").read_text()
    assert "CapEff:\t0000000000002000" in status, status
    assert os.readlink(f"/proc/{pid}/fd/2").startswith("socket:"), "not the journal"
    return "start"


def journal_has_messages():
    run("ip", "link", "set", "its0", "address", "02:00:00:00:77:77")
    until(lambda: "another MAC" in journal(), "the journal has no message")
    return "messages in the journal"


def crash():
    before = show("MainPID")
    os.kill(int(before), signal.SIGKILL)
    until(lambda: show("MainPID") not in (before, "0") and sends(), "it isn't started again")
    return "crash"


def hang():
    before, started = show("MainPID"), time.monotonic()
    os.kill(int(before), signal.SIGSTOP)
    until(lambda: show("MainPID") not in (before, "0") and sends(), "the watchdog doesn't bite")
    return f"hang, ended after {time.monotonic() - started:.0f} s"


def interface_back():
    before = show("MainPID")
    run("ip", "link", "del", "its0")
    until(lambda: ask(REQUEST).get("code") == "link down", "it sends on no interface")
    add_interface()
    until(sends, "it doesn't send on the interface that is back")
    assert show("MainPID") == before
    return "interface gone and back"


def late_interface():
    Path("/etc/geostation/late0.conf").write_text(GOOD)
    run("systemctl", "start", "geostation-link@late0")
    assert show("ActiveState", "geostation-link@late0") == "active"
    add_interface("late0")
    until(lambda: sends("late0"), "it doesn't send on the interface that is late")
    run("systemctl", "stop", "geostation-link@late0")
    assert not os.path.exists("/run/geostation/late0")
    return "late interface"


def bad_option():
    CONFIG.write_text(GOOD + "port = x\n")
    assert run("systemctl", "restart", UNIT, good=False).returncode != 0
    until(lambda: show("ActiveState") == "failed", "it isn't failed")
    time.sleep(3)
    assert show("ActiveState") == "failed" and show("NRestarts") == "0", show("NRestarts")
    assert f"{CONFIG}:5: port x: not a number from 0 to 65535" in journal(), journal()
    CONFIG.write_text(GOOD)
    run("systemctl", "reset-failed", UNIT)
    run("systemctl", "start", UNIT)
    until(sends, "it isn't started after the file was mended")
    return "wrong option"


def reload():
    CONFIG.write_text(GOOD + "port = 2003\n")
    before = show("MainPID")
    run("systemctl", "reload", UNIT)
    until(lambda: ask({"do": "open", "port": 2003}).get("code") == "S8 B2", "no port 2003")
    CONFIG.write_text("position = x\n")
    assert run("systemctl", "reload", UNIT, good=False).returncode != 0
    CONFIG.write_text(GOOD)
    assert show("MainPID") == before and sends()
    return "reload"


def upgrade():
    program, before = "/usr/local/bin/geostation-link", show("MainPID")
    shutil.copy2(program, f"{program}.new")
    os.rename(f"{program}.new", program)
    assert sends()
    run("systemctl", "restart", UNIT)
    assert show("MainPID") != before
    until(sends, "it doesn't send after the upgrade")
    run("systemctl", "stop", UNIT)
    assert show("Result") == "success", show("Result")
    return "upgrade"


def survive(minutes):
    """Faults in turn for so long, after each of which it sends again by itself."""
    run("systemctl", "start", UNIT)
    until(sends, "it doesn't start")
    faults = []
    end = time.monotonic() + minutes * 60
    while time.monotonic() < end:
        for fault in (crash, interface_back, hang):
            faults.append(fault())
            time.sleep(10)
    run("systemctl", "stop", UNIT)
    return f"{len(faults)} faults in {minutes:g} minutes"


def main():
    steps = (start, journal_has_messages, crash, hang, interface_back, late_interface, bad_option,
             reload, upgrade)
    done = [step() for step in steps]
    minutes = float(Path("/box/minutes").read_text())
    if minutes:
        done.append(survive(minutes))
    print(f"the service under systemd: {'; '.join(done)}")
    Path("/box/passed").touch()


main()
