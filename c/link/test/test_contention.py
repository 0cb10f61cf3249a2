"""Stations that contend: three on one wire, copies, stops, the end, signed packets, counts."""

import signal
import tempfile
import time

import frames
from air import Air
from common import (PROGRAM, connect_once_it_listens, gbc, has, has_no_clock, notes, run,
                    stopped_clock, write)
from entity import secured
from frames import GBC
from net import Net
from test_faults import read_metrics
from test_security import LONG, Bench

CONTENDS = ("--area-forwarding", "contention", "--forward-spread", "0")
# A frame waits for so long, wherever its sender is.
STEADY = ("--contention-max", "1000", "--contention-min", "1000", "--contention-copies", "1")
NORTH = 26950 / 1e7  # 300 m, in degrees


def copy_of(frame, mac, hops=9):
    """The frame as another station forwards it."""
    return frame[:6] + bytes([2, 0, 0, 0, 0, mac]) + frame[12:17] + bytes([hops]) + frame[18:]


def waiting(counts):
    c = counts["contention"]
    return c["held"] - c["released"] - c["cancelled"] - c["dropped"]


def next_gbc(end):
    while frames.kind_of(frame := end.recv(4096)) != "gbc":
        pass
    return frame


def sends_nothing(end):
    """Whether no GBC came up to now."""
    end.setblocking(False)
    try:
        next_gbc(end)
        return False
    except BlockingIOError:
        return True


def warn(net, options):
    """A warning among three stations on one wire, the others 300 m and 600 m away. Returns the
    times at which its frames were on the wire, by station, and the counts of the others."""
    air = Air(net.ends())
    times = []
    spread = air.spread

    def timed(source, frame):
        if frames.kind_of(frame) == "gbc":
            times.append((source, time.monotonic()))
        spread(source, frame)

    air.spread = timed
    stations = [net.station(k, "--port", 2002, *options, place=(
        "--position", f"{51.47765 + k * NORTH:.7f},-0.001")) for k in range(3)]
    has({"result": "sent"}, stations[0].ask(**{**GBC, "a": 2000}, payload="696365"))
    air.run(0.5)
    for d in stations[1:]:
        assert [e["payload"] for e in d.seen() if e["event"] == "delivered"] == ["696365"]
    return times, [d.counts() for d in stations[1:]]


def test_two_frames_in_place_of_three():
    """The farther one forwards first, after 41 ms, and its frame cancels that of the other."""
    with Net(PROGRAM, 3) as net:
        times, counts = warn(net, (*CONTENDS, "--contention-copies", 1))
        assert [source for source, _ in times] == [0, 2], times
        empty = dict.fromkeys(("held", "released", "cancelled", "dropped", "full"), 0)
        assert counts[0]["contention"] == {**empty, "held": 1, "cancelled": 1}, counts
        assert counts[1]["contention"] == {**empty, "held": 1, "released": 1}, counts
        assert [n["relayed"] for n in counts] == [0, 1], counts
        waited = 1000 * (times[1][1] - times[0][1])
        assert waited > 39, waited
    with Net(PROGRAM, 3) as net:
        times, counts = warn(net, ())
        assert sorted(source for source, _ in times) == [0, 1, 2], times
        assert all("contention" not in n for n in counts), counts
        notes.append(f"a warning among three made 2 frames in place of 3, the second after "
                     f"{waited:.0f} ms, for 41 ms by the rule")


def test_stop_sends_nothing_stale():
    """A program that is stopped for 3 s drops what it holds."""
    with Net(PROGRAM, 1) as net:
        d, (end,) = net.station(0, *CONTENDS, *STEADY), net.ends()
        end.send(gbc(1))
        d.until(lambda n: n["contention"]["held"] == 1)
        d.process.send_signal(signal.SIGSTOP)
        time.sleep(3)
        d.process.send_signal(signal.SIGCONT)
        counts = d.until(lambda n: waiting(n) == 0)
        has({"dropped": 1, "released": 0, "cancelled": 0}, counts["contention"])
        assert counts["relayed"] == 0 and sends_nothing(end), counts


def test_release_is_in_time():
    """A frame goes out at its time, and not a millisecond earlier; a late one doesn't."""
    if has_no_clock():
        return
    with tempfile.TemporaryDirectory() as room, Net(PROGRAM, 1) as net:
        clock = stopped_clock(room)
        d = net.station(0, *CONTENDS, *STEADY, environment=clock.environment)
        (end,) = net.ends()

        def hold(k):
            clock.catch_up()
            frame = gbc(k)
            end.send(frame)
            d.until(lambda n: waiting(n) == 1)
            return frame

        frame = hold(1)
        clock.wait(999)
        d.ask(do="counts")
        assert waiting(d.counts()) == 1 and sends_nothing(end)
        clock.wait(1)
        d.until(lambda n: n["contention"]["released"] == 1)
        end.settimeout(10)
        sent = next_gbc(end)
        assert sent == frame[:6] + sent[6:12] + frame[12:17] + b"\x09" + frame[18:], sent
        hold(2)
        clock.wait(2000)
        assert d.until(lambda n: waiting(n) == 0)["contention"]["released"] == 2
        hold(3)
        clock.wait(2001)
        has({"released": 2, "dropped": 1}, d.until(lambda n: waiting(n) == 0)["contention"])


def test_copy_that_waits_in_the_socket():
    """A frame that came before the release is read before it, and cancels it."""
    if has_no_clock():
        return
    with tempfile.TemporaryDirectory() as room, Net(PROGRAM, 1) as net:
        clock = stopped_clock(room)
        d = net.station(0, *CONTENDS, *STEADY, environment=clock.environment)
        (end,) = net.ends()
        clock.catch_up()
        frame = gbc(1)
        end.send(frame)
        d.until(lambda n: waiting(n) == 1)
        d.process.send_signal(signal.SIGSTOP)
        end.send(copy_of(frame, 3))
        clock.wait(1500)
        d.process.send_signal(signal.SIGCONT)
        counts = d.until(lambda n: waiting(n) == 0)
        has({"cancelled": 1, "released": 0, "dropped": 0}, counts["contention"])
        assert sends_nothing(end)


def test_which_copies_count():
    """Two other stations have to have sent the very frame that is held, by default."""
    if has_no_clock():
        return
    with tempfile.TemporaryDirectory() as room, Net(PROGRAM, 1) as net:
        clock = stopped_clock(room)
        d = net.station(0, *CONTENDS, *STEADY[:4], environment=clock.environment)
        (end,) = net.ends()
        clock.catch_up()
        frame = gbc(1)
        other = copy_of(frame, 3)
        own = bytes.fromhex("020000000100")
        for sent in (frame, frame, other, other, copy_of(frame, 4, 8), copy_of(frame, 5, 10),
                     other[:6] + own + other[12:], own + other[6:], other[:-1] + b"y"):
            end.send(sent)
        counts = d.until(lambda n: n["received"] == 9)
        assert waiting(counts) == 1 and counts["ignored"]["duplicate"] == 8, counts
        end.send(copy_of(frame, 4))
        has({"held": 1, "cancelled": 1}, d.until(lambda n: waiting(n) == 0)["contention"])


def test_end_with_held_frames():
    """What is due within half a second is sent before the end, or cancelled; the rest is not."""
    for most, copies, released in ((400, 0, 1), (400, 1, 0), (1000, 0, 0)):
        with Net(PROGRAM, 1) as net:
            wait = ("--contention-max", most, "--contention-min", most, "--contention-copies", 1)
            d, (end,) = net.station(0, *CONTENDS, *wait), net.ends()
            frame = gbc(1)
            end.send(frame)
            d.until(lambda n: n["contention"]["held"] == 1)
            d.process.send_signal(signal.SIGTERM)
            began = time.monotonic()
            for _ in range(copies):
                end.send(copy_of(frame, 3))
            status, _, said = d.end()
            assert status == 0 and time.monotonic() - began < 10, (status, said)
            assert f'"released":{released},"cancelled":{copies},'.encode() in said, said
            assert sends_nothing(end) != bool(released)


def test_restart_and_requests():
    """A frame of a `receive` request is held too. A restart drops what is held. A client can ask
    when the first frame is due, and can't release it."""
    with Net(PROGRAM, 1) as net:
        d, (end,) = net.station(0, *CONTENDS, *STEADY, "--port", 2002), net.ends()
        assert "moment" not in d.ask(do="next_due")
        answer = d.ask(do="receive", frame=gbc(1).hex())
        assert answer["result"] == "accepted" and "frame" not in answer, answer
        assert answer["due"] == answer["at"] + 1000, answer
        has({"result": "next_due", "moment": answer["due"]}, d.ask(do="next_due"))
        has({"error": "do"}, d.ask(do="release"))
        has({"result": "restarted"}, d.ask(do="restart", number=5))
        counts = d.ask(do="counts")
        assert list(counts)[-2:] == ["contention", "link"], counts
        has({"held": 1, "dropped": 1}, counts["contention"])
        has({"result": "accepted"}, d.ask(do="receive", frame=gbc(2).hex()))
        answer = d.ask(do="restart", number=5, address="3c000200000000aa")
        has({"result": "restarted"}, answer)
        has({"held": 2, "dropped": 2, "released": 0}, d.ask(do="counts")["contention"])
        assert sends_nothing(end)


def test_no_release_without_a_position():
    """While the position is not usable, a released frame is dropped and counted."""
    if has_no_clock():
        return
    with tempfile.TemporaryDirectory() as room, Net(PROGRAM, 1) as net:
        clock = stopped_clock(room)
        d = net.station(0, *CONTENDS, *STEADY, "--gps-timeout", 1, environment=clock.environment,
                        place=("--gpsd", "127.0.0.1:9"))
        (end,) = net.ends()
        has({"result": "moved"}, d.ask(do="move", lat=frames.LAT, lon=frames.LON, pai=True, speed=0,
                                       heading=0))
        clock.wait(500)
        clock.catch_up()
        end.send(gbc(1))
        d.until(lambda n: waiting(n) == 1)
        clock.wait(500)
        assert d.event("fix")["state"] == "lost" or d.event("fix")["state"] == "lost"
        clock.wait(500)
        counts = d.until(lambda n: n["contention"]["released"] == 1)
        assert counts["link"]["dropped"] == 1 and sends_nothing(end), counts


def test_signed_frames_are_held():
    """They wait as they came, and only a copy with the same message cancels."""
    if has_no_clock():
        return
    with Bench(*LONG, *CONTENDS, *STEADY, stopped=True) as b:
        frame = secured(gbc(1, b"ice"))
        b.send(frame)
        b.entity.verify(b.next_of("verify"))
        b.daemon.until(lambda n: waiting(n) == 1)
        b.wait(1000)
        sent = b.received()
        assert sent == frame[:6] + sent[6:12] + frame[12:17] + b"\x09" + frame[18:], sent
        frame = secured(gbc(2, b"ice"))
        b.send(frame)
        b.entity.verify(b.next_of("verify"))
        b.daemon.until(lambda n: waiting(n) == 1)
        b.send(copy_of(frame, 3))  # its message has an answer already
        counts = b.daemon.until(lambda n: waiting(n) == 0)
        has({"released": 1, "cancelled": 1}, counts["contention"])
        assert b.entity.is_quiet(0.1) and counts["link"]["verified"] == 3, counts


def test_metrics_of_contention():
    with Net(PROGRAM, 1) as net, tempfile.TemporaryDirectory() as room:
        d = net.station(0, *CONTENDS, *STEADY, "--metrics", f"{room}/m")
        (end,) = net.ends()
        frame = gbc(1)
        for sent in (frame, copy_of(frame, 3), gbc(2)):
            end.send(sent)
        d.until(lambda n: n["contention"]["held"] == 2)
        _, lines = connect_once_it_listens(f"{room}/m")
        found = read_metrics(lines.read().decode())
        for outcome, count in (("held", 2), ("cancelled", 1), ("dropped", 0), ("full", 0)):
            has({f'geostation_contention_total{{outcome="{outcome}"}}': count}, found)
        left = 2 - 1 - found['geostation_contention_total{outcome="released"}']
        has({"geostation_contention_waiting": left}, found)


def test_options_of_contention():
    """Each wrong value is named, and a least wait over the greatest, wherever the two are given."""
    place = ("--interface", "lo", "--position", "0,0")
    for option, value in (("--area-forwarding", "both"), ("--contention-max", "0"),
                          ("--contention-max", "1001"), ("--contention-min", "1001"),
                          ("--contention-range", "0"), ("--contention-range", "65536"),
                          ("--contention-copies", "0"), ("--contention-copies", "4")):
        p = run(*place, option, value)
        assert p.returncode == 2 and f"{option} {value}" in p.stderr, (option, value, p)
    over = "--contention-min 200: over --contention-max\n"
    with tempfile.TemporaryDirectory() as room:
        config = write(f"{room}/conf", "contention-min = 200\narea-forwarding = contention\n")
        for words in (("--contention-min", "200"), ("--config", config),
                      ("--config", config, "--contention-max", "199")):
            p = run(*place, *words, "--check-config")
            assert p.returncode == 2 and p.stderr.endswith(over), (words, p)
        p = run(*place, "--config", config, "--contention-max", "200", "--check-config")
        assert p.returncode == 0 and p.stderr == "", p
