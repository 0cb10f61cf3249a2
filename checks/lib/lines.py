"""Compares what the program prints in words with what it prints in JSON, over all samples.

Each object is written again in words, by the rules of docs/formats/json.md, and has to be the line.
"""

import json
import subprocess

from program import PROGRAM, TOP

FRAME = "moment from to kind address tst lat lon pai speed heading lt tc mobile hops max_hops"
TARGET = "number shape alat alon a b angle"
MESSAGE = "port info payload"
EVENT = {"deliver": "frame", "move": "lat lon"}
CAPTURE = ("show", "check")
COMMANDS = {".cap": CAPTURE, ".pcap": CAPTURE, ".pcapng": CAPTURE, ".toml": ("sim",)}
RESULT = {"ignored": "why", "refused": "code reason", "sent": "sent"}


def message(told):
    """The words of a payload, where there is one."""
    if "payload" not in told:
        return ""
    return f" port {told['port']} info {told['info']} {told['payload'] or '-'}"


def frame(told):
    """The words of a frame, and the keys that it has to have."""
    words = "{moment} {from} {to} {kind} {address}".format(**told)
    for key in ("tst", "lat", "lon", "pai", "speed", "heading"):
        words += f" {key} {int(told[key])}"
    words += f" lt {told['lt']:02x} tc {told['tc']:02x} mobile {int(told['mobile'])}"
    words += " hops {hops}/{max_hops}".format(**told)
    keys = FRAME
    if told["kind"] in ("gbc", "gac"):
        keys += " " + TARGET
        words += " number {number} {shape} {alat} {alon} {a} {b} {angle}".format(**told)
    if told["kind"] != "beacon":
        keys += " " + MESSAGE
    return words + message(told), keys


def explained(words, told):
    """The words of a refusal, without its sentence and with it."""
    return words, f"{words} ({told['reason']})"


def record(told):
    """What `show` and `check` tell: the words, the words explained, and the keys."""
    if "capture" in told:
        words = f"capture: {told['capture']} at record {told['record']}"
        return words, None, "capture record"
    if "records" in told:
        words = f"{told['records']} records, {told['refused']} refused"
        return words, words, "records refused"
    if "record" in told:
        words = f"record {told['record']}: {told['refused']}"
        return *explained(words, told), "record refused reason"
    if "refused" in told:
        words = f"{told['moment']} refused {told['refused']}"
        return *explained(words, told), "moment refused reason"
    words, keys = frame(told)
    return words, words, keys


def event(told, air):
    """What `sim` tells of an event: the words, the words explained, and the keys."""
    keys = ["event moment station do", EVENT.get(told["do"], ""), "result"]
    words = "{event} {moment} {station} ".format(**told)
    if air:
        words += told["do"] + (f" {told['frame']} " if told["do"] == "deliver" else " ")
    words += told["result"]
    keys.append(RESULT.get(told["result"], ""))
    if told["result"] == "accepted":
        keys += [MESSAGE if "payload" in told else "", "sent" if "sent" in told else ""]
        words += message(told) + (f" sent {told['sent']}" if "sent" in told else "")
    if "sent" in told:
        keys.append("octets")
    keys = " ".join(" ".join(keys).split())
    if told["result"] == "refused":
        return *explained(f"{words} {told['code']}", told), keys
    last = {"ignored": "why", "sent": "sent"}.get(told["result"])
    words += f" {told[last]}" if last else ""
    return words, words, keys


def lines(*arguments):
    """The lines that the program prints, and its status."""
    done = subprocess.run([PROGRAM, *arguments], stdout=subprocess.PIPE, text=True)
    return done.stdout.splitlines(), done.returncode


def compare(command, sample):
    """How many lines of a command over a sample say the same in words and in JSON."""
    words, status = lines(command, sample)
    reasons, _ = lines(command, "--explain", sample)
    objects, same = lines(command, "--json", sample)
    assert lines(command, "--json", "--explain", sample) == (objects, status)
    assert same == status, f"{command} {sample}: status {same} in JSON, {status} in words"
    told = [json.loads(line) for line in objects]
    for line, value in zip(objects, told):
        assert line == json.dumps(value, separators=(",", ":")), f"{line}: not compact"
    air = command == "sim" and "[air]" in sample.read_text()
    if command == "sim":
        assert list(told[0]) == (["stations", "air", "version"] if air else ["stations"]), objects[0]
        told = told[1:]
    assert len(words) == len(reasons) == len(told), f"{command} {sample}: the lines differ"
    for line, reason, value in zip(words, reasons, told):
        want, sentence, keys = event(value, air) if command == "sim" else record(value)
        assert line == want, f"{command} {sample}: '{line}', but in JSON {value}"
        assert reason == sentence or sentence is None, f"{command} {sample}: '{reason}'"
        assert " ".join(value) == keys, f"{command} {sample}: the keys of {value}"
    return len(told)


def compare_samples():
    """Compares the lines of all samples. Returns how many lines they have. Raises AssertionError at
    the first line that says something else."""
    count = 0
    for sample in sorted((TOP / "cases/data").iterdir()):
        commands = COMMANDS.get(sample.suffix, ())
        count += sum(compare(command, sample) for command in commands)
    assert count > 0, "no sample was compared"
    return count
