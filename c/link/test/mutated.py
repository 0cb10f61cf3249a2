"""Lines, frames and answers of a security entity that no one should send: mutated.py PROGRAM, built
with the sanitizers.

Each line that isn't blank has one answer, and the program ends with status 0.
"""

import itertools
import json
import random
import socket
import subprocess
import sys
import tempfile
import threading
import time

import frames
from entity import Entity, secured

draws = random.Random(5)
RULES = [
    {**frames.GBC, "payload": "00"}, {"do": "counts"}, {"do": "open", "port": 5, "id": 1},
    {"do": "move", "lat": 1, "lon": 2, "pai": False, "speed": -5, "heading": 3},
    {"do": "receive", "frame": frames.beacon(0x1400020000000009, 5).hex()},
    {"do": "tick", "jitter": 1, "id": "a\"result\":\"sent"}, {"do": "restart", "number": 5},
    {"do": "next_beacon", "jitter": 1}, {"do": "neighbours"}, {"do": "read_frame", "frame": "00"},
    {"do": "subscribe", "port": 5, "id": 3}, {"do": "unsubscribe", "port": 5},
    {"do": "close", "port": 5}, {"do": "restart", "number": 5, "address": "3c00020000000001"},
]
SPECIAL = [
    b"", b" \t\r", b"{}", b"[]", b"x" * 70000, b"{" * 3000, b'{"do":1}', b"\xff\xfe", b"\0",
    b'{"do":"receive","frame":"' + b"00" * 30000 + b'"}', b"[" * 126 + b"]" * 126,
    b'{"do":"shb","port":1,"info":0,"tc":0,"payload":"' + b"ab" * 1394 + b'"}',
    b'{"do":"shb","port":1,"info":0,"tc":0,"payload":"' + b"ab" * 1395 + b'"}',
]


def mutated_line():
    line = bytearray(json.dumps(draws.choice(RULES), separators=(",", ":")).encode())
    for _ in range(draws.randrange(3)):
        line[draws.randrange(len(line))] = draws.choice(b'{}[]":,019-a\\ \xff')
    return bytes(line)


def mutated_frame():
    made = draws.choice([frames.beacon(0x1400020000000009, 5),
                         frames.gbc(0x1400020000000009, 5, draws.randrange(99), b"hi")])
    frame = bytearray(made)
    for _ in range(draws.randrange(4)):
        frame[draws.randrange(len(frame))] = draws.randrange(256)
    return bytes(frame[:draws.randrange(len(frame) + 1)]) if draws.random() < 0.2 else bytes(frame)


def run(place, change=bytes, enough=lambda: True):
    """Runs it with these options; `change` is made to frames of which enough is there. Frames are
    sent until `enough`."""
    command = [sys.argv[1], "--udp", "127.0.0.1:47701", "--to", "127.0.0.1:47702", "--address",
               "3c00020000000001", "--port", "2002", *place]
    pipe = subprocess.PIPE
    p = subprocess.Popen(command, stdin=pipe, stdout=pipe, stderr=pipe)
    p.stdout.readline()
    link = socket.socket(socket.AF_INET, socket.SOCK_DGRAM)
    limit = time.monotonic() + 300
    for k in itertools.count():
        if k >= 5000 and enough():
            break
        assert time.monotonic() < limit, "never enough"
        frame = mutated_frame()
        if change is secured and k % 8 == 0:
            time.sleep(0.002)  # so the entity is asked about most of them
        link.sendto(change(frame) if len(frame) > 18 else frame, ("127.0.0.1", 47701))
    link.sendto(bytes(2048), ("127.0.0.1", 47701))
    lines = SPECIAL + [mutated_line() for _ in range(5000)]
    out, err = p.communicate(b"\n".join(lines), timeout=600)
    assert p.returncode == 0, (p.returncode, err[-3000:])
    wanted = sum(line.strip(b" \t\r") != b"" for line in lines)
    answers = [a for a in map(json.loads, out.splitlines()) if "event" not in a]
    assert len(answers) == wanted, (len(answers), wanted)
    frames_read = json.loads(err.splitlines()[-1])["link"]["frames"]
    return wanted, frames_read


def mutated_answer(request):
    """A good answer, or one with other octets, other keys, another id, or another length."""
    key = "message" if request["do"] == "sign" else "plain"
    octets = request.get("plain") or request["message"][2:]
    answer = {"id": request["id"], key: ("00" if key == "message" else "") + octets}
    if draws.random() < 0.2:
        other = draws.choice(["id", "plain", "message", "error", "psid", "generated"])
        answer[other] = draws.choice([1, 2**64, -1, 0.5, "00", "0", "ab" * 2400, None, [], {}])
    text = bytearray(json.dumps(answer).encode())
    if draws.random() < 0.3:
        for _ in range(draws.randrange(4)):
            text[draws.randrange(len(text))] = draws.choice(b'{}[]":,019-a\\ \xff')
        text = text[:draws.randrange(len(text) + 1)]
    return bytes(text)


def answer_all(entity, count):
    """The entity: it hangs up now and then, and lets some requests wait for ever."""
    try:
        while True:
            entity.accept()
            for _ in range(draws.randrange(500, 4000)):
                datagram = entity.one.recv(65536)
                if not datagram:
                    break
                count[0] += 1
                for _ in range(draws.choice([0, 1, 1, 1, 1, 1, 1, 2])):
                    entity.send(mutated_answer(json.loads(datagram)))
            entity.one.close()
    except OSError:
        pass


def run_signed():
    """Secured frames and requests, with an entity that answers anything."""
    with tempfile.TemporaryDirectory() as room:
        entity, count = Entity(f"{room}/security"), [0]
        threading.Thread(target=answer_all, args=(entity, count), daemon=True).start()
        found = run(("--position", "51.47765,-0.001", "--security", entity.path,
                     "--security-timeout", "20", "--security-workers", "4"), secured,
                    lambda: count[0] > 500)
        entity.end()
        return (*found, count[0])


def run_limited():
    """The same lines by a client with limited rights, and an audit of what it sends."""
    with tempfile.TemporaryDirectory() as room, socket.socket(socket.AF_UNIX) as s:
        command = [sys.argv[1], "--udp", "127.0.0.1:47701", "--to", "127.0.0.1:47702", "--address",
                   "3c00020000000001", "--position", "51.47765,-0.001", "--audit", f"{room}/audit",
                   "--listen-limited", f"{room}/s send listen port=5 port=1 port=2002"]
        pipe = subprocess.PIPE
        p = subprocess.Popen(command, stdin=pipe, stdout=pipe, stderr=pipe)
        p.stdout.readline()
        s.connect(f"{room}/s")
        lines = SPECIAL + [mutated_line() for _ in range(5000)]
        threading.Thread(target=lambda: (s.sendall(b"\n".join(lines)), s.shutdown(1))).start()
        with s.makefile("rb") as got:
            answers = [a for a in map(json.loads, got) if "event" not in a]
        p.terminate()
        _, err = p.communicate(timeout=600)
        assert p.returncode == 0, (p.returncode, err[-3000:])
        wanted = sum(line.strip(b" \t\r") != b"" for line in lines)
        assert len(answers) == wanted, (len(answers), wanted)
        assert sum(a.get("code") == "not allowed" for a in answers) > 500
        with open(f"{room}/audit", encoding="utf-8") as audit:
            sent = sum(a.get("result") == "sent" for a in answers)
            assert len([json.loads(line) for line in audit]) == sent > 50, sent
        return wanted, 0


total = [run(("--position", "51.47765,-0.001")), run(("--gpsd", "127.0.0.1:1")),
         run_limited()]
*signed, asked = run_signed()
lines, read = (sum(column) for column in zip(*total, signed))
assert asked > 500, asked
print(f"{lines} lines, {read} frames and {asked} questions to an entity under the sanitizers")
