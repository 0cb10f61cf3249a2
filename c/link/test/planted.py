#!/usr/bin/env python3
"""Builds daemons with a mistake: in what they do with an entity's answers, by which a forger has to be
seen to gain, in what they do with held frames, and in what they forward. Each has a test that fails.
Those of the last kind are left out if the program `geostation`, which judges them, is not built.

    planted.py PREFIX    PREFIX has the library and its header; CC is the compiler
"""

import os
import shutil
import subprocess
import sys
import tempfile
from pathlib import Path

from common import GEOSTATION

TEST = Path(__file__).resolve().parent

FORGER, COPY, END = "test_forger", "test_copy_that_waits_in_the_socket", "test_end_with_held_frames"
JUDGED = "test_verdict_without_limits"
# A test, a name, a file, what stands there once, and what is planted.
MISTAKES = [
    (FORGER, "an answer kept for another message", "kept.c",
     "k->hash == hash && k->length == n\n            && memcmp(k->message, message, n) == 0",
     "(k->hash == hash || k->length == n) && message != NULL"),
    (FORGER, "a frame delivered that the entity refused", "requests.c",
     "    if (!good) {\n        a->kind = NOT_DONE;\n    }",
     "    if (!good && r->kind == VERIFY && part_length(r) > 1) {\n"
     "        a->kind = PLAIN_PART;\n"
     "        a->length = part_length(r) - 1;\n"
     "        memcpy(a->octets, part_of(r) + 1, a->length);\n"
     "    } else if (!good) {\n        a->kind = NOT_DONE;\n    }"),
    (FORGER, "another message forwarded", "station.c",
     "    forward(s, got.relay_length, since);\n    conflict_look(s, &got, frame + MAC_AT, a->",
     "    s->frame[got.relay_length > 0 ? got.relay_length - 1 : 0] ^= 1;\n"
     "    forward(s, got.relay_length, since);\n    conflict_look(s, &got, frame + MAC_AT, a->"),
    (COPY, "a release before the frames that came are read", "loop.c",
     "    if (on[LINK].revents != 0 || releases) {",
     "    if (releases) {\n        releases_turn(&p->station);\n    }\n    if (on[LINK].revents != 0) {"),
    (END, "held frames that are lost at the end", "loop.c",
     "    release_last(p);", "    (void)release_last;"),
    (JUDGED, "a payload that is changed", "station.c",
     "        forwards_put(s->forwards, s->frame, length, since);",
     "        s->frame[length - 1] ^= 1;\n"
     "        forwards_put(s->forwards, s->frame, length, since);"),
    (JUDGED, "a frame that is forwarded twice", "station.c",
     "        forwards_put(s->forwards, s->frame, length, since);",
     "        forwards_put(s->forwards, s->frame, length, since);\n"
     "        forwards_put(s->forwards, s->frame, length, since);"),
]


def plant(source, old, new):
    text = source.read_text()
    assert text.count(old) == 1, f"{source.name} has {text.count(old)} times: {old}"
    source.write_text(text.replace(old, new))


def build(prefix, room, name, old, new):
    """The daemon with this mistake."""
    shutil.copytree(TEST.parent, room / "link")
    plant(room / "link" / name, old, new)
    for folder in ("lib", "include"):
        (room / folder).symlink_to(Path(prefix).resolve() / folder)
    subprocess.run([room / "link/build", room], check=True, stdout=subprocess.DEVNULL)
    return room / "bin/geostation-link"


def is_seen(program, test):
    run = subprocess.run([sys.executable, TEST / "test_link.py", program, test],
                         capture_output=True, text=True, check=False)
    return run.returncode == 1 and run.stdout.endswith(f"failed: {test}\n"), run


def main(prefix):
    os.environ["PYTHONDONTWRITEBYTECODE"] = "1"
    has_judge = os.access(GEOSTATION, os.X_OK)
    mistakes = [mistake for mistake in MISTAKES if has_judge or mistake[0] != JUDGED]
    for test, mistake, name, old, new in mistakes:
        with tempfile.TemporaryDirectory() as room:
            seen, run = is_seen(build(prefix, Path(room), name, old, new), test)
        if not seen:
            print(f"nobody saw {mistake}:\n{run.stdout}{run.stderr}")
            return 1
    print(f"{len(mistakes)} daemons with a planted mistake are seen")
    return 0


if __name__ == "__main__":
    sys.exit(main(*sys.argv[1:]))
