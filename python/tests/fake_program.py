"""Stands for the program `geostation` in tests of studies: it is quick, and fails when told to.

Of ten stations inside, one in ten percent of loss is missed, and as many as the remainder of the
seed by three. With an `until` of 7 odd seeds have a warning: a full location table. A loss of 97
sends nothing, 98 ends with status 3, 99 by a signal, and 96 with a bad row of moves. Rows that come
through a pipe are counted as frames. Station 0 of two is busy 100 times the seed. With contention
stations hold as many frames as they are reached, and a copy cancels all but one of them.
"""

import json
import os
import signal
import sys

SENDS = "send,moment,station,kind,port,inside,reached,delivered,frames,heard,lost,duplicates,full,"
SENDS += "hops,first,p50,p95,last"


def main(words):
    if words == ["--version"]:
        print("geostation 0.0.0")
        return 0
    if log := os.environ.get("FAKE_LOG"):
        with open(log, "a") as file:
            file.write(" ".join(words) + "\n")
    sets = dict(word[6:].split("=") for word in words if word.startswith("--set="))
    loss, seed = int(sets.get("loss", 0)), int(sets["seed"])
    piped = "--moves" in words and words[words.index("--moves") + 1] == "-"
    rows = [line for line in sys.stdin.read().splitlines()[1:] if line] if piped else []
    if loss == 99:
        os.kill(os.getpid(), signal.SIGKILL)
    if loss == 98:
        print("geostation: cannot write sends.csv (no space left on device)", file=sys.stderr)
        return 3
    reached = max(0, 10 - loss // 10 - seed % 3)
    times = "2,1,1,2,2" if reached else "0,0,0,0,0"
    contends = sets.get("contention") == "true"
    held = {"held": reached, "cancelled": max(0, reached - 1)} if contends else {}
    sent = f"5,20000,5,gbc,2002,10,{reached},{reached},{len(rows)},8,0,0,0,{times}"
    sent = ",".join([sent, *map(str, held.values())])
    write(words, "--sends", [",".join([SENDS, *held]), *([] if loss == 97 else [sent])])
    head = "second,stations,frames,octets,busy_p50,busy_p95,busy_most"
    write(words, "--load", [head, f"0,10,1,76,1,2,{seed}"])
    head = ",".join(["station,id,sent,heard,lost,busy,busiest", *held])
    more = ",5,4" if contends else ""
    stations = [f"0,a,4,10,{loss},{100 * seed},7{more}", f"1,b,2,20,0,0,0{more}"]
    write(words, "--stations", [head, *stations])
    if sets.get("until") == "7" and seed % 2:
        full = "7 receptions met a full location table: raise capacity (least 1)"
        print(f"geostation: {full}", file=sys.stderr)
    if loss == 96:
        print("geostation: moves: line 7: lat", file=sys.stderr)
        return 1
    print(json.dumps({"total": {"events": 1, **held}}))
    if reached < 3 and loss != 97:
        print(f"geostation: expect 0: reached {reached} of 10", file=sys.stderr)
        return 1
    return 0


def write(words, option, lines):
    with open(words[words.index(option) + 1], "w") as file:
        file.write("".join(line + "\n" for line in lines))


if __name__ == "__main__":
    sys.exit(main(sys.argv[1:]))
