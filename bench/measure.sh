# `measure OUT COMMAND..`: runs a command whose output goes into a file, and prints the processor time
# and the memory that it took. `room` is a folder of the caller's.
measure() {
    out="$1"
    shift
    command time -f '%U %S %M' -o "$room/time" "$@" >"$out"
    read -r user system memory <"$room/time"
    echo "$user s user, $system s system, $((memory / 1024)) MB"
}

# `turn NAME COMMAND..` measures a command and keeps its user seconds, its megabytes and all its
# seconds.
turn() {
    name="$1"
    shift
    measure "$room/$name" "$@" 2>"$room/$name.told" >"$room/$name.line"
    tr -d 's,' <"$room/$name.line" | awk '{ print $1, $5, $1 + $3 }' >>"$room/$name.all"
}

# `median NAME COLUMN` of five turns.
median() {
    cut -d ' ' -f "$2" "$room/$1.all" | sort -n | sed -n 3p
}
