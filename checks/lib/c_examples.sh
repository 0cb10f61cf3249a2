# shellcheck shell=sh disable=SC2154
# The examples of docs/C.md, geostation.h and geostation.hpp are compiled and run. A program that
# ignores a status is warned, and no C file of this repository is. A part of checks/c, which sets
# $top, $cc, $cxx, $prefix, $lib, $flags and $work, and has the function `fail`.
here="$work/examples"
mkdir "$here"

# `example FILE N`: the Nth example in the comments of a header, without what begins its lines.
example() {
    awk -v n="$2" '/@code/ { count++; inside = 1; next } /@endcode/ { inside = 0 }
        inside && count == n { sub(/^ *(\*|\/\/\/) ?/, ""); print }' "$prefix/include/$1"
}

# docs/C.md: its blocks are one file. Its clock is compared with date's.
awk '/^```/ { inside = !inside && /^```c$/; next } inside' "$top/docs/C.md" > "$here/page.c"
$cc -std=gnu11 -O1 $flags -I"$here" -o "$here/page" "$top/checks/lib/page_examples.c" "$lib" \
    || fail "building the examples of docs/C.md"
seconds=$(($(date -u +%s) - $(date -u -d 2004-01-01 +%s) + 37 - 32))
"$here/page" "$seconds" > "$here/page.lines" || fail "the examples of docs/C.md"

# geostation.h: the example of the whole library, the loop for beacons, and that over neighbours.
{
    cat << 'C'
#include "geostation.h"
#include <stdio.h>
static unsigned sent, used, shown;
static void send(const uint8_t *frame, size_t length) { sent += frame != NULL && length != 0; }
static void use(uint16_t port, const uint8_t *payload, size_t length) {
    used += port == 2002 && length == 2 && payload[0] == 'h';
}
static void show(const struct geostation_vector *v) { shown += v->latitude == 514776500; }
static uint64_t now_ms(void) { return 9000; }
static uint16_t random_jitter(void) { return 0; }
static int first(uint64_t now, const uint8_t *payload, size_t payload_length, const uint8_t *got,
                 size_t got_length) {
    {
C
    example geostation.h 1
    cat << 'C'
    }
    return 0;
}
static void second(geostation_handle *s, uint16_t jitter) {
    uint8_t frame[GEOSTATION_FRAME_MAX];
    size_t length;
    {
C
    example geostation.h 2
    cat << 'C'
    }
}
static void third(geostation_handle *s, uint64_t now) {
C
    example geostation.h 3
    cat << 'C'
}
int main(int argc, char **argv) {
    const struct geostation_area_request area = {
        .port = 2002, .lifetime = 0x1a, .max_hops = 5, .latitude = 514776500, .longitude = -10000,
        .a = 200,
    };
    uint8_t warning[GEOSTATION_FRAME_MAX], beacon[GEOSTATION_FRAME_MAX];
    uint8_t relay[GEOSTATION_FRAME_MAX];
    size_t warned, told;
    struct geostation_reception r;
    geostation_handle *a, *b;
    const uint8_t hi[] = { 'h', 'i' };
    if (geostation_new(&a, 0x1400020000000002, 514776500, -10000, 64, 8) != GEOSTATION_OK
        || geostation_new(&b, 0x1400020000000003, 514776500, -10000, 64, 8) != GEOSTATION_OK
        || geostation_tick(a, 10, 0, beacon, sizeof beacon, &told) != GEOSTATION_OK
        || geostation_send_gbc(a, 10, &area, hi, 2, warning, sizeof warning, &warned)
        || geostation_receive(b, 11, beacon, told, &r, relay, sizeof relay) != GEOSTATION_OK) {
        return 1;
    }
    if (argc > 1) {
        second(a, (uint16_t)argv[1][0]); /* it never ends */
    }
    const int status = first(12, hi, 2, warning, warned);
    third(b, 12);
    geostation_free(a);
    geostation_free(b);
    printf("%u sent, %u used, %u shown\n", sent, used, shown);
    return status;
}
C
} > "$here/header.c"
$cc -std=c11 -O1 $flags -o "$here/header" "$here/header.c" "$lib" \
    || fail "building the examples of geostation.h"
"$here/header" > "$here/header.lines" || fail "the examples of geostation.h"
grep -q -x '2 sent, 1 used, 1 shown' "$here/header.lines" \
    || fail "what the examples of geostation.h do: $(cat "$here/header.lines")"

# geostation.hpp: an SHB of three octets has 14 octets of Ethernet, 4, 8 and 28 of headers, and 4 of
# BTP-B.
{
    cat << 'C'
#include "geostation.hpp"
static std::size_t sent;
static void send(const std::uint8_t *, std::size_t size) { sent = size; }
int main() {
    const std::uint64_t now = 1000;
C
    example geostation.hpp 1
    cat << 'C'
    return sent == 14 + 4 + 8 + 28 + 4 + 3 ? 0 : 1;
}
C
} > "$here/class.cpp"
$cxx -std=c++17 -O1 $flags -o "$here/class" "$here/class.cpp" "$lib" \
    || fail "building the example of geostation.hpp"
"$here/class" || fail "the example of geostation.hpp"

# Each function that returns an int says that it must not be ignored. Both compilers warn.
$cc -E -P "$prefix/include/geostation.h" | tr '\n' ' ' | tr ';' '\n' \
    | grep -o 'int geostation_[a-z_]*(.*' > "$here/statuses"
[ "$(wc -l < "$here/statuses")" -ge 20 ] || fail "the functions that return a status"
! grep -v warn_unused_result "$here/statuses" || fail "functions whose status may be ignored"
cat > "$here/ignores.c" << 'C'
#include "geostation.h"
void open_it(geostation_handle *s);
void open_it(geostation_handle *s) { geostation_open_port(s, 0, 2002); }
C
for call in 's.open_port(0, 2002)' 's.receive(0, {}, f)' 'geostation::read_frame({})' \
    'geostation::Station::make(1, 0, 0, 64, 8)' 'geostation::plain_part({})'; do
    printf '#include "geostation.hpp"\nvoid call(geostation::Station &s, geostation::Frame &f);\n'
    printf 'void call(geostation::Station &s, geostation::Frame &f) {\n'
    printf '    (void)s, (void)f;\n    %s;\n}\n' "$call"
done | awk -v to="$here/ignores" '/^#include/ { n++ } { print > (to n ".cpp") }'
for compiler in gcc clang g++ clang++; do
    command -v $compiler > /dev/null || continue
    case $compiler in *++) language=c++17 kind=cpp ;; *) language=c11 kind=c ;; esac
    for source in "$here"/ignores*.$kind; do
        $compiler -std=$language $flags -c -o /dev/null "$source" 2> "$here/warning" \
            && fail "no warning of $compiler: $(tail -n 2 "$source" | head -n 1)"
        grep -q 'unused-result' "$here/warning" || { cat "$here/warning"; fail "$source"; }
    done
    # What is in this repository ignores none.
    [ $kind = c ] || continue
    for source in "$top"/c/*.c "$top"/c/bench/*.c "$top"/c/link/*.c \
        "$top/checks/lib/line_fuzz.c"; do
        $compiler -std=c11 -O2 $(grep -q _SOURCE "$source" || echo -D_POSIX_C_SOURCE=200809L) \
            -I"$prefix/include" -Wall -Wextra -Werror -c -o /dev/null "$source" \
            || fail "$compiler and $source"
    done
done

# The time stamps of the road-side unit of example.c.
: > "$here/stamps"
python3 "$top/checks/lib/time_stamps.py" 47013 > "$here/stamps" &
reader=$!
until grep -q ready "$here/stamps"; do sleep 0.05; kill -0 $reader || fail "time_stamps.py"; done
"$work/example" 47014 47013 1 2 > /dev/null || fail "example.c"
wait $reader || fail "time stamps of example.c: $(tail -n 1 "$here/stamps")"
