# shellcheck shell=sh disable=SC2154
# The shared library and the archive that c/build makes: what they export, what they need, and that a
# program finds them by pkg-config's file. A part of checks/c, which sets $top, $cc, $prefix and
# $work, and has the function `fail`. Sets `symbols`, the sentence that says what was seen.

# The shared library's name ends in the header's GEOSTATION_ABI.
abi=$(sed -n 's/^#define GEOSTATION_ABI \([0-9]*\)$/\1/p' "$prefix/include/geostation.h")
soname="libgeostation.so.$abi"
shared="$prefix/lib/$soname"
[ -n "$abi" ] && [ -f "$shared" ] || fail "no $soname"

# What both show is what the header declares: lines that begin a declaration, by this check's own
# reading.
sed -n 's/^[a-z].*[ *]\(geostation_[a-z0-9_]*\)(.*/\1/p' "$prefix/include/geostation.h" | sort -u \
    > "$work/header"
count=$(wc -l < "$work/header")
[ "$count" -ge 17 ] || fail "only $count calls in the header"
nm -g --defined-only "$prefix/lib/libgeostation.a" | awk 'NF == 3 { print $3 }' | sort \
    > "$work/archive"
cmp "$work/header" "$work/archive" || fail "what the archive shows"
nm -D --defined-only "$shared" | awk '$2 == "T" { sub(/@.*/, "", $3); print $3 }' | sort \
    > "$work/shared"
cmp "$work/header" "$work/shared" || fail "what the shared library shows"
[ "$(nm -D --defined-only "$shared" | grep -c -v ' T ')" -eq 1 ] || fail "more than its version"

# Its name, and besides it only libc.
readelf -d "$shared" > "$work/dynamic"
grep -q "SONAME.*\[$soname\]" "$work/dynamic" || fail "the soname"
[ "$(grep NEEDED "$work/dynamic")" = "$(grep 'NEEDED.*\[libc\.so' "$work/dynamic")" ] \
    || fail "what it needs"
! grep -q TEXTREL "$work/dynamic" || fail "its text is relocated"

# A program may have names that the station's parts have inside: both ways of linking leave them
# alone.
cat > "$work/own.c" <<'C'
#include "geostation.h"
#include <stdlib.h>
void *rattle_alloc(void) { abort(); }
void *rattle_realloc(void) { abort(); }
void rattle_dealloc(void) { abort(); }
void geostation_dispose(void) { abort(); }
int main(void) {
    geostation_handle *s;
    if (geostation_new(&s, 0x1400020000000001, 449, 0, 64, 8) != GEOSTATION_OK) {
        return 1;
    }
    uint8_t frame[GEOSTATION_FRAME_MAX];
    size_t length;
    const int status = geostation_tick(s, 3000, 0, frame, sizeof frame, &length);
    geostation_free(s);
    return status == GEOSTATION_OK && length == 50 ? 0 : 1;
}
C
PKG_CONFIG_PATH="$prefix/lib/pkgconfig"
export PKG_CONFIG_PATH
flags="-std=c11 -Wall -Wextra -Werror $(pkg-config --cflags geostation)" || fail "pkg-config"
$cc $flags -o "$work/archived" "$work/own.c" "$prefix/lib/libgeostation.a" || fail "the archive"
"$work/archived" || fail "a program over the archive"
$cc $flags -o "$work/linked" "$work/own.c" $(pkg-config --libs geostation) || fail "the library"
LD_LIBRARY_PATH="$prefix/lib" "$work/linked" || fail "a program over the shared library"
readelf -d "$work/linked" | grep -q "NEEDED.*$soname" || fail "not the shared library"

check_needs nm "$prefix/lib/libgeostation.a"

# The compile lines of docs/C.md, with the program of that page. The static one needs a libc.a.
mkdir "$work/page"
awk '/^```/ { inside = !inside && /^```c$/; next } inside' "$top/docs/C.md" > "$work/page/page.c"
printf '#include "geostation.hpp"\nint main() { return 0; }\n' > "$work/page/page.cpp"
awk '/^```/ { inside = !inside && /^```sh$/; next } inside' "$top/docs/C.md" |
    sed "s#PREFIX#$prefix#g; s#^cc #$cc #" > "$work/page/lines"
grep -q 'page.cpp' "$work/page/lines" || fail "docs/C.md has no compile lines"
if ! "$cc" -print-file-name=libc.a | grep -q /; then sed -i '/-static/d' "$work/page/lines"; fi
command -v c++ > /dev/null || sed -i '/^c++/d' "$work/page/lines"
(cd "$work/page" && sh -e lines > printed) || fail "the compile lines of docs/C.md"
grep -q '^port 2002: hi$' "$work/page/printed" || fail "what the program of docs/C.md prints"

# Where the header has a version, pkg-config's file has the same.
version=$(sed -n 's/^#define GEOSTATION_VERSION "\(.*\)"$/\1/p' "$prefix/include/geostation.h")
told=$(pkg-config --modversion geostation)
[ "${version:-$told}" = "$told" ] || fail "version $told in geostation.pc, $version in the header"
symbols="$count calls and nothing else in both libraries, version $told"
