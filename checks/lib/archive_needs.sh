# shellcheck shell=sh disable=SC2154
# What the archive for C needs is what docs/C.md says, and no more: `check_needs NM ARCHIVE`. Names that
# begin with an underscore are of the compiler's own library, as the 128-bit division, or come with a
# stack protector or the like. What one compiler calls another writes out, so an archive may need less.
# A part of checks/c and checks/arm, which set $top and $work, and have the function `fail`.
check_needs() {
    needed=" free malloc memcpy memmove memset realloc snprintf "
    "$1" -u "$2" | awk 'NF == 2 && $1 == "U" { print $2 }' | sort -u > "$work/undefined"
    grep -q '^malloc$' "$work/undefined" || fail "the archive needs no malloc"
    for name in $(grep -v '^_' "$work/undefined"); do
        case $needed in
        *" $name "*) ;;
        *) fail "the archive needs $name" ;;
        esac
        grep -q "\`$name\`" "$top/docs/C.md" || fail "docs/C.md doesn't say that it needs $name"
    done
}
