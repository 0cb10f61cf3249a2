# shellcheck shell=sh disable=SC2034,SC2154
# What a check needs, for checks that are written in the shell. Each function ends the check with 77
# if it is missing, and prints what to install or build. `need.py` has the same for Python. `$top` is
# the top of the repository.

# `skip REASON`: ends the check, which can't run.
skip() {
    echo "$1"
    exit 77
}

# `need TOOL [PACKAGE]`: a command.
need() {
    command -v "$1" > /dev/null || skip "${1##*/} isn't installed: apt-get install ${2:-$1}"
}

need_kit() {
    command -v rt > /dev/null || skip "rt isn't installed: put the kit's bin on the path"
}

# The library for C, or the kit, which builds it.
need_library() {
    [ -n "${GEOSTATION_PREFIX:-}" ] || need_kit
}

# Sets `program`: the one that was built, or the one that GEOSTATION names.
find_program() {
    program=$(realpath -m "${GEOSTATION:-$top/crates/geostation/out/geostation}")
}

need_program() {
    find_program
    [ -x "$program" ] || skip "the program isn't built: './geostation --build' or 'rt ci' builds it"
}

# Sets `cc`: a compiler for C.
need_cc() {
    cc=$(command -v "${CC:-gcc}" || command -v clang) || need gcc
}

# Sets `cxx`: a compiler for C++.
need_cxx() {
    cxx=$(command -v "${CXX:-g++}" || command -v clang++) || need g++
}
