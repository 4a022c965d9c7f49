#!/bin/sh
# Shows that C sees what the contracts speak of: which parameter is which, where each field of a report and of a sample
# stands, which number each name of the header is. The library is built, a C program makes calls through
# include/tigwedan.h, and what comes out is compared with .ci/calls.txt; then the example plays a run and its recording is
# compared. It works in a temporary folder: c.sh
#
# The library is built over the libraries that `rt ci` proved just before and left in crates/*/out, so that capi alone is
# proved here once more. Where they are not there, or are those of a session's own checks, `rt lib` builds all.
set -eu
cd "$(dirname "$0")/.."
kit=$(dirname "$(rt doc)")
room=$(mktemp -d)
trap 'rm -rf "$room"' EXIT
trap 'exit 1' HUP INT TERM

fail() { # WHAT FILE
    echo "c: $1" >&2
    tail -n 20 "$2" | cut -c1-500 >&2
    exit 1
}

# the libraries that capi names in crates.txt
libraries=$(sed -n 's/^capi staticlib:\([^#]*\).*/\1/p' crates.txt)

left_by_gate() {
    for library in $libraries; do
        [ -d "crates/$library/out/rlib/$library.rlib" ] && [ ! -e "crates/$library/out/rlib/stamp" ] || return 1
    done
}

build_over_gate() (
    set -- --crate-name capi --crate-type staticlib src/lib.rt --extern "std=$kit/rlibs/std.rlib" -L "dependency=$kit/rlibs"
    for library in $libraries; do
        out=$PWD/crates/$library/out/rlib
        set -- "$@" --extern "$library=$out/$library.rlib" -L "dependency=$out"
    done
    set -- "$@" --antt-project "$kit/rattle/logic/antt-project.json" --logic-built "$kit/logic_built" --links capi=
    cd crates/capi
    "$kit/bin/rattle" build "$@" --jobs 4 --toolchain "$kit/toolchain" --backend llvm -o "$room/libcapi.a"
)

if left_by_gate && build_over_gate >"$room/log" 2>&1; then
    echo 'c: the library is built over what the gate proved'
else
    (cd crates/capi && rt lib) >"$room/log" 2>&1 || fail 'the library is not built' "$room/log"
    cp crates/capi/out/libcapi.a "$room/"
    echo 'c: the library is built'
fi

compile() { # PROGRAM TEXT
    "${CC:-cc}" -std=c99 -Wall -Wextra -Wpedantic -Werror -O2 -Iinclude -o "$room/$1" "$2" "$room/libcapi.a" \
        "$kit/c/liblibc_c.a" >"$room/log" 2>&1 || fail "$2 does not compile" "$room/log"
}

compile calls .ci/calls.c
# a gibibyte is far more than any call needs, but for the one for which there is to be too little
(ulimit -v 1048576 && cd crates && exec "$room/calls" <../.ci/calls.txt) >"$room/said" 2>"$room/log" ||
    fail 'the calls were not all made' "$room/log"
if ! diff .ci/calls.txt "$room/said" >"$room/differences"; then
    head -n 20 "$room/differences" >"$room/log"
    fail 'a call gives something else than .ci/calls.txt says' "$room/log"
fi
echo "c: $(grep -c '^>' .ci/calls.txt) calls as they must be"

compile play examples/play.c
run=crates/compared/data/13_everything
printf '%s\n' "$run.signal.wav: rate 2000000, 1200 samples" 'played 1201 samples, finished' >"$room/wanted"
{
    "$room/play" $run.signal.wav $run.gain.wav $run.settings.txt "$room/played.wav" >"$room/said" &&
        diff "$room/wanted" "$room/said" && cmp "$room/played.wav" $run.expected.wav
} >"$room/log" 2>&1 || fail 'examples/play.c plays something else than it must' "$room/log"
echo 'c: the example plays what it must'
