#!/bin/sh
# Shows on a small crate that the check refuses two misuses of a recording: adding to one that is finished, which is a
# move error and so cannot be a must-fail edit, and letting a started one go. The same text without them is proved.
#
# The crate is checked over the libraries that `rt ci` proved just before and left in crates/*/out. Where they are not
# there, or are those of a session's own checks, which may be older than the sources, `rt lib` builds them.
set -eu
cd "$(dirname "$0")/.."
kit=$(dirname "$(rt doc)")

deps_of() { sed -n "s/^$1:\([^#]*\).*/\1/p" crates.txt; }

# the libraries that the small crate reaches
needed='' todo='recorder samples'
while [ -n "$todo" ]; do
    next=''
    for crate in $todo; do
        case " $needed " in *" $crate "*) continue ;; esac
        needed="$needed $crate" next="$next $(deps_of "$crate")"
    done
    todo=$(echo $next)
done
for crate in $needed; do
    out=crates/$crate/out/rlib
    [ -d "$out/$crate.rlib" ] && [ ! -e "$out/stamp" ] || { (cd crates/recorder && rt lib) >/dev/null; break; }
done

room=$(mktemp -d)
trap 'rm -rf "$room"' EXIT
trap 'exit 1' HUP INT TERM
mkdir "$room/src"

cat >"$room/finished" <<'END'
// A recording of one sample.
#![tactic(auto)]

use recorder::started::StartedRecording;
use samples::kinds::ConverterSample;

fn finish(recording: StartedRecording, bytes: &mut [u8]) -> usize {
    match recording.finish(bytes) {
        Ok(length) => length,
        Err((_, unfinished)) => {
            unfinished.abandon();
            0
        }
    }
}

pub fn one(bytes: &mut [u8], sample: ConverterSample) -> usize {
    let Ok(mut recording) = StartedRecording::start(bytes, 8000) else {
        return 0;
    };
    let _ = recording.put(bytes, sample);
    let length = finish(recording, bytes);
    // finished
    length
}
END
sed 's,// finished,let _ = recording.put(bytes\, sample);,' "$room/finished" >"$room/added"
sed 's,finish(recording\, bytes);,bytes.len();,' "$room/finished" >"$room/dropped"

# checks the text; its status is that of the check, and what it says stands in the file 'said'
checked() ( # TEXT
    cp "$room/$1" "$room/src/lib.rt"
    set -- --crate-name misuse src/lib.rt --extern "std=$kit/rlibs/std.rlib" -L "dependency=$kit/rlibs"
    for crate in recorder samples; do set -- "$@" --extern "$crate=$PWD/crates/$crate/out/rlib/$crate.rlib"; done
    for crate in $needed; do set -- "$@" -L "dependency=$PWD/crates/$crate/out/rlib"; done
    set -- "$@" --antt-project "$kit/rattle/logic/antt-project.json" --logic-built "$kit/logic_built" --jobs 1
    cd "$room"
    "$kit/bin/rattle" check "$@" >"$room/said" 2>&1
)

fail() {
    echo "misuse: $1" >&2
    tail -n 20 "$room/said" | cut -c1-500 >&2
    exit 1
}

refused() { # TEXT WHAT LINE WORDS
    if checked "$1"; then fail "$2: not refused"; fi
    grep -q "lib\.rt:$3:.*$4" "$room/said" || fail "$2: not refused for the reason $4 at line $3"
    echo "misuse: $2: refused at line $3, $4"
}

line_of() { grep -nF "$2" "$room/$1" | tail -n 1 | cut -d: -f1; }

checked finished && grep -q '^logic=proved ' "$room/said" || fail 'a recording that is put into and finished: not proved'
echo 'misuse: a recording that is put into and finished: proved'
refused added 'adding to a finished recording' "$(line_of added recording.put)" 'borrow-e0382'
refused dropped 'letting a started recording go' "$(line_of dropped StartedRecording::start)" 'drop-recording-requires'
