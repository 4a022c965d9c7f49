#!/bin/sh
# Compares a program with worked runs: compare.sh EXAMPLES PROGRAM [WORD ..], for instance
#     compare.sh EXAMPLES bench/target/release/bench model
# EXAMPLES/chain/NAME holds signal.wav, gain.wav, settings.txt, calls.txt, expected.wav, expected.json and answers.txt;
# EXAMPLES/damaged holds recordings and expected.txt, with file, kind, refusal number and byte place on each line.
set -u
examples=$1
shift
work=$(mktemp -d)
trap 'rm -r "$work"' EXIT
wrong=0
right=0

# differs NAME: counts a comparison that failed
differs() {
    echo "differs: $1"
    wrong=$((wrong + 1))
}

field() {
    sed -n "s/.*\"$1\": \"\{0,1\}\([^\",]*\)\"\{0,1\},\{0,1\}$/\1/p" "$case/expected.json"
}

for case in "$examples"/chain/*/; do
    [ -d "$case" ] || continue
    case=${case%/}
    name=$(basename "$case")
    before=$wrong
    "$@" play "$case/signal.wav" "$case/gain.wav" "$work/out.wav" "$case/settings.txt" >"$work/played" 2>/dev/null
    status=$?
    cmp -s "$work/out.wav" "$case/expected.wav" || differs "$name: samples"
    if [ -n "$(field fault)" ]; then
        ending="then fault $(field fault) input $(field input) item $(field item) place $(field place)"
        [ $status -eq 1 ] || differs "$name: status of play"
    else
        ending="finished"
        [ $status -eq 0 ] || differs "$name: status of play"
    fi
    [ "$(tail -n 1 "$work/played")" = "played $(field items) samples, $ending" ] || differs "$name: last line of play"
    "$@" replay "$case/signal.wav" "$case/gain.wav" "$case/calls.txt" "$case/settings.txt" >"$work/answers" 2>/dev/null ||
        differs "$name: status of replay"
    head -n "$(wc -l <"$case/answers.txt")" "$work/answers" | cmp -s - "$case/answers.txt" || differs "$name: answers"
    tail -n 1 "$work/answers" | grep -q "alike" || differs "$name: blocks"
    rm -f "$work/out.wav"
    [ $wrong -ne $before ] || right=$((right + 1))
done

if [ -f "$examples/damaged/expected.txt" ]; then
    while read -r file kind number place; do
        case $file in '#'*) continue ;; esac
        "$@" check "$kind" "$examples/damaged/$file" >"$work/checked" 2>&1
        status=$?
        if [ $status -eq 1 ] && grep -q "^$examples/damaged/$file: refused $number at byte $place: " "$work/checked"; then
            right=$((right + 1))
        else
            differs "$file"
        fi
    done <"$examples/damaged/expected.txt"
fi

echo "$right alike, $wrong differences"
[ $wrong -eq 0 ] && [ $right -gt 0 ]
