#!/bin/sh
# Proves and builds the library for C, builds play.c with it, and plays the recordings of this folder: run-c.sh
set -eu
cd "$(dirname "$0")/.."
mkdir -p target
(cd crates/capi && rt lib) >target/library.log 2>&1 || { tail -n 20 target/library.log; exit 1; }
kit=$(dirname "$(rt doc)")
cc -std=c99 -Wall -Wextra -O2 -Iinclude -o target/play examples/play.c crates/capi/out/libcapi.a "$kit/c/liblibc_c.a"
target/play examples/signal.wav examples/gain.wav - target/played.wav
