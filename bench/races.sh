#!/usr/bin/env bash
# Measures the clocks of a million events with two keys each, a watch that is told of them, and a watch over accesses of eight bytes by four
# threads: their time over that of the same in plain C with arrays, and the watch's memory over the bytes that are accessed. Never a gate. The
# aims are 5, and 32.
set -eu
cd "$(dirname "${BASH_SOURCE[0]}")"
(cd ../crates/bench_races && rt run -- clocks 1) >/dev/null
scratch=$(mktemp -d)
trap 'rm -rf "$scratch"' EXIT
gcc -O2 -o "$scratch/plain" plain_races.c

python3 -B measure_races.py ../crates/bench_races/out/bench_races "$scratch/plain" "$scratch"
