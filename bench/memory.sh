#!/usr/bin/env bash
# Measures loads and stores over the memory of a run, `Spaces`, of each kind and width: their time over that of the same on
# plain bytes, in the same program. Never a gate. The aim is 10. With `valgrind` it counts instructions too, which is the same
# on a machine that does other work.
set -eu
cd "$(dirname "${BASH_SOURCE[0]}")"
(cd ../crates/bench_memory && rt run) >/dev/null
scratch=$(mktemp -d)
trap 'rm -rf "$scratch"' EXIT

python3 -B measure_memory.py ../crates/bench_memory/out/bench_memory "$scratch"
