#!/usr/bin/env bash
# Measures a loop of arithmetic and accesses to memory under one thread of flat code, without calls and with one in each round:
# marks a second, and the time of the same loop in CPython over its time. Never a gate. The aims are 20 million marks a second, and 10.
set -eu
cd "$(dirname "${BASH_SOURCE[0]}")"
(cd ../crates/bench_steps && rt run -- thread) >/dev/null
scratch=$(mktemp -d)
trap 'rm -rf "$scratch"' EXIT

python3 -B measure_thread.py ../crates/bench_steps/out/bench_steps "$scratch"
