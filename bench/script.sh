#!/usr/bin/env bash
# Measures the reading of system files of 1 MiB: the time of a program that reads one over that of the same in plain C, and over that
# of `wc -l`. Never a gate. The aim is 3 times `wc -l`, which plain C doesn't reach where a file has many turns or answers.
set -eu
cd "$(dirname "${BASH_SOURCE[0]}")"
(cd ../crates/bench_scripts && rt run -- 1 data/small.sys) >/dev/null
scratch=$(mktemp -d)
trap 'rm -rf "$scratch"' EXIT

gcc -O2 -o "$scratch/plain" plain_script.c

python3 -B measure_script.py ../crates/bench_scripts/out/bench_scripts "$scratch/plain" "$scratch"
