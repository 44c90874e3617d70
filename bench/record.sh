#!/usr/bin/env bash
# Measures `r2 record`: marks and events a second of processor time, that time over that of the same program built by `gcc -O0`,
# natively and under Helgrind, all in turn, and its peak memory, with and without the sizes of log and report; then runs at its limits.
# Never a gate. The aims are half of the time of Helgrind, and 64 MiB beside log and report. It needs `gcc` and `valgrind`.
set -eu
cd "$(dirname "${BASH_SOURCE[0]}")"
program=$(../prebuilt/program)
scratch=$(mktemp -d)
trap 'rm -rf "$scratch"' EXIT

python3 -B measure_record.py "$program" "$scratch"
