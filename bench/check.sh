#!/usr/bin/env bash
# Measures `r2 check`. On ordinary code of 384 KiB, near the 131,072 nodes that a source may have, and of 1 MiB, which has too many: its time over
# that of `gcc -fsyntax-only` on the same text without its annotations, and its peak memory over the size of the source. On hostile sources of 12 KB to
# 1 MB: processor time, that for half the size, and peak memory over the size. On code that takes mutexes and touches what they guard: its time over
# that for the same text without guards. Never a gate. The aims for 1 MiB are 0.7 and 50; 1 second and 200 for hostile sources; 1.2 for guards.
set -eu
cd "$(dirname "${BASH_SOURCE[0]}")"
program=$(../prebuilt/program)
scratch=$(mktemp -d)
trap 'rm -rf "$scratch"' EXIT

for size in 393216 1048000; do
    python3 -B spell_source.py "$size" "$scratch/ordinary.c" "$scratch/plain.c"
    python3 -B measure_check.py "$program" "$scratch/ordinary.c" "$scratch/plain.c" "$scratch"
done
for size in 393216 1048000; do
    python3 -B spell_guards.py "$size" "$scratch/guarded.c" "$scratch/unguarded.c"
    python3 -B measure_guards.py "$program" "$scratch/guarded.c" "$scratch/unguarded.c" "$scratch"
done
python3 -B measure_hostile.py "$program" "$scratch"
