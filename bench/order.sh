#!/usr/bin/env bash
# Measures `r2 order`: its time over that of `sort -n --parallel=1` on its own output, and its peak memory over the size
# of the log. Never a gate. The aims are 1.0 and 12, and 24 times the size for hostile logs.
set -eu
cd "$(dirname "${BASH_SOURCE[0]}")"
scratch=$(mktemp -d)
trap 'rm -rf "$scratch"' EXIT
program=$(../prebuilt/program)

measure() {
    python3 -B spell_logs.py "$1" "$2" "$scratch/$3"
    python3 -B measure.py "$program" "$scratch/$3" "$scratch"
    rm -f "$scratch/$3"
}

near_limit=67000000
measure valid 3300000 valid_120000
measure valid "$near_limit" valid_large
for kind in chunks shortest one_key sixteen_keys distinct_keys wrong_tickets; do
    measure "$kind" "$near_limit" "$kind"
done
