#!/usr/bin/env bash
# Runs r2 with the words given, in the caller's folder: the program of these sources, which prebuilt/program finds or builds.
set -u
program=$("$(dirname "$(readlink -f "${BASH_SOURCE[0]}")")/prebuilt/program") || exit
exec "$program" "$@"
