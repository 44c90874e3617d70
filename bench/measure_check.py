#!/usr/bin/env python3
"""Runs `PROGRAM check SOURCE top` and prints its time over that of `gcc -fsyntax-only` on the same text without
annotations, each the best of runs that were made in turn, and its peak memory over the size of the source."""
import os
import sys

from timing import measured, timed


RUNS = 21


def main():
    program, source, plain, scratch = sys.argv[1:]
    printed = os.path.join(scratch, "printed")
    checks, compilations = [], []
    for _ in range(RUNS):
        checks.append(timed([program, "check", source, "top"], printed))
        compilations.append(timed(["gcc", "-fsyntax-only", "-x", "c", plain], printed))
    seconds, status = min(checks)
    gcc_seconds, gcc_status = min(compilations)
    _, _, memory = measured([program, "check", source, "top"], printed)
    if gcc_status != 0:
        sys.exit("gcc refuses the text")
    size = os.path.getsize(source)
    print(
        f"{os.path.basename(source):14} {size:>9} bytes  status {status}  {seconds:6.3f} s"
        f"  gcc {gcc_seconds:6.3f} s  time / gcc {seconds / gcc_seconds:6.2f}  memory / source {memory / size:6.1f}"
    )


main()
