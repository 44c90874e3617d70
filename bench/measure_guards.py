#!/usr/bin/env python3
"""Runs `PROGRAM check SOURCE top` and the same on the text without guards, in turn, and prints the time of the first over that of the second, each
the best; and the instructions of both, where there is `valgrind`."""
import os
import re
import shutil
import subprocess
import sys

from timing import timed

RUNS = 31


def instructions(words, scratch):
    out = f"--callgrind-out-file={os.path.join(scratch, 'calls')}"
    told = subprocess.run(["valgrind", "--tool=callgrind", out, *words], capture_output=True, text=True).stderr
    return int(re.search(r"Collected : (\d+)", told).group(1))


def main():
    program, source, plain, scratch = sys.argv[1:]
    words = [[program, "check", path, "top"] for path in (source, plain)]
    printed = os.path.join(scratch, "printed")
    runs = [[timed(it, printed) for it in words] for _ in range(RUNS)]
    for it in words:
        if subprocess.run(it, capture_output=True).stdout != b"accepted\n":
            sys.exit("something is found")
    guarded, unguarded = (min(run[at][0] for run in runs) for at in range(2))
    line = f"guards         {os.path.getsize(source):>9} bytes  {guarded:6.3f} s  without {unguarded:6.3f} s  ratio {guarded / unguarded:5.2f}"
    if shutil.which("valgrind"):
        counts = [instructions(it, scratch) for it in words]
        line += f"  by instructions {counts[0] / counts[1]:5.2f}"
    print(line)


main()
