#!/usr/bin/env python3
"""Runs `PROGRAM order LOG` and prints its time over that of `sort -n --parallel=1` on its own output, and its peak memory
over the size of the log."""
import os
import sys

from timing import measured, timed


def main():
    program, log, scratch = sys.argv[1:]
    printed = os.path.join(scratch, "printed")
    words = [program, "order", log]
    seconds, status = min(timed(words, printed) for _ in range(3))
    _, _, memory = measured(words, printed)
    size = os.path.getsize(log)
    line = f"{os.path.basename(log):14} {size:>9} bytes  status {status}  {seconds:6.2f} s"
    if os.path.getsize(printed) > 1000:
        words = ["sort", "-n", "--parallel=1", printed]
        sorting, _ = min(timed(words, os.path.join(scratch, "sorted")) for _ in range(3))
        line += f"  time / sort {seconds / sorting:6.2f}"
    else:
        line += "  no output to sort "
    print(f"{line}  memory / log {memory / size:6.2f}")


main()
