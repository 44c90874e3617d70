#!/usr/bin/env python3
"""Runs `PROGRAM CASE N` and the same in plain C in turn, and prints the time of the first over that of the second, and the peak memory of the
first over the bytes that are accessed, less that of the least case. What a program takes to start is part of both times."""
import os
import sys

from timing import measured, timed

CASES = [
    ("clocks", 1, None),
    ("clocks", 16, None),
    ("clocks", 1000, None),
    ("clocks", 100_000, None),
    ("events", 1, None),
    ("events", 1000, None),
    ("events", 100_000, None),
    ("own", 10_000_000, None),
    ("locals", 10_000_000, None),
    ("turns", 10_000_000, None),
    ("passes", 4_000_000, 4 << 16),
    ("reads", 4_000_000, 1 << 16),
    ("writes", 4_000_000, 1 << 19),
    ("both", 4_000_000, 1 << 16),
    ("constants", 4_000_000, 1 << 16),
]


def best(words, printed):
    """The least time of a few runs, what they print, and the peak memory."""
    least = float("inf")
    for _ in range(5):
        seconds, status = timed(words, printed)
        if status != 0:
            sys.exit(f"{' '.join(words)} ended with {status}")
        least = min(least, seconds)
    _, _, memory = measured(words, printed)
    with open(printed) as file:
        return least, file.read(), memory


def main():
    program, plain, scratch = sys.argv[1:]
    _, _, start = best([program, "own", "1"], os.path.join(scratch, "printed"))
    for case, number, touched in CASES:
        ours, our_text, memory = best([program, case, str(number)], os.path.join(scratch, "printed"))
        theirs, their_text, _ = best([plain, case, str(number)], os.path.join(scratch, "printed"))
        if our_text != their_text:
            sys.exit(f"{case} {number}: {our_text.strip()}, in C {their_text.strip()}")
        each = f"  memory / bytes {(memory - start) / touched:5.1f}" if touched else ""
        print(f"{case} {number}: {ours:6.3f} s  C {theirs:6.3f} s  ratio {ours / theirs:5.2f}{each}")


main()
