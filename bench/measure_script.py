#!/usr/bin/env python3
"""Runs `PROGRAM NAMES FILE`, the same in plain C and `wc -l FILE` in turn over several system files of 1 MiB, and prints the time of
the first over those of the others, each the best of its runs. What a program takes to start is part of each, so it is told to know
only as many names (NAMES) as the file needs."""
import os
import random
import sys

from timing import timed

MOST = 1 << 20

# An odd number whose multiples have bytes of all kinds: 2^128 over the golden ratio.
SPREAD = 0x9E3779B97F4A7C15F39CC0605CEDC835

# The same numbers in each run.
PICKS = random.Random(1)


def lines(line):
    """As many of the line as a file holds."""
    return line * (MOST // len(line))


FILES = {
    "one note": "#" * (MOST - 1) + "\n",
    "empty lines": "\n" * MOST,
    "notes": lines("# a note of some words, as a person writes them\n"),
    "one schedule": "schedule" + " 0*7 1*5" * ((MOST - 9) // 8) + "\n",
    "one schedule of threads": "schedule" + " 3" * ((MOST - 9) // 2) + "\n",
    "one schedule of two digits": "schedule" + " 10" * ((MOST - 9) // 3) + "\n",
    "one schedule of 31*11": "schedule" + " 31*11" * ((MOST - 9) // 6) + "\n",
    "answers without bytes": lines("answer read 0 -\n"),
    "answers of two names": lines("answer read 0 -\nanswer poll 0 -\n"),
    "answers of 900 names": lines("".join(f"answer f{number} 0 -\n" for number in range(100, 1000))),
    "answers of 900 names in no order": "".join(f"answer f{PICKS.randrange(100, 1000)} 0 -\n" for _ in range(MOST // 17)),
    "answers of 16 bytes": lines("answer read 16 000102030405060708090a0b0c0d0e0f\n"),
    "answers of 16 other bytes": "".join(f"answer read 16 {at * SPREAD % (1 << 128):032x}\n" for at in range(MOST // 48)),
    "one long answer": "answer read 1 " + "5a" * ((MOST - 15) // 2) + "\n",
}

# How many functions `f100`, `f101` and so on a file names; else it names `read` and `poll` alone.
NAMES = {"answers of 900 names": 900, "answers of 900 names in no order": 900}


def main():
    program, plain, scratch = sys.argv[1:]
    printed = os.path.join(scratch, "printed")
    for name, text in FILES.items():
        file = os.path.join(scratch, "file.sys")
        with open(file, "w", encoding="ascii") as out:
            out.write(text)
        names = str(NAMES.get(name, 0))
        words = {"read": [program, names, file], "plain": [plain, names, file], "wc": ["wc", "-l", file]}
        best = dict.fromkeys(words, float("inf"))
        for _ in range(41):
            for word, command in words.items():
                seconds, status = timed(command, printed)
                if status != 0:
                    sys.exit(f"{command} ended with {status}")
                best[word] = min(best[word], seconds)
        times = "  ".join(f"{word} {best[word] * 1e3:6.2f} ms" for word in words)
        ratios = "  ".join(f"{word} {best['read'] / best[word]:5.2f}" for word in ("plain", "wc"))
        print(f"{name:26} {times}  ratio to {ratios}")


main()
