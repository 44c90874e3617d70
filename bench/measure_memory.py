#!/usr/bin/env python3
"""Runs `PROGRAM KIND spaces ROUNDS` and `PROGRAM KIND plain ROUNDS` in turn for each kind of access, and prints the processor time of
a round of the first, of the second, and the ratio; and, where there is `valgrind`, the instructions of a round of both. What a
program takes to start is taken off, by runs without rounds. Each time is the best of its runs."""
import os
import re
import shutil
import subprocess
import sys

KINDS = {
    "words": 20_000_000,
    "ints": 20_000_000,
    "shorts": 20_000_000,
    "bytes": 20_000_000,
    "constants": 40_000_000,
    "below": 20_000_000,
    "beside": 20_000_000,
    "handed": 20_000_000,
    "ranges": 200_000,
}
MEMORIES = ("spaces", "plain")
SERIES = 5


def processor_time(words):
    """The processor time of a program, in seconds."""
    child = subprocess.Popen(words, stdout=subprocess.DEVNULL)
    _, status, usage = os.wait4(child.pid, 0)
    if os.waitstatus_to_exitcode(status) != 0:
        sys.exit(f"{' '.join(words)} ended with {os.waitstatus_to_exitcode(status)}")
    return usage.ru_utime + usage.ru_stime


def instructions(words, scratch):
    """The instructions that a program makes."""
    out = os.path.join(scratch, "callgrind")
    said = subprocess.run(
        ["valgrind", "--tool=callgrind", f"--callgrind-out-file={out}", *words],
        stdout=subprocess.DEVNULL, stderr=subprocess.PIPE, check=True, text=True)
    return int(re.search(r"Collected : (\d+)", said.stderr).group(1))


def best_times(program, kind, rounds):
    """What a round takes over each memory, in nanoseconds."""
    best = {}
    for _ in range(SERIES):
        for over in MEMORIES:
            for count in (0, rounds):
                seconds = processor_time([program, kind, over, str(count)])
                best[over, count] = min(best.get((over, count), seconds), seconds)
    return {over: (best[over, rounds] - best[over, 0]) / rounds * 1e9 for over in MEMORIES}


def instructions_of(program, kind, rounds, scratch):
    """How many instructions a round makes over each memory."""
    made = {(over, count): instructions([program, kind, over, str(count)], scratch)
            for over in MEMORIES for count in (0, rounds)}
    return {over: (made[over, rounds] - made[over, 0]) / rounds for over in MEMORIES}


def main():
    program, scratch = sys.argv[1:]
    for kind, rounds in KINDS.items():
        took = best_times(program, kind, rounds)
        line = f"{kind:10} spaces {took['spaces']:7.1f} ns  plain {took['plain']:7.1f} ns" \
               f"  ratio {took['spaces'] / took['plain']:6.2f}"
        if shutil.which("valgrind"):
            made = instructions_of(program, kind, rounds // 200, scratch)
            line += f"  instructions {made['spaces']:7.1f} {made['plain']:7.1f}" \
                    f"  ratio {made['spaces'] / made['plain']:6.2f}"
        print(line, flush=True)


main()
