#!/usr/bin/env python3
"""Runs `PROGRAM check SOURCE top` on hostile sources of several sizes, by `spell_hostile.py`, and prints the processor time, that for half
the size, and the peak memory over the size of the source, less that for a source of one line. A run is stopped after 20 seconds of
processor time, or at 4 GiB."""
import os
import resource
import subprocess
import sys

from timing import measured

HERE = os.path.dirname(os.path.abspath(__file__))
SIZES = [12_000, 100_000, 1_000_000]


def limited():
    resource.setrlimit(resource.RLIMIT_CPU, (20, 20))
    resource.setrlimit(resource.RLIMIT_AS, (4 << 30, 4 << 30))


def run(program, source):
    """Processor seconds, status and peak bytes of a check."""
    seconds, status, memory = measured([program, "check", source, "top"], os.devnull, limited)
    return seconds, status, memory


def main():
    program, scratch = sys.argv[1:3]
    speller = [sys.executable, "-B", os.path.join(HERE, "spell_hostile.py")]
    kinds = sys.argv[3:] or subprocess.check_output(speller, text=True).split()
    source = os.path.join(scratch, "hostile.c")
    with open(source, "w") as file:
        file.write("int main(void) { return 0; }\n")
    _, _, least = run(program, source)
    for kind in kinds:
        for size in SIZES:
            figures = []
            for bytes_wanted in (size // 2, size):
                subprocess.check_call(speller + [kind, str(bytes_wanted), source])
                figures.append(run(program, source))
            (half, _, _), (seconds, status, memory) = figures
            length = os.path.getsize(source)
            print(
                f"{kind:28} {length:>9} bytes  status {status:>3}  {seconds:6.3f} s  half {half:6.3f} s"
                f"  memory / source {(memory - least) / length:7.1f}",
                flush=True,
            )


main()
