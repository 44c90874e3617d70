#!/usr/bin/env python3
"""Runs `PROGRAM thread` and `PROGRAM calls`, and the same loops in this interpreter, in turn, and prints the marks a second of the
first, and the time of the loop in this interpreter over that of the first: once with all memory as bytes, of which each access takes
or sets eight as the thread's accesses do, and once with plain variables and a list. What a program takes to start, and the making of
the code, are part of all."""
import os
import sys

from timing import timed


def bytes_loop(functions, step):
    """The loop with all memory as bytes."""
    return f"""
{functions}
def main():
    cells = bytearray(8 * 1024)
    frame = bytearray(16)

    def load(memory, at):
        return int.from_bytes(memory[at:at + 8], "little")

    def store(memory, at, value):
        memory[at:at + 8] = value.to_bytes(8, "little")

    store(frame, 0, 0)
    store(frame, 8, 0)
    while load(frame, 8) < 2000000:
        store(frame, 0, {step} & 0xFFFFFFFFFFFFFFFF)
        store(cells, 8 * (load(frame, 8) % 1024), load(frame, 0))
        store(frame, 8, load(frame, 8) + 1)
    return load(frame, 0) % 1000003


print(main())
"""


def list_loop(functions, step):
    """The loop over plain variables and a list."""
    return f"""
{functions}
def main():
    cells = [0] * 1024
    total = 0
    for i in range(2000000):
        total = {step} & 0xFFFFFFFFFFFFFFFF
        cells[i % 1024] = total
    return total % 1000003


print(main())
"""


MIXED = """
def mixed(total, value):
    return total * 31 + value + 1

"""

LOOPS = {
    "thread": {
        "bytes": bytes_loop("", "(load(frame, 0) * 31 + load(cells, 8 * (load(frame, 8) % 1024)) + 1)"),
        "list": list_loop("", "(total * 31 + cells[i % 1024] + 1)"),
    },
    "calls": {
        "bytes": bytes_loop(MIXED, "mixed(load(frame, 0), load(cells, 8 * (load(frame, 8) % 1024)))"),
        "list": list_loop(MIXED, "mixed(total, cells[i % 1024])"),
    },
}


def measured(program, word, loops, scratch):
    """Prints the marks a second of the program's loop, and the times of the same loop here over its time."""
    words = {word: [program, word]}
    for name, text in loops.items():
        loop = os.path.join(scratch, name + ".py")
        with open(loop, "w", encoding="utf-8") as file:
            file.write(text)
        words[name] = [sys.executable, "-B", loop]
    best = dict.fromkeys(words, float("inf"))
    said = {}
    for _ in range(3):
        for name in words:
            printed = os.path.join(scratch, name)
            seconds, status = timed(words[name], printed)
            if status != 0:
                sys.exit(f"{' '.join(words[name])} ended with {status}")
            best[name] = min(best[name], seconds)
            with open(printed, encoding="utf-8") as file:
                said[name] = file.read().split()
    _, marks, result = said[word]
    if any(said[name] != [result] for name in loops):
        sys.exit("the loops give other results")
    print(f"{word} {best[word]:6.3f} s, {int(marks) / best[word] / 1e6:5.1f} million marks a second")
    for name in loops:
        print(f"cpython over {name} {best[name]:6.3f} s, ratio {best[name] / best[word]:6.2f}")


def main():
    program, scratch = sys.argv[1:]
    for word, loops in LOOPS.items():
        measured(program, word, loops, scratch)


main()
