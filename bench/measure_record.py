#!/usr/bin/env python3
"""Runs `PROGRAM record` on a loop of arithmetic and accesses, one of calls across the cut, one of blocks, and four threads that sum
under a mutex (`gen`), and the same built by `gcc -O0`, natively and under Helgrind. Prints marks and events a second of processor time,
that time over those of the others, each the best of a few runs that are made in turn, so that a noisy hour meets all of them, and the peak
memory without the sizes of log and report. What a program takes to start is part of each; the first line says how much that is."""
import os
import re
import subprocess
import sys

from timing import measured

RUNS = 9
HERE = os.path.dirname(os.path.abspath(__file__))

# What a program declares of r2's builtins.
PROTOTYPES = """void *r2_malloc(unsigned long n);
void r2_free(void *p);
int r2_spawn(int (*f)(void *), void *arg);
int r2_join(int t);
int r2_lock(int m);
int r2_unlock(int m);
void r2_print(char *p, unsigned long n);
"""

# What each of the three takes to start and to end.
EMPTY = """[cut(top)] int x(void);
int main(void) { return 0; }
"""

# Runs at the limits of a recording, with the status that each ends with: a million events, of calls alone, of blocks (each has a key), of
# calls with a region, of calls with three arguments, with five and with eight, the most, of calls with eight that don't all fit into fewer
# bits, with arguments and a region, and with two regions; records of 48 MiB, of returns that are written once but counted in full; a
# report of 1 MiB of live memory; the steps of the greatest budget.
LARGE = [
    (
        "events",
        "[cut(top)] void low(void);\nvoid low(void) { }\nint main(void) { while (1) low(); return 0; }\n",
        "budget 100000000\n",
        7,
    ),
    (
        "keys",
        "[cut(top)] int x(void);\nint main(void) { while (1) r2_free(r2_malloc(8)); return 0; }\n",
        "budget 100000000\n",
        7,
    ),
    (
        "regions",
        "[cut(top)] int get([out, bsize(n)] char *p, int n);\nint get(char *p, int n) { p[0] = 1; return n; }\n"
        "char b[8];\nint main(void) { while (1) get(b, 8); return 0; }\n",
        "budget 100000000\n",
        7,
    ),
    (
        "three",
        "[cut(top)] int low(int a, int b, int c);\nint low(int a, int b, int c) { return a; }\n"
        "int main(void) { while (1) low(1, 2, 3); return 0; }\n",
        "budget 100000000\n",
        7,
    ),
    (
        "five",
        "[cut(top)] int low(int a, int b, int c, int d, int e);\nint low(int a, int b, int c, int d, int e) { return a; }\n"
        "int main(void) { while (1) low(1, 2, 3, 4, -5); return 0; }\n",
        "budget 100000000\n",
        7,
    ),
    (
        "eight",
        "[cut(top)] int low(int a, int b, int c, int d, int e, int f, int g, int h);\n"
        "int low(int a, int b, int c, int d, int e, int f, int g, int h) { return a; }\n"
        "int main(void) { while (1) low(1, 2, 3, 4, 5, 6, 7, 8); return 0; }\n",
        "budget 100000000\n",
        7,
    ),
    (
        "wide",
        "[cut(top)] int low(int a, int b, int c, int d, int e, int f, int g, int h);\n"
        "int low(int a, int b, int c, int d, int e, int f, int g, int h) { return a; }\n"
        "int main(void) { while (1) low(1, 2, 3, 4, 5, 6, 7, 32768); return 0; }\n",
        "budget 100000000\n",
        7,
    ),
    (
        "both",
        "[cut(top)] int get([out, bsize(n)] char *p, int n, int k);\nint get(char *p, int n, int k) { p[0] = 1; return n; }\n"
        "char b[8];\nint main(void) { while (1) get(b, 8, 1); return 0; }\n",
        "budget 100000000\n",
        7,
    ),
    (
        "two",
        "[cut(top)] int get([out, bsize(n)] char *p, [out, bsize(n)] char *q, int n);\n"
        "int get(char *p, char *q, int n) { p[0] = 1; q[0] = 2; return n; }\n"
        "char b[8];\nchar c[8];\nint main(void) { while (1) get(b, c, 8); return 0; }\n",
        "budget 100000000\n",
        7,
    ),
    (
        "full",
        "[cut(top), cache] int get([out, bsize(n)] char *p, int n);\nchar b[1000000];\n"
        "int main(void) { while (1) get(b, 1000000); return 0; }\n",
        "answer get 0 -\n" * 60,
        7,
    ),
    (
        "live",
        "[cut(top)] int x(void);\nchar b[1048560];\nint main(void) { b[7] = 1; return 0; }\n",
        "",
        0,
    ),
    (
        "budget",
        "[cut(top)] int x(void);\nint main(void) { while (1) ; return 0; }\n",
        "budget 100000000\n",
        7,
    ),
]


def spent(words, out):
    """The processor time, the exit status and the peak memory in bytes of a program."""
    return measured(words, out)


def plain(source):
    """The source without its annotations."""
    return PROTOTYPES + re.sub(r"(?m)^(\[[a-z_]+\(\w+\)\] )+", "", source)


def best(programs, printed):
    """Of each program the shortest of a few runs, all in turn: its time, its status, and the greatest peak of memory."""
    found = [(float("inf"), 0, 0)] * len(programs)
    for _ in range(RUNS):
        for at, words in enumerate(programs):
            seconds, status, memory = spent(words, printed)
            found[at] = (min(found[at][0], seconds), status, max(found[at][2], memory))
    return found


def said(report):
    """What the report says of steps above the cut, events, and the result of `main`."""
    steps = events = 0
    result = None
    with open(report) as lines:
        for line in lines:
            if line == "memory\n":
                break
            words = line.split()
            if words[0] == "thread":
                continue
            events += 1
            steps += int(words[2])
            if words[3:5] == ["upret", "main"]:
                result = int(words[6])
    return steps + events, events, result


def told_memory(peak, sizes):
    """The peak of memory, and what of it isn't log or report. A report is written as it is made, so it isn't in memory as a whole."""
    return f"memory {peak / 2**20:6.1f} MiB, {(peak - sizes) / 2**20:6.1f} without {sizes / 2**20:5.1f} MiB of log and report"


def measure(program, name, source, system, scratch):
    """One line for a program and its system file."""
    paths = [os.path.join(scratch, end) for end in ("a.c", "a.sys", "a.log", "a.rep")]
    for path, text in zip(paths, (source, system)):
        with open(path, "w") as file:
            file.write(text)
    bare = os.path.join(scratch, "plain.c")
    with open(bare, "w") as file:
        file.write(plain(source))
    native = os.path.join(scratch, "native")
    subprocess.run(
        ["gcc", "-O0", "-g", "-w", "-pthread", "-o", native, bare, os.path.join(HERE, "native.c")], check=True
    )
    programs = [
        [program, "record", paths[0], "top", *paths[1:]],
        [native],
        ["valgrind", "--tool=helgrind", "-q", native],
    ]
    recorded, alone, races = best(programs, os.path.join(scratch, "printed"))
    seconds, status, memory = recorded
    native_seconds, native_status, _ = alone
    helgrind_seconds, _, _ = races
    if status != 0:
        sys.exit(f"{name}: record ended with {status}")
    marks, events, result = said(paths[3])
    if native_status != result:
        sys.exit(f"{name}: main gives {result}, natively {native_status}")
    sizes = sum(os.path.getsize(path) for path in paths[2:])
    print(
        f"{name:8} {seconds:6.3f} s  {marks / seconds / 1e6:6.2f} M marks/s  {events / seconds / 1e6:5.2f} M events/s"
        f"  native {native_seconds:6.3f} s, ratio {seconds / native_seconds:6.1f}"
        f"  helgrind {helgrind_seconds:6.3f} s, ratio {seconds / helgrind_seconds:5.2f}"
        f"  {told_memory(memory, sizes)}",
        flush=True,
    )


def measure_large(program, name, source, system, wanted, scratch):
    """One line for a run at a limit, without a native program beside it."""
    paths = [os.path.join(scratch, end) for end in ("a.c", "a.sys", "a.log", "a.rep")]
    for path, text in zip(paths, (source, system)):
        with open(path, "w") as file:
            file.write(text)
    words = [program, "record", paths[0], "top", *paths[1:]]
    seconds, status, memory = spent(words, os.path.join(scratch, "printed"))
    if status != wanted:
        sys.exit(f"{name}: record ended with {status}")
    sizes = sum(os.path.getsize(path) for path in paths[2:])
    print(
        f"{name:8} {seconds:6.3f} s  {told_memory(memory, sizes)}",
        flush=True,
    )


def main():
    program, scratch = sys.argv[1:]
    measure(program, "empty", EMPTY, "", scratch)
    for name in ("memory", "calls", "blocks"):
        with open(os.path.join(HERE, f"record_{name}.c")) as file:
            measure(program, name, file.read(), "budget 100000000\n", scratch)
    paths = [os.path.join(scratch, end) for end in ("gen.c", "gen.sys")]
    subprocess.run([program, "gen", "5000", *paths], check=True)
    with open(paths[0]) as source, open(paths[1]) as system:
        measure(program, "threads", source.read(), system.read(), scratch)
    for name, source, system, status in LARGE:
        measure_large(program, name, source, system, status, scratch)


main()
