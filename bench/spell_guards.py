#!/usr/bin/env python3
"""Spells a C source for bench/check.sh: `spell_guards.py BYTES SOURCE PLAIN` writes one of about that many bytes with eight guarded globals, and the
same text without `guarded_by`. Each of its functions is called by `main`, and takes mutexes, touches what they guard in loops and branches,
and gives them back; nothing is wrong with it. What goes past some 380,000 bytes is comments, since a source has 131,072 nodes at most."""
import sys

FUNCTIONS = 250
CODE = 380_000
LOCKS = 8
ROUND = """    r2_lock({lock});
    for (i = 0; i < a; i++) {{
        shared_{lock} += a * i + b;
        if (shared_{lock} > b) {{ r2_lock({next}); shared_{next} = shared_{lock} - a; r2_unlock({next}); }} else b--;
    }}
    a = shared_{lock};
    r2_unlock({lock});
"""


def function(number, length, filled):
    text = f"long work_{number}(long a, long b)\n{{\n    long i;\n"
    end = "    return a + b;\n}\n\n"
    lock = number
    while len(text) + len(end) < length:
        text += ROUND.format(lock=lock % LOCKS, next=(lock + 1) % LOCKS)
        lock += 1
    return f"/* work {number}{' kept' * max(0, (filled - length) // 5)} */\n" + text + end


def main():
    size, source, plain = int(sys.argv[1]), sys.argv[2], sys.argv[3]
    globals_of = lambda word: "".join(f"{word.format(lock=lock)}long shared_{lock};\n" for lock in range(LOCKS))
    calls = "".join(f"    work_{number}({number}, 1);\n" for number in range(FUNCTIONS))
    rest = f"[cut(top)] int outside(int x);\n\nint main(void)\n{{\n{calls}    return 0;\n}}\n"
    each = (min(size, CODE) - len(rest)) // FUNCTIONS - 250
    filled = (size - len(rest)) // FUNCTIONS
    body = "".join(function(number, each, filled - 250) for number in range(FUNCTIONS))
    for path, word in ((source, "[guarded_by({lock})] "), (plain, "")):
        with open(path, "w") as file:
            file.write(globals_of(word) + "\n" + body + rest)


main()
