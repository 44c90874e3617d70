#!/usr/bin/env python3
"""Spells a C source for bench/check.sh: `spell_source.py BYTES SOURCE PLAIN` writes one of about that many bytes, and
the same text without its annotations. The code is ordinary: structs, globals under locks, a thousand functions with loops, branches,
calls and arithmetic, with comments. It keeps the rules of types, and has some 20,000 names of locals and parameters."""
import random
import sys

# A source has 1,000 functions at most: these, two more in the head, and main.
FUNCTIONS = 997
LOCALS = 14
HEAD = [
    ("struct node { long key; int left; int right; char name[16]; };", ""),
    ("int receive(int s, char *buf, int len);", "int receive(int s, [out, cap(len), bsize(return)] char *buf, int len);"),
]
BINARY = ["+", "-", "*", "&", "|", "^", "<", "<=", "==", "!=", "&&", "||"]


class Writer:
    """The functions of a source, each of which may call those before it."""

    def __init__(self, length):
        self.length = length
        self.rng = random.Random(1)
        self.count = 0

    def operand(self):
        kind = self.rng.randrange(10)
        if kind == 0:
            return str(self.rng.randrange(10000))
        if kind == 1:
            return "total"
        if kind == 2:
            return "n->key"
        if kind == 3:
            return "p[i]"
        if kind == 4:
            return "'%s'" % chr(self.rng.randrange(97, 123))
        if kind >= 7:
            return f"v{self.rng.randrange(LOCALS)}"
        return self.rng.choice(["a", "b", "i"])

    def expression(self, depth):
        if depth == 0:
            return self.operand()
        left, right = self.expression(depth - 1), self.expression(self.rng.randrange(depth))
        text = f"{left} {self.rng.choice(BINARY)} {right}"
        return f"({text})" if self.rng.randrange(2) else text

    def statement(self, indent, depth):
        pad = "    " * indent
        kind = self.rng.randrange(8 if depth else 4)
        value = self.expression(self.rng.randrange(3))
        if kind == 0:
            return [f"{pad}total += {value};"]
        if kind == 1:
            return [f"{pad}p[i] = (long)({value});"]
        if kind == 2 and self.count:
            return [f"{pad}b = work_{self.rng.randrange(self.count)}(a, {value}, p, n);"]
        if kind <= 3:
            return [f"{pad}n->key = {value}; /* kept */"]
        inner = self.block(indent + 1, depth - 1)
        if kind == 4:
            return [f"{pad}if ({value}) {{", *inner, f"{pad}}} else", f"{pad}    a--;"]
        if kind == 5:
            return [f"{pad}while (a > 0) {{", *inner, f"{pad}    a--;", f"{pad}}}"]
        if kind == 6:
            return [f"{pad}for (i = 0; i < 8; i++) {{", *inner, f"{pad}}}"]
        return [f"{pad}do {{", *inner, f"{pad}}} while (b-- > 0);"]

    def block(self, indent, depth):
        return [line for _ in range(self.rng.randrange(1, 4)) for line in self.statement(indent, depth)]

    def function(self):
        lines = [
            f"// work of kind {self.count}",
            f"long work_{self.count}(int a, int b, long *p, struct node *n)",
            "{",
            "    int i = 0;",
            "    long total = 0;",
            *(f"    long v{number} = {number};" for number in range(LOCALS)),
        ]
        while sum(len(line) + 1 for line in lines) < self.length:
            lines += self.block(1, 3)
        lines += ["    return total + sizeof(struct node);", "}", "", ""]
        self.count += 1
        return "\n".join(lines)

    def shared(self, lock):
        plain = f"long shared_{lock};\n"
        return plain, f"[guarded_by({lock})] {plain}"


def main():
    size, source, plain = int(sys.argv[1]), sys.argv[2], sys.argv[3]
    # the last block of a function goes past its length
    writer = Writer(size // FUNCTIONS - 360)
    parts = [(text + "\n", (annotated or text) + "\n") for text, annotated in HEAD]
    parts += [writer.shared(lock) for lock in range(8)]
    parts.append(("int outside(int x);\n", "[cut(top)] int outside(int x);\n"))
    end = "int main(void) { return 0; }\n"
    length = sum(len(annotated) for _, annotated in parts) + len(end)
    while writer.count < FUNCTIONS:
        text = writer.function()
        if length + len(text) > size:
            break
        parts.append((text, text))
        length += len(text)
    parts.append((end, end))
    for path, place in ((plain, 0), (source, 1)):
        with open(path, "w") as file:
            file.writelines(part[place] for part in parts)


main()
