#!/usr/bin/env python3
"""Spells C sources for bench/check.sh whose parts stand for one another many times: `spell_hostile.py KIND BYTES SOURCE` writes one of
at most about that many bytes. The kinds are the functions of KINDS, each of which says what is many. `spell_hostile.py` alone prints
their names."""
import sys

END = "int main(void) { return 0; }\n"
# A source has 1,000 functions at most, main among them.
FUNCTIONS = 990
# A branch, and what takes and gives a mutex, are 19 of the 131,072 nodes that a source may have.
BRANCHES = 6_800
# Branches with nothing in them are fewer nodes.
EMPTY_BRANCHES = 16_000
# The name of a function where a statement stands is two of them, in the value of a table one.
NAMES = 40_000
ENTRIES = 80_000


def names(budget, spell):
    """As many names of the form `x0`, spelled by `spell` and with commas between them, as there are bytes for."""
    parts, length = [], 0
    while True:
        part = spell(f"x{len(parts)}")
        length += len(part) + 1
        if length > budget:
            return ",".join(parts)
        parts.append(part)


def words(budget, word):
    """The word as often as there are bytes for, with commas between."""
    return ",".join([word] * (budget // (len(word) + 1)))


def tag(size):
    return "t" * size


def words_before_globals(size):
    """Words of annotations, all wrong, before names of globals."""
    return f"[{words(size // 2, 'a')}] int {names(size // 2, str)};\n" + END


def words_before_one_name_again(size):
    """The same before one name again and again, which breaks a rule of types."""
    return f"[{words(size // 2, 'a')}] int {words(size // 2, 'a')};\n" + END


def sizes_before_globals(size):
    """Type names in annotations before names of globals."""
    return f"[{words(size // 2, 'a(sizeof(int *))')}] int {names(size // 2, str)};\n" + END


def held_by_functions(size, words, result, params, body):
    """Mutexes that functions hold, all different, and these words, before names of functions, each of which has this body."""
    count = min(FUNCTIONS, size // 120)
    each = 40 + len(result + 2 * params + body)
    lists = ",".join([f"holds({mutex})" for mutex in range((size - each * count) // 14)] + words)
    declared = ",".join(f"x{number}({params})" for number in range(count))
    bodies = "\n".join(f"{result} x{number}({params}) {{ {body}}}" for number in range(count))
    return f"[{lists}] {result} {declared};\n{bodies}\n[cut(top)] int outside(void);\n" + END


def mutexes_before_functions(size):
    """Mutexes that functions hold, all different, before names of functions, each of which has a body."""
    return held_by_functions(size, [], "void", "void", "")


def mutexes_and_keys_before_functions(size):
    """The same with words that name parameters, which are read for each function."""
    return held_by_functions(size, ["sync(k)", "sync(n)"], "void", "int k,int n", "")


def mutexes_and_a_commit_before_functions(size):
    """The same with one such word that has a size."""
    return held_by_functions(size, ["commit(k,n*sizeof(int*))"], "int", "int k,int n", "return 0; ")


def mutexes_held_by_bodies(size):
    """Mutexes that functions hold, all different, before names of functions that run, in a source with a guard."""
    count = min(FUNCTIONS, size // 160)
    lists = ",".join(f"holds({mutex})" for mutex in range((size - 80 * count) // 14))
    declared = ",".join(f"x{number}(void)" for number in range(count))
    bodies = "\n".join(f"int x{number}(void) {{ return n; }}" for number in range(count))
    named = "".join(f"sizeof(x{number}());" for number in range(count))
    return (
        f"[guarded_by(0)] int n;\n[{lists}] int {declared};\n{bodies}\n[cut(top)] int outside(void);\n"
        f"int main(void) {{ {named} return 0; }}\n"
    )


def held_by_callers(mutexes, body):
    """A function whose callers hold these mutexes, as they are listed, in a source with a guard."""
    lists = ",".join(f"holds({mutex})" for mutex in mutexes)
    return (
        f"[guarded_by(0)] int n;\nint c;\n[cut(top)] int outside(void);\n[{lists}] int f(void);\n"
        f"int f(void) {{ {body} return n; }}\nint main(void) {{ sizeof(f()); return 0; }}\n"
    )


def held_mutexes_in_descending_order(size):
    """Mutexes that a function's callers hold, the greatest first."""
    return held_by_callers(reversed(range(size // 14)), "")


def held_mutexes_and_branches(size):
    """Mutexes that a function's callers hold, and as many branches in it."""
    count = min(EMPTY_BRANCHES, size // 21)
    return held_by_callers(range(count), "if(c);" * count)


def more_held_mutexes_than_branches(size):
    """The same with more than twice as many mutexes as branches."""
    branches = min(EMPTY_BRANCHES, size // 40)
    return held_by_callers(range((size - 6 * branches) // 15), "if(c);" * branches)


def held_mutexes_given_back(size):
    """Mutexes that a function's callers hold, and as many branches, each of which gives one back and takes it again."""
    count = min(BRANCHES, size // 60)
    body = "".join(f"if(c){{r2_unlock({mutex});r2_lock({mutex});}}" for mutex in range(count))
    return held_by_callers(range((size - 45 * count) // 15), body)


def held_mutexes_and_ways_out(size):
    """Mutexes that a function's callers hold, and ways out of the function."""
    ways = min(EMPTY_BRANCHES, size // 60)
    return held_by_callers(range((size - 14 * ways) // 15), "if(c)return 0;" * ways)


def held_mutexes_given_back_in_ways(size):
    """Mutexes that a function's callers hold, of which the innermost of many ways, one in the other, gives all back."""
    depth = 90
    count = (size - 20 * depth) // 31
    body = "if(c){" * depth + "".join(f"r2_unlock({mutex});" for mutex in range(count)) + "}else{c=1;}" * depth
    return held_by_callers(range(count), body)


def held_mutexes_and_calls(size):
    """Mutexes that a function's callers hold, and calls in it of the function itself."""
    calls = min(2 * EMPTY_BRANCHES, size // 30)
    return held_by_callers(range((size - 4 * calls) // 15), "f();" * calls)


def held_mutexes_given_back_and_calls(size):
    """The same calls, where a mutex is given back and taken again before each."""
    calls = min(BRANCHES, size // 70)
    return held_by_callers(range((size - 32 * calls) // 15), "r2_unlock(0);r2_lock(0);f();" * calls)


def mutexes_taken_in_descending_order(size):
    """Mutexes that a function's callers hold, and others below them that it takes, the greatest first."""
    taken = min(3 * BRANCHES, size // 40)
    body = "".join(f"r2_lock({mutex});" for mutex in reversed(range(taken)))
    return held_by_callers(range(taken, taken + (size - 17 * taken) // 15), body)


def functions_that_need_all(size):
    """Functions, each of which needs the same mutexes and calls all others."""
    count = min(160, size // 3_000)
    lists = ",".join(f"holds({mutex})" for mutex in range((size - 50 * count - 7 * count * count) // 15))
    declared = ",".join(f"x{number}(void)" for number in range(count))
    calls = "".join(f"x{number}();" for number in range(count))
    bodies = "\n".join(f"int x{number}(void) {{ {calls} return n; }}" for number in range(count))
    return (
        f"[guarded_by(0)] int n;\n[{lists}] int {declared};\n{bodies}\n[cut(top)] int outside(void);\n"
        "int main(void) { sizeof(x0()); return 0; }\n"
    )


def mutexes_and_branches(size):
    """Mutexes that are held together, and as many branches, each of which gives one back on one way and takes it again."""
    mutexes = range(min(BRANCHES, size // 72))
    taken = "".join(f"r2_lock({mutex});" for mutex in mutexes)
    branches = "".join(f"if(c){{r2_unlock({mutex});r2_lock({mutex});}}" for mutex in mutexes)
    given = "".join(f"r2_unlock({mutex});" for mutex in mutexes)
    return (
        "[guarded_by(0)] int n;\nint c;\n[cut(top)] int outside(void);\n"
        f"int main(void) {{ {taken}\n{branches}\n{given} return 0; }}\n"
    )


def cuts_before(size, step):
    """Names of cuts before names of functions, which have bodies in steps of so many, or none where that is 0."""
    count = min(FUNCTIONS, size // 60)
    bodies = "".join(f"void x{number}(void) {{}}\n" for number in range(count) if step and number % step == 0)
    lists = ",".join(["top"] + [f"c{number}" for number in range((size - 20 * count - len(bodies)) // 8)])
    declared = ",".join(f"x{number}(void)" for number in range(count))
    return f"[cut({lists})] void {declared};\n{bodies}" + END


def cuts_before_functions(size):
    """Names of cuts before names of functions."""
    return cuts_before(size, 0)


def cuts_before_bodies_in_turn(size):
    """The same, where every second function has a body."""
    return cuts_before(size, 2)


def functions_that_name_each_other(size):
    """Functions, each of which names as many others as there are bytes for."""
    count = min(FUNCTIONS, size // 40)
    each = max(1, min(NAMES // count, (size // count - 30) // 5))
    declared = ",".join(f"x{number}(void)" for number in range(count))
    bodies = "\n".join(
        f"void x{number}(void) {{ {''.join(f'x{(number + 1 + other) % count};' for other in range(min(each, count)))} }}"
        for number in range(count)
    )
    return f"void {declared};\n{bodies}\n[cut(top)] int outside(void);\nint main(void) {{ x0(); return 0; }}\n"


def functions_over_one_table(size):
    """A table of functions in the value of a global, and functions each of which names the table."""
    count = min(FUNCTIONS - 1, size // 60)
    entries = max(1, min(ENTRIES, (size - 60 * count) // 5))
    listed = ",".join(f"x{number % count}" for number in range(entries))
    declared = ",".join(f"x{number}(void)" for number in range(count))
    bodies = "\n".join(f"void x{number}(void) {{ (void)table[0]; }}" for number in range(count))
    return (
        f"void {declared};\nvoid (*table[{entries}])(void) = {{{listed}}};\n{bodies}\n"
        "[cut(top)] int outside(void);\nint main(void) { x0(); return 0; }\n"
    )


def long_tag_of_globals(size):
    """A long tag that is never defined, before names of pointers."""
    return f"struct {tag(size // 3)} {names(2 * size // 3, lambda name: '*' + name)};\n[cut(top)] int outside(void);\n" + END


def long_tag_of_structs(size):
    """A long tag of a struct that is defined, before names of globals."""
    word = tag(size // 4)
    return f"struct {word} {{ char c; }};\nstruct {word} {names(size // 2, str)};\n[cut(top)] int outside(void);\n" + END


def long_tag_of_locals(size):
    """A long tag before names of locals."""
    body = f"struct {tag(size // 3)} {names(min(2 * size // 3, 20000), lambda name: '*' + name)};"
    return f"[cut(top)] int outside(void);\nint main(void) {{ {body} return 0; }}\n"


def two_long_lists(size):
    """Two function types with as many parameters as there are bytes for."""
    params = words(size // 2 - 50, "int")
    return f"int (*x)({params});\nint (*y)({params});\n[cut(top)] int outside(void);\nint main(void) {{ x = y; return 0; }}\n"


def long_lists_compared(size):
    """Two function types with many parameters, compared again and again."""
    params = words(size // 10, "int")
    uses = "x=y;" * min(size // 5, 30000)
    return f"int (*x)({params});\nint (*y)({params});\n[cut(top)] int outside(void);\nint main(void) {{ {uses} return 0; }}\n"


def long_lists_declared_again(size):
    """A function with many parameters, declared again and again in lists of names that share nothing but a type."""
    params = words(size // 20, "int")
    return f"int f({params});\n" * 18 + END


KINDS = [
    words_before_globals,
    words_before_one_name_again,
    sizes_before_globals,
    mutexes_before_functions,
    mutexes_and_keys_before_functions,
    mutexes_and_a_commit_before_functions,
    mutexes_held_by_bodies,
    held_mutexes_in_descending_order,
    held_mutexes_and_branches,
    more_held_mutexes_than_branches,
    held_mutexes_given_back,
    held_mutexes_and_ways_out,
    held_mutexes_given_back_in_ways,
    held_mutexes_and_calls,
    held_mutexes_given_back_and_calls,
    mutexes_taken_in_descending_order,
    functions_that_need_all,
    mutexes_and_branches,
    cuts_before_functions,
    cuts_before_bodies_in_turn,
    functions_that_name_each_other,
    functions_over_one_table,
    long_tag_of_globals,
    long_tag_of_structs,
    long_tag_of_locals,
    two_long_lists,
    long_lists_compared,
    long_lists_declared_again,
]


def main():
    if len(sys.argv) == 1:
        print("\n".join(kind.__name__ for kind in KINDS))
        return
    kind, size, path = sys.argv[1], int(sys.argv[2]), sys.argv[3]
    with open(path, "w") as file:
        file.write({known.__name__: known for known in KINDS}[kind](size))


main()
