"""Counts the instructions that strategies on lists and strings take, an element or a byte, beside primitives that go over as many,
and those that tables take, an entry.

Run by hand at the top of the repository, after the program was built (README has the command):

    python3 tools/measure/lists.py [PROGRAM]

It needs `valgrind` and Python. A tree is loaded from a file, by `--tree`, and a strategy is applied to it. Instructions are counted by
callgrind, less those of a run that applies `id`. The last table has primitives that are there, for what one in a machine's code takes: some
take a copy of what they are given, others share it.
"""

import random
import tempfile

from measure import TOP, built_program, heading, instructions

MODULES = [word for name in ("numbers", "lists", "terms", "names", "tables") for word in ("--module", f"{name}={TOP}/strategies/{name}.str")]
COUNTS = (100, 400)
ENTRIES = (100, 1000, 10000)


def numbers(count):
    return list(range(1, count + 1))


def listed(parts):
    return f"[{','.join(map(str, parts))}]"


def shuffled(count):
    parts = numbers(count)
    random.Random(7).shuffle(parts)
    return parts


def halves(count, shift):
    """Two lists of so many, of which the second begins so far on."""
    return f"({listed(numbers(count))},{listed(it + shift for it in numbers(count))})"


# What there is in the modules `lists` and `names`: the strategy, and the tree for a number of elements.
STRATEGIES = {
    "`length`": ("length", lambda n: listed(numbers(n))),
    "`reverse`": ("reverse", lambda n: listed(numbers(n))),
    "`concat`, of pairs": ("concat", lambda n: listed(["[1,2]"] * (n // 2))),
    "`conc`, of two halves": ("conc", lambda n: halves(n // 2, 0)),
    "`elem`, the last": ("elem", lambda n: f"({n},{listed(numbers(n))})"),
    "`lookup`, the last": ("?(k,ps); <lookup(|k)> ps", lambda n: f"({n},{listed(f'({it},0)' for it in numbers(n))})"),
    "`last`": ("last", lambda n: listed(numbers(n))),
    "`drop`, all but one": ("?(k,xs); <drop(|k)> xs", lambda n: f"({n - 1},{listed(numbers(n))})"),
    "`filter`, half of them": ("filter(even)", lambda n: listed(numbers(n))),
    "`merge-sort(gt)`": ("merge-sort(gt)", lambda n: listed(shuffled(n))),
    "`merge-sort(term-gt)`": ("merge-sort(term-gt)", lambda n: listed(shuffled(n))),
    "`list-sort`": ("list-sort", lambda n: listed(shuffled(n))),
    "`nub`, all different": ("nub", lambda n: listed(numbers(n))),
    "`union`, half in both": ("union", lambda n: halves(n // 2, n // 4)),
    "`diff`, half in both": ("diff", lambda n: halves(n // 2, n // 4)),
    "`upper-case`, a byte": ("upper-case", lambda n: f'"{"a" * n}"'),
    "`without-prefix`, a byte of each": ("?(s,x); <without-prefix(|s)> x", lambda n: f'("{"a" * (n // 2)}","{"a" * (n // 2)}")'),
    "`concat-strings`": ("concat-strings", lambda n: listed(['"ab"'] * n)),
}
PRIMITIVES = {
    "`eq-ignore-annos`, of two halves": ('?(x,y); prim("eq-ignore-annos",x,y)', lambda n: halves(n // 2, 0)),
    "`compare`, of two halves": ('?(x,y); prim("compare",x,y)', lambda n: halves(n // 2, 0)),
    "`strip-annos`": ('?x; prim("strip-annos",x)', lambda n: listed(numbers(n))),
    "`greatest-number`": ('?x; prim("greatest-number","x",x)', lambda n: listed(['"x1"'] * n)),
    "`explode-term`, the children": ('?x; prim("explode-term",x)', lambda n: listed(numbers(n))),
    "`explode-string`, a byte": ('?x; prim("explode-string",x)', lambda n: f'"{"a" * n}"'),
    "`implode-string`, a byte": ('?x; prim("implode-string",x)', lambda n: listed([97] * n)),
    "`strcat`, a byte": ('?x; prim("strcat",x,x)', lambda n: f'"{"a" * (n // 2)}"'),
}

# Pairs of integers in any order, and of strings.
TABLES = {
    "`table-put`": ("table-of", lambda n: listed(f"({it},0)" for it in shuffled(n))),
    "`table-put` and `table-get`": ('?ps; table-of => t; !ps; all({k: ?(k,_); prim("table-get",t,k)})', lambda n: listed(f"({it},0)" for it in shuffled(n))),
    "the same with strings": ('?ps; table-of => t; !ps; all({k: ?(k,_); prim("table-get",t,k)})', lambda n: listed(f'("x{it}",0)' for it in shuffled(n))),
    "`table-put` and `table-remove`": (
        "?ps; table-of => t; !(ps,t); rec r(?([],_) <+ {k,qs,u,w: ?([(k,_)|qs],u); <table-remove(|k)> u => w; !(qs,w)}; r)",
        lambda n: listed(f"({it},0)" for it in shuffled(n)),
    ),
}


def counted(program, strategy, tree):
    """Instructions of an apply."""
    with tempfile.NamedTemporaryFile("w", suffix=".trm") as file:
        file.write(tree)
        file.flush()
        words = ["--steps", "1000000", "--library", *MODULES, "--tree", f"t={file.name}"]
        base, _ = instructions(program, words, "apply t do id\n")
        full, answers = instructions(program, words, f"apply t do {strategy}\n")
        assert answers == "ok", answers
    return full - base


def table(program, title, kinds, counts=COUNTS):
    heading(title)
    print(f"| | {' | '.join(map(str, counts))} |\n|---{'|---' * len(counts)}|")
    for name, (strategy, tree) in kinds.items():
        cells = [f"{counted(program, strategy, tree(count)) / count:,.0f}" for count in counts]
        print(f"| {name} | {' | '.join(cells)} |", flush=True)


def main():
    program = built_program()
    table(program, "Lists and strings by strategies: instructions an element", STRATEGIES)
    table(program, "Primitives that go over lists and strings: instructions an element", PRIMITIVES)
    table(program, "Tables: instructions an entry", TABLES, ENTRIES)


if __name__ == "__main__":
    main()
