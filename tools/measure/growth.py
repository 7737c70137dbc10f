"""Counts what lists take that strategies make and then take apart, an element, to see that it doesn't grow with their length.

Run by hand at the top of the repository, after the program was built (README has the command):

    python3 tools/measure/growth.py [PROGRAM]

It needs `valgrind` and Python. A list is loaded from a file, by `--tree`; a strategy makes another of it, and most of them reverse that.
Instructions are counted by callgrind, less those of a run that applies `id`.
"""

import tempfile

from measure import built_program, heading, instructions

LIBRARY = r"""module lists
  signature constructors A : t  B : t  F : t * t -> t
  strategies
    map(s) = [] <+ [s|map(s)]
    anew(s) = (?[]; ![]) <+ [s|anew(s)]
    filter(s) = [] <+ {x,xs,ys: ?[x|xs]; where(<s> x); !xs; filter(s); ?ys; ![x|ys]}
    concat = \ ([],ys) -> ys \ <+ {x,xs,ys,zs: ?([x|xs],ys); !(xs,ys); concat; ?zs; ![x|zs]}
    onto = \ ([],a) -> a \ <+ (\ ([x|xs],a) -> (xs,[x|a]) \; onto)
    reverse = {x: ?x; !(x,[]); onto}
    twice = {x: ?x; !(x,x); concat}
"""


def element(levels, i):
    """A term of twice as many terms as levels, and one."""
    return "F(A," * levels + (str(i) if levels else "A") + ")" * levels


# For each kind of elements how many levels they have, and the lengths of lists.
ELEMENTS = {
    "`A`": (0, [500, 2000, 8000]),
    "`F(A,i)`": (1, [500, 2000, 8000]),
    "of 31 terms": (15, [80, 320, 1280]),
    "of 63 terms": (31, [40, 160, 640]),
}
STRATEGIES = [
    "map(!B()); reverse",
    "map(id); reverse",
    r"map(\ x -> F(x,x) \); reverse",
    "anew(id); reverse",
    "filter(id); reverse",
    "map(id); map(id); reverse",
    "reverse; reverse",
    "reverse; map(id); reverse",
    "twice; reverse",
]


def counted(program, levels, count, strategy):
    """Instructions of an apply on such a list, an element."""
    with tempfile.NamedTemporaryFile("w", suffix=".trm") as file:
        file.write("[" + ",".join(element(levels, i) for i in range(count)) + "]")
        file.flush()
        words = ["--steps", "1000000", "--tree", f"t={file.name}"]
        base, _ = instructions(program, words, LIBRARY + "apply t do id\n")
        full, answers = instructions(program, words, LIBRARY + f"apply t do {strategy}\n")
        assert answers == "ok\nok", answers
    return (full - base) / count


def main():
    program = built_program()
    heading("Lists that strategies make: instructions an element")
    print("| Strategy | elements | lengths | | | |")
    print("|---|---|---|---|---|---|")
    for strategy in STRATEGIES:
        name = f"`{strategy}`"
        for kind, (levels, counts) in ELEMENTS.items():
            cells = [f"{counted(program, levels, count, strategy):,.0f}" for count in counts]
            lengths = ", ".join(f"{count:,}" for count in counts)
            print(f"| {name} | {kind} | {lengths} | " + " | ".join(cells) + " |", flush=True)
            name = ""


if __name__ == "__main__":
    main()
