"""Counts what it takes to explain an apply that is refused, and to say where the steps of an accepted one went.

Run by hand at the top of the repository, after the program was built (README has the command):

    python3 tools/measure/explained.py [PROGRAM]

It needs `valgrind` and Python. A script loads a module and a tree; another one applies a strategy to it, too. The difference counts.
Printed are the steps of the strategy, the instructions of the apply, and how many times as many it takes with the option.
"""

import subprocess

from measure import built_program, heading, instructions
from strategies import LIBRARY, balanced, listed, logic, number


def other_last(tree):
    """The tree with another last leaf."""
    at = tree.rindex("A")
    return f"{tree[:at]}B{tree[at + 1 :]}"


# The strategy, the tree, the answer and the option.
SHAPES = {
    "`bottomup(try(W)); fail`": ("bottomup(try(W)); fail", balanced(2**11), "refused 12 fails", "--explain"),
    "`topdown(W)`, which fails at the last leaf": ("topdown(W <+ ?A())", other_last(balanced(2**11)), "refused 12 fails", "--explain"),
    "`innermost(E); ?B()`": ("innermost(E); ?B()", logic(2**8), "refused 12 fails", "--explain"),
    "`oncetd(?C())`": ("oncetd(?C())", balanced(2**11), "refused 12 fails", "--explain"),
    "`all(A)` of a list": ("all(?A()); map(?A()); one(?B())", listed(8000), "refused 12 fails", "--explain"),
    "`innermost(W)`": ("innermost(W)", balanced(2**8), "refused 13 spent", "--explain"),
    "`repeat(id)`": ("rec x(id; x)", balanced(2**8), "refused 13 spent", "--explain"),
    "`innermost(P)`": ("innermost(P)", f"Plus({number(30)},{number(30)})", "ok", "--profile"),
}


def main():
    program = built_program()
    heading("Runs that are explained: instructions of an apply")
    print("| Strategy | Option | Instructions of the apply | with the option | times |\n|---|---|---|---|---|")
    for name, (strategy, tree, answer, option) in SHAPES.items():
        loaded = f"{LIBRARY}\ntree t {tree}\n"
        applied = f"{loaded}apply t within 200000 do {strategy}\n"
        ran = subprocess.run([program, option], input=applied.encode(), capture_output=True)
        assert ran.stdout.decode().splitlines()[-1] == answer, (name, ran.stdout[-60:])
        status = 0 if answer == "ok" else 1
        plain = instructions(program, [], applied, status)[0] - instructions(program, [], loaded)[0]
        told = instructions(program, [option], applied, status)[0] - instructions(program, [option], loaded)[0]
        print(f"| {name} | `{option}` | {plain:,} | {told:,} | {told / plain:.1f} |")


if __name__ == "__main__":
    main()
