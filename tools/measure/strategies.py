"""Counts the instructions that applying strategies takes, a step.

Run by hand at the top of the repository, after the program was built (README has the command):

    python3 tools/measure/strategies.py [PROGRAM]

It needs `valgrind` and Python. Two scripts are run for each shape. Both load a module and a tree; one applies a strategy and undoes it once,
the other four times. A third of the difference counts. Printed are the steps that the strategy takes and instructions for each, for two
sizes of which the second is eight times the first.
"""

import re
import subprocess

from measure import built_program, heading, instructions

LIBRARY = """module m signature constructors A : t  B : t  C : t  Z : t  F : t * t -> t  G : t -> t  S : t -> t
  Plus : t * t -> t  Num : t -> t  Not : t -> t  And : t * t -> t  Or : t * t -> t  T : t  U : t  strategies try(s) = s <+ id  topdown(s) = s; all(topdown(s))  bottomup(s) = all(bottomup(s)); s
  oncetd(s) = s <+ one(oncetd(s))  innermost(s) = bottomup(try(s; innermost(s)))
  outermost(s) = try(oncetd(s); outermost(s))  map(s) = [] <+ [s|map(s)]
  reverse = \\ xs -> (xs,[]) \\; rec r(\\ ([x|xs],ys) -> (xs,[x|ys]) \\; r <+ \\ ([],ys) -> ys \\)
  alltd(s) = s <+ all(alltd(s))  I = {i, j: ?Num(i); where(prim("addi",i,1); ?j); !Num(j)}
  W = \\ F(x,y) -> F(y,x) \\  P = \\ Plus(Z(),x) -> x \\ <+ \\ Plus(S(x),y) -> S(Plus(x,y)) \\
  E = \\ Not(Not(x)) -> x \\ <+ \\ Not(And(x,y)) -> Or(Not(x),Not(y)) \\ <+ \\ Not(Or(x,y)) -> And(Not(x),Not(y)) \\
  <+ \\ Not(T()) -> U() \\ <+ \\ Not(U()) -> T() \\ <+ \\ And(T(),x) -> x \\ <+ \\ And(x,T()) -> x \\ <+ \\ And(U(),x) -> U() \\
  <+ \\ And(x,U()) -> U() \\ <+ \\ Or(T(),x) -> T() \\ <+ \\ Or(x,T()) -> T() \\ <+ \\ Or(U(),x) -> x \\""".replace("\n", " ")


def balanced(leaves, leaf="A"):
    return leaf if leaves == 1 else f"F({balanced(leaves // 2, leaf)},{balanced(leaves // 2, leaf)})"


def listed(count):
    return "[" + ",".join(["A"] * count) + "]"


def numbers(count):
    return "[" + ",".join(["Num(7)"] * count) + "]"


def number(n):
    return "S(" * n + "Z" + ")" * n


def logic(n):
    return "A" if n == 1 else f"Not(And({logic(n // 2)},Or(T,{logic(n // 2)})))"


def deep(n):
    return "G(" * n + "A" + ")" * n


def last(leaves):
    """A balanced tree whose last leaf is another one."""
    return "B" if leaves == 1 else f"F({balanced(leaves // 2)},{last(leaves // 2)})"


# For each shape the strategy, the term for a size, and the smaller size.
SHAPES = {
    "`topdown(id)`": ("topdown(id)", balanced, 2**8),
    "`bottomup(try(W))`": ("bottomup(try(W))", balanced, 2**8),
    "`topdown(try(W))`": ("topdown(try(W))", balanced, 2**8),
    "`alltd(I)`": ("alltd(I)", numbers, 600),
    "`all(!B())`": ("all(!B())", listed, 1000),
    "`map(!B())`": ("map(!B())", listed, 1000),
    "reversal by an accumulator": ("reverse", listed, 500),
    "`innermost(P)`": ("innermost(P)", lambda n: f"Plus({number(n)},{number(n)})", 15),
    "`outermost(P)`": ("outermost(P)", lambda n: f"Plus({number(n)},{number(n)})", 11),
    "`oncetd` to the last leaf": ("oncetd(?B(); !C())", last, 2**8),
    "failing": ("(bottomup(try(?A(); !B())); fail) <+ id", balanced, 2**8),
    "`where(..)`": ("where(bottomup(try(?A(); !B())))", balanced, 2**8),
    "`innermost(E)`, twelve rules": ("innermost(E)", logic, 2**5),
    "deep": ("topdown(try(?G(x); !G(x)))", deep, 60),
}


def steps_of(program, loaded, strategy):
    """How many steps the strategy takes, as `preview` says."""
    text = f"{loaded}preview t do {strategy}\n"
    ran = subprocess.run([program, "--steps", "1000000"], input=text.encode(), capture_output=True, check=True)
    return int(re.search(rb"steps (\d+)", ran.stdout).group(1))


def counted(program, loaded, strategy, steps):
    """Instructions a step."""
    words = ["--steps", "1000000"]
    work = f"apply t do {strategy}\nundo\n"
    once, _ = instructions(program, words, loaded + work)
    often, answers = instructions(program, words, loaded + 4 * work)
    assert answers.split("\n") == 10 * ["ok"], answers
    return (often - once) / 3 / steps


def main():
    program = built_program()
    heading("Strategies: instructions a step, applying and undoing")
    print("| Shape | steps | instructions a step | steps | instructions a step |")
    print("|---|---|---|---|---|")
    for name, (strategy, term, size) in SHAPES.items():
        cells = []
        for n in (size, 8 * size):
            loaded = f"{LIBRARY}\ntree t {term(n)}\n"
            steps = steps_of(program, loaded, strategy)
            cells += [f"{steps:,}", f"{counted(program, loaded, strategy, steps):.0f}"]
        print(f"| {name} | {' | '.join(cells)} |", flush=True)


if __name__ == "__main__":
    main()
