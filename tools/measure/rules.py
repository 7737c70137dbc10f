"""Counts the instructions that a rewrite takes where one of many rules matches.

Run by hand at the top of the repository, after the program was built (README has the command):

    python3 tools/measure/rules.py [PROGRAM]

It needs `valgrind` and Python. The rules have one name and one root, and are told apart further down. A list of terms is rewritten, each of
which one rule matches, chosen at random by a fixed seed. Two scripts are run for each number of rules: one applies a strategy and undoes it
once, the other three times. Half the difference counts, for each term.
"""

import random

from measure import built_program, heading, instructions

TERMS = 200
COUNTS = (1, 10, 50, 200)
CONTROL = "try(s) = s <+ id  bottomup(s) = all(bottomup(s)); s  map(s) = [] <+ [s|map(s)]"

# What tells the rules apart: the left side of rule i, and a term that it matches.
ROOTS = {
    "the root of the argument": lambda i, x: f"F(C{i}({x}))",
    "that of the second argument": lambda i, x: f"G({x},C{i}({x}))",
    "the root two levels down": lambda i, x: f"F(S(C{i}({x})))",
}
STRATEGIES = ("map(R)", "bottomup(try(R))")


def loaded(term, count):
    """The commands that load so many rules and a list of terms."""
    names = "  ".join(f"C{i} : t -> t" for i in range(count))
    rules = " ".join(f"R : {term(i, 'x')} -> H(x)" for i in range(count))
    chosen = random.Random(count)
    terms = ",".join(term(chosen.randrange(count), "A") for _ in range(TERMS))
    # the rules have a module of their own, since a text has at most 4,000 tokens
    yield f"module m signature constructors A : t  F : t -> t  G : t * t -> t  S : t -> t  H : t -> t  {names} strategies {CONTROL}"
    yield f"module r rules {rules}"
    yield f"tree t [{terms}]"


def counted(program, term, count, strategy):
    """Instructions a rewrite."""
    words = ["--steps", "1000000"]
    loading = "\n".join(loaded(term, count)) + "\n"
    work = f"apply t do {strategy}\nundo\n"
    once, _ = instructions(program, words, loading + work)
    often, answers = instructions(program, words, loading + 3 * work)
    assert answers.split("\n") == 9 * ["ok"], answers
    return (often - once) / 2 / TERMS


def main():
    program = built_program()
    heading("Many rules of one name: instructions a rewrite, applying and undoing")
    print(f"| The rules are told apart by | strategy | {' | '.join(f'of {n}' for n in COUNTS)} |")
    print(f"|---|---|{'---|' * len(COUNTS)}")
    for name, term in ROOTS.items():
        for strategy in STRATEGIES:
            cells = (f"{counted(program, term, n, strategy):,.0f}" for n in COUNTS)
            print(f"| {name} | `{strategy}` | {' | '.join(cells)} |", flush=True)


if __name__ == "__main__":
    main()
