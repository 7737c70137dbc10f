"""Counts the instructions that checking modules and resolving strategies takes, a token.

Run by hand at the top of the repository:

    python3 tools/measure/checks.py

It needs `rt`, `valgrind` and Python. A small program on `strategy_check` (checks.txt beside this file),
which is proved and built in a folder of its own, checks the modules or resolves the strategy of each
text and drops what came of it. Printed are instructions for each token, less those of a run that only
parses, for texts of about so many tokens.
"""

import tempfile

from measure import build, heading
from texts import names, nested, row, table

USES = "term_core prim_core strategy_syntax strategy_parse strategy_check anyhow"


def each(front, item, between=" "):
    """A text with an item for each number up to n."""
    return lambda n: front + between.join(item(i, n) for i in range(n))


# For each shape how many tokens one more part takes, and the text of so many parts.
MODULES = {
    "definitions `f1 = f7`": (3, each("m strategies ", lambda i, n: f"f{i} = f{i * 7 % n}")),
    "one definition `f = id` of many bodies": (3, row("m strategies ", "f = id", " ")),
    "one definition of many bodies, each with a variable of its own":
        (4, each("m strategies ", lambda i, n: f"f = ?v{i}")),
    "rules `R1 : x -> x`": (5, each("m rules ", lambda i, n: f"R{i} : x -> x")),
    "many modules of one definition":
        (5, each("", lambda i, n: f"m{i:06} strategies f{i} = id", "\n")),
    "one definition of many strategy parameters": (2, names("m strategies f(", ",", ") = id")),
    "of many term parameters": (2, names("m strategies f(|", ",", ") = id")),
}
STRATEGIES = {
    "`id;id;..`": (2, row("", "id", ";")),
    "`id<+id<+..`": (2, row("", "id", "<+")),
    "`[..]`": (2, nested("[", "id", "]")),
    "`rec`s in one another, with names of their own":
        (4, lambda n: "".join(f"rec x{i}(" for i in range(n)) + "id" + ")" * n),
    "scopes in one another, of one variable": (4, nested("{x:", "id", "}")),
    "scopes in one another, of many variables":
        (4, lambda n: "".join(f"{{x{i}:" for i in range(n)) + "id" + "}" * n),
    "one scope of many variables": (2, names("{", ",", ":id}")),
    "many free variables": (2, names("?(", ",", ")")),
    "closures with conditions in one another": (6, nested("\\ x -> x where ", "id", "\\")),
    "patterns `![..]`": (2, lambda n: "!" + "[" * n + "]" * n),
    "`?x@y@..`": (2, lambda n: "?" + "".join(f"x{i}@" for i in range(n)) + "x"),
}


def main():
    with tempfile.TemporaryDirectory() as folder:
        program = build(folder, "checks.txt", USES)
        heading("Checking modules: instructions a token, by tokens of the text")
        table(program, "check", MODULES)
        heading("Resolving strategies: instructions a token, by tokens of the text")
        table(program, "resolve", STRATEGIES)


if __name__ == "__main__":
    main()
