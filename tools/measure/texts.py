"""Counts the instructions that parsing strategies and modules takes, a token.

Run by hand at the top of the repository:

    python3 tools/measure/texts.py

It needs `rt`, `valgrind` and Python. A small program on `strategy_parse` (texts.txt beside this file),
which is proved and built in a folder of its own, parses each text and drops what it gave. Printed are
instructions for each token, less those of a run that only reads the text, for texts of about so many
tokens.
"""

import tempfile

from measure import build, heading, instructions

USES = "strategy_parse anyhow"
TOKENS = [500, 1000, 2000, 4000]


def nested(opening, middle, closing):
    return lambda n: opening * n + middle + closing * n


def row(front, item, between="", back=""):
    return lambda n: front + between.join([item] * n) + back


def names(front, between, back):
    return lambda n: front + between.join(f"v{i}" for i in range(n)) + back


# For each shape how many tokens one more part takes, and the text of so many parts.
STRATEGIES = {
    "`(..)`": (2, nested("(", "id", ")")),
    "`[..]`": (2, nested("[", "id", "]")),
    "`{:..}`": (3, nested("{:", "id", "}")),
    "`<..> x`": (3, nested("<", "id", "> x")),
    "`if .. then id end`": (4, nested("if ", "id", " then id end")),
    "`rec x(..)`": (4, nested("rec x(", "id", ")")),
    "`f(..)`": (3, nested("f(", "id", ")")),
    "closures in one another": (6, nested("\\ x -> x where ", "id", "\\")),
    "`id;id;..`": (2, row("", "id", ";")),
    "`id<+id<+..`": (2, row("", "id", "<+")),
    "`id=>x=>x..`": (2, row("id", "=>x")),
    "one closure of many variables": (2, names("\\ F(", ",", ") -> x \\")),
    "patterns `?x@x@..`": (2, row("?", "x@", "", "x")),
    "patterns `?c(c(..))`": (3, lambda n: "?" + "c(" * n + "x" + ")" * n),
    "names of a scope": (2, names("{", ",", ":id}")),
}
MODULES = {
    "sorts": (1, row("signature sorts ", "A", " ")),
    "sorts in brackets": (3, lambda n: "signature sorts " + "A(" * n + "A" + ")" * n),
    "declarations `F : A * B -> C`": (7, row("signature constructors ", "F : A * B -> C", " ")),
    "one declaration of many arguments": (2, row("signature constructors F : ", "A", " * ", " -> A")),
    "definitions `f = id`": (3, row("strategies ", "f = id", " ")),
    "definitions `f(s,t|x,y) = s; t`": (14, row("strategies ", "f(s,t|x,y) = s; t", " ")),
    "one head of many parameters": (2, names("strategies f(", ",", ") = id")),
    "rules `R : F(x) -> x`": (8, row("rules ", "R : F(x) -> x", " ")),
    "rules `R : F(x,y) -> z where <add> (x,y) => z`":
        (22, row("rules ", "R : F(x,y) -> z where <add> (x,y) => z", " ")),
    "one rule of many variables": (2, names("rules R : F(", ",", ") -> x")),
    "one condition of many variables": (2, names("rules R : x -> x where ?F(", ",", ")")),
    "empty sections": (1, row("", "rules", " ")),
    "a condition, many variables in a scope of many names":
        (4, lambda n: "rules R : x -> x where {" + ",".join(f"v{i}" for i in range(n)) + ": ?F("
            + ",".join(f"w{i}" for i in range(n)) + ")}"),
    "a condition, many variables in a closure of many":
        (4, lambda n: "rules R : x -> x where \\ F(" + ",".join(f"v{i}" for i in range(n)) + ") -> G("
            + ",".join(f"w{i}" for i in range(n)) + ") \\"),
    "a condition, many variables in closures of deep left sides":
        (4, lambda n: "rules R : x -> x where \\ " + "v@" * n + "v -> G("
            + ",".join(f"w{i}" for i in range(n)) + ") \\"),
    "a condition, a variable in each of many scopes":
        (7, lambda n: "rules R : x -> x where " + "{a: ?v; " * n + "id" + "}" * n),
    "a condition, many variables in many scopes":
        (6, lambda n: "rules R : x -> x where " + "{a:" * n + "?F(" + ",".join(["w"] * n) + ")"
            + "}" * n),
}


def table(program, work, shapes):
    print("| Text | " + " | ".join(f"{n:,}" for n in TOKENS) + " |")
    print("|---|" + "---|" * len(TOKENS))
    for name, (size, shape) in shapes.items():
        cells = []
        for tokens in TOKENS:
            text = shape((tokens - 20) // size)
            base, count = instructions(program, [work, "0"], text)
            all_of_it, _ = instructions(program, [work, "1"], text)
            cells.append(f"{(all_of_it - base) / int(count):.0f}")
        print("| " + name + " | " + " | ".join(cells) + " |", flush=True)


def main():
    with tempfile.TemporaryDirectory() as folder:
        program = build(folder, "texts.txt", USES)
        heading("Parsing strategies: instructions a token, by tokens of the text")
        table(program, "strategy", STRATEGIES)
        heading("Parsing modules: instructions a token, by tokens of the text")
        table(program, "module", MODULES)


if __name__ == "__main__":
    main()
