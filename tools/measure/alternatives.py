"""Counts the instructions that a rewrite takes, by how many rules there are to choose from.

Run by hand at the top of the repository, after the program was built (README has the command):

    python3 tools/measure/alternatives.py [PROGRAM]

It needs `valgrind` and Python. `all(R)` rewrites the terms of a list, each by one of the rules of `R`, and each rule is used as often as the
others. Two scripts are run for each row: one applies it and undoes it once, the other four times. A third of the difference counts, by the
number of terms. 200 rules don't fit into one module: there `R` is a choice between those of two.
"""

from measure import built_program, heading, instructions

TERMS = 400
# By what the rules are told apart: the left side of rule i, and the right side, which has x.
KINDS = {
    "the root": ("F{}(x,y)", "G(x,y)"),
    "the first argument": ("F(C{}(),x)", "G(x,x)"),
    "the second argument": ("F(x,C{}())", "G(x,x)"),
    "an integer": ("F({},x)", "G(x,x)"),
    "the first argument's first": ("F(P(C{}(),y),x)", "G(x,y)"),
    "the first argument, with a condition": ("F(C{}(),x)", "G(x,y) where !x => y"),
}
SIZES = {10: 1, 50: 1, 200: 2}


def modules(left, right, count, parts):
    """The rules as modules, and the names of their rules."""
    names = [f"R{i}" for i in range(parts)]
    texts = []
    for part, name in enumerate(names):
        rules = [f"{name} : {left.format(i)} -> {right}" for i in range(part * count // parts, (part + 1) * count // parts)]
        texts.append(f"module m{part} rules " + " ".join(rules) + "\n")
    constructors = ["G : t * t -> t", "F : t * t -> t", "P : t * t -> t", "Z : t"]
    constructors += [f"C{i} : t  F{i} : t * t -> t" for i in range(count)]
    return f"module m signature constructors {'  '.join(constructors)}\n" + "".join(texts), names


def counted(program, left, right, count, parts):
    """Instructions a rewrite."""
    texts, names = modules(left, right, count, parts)
    terms = ",".join(left.format(i % count).replace("x", "Z()").replace("y", "Z()") for i in range(TERMS))
    loaded = f"{texts}tree t [{terms}]\n"
    work = f"apply t within 1000000 do all({' <+ '.join(names)})\nundo\n"
    once, _ = instructions(program, [], loaded + work)
    often, answers = instructions(program, [], loaded + 4 * work)
    assert answers.split("\n") == (10 + parts) * ["ok"], answers
    return (often - once) / 3 / TERMS


def main():
    program = built_program()
    heading("Alternatives: instructions a rewrite, applying and undoing")
    print(f"| Told apart by | {' | '.join(f'{count} rules' for count in SIZES)} |")
    print(f"|---|{'---|' * len(SIZES)}")
    for kind, (left, right) in KINDS.items():
        cells = [f"{counted(program, left, right, count, parts):,.0f}" for count, parts in SIZES.items()]
        print(f"| {kind} | {' | '.join(cells)} |", flush=True)


if __name__ == "__main__":
    main()
