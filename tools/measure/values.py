"""Counts the instructions that work on values takes.

Run by hand at the top of the repository:

    python3 tools/measure/values.py

It needs `rt`, `valgrind` and Python. A small program on `term_values` and `term_match` (values.txt beside this
file), which is proved and built in a folder of its own, does the work on a term. Printed are instructions for
each part of it, less those of a run that does nothing, for two sizes of which the second is eight or ten times
the first.
"""

import tempfile

from measure import build, heading, instructions

USES = "term_core aterm_text strategy_syntax change_log term_values term_match anyhow"


def listed(count):
    return "[" + ",".join(["A"] * count) + "]"


def balanced(leaves):
    return "A" if leaves == 1 else f"F({balanced(leaves // 2)},{balanced(leaves // 2)})"


def lists(terms):
    """The tree f(a,a,a,g(a),[a,..],..) with so many terms."""
    left = terms - 6
    parts = []
    while left > 0:
        parts.append("[" + ",".join(["a"] * (min(left, 10000) - 1)) + "]")
        left -= 10000
    return ",".join(["f(a,a,a,g(a)", *parts]) + ")"


# What is done, how often, on which term for a size, how many parts the work has then, and the two sizes.
WORKS = {
    "a list taken apart by `rest` and put together by fronts, an element": ("list", 1, listed, lambda n: n, [10000, 100000]),
    "`F(x,y)` matched and `F(y,x)` built, upwards, a node": ("up", 1, listed, lambda n: 2 * n - 1, [2**11, 2**14]),
    "the same downwards, a node": ("down", 1, balanced, lambda n: 2 * n - 1, [2**11, 2**14]),
    "from a value to the entry for its place": ("put", 100, lists, lambda n: 1, [500, 50000]),
}


def main():
    with tempfile.TemporaryDirectory() as folder:
        program = build(folder, "values.txt", USES)
        heading("Values, matching and building: instructions")
        print("| What | Size | Instructions | Size | Instructions |")
        print("|---|---|---|---|---|")
        for name, (work, times, term, parts, sizes) in WORKS.items():
            cells = []
            for size in sizes:
                text = term(size)
                base, _ = instructions(program, [work, "0"], text)
                count, _ = instructions(program, [work, str(times)], text)
                cells += [f"{size:,}", f"{(count - base) / times / parts(size):.0f}"]
            print(f"| {name} | {' | '.join(cells)} |", flush=True)


if __name__ == "__main__":
    main()
