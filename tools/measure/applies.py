"""Counts what applying a strategy takes on the built program, from its text to its answer: instructions, and allocations.

Run by hand at the top of the repository, after the program was built (README has the command):

    python3 tools/measure/applies.py

It needs `valgrind` and Python. Instructions are counted by callgrind, allocations by memcheck, both less
those of a run without what is counted. The tree has so many terms, of which one is replaced, at a path of
two steps.
"""

import re
import subprocess

from measure import built_program, heading, instructions

TIMES = 1000
SIZES = [500, 50000]

# The tree f(a,a,a,g(a),..) with so many terms has lists of constants after its first children.
SIGNATURE = "module sig signature constructors B : t\n"
FRONT_TERMS = 6
LIST_TERMS = 10000

# What is repeated, and how the run ends then.
COMMANDS = [
    ("apply t at /3/0 do !B()", "", 0),
    ("apply t at /3/0 do !B()", "undo", 0),
    ("apply t at /3/0 do id", "", 0),
    ("apply t do id", "", 0),
    ("apply t do fail", "", 1),
]


def tree(terms):
    """Commands that make the tree."""
    lists = []
    left = terms - FRONT_TERMS
    while left > 0:
        lists.append(min(left, LIST_TERMS))
        left -= lists[-1]
    made = "tree t f(a,a,a,g(a)" + ",[]" * len(lists) + ")\n"
    for i, size in enumerate(lists):
        made += f"put t /{4 + i} [" + ",".join(["a"] * (size - 1)) + "]\n"
    return SIGNATURE + made


def allocations(program, text, status):
    """How many allocations a run takes that ends so."""
    run = subprocess.run(["valgrind", program], input=text.encode(), capture_output=True)
    assert run.returncode == status, run.stderr.decode()
    count = re.search(rb"total heap usage: ([0-9,]+) allocs", run.stderr)
    return int(count.group(1).replace(b",", b""))


def table(title, counted):
    """What each command takes in each tree, as a row."""
    print(f"| {title} | " + " | ".join(f"{size:,} terms" for size in SIZES) + " |")
    print("|---|" + "---|" * len(SIZES))
    without = {size: counted(tree(size), 0) for size in SIZES}
    for command, then, status in COMMANDS:
        counts = []
        for size in SIZES:
            count = counted(tree(size) + f"{command}\n{then}\n" * TIMES, status)
            counts.append(f"{(count - without[size]) / TIMES:,.0f}")
        label = f"`{command}` and `{then}`" if then else f"`{command}`"
        print(f"| {label} | " + " | ".join(counts) + " |")
    print()


def main():
    program = built_program()
    heading("Applies on the built program, from text to answer")
    table("Instructions a time", lambda text, status: instructions(program, [], text, status)[0])
    table("Allocations a time", lambda text, status: allocations(program, text, status))


if __name__ == "__main__":
    main()
