"""Measures what trees of any size take on the built program: seconds, and memory.

Run by hand at the top of the repository, after the program was built (README has the command):

    python3 tools/measure/sizes.py [--instructions] [PROGRAM] [TERMS..]

It needs Python; TERMS are 100,000, 1,000,000 and 10,000,000 if left out. Trees of so many terms are made, one of each shape, and loaded by
`--tree` with `--max-terms`. The time is that of the processor; for a strategy, and for `--write`, it is that of a run with it less that of a
run without. Memory is the most that the run with the last strategy, which writes its tree, took. With `--instructions` these are counted by
`valgrind`, in place of the time.
"""

import os
import subprocess
import sys
import tempfile

from measure import built_program, heading, instructions

SIZES = [100_000, 1_000_000, 10_000_000]
MODULE = r"""module sums
  signature constructors Plus : e * e -> e  Zero : e
  rules Unit : Plus(x,Zero()) -> x
"""
STRATEGIES = ["topdown(id)", "bottomup(try(Unit))"]
# The budget, a term of the tree.
STEPS = 20


def wide(terms):
    """A list of sums, of which every fifth has a zero in it."""
    yield "["
    for at in range((terms - 1) // 9):
        zero = "Zero" if at % 5 == 0 else "One"
        yield f'{"," if at else ""}Set("x{at % 1000}",Plus(Plus(Var("y"),{zero}),Var("x{at}")))'
    yield "]"


def tall(terms):
    """A tree of pairs, as low as it may be, with integers at its ends."""
    ends = (terms + 1) // 2
    waiting = [(0, ends)]
    while waiting:
        it = waiting.pop()
        if isinstance(it, str):
            yield it
        elif it[1] - it[0] == 1:
            yield str(it[0])
        else:
            middle = (it[0] + it[1]) // 2
            waiting += [")", (middle, it[1]), ",", (it[0], middle), "Pair("]


SHAPES = {"a list of sums": wide, "pairs of pairs": tall}


def seconds(program, words, script):
    """The seconds that a run takes of the processor, and the most memory that it takes, in MB."""
    with tempfile.TemporaryFile("w+") as given:
        given.write(script)
        given.seek(0)
        ran = subprocess.Popen([program, *words], stdin=given, stdout=subprocess.PIPE)
        answers = ran.stdout.read()
        _, ran.returncode, usage = os.wait4(ran.pid, 0)
    assert ran.returncode == 0 and answers.count(b"ok\n") == script.count("apply") + 1, answers
    return usage.ru_utime + usage.ru_stime, usage.ru_maxrss / 1024


def counted(program, words, script):
    """The instructions of a run, in place of seconds."""
    return instructions(program, words, script)[0], 0


def row(program, folder, shape, terms, run):
    """What a tree takes to be loaded, for each strategy, and to be written; the bytes of its text; and MB of memory."""
    with open(f"{folder}/tree", "w") as it:
        it.writelines(SHAPES[shape](terms))
    words = ["--library", "--max-terms", str(max(terms, SIZES[0])), "--max-steps", "4000000000", "--tree", f"t={folder}/tree"]
    budget = STEPS * terms
    loaded, _ = run(program, words, MODULE)
    taken = [loaded]
    for strategy in STRATEGIES:
        script = f"{MODULE}apply t within {budget} do {strategy}\n"
        taken.append(run(program, words, script)[0] - loaded)
    whole, memory = run(program, [*words, "--write", f"t={folder}/out"], script)
    taken.append(whole - loaded - taken[-1])
    return taken, os.path.getsize(f"{folder}/tree"), memory


def main():
    sizes = [int(it) for it in sys.argv[1:] if it.isdigit()] or SIZES
    run = counted if "--instructions" in sys.argv else seconds
    sys.argv[1:] = [it for it in sys.argv[1:] if not it.isdigit() and it != "--instructions"]
    program = built_program()
    each, unit = (1, "instructions") if run is counted else (1e9, "nanoseconds")
    heading(f"Trees of any size: {unit} a term")
    columns = ["Tree", "terms", "bytes", "loaded", *[f"`{it}`" for it in STRATEGIES], "written", "all"]
    columns += [] if run is counted else ["seconds", "MB", "bytes of memory a term"]
    print("| " + " | ".join(columns) + " |\n" + "|---" * len(columns) + "|")
    with tempfile.TemporaryDirectory() as folder:
        for shape in SHAPES:
            for terms in sizes:
                taken, size, memory = row(program, folder, shape, terms, run)
                cells = [shape, f"{terms:,}", f"{size:,}", *[f"{it * each / terms:,.0f}" for it in [*taken, sum(taken)]]]
                cells += [] if run is counted else [f"{sum(taken):,.1f}", f"{memory:,.0f}", f"{memory * 2**20 / terms:,.0f}"]
                print("| " + " | ".join(cells) + " |", flush=True)


if __name__ == "__main__":
    main()
