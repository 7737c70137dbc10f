"""Counts the instructions that changes of a session, undo and redo take.

Run by hand at the top of the repository, after the program was built (README has the command):

    python3 tools/measure/sessions.py

It needs `rt`, `valgrind` and Python. The calls are measured by a small program on `session_core`
(sessions.txt beside this file), which is proved and built in a folder of its own, the command `tree` on
the built program. Printed are instructions for one call, less those of a run without them.
"""

import tempfile

from measure import build, built_program, heading, instructions

USES = "term_core term_paths prim_core session_core itoa anyhow"
TIMES = 1000


def places(program):
    """Changes of one place of a list, taken back one by one."""
    heading("Changes of a session: instructions a call")
    print("| Terms of the tree | Other trees | `put` | `undo` |")
    print("|---|---|---|---|")
    for terms in [1000, 10000, 90000]:
        for trees in [1, 1000]:
            counts = {}
            for work, times in [("put", 0), ("put", TIMES), ("undo", TIMES)]:
                words = [work, str(terms), str(trees), str(times)]
                counts[work, times], _ = instructions(program, words, "")
            put = (counts["put", TIMES] - counts["put", 0]) / TIMES
            undo = (counts["undo", TIMES] - counts["put", TIMES]) / TIMES
            print(f"| {terms:,} | {trees:,} | {put:.0f} | {undo:.0f} |")


def histories(program):
    """Many steps, undone and made again by one call each."""
    heading("Long histories: instructions")
    print("| Steps | undone and redone, a step |")
    print("|---|---|")
    for steps in [1000, 10000, 100000]:
        made, _ = instructions(program, ["put", "10", "1", str(steps)], "")
        moved, _ = instructions(program, ["move", "10", "1", str(steps)], "")
        print(f"| {steps:,} | {(moved - made) / steps:.0f} |")


def tree_command(stratbench):
    """The command `tree n5 g` beside 800 other trees."""
    others = "".join(f"tree n{i} f(a,b)\n" for i in range(800))
    without, _ = instructions(stratbench, [], others)
    with_them, _ = instructions(stratbench, [], others + "tree n5 g\n" * TIMES)
    heading("The command `tree`, on the built program: instructions")
    print(f"`tree n5 g` beside 800 trees: {(with_them - without) / TIMES:.0f}")


def main():
    stratbench = built_program()
    with tempfile.TemporaryDirectory() as folder:
        program = build(folder, "sessions.txt", USES)
        places(program)
        histories(program)
    tree_command(stratbench)


if __name__ == "__main__":
    main()
