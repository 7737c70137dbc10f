"""Counts the instructions that compacting a log takes, and that a program which undo keeps saves.

Run by hand at the top of the repository, after the program was built (README has the command):

    python3 tools/measure/logs.py

It needs `rt`, `valgrind` and Python. Logs are measured by a small program on `change_log` (logs.txt
beside this file), which is proved and built in a folder of its own; printed are instructions for each
entry that was pushed, less those of a run without the call. A kept program is measured on the built
program, by commands beside a module of many definitions.
"""

import tempfile

from measure import build, built_program, heading, instructions

USES = "term_core change_log anyhow"
SHAPES = {
    "place": "all at one place",
    "leaves": "each at a leaf of one tree",
    "chain": "at 100 places within one another",
}
DEFINITIONS = 900
TIMES = 1000


def compacting(program):
    """Logs of so many entries in each shape."""
    heading("Logs: instructions an entry that was pushed")
    print("| Entries | | left | push | compact | take back | take back, compact |")
    print("|---|---|---|---|---|---|---|")
    for shape, told in SHAPES.items():
        for entries in [1, 1000, 10000, 100000]:
            counts = {}
            for work in ["nothing", "push", "compact", "back", "both"]:
                counts[work], left = instructions(program, [shape, str(entries), work], "")
            each = {
                "push": counts["push"] - counts["nothing"],
                "compact": counts["compact"] - counts["push"],
                "back": counts["back"] - counts["push"],
                "both": counts["both"] - counts["compact"],
            }
            row = " | ".join(f"{count / entries:,.1f}" for count in each.values())
            print(f"| {told} | {entries:,} | {int(left):,} | {row} |", flush=True)


def kept_program(stratbench):
    """Changes, undo and groups beside a module whose program is kept."""
    definitions = "".join(f" f{i} = id" for i in range(DEFINITIONS))
    start = f"module m strategies{definitions}\ntree t f(a)\n"
    turn = "put t /0 b\nundo\nbegin\nput t /0 c\ncommit\n"
    counts = [instructions(stratbench, [], start + turn * times)[0] for times in [1, TIMES + 1]]
    heading("Changes beside a kept program, on the built program: instructions")
    print(f"`put`, `undo`, `begin`, `put`, `commit` beside {DEFINITIONS} definitions: {(counts[1] - counts[0]) / TIMES:,.0f}")


def main():
    stratbench = built_program()
    with tempfile.TemporaryDirectory() as folder:
        compacting(build(folder, "logs.txt", USES))
    kept_program(stratbench)


if __name__ == "__main__":
    main()
