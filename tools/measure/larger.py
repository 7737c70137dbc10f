"""Counts the instructions a step of twenty larger workloads, applying and undoing.

Run by hand at the top of the repository, after the program was built (README has the command):

    python3 tools/measure/larger.py [PROGRAM [OTHER]]

It needs `valgrind` and Python, and takes some five minutes. `workloads.py` has the workloads. Each strategy is applied and undone once, and
three times in another run; half of the difference counts. OTHER is a program that reads the same scripts: its answers have to be the same,
and its instructions are printed beside, with the ratio.
"""

import math
import os
import subprocess
import sys

from measure import built_program, heading, instructions
from strategies import steps_of
from workloads import WORK

WORDS = ["--steps", "1000000"]


def answers(program, text):
    """What the program answers, line by line."""
    ran = subprocess.run([program, *WORDS], input=text.encode(), capture_output=True, check=True)
    return ran.stdout.decode().strip().split("\n")


def counted(program, loaded, strategy, steps):
    """Instructions a step."""
    work = f"apply t do {strategy}\nundo\n"
    once, _ = instructions(program, WORDS, loaded + work)
    often, _ = instructions(program, WORDS, loaded + 3 * work)
    return (often - once) / 2 / steps


def main():
    programs = [built_program(), *map(os.path.abspath, sys.argv[2:3])]
    heading("Larger work: instructions a step, applying and undoing")
    columns = ["Workload", "steps", "instructions a step", "the other program", "ratio"][: 3 if len(programs) == 1 else 5]
    print(f"| {' | '.join(columns)} |\n|{'---|' * len(columns)}", flush=True)
    ratios = []
    for name, module, tree, strategy in WORK:
        loaded = module.replace("\n  ", "\n   ").rstrip("\n") + f"\ntree t {tree}\n"
        shown = [answers(p, f"{loaded}show t\napply t do {strategy}\nshow t\nundo\nshow t\n") for p in programs]
        assert shown[0][3] == "ok" and shown[0][2] == shown[0][6] != shown[0][4], name
        assert all(s == shown[0] for s in shown), name
        steps = steps_of(programs[0], loaded, strategy)
        each = [counted(p, loaded, strategy, steps) for p in programs]
        cells = [name, f"{steps:,}", *(f"{x:.0f}" for x in each)]
        if len(each) == 2:
            ratios.append(each[0] / each[1])
            cells.append(f"{ratios[-1]:.1f}")
        print(f"| {' | '.join(cells)} |", flush=True)
    if ratios:
        geometric = math.exp(sum(map(math.log, ratios)) / len(ratios))
        print(f"\nGeometric mean of the ratios {geometric:.1f}, arithmetic {sum(ratios) / len(ratios):.1f}.")


if __name__ == "__main__":
    main()
