"""Counts what scripts take on the built program: instructions for their bytes and commands, memory for steps.

Run by hand at the top of the repository, after the program was built (README has the command):

    python3 tools/measure/scripts.py

It needs `valgrind` and Python. Instructions are counted by callgrind, less those of a run without what
is counted. Memory is the most of a run that lies in memory at a time.
"""

import os
import subprocess
import tempfile

from measure import BYTES, SHAPES, built_program, heading, instructions

NAMES = 1000
TIMES = 1000
STEPS = 1000000
LEAVES = 10000


def texts(program, empty):
    """Reading a tree's text, keeping it, and dropping it at the end."""
    for name, shape in SHAPES.items():
        text = shape(BYTES)
        count, answer = instructions(program, [], "tree t " + text + "\n")
        assert answer == "ok", answer
        print(f"| {name} | {(count - empty) / len(text):.1f} |")


def over_lines(program):
    """Printing a tree over lines."""
    for name, shape in SHAPES.items():
        tree = "tree t " + shape(BYTES) + "\n"
        without, _ = instructions(program, [], tree)
        count, answer = instructions(program, [], tree + "pretty t\n")
        printed = answer.removeprefix("ok\n")
        print(f"| {name}, `pretty`, a byte of its answer | {(count - without) / (len(printed) + 1):.1f} |")


def comments(program, empty):
    for length in [60, BYTES]:
        text = ("#" + "c" * (length - 2) + "\n") * (BYTES // length)
        count, _ = instructions(program, [], text)
        print(f"| comments of {length:,} bytes | {(count - empty) / len(text):.1f} |")


def commands(program):
    """Commands one by one, beside so many names."""
    others = "".join(f"tree t{i} f(a,b)\n" for i in range(NAMES))
    without, _ = instructions(program, [], others)
    for command in ["tree t5 f(a,7)", "tree t5 g", "show t5", "undo\nredo"]:
        count, _ = instructions(program, [], others + (command + "\n") * TIMES)
        label = command.replace("\n", "` and `")
        print(f"| `{label}` beside {NAMES:,} names, a time | {(count - without) / TIMES:,.0f} |")


def changes(program):
    """Showing what the last step changed."""
    tree = "tree t [" + ",".join(["a"] * LEAVES) + "]\n"
    for what, change, lines in [
        (f"one leaf of {LEAVES:,}", f"put t /{LEAVES // 2} b\n", 1),
        (f"each leaf of {LEAVES:,}", "apply t do all(!1)\n", LEAVES),
    ]:
        without, _ = instructions(program, [], tree + change)
        count, answer = instructions(program, [], tree + change + "diff\n")
        assert f"changes {lines}\n" in answer, answer[:200]
        print(f"| `diff` after a step that changed {what}, a line | {(count - without) / lines:,.0f} |")


def most_memory(program, lines):
    """The most memory that a run holds at a time, in KiB.

    The script is written line by line, since the system counts the memory of this process to the run that it becomes.
    """
    with tempfile.TemporaryFile("w+") as script:
        script.writelines(lines)
        script.seek(0)
        run = subprocess.Popen([program], stdin=script, stdout=subprocess.DEVNULL)
        _, status, used = os.wait4(run.pid, 0)
    run.returncode = os.waitstatus_to_exitcode(status)
    assert run.returncode == 0
    return used.ru_maxrss


def steps(program):
    used = most_memory(program, (f"tree t{i % NAMES} f(a,{i})\n" for i in range(STEPS)))
    print(f"| {STEPS:,} steps `tree tK f(a,N)` over {NAMES:,} names, bytes a step | {used * 1024 / STEPS:.0f} |")


def main():
    program = built_program()
    empty, _ = instructions(program, [], "")
    heading("Scripts on the built program: instructions a byte or a command")
    print("| What | |")
    print("|---|---|")
    texts(program, empty)
    over_lines(program)
    comments(program, empty)
    commands(program)
    changes(program)
    steps(program)


if __name__ == "__main__":
    main()
