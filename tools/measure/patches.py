"""Counts what many replaced places take on the built program: instructions a step, time and memory; and what a preview takes.

Run by hand at the top of the repository, after the program was built (README has the command):

    python3 tools/measure/patches.py [PROGRAM]

It needs `valgrind`, GNU time and Python. Instructions are counted by callgrind, less those of a run without what is counted. Memory is
the most that the whole program took.
"""

import subprocess
import time

from applies import SIGNATURE, tree
from measure import built_program, heading, instructions

TIMES = 20
WIDE = [1000, 8000]
DEEP = [400, 800]
LEAVES = 10
LIBRARY = """module lib signature constructors A : t  strategies try(s) = s <+ id  bottomup(s) = all(bottomup(s)); s
"""


def wide(program):
    """`all(!B())` on a list of so many elements, applied and undone: instructions a step."""
    print("| `all(!B())` and `undo` | elements | instructions a step |")
    print("|---|---|---|")
    for count in WIDE:
        front = f"{SIGNATURE}tree t [{','.join('a' for _ in range(count))}]\n"
        base, _ = instructions(program, [], front)
        full, _ = instructions(program, [], front + "apply t do all(!B())\nundo\n" * TIMES)
        print(f"| | {count:,} | {(full - base) / TIMES / (count + 1):.0f} |", flush=True)
    print()


def spine(levels):
    """A tree with so many levels, and ten leaves at each."""
    return ("N([" + ",".join(["A"] * LEAVES) + "],") * levels + "A" + ")" * levels


def used(program, text):
    """Seconds, and the most memory in KB."""
    begun = time.monotonic()
    ran = subprocess.run(["/usr/bin/time", "-f", "%M", program], input=text.encode(), capture_output=True)
    taken = time.monotonic() - begun
    assert ran.returncode == 0, ran.stderr
    return taken, int(ran.stderr)


def deep(program):
    """Each leaf of a spine replaced, undone and redone."""
    print("| `bottomup(try(?A(); !B()))`, `undo`, `redo` on a spine | levels | seconds | MB of the program |")
    print("|---|---|---|---|")
    for levels in DEEP:
        text = f"{SIGNATURE}{LIBRARY}tree t {spine(levels)}\napply t within 1000000 do bottomup(try(?A(); !B()))\nundo\nredo\n"
        runs = [used(program, text) for _ in range(5)]
        print(f"| | {levels} | {min(it[0] for it in runs):.3f} | {max(it[1] for it in runs) / 1024:.1f} |", flush=True)
    print()


def one(program):
    """One place of a tree of 50,000 terms: from the text to the answer."""
    print("| In a tree of 50,000 terms | instructions |")
    print("|---|---|")
    front = tree(50000)
    base, _ = instructions(program, [], front)
    undone = "apply t at /3/0 do !B()\n"
    with_step, _ = instructions(program, [], front + undone)
    for name, begun, commands in [
        ("`apply t at /3/0 do !B()`", base, "apply t at /3/0 do !B()\n"),
        ("`preview t at /3/0 do !B()`", base, "preview t at /3/0 do !B()\n"),
        ("`undo` and `redo`", with_step, "undo\nredo\n"),
    ]:
        text = front + (undone if begun == with_step else "") + commands * 500
        full, _ = instructions(program, [], text)
        print(f"| {name} | {(full - begun) / 500:,.0f} |", flush=True)


def main():
    program = built_program()
    heading("Patches: what many places and one take")
    wide(program)
    deep(program)
    one(program)


if __name__ == "__main__":
    main()
