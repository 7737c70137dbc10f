"""Counts what a large tree from a file takes on the built program: instructions a byte, and memory.

Run by hand at the top of the repository, after the program was built (README has the command):

    python3 tools/measure/files.py [PROGRAM]

It needs `valgrind`, GNU time and Python. A text with some 99,000 terms is loaded by `--tree`, one subterm is replaced, and the tree is
written by `--write`. Instructions are counted by callgrind, less those of the same run with a small tree; beside them stand those of the
command `tree` with the front of the same text. Memory is the most that the whole program took.
"""

import os
import subprocess
import tempfile

from measure import built_program, heading, instructions

ELEMENTS = 33000
FRONT = 60000
APPLY = 'apply t at /0 do !"B"\n'


def text(elements):
    """A list of applications with an integer and a string."""
    return "[" + ",".join(f'abcdefghijklmnop{it % 10}(1,"quoted name {it % 10}")' for it in range(elements)) + "]"


def most_memory(program, words, script):
    """The most memory of a run in MB."""
    ran = subprocess.run(["/usr/bin/time", "-f", "%M", program, *words], input=script.encode(), capture_output=True)
    assert ran.returncode == 0, ran.stderr
    return int(ran.stderr) / 1024


def main():
    program = built_program()
    heading("Files: a tree of 99,000 terms")
    with tempfile.TemporaryDirectory() as folder:
        large, small, out = (os.path.join(folder, name) for name in ("large", "small", "out"))
        for name, elements in ((large, ELEMENTS), (small, 1)):
            with open(name, "w") as it:
                it.write(text(elements))
        size = os.path.getsize(large)
        words = ["--tree", f"t={large}", "--write", f"t={out}"]
        base, _ = instructions(program, ["--tree", f"t={small}", "--write", f"t={out}"], APPLY)
        full, _ = instructions(program, words, APPLY)
        front = text(FRONT * ELEMENTS // size)
        empty, _ = instructions(program, [], "tree t []\n")
        command, _ = instructions(program, [], f"tree t {front}\n")
        print("| | bytes | instructions a byte | MB of the program |")
        print("|---|---|---|---|")
        print(f"| `--tree`, `apply`, `--write` | {size:,} | {(full - base) / size:.0f} | {most_memory(program, words, APPLY):.1f} |")
        print(f"| `tree` | {len(front):,} | {(command - empty) / len(front):.0f} | |")


if __name__ == "__main__":
    main()
