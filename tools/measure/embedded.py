"""Measures what a call of the client takes: by a process of the built program, and by a session in its own process.

Run by hand at the top of the repository, after the program and the library for C were built (README and docs/manual/c.md have the
commands), with nothing else on the machine:

    python3 tools/measure/embedded.py [PROGRAM]

It needs a compiler, which makes the shared object in a folder of its own.
"""

import os
import subprocess
import sys
import tempfile
import time

from measure import TOP, built_program, heading

sys.path[:0] = [f"{TOP}/clients/python"]

from stratbench import Stratbench  # noqa: E402

TIMES = 5
LEAVES = 4_000

TREE = "[" + ",".join(["f(a)"] * LEAVES) + "]"
# What is done before, what is measured, how often at a time, and what it is called.
CALLS = [
    ("`show` of a small tree", lambda it: it.tree("t", "f(a)"), lambda it: it.show("t"), 2_000),
    ("`tree` of a small tree", lambda it: None, lambda it: it.tree("t", "f(a)"), 2_000),
    ("`apply` at a small tree, and `undo`", lambda it: it.tree("t", "f(a)"), lambda it: (it.apply("t", '!"b"'), it.undo()), 1_000),
    (f"`tree` of {LEAVES:,} leaves", lambda it: None, lambda it: it.tree("t", TREE), 50),
    (f"`show` of {LEAVES:,} leaves", lambda it: it.tree("t", TREE), lambda it: it.show("t"), 50),
    (f"`apply` to {LEAVES:,} leaves, and `undo`", lambda it: it.tree("t", TREE), lambda it: (it.apply("t", 'all(!"b")'), it.undo()), 50),
]


def microseconds(bench, before, call, count):
    """The shortest time of a call, in microseconds, of some runs of so many calls."""
    before(bench)
    found = []
    for _ in range(TIMES):
        begun = time.perf_counter()
        for _ in range(count):
            call(bench)
        found.append((time.perf_counter() - begun) / count * 1e6)
    return min(found)


def main():
    os.environ["STRATBENCH"] = built_program()
    heading("A call of the client: microseconds, by pipe and embedded")
    with tempfile.TemporaryDirectory() as room:
        os.environ["STRATBENCH_LIBRARY"] = f"{room}/libstratbench.so"
        subprocess.run([f"{TOP}/tools/embed", "--shared", os.environ["STRATBENCH_LIBRARY"]], check=True)
        print("| Call | by pipe | embedded |\n|---|---|---|")
        for title, before, call, count in CALLS:
            with Stratbench() as piped, Stratbench(embedded=True) as embedded:
                found = [microseconds(it, before, call, count) for it in (piped, embedded)]
            print(f"| {title} | {found[0]:,.0f} | {found[1]:,.0f} |", flush=True)


if __name__ == "__main__":
    main()
