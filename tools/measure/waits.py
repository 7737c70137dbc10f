"""Takes apart what a user waits for who refactors files: reading a tree, running a strategy, patching the tree, printing it.

Run by hand at the top of the repository, after the program was built (README has the command):

    python3 tools/measure/waits.py [PROGRAM]

It needs `valgrind` and Python. The trees are the modules of the library of the Python that runs it with so many nodes, as the client
converts them, with positions. Each is loaded by `--tree`, a strategy is applied to it, and it is written by `--write`. Instructions are
counted by callgrind and summed over the modules, less those of the run without what is counted: running is the strategy within `where`,
which replaces nothing, and patching is what the strategy itself takes beyond that. Milliseconds are those of the processor for one
module, start and library included.
"""

import os
import resource
import subprocess
import sys
import tempfile

from measure import TOP, built_program, heading, instructions

sys.path[:0] = [f"{TOP}/clients/python", f"{TOP}/clients/python/tests"]

import try_modules  # noqa: E402
from stratbench import python, terms  # noqa: E402

LEAST, MOST = 20_000, 30_000
TIMES = 5
# Beside the refactorings of the tests: a traversal that replaces nothing, and one that replaces each name.
RENAMED = '{x, c, y: ?Name(x,c); where(prim("strcat",x,"1"); ?y); !Name(y,c)}'
STRATEGIES = [((), "topdown(id)"), (("python",), f"bottomup(try({RENAMED}))")]


def modules():
    """The text of each module's term, and the number of its nodes."""
    for file in try_modules.modules(True):
        with open(file, "rb") as it:
            term = python.Source(it.read()).term
        if LEAST <= terms.size(term) <= MOST:
            yield terms.write(term), terms.size(term)


def milliseconds(program, words, script):
    """What a run takes of the processor."""
    before = resource.getrusage(resource.RUSAGE_CHILDREN)
    for _ in range(TIMES):
        subprocess.run([program, *words], input=script.encode(), stdout=subprocess.DEVNULL, check=True)
    after = resource.getrusage(resource.RUSAGE_CHILDREN)
    return (after.ru_utime + after.ru_stime - before.ru_utime - before.ru_stime) * 1000 / TIMES


def costs(program, options, strategy, files, room):
    """The instructions of reading, running, patching and printing, and the milliseconds, for all files together."""
    total = [0] * 5
    out = f"{room}/out"
    apply = lambda it: f"apply t within 1000000 do {it}\n"
    count = lambda words, script: instructions(program, [*options, *words], script)[0]
    base = count(["--tree", f"t={room}/small"], "")
    for file in files:
        loaded = ["--tree", f"t={file}"]
        written = [*loaded, "--write", f"t={out}"]
        read = count(loaded, "")
        tried = count(loaded, apply(f"where({strategy})"))
        done = count(loaded, apply(strategy))
        whole = count(written, apply(strategy))
        for at, cost in enumerate((read - base, tried - read, done - tried, whole - done)):
            total[at] += cost
        total[4] += milliseconds(program, [*options, *written], apply(strategy))
    return total


def strategies():
    """Each strategy with the modules that it needs."""
    yield from STRATEGIES
    for _, names, strategy in try_modules.REFACTORINGS:
        yield names, strategy


def places(program, options, strategy, files):
    """How many places the strategy replaces in all files."""
    script = f"preview t within 1000000 do {strategy}\n"
    ran = [subprocess.run([program, *options, "--tree", f"t={it}"], input=script, capture_output=True, text=True, check=True) for it in files]
    return sum(int(it.stdout.split()[1]) for it in ran)


def main():
    program = built_program()
    heading("What a user waits for: modules of Python's library")
    with tempfile.TemporaryDirectory() as room:
        files, nodes, size = [], 0, 0
        for text, count in modules():
            files.append(f"{room}/{len(files)}")
            with open(files[-1], "w") as it:
                it.write(text)
            nodes, size = nodes + count, size + len(text)
        with open(f"{room}/small", "w") as it:
            it.write("None()")
        version = ".".join(map(str, sys.version_info[:3]))
        print(f"{len(files)} modules of Python {version} with {LEAST:,} to {MOST:,} nodes, {nodes:,} together, {size:,} bytes of terms.\n")
        print("| Strategy | places | instructions a node | reading | running | patching | printing | ms a module |\n|---|---|---|---|---|---|---|---|")
        for names, strategy in strategies():
            options = ["--library"]
            for name in names:
                options += ["--module", f"{name}={TOP}/strategies/{name}.str"]
            *parts, spent = costs(program, options, strategy, files, room)
            shares = " | ".join(f"{round(100 * it / sum(parts))} %" for it in parts)
            replaced = places(program, options, strategy, files)
            print(f"| `{strategy}` | {replaced:,} | {sum(parts) / nodes:,.0f} | {shares} | {spent / len(files):.0f} |", flush=True)


if __name__ == "__main__":
    main()
