"""Measures refactorings of all modules of Python's standard library beside `ast.NodeTransformer`, on the built program.

Run by hand at the top of the repository, after the program was built (README has the command):

    python3 tools/measure/python.py [PROGRAM]

It needs Python and GNU time. Three refactorings are done on each module that the Python that runs it has. The visitors are those of
`clients/python/tests/try_modules.py`; both sides begin with the parsed tree, and end with the new one. The converter's share
is taken apart: to texts of terms before, from the texts that differ after, and to terms for patches of what changes. Memory is
the most that any process of a command took. Then the command does all modules in processes side by side, and on workers of a Dask
cluster of this machine, with a Python that has `distributed`, where there is one. At last it does files of many lines, which are modules one after the other.
"""

import os
import resource
import subprocess
import sys
import tempfile
import time
import zlib

from files import most_memory
from measure import TOP, built_program, heading

sys.path[:0] = [f"{TOP}/clients/python", f"{TOP}/clients/python/tests"]

import packages  # noqa: E402
import try_cluster  # noqa: E402
import try_modules  # noqa: E402
from stratbench import Refused, Stratbench, cluster, python, refactor, terms  # noqa: E402
from stratbench.refactor import outcomes  # noqa: E402

# Processes, and workers.
COUNTS = (1, 2, 4)
CALLS = 5_000
# The least lines of long files.
LINES = (5_000, 50_000)

# The same refactoring by a visitor, of each file of a folder.
VISITED = """
import glob, sys, try_modules
for file in sorted(glob.glob(sys.argv[1] + "/*")):
    with open(file, "rb") as it:
        try_modules.Branches().visit(try_modules.parsed(it.read()))
"""


def timed(work):
    """Runs something, and returns what it gives with the seconds of processor time that this process and its children took."""
    before = [resource.getrusage(who) for who in (resource.RUSAGE_SELF, resource.RUSAGE_CHILDREN)]
    result = work()
    after = [resource.getrusage(who) for who in (resource.RUSAGE_SELF, resource.RUSAGE_CHILDREN)]
    spent = [two.ru_utime + two.ru_stime - one.ru_utime - one.ru_stime for one, two in zip(before, after)]
    return result, spent[0], spent[1]


def memory(texts):
    """The most memory, in MB, of a run with the largest modules, each previewed."""
    with tempfile.TemporaryDirectory() as room:
        words = ["--library"]
        for at, text in enumerate(sorted(texts, key=len)[-16:]):
            with open(f"{room}/{at}", "w") as it:
                it.write(text)
            words += ["--tree", f"t{at}={room}/{at}"]
        script = "".join(f"preview t{at} within 1000000 do topdown(id)\n" for at in range(16))
        return most_memory(os.environ["STRATBENCH"], words, script)


def main():
    os.environ["STRATBENCH"] = built_program()
    heading("Python: its standard library refactored")
    contents = []
    for file in try_modules.modules(True):
        with open(file, "rb") as it:
            contents.append(it.read())
    trees, parsing, _ = timed(lambda: [try_modules.parsed(it) for it in contents])
    sources = [python.Source(it) for it in contents]
    _, surveying, _ = timed(lambda: [it.survey for it in sources])
    texts, writing, _ = timed(lambda: [it.shown.text for it in sources])
    _, making, _ = timed(lambda: [it.term for it in sources])
    back, reading_back, _ = timed(lambda: [terms.read(it) for it in texts])
    _, building, _ = timed(lambda: [python.from_term(it) for it in back])
    nodes = sum(1 for source in sources for _ in python.walk(source.term))
    version = ".".join(map(str, sys.version_info[:3]))
    print(f"{len(contents)} modules of Python {version}, {sum(map(len, contents)):,} bytes, {nodes:,} nodes, {sum(map(len, texts)):,} bytes of terms.\n")
    print("| The converter, seconds | |\n|---|---|")
    print(f"| `ast.parse` | {parsing:.1f} |")
    print(f"| syntax trees surveyed | {surveying:.1f} |\n| syntax trees to texts of terms | {writing:.1f} |")
    print(f"| syntax trees to terms | {making:.1f} |")
    print(f"| texts to terms | {reading_back:.1f} |\n| terms to syntax trees | {building:.1f} |\n")
    print("| Strategy | places | the program | texts, results | patches | `ast.NodeTransformer` |\n|---|---|---|---|---|---|")
    for transformer, names, strategy in try_modules.REFACTORINGS:
        task = refactor.Task(try_modules.library(TOP, *names), strategy)
        sources = [python.Source(it) for it in contents]

        def transformed(sources=sources, task=task):
            found = []
            for at in range(0, len(sources), 16):
                found += refactor.transformed(sources[at : at + 16], task)
            return found

        results, own, program = timed(transformed)

        def changed(sources=sources, task=task, results=results):
            with terms.deep():
                return [outcomes.changed("", it, result, task) for it, result in zip(sources, results) if result.replaced]

        made, patching, _ = timed(changed)
        fresh = [try_modules.parsed(it) for it in contents]
        _, visiting, _ = timed(lambda: [transformer().visit(it) for it in fresh])
        print(f"| `{strategy}` | {sum(len(it.places) for it in made)} | {program:.1f} | {own:.1f} | {patching:.1f} | {visiting:.1f} |")
    print(f"\nThe program took at most {memory(texts):.0f} MB for the sixteen largest modules at a time.")
    side_by_side(contents)
    long_files(contents)
    calls()


def calls():
    """What calls of a session take, by the clock."""

    def each(call):
        begun = time.monotonic()
        for _ in range(CALLS):
            try:
                call()
            except Refused:
                pass
        return (time.monotonic() - begun) / CALLS * 1e6

    with Stratbench() as bench:
        bench.tree("t", "f(a,b)")
        taken = [each(lambda: bench.show("t")), each(lambda: bench.apply("t", "id")), each(lambda: bench.apply("t", "?1"))]
    print("\n| Calls of a session, microseconds by the clock | `show` | `apply` | an `apply` that fails, with why |\n|---|---|---|---|")
    print("| of a tree of three terms |", " | ".join(f"{it:.0f}" for it in taken), "|")


def ran(words):
    """The seconds, by the clock, and the MB of its largest process, that a command takes."""
    begun = time.monotonic()
    environment = {**os.environ, "PYTHONPATH": f"{TOP}/clients/python:{TOP}/clients/python/tests"}
    process = subprocess.Popen(words, env=environment, stdout=subprocess.DEVNULL)
    _, status, usage = os.wait4(process.pid, 0)
    process.returncode = status
    assert status == 0
    return time.monotonic() - begun, usage.ru_maxrss / 1024


def command(python, folder, *words):
    """What the command takes for the files of a folder."""
    _, names, strategy = try_modules.REFACTORINGS[1]
    modules = [word for name in names for word in ("--module", f"{name}={TOP}/strategies/{name}.str")]
    return ran([python, "-m", "stratbench.refactor", *modules, "--do", strategy, *words, folder])


def side_by_side(contents):
    """The whole command on all modules, in processes and on workers."""
    python, _ = packages.interpreter("distributed", "python3-distributed")
    usual = python or sys.executable
    with tempfile.TemporaryDirectory() as folder:
        for at, text in enumerate(contents):
            with open(f"{folder}/m{at:03}.py", "wb") as it:
                it.write(text)
        jobs = [command(usual, folder, "--jobs", str(it)) for it in COUNTS]
        print(f"\n| `{try_modules.REFACTORINGS[1][2]}` by the command, seconds by the clock | 1 | 2 | 4 |\n|---|---|---|---|")
        print("| `--jobs` |", " | ".join(f"{seconds:.1f}" for seconds, _ in jobs), "|", flush=True)
        _, visited = ran([usual, "-c", VISITED, folder])
        largest = f"The command with one process takes at most {jobs[0][1]:.0f} MB; `ast.NodeTransformer`, file by file, {visited:.0f} MB"
        if python is None:
            print(f"\n{largest}.\n\nNo Python here has `distributed`, so no cluster was measured.")
            return
        taken = []
        for count in COUNTS:
            with try_cluster.Workers(python) as workers:
                for at in range(count):
                    workers.worker(f"w{at}", program=os.environ["STRATBENCH"])
                workers.wait(count)
                taken.append(command(python, folder, "--cluster", workers.address))
        print("| workers of `--cluster`, with a thread each |", " | ".join(f"{seconds:.1f}" for seconds, _ in taken), "|")
        print(f"\n{largest}.")
        sent = sum(len(zlib.compress(it)) for it in contents) / len(contents)
        print(f"\nA file has {sum(map(len, contents)) / len(contents):,.0f} bytes, {sent:,.0f} as it is sent, and the client {len(cluster.packed()):,}, for each batch.")


def long_files(contents):
    """The whole command on long files."""
    print("\n| A file of | bytes | terms | seconds by the clock | MB of its largest process |\n|---|---|---|---|---|")
    for least in LINES:
        some, lines = [], 0
        for text in sorted(contents, key=len):
            if lines < least and not text.startswith(b"\xef\xbb\xbf"):
                some.append(text if text.endswith(b"\n") else text + b"\n")
                lines += some[-1].count(b"\n")
        text = b"".join(some)
        terms_of = terms.size(python.Source(text).term)
        with tempfile.TemporaryDirectory() as folder:
            with open(f"{folder}/long.py", "wb") as it:
                it.write(text)
            taken, memory = command(sys.executable, folder)
        print(f"| {lines:,} lines | {len(text):,} | {terms_of:,} | {taken:.1f} | {memory:.0f} |", flush=True)


if __name__ == "__main__":
    main()
