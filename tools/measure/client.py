"""Measures the refactoring command on many files, on a long one, and a session that is given a long tree, beside `ast.parse`.

Run by hand at the top of the repository, after the program was built (README has the command):

    python3 tools/measure/client.py [--before CHECKOUT] [PROGRAM]

It needs Python and GNU time. The files are modules of the library of the Python that runs it: all of them, and a hundred of some 10,000 bytes.
In every tenth of these a line is added that a rule changes. The long file is of modules one after the other. Times are those of the
processor, of a command with all its processes, start included; of `ast.parse` those of a process that parses the same files. Each is
the least of three. With `--before` the client of another checkout is measured in the same run.
"""

import glob
import os
import resource
import subprocess
import sys
import tempfile

from measure import TOP, built_program, heading

TIMES = 3
PARSED = "import ast, glob, sys\nfor file in glob.glob(sys.argv[1] + '/*'):\n    with open(file, 'rb') as it:\n        ast.parse(it.read())"
GIVEN = """
import resource, sys
from stratbench import Stratbench
with open(sys.argv[1]) as it:
    text = it.read().strip()
with Stratbench(max_terms=10_000_000) as bench:
    begun = resource.getrusage(resource.RUSAGE_SELF).ru_utime
    bench.tree("t", text)
    print(resource.getrusage(resource.RUSAGE_SELF).ru_utime - begun)
"""
RULES = """module measured
rules
  Call : Call(Name("measured_call",c),a,k) -> Call(Name("other",c),a,k)
  Never : While(x,[],[]) -> Pass()
"""
ADDED = b"\nmeasured = measured_call(1)\n"
LINES = 50_000


def spent(words, environment=None):
    """The least seconds of the processor that a command takes with its processes, the MB of its largest, and what it printed last."""
    found = []
    for _ in range(TIMES):
        before = resource.getrusage(resource.RUSAGE_CHILDREN)
        ran = subprocess.run(["/usr/bin/time", "-f", "%M", *words], env=environment, capture_output=True, text=True)
        assert ran.returncode in (0, 3), ran.stderr
        after = resource.getrusage(resource.RUSAGE_CHILDREN)
        seconds = after.ru_utime + after.ru_stime - before.ru_utime - before.ru_stime
        found.append((seconds, int(ran.stderr.split()[-1]) / 1024, ran.stdout.strip().split("\n")[-1]))
    return min(found)


def parsed(folder):
    return spent([sys.executable, "-c", PARSED, folder])


def command(client, folder, strategy, room):
    """What the command of a checkout takes for the files of a folder."""
    modules = ["--module", f"python={TOP}/strategies/python.str", "--module", f"rules={room}/rules.str"]
    return spent([sys.executable, "-m", "stratbench.refactor", *modules, "--do", strategy, folder], around(client, room))


def around(client, room):
    return {**os.environ, "PYTHONPATH": f"{client}/clients/python", "XDG_STATE_HOME": f"{room}/state"}


def folders(room):
    """Folders with all modules, with a hundred of which every tenth changes, and with a long file."""
    texts = []
    for file in sorted(glob.glob(f"{os.path.dirname(os.__file__)}/*.py"), key=os.path.getsize):
        with open(file, "rb") as it:
            texts.append(it.read())
    hundred = [it for it in texts if 2_000 <= len(it) <= 25_000][:100]
    hundred = [it + ADDED * (at % 10 == 0) for at, it in enumerate(hundred)]
    long = []
    for it in texts[::-1]:
        if sum(one.count(b"\n") for one in long) < LINES and not it.startswith(b"\xef\xbb\xbf"):
            long.append(it + b"\n")
    for name, files in (("all", texts), ("hundred", hundred), ("long", [b"".join(long) + ADDED])):
        os.mkdir(f"{room}/{name}")
        for at, it in enumerate(files):
            with open(f"{room}/{name}/{at:03}.py", "wb") as out:
                out.write(it)
        lines, size = sum(it.count(b"\n") for it in files), sum(map(len, files))
        yield f"{room}/{name}", f"{len(files)} {'file' if len(files) == 1 else 'files'}, {lines:,} lines, {size:,} bytes"


def main():
    words = sys.argv[1:]
    before = None
    if words[:1] == ["--before"]:
        before = os.path.abspath(words[1])
        sys.argv[1:] = words[2:]
    os.environ["STRATBENCH"] = built_program()
    heading("The refactoring command beside `ast.parse`")
    clients = [TOP, *[before] * (before is not None)]
    with tempfile.TemporaryDirectory() as room:
        with open(f"{room}/rules.str", "w") as it:
            it.write(RULES)
        (every, whole), (hundred, some), (long, one) = folders(room)
        columns = "`ast.parse` | the command | times as long |" + " before | of that |" * (before is not None)
        print(f"| Seconds of the processor | {columns}\n|---|" + "---|" * (columns.count("|")))
        for what, folder, strategy in (
            (f"nothing matches in {whole}", every, "bottomup(try(Never))"),
            (f"nothing matches in {some}", hundred, "bottomup(try(Never))"),
            (f"every tenth changes of {some}", hundred, "bottomup(try(Call))"),
            (f"one change in {one}", long, "bottomup(try(Call))"),
        ):
            least = parsed(folder)
            taken = [command(it, folder, strategy, room) for it in clients]
            row = f"{least[0]:.2f} | {taken[0][0]:.2f} | {taken[0][0] / least[0]:.2f} |"
            row += "".join(f" {it[0]:.2f} | {taken[0][0] / it[0]:.2f} |" for it in taken[1:])
            print(f"| {what} | {row}", flush=True)
        print(f"\nThe long file takes {taken[0][1]:.0f} MB, and `ast.parse` of it {least[1]:.0f} MB" + "".join(f"; before it took {it[1]:.0f} MB" for it in taken[1:]) + ".")
        with open(f"{room}/term", "wb") as out:
            subprocess.run([sys.executable, "-m", "stratbench.python", f"{long}/000.py"], env=around(TOP, room), stdout=out, check=True)
        given = [float(spent([sys.executable, "-c", GIVEN, f"{room}/term"], around(it, room))[2]) for it in clients]
        size = os.path.getsize(f"{room}/term")
        print(f"\nA session that is given a tree of {size:,} bytes takes {given[0]:.1f} seconds of the client" + "".join(f"; before it took {it:.1f}" for it in given[1:]) + ".")


if __name__ == "__main__":
    main()
