"""Tries the wheel, in a fresh environment of Python whose commands alone are in PATH; and the way from README to a file of one's own."""

import os
import re
import shutil
import subprocess
import sys
import venv

from installing.shared import SECONDS, fenced, got, put, session_of_readme, tried, version_of, want, want_in
from packing.parts import Failed

# What pip would ask the network for.
QUIET = {"PIP_NO_INDEX": "1", "PIP_DISABLE_PIP_VERSION_CHECK": "1", "PIP_ROOT_USER_ACTION": "ignore"}


class Environment:
    """A fresh environment, whose commands alone are in PATH."""

    def __init__(self, room):
        self.folder, self.work = f"{room}/environment", f"{room}/work"
        os.mkdir(self.work)
        venv.create(self.folder, with_pip=True)

    def run(self, *words, given="", status=0):
        """Runs one of its commands. Returns what it prints."""
        variables = {"PATH": f"{self.folder}/bin", "HOME": self.work, "LANG": "C.UTF-8", **QUIET}
        ran = subprocess.run(
            [f"{self.folder}/bin/{words[0]}", *words[1:]], cwd=self.work, env=variables, input=given, text=True, timeout=SECONDS,
            stdout=subprocess.PIPE, stderr=subprocess.PIPE,
        )  # fmt: skip
        if ran.returncode != status:
            raise Failed(f"{' '.join(words)[:80]}: status {ran.returncode}\n{ran.stdout[-600:]}{ran.stderr[-1200:]}")
        return ran.stdout

    def files(self):
        return {os.path.join(place, it) for place, _, names in os.walk(self.folder) for it in names if not it.endswith(".pyc")}


def session(it):
    """README's session gives what README says."""
    module, script, answers = session_of_readme()
    put(it.work, "arith.str", module)
    found = it.run("stratbench", "--library", "--module", "arith=arith.str", given=script, status=1).splitlines()
    if found != answers or not answers:
        raise Failed(f"{found} and not {answers}")


def rule(it):
    put(it.work, "shop.py", "def f(amount, seen):\n    if not amount in (0, 1):  # many\n        return not seen\n")
    it.run("stratbench-refactor", "--rule", "not $x in $y -> $x not in $y", "--write", "shop.py")
    want_in("    if amount not in (0, 1):  # many\n", got(it.work, "shop.py"))


def modules(it):
    """Modules and rules that come with the client."""
    put(it.work, "cart.py", "if not a == b:\n    n = n + 1\nprint(x == None)\n")
    for more in (["--modules", "strategies", "--do", "bottomup(try(NegatedEquality <+ AugmentedNumber))"], ["--rules", "strategies/python-comparisons.rules"]):
        it.run("stratbench-refactor", *more, "--write", "cart.py")
    want(got(it.work, "cart.py"), "if a != b:\n    n += 1\nprint(x is None)\n")


def shell(it):
    want_in("(2,1)", it.run("stratbench-shell", given="tree t (1,2)\napply t do ?(x,y); !(y,x)\nshow t\n:quit\n"))


def server(it):
    def message(text):
        return f"Content-Length: {len(text)}\r\n\r\n{text}"

    asked = ['{"jsonrpc":"2.0","id":1,"method":"initialize","params":{"capabilities":{}}}', '{"jsonrpc":"2.0","id":2,"method":"shutdown"}']
    want_in('"capabilities"', it.run("stratbench-server", "--stdio", given="".join(map(message, [*asked, '{"jsonrpc":"2.0","method":"exit"}']))))


EMBEDDED = """
from stratbench import Stratbench
for how in (False, True):
    with Stratbench(library=True, embedded=how) as bench:
        bench.tree("t", "(1,2)")
        bench.apply("t", "?(x,y); !(y,x)")
        print(bench.show("t"))
"""


def sessions(it):
    """Sessions of the program, and in the process of Python."""
    want(it.run("python", "-c", EMBEDDED), "(2,1)\n(2,1)\n")


def helps(it):
    """What a command says of itself has its name."""
    for name in ("stratbench-refactor", "stratbench-shell"):
        want_in(f"usage: {name} ", it.run(name, "--help"))


def versions(it, build):
    """Each command says the version, the commit, and whether the program is proved."""
    proved = "proved" if build["proved"]["program"] else "not proved"
    changed = ", changed" if build["changed"] else ""
    for name in ("stratbench-refactor", "stratbench-shell", "stratbench-server"):
        want(it.run(name, "--version"), f"{name} {build['version']} (commit {build['commit'][:12]}{changed}, {proved})\n")
    want(it.run("stratbench", "--version"), version_of(build))
    want_in(f"Version: {build['version']}\n", it.run("pip", "show", "stratbench"))


def as_readme_says(room, wheel):
    """The commands that README begins with, in an empty folder with the wheel, print what it says."""
    shown = fenced("README.md", "```console\n")
    shutil.copy(wheel, room)
    python = os.path.dirname(os.path.realpath(sys.executable))
    variables = {"PATH": f"{python}:/usr/bin:/bin", "HOME": room, "LANG": "C.UTF-8", **QUIET}
    for part in re.split(r"^\$ ", shown, flags=re.MULTILINE)[1:]:
        command, _, wanted = part.partition("\n")
        ran = subprocess.run(["sh", "-c", command], cwd=room, env=variables, stdout=subprocess.PIPE, stderr=subprocess.STDOUT, text=True, timeout=SECONDS)
        if ran.returncode or ran.stdout.strip() != wanted.strip():
            raise Failed(f"{command}: status {ran.returncode}, {ran.stdout!r}, and not {wanted!r}")
    want(got(room, "shop.py"), "if key not in seen:  # new\n    seen.add(key)\n")


def all_of(it, wheel, room, build):
    before = it.files()
    os.mkdir(f"{room}/reader")

    def removed():
        it.run("pip", "uninstall", "--yes", "--quiet", "stratbench")
        left = it.files() - before
        if left:
            raise Failed(f"{sorted(left)[:5]} are left")

    yield "from README to a refactored file", lambda: as_readme_says(f"{room}/reader", wheel)
    yield "it is installed", lambda: it.run("pip", "install", "--no-index", "--no-deps", "--quiet", wheel)
    for name, trial in (
        ("README's session", session), ("a rule", rule), ("modules and rules that come with it", modules), ("the shell", shell),
        ("the language server", server), ("sessions", sessions), ("names", helps),
    ):  # fmt: skip
        yield name, lambda trial=trial: trial(it)
    yield "versions", lambda: versions(it, build)
    yield "uninstalled, nothing is left", removed


def trials(room, wheel, build):
    """Makes the trials of a wheel. Returns how many failed."""
    return tried("wheel", all_of(Environment(room), wheel, room, build))
