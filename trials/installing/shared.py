"""What the trials of packages share."""

import os
import re
import shutil
import subprocess
import time

from packing.parts import Failed, contents, stamp, text_of
from workbench import TOP, left_out

# How long a command may take: that of a busy machine.
SECONDS = 900
# The pages that have what is tried. They are read before the checkout is hidden.
PAGES = {name: text_of(f"{TOP}/{name}") for name in ("README.md", *(f"docs/manual/{it}" for it in sorted(os.listdir(f"{TOP}/docs/manual")) if it.endswith(".md")))}


def fenced(page, begins):
    """The text of the block of a page that has a line which begins so, after it."""
    return PAGES[page].partition(begins)[2].partition("\n```")[0]


def blocks(page, kind):
    """The blocks of a page that have this word at their fence."""
    return re.findall(rf"^```{kind}\n(.*?)^```$", PAGES[page], re.MULTILINE | re.DOTALL)


def session_of_readme():
    """README's session: the text of its module, its script, and the answers."""
    module = fenced("README.md", "$ cat arith.str\n").partition("$ stratbench")[0]
    shown = fenced("README.md", "--module arith=arith.str\n").split("\n")
    script = "".join(f"{line[2:]}\n" for line in shown if line.startswith("> "))
    answers = [line for line in shown if re.match(r"ok$|refused |[A-Z]\w*\(", line)]
    return module, script, answers


def version_of(build, part="program"):
    """What the program that was packed says of its version, or the command for node."""
    return f"stratbench {build['version'].partition('+')[0]} {stamp(build, part)}\n"


def put(folder, name, text):
    with open(f"{folder}/{name}", "w", encoding="utf-8") as it:
        it.write(text)


def got(folder, name):
    return contents(f"{folder}/{name}").decode()


def want(found, wanted):
    """Raises `Failed` where something else was found."""
    if found != wanted:
        raise Failed(f"{found!r}, and not {wanted!r}")


def want_in(part, whole):
    if part not in whole:
        raise Failed(f"{part!r} isn't in {whole[-1500:]!r}")


class Lacking(Exception):
    """A trial needs a program that this machine lacks."""


def needs(*commands, has=shutil.which):
    """Raises `Lacking` unless these commands are there."""
    for it in commands:
        if not has(it):
            raise Lacking(it)


def tried(group, trials):
    """Makes trials, each a name and a function, and prints a line for each with its seconds. One that lacks a program is left out, which is a
    failure in a run with `CI=true` alone. Returns how many failed."""
    failed = 0
    for name, trial in trials:
        begun, wrong = time.monotonic(), []
        try:
            trial()
            outcome = "as wanted"
        except Lacking as program:
            failed += left_out(f"{group}: {name}", f"there is no {program}")
            continue
        except (Failed, OSError, subprocess.SubprocessError) as why:
            outcome, wrong = "FAILED", [str(why)]
            failed += 1
        print(f"{group}: {name}: {outcome}, {time.monotonic() - begun:.1f} seconds", *wrong, sep="\n  ", flush=True)
    return failed
