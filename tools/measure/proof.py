#!/usr/bin/env python3
"""Says where the time of a crate's proof goes.

Run by hand, at the top of a clone in which `rt ci` has proved the crates below:

    tools/measure/proof.py [--libraries DIR] CRATE [COUNT]

The crate is checked by one job, which saves each module when it is done with it: what has passed since it saved the one before is
counted for the function that the module belongs to. The first function that uses a type pays for what all share. Printed are the
seconds of the COUNT dearest functions, 30 where none is named, and of what is saved for each, as the checker calls it: `Lts` is what the
borrow checker left, the `drop`s at each exit included. With `--libraries` the proved crates are those of another clone. The status is
that of the check.
"""

import argparse
import collections
import os
import re
import resource
import subprocess
import sys
import tempfile

sys.dont_write_bytecode = True
sys.path.insert(0, os.path.dirname(os.path.dirname(os.path.realpath(__file__))))
from rattle_check import TOP, check_of  # noqa: E402

# What is saved for a function, at the end of a module's name.
KIND = re.compile(r"\.(Lts|Code|Proof|Tie|TheLinks?|Met|Statement|Key|Layout|Reads|Symbol|Given|Carried|Kinds|Named)\b.*")


def saved(room):
    """The modules that a check saved, in order: when, and its name."""
    found = []
    for place, _, files in os.walk(room):
        found += [(os.path.getmtime(f"{place}/{it}"), it[: -len(".oantt")]) for it in files if it.endswith(".oantt") and "/records" not in place]
    return sorted(found)


def report(crate, modules, count):
    functions, kinds = collections.Counter(), collections.Counter()
    for (before, _), (now, name) in zip(modules, modules[1:]):
        name = re.sub(rf"^Rattle-{crate}[-.](proofs|specs)\.(contracts\.)?", "", name)
        kind = KIND.search(name)
        functions[KIND.sub("", name)] += now - before
        kinds[kind[1] if kind else "other"] += now - before
    print(f"{modules[-1][0] - modules[0][0]:.0f} s: " + ", ".join(f"{kind} {seconds:.0f}" for kind, seconds in kinds.most_common(8)))
    for name, seconds in functions.most_common(count):
        print(f"{seconds:7.1f}  {name}")


def main(words):
    parser = argparse.ArgumentParser(description="Says where the time of a crate's proof goes.")
    parser.add_argument("--libraries", default=TOP)
    parser.add_argument("crate")
    parser.add_argument("count", type=int, nargs="?", default=30)
    given = parser.parse_args(words)
    with tempfile.TemporaryDirectory() as room:
        words = check_of(given.crate, os.path.realpath(given.libraries), room)
        ran = subprocess.run(words, cwd=f"{TOP}/crates/{given.crate}", stdout=subprocess.PIPE, stderr=subprocess.STDOUT, text=True)
        used = resource.getrusage(resource.RUSAGE_CHILDREN)
        modules = saved(room)
        if ran.returncode or not modules:
            print(ran.stdout, end="")
        else:
            report(given.crate, modules, given.count)
            print(f"{used.ru_utime + used.ru_stime:.0f} s of processor time")
    return ran.returncode


if __name__ == "__main__":
    sys.exit(main(sys.argv[1:]))
