"""Checks one crate over the proved libraries of those below, for `bugs` and `measure/proof.py`."""

import os
import sys

sys.path.append(os.path.dirname(os.path.realpath(__file__)))
from c_library import kit  # noqa: E402
from checkout import TOP  # noqa: E402


def crates():
    """The crates, lowest first, and what each stands on."""
    found = {}
    with open(f"{TOP}/crates.txt", encoding="utf-8") as lines:
        for line in lines:
            if ":" in line and not line.startswith("#"):
                name, _, below = line.partition(":")
                found[name.split()[0]] = below.split()
    return found


def check_of(crate, libraries, room, jobs=1):
    """The command of a check of a crate, to be run in its folder. It saves its modules in a folder, and takes from there what a check before it
    saved. The crates below have to be proved in the checkout `libraries`."""
    below = crates()
    if crate not in below:
        sys.exit(f"no crate {crate} in crates.txt")
    ours, reached = [it for it in below if it in below[crate]], {crate}
    for name in reversed(below):
        if name in reached:
            reached.update(below[name])

    def folder(name):
        return f"{libraries}/crates/{name}/out/rlib" if name in below else f"{kit()}/rlibs"

    root = "main" if os.path.exists(f"{TOP}/crates/{crate}/src/main.rt") else "lib"
    words = [f"{kit()}/bin/rattle", "check", "--crate-name", crate, f"src/{root}.rt"]
    for name in ["std", *(it for it in below[crate] if it not in below), *ours]:
        words += ["--extern", f"{name}={folder(name)}/{name}.rlib"]
    for place in dict.fromkeys([f"{kit()}/rlibs", *(folder(it) for it in below if it in reached - {crate})]):
        words += ["-L", f"dependency={place}"]
    return words + [
        *("--antt-project", f"{kit()}/rattle/logic/antt-project.json", "--logic-built", f"{kit()}/logic_built"),
        *("--links", f"{crate}=", "--jobs", str(jobs), "--incremental", room),
    ]
