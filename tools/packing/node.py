"""The package for node: the module for browsers, sessions over it, and a command line, for systems that the program isn't compiled for."""

import json
import os

from checkout import TOP, as_module
from packing.completion import options
from packing.parts import Failed, File, Missing, as_json, contents, licences, stamp, tarred, text_of

CLIENT = f"{TOP}/clients/node"


def engine():
    """Builds the module for browsers, where it isn't there already. Returns its name."""
    wasm = as_module("tools/wasm")
    lacks = wasm.missing()
    if lacks:
        raise Missing(f"the module for browsers can't be made, since there is no {lacks}")
    if wasm.build():
        raise Failed("the module for browsers can't be made")
    return wasm.MODULE


def words(parts):
    """What the command line says of itself: its version, and the options of the program with their lines of help."""
    return as_json({"version": f"{parts.number} {stamp(parts.build, 'module')}", "options": [it._asdict() for it in options()]})


def files_of(parts):
    """The files of the package."""
    found = {name: File(contents(f"{CLIENT}/{name}"), runs=name == "stratbench.mjs") for name in sorted(os.listdir(CLIENT)) if name.endswith((".mjs", ".md"))}
    found["engine.mjs"] = File(contents(f"{TOP}/clients/web/engine.mjs"))
    found["stratbench.wasm"] = File(contents(engine()))
    found["words.json"] = File(words(parts))
    found["package.json"] = File(as_json({**json.loads(text_of(f"{CLIENT}/package.json")), "version": parts.version}))
    found["build.json"] = File(parts.about)
    return {**found, **licences()}


def make(parts):
    """Returns the package, by its name, as `npm pack` names it."""
    return {f"stratbench-{parts.version}.tgz": tarred({f"package/{name}": it for name, it in files_of(parts).items()}, parts.when)}
