"""The bill of materials: which crates, programs and libraries are in what was made, as CycloneDX 1.5 has it (https://cyclonedx.org)."""

import json
import re
import subprocess

from checkout import TOP
from packing.parts import Failed, as_json, checksum, text_of

NAME = "stratbench"
LICENCE = {"expression": "MIT OR Apache-2.0"}


def crates():
    """The crates of the repository with those that each uses, in the order of crates.txt."""
    for line in text_of(f"{TOP}/crates.txt").splitlines():
        if line and not line.startswith("#"):
            name, _, uses = line.partition(":")
            yield name.split()[0], uses.split()


def is_code(name):
    """Whether a crate has more than tests, or is an example."""
    return not name.endswith(("_tests", "_example"))


def component(kind, name, version, **more):
    return {"type": kind, "bom-ref": f"{kind}:{name}", "name": name, "version": version, **more}


def library(name):
    """The reference of a crate, or of a library of the kit."""
    return f"library:{name}"


def codemirror(made):
    """The editor that the page has, if it has one."""
    text = made.get("page/codemirror.js", b"").decode()
    found = re.search(r'CodeMirror\d*\.version = "(.*?)"', text)
    return [component("library", "codemirror", found[1], licenses=[{"license": {"id": "MIT"}}])] if found else []


def parser(made):
    """The parser for JavaScript that the page has, if it has one."""
    found = re.search(r"^// @babel/parser (\S+)$", made.get("page/javascript.mjs", b"").decode(), re.MULTILINE)
    return [component("library", "@babel/parser", found[1], licenses=[{"license": {"id": "MIT"}}])] if found else []


def binaryen(made):
    """The program that lowers the module for browsers, if there is one among these files."""
    if not any(name.endswith((".tgz", ".wasm")) for name in made):
        return []
    said = subprocess.run(["wasm-opt", "--version"], stdout=subprocess.PIPE, text=True).stdout
    return [component("application", "binaryen", said.strip().removeprefix("wasm-opt version "))]


def make(parts, made):
    """Returns the bill of these files, by its name."""
    every = dict(crates())
    ours = [name for name in every if is_code(name)]
    kit = parts.build["kit"]
    from_kit = sorted({it for name in ours for it in every[name]} - {*every})
    components = [component("library", name, parts.number, licenses=[LICENCE]) for name in ours]
    components += [component("library", name, kit.split()[0], description="a library of Rattle's kit") for name in from_kit]
    components += codemirror(made) + parser(made)
    components += [
        {"type": "file", "bom-ref": f"file:{name}", "name": name, "hashes": [{"alg": "SHA-256", "content": checksum(text)}]} for name, text in sorted(made.items())
    ]
    uses = {f"application:{NAME}": ours, **{library(name): sorted(every[name]) for name in ours}}
    bill = {
        "bomFormat": "CycloneDX",
        "specVersion": "1.5",
        "version": 1,
        "metadata": {
            "component": component("application", NAME, parts.version, licenses=[LICENCE]),
            "tools": {"components": [component("application", "rattle-kit", kit), *binaryen(made)]},
            "properties": [{"name": f"{NAME}:{name}", "value": json.dumps(parts.build[name]).strip('"')} for name in ("commit", "changed")],
        },
        "components": components,
        "dependencies": [{"ref": ref, "dependsOn": [library(it) for it in names]} for ref, names in uses.items()],
    }
    return {f"stratbench-{parts.version}.cdx.json": as_json(bill)}


def check(text):
    """Raises `Failed` where two parts of a bill have one reference, or a part depends on one that isn't in it."""
    bill = json.loads(text)
    refs = [it["bom-ref"] for it in [bill["metadata"]["component"], *bill["metadata"]["tools"]["components"], *bill["components"]]]
    named = {ref for it in bill["dependencies"] for ref in [it["ref"], *it["dependsOn"]]}
    if len(refs) != len({*refs}) or not named <= {*refs} or not bill["dependencies"]:
        raise Failed(f"the bill of materials is wrong: {sorted(named - {*refs})[:5]}, {sorted(it for it in {*refs} if refs.count(it) > 1)[:5]}")
