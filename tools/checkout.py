"""What tools and trials share: where things are in this checkout, examples and the library as data, other scripts as modules, and packages
that are missing."""

import importlib.machinery
import importlib.util
import os
import re
import shlex
import sys
from typing import List, NamedTuple

TOP = os.path.dirname(os.path.dirname(os.path.realpath(__file__)))
sys.path.append(f"{TOP}/clients/python/tests")
import packages as debian  # noqa: E402
from packages import LEFT_OUT, left_out  # noqa: E402, F401

# What `rt ci` leaves.
PROGRAM = f"{TOP}/crates/stratbench/out/stratbench"
# What `tools/unproved` makes.
UNPROVED = f"{TOP}/build/stratbench"


def contents(file):
    with open(file, "rb") as it:
        return it.read()


def as_module(path):
    """Returns a script of `tools` or `trials` as a module. The path is from the top, as `tools/wasm`."""
    loader = importlib.machinery.SourceFileLoader(path.replace("/", "_"), f"{TOP}/{path}")
    made = importlib.util.module_from_spec(importlib.util.spec_from_loader(loader.name, loader))
    loader.exec_module(made)
    return made


def installed(packages):
    """Whether these packages of Debian could be installed."""
    print(f"installing {', '.join(packages)} from Debian's packages", flush=True)
    return not debian.installed(*packages)


def library():
    """Returns the command that loads the library, from the source of the program."""
    [text] = re.findall(rb'LIBRARY: &\[u8\] = b"(.*?)";', contents(f"{TOP}/crates/session_loading/src/library.rt"), re.DOTALL)
    return b"module library\n " + text


def commands_of(script):
    """Returns the commands of a script as docs/manual/scripts.md says: their texts with the lines that go on with them,
    and nothing else."""
    commands = []
    script = re.sub(rb"\r+(?=\n|\Z)", b"", script)
    lines = script.split(b"\n")
    if not lines[-1]:
        lines.pop()
    for line in lines:
        if line.startswith(b"#"):
            continue
        if line and line[:1] not in b" \t":
            commands.append(line)
        elif commands:
            commands[-1] += b"\n" + line
    return commands


class Example(NamedTuple):
    """An example: its folder, and the words of its command after `stratbench`, of which the last is the script."""

    name: str
    folder: str
    words: List[str]

    @property
    def library(self):
        return "--library" in self.words

    @property
    def script(self):
        return contents(f"{self.folder}/{self.words[-1]}")

    @property
    def loads(self):
        """The modules and trees that are loaded: the kind, the name and the file of each."""
        for option, value in zip(self.words, self.words[1:]):
            if option in ("--module", "--tree"):
                name, _, file = value.partition("=")
                yield option[2:], name, os.path.normpath(f"{self.folder}/{file}")


def example_of(name):
    folder = f"{TOP}/examples/{name}"
    command = re.search(r"^    \$ stratbench (.*)$", contents(f"{folder}/README.md").decode(), re.MULTILINE)
    return Example(name, folder, shlex.split(command[1]))


def examples():
    """Returns all examples."""
    return [example_of(name) for name in sorted(os.listdir(f"{TOP}/examples")) if os.path.isdir(f"{TOP}/examples/{name}")]
