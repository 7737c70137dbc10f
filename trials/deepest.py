"""Scripts at the bounds of depth and width, for the trials of what holds the workbench outside its program: a library for C, and a module for
browsers."""

import re

from workbench import as_module

# What the program says of the end of a script, which a call of the library isn't.
OPEN_GROUP = re.compile(rb"line \d+: warning: the group is still open at the end: .*\n")


def deep_scripts():
    """Yields scripts at the bounds of depth and width, with their names."""
    devices = as_module("trials/devices")
    definitions = b"module m strategies f(s) = s h(s,r) = r k(|x) = id"
    for name, text in devices.deepest().items():
        commands = [
            devices.SIGNATURE, definitions, b"tree t G(A)", b"apply t within 1000000 do " + text, b"module n strategies g = " + text,
            b"apply t do g", b"unload n", b"module n rules R : _ -> 1 where " + text, b"undo 2", b"dump", b"history",
        ]
        yield f"deepest {name}", b"\n".join(commands) + b"\n"
    trees = {"highest tree": (b"[" * 1000 + b"]" * 1000, b"/0/0/0"), "widest tree": (b"[" + b",".join([b"A"] * 32000) + b"]", b"/31999")}
    for name, (tree, path) in trees.items():
        commands = [
            devices.SIGNATURE, b"module lib strategies topdown(s) = s; all(topdown(s)) try(s) = s <+ id", b"tree t " + tree, b"show t", b"copy t u",
            b"put t " + path + b" A", b"apply t within 1000000 do topdown(try(?A(); !G(A())))", b"apply t within 1000000 do ?x; !x",
            b"undo 2", b"dump", b"redo", b"history",
        ]
        yield name, b"\n".join(commands) + b"\n"
