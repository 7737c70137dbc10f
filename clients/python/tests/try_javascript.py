"""Refactorings of real files of JavaScript: every result is a program, no comment is lost unsaid, and recast makes the same trees of them where
both speak of the same ones.

    python try_javascript.py [COUNT]    prints what recast did, too

Both need node; the parser is Debian's node-babel7, and recast its node-recast, which are installed where that can be done.
"""

import json
import os
import subprocess
import sys

import packages
from samples import below, sample
from stratbench import languages
from stratbench.languages.language import Missing
from stratbench.refactor import Task, refactored
from stratbench.refactor.runs import prepared

FOLDER = "/usr/share/nodejs"
MODULES = "lists terms names numbers javascript javascript-conditions javascript-functions javascript-modules javascript-statements javascript-strings".split()
# The rules, by the names that they have in peer.js, if it has them.
RULES = {
    "includes": "bottomup(try(IncludesOf))",
    "null": "bottomup(try(NullCheck))",
    "typeof": "bottomup(try(TypeofCheck))",
    "arrow": "bottomup(try(arrow-callbacks))",
    "template": "topdown(try(TemplateOf))",
    "argument": 'bottomup(try(AddArgumentAfter(|"parseInt",1,NumberLiteral(10))))',
    "else": "topdown(try(no-else-after-return))",
    "require": 'add-require(|"pth","path")',
    "const": "bottomup(try(const-in-function))",
    "shorthand": "bottomup(try(ShorthandOf))",
    "optional": "bottomup(try(OptionalOf))",
    "rest": "bottomup(try(RestOf <+ SpreadOfApply <+ SpreadOfAssign <+ SliceOfSubstr))",
}


def files(count):
    """So many files of JavaScript, with their contents."""
    return sample(below(FOLDER, lambda name: name.endswith((".js", ".mjs", ".cjs"))), range(1_001, 60_000), count, is_utf8)


def is_utf8(contents):
    try:
        contents.decode()
        return b"\r" not in contents
    except UnicodeDecodeError:
        return False


def peer(rule, work, outcomes):
    """What recast and a parser say."""
    given = [
        {"name": it.name, "before": before.decode(), "after": it.contents and it.contents.decode(), "lost": [one.text for one in it.comments]}
        for (_, before), it in zip(work, outcomes)
    ]
    folders = ":".join(["/usr/share/nodejs", "/usr/lib/nodejs"])
    ran = subprocess.run(["node", f"{os.path.dirname(__file__)}/peer.js"], input=json.dumps({"rule": rule, "files": given}).encode(), capture_output=True, env={**os.environ, "NODE_PATH": folders})
    return json.loads(ran.stdout) if ran.returncode == 0 else ran.stderr.decode()


def task_of(top, strategy):
    modules = []
    for name in MODULES:
        with open(f"{top}/strategies/{name}.str", "rb") as it:
            modules.append((name, it.read()))
    return prepared(Task(tuple(modules), strategy, within=1_000_000_000, language="javascript"))


def missing(package, try_it):
    """What is missing where something can't be done, after the package was tried to install."""
    why = try_it()
    return why and (packages.installed(package) or try_it())


def without_parser():
    try:
        languages.named("javascript").sources([("a.js", b"")])
        return ""
    except Missing as error:
        return str(error)


def without_recast():
    found = peer("", [], [])
    return found if isinstance(found, str) else ""


def tests(top, everything):
    for package, try_it in (("node-babel7", without_parser), ("node-recast", without_recast)):
        why = missing(package, try_it)
        if why:
            yield from packages.untried("real files of JavaScript beside recast", f"there is no {package}")
            return
    for title, fault, _ in measured(top, 200):
        yield title, fault


def measured(top, count):
    """For each rule how many files change, what is wrong, and what recast did."""
    work = files(count)
    if len(work) < 10:
        packages.left_out("real files of JavaScript beside recast", "this machine has too few")
        return
    for rule, strategy in RULES.items():
        outcomes = refactored(work, task_of(top, strategy))
        changed = [it for it in outcomes if it.contents is not None]
        wrong = [f"{it.name}: {it.left}" for it in outcomes if it.left and "no JavaScript" not in it.left]
        found = peer(rule, work, outcomes)
        wrong += found["wrong"]
        # recast leaves out empty statements, writes what comes first into the line `#!..`, and moves the lines of template literals: peer.js
        # counts those files apart
        wrong += [f"{it}: recast gives another tree" for it in found["other"]]
        yield f"{rule}: {len(changed)} of {len(work)} files change", "\n".join(wrong[:20]), found


def main(count):
    for title, fault, found in measured(os.path.realpath(f"{os.path.dirname(__file__)}/../../.."), count):
        print(title, fault, {key: it for key, it in (found or {}).items() if key != "rules"}, flush=True)


if __name__ == "__main__":
    main(int(sys.argv[1]) if len(sys.argv) > 1 else 200)
