"""What the page knows of languages: their grammars as data, and a front end as one module with its parser, both from the client for Python."""

import json
import os
import re
import sys

from checkout import TOP, contents, installed

sys.path.insert(0, f"{TOP}/clients/python")
from stratbench import languages  # noqa: E402
from stratbench.patch.grammar import Field, Group  # noqa: E402

CLIENT = f"{TOP}/clients/python/stratbench"
# Of Debian's node-babel7. The parser is one file, which asks for no other.
PACKAGE = "/usr/share/nodejs/@babel/parser"
PARSER = f"{PACKAGE}/lib/index.js"
FRONT = f"{CLIENT}/languages/javascript/front.js"
# The languages of the page: what each is called, whose grammar it has and which kind of file it is there, its parser, and its colours.
LANGUAGES = {
    "javascript": {"title": "JavaScript", "grammar": "javascript", "kind": "script", "parser": "javascript.mjs", "mode": "text/javascript"},
    "typescript": {"title": "TypeScript", "grammar": "javascript", "kind": "typescript", "parser": "javascript.mjs", "mode": "text/typescript"},
    "json": {"title": "JSON", "grammar": "json", "kind": "json", "parser": "json.mjs", "mode": "application/json"},
}
MODULE = """// The front end for JavaScript with its parser, made by tools/web of the client's front end and of Debian's node-babel7.
//
// @babel/parser %s
// Copyright (c) 2014-present Sebastian McKenzie and other contributors
//
%s
const { parse } = (() => {
const exports = {}
%s
return exports
})()
let fields
/** Returns what parses, with these fields of the grammar's constructors. */
export function frontEnd (given) {
  fields = given
  return answer
}
%s"""


def part(it):
    """A part of a template as data: a text, a field or a group."""
    if isinstance(it, Field):
        return {"field": it.name, "kind": it.kind, "given": it.given, "level": it.level, "plain": it.plain}
    if isinstance(it, Group):
        return {"group": it.field, "parts": [part(one) for one in it.parts], "otherwise": it.otherwise}
    return {"sign": it.text, "mayMiss": it.may_miss}


def grammar(name):
    """The grammar of a language, and what its comments are."""
    dialect = languages.named(name).dialect("")
    it = dialect.grammar
    return {
        "constructors": {one.name: {"sort": one.sort, "fields": one.fields, "parts": [part(of) for of in one.parts]} for one in it.constructors.values()},
        "brackets": {sort: {"opens": of.opens.decode(), "closes": of.closes.decode(), "constructor": of.constructor} for sort, of in it.brackets.items()},
        **{kind: sorted(getattr(it, kind)) for kind in ("atoms", "text", "apart")},
        "absent": it.absent,
        "comment": dialect.comment.pattern.decode().replace(r"\A", "^"),
    }


def front():
    """The front end for JavaScript as a module, or nothing where its parser isn't there."""
    if not os.path.exists(PARSER) and not installed(["node-babel7"]):
        return None
    version = json.loads(contents(f"{PACKAGE}/package.json"))["version"]
    # a module is strict, and has no map
    parser, front = (re.sub(r"^'use strict';?\n|^//# sourceMappingURL.*\n?", "", contents(it).decode(), flags=re.MULTILINE) for it in (PARSER, FRONT))
    licence = contents(f"{TOP}/LICENSE-MIT").decode().partition("Permission is")
    lines = "".join(licence[1:]).rstrip().split("\n")
    return MODULE % (version, "\n".join(f"// {it}".rstrip() for it in lines), parser, front)


def modules(known):
    """The modules that rules in the syntax of these languages need, as the client makes modules of rules: the name and the text of each."""
    names = sorted({it["grammar"] for it in known.values()})
    files = [f"{TOP}/strategies/{it}.str" for it in names] + [f"{CLIENT}/concrete/concrete.str"] + [f"{CLIENT}/languages/{it}/concrete.str" for it in names]
    texts = [contents(it).decode().strip("\n") for it in files]
    return [[re.match(r"module (\S+)", it)[1], it] for it in texts]


def made(build):
    """Writes the files of the languages into a folder. Returns what the page is told of each, by its name, where it can be parsed."""
    text = front()
    file = f"{build}/javascript.mjs"
    if text is not None:
        with open(file, "w", encoding="utf-8") as it:
            it.write(text)
    elif os.path.exists(file):
        os.remove(file)
    there = {name: it for name, it in LANGUAGES.items() if text is not None or it["parser"] != "javascript.mjs"}
    with open(f"{build}/grammars.json", "w", encoding="utf-8") as it:
        json.dump({name: grammar(name) for name in sorted({one["grammar"] for one in there.values()})}, it)
    return there
