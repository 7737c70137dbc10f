"""JavaScript, with JSX, and TypeScript: ESTree by `@babel/parser`."""

from __future__ import annotations

import json
import os
import re
from functools import lru_cache
from typing import Final, Optional

from ...patch.dialect import Alone, Dialect, Style, unit_of
from ...patch.grammar import Grammar
from ...patch.layout import Layout
from ...terms import Term
from ..by_grammar import ByGrammar, resource
from ..front import Front
from ..language import Kinds

_MISSING: Final = (
    "JavaScript needs node and @babel/parser: apt install nodejs node-babel7, or npm install @babel/parser in the project or with -g"
)
# Where Debian and npm have modules for all.
_FOLDERS: Final = ("/usr/share/nodejs", "/usr/lib/nodejs", "/usr/local/lib/node_modules", "/usr/lib/node_modules")
_KINDS: Final = {".mjs": "module", ".ts": "typescript", ".mts": "typescript", ".cts": "typescript", ".tsx": "tsx"}
_SPECIAL: Final = {"\n": "\\n", "\r": "\\r", "\t": "\\t", "\u2028": "\\u2028", "\u2029": "\\u2029"}


@lru_cache
def _grammar() -> Grammar:
    return Grammar(resource(__name__, "javascript.grammar"))


def _words() -> list[str]:
    fields = {it.name: it.fields for it in _grammar().constructors.values()}
    folders = [*os.environ.get("NODE_PATH", "").split(":"), *_FOLDERS]
    node = os.environ.get("NODE", "node")
    script = resource(__name__, "node.js") + resource(__name__, "front.js")
    # `env` leaves the environment of this process alone
    return ["env", "NODE_PATH=" + ":".join(it for it in folders if it), node, "-e", script, json.dumps(fields)]


def _kind(name: str) -> str:
    suffix = os.path.splitext(name)[1]
    return "declarations" if re.search(r"\.d\.[mc]?ts$", name) else _KINDS.get(suffix, "script")


# The text of a string, with the quotation marks of the one in whose place it comes.
def _literal(term: Term, like: bytes, style: Style) -> Optional[bytes]:
    if term.head != "StringLiteral" or not isinstance(term.children[0].head, bytes):
        return None
    quote = (like[:1] if like[:1] in (b"'", b'"') else style.quote).decode()
    text = re.sub(r"[\\\n\r\t\u2028\u2029]", lambda it: _SPECIAL.get(it[0], "\\" + it[0]), term.children[0].text)
    return f"{quote}{text.replace(quote, chr(92) + quote)}{quote}".encode(errors="surrogateescape")


# New strings have the quotation marks that most have.
def _style(layout: Layout) -> Style:
    quotes = [layout.text[first : first + 1] for first, _, head in layout.origins.found if head == "StringLiteral"]
    return Style(b'"' if quotes.count(b'"') > quotes.count(b"'") else b"'", unit_of(layout.text, b"  "))


_BRACKETS: Final = (b"(", b")")
_ALONE: Final = Alone("statement", b"", b"", (0, 0), {"statement": (b"", b""), "expression": _BRACKETS, "primary": _BRACKETS})


@lru_cache
def _dialect(kind: str) -> Dialect:
    comment = re.compile(rb"\A#![^\n\r]*|//[^\n\r]*|/\*.*?\*/", re.DOTALL)
    return Dialect(_grammar(), comment, (b"//", b"#!"), _style, _literal, _ALONE)


_STATEMENTS: Final = frozenset(it.name for it in _grammar().constructors.values() if it.sort == "statement")

LANGUAGE: Final = ByGrammar(
    "javascript",
    "JavaScript",
    (".js", ".mjs", ".cjs", ".jsx", ".ts", ".mts", ".cts", ".tsx"),
    Kinds(_STATEMENTS, frozenset(["ImportDeclaration", "ImportBare"])),
    _dialect,
    Front(_words, _MISSING),
    _kind,
)
