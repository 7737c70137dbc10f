"""Rules in Java's syntax. `$$` is written for the letter `$`."""

from __future__ import annotations

import re
from typing import Final

from ...concrete.by_grammar import EXPRESSION, NAME, STATEMENT, STATEMENTS, TEXT, GrammarAdapter, Reads, fields_of, guards_of
from ...concrete.holes import Mark, Way
from ...concrete.trees import Tables, carriers
from ..by_grammar import resource
from . import LANGUAGE, _grammar

_STRINGS: Final = r'"""(?:\\.|.)*?"""|"(?:\\.|[^"\\\n])*"|' + r"'(?:\\.|[^'\\\n])*'"


# A name alone is no statement of Java, so one stands as a call there.
def _word(mark: Mark, word: str, before: str, after: str) -> str:
    ends = after.lstrip().startswith(";")
    if not re.search(r"(?:\A|[{};)]|\belse)\s*\Z", before) or not ends and mark.kind != "many":
        return word
    return f"{word}()" if ends else f"{word}();"


_WAY: Final = Way(rf"//[^\n]*|/\*.*?\*/|{_STRINGS}|[A-Za-z_]\w*\$[\w$]*", word=_word, dollars=True)
_CARRIERS: Final = carriers(
    f"ExpressionStatement(MethodInvocation(Identifier(x),[])) : {STATEMENT}",
    f"Identifier(x) : {EXPRESSION}",
    "ImplicitParameter(x) : parameters, many",
)


def _string(constructor: str, field: str) -> tuple[str, tuple[str, ...]]:
    return (TEXT, ("text'",)) if constructor == "StringLiteral" else (NAME, ())


_TABLES: Final = Tables(
    _CARRIERS, fields_of(_grammar), guards_of({("Lambda", "body"): "no-block'"}), _string, kinds={EXPRESSION: EXPRESSION, STATEMENT: STATEMENT}
)
_BEFORE, _AFTER, _PATH = "class A { void f() { while (true) { ", "\n} } }", (2, 0, 6, 0, 7, 0, 0, 1, 0)

ADAPTER: Final = GrammarAdapter(
    LANGUAGE,
    (
        Reads((EXPRESSION,), f"{_BEFORE}x = (", f"\n);{_AFTER}", (*_PATH, 0, 0, 1)),
        Reads((STATEMENT, STATEMENTS), _BEFORE, _AFTER, _PATH),
        Reads(("a member", "members"), "class A {", "\n}", (2, 0, 6)),
    ),
    _TABLES,
    _WAY,
    lambda: resource(__package__, "concrete.str"),
    ("java",),
    "Identifier",
    "ExpressionStatement",
)
