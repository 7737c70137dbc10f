"""Rules in JSON's syntax."""

from __future__ import annotations

import re
from functools import lru_cache
from typing import Final

from ...concrete.by_grammar import NAME, TEXT, GrammarAdapter, Reads, fields_of, guards_of
from ...concrete.holes import Mark, Way
from ...concrete.trees import Tables, carriers
from ...patch.grammar import Grammar
from ..by_grammar import resource
from . import LANGUAGE

_VALUE: Final = "a value"


# A metavariable is a string, and for many members one with a value.
def _word(mark: Mark, word: str, before: str, after: str) -> str:
    depth = 0
    for sign in re.findall(r'"(?:\\.|[^"\\])*"|[{}\[\]]', before)[::-1]:
        depth += {"{": 1, "[": 1, "}": -1, "]": -1}.get(sign, 0)
        if depth > 0:
            return f'"{word}": 0' if mark.kind == "many" and sign == "{" else f'"{word}"'
    return f'"{word}": 0' if mark.kind == "many" else f'"{word}"'


@lru_cache
def _grammar() -> Grammar:
    return LANGUAGE.dialect("json").grammar


_WAY: Final = Way(r'//[^\n]*|/\*.*?\*/|"(?:\\.|[^"\\\n])*"', word=_word)
_CARRIERS: Final = carriers(f"String(x) : {_VALUE}", "Member(String(x),_) : members, many")
_TABLES: Final = Tables(
    _CARRIERS, fields_of(_grammar), guards_of({}), lambda constructor, field: (TEXT if constructor == "String" else NAME, ()), kinds={_VALUE: _VALUE}
)

ADAPTER: Final = GrammarAdapter(
    LANGUAGE,
    (Reads((_VALUE,), "", "", (0,)), Reads(("a member", "members"), "{", "\n}", (0, 0))),
    _TABLES,
    _WAY,
    lambda: resource(__package__, "concrete.str"),
    ("json",),
)
