"""Rules in YAML's syntax."""

from __future__ import annotations

import re
from functools import lru_cache
from typing import Final

from ...concrete.by_grammar import NAME, TEXT, GrammarAdapter, Reads, fields_of, guards_of
from ...concrete.holes import Mark, Way
from ...concrete.trees import Tables, carriers
from ...patch.grammar import Grammar
from ..by_grammar import resource
from . import LANGUAGE

_VALUE: Final = "a value"


# What stands for many pairs is a key in a line of its own.
def _word(mark: Mark, word: str, before: str, after: str) -> str:
    return f"{word}:" if mark.kind == "many" and re.search(r"(?:\A|\n)[ \t]*\Z", before) else word


@lru_cache
def _grammar() -> Grammar:
    return LANGUAGE.dialect("yaml").grammar


_WAY: Final = Way(r"(?:^|(?<=[ \t\n]))#[^\n]*|\"(?:\\.|[^\"\\\n])*\"|'(?:''|[^'\n])*'", word=_word)
_CARRIERS: Final = carriers(f"Plain(x) : {_VALUE}", "Pair(Plain(x),_) : pairs, many", "Entry(Plain(x)) : entries, many")
_TABLES: Final = Tables(
    _CARRIERS, fields_of(_grammar), guards_of({}), lambda constructor, field: (TEXT if constructor == "Quoted" else NAME, ()), kinds={_VALUE: _VALUE}
)

ADAPTER: Final = GrammarAdapter(
    LANGUAGE,
    (Reads(("a pair", "pairs"), "", "", (0, 0, 0, 0)), Reads((_VALUE,), "", "", (0, 0, 0))),
    _TABLES,
    _WAY,
    lambda: resource(__package__, "concrete.str"),
    ("yaml",),
)
