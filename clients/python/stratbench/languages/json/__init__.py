"""JSON, and JSON with comments, by a reader of its own."""

from __future__ import annotations

import json
import re
from functools import lru_cache
from typing import Final, Optional

from ...patch.dialect import Dialect, Style, unit_of
from ...patch.grammar import Grammar
from ...patch.layout import Layout
from ...terms import Term
from ..by_grammar import ByGrammar, resource
from ..language import Kinds
from .front import Front


def _literal(term: Term, like: bytes, style: Style) -> Optional[bytes]:
    if term.head != "String" or not isinstance(term.children[0].head, bytes):
        return None
    return json.dumps(term.children[0].text, ensure_ascii=False).encode("utf-8", "surrogatepass")


def _style(layout: Layout) -> Style:
    return Style(unit=unit_of(layout.text, b"  "))


@lru_cache
def _dialect(kind: str) -> Dialect:
    return Dialect(Grammar(resource(__name__, "json.grammar")), re.compile(rb"//[^\n\r]*|/\*.*?\*/", re.DOTALL), (b"//",), _style, _literal)


LANGUAGE: Final = ByGrammar("json", "JSON", (".json", ".jsonc"), Kinds(), _dialect, Front(), lambda name: "json")
