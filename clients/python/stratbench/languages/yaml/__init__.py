"""YAML, with its comments, by PyYAML."""

from __future__ import annotations

import json
import re
from functools import lru_cache
from typing import Final, Optional

from ...patch.dialect import Dialect, Style
from ...patch.grammar import Grammar
from ...patch.layout import Layout
from ...terms import Term
from ..by_grammar import ByGrammar, resource
from ..language import Kinds
from .front import Front


# The text of a quoted string, with the quotation marks of the one in whose place it comes, where these have no escapes for it. Further lines
# of other texts are one level deeper.
def _literal(term: Term, like: bytes, style: Style) -> Optional[bytes]:
    if term.head in ("Plain", "Block") and isinstance(term.children[0].head, bytes):
        return re.sub(rb"\n(?!\n|\Z)", b"\n" + style.unit, term.children[0].head)
    if term.head != "Quoted" or not isinstance(term.children[0].head, bytes):
        return None
    text = term.children[0].text
    if like.startswith(b"'") and text.isprintable():
        return b"'%s'" % text.replace("'", "''").encode()
    return json.dumps(text, ensure_ascii=False).encode()


# An entry's lines are indented by the width of its dash, so the unit is two blanks.
def _style(layout: Layout) -> Style:
    return Style(unit=b"  ")


@lru_cache
def _dialect(kind: str) -> Dialect:
    return Dialect(Grammar(resource(__name__, "yaml.grammar")), re.compile(rb"(?:^|(?<=[ \t]))#[^\n\r]*", re.MULTILINE), (b"#",), _style, _literal)


LANGUAGE: Final = ByGrammar("yaml", "YAML", (".yaml", ".yml"), Kinds(), _dialect, Front(), lambda name: "yaml")
