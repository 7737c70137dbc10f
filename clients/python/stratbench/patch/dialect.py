"""What the patcher asks of a language: its grammar, its parser, and the few things that a grammar can't say."""

from __future__ import annotations

import re
from collections.abc import Mapping
from typing import Callable, Final, NamedTuple, Optional

from ..terms import Term
from .grammar import Grammar
from .layout import Layout


class Wrong(NamedTuple):
    """What a parser says of a text that it refuses, and where."""

    place: int
    message: str


class Style(NamedTuple):
    """How a file is written: the quotation mark of its strings, its unit of indentation, and the signs that new text does without."""

    quote: bytes = b'"'
    unit: bytes = b"    "
    without: frozenset[str] = frozenset()


class Alone(NamedTuple):
    """How a statement is parsed alone: between these texts, and where it is in the tree. `around` has the sorts of nodes that can be made
    statements, with what comes around them then."""

    sort: str
    before: bytes
    after: bytes
    path: tuple[int, ...]
    around: Mapping[str, tuple[bytes, bytes]]


def no_literal(term: Term, like: bytes, style: Style) -> Optional[bytes]:
    return None


class Dialect(NamedTuple):
    """A language, as the patcher sees it. `comment` finds comments in gaps, `line_comments` begin those that go on to the line's end.
    `literal` gives the text of an atom, in the place of an old one with this text; `style` says how a file is written."""

    grammar: Grammar
    comment: re.Pattern[bytes]
    line_comments: tuple[bytes, ...]
    style: Callable[[Layout], Style]
    literal: Callable[[Term, bytes, Style], Optional[bytes]] = no_literal
    alone: Optional[Alone] = None


_INDENT: Final = re.compile(rb"^([ \t]+)[^\s*]", re.MULTILINE)


def unit_of(text: bytes, otherwise: bytes) -> bytes:
    """Returns the unit of indentation of a text.

    >>> unit_of(b"a\\n  b\\n    c\\n", b"\\t"), unit_of(b"a", b"\\t")
    (b'  ', b'\\t')
    """
    found: list[bytes] = _INDENT.findall(text)
    if not found:
        return otherwise
    return b"\t" if found[0].startswith(b"\t") else min(found, key=len)
