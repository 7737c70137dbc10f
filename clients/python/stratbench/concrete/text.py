"""Texts of the user, what is wrong in them, and texts that are made of them, with the places that each piece comes from.

    >>> source = Source("--rule", "not $x -> $y")
    >>> text = put("  Rule1 : {} -> {}", Made.of("made", source, 0), Made.own(source, 10, 12))
    >>> str(text)
    '  Rule1 : made -> $y'
    >>> [text.place(at) for at in (0, 10, 11, 19)]
    [(Source(name='--rule', ..), 0), (Source(name='--rule', ..), 0), (Source(name='--rule', ..), 0), (Source(name='--rule', ..), 11)]
    >>> print(source.wrong("no Python", 11))
    --rule: line 1, column 12: no Python
        not $x -> $y
                   ^
"""

from __future__ import annotations

from bisect import bisect_right
from collections.abc import Iterable
from typing import NamedTuple, Optional, Union

from ..places import shown


class Source(NamedTuple):
    """A text that a user wrote, and what it is called in what is said of it."""

    name: str
    text: str

    def line_and_column(self, place: int) -> tuple[int, int]:
        """Returns the line and the column of a place, both from 1."""
        return self.text.count("\n", 0, place) + 1, place - self.text.rfind("\n", 0, place)

    def column(self, place: int) -> int:
        """Returns how many characters are before a place in its line."""
        return self.line_and_column(place)[1] - 1

    def excerpt(self, place: int) -> tuple[str, ...]:
        """Returns the line of a place, and a sign below its column."""
        line, column = self.line_and_column(place)
        return tuple(shown(self.text.split("\n")[line - 1], column))

    def where(self, place: int) -> str:
        line, column = self.line_and_column(place)
        return f"line {line}, column {column}"

    def wrong(self, message: str, place: int) -> str:
        """Returns what is said of a fault at a place."""
        return "\n".join([f"{self.name}: {self.where(place)}: {message}", *(f"    {it}" for it in self.excerpt(place))])

    def __repr__(self) -> str:
        return f"Source(name={self.name!r}, ..)"


class Span(NamedTuple):
    """A piece of a source, from one place to another."""

    source: Source
    first: int
    last: int

    @property
    def text(self) -> str:
        return self.source.text[self.first : self.last]

    def stripped(self) -> Span:
        """Returns the span without the blanks at its ends."""
        text = self.text
        if not text.strip():
            return self._replace(last=self.first)
        return self._replace(first=self.last - len(text.lstrip()), last=self.first + len(text.rstrip()))

    def fault(self, message: str, place: Optional[int] = None) -> Fault:
        return Fault(message, self.source, self.first if place is None else place)


class Fault(ValueError):
    """What means nothing, at a place of a source."""

    def __init__(self, message: str, source: Source, place: int) -> None:
        super().__init__(source.wrong(message, place))
        self.message, self.source, self.place = message, source, place


class _Piece(NamedTuple):
    """A piece of a text: what it comes from, if it comes from anything; and whether it stands there as it is."""

    text: str
    source: Optional[Source]
    place: int
    own: bool


class Made:
    """A text that was made. What is made of nothing takes the place of what is before it."""

    __slots__ = ("pieces",)

    def __init__(self, pieces: Iterable[_Piece] = ()) -> None:
        self.pieces = tuple(it for it in pieces if it.text)

    @staticmethod
    def of(text: str, source: Optional[Source] = None, place: int = 0) -> Made:
        """Returns a text for what stands at a place."""
        return Made([_Piece(text, source, place, False)])

    @staticmethod
    def own(source: Source, first: int, last: int) -> Made:
        """Returns a piece of the user's text as it is."""
        return Made([_Piece(source.text[first:last], source, first, True)])

    def __add__(self, other: Union[Made, str]) -> Made:
        return Made((*self.pieces, *_made(other).pieces))

    def __str__(self) -> str:
        return "".join(it.text for it in self.pieces)

    def __bool__(self) -> bool:
        return bool(self.pieces)

    def place(self, at: int) -> Optional[tuple[Source, int]]:
        """Returns where a place of the text comes from."""
        starts, size = [], 0
        for it in self.pieces:
            starts.append(size)
            size += len(it.text)
        known = bisect_right(starts, at) - 1
        for number in [*range(known, -1, -1), *range(known + 1, len(self.pieces))]:
            it = self.pieces[number]
            if it.source is not None:
                inside = min(at - starts[number], len(it.text)) if it.own and number <= known else 0
                return it.source, it.place + inside
        return None

    def place_of(self, line: int, column: int) -> Optional[tuple[Source, int]]:
        """Returns where a line and a column of the text, both from 1, come from."""
        lines = str(self).split("\n")
        if not 1 <= line <= len(lines):
            return None
        return self.place(sum(len(it) + 1 for it in lines[: line - 1]) + column - 1)


def _made(it: Union[Made, str]) -> Made:
    return it if isinstance(it, Made) else Made.of(it)


def put(template: str, *parts: Union[Made, str]) -> Made:
    """Returns the template with these in the places of `{}`."""
    first, *rest = template.split("{}")
    pieces = list(_made(first).pieces)
    for part, text in zip(parts, rest):
        pieces += [*_made(part).pieces, *_made(text).pieces]
    return Made(pieces)


def joined(between: str, parts: Iterable[Union[Made, str]]) -> Made:
    """Returns the parts with a text between any two."""
    pieces: list[_Piece] = []
    for at, it in enumerate(parts):
        pieces += [*(_made(between).pieces if at else ()), *_made(it).pieces]
    return Made(pieces)
