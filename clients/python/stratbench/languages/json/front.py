"""Reads JSON: the text of its term, with positions in bytes."""

from __future__ import annotations

import json
import re
from collections.abc import Sequence
from typing import Final, Union

from ...patch.dialect import Wrong
from ...terms import string, write
from ..front import Parsed

_TOKEN: Final = re.compile(
    rb'(?:[ \t\r\n]|//[^\n]*|/\*.*?\*/)*(?:("(?:[^"\\\x00-\x1f]|\\.)*")|(-?[0-9]+(?:\.[0-9]+)?(?:[eE][-+]?[0-9]+)?)|(true|false|null)|([{\[])|([}\]])|(,)|(:)|\Z)',
    re.DOTALL,
)
_STRING, _NUMBER, _WORD, _OPENS, _CLOSES, _COMMA, _COLON = range(1, 8)
_INTEGER: Final = re.compile(rb"-?(?:0|[1-9][0-9]{0,17})")


class Front:
    """The front end, in this process."""

    def parsed(self, kind: str, sources: Sequence[bytes], places: bool) -> list[Union[Parsed, Wrong]]:
        return [_parsed(it, places) for it in sources]


class _Wrong(Exception):
    def __init__(self, place: int, message: str) -> None:
        super().__init__(message)
        self.place = place


def _parsed(source: bytes, places: bool) -> Union[Parsed, Wrong]:
    try:
        return _Reader(source, places).document()
    except _Wrong as error:
        return Wrong(error.place, str(error))


class _Open:
    """An object or a list that isn't closed: where it begins, how many elements it has, and where the key of the last one is."""

    def __init__(self, first: int, is_object: bool) -> None:
        self.first, self.is_object, self.elements = first, is_object, 0
        self.key = -1


class _Reader:
    def __init__(self, source: bytes, places: bool) -> None:
        self._source, self._places = source, places
        self._out: list[str] = []
        self._terms = self._levels = 0
        self._open: list[_Open] = []
        self._at = 0

    def document(self) -> Parsed:
        self._add("Document(", 1)
        wants_value = True
        while wants_value or self._open:
            wants_value = self._value() if wants_value else self._after()
        kind, first, _ = self._token()
        if kind:
            raise _Wrong(first, "something comes after the value")
        self._close(0, len(self._source))
        return Parsed("".join(self._out).encode(), self._terms, self._levels + 2 * self._places)

    # The next token: its kind, where it begins and where it ends.
    def _token(self) -> tuple[int, int, int]:
        found = _TOKEN.match(self._source, self._at)
        if found is None:
            blanks = re.compile(rb"\s*").match(self._source, self._at)
            raise _Wrong(blanks.end() if blanks else self._at, "no JSON begins here")
        self._at = found.end()
        kind = found.lastindex or 0
        return kind, found.start(kind), found.end()

    # Reads a value, or the beginning of one. Returns whether another is next.
    def _value(self) -> bool:
        kind, first, last = self._token()
        inside = self._open[-1] if self._open else None
        if kind == _CLOSES and inside is not None:
            return self._closed(inside, first, last)
        self._comma(inside)
        if inside is not None and inside.is_object and inside.key < 0:
            if kind != _STRING:
                raise _Wrong(first, "a key is wanted, in quotation marks")
            self._key(inside, first, last)
            kind, first, last = self._token()
        text = self._source[first:last]
        if kind == _OPENS:
            self._add("Object([" if text == b"{" else "Array([", 2)
            self._open.append(_Open(first, text == b"{"))
            return True
        if kind == _STRING:
            self._string(first, last)
        elif kind == _NUMBER:
            number = text.decode()
            self._add(f"Number({number if _INTEGER.fullmatch(text) else chr(34) + number + chr(34)}", 2)
            self._close(first, last)
        elif kind == _WORD:
            self._add("Null" if text == b"null" else f"Boolean({text.decode().title()}", 1 + (text != b"null"))
            self._close(first, last, "" if text == b"null" else ")")
        else:
            raise _Wrong(first, "a value is wanted")
        self._ended(last)
        return False

    def _comma(self, inside: Union[_Open, None]) -> None:
        if inside is not None:
            if inside.elements:
                self._out.append(",")
            inside.elements += 1

    def _key(self, inside: _Open, first: int, last: int) -> None:
        inside.key = first
        self._add("Member(", 1)
        self._string(first, last)
        self._out.append(",")
        kind, place, _ = self._token()
        if kind != _COLON:
            raise _Wrong(place, "a colon is wanted")

    # What comes after a value: a comma, or the end of what it is in. Returns whether a value is next.
    def _after(self) -> bool:
        kind, first, last = self._token()
        inside = self._open[-1]
        if kind == _COMMA:
            return True
        if kind != _CLOSES:
            raise _Wrong(first, "a comma is wanted, or a bracket that closes")
        return self._closed(inside, first, last)

    def _closed(self, inside: _Open, first: int, last: int) -> bool:
        if (self._source[first:last] == b"}") != inside.is_object:
            raise _Wrong(first, "another bracket is wanted")
        self._open.pop()
        self._out.append("]")
        self._close(inside.first, last)
        self._ended(last)
        return False

    # After a value: the member that it is in ends there.
    def _ended(self, last: int) -> None:
        inside = self._open[-1] if self._open else None
        if inside is not None and inside.is_object:
            self._close(inside.key, last)
            inside.key = -1

    def _string(self, first: int, last: int) -> None:
        text = self._source[first:last].decode()
        try:
            value = json.loads(text, strict=False).encode("utf-8", "surrogatepass")
        except ValueError:
            raise _Wrong(first, "a wrong escape in a string") from None
        self._add(f"String({write(string(value))}", 2)
        self._close(first, last)

    def _add(self, text: str, terms: int) -> None:
        self._out.append(text)
        self._terms += terms
        self._levels = max(self._levels, 3 * len(self._open) + 5)

    def _close(self, first: int, last: int, sign: str = ")") -> None:
        self._out.append(f"{sign}{{({first},{last})}}" if self._places else sign)
        self._terms += 3 * self._places
