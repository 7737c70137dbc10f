"""Reads YAML: the events of PyYAML as a term, with positions in bytes. Where entries and values begin, its tokens say."""

from __future__ import annotations

import importlib
import re
from bisect import bisect_right
from collections.abc import Sequence
from typing import Any, Final, Union

from ...patch.dialect import Wrong
from ...terms import TUPLE, Term, height, items, position, size, string, write
from ..front import Parsed
from ..language import Missing

_MISSING: Final = "YAML needs PyYAML: apt install python3-yaml, or pip install PyYAML"
# An anchor and a tag before a value, and the blanks and comments after them.
_PROPERTY: Final = r"(?:&[^\s,\[\]{}]+|!<[^>\s]*>|![^\s,\[\]{}]*)"
_PROPERTIES: Final = re.compile(rf"({_PROPERTY}(?:[ \t]+{_PROPERTY})?)(?:[ \t]+#[^\n]*|\s)*")


class Front:
    """The front end, in this process."""

    def parsed(self, kind: str, sources: Sequence[bytes], places: bool) -> list[Union[Parsed, Wrong]]:
        try:
            yaml: Any = importlib.import_module("yaml")
        except ImportError as error:
            raise Missing(f"{_MISSING} ({error})") from None
        return [_parsed(yaml, it, places) for it in sources]


class _Refused(Exception):
    def __init__(self, place: int, message: str) -> None:
        super().__init__(message)
        self.place = place


def _parsed(yaml: Any, source: bytes, places: bool) -> Union[Parsed, Wrong]:
    text = source.decode()
    try:
        term = _Reader(yaml, text, places).stream()
    except _Refused as error:
        return Wrong(len(text[: error.place].encode()), str(error))
    except yaml.MarkedYAMLError as error:
        mark = error.problem_mark or error.context_mark
        return Wrong(len(text[: mark.index].encode()) if mark else 0, str(error.problem or error.context))
    except yaml.YAMLError as error:
        return Wrong(0, str(error).splitlines()[0])
    return Parsed(write(term).encode(), size(term), height(term))


class _Reader:
    """The events of a text, with what the tokens say: where the dashes of entries are, and where the colons of pairs end."""

    def __init__(self, yaml: Any, text: str, places: bool) -> None:
        self._yaml, self._text, self._places = yaml, text, places
        loader = getattr(yaml, "CSafeLoader", yaml.SafeLoader)
        self._events = iter(yaml.parse(text, Loader=loader))
        self._dashes: list[int] = []
        self._colons: list[int] = []
        for it in yaml.scan(text, Loader=loader):
            name = type(it).__name__
            if name == "BlockEntryToken":
                self._dashes.append(it.start_mark.index)
            elif name == "ValueToken":
                self._colons.append(it.end_mark.index)
            elif name == "KeyToken" and text[it.start_mark.index : it.start_mark.index + 2] in ("? ", "?\n"):
                raise _Refused(it.start_mark.index, "a key with a question mark isn't read")
        self._bytes = None if text.isascii() else [0, *_ends(text)]

    def stream(self) -> Term:
        found: list[Term] = []
        for event in self._events:
            if type(event).__name__ == "DocumentStartEvent":
                found.append(self._document())
        return self._node("Stream", 0, len(self._text), items(*found))

    def _document(self) -> Term:
        value = self._value(next(self._events))
        next(self._events)
        place = position(value)
        if place is None:
            return Term("Document", (value,))
        return Term("Document", (value,), value.annotations)

    def _node(self, head: str, first: int, last: int, *children: Term) -> Term:
        if self._bytes is not None:
            first, last = self._bytes[first], self._bytes[last]
        return Term(head, children, (Term(TUPLE, (Term(first), Term(last))),))

    def _value(self, event: Any) -> Term:
        first = event.start_mark.index
        if type(event).__name__ == "AliasEvent":
            return self._node("Alias", first, event.end_mark.index, string(event.anchor))
        found = _PROPERTIES.match(self._text, first) if event.anchor is not None or event.tag is not None or event.implicit is False else None
        if found is None:
            return self._bare(event, first)
        value = self._bare(event, found.end())
        place = position(value)
        if place is None:
            raise _Refused(first, "an anchor or a tag without a value isn't read")
        head = "PropertiedBlock" if value.head in ("Mapping", "Sequence") else "Propertied"
        return Term(head, (string(found[1]), value), (Term(TUPLE, (Term(self._byte(first)), Term(place[1]))),))

    # A value without its anchor and its tag, which begins at a place.
    def _bare(self, event: Any, first: int) -> Term:
        name = type(event).__name__
        if name == "ScalarEvent":
            return self._scalar(event, first)
        return self._mapping(event, first) if name == "MappingStartEvent" else self._sequence(event, first)

    def _scalar(self, event: Any, first: int) -> Term:
        last = event.end_mark.index
        if first >= last:
            return Term("Absent")
        if event.style in ("'", '"'):
            return self._node("Quoted", first, last, string(event.value))
        last = first + len(self._text[first:last].rstrip())
        return self._node("Block" if event.style in ("|", ">") else "Plain", first, last, string(_outdented(self._text[first:last])))

    def _mapping(self, event: Any, first: int) -> Term:
        if event.flow_style and self._text[first] != "{":
            raise _Refused(first, "a pair in a flow sequence isn't read")
        pairs: list[Term] = []
        while type(following := next(self._events)).__name__ != "MappingEndEvent":
            key = self._value(following)
            begin = following.start_mark.index
            if position(key) is None:
                raise _Refused(begin, "a pair without a key isn't read")
            at = bisect_right(self._colons, following.end_mark.index)
            value = self._value(next(self._events))
            if at == len(self._colons):
                raise _Refused(begin, "a key without a colon isn't read")
            end = self._end(value, self._colons[at])
            pairs.append(self._placed(key, end, "BlockPair" if value.head in ("Mapping", "Sequence") else "Pair", key, value))
        if event.flow_style:
            return self._node("FlowMapping", first, following.end_mark.index, items(*pairs))
        return self._around("Mapping", pairs)

    def _sequence(self, event: Any, first: int) -> Term:
        entries: list[Term] = []
        # the dash of an entry is the first one from the end of the one before on
        at = bisect_right(self._dashes, first - 1)
        while type(following := next(self._events)).__name__ != "SequenceEndEvent":
            if event.flow_style:
                entries.append(self._value(following))
                continue
            dash = self._dashes[at]
            value = self._value(following)
            entries.append(self._entry(dash, value))
            last = self._end(value, dash + 1)
            while at < len(self._dashes) and self._byte(self._dashes[at]) < last:
                at += 1
        if event.flow_style:
            return self._node("FlowSequence", first, following.end_mark.index, items(*entries))
        return self._around("Sequence", entries)

    def _entry(self, dash: int, value: Term) -> Term:
        return Term("Entry", (value,), (Term(TUPLE, (Term(self._byte(dash)), Term(self._end(value, dash + 1)))),))

    def _byte(self, place: int) -> int:
        return place if self._bytes is None else self._bytes[place]

    # Where a value ends, in bytes, or what is before one that is absent.
    def _end(self, value: Term, otherwise: int) -> int:
        place = position(value)
        return self._byte(otherwise) if place is None else place[1]

    def _placed(self, first: Term, last: int, head: str, *children: Term) -> Term:
        place = position(first)
        assert place is not None
        return Term(head, children, (Term(TUPLE, (Term(place[0]), Term(last))),))

    # A collection over lines, which ends with its last element.
    def _around(self, head: str, inside: list[Term]) -> Term:
        places = [it for it in map(position, inside) if it is not None]
        return Term(head, (items(*inside),), (Term(TUPLE, (Term(places[0][0]), Term(places[-1][1]))),))


# A text whose lines after the first have the indentation of the least of them in common, without that.
def _outdented(text: str) -> str:
    first, *rest = text.split("\n")
    least = min((len(it) - len(it.lstrip(" ")) for it in rest if it.strip()), default=0)
    return "\n".join([first, *(it[least:] if it.strip() else "" for it in rest)])


def _ends(text: str) -> list[int]:
    found: list[int] = []
    sum_ = 0
    for it in text:
        sum_ += len(it.encode())
        found.append(sum_)
    return found
