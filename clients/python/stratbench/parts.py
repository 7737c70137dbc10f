"""Texts of terms in parts, each of which fits in a command. The text isn't read: only brackets, commas and strings are looked at.

    >>> for step in in_parts("f(abcd,[b,c,d,e,f,h],g)", (), 12):
    ...     print(*step)
    put () f(abcd,0,g)
    put (1,) [b,c,d,e,0]
    put (1, 4) [f,h]
    join (1,) rec x(\\ [y] -> y \\ <+ [id|x])
"""

from __future__ import annotations

import re
from collections.abc import Iterator
from functools import lru_cache
from typing import Final, Literal, NamedTuple

# What stands for a subterm that is put there later, which is none in lists of texts.
_HOLE: Final = "0"
# Puts the elements of a list in its end in the place of the list.
_JOIN: Final = "rec x(\\ [y] -> y \\ <+ [id|x])"

_STRING: Final = r'"[^"\\]*(?:\\.[^"\\]*)*"'
_CLOSES: Final = {")": "(", "]": "[", "}": "{"}
_BLANK: Final = " \t\n\r"


# What is looked at: a string; annotations with a position; a bracket with little in it, which has no others; a bracket or a comma.
@lru_cache
def _token(most: int) -> re.Pattern[str]:
    little = rf'[^"()\[\]{{}}]{{0,{min(_LITTLE, most // 4)}}}'
    return re.compile(
        rf"{_STRING}|\{{\([0-9]+,[0-9]+\)\}}|[(\[{{]{little}(?:{_STRING}{little})?[)\]}}]|(?P<sign>[()\[\]{{}},])", re.DOTALL
    )


# The most bytes before and after a string in a bracket with little in it.
_LITTLE: Final = 60


class Step(NamedTuple):
    """What is done at a path: a text is put there, or annotations, or it is applied."""

    kind: Literal["put", "annotate", "join"]
    path: tuple[int, ...]
    text: str


class TooLong(ValueError):
    """A term of which a part is too long for a command: a string, annotations, or an application of very many terms."""


class Unbalanced(ValueError):
    """A text whose brackets don't fit, so that it spells no term."""


class _Bracket:
    """A bracket of a long term: where it opens and closes, its commas, the long terms in it by their number, and where the annotations
    of the term begin, if it has any."""

    def __init__(self, opens: int, sign: str) -> None:
        self.opens, self.sign = opens, sign
        self.closes = -1
        self.commas: list[int] = []
        self.long: dict[int, _Bracket] = {}
        self.annotations = -1

    def pieces(self) -> list[tuple[int, int]]:
        """Where the terms in it begin and end."""
        ends = [*self.commas, self.closes]
        return list(zip([self.opens + 1, *(it + 1 for it in self.commas)], ends))


class _Piece(NamedTuple):
    """A piece of the text that spells a term, with the bracket that it has, if it is long."""

    begin: int
    end: int
    bracket: _Bracket | None


def in_parts(text: str, path: tuple[int, ...], most: int) -> Iterator[Step]:
    """Yields the steps that put the term of a text at a path, with texts of at most so many bytes."""
    # a character for each byte
    flat = text.encode(errors="surrogateescape").decode("latin-1")
    for kind, at, part in _steps(flat, path, most):
        yield Step(kind, at, part.encode("latin-1").decode(errors="surrogateescape"))


def _steps(flat: str, path: tuple[int, ...], most: int) -> Iterator[Step]:
    waiting = [(path, _Piece(0, len(flat), _bracket(flat, most)))]
    while waiting:
        path, (begin, end, bracket) = waiting.pop()
        if end - begin <= most or bracket is None:
            yield _checked(Step("put", path, flat[begin:end].strip(_BLANK)), most)
            continue
        inside = [_Piece(*it, bracket.long.get(at)) for at, it in enumerate(bracket.pieces())]
        head = flat[begin : bracket.opens + 1].strip(_BLANK)
        if head == "[":
            # half of the room, so that an element fits beside the brackets
            texts = [flat[it.begin : it.end] if it.end - it.begin <= most // 2 else None for it in inside]
            yield from _list([it or _HOLE for it in texts], path, most)
        else:
            texts = _shorter(flat, inside, most - len(head) + 1)
            yield _checked(Step("put", path, f"{head}{','.join(it or _HOLE for it in texts)}{flat[bracket.closes]}"), most)
        if bracket.annotations >= 0:
            yield _checked(Step("annotate", path, flat[bracket.annotations : end].strip(_BLANK)), most)
        waiting += [((*path, at), it) for at, (it, shown) in enumerate(zip(inside, texts)) if shown is None]


# The bracket of the term of a text that is longer than this, with those of the long terms in it.
def _bracket(flat: str, most: int) -> _Bracket | None:
    around = _Bracket(-1, "")
    opened = [around]
    inner = around
    for found in _token(most).finditer(flat):
        sign = found["sign"]
        if sign is None:
            if flat[found.start()] == "{" and (at := len(inner.commas)) in inner.long:
                inner.long[at].annotations = found.start()
        elif sign == ",":
            inner.commas.append(found.start())
        elif sign in "([{":
            inner = _Bracket(found.start(), sign)
            opened.append(inner)
        else:
            closed = opened.pop()
            if closed.sign != _CLOSES[sign]:
                raise Unbalanced(f"no term goes on at byte {found.start()}")
            closed.closes = found.start()
            inner = opened[-1]
            at = len(inner.commas)
            if sign == "}":
                if at in inner.long:
                    inner.long[at].annotations = closed.opens
            elif closed.closes - (inner.commas[-1] if inner.commas else inner.opens) > most // 2:
                inner.long[at] = closed
    if len(opened) > 1 or around.commas:
        raise Unbalanced("the term ends too early")
    return around.long.get(0)


def _checked(step: Step, most: int) -> Step:
    if len(step.text) > most:
        raise TooLong(f"{step.text[:40]}.. is too long for a command, at /{'/'.join(map(str, step.path))}")
    return step


# A list, so many elements at a time: the last one is the place of the list of the others, which are joined to it, the innermost first.
def _list(texts: list[str], path: tuple[int, ...], most: int) -> Iterator[Step]:
    pieces: list[list[str]] = [[]]
    length = 0
    for text in texts:
        if pieces[-1] and length + len(text) + len("[,0]") > most:
            pieces.append([])
            length = 0
        pieces[-1].append(text)
        length += len(text) + len(",")
    paths = [path]
    for piece in pieces[:-1]:
        yield Step("put", paths[-1], f"[{','.join(piece)},0]")
        paths.append((*paths[-1], len(piece)))
    yield Step("put", paths[-1], f"[{','.join(pieces[-1])}]")
    for path in reversed(paths[:-1]):
        yield Step("join", path, _JOIN)


# The texts of these pieces, with holes for the longest ones, so many that the others fit.
def _shorter(flat: str, pieces: list[_Piece], most: int) -> list[str | None]:
    texts: list[str | None] = [flat[it.begin : it.end] for it in pieces]
    left = most - 2 * len(pieces) - 2
    for at in sorted(range(len(pieces)), key=lambda it: pieces[it].end - pieces[it].begin):
        left -= pieces[at].end - pieces[at].begin - 1
        if left < 0:
            texts[at] = None
    return texts
