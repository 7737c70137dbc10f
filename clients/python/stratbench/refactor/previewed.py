"""What a preview says of a tree: the terms that come at places of it.

A rule for the root, as one that adds an import, gives a whole tree, most of which is the old one. Of its text only what differs from the old
text is read, and the rest is the old term's: to read a term takes longer than all else that is done with it.

    >>> old = read("f([a,g(b),c])")
    >>> new = read_beside(b"f([x,a,g(b),c])", b"f([a,g(b),c])", old)
    >>> new, new.children[0].children[1] is old.children[0].children[0]
    (f([x,a,g(b),c]), True)
"""

from __future__ import annotations

import re
from collections.abc import Callable
from typing import Final, NamedTuple

from ..terms import Term, at, put, read

# Text without a blank outside of strings, of which a printed term has none, with so many strings that what the match takes stays small.
_WORDS: Final = re.compile(rb'(?:[^" ]+|"[^"\\]*(?:\\.[^"\\]*)*"){0,1000}', re.DOTALL)
# What is gone over to find the elements of a term's text: strings and positions, which are skipped, brackets and commas.
_SIGN: Final = re.compile(rb'"[^"\\]*(?:\\.[^"\\]*)*"|\{\([0-9]+,[0-9]+\)\}|([(\[{])|([)\]}])|(,)', re.DOTALL)
_OPENS, _CLOSES, _COMMA = 1, 2, 3


def replacement(line: bytes, length: int = 0, tree: Callable[[], Term] | None = None) -> tuple[tuple[int, ...], Term]:
    """Returns the path in a line of a preview, and the term that would be there. `tree` gives the term of the tree, whose text is so long. It
    is asked for where most of that would be replaced."""
    words, _, rest = line.partition(b" ")
    path = tuple(int(step) for step in words.decode().split("/") if step)
    end = _end(rest)
    new = rest[end + len(b" => ") :]
    if tree is None or 2 * end < length:
        return path, read(new)
    return path, read_beside(new, rest[:end], at(tree(), path))


# Where the term ends that a text begins with.
def _end(text: bytes) -> int:
    end = 0
    while (found := _WORDS.match(text, end)) is not None and found.end() > end:
        end = found.end()
    return end


def read_beside(text: bytes, old_text: bytes, old: Term) -> Term:
    """Returns the term of a text, with the subterms of another one before and after where its text differs from that one's."""
    alike = _alike(text, old_text)
    if 2 * (alike + _alike(text[alike:][::-1], old_text[alike:][::-1])) < len(text):
        return read(text)
    around = _around(old_text, alike)
    while around:
        begin = around[-1].begin
        after = _alike(text[begin:][::-1], old_text[begin:][::-1])
        come, gone = _run(text, begin, len(text) - after), _run(old_text, begin, len(old_text) - after)
        if not come.closed and not gone.closed:
            are_whole = come.is_whole and gone.is_whole
            return _exchanged(old, around, _elements(gone, are_whole), _elements(come, are_whole))
        del around[-max(come.closed, gone.closed) :]
    return read(text)


# How many bytes two texts begin with alike.
def _alike(one: bytes, two: bytes) -> int:
    least, most = 0, min(len(one), len(two))
    while least < most:
        middle = (least + most + 1) // 2
        if one[least:middle] == two[least:middle]:
            least = middle
        else:
            most = middle - 1
    return least


class _Open(NamedTuple):
    """A bracket that is open at a place: which of the elements in it is there, and where that begins."""

    sign: bytes
    element: int
    begin: int


# The brackets of terms, but not those of annotations and in them, that are open at a place, from the outermost.
def _around(text: bytes, place: int) -> list[_Open]:
    found: list[_Open] = []
    for it in _SIGN.finditer(text):
        if it.end() > place:
            break
        if it.lastindex == _OPENS:
            found.append(_Open(it.group(), 0, it.end()))
        elif it.lastindex == _CLOSES:
            found.pop()
        elif it.lastindex == _COMMA:
            found[-1] = _Open(found[-1].sign, found[-1].element + 1, it.end())
    signs = [it.sign for it in found]
    return found[: signs.index(b"{")] if b"{" in signs else found


class _Run(NamedTuple):
    """The text from where an element begins to a place: how many of the brackets around it close in it, whether an element begins at the
    place, and the text up to there, and up to the end of the element that the place is in."""

    closed: int
    is_whole: bool
    text: bytes
    more: bytes


def _run(text: bytes, begin: int, place: int) -> _Run:
    depth = least = 0
    is_whole = begin == place
    end = len(text)
    for it in _SIGN.finditer(text, begin):
        if it.start() >= place and depth == least and it.lastindex in (_CLOSES, _COMMA):
            end = it.start()
            break
        if it.lastindex == _OPENS:
            depth += 1
        elif it.lastindex == _CLOSES:
            depth -= 1
            least = min(least, depth)
        elif it.lastindex == _COMMA and it.end() == place:
            is_whole = depth == least
    return _Run(-least, is_whole, text[begin:place], text[begin:end])


def _elements(run: _Run, are_whole: bool) -> tuple[Term, ...]:
    return read(b"[%s]" % (run.text.rstrip(b",") if are_whole else run.more)).children


# The term with other elements in the place of some, which begin with the one that is in all these brackets.
def _exchanged(old: Term, around: list[_Open], gone: tuple[Term, ...], come: tuple[Term, ...]) -> Term:
    path, first = [it.element for it in around[:-1]], around[-1].element
    head, children, annotations = at(old, path)
    return put(old, path, Term(head, (*children[:first], *come, *children[first + len(gone) :]), annotations))
