"""Which of some pairs of brackets are needed, of which all are enough.

Nearly always the node around a pair and the node in it say that, whatever else is in these: a sum in a product needs some. So each pair is
tried in a text of these two alone, in which a name stands for all other nodes. Such texts are short, and most are the same ones, so that
the cost doesn't grow with the square of a chain's length. The rest is found by trying.
"""

from __future__ import annotations

from bisect import bisect_left
from collections.abc import Iterable, Mapping, Sequence
from typing import Callable, Final, NamedTuple, Optional

from ..terms import Term, position

Place = tuple[int, int]


class Pair(NamedTuple):
    """Where a pair of brackets is, and where what is between them is."""

    outer: Place
    inner: Place


class Bracketed(NamedTuple):
    """A text with all brackets, and its tree with positions. The pairs are those that can be tried in a text of two nodes."""

    text: bytes
    tree: Term
    pairs: Mapping[int, Pair]


# The sort of a node, where nodes of it can be parsed alone.
Sort = Callable[[Term], Optional[str]]
# The trees of texts of nodes of a sort, or nothing where one has none.
Trees = Callable[[Sequence[tuple[str, bytes]]], Sequence[Optional[object]]]


def needed(marks: Iterable[int], found: Bracketed, sort: Sort, trees: Trees, is_right: Callable[[set[int]], bool]) -> set[int]:
    """Returns those that are needed of some pairs, which aren't all redundant. `is_right` says whether some are enough."""
    sure = _sure(found, sort, trees)
    return sure if is_right(sure) else sure | fewest(set(marks) - sure, lambda some: is_right(sure | some))


def fewest(marks: Iterable[int], is_right: Callable[[set[int]], bool]) -> set[int]:
    """Returns those that are needed of some, which aren't all redundant, by trying to do without halves, their halves, down to one."""
    active = set(marks)
    # the outer ones first: those around a part of what they are around look better
    whole = sorted(active, reverse=True)
    waiting = [whole]
    while waiting:
        some = waiting.pop(0)
        if some is not whole and is_right(active - set(some)):
            active -= set(some)
        elif len(some) > 1:
            waiting += [some[: len(some) // 2], some[len(some) // 2 :]]
    return active


# The pairs without which the text of two nodes has another tree.
def _sure(found: Bracketed, sort: Sort, trees: Trees) -> set[int]:
    short = _Short(found)
    texts: dict[int, list[tuple[str, bytes]]] = {}
    for number, pair in found.pairs.items():
        above = short.above(pair)
        kind = sort(above) if above is not None else None
        if above is not None and kind is not None:
            texts[number] = [(kind, short.text(above, pair, it)) for it in (True, False)]
    asked = list(dict.fromkeys(it for both in texts.values() for it in both))
    tree_of = dict(zip(asked, trees(asked)))
    return {number for number, (one, two) in texts.items() if tree_of[one] is not None and tree_of[one] != tree_of[two]}


_NAME: Final = b" a "


class _Short:
    """The short texts of nodes."""

    def __init__(self, found: Bracketed) -> None:
        self._text = found.text
        # the innermost node at a place, and the one around all that are there
        self._nodes: dict[Place, tuple[Term, Optional[Term]]] = {}
        # the places of the nodes right below one, with the brackets that are asked for
        self._below: dict[int, list[Place]] = {}
        outer = {it.inner: it.outer for it in found.pairs.values()}
        waiting: list[tuple[Term, Optional[Term]]] = [(found.tree, None)]
        while waiting:
            it, above = waiting.pop()
            place = position(it)
            if place is not None:
                self._nodes[place] = (it, self._nodes.get(place, (it, above))[1])
                self._below.setdefault(id(above), []).append(outer.get(place, place))
                above = it
            waiting.extend((child, above) for child in it.children)
        for places in self._below.values():
            places.sort()

    def above(self, pair: Pair) -> Optional[Term]:
        """Returns the node around a pair of brackets, where there is a node in them, too."""
        above = self._nodes.get(pair.inner, (None, None))[1]
        place = position(above) if above is not None else None
        # a decorator is outside the node that it is below
        return above if place is not None and place[0] <= pair.outer[0] and pair.outer[1] <= place[1] else None

    def text(self, above: Term, pair: Pair, is_there: bool) -> bytes:
        """Returns the text of the node around a pair with the node in it, and with the pair or without it."""
        own = self._of(self._nodes[pair.inner][0], (0, 0), b"")
        if is_there:
            own = self._text[pair.outer[0] : pair.inner[0]] + own + self._text[pair.inner[1] : pair.outer[1]]
        return self._of(above, pair.outer, own).strip()

    # The text of a node, with another at a place in it and a name in the other places. Of many a few are enough.
    def _of(self, node: Term, place: Place, own: bytes) -> bytes:
        first, last = position(node) or (0, 0)
        below = self._below.get(id(node), [])
        at = bisect_left(below, place)
        out: list[bytes] = []
        for it in sorted({0, 1, at - 1, at, at + 1, len(below) - 1}.intersection(range(len(below)))):
            out += [self._text[below[it - 1][1] if it else first : below[it][0]], own if below[it] == place else _NAME]
        return b"".join([*out, self._text[below[-1][1] if below else first : last]])
