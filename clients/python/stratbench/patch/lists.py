"""The edits of lists: an element comes and goes with its separator, its line and its comments."""

from __future__ import annotations

import re
from collections.abc import Callable, Sequence
from typing import NamedTuple, Optional

from ..terms import Term, position
from .edits import Cannot, aligned, gaps
from .grammar import Field, Grammar
from .layout import Layout, span
from .rope import Break, Piece, Rope, RopeEdit, placed
from .separated import Separated
from .templates import Inside, Templates


class _List(NamedTuple):
    """A list of the source: the node that it is in, its field, its elements, where each is with the brackets around it, and how it is with signs
    between them, if it has some."""

    node: Term
    field: Field
    items: tuple[Term, ...]
    spans: list[tuple[int, int]]
    separated: Optional[Separated]


class Lists:
    """The edits of lists with signs between their elements, and of those with lines."""

    def __init__(self, grammar: Grammar, layout: Layout, templates: Templates, slots: Inside, is_present: Callable[[Term], bool]) -> None:
        self._grammar, self._layout, self._templates, self._slots = grammar, layout, templates, slots
        # whether an old node is in the new tree
        self._is_present = is_present

    def edits(self, node: Term, field: Field, one: Term, two: Term) -> list[RopeEdit]:
        """Returns the edits where a list comes in the place of an old one."""
        items, news = one.children, two.children
        if field.kind != "list":
            raise Cannot
        sign = field.given[0].strip().encode()
        if any(position(it) is None for it in items) or not sign and "\n" not in field.given[0]:
            return self._each(items, news, field)
        if not items:
            return self._filled(node, field, two)
        kept = self._kept(items, news)
        if len(items) == len(news) and all(it is None or it == at for at, it in enumerate(kept)):
            return self._each(items, news, field)
        if sign and self._missing_around(node, field):
            raise Cannot
        spans = self._outer(node, field, items, sign)
        closes = self._layout.spots(node)[")" + field.name][0].first if sign else 0
        separated = Separated(self._layout, spans, span(node)[0], closes, field.given[0]) if sign else None
        there = _List(node, field, items, spans, separated)
        edits: list[RopeEdit] = []
        for goes, comes in gaps(aligned(kept), len(items), len(news)):
            edits += self._between(there, goes, news[comes.start : comes.stop])
            if goes.stop < len(items):
                edits += self._slots.slot(items[goes.stop], news[comes.stop], field.plain)
        return edits

    def _each(self, items: Sequence[Term], news: Sequence[Term], field: Field) -> list[RopeEdit]:
        edits: list[RopeEdit] = []
        if len(items) != len(news):
            raise Cannot
        for one, two in zip(items, news):
            if position(one) is not None and self._grammar.is_node(two):
                edits += self._slots.slot(one, two, field.plain)
            elif one != two:
                raise Cannot
        return edits

    # The old place of each new element: that of the node which it is, or of the one of its constructor that its first old part is from.
    def _kept(self, items: Sequence[Term], news: Sequence[Term]) -> list[Optional[int]]:
        homes = {id(it): at for at, it in enumerate(items)}
        kept = [homes.get(id(self._layout.origin(it))) for it in news]
        for at, it in enumerate(news):
            if self._layout.origin(it) is None:
                owner = self._owner(items, it)
                if owner is not None and owner not in kept:
                    kept[at] = owner
        return kept

    def _owner(self, items: Sequence[Term], new: Term) -> Optional[int]:
        part = self._layout.origins.first_in(new)
        if part is None:
            return None
        first, last = span(part)
        return next((at for at, it in enumerate(items) if it.head == new.head and span(it)[0] <= first and last <= span(it)[1]), None)

    # Whether the sign before or after the list isn't there, as the brackets of one parameter.
    def _missing_around(self, node: Term, field: Field) -> bool:
        spots = self._layout.spots(node)
        [opens], [closes] = spots["(" + field.name], spots[")" + field.name]
        missing = [it for name, found in spots.items() if name.startswith("~") and not name.endswith(";") for it in found if it.first == it.last]
        return any(it.first in (opens.first, closes.first) for it in missing)

    # Where each element is with the brackets around it. The signs between two say which brackets are whose.
    def _outer(self, node: Term, field: Field, items: Sequence[Term], sign: bytes) -> list[tuple[int, int]]:
        spans = [span(it) for it in items]
        if not sign:
            return spans
        spots = self._layout.spots(node)
        [opens] = spots["(" + field.name]
        [closes] = spots[")" + field.name]
        found: list[tuple[int, int]] = []
        begin = opens.first
        for at, (first, last) in enumerate(spans):
            following = spans[at + 1][0] if at + 1 < len(spans) else closes.first
            gap = self._layout.bare(last, following)
            place = gap.find(sign)
            end = last + place if place >= 0 else following
            before = self._layout.bare(begin, first)
            outer = begin + before.find(b"(") if b"(" in before else first
            inner = self._layout.bare(last, end).rstrip()
            found.append((outer, last + inner.rfind(b")") + 1 if b")" in inner else last))
            begin = end + len(sign) if place >= 0 else end
        return found

    # The edits where elements come for others. The first ones come in the places of those that go.
    def _between(self, there: _List, goes: range, comes: Sequence[Term]) -> list[RopeEdit]:
        edits: list[RopeEdit] = []
        common = min(len(goes), len(comes))
        for at, it in zip(goes, comes):
            if there.separated or self._layout.origin(it) is None:
                edits += self._slots.slot(there.items[at], it, there.field.plain)
            else:
                edits.append(self._exchanged(there.items[at], it, there.field))
        if len(goes) > common:
            if there.separated is None:
                return edits + [self._gone_line(there.items[it]) for it in goes[common:]]
            return edits + there.separated.gone(goes[common], goes[-1])
        if len(comes) > common and there.separated is not None:
            edits += there.separated.come(goes.stop - 1, [self._templates.element(it, there.field.plain) for it in comes[common:]])
        elif len(comes) > common:
            edits += self._come_in_lines(there, goes.stop - 1, comes[common:])
        return edits

    # --- lists over lines

    # A statement from elsewhere, with its comments, in the place of another.
    def _exchanged(self, old: Term, new: Term, field: Field) -> RopeEdit:
        first, last = span(old)
        indent = self._layout.indent(first)
        if self._is_present(old):
            first, last = self._layout.leading(first), self._layout.trailing(last)
        return RopeEdit(first, last, placed(self._moved(new, field), indent))

    def _moved(self, new: Term, field: Field) -> Rope:
        return self._templates.run([new], True, field.plain) if self._layout.origin(new) is not None else self._templates.element(new, field.plain)

    # An element goes with its line, where it is alone there, with one of the blank lines around it, and with the comment after it.
    def _gone_line(self, item: Term) -> RopeEdit:
        layout = self._layout
        first, last = span(item)
        if self._is_present(item):
            # its comments go with it
            first, last = layout.leading(first), layout.trailing(last)
        start, after = layout.line(first), layout.after_line(last)
        rest = layout.bare(last, after).strip()
        if layout.text[start:first].strip() or rest:
            blanks = re.compile(rb"[ \t]*").match(layout.text, last)
            if rest and blanks:
                return RopeEdit(first, blanks.end(), [])
            return RopeEdit(start + len(layout.text[start:first].rstrip(b" \t")), last, [])
        above = layout.text[layout.line(start - 1) : start].strip() if start else b""
        while not above and after < len(layout.text) and not layout.text[after : layout.after_line(after)].strip():
            after = layout.after_line(after)
        return RopeEdit(start, after, [])

    def _come_in_lines(self, there: _List, after: int, news: Sequence[Term]) -> list[RopeEdit]:
        layout = self._layout
        first = there.spans[max(after, 0)][0]
        indent = layout.indent(first)
        # all on the line of the node
        on_line = len({layout.line(it) for it, _ in there.spans}) == 1 and bool(layout.text[layout.line(first) : first].strip())
        between: list[Piece] = [b" "] if on_line else [Break()]
        rope: Rope = []
        for at, it in enumerate(news):
            neighbour = news[at - 1] if at else there.items[after] if after >= 0 else None
            if after >= 0 or at:
                rope += [Break()] * (not on_line and neighbour is not None and self._is_apart(there, neighbour, it))
                rope += between
            rope += self._moved(it, there.field)
        if after >= 0:
            place = layout.trailing(there.spans[after][1])
            if after + 1 < len(there.items) and not on_line and self._is_apart(there, news[-1], there.items[after + 1]):
                gap = layout.text[there.spans[after][1] : there.spans[after + 1][0]]
                rope += [Break()] * (gap.count(b"\n") < 2)
            return [RopeEdit(place, place, placed(rope, indent))]
        place = layout.leading(there.spans[0][0]) if there.spans[0][0] != span(there.node)[0] else there.spans[0][0]
        if not layout.line(place) and layout.comments_in(0, there.spans[0][0]):
            # comments that begin a file are about it
            place = there.spans[0][0]
        rope += [Break()] * (not on_line and self._is_apart(there, news[-1], there.items[0])) + between
        return [RopeEdit(place, place, placed(rope, indent))]

    # Whether a blank line comes between two: one is a definition, and those that are there have some around them.
    def _is_apart(self, there: _List, one: Term, two: Term) -> bool:
        apart = self._grammar.apart
        if one.head not in apart and two.head not in apart:
            return False
        gaps = [
            self._layout.text[before[1] : after[0]].count(b"\n")
            for (before, after), (it, other) in zip(zip(there.spans, there.spans[1:]), zip(there.items, there.items[1:]))
            if it.head in apart or other.head in apart
        ]
        return not gaps or max(gaps) > 1

    # A list that was empty.
    def _filled(self, node: Term, field: Field, new: Term) -> list[RopeEdit]:
        layout = self._layout
        spots = layout.spots(node)
        [opens] = spots["(" + field.name]
        rope = self._templates.elements(field, new.children)
        first, last = span(node)
        place = opens.first
        if "\n" not in field.given[0]:
            while place > first and layout.text[place - 1 : place] in (b" ", b"\t"):
                place -= 1
            return [RopeEdit(place, opens.first, placed(rope, layout.indent(place)))]
        if (first, last) == (0, len(layout.text)) and opens.first == last:
            # a file without statements: after its comments
            before: list[Piece] = [Break()] if layout.text and not layout.text.endswith(b"\n") else []
            return [RopeEdit(last, last, [*before, *rope, Break()])]
        indent = layout.indent(first)
        inner = placed([Break(), *rope], self._templates.unit * max(field.level, 1))
        while place > first and layout.text[place - 1 : place].isspace():
            place -= 1
        return [RopeEdit(place, opens.first, placed([*inner, Break()], indent))]
