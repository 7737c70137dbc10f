"""The edits where a node stands in the place of another: within it, where the constructor stays, or its text made anew."""

from __future__ import annotations

import re
import weakref
from collections.abc import Callable
from typing import NamedTuple, Optional

from ..terms import LIST, Term, position
from .edits import Cannot
from .grammar import Constructor, Field, Grammar
from .layout import Comment, Layout, Spot, span
from .lists import Lists
from .rope import Break, Copy, Note, Rope, RopeEdit, in_order, joined, lines, notes, placed
from .templates import Templates


# Where an old node has brackets that it needs.
NeededBefore = Callable[[Term], Optional[tuple[int, int]]]


class Frame(NamedTuple):
    """A statement that stays and has edits in it, and the new one. What is wrong in it can be looked for there alone."""

    old: Term
    new: Term


class Nodes:
    """The edits within nodes. `frames` are the statements that have some, those inside before those around."""

    def __init__(
        self, grammar: Grammar, layout: Layout, templates: Templates, is_present: Callable[[Term], bool], needed_before: NeededBefore = lambda old: None
    ) -> None:
        self._grammar, self._layout, self._templates, self._needed_before = grammar, layout, templates, needed_before
        # who is in this knows it weakly, so that the trees go when it goes, and not when memory is searched for cycles
        inside = weakref.proxy(self)
        self._lists = Lists(grammar, layout, templates, inside, is_present)
        self._is_present = is_present
        self.frames: list[Frame] = []
        # whether a node of which a field of its own changes is made anew
        self.coarse = False
        templates.inside = inside

    def slot(self, old: Term, new: Term, plain: bool = False) -> list[RopeEdit]:
        """Returns the edits where a node comes in the place of an old one."""
        if old is new:
            return []
        first, last = span(old)
        edits: Optional[list[RopeEdit]] = None
        if old.head == new.head and self._layout.origin(new) in (None, old):
            try:
                edits = self.within(old, new)
            except Cannot:
                edits = None
        if edits is None:
            tight = new.head in self._grammar.text
            edits = [RopeEdit(first, last, placed(self._anew(old, new), self._layout.indent(first)), tight)]
        elif new.head in self._grammar.constructors and self._grammar.sort(new) == "statement":
            self.frames.append(Frame(old, new))
        there = self._needed_before(old) if not plain and self._binds_otherwise(old, new) else None
        if plain or there is None and not self._grammar.has_brackets(new):
            return edits
        return self._templates.bracketed(old, new, edits, there)

    # Whether brackets around an old node may do nothing around a new one.
    def _binds_otherwise(self, old: Term, new: Term) -> bool:
        return old.head != new.head or any(isinstance(it.head, bytes) and it != other for it, other in zip(old.children, new.children))

    # The text of a node that comes for an old one, with the comments of that which are between what stays of it.
    def _anew(self, old: Term, new: Term) -> Rope:
        first, last = span(old)
        rope = self._templates.rope(new, self._layout.text[first:last])
        there = notes(rope)
        left = [it for it in self._layout.comments_in(first, last) if it.first not in there]
        if not left or old.head in self._grammar.atoms:
            return rope
        kept = [(it.place, at) for at, it in enumerate(rope) if isinstance(it, Copy)]
        return self._with_comments(rope, [it for it in left if self._is_between(it, old, kept)])

    # Whether a comment is in the gap of a node of which something stays here. What is elsewhere has its comments there.
    def _is_between(self, comment: Comment, old: Term, kept: list[tuple[int, int]]) -> bool:
        inner = self._layout.around(comment.first)[-1]
        first, last = span(inner)
        return not self._is_present(inner) and (inner is old or any(first <= place <= last for place, _ in kept))

    # Each comment comes after the old text that it was after, or else before what it was before.
    def _with_comments(self, rope: Rope, comments: list[Comment]) -> Rope:
        for it in comments:
            pieces = [(piece, at) for at, piece in enumerate(rope) if isinstance(piece, Copy)]
            before = [(piece.place, at) for piece, at in pieces if not piece.begins and piece.place <= it.first]
            after = [(piece.place, at) for piece, at in pieces if piece.begins and piece.place >= it.last]
            text = self._layout.text[it.first : it.last]
            note = Note(it.first, tuple(lines(text, self._layout.indent(it.first))), it.to_end)
            if before and (not after or not it.to_end):
                at = max(before)[1] + 1
                rope = [*rope[:at], b" ", note, *rope[at:]]
            elif after:
                at = min(after)[1]
                rope = [*rope[:at], note, Break(self._templates.unit) if it.to_end else b" ", *rope[at:]]
            else:
                rope = [note, Break() if it.to_end else b" ", *rope]
        return rope

    def within(self, old: Term, new: Term) -> list[RopeEdit]:
        """Returns the edits in an old node whose constructor stays, in order. Raises `Cannot` where it has to be made anew."""
        if old.head in self._grammar.atoms or old.head != new.head or len(old.children) != len(new.children):
            raise Cannot
        constructor = self._grammar.constructors[str(old.head)]
        changed = [self._is_own(one, two) for one, two in zip(old.children, new.children)]
        if self.coarse and any(changed):
            raise Cannot
        has_word = any(isinstance(one.head, bytes) and one != two for one, two in zip(old.children, new.children))
        edits: list[RopeEdit] = []
        for name, one, two in zip(constructor.fields, old.children, new.children):
            edits += self._field(constructor, old, new, name, one, two, has_word)
        return in_order(edits)

    # Whether a change is of a field itself, and not within what is in it.
    def _is_own(self, one: Term, two: Term) -> bool:
        if one is two or one == two:
            return False
        if one.head == LIST and two.head == LIST:
            origins = [self._layout.origin(it) for it in two.children]
            return len(one.children) != len(two.children) or any(it not in (None, other) for it, other in zip(origins, one.children))
        return position(one) is None or not self._grammar.is_node(two)

    def _field(
        self, constructor: Constructor, old: Term, new: Term, name: str, one: Term, two: Term, has_word: bool
    ) -> list[RopeEdit]:
        field = constructor.by_name[name]
        if one is two or not one.children and not one.annotations and one == two:
            # an operator that changes may bind what stays otherwise
            return self._around(one) if has_word and position(one) is not None else []
        if one.head == LIST and two.head == LIST:
            if bool(one.children) != bool(two.children) and name in constructor.groups:
                return self._group(constructor, old, new, name)
            return self._lists.edits(old, field, one, two)
        if position(one) is not None and self._grammar.is_node(two):
            return self.slot(one, two, field.plain)
        if self._grammar.absent in (one.head, two.head):
            return self._group(constructor, old, new, name)
        return self._word(old, field, one, two)

    def _around(self, node: Term) -> list[RopeEdit]:
        if not self._grammar.has_brackets(node):
            return []
        return self._templates.bracketed(node, node, [], self._needed_before(node))

    # A name, an operator, a flag.
    def _word(self, old: Term, field: Field, one: Term, two: Term) -> list[RopeEdit]:
        before, after = field.word(one), field.word(two)
        if before is None or after is None:
            raise Cannot
        spots = self._layout.spots(old).get(field.name, [])
        if not spots:
            raise Cannot
        return [self._exchanged(it, after) for it in spots]

    def _exchanged(self, spot: Spot, word: bytes) -> RopeEdit:
        text, (first, last) = self._layout.text, spot
        if not word.strip():
            # with the blanks after it
            while last < len(text) and text[last : last + 1] in (b" ", b"\t") and first < spot.last:
                last += 1
            return RopeEdit(first, last, [])
        if first < last:
            word = word.strip()
        return RopeEdit(first, last, [joined(text[:first], word), word, joined(word, text[last:])])

    # A field that comes or goes, or a list that is empty before or after, with what goes with it.
    def _group(self, constructor: Constructor, old: Term, new: Term, name: str) -> list[RopeEdit]:
        group = constructor.groups.get(name)
        spots = self._layout.spots(old)
        if group is None or group.otherwise or len(spots.get("[" + name, [])) != 1:
            raise Cannot
        [opens] = spots["[" + name]
        values = dict(zip(constructor.fields, new.children))
        if self._grammar.is_absent(values[name]):
            [closes] = spots["]" + name]
            return [self._gone(opens.first, closes.first, span(old))]
        place = self._back(opens.first, span(old)[0], rb"[ \t]")
        rope = placed(self._templates.template(group.parts, constructor, new), self._layout.indent(place))
        if opens.first == span(old)[0]:
            place = opens.first
        return [RopeEdit(place, place, rope)]

    def _gone(self, first: int, last: int, around: tuple[int, int]) -> RopeEdit:
        if first == around[0]:
            # it begins the node: what follows moves up
            return RopeEdit(first, last, [])
        end = self._back(last, first, rb"\s")
        begin = self._back(first, around[0], rb"\s")
        comments = self._layout.comments_in(around[0], first)
        if comments and comments[-1].to_end and comments[-1].last == begin and self._layout.text[end : self._layout.after_line(end)].strip():
            # what follows would be in the comment
            begin = first
        return RopeEdit(begin, max(begin, end), [])

    # The place before blanks that end at a place.
    def _back(self, place: int, least: int, blank: bytes) -> int:
        while place > least and re.match(blank, self._layout.text[place - 1 : place]):
            place -= 1
        return place
