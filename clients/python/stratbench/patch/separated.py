"""Lists with signs between their elements: an element comes and goes with a sign, its line and its comments."""

from __future__ import annotations

import re
from collections.abc import Sequence
from functools import cached_property
from typing import Protocol

from .rope import Break, Rope, RopeEdit, placed


class Surroundings(Protocol):
    """The text that a list is in, without comments, and by its lines."""

    @property
    def text(self) -> bytes: ...

    def bare(self, first: int, last: int) -> bytes: ...

    def indent(self, place: int) -> bytes: ...

    def leading(self, place: int) -> int: ...

    def trailing(self, place: int) -> int: ...


class Separated:
    """A list that isn't empty: where its elements are with the brackets around them, between which places it is, and what comes between two new
    elements."""

    def __init__(self, around: Surroundings, spans: Sequence[tuple[int, int]], first: int, last: int, separator: str) -> None:
        self._around, self._spans, self._first, self._last = around, spans, first, last
        self._is_spaced, self._separator, self._sign = separator.endswith((" ", "\n")), separator.rstrip().encode(), separator.strip().encode()

    def gone(self, first: int, last: int) -> list[RopeEdit]:
        """Returns the edits without the elements from one to another. What is left between has one sign."""
        around, begin, end = self._around, self._spans[first][0], self._spans[last][1]
        if last + 1 < len(self._spans):
            # comments above the next one are its own
            return [RopeEdit(begin, max(end, around.leading(self._spans[last + 1][0])), [])]
        after = self._after_sign(end)
        # with the comment after it
        line = around.trailing(after) if around.trailing(after) <= self._last else after
        if first > 0:
            before = self._spans[first - 1][1]
            sign = before + around.bare(before, begin).find(self._sign)
            kept = around.trailing(sign + len(self._sign))
            if kept == sign + len(self._sign) and line == after:
                return [RopeEdit(before, end, [])]
            # one sign goes: that after the last element, if there is one
            return [*([RopeEdit(sign, sign + len(self._sign), [])] * (after == end)), RopeEdit(kept, line, [])]
        blanks = re.compile(rb"\s*").match(around.text, line)
        while begin > self._first and around.text[begin - 1 : begin].isspace():
            begin -= 1
        return [RopeEdit(begin, blanks.end() if blanks else line, [])]

    # Where the sign after the last element ends, or that, if there is none.
    def _after_sign(self, end: int) -> int:
        found = re.compile(rb"\s*" + re.escape(self._sign)).match(self._around.bare(end, max(end, self._last)))
        return end + found.end() if found else end

    def come(self, after: int, news: Sequence[Rope]) -> list[RopeEdit]:
        """Returns the edits where elements of these texts come after one, or before the first, which is after -1."""
        around, over_lines = self._around, self._over_lines
        # the first one may be on the line of the bracket
        like = max(after, 1 if over_lines and len(self._spans) > 1 else 0)
        indent = around.indent(self._spans[like][0])
        blank: Rope = [Break()] if over_lines else [b" "] if self._is_spaced and not self._is_tight else []
        if after < 0:
            place = around.leading(self._spans[0][0]) if over_lines else self._spans[0][0]
            return [RopeEdit(place, place, placed([part for it in news for part in (*it, self._separator, *blank)], indent))]
        end = self._spans[after][1]
        is_last = after + 1 == len(self._spans)
        sign = self._after_sign(end) if is_last else end + around.bare(end, self._spans[after + 1][0]).find(self._sign) + len(self._sign)
        place = around.trailing(sign) if over_lines else sign
        rope: Rope = []
        for it in news:
            rope += [*blank, *it, self._separator] if sign > end else [self._separator, *blank, *it]
        if sign > end:
            return [RopeEdit(place, place, placed(rope, indent))]
        if place > end:
            return [RopeEdit(end, end, rope[:1]), RopeEdit(place, place, placed(rope[1:], indent))]
        return [RopeEdit(end, end, placed(rope, indent))]

    # What is between two elements, without comments.
    @cached_property
    def _gaps(self) -> list[bytes]:
        return [self._around.bare(one[1], two[0]) for one, two in zip(self._spans, self._spans[1:])]

    # Whether each element is on a line of its own.
    @cached_property
    def _over_lines(self) -> bool:
        before = self._around.bare(self._first, self._spans[0][0])
        return all(b"\n" in it for it in self._gaps or [before[len(before.rstrip()) :]])

    # Whether there are no blanks after the signs that are there.
    @cached_property
    def _is_tight(self) -> bool:
        return bool(self._gaps) and all(it.endswith(self._sign) for it in self._gaps)
