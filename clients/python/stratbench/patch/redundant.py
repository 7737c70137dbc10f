"""Brackets of the old text that a change may make redundant: those that its tree needs. The others are their author's, and stay."""

from __future__ import annotations

from typing import Optional

from ..terms import Term, read
from ..terms import at as subterm
from .brackets import Parse, differing
from .dialect import Dialect, Wrong
from .edits import Cannot
from .layout import Layout, span


class OldBrackets:
    """The pairs of brackets in a source that its tree needs, found by parsing it without them."""

    def __init__(self, dialect: Dialect, layout: Layout, parse: Parse) -> None:
        self._dialect, self._layout, self._parse = dialect, layout, parse
        self._found: dict[int, Optional[tuple[int, int]]] = {}

    def needed(self, node: Term) -> Optional[tuple[int, int]]:
        """Returns where the brackets around a node begin and end, where the tree needs them and they aren't of the node around."""
        if id(node) not in self._found:
            place = self._pair(node)
            self._found[id(node)] = place if place is not None and self._is_needed(*place) else None
        return self._found[id(node)]

    # The innermost brackets around a node, with nothing but blanks between.
    def _pair(self, node: Term) -> Optional[tuple[int, int]]:
        grammar, text = self._dialect.grammar, self._layout.text
        brackets = grammar.brackets.get(grammar.sort(node))
        if brackets is None or brackets.constructor is not None:
            return None
        first, last = span(node)
        while first > 0 and text[first - 1 : first].isspace():
            first -= 1
        while text[last : last + 1].isspace():
            last += 1
        first, last = first - len(brackets.opens), last + len(brackets.closes)
        if first < 0 or not (text.startswith(brackets.opens, first) and text.endswith(brackets.closes, 0, last)):
            return None
        return None if self._is_sign(node, first) else (first, last)

    # Whether what is at a place before a node is a sign of the node around it.
    def _is_sign(self, node: Term, place: int) -> bool:
        around = self._layout.around(span(node)[0])
        at = next((at for at, it in enumerate(around) if it is node), 0)
        try:
            spots = self._layout.spots(around[at - 1]) if at else {}
        except Cannot:
            return True
        return not at or any(it.first <= place < it.last for name, found in spots.items() if name[0] in "!~" for it in found)

    # Whether the tree is another without two brackets. The statement around is parsed alone, where that can be done.
    def _is_needed(self, first: int, last: int) -> bool:
        alone, around = self._dialect.alone, self._layout.around(first)
        statement = next((it for it in reversed(around) if alone and self._dialect.grammar.sort(it) == alone.sort), None)
        if alone is not None and statement is not None:
            begin, end = span(statement)
            texts = [self._layout.text[begin:end], self._without(first, last)[begin:end]]
            one, two = self._parse([alone.before + it + alone.after for it in texts], False)
            if not isinstance(one, Wrong):
                return isinstance(two, Wrong) or self._differ(statement, subterm(read(two), alone.path))
        [whole] = self._parse([self._without(first, last)], False)
        return isinstance(whole, Wrong) or self._differ(self._layout.tree, read(whole))

    def _without(self, first: int, last: int) -> bytes:
        text = self._layout.text
        return text[:first] + b" " + text[first + 1 : last - 1] + b" " + text[last:]

    def _differ(self, old: Term, got: Term) -> bool:
        return bool(differing(self._dialect.grammar, old, got, 0))
