"""The old tree over its text: which node is where, the gaps between the children of a node, the comments in these, and the lines."""

from __future__ import annotations

import re
from bisect import bisect_right
from collections import Counter
from typing import Final, NamedTuple, Optional

from ..terms import LIST, Term, position
from .edits import Cannot
from .grammar import Constructor, Field, Grammar, Group, Part, Sign
from .origins import Origins

_BLANKS: Final = re.compile(rb"[ \t]*")


class Comment(NamedTuple):
    """A comment of the source."""

    first: int
    last: int
    text: str
    to_end: bool


class Spot(NamedTuple):
    """Where a part of a template is in a gap: from where, to where."""

    first: int
    last: int


def span(term: Term) -> tuple[int, int]:
    """Returns where a node is. Raises `Cannot` where it has no position."""
    found = position(term)
    if found is None:
        raise Cannot
    return found


class Layout:
    """The text of a source and its tree. `comment` finds comments in gaps, and `to_end` says of the text of one whether it goes on to the
    line's end."""

    def __init__(self, grammar: Grammar, text: bytes, tree: Term, comment: re.Pattern[bytes], line_comments: tuple[bytes, ...]) -> None:
        self.grammar, self.text, self.tree = grammar, text, tree
        self._comment, self._line_comments = comment, line_comments
        self.newline = b"\r\n" if b"\r\n" in text else b"\n"
        self.origins = Origins(tree, grammar.constructors)
        self.origin, self.homes = self.origins.of, self.origins.homes
        self._spots: dict[int, dict[str, list[Spot]]] = {}
        self._comments: Optional[list[Comment]] = None

    def missing(self) -> frozenset[str]:
        """Returns the signs that the text does without, mostly, at the end of nodes where they may be missing."""
        there: Counter[str] = Counter()
        for _, last, head in self.origins.found:
            parts = self.grammar.constructors[head].parts
            end = parts[-1] if parts else None
            if isinstance(end, Sign) and end.may_miss:
                there[end.text] += 1 if self.text[last - len(end.text) : last] == end.text.encode() else -1
        return frozenset(it for it, count in there.items() if count < 0)

    # --- children and gaps

    def slots(self, node: Term) -> list[Term]:
        """Returns the nodes with a position that are right below a node, in the order of the text. Those without are gone through."""
        found: list[Term] = []
        waiting = list(node.children[::-1])
        while waiting:
            it = waiting.pop()
            if it.annotations and self.grammar.is_node(it) and position(it) is not None:
                found.append(it)
            else:
                waiting.extend(it.children[::-1])
        return sorted(found, key=span)

    def gaps(self, node: Term) -> list[tuple[int, int]]:
        """Returns where the gaps of a node are: before, between and after its children. Raises `Cannot` where two overlap."""
        first, last = span(node)
        found: list[tuple[int, int]] = []
        for it in self.slots(node):
            begin, end = span(it)
            if begin < first:
                raise Cannot
            found.append((first, begin))
            first = end
        if last < first:
            raise Cannot
        return [*found, (first, last)]

    def spots(self, node: Term) -> dict[str, list[Spot]]:
        """Returns where in the gaps of a node its words are, by the names of their fields; where groups that are absent would be, and what
        opens and closes those that are there, as `[name` and `]name`; signs that may be missing, as `~` with their number."""
        if id(node) not in self._spots:
            self._spots[id(node)] = _Spots(self, node).found
        return self._spots[id(node)]

    # --- comments

    def bare(self, first: int, last: int) -> bytes:
        """Returns the text of a gap, with blanks in the places of comments."""
        return self._comment.sub(lambda it: b" " * len(it.group()), self.text[first:last])

    @property
    def comments(self) -> list[Comment]:
        """The comments of the source, in order."""
        if self._comments is None:
            self._comments = self._all_comments()
        return self._comments

    def _all_comments(self) -> list[Comment]:
        found: list[Comment] = []
        at = 0
        while (it := self._comment.search(self.text, at)) is not None:
            atom = self._atom_at(it.start())
            if atom is not None:
                # what looks like one within a string
                at = max(atom, it.start() + 1)
                continue
            text = it.group()
            found.append(Comment(*it.span(), text.decode(errors="replace"), text.startswith(self._line_comments)))
            at = it.end()
        return found

    # Where the atom ends that a place is in, if it is in one.
    def _atom_at(self, place: int) -> Optional[int]:
        for it in self.around(place):
            if it.head in self.grammar.atoms:
                return span(it)[1]
        return None

    def around(self, place: int) -> list[Term]:
        """Returns the nodes around a place, from the outermost to the innermost."""
        found: list[Term] = []
        waiting = [self.tree]
        while waiting:
            it = waiting.pop()
            where = position(it) if self.grammar.is_node(it) else None
            if where is not None:
                if not where[0] <= place < where[1]:
                    continue
                found.append(it)
                waiting = []
            waiting.extend(it.children)
        return found

    def comments_in(self, first: int, last: int) -> list[Comment]:
        """Returns the comments that are between two places."""
        found: list[Comment] = []
        for it in self.comments[bisect_right(self.comments, (first,)) :]:
            if it.first >= last:
                break
            if it.last <= last:
                found.append(it)
        return found

    # --- lines

    def line(self, place: int) -> int:
        """Returns where the line of a place begins."""
        return self.text.rfind(b"\n", 0, place) + 1

    def indent(self, place: int) -> bytes:
        """Returns the indentation of the line of a place."""
        start = self.line(place)
        found = _BLANKS.match(self.text, start, max(place, start))
        return found.group() if found else b""

    def after_line(self, place: int) -> int:
        """Returns where the next line begins."""
        end = self.text.find(b"\n", place)
        return len(self.text) if end < 0 else end + 1

    def leading(self, place: int) -> int:
        """Returns where the comments above an element begin, each on lines of its own and as deep as it."""
        line = self.line(place)
        if self.text[line:place].strip():
            return place
        indent = place - line
        ends = {self.after_line(it.last): it for it in self.comments_in(0, place) if not self.text[it.last : self.after_line(it.last)].strip()}
        while (found := ends.get(line)) is not None:
            above = self.line(found.first)
            if found.first - above != indent or self.text[above : found.first].strip():
                break
            place, line = found.first, above
        return place

    def trailing(self, place: int) -> int:
        """Returns where the comment after an element ends that is in its line, and the last one there."""
        end = self.after_line(place)
        found = [it for it in self.comments_in(place, end)]
        if len(found) == 1 and not self.text[place : found[0].first].strip(b" \t;,") and not self.text[found[0].last : end].strip():
            return found[0].last
        return place


# The words and signs of a node, found by the template: what is between two children in it has to be what is between them in the text.
class _Spots:
    def __init__(self, layout: Layout, node: Term) -> None:
        self.found: dict[str, list[Spot]] = {}
        self._layout, self._node = layout, node
        self._constructor = layout.grammar.constructors[str(node.head)]
        self._pattern: list[bytes] = []
        self._names: list[str] = []
        self._gaps = iter(layout.gaps(node))
        self._missing = 0
        self._parts(self._constructor, node, self._constructor.parts)
        self._end()

    def _parts(self, constructor: Constructor, node: Term, parts: tuple[Part, ...]) -> None:
        values = dict(zip(constructor.fields, node.children))
        for it in parts:
            if isinstance(it, Sign):
                self._sign(it)
            elif isinstance(it, Group):
                self._group(constructor, node, it, values[it.field])
            else:
                self._field(it, values[it.name])

    def _group(self, constructor: Constructor, node: Term, group: Group, value: Term) -> None:
        if self._layout.grammar.is_absent(value):
            self._named("[" + group.field, b"")
            for word in group.otherwise.split():
                self._pattern.append(re.escape(word.encode()) + rb"\s*")
            return
        self._named("[" + group.field, b"")
        self._parts(constructor, node, group.parts)
        self._named("]" + group.field, b"")

    def _sign(self, sign: Sign) -> None:
        for it in sign.text.split():
            text = re.escape(it.encode())
            if sign.may_miss:
                self._missing += 1
                self._named(f"~{self._missing}{it}", rb"(?:%s)?" % text)
            else:
                self._named("!" + it, text)

    def _field(self, field: Field, value: Term) -> None:
        grammar = self._layout.grammar
        if field.kind == "list" and value.head == LIST:
            self._list(field, value)
        elif position(value) is not None and grammar.is_node(value):
            self._child()
        elif grammar.is_node(value):
            inner = grammar.constructors[str(value.head)]
            self._parts(inner, value, inner.parts)
        elif not grammar.is_absent(value):
            word = field.word(value)
            if word is None:
                raise Cannot
            text = re.escape(word.strip())
            self._named(field.name, rb"\b%s\b" % text if re.fullmatch(rb"\w+", word.strip()) else text)

    def _list(self, field: Field, value: Term) -> None:
        sign = field.given[0].strip().encode()
        if any(position(it) is None and it.head != self._layout.grammar.absent for it in value.children):
            raise Cannot
        self._named("(" + field.name, b"")
        for at, it in enumerate(value.children):
            if at and sign:
                self._pattern.append(re.escape(sign) + rb"\s*")
            if position(it) is not None:
                self._child()
        if value.children and sign:
            self._pattern.append(rb"(?:%s)?\s*" % re.escape(sign))
        self._named(")" + field.name, b"")

    def _named(self, name: str, text: bytes) -> None:
        self._names.append(name)
        self._pattern.append(rb"(%s)\s*" % text)

    def _child(self) -> None:
        self._end()
        self._pattern.append(rb"[)\s]*?")

    # Reads the gap before a child, or the last one. Brackets of the children may be around it.
    def _end(self) -> None:
        first, last = next(self._gaps)
        pattern = rb"\s*%s[(\s]*" % b"".join(self._pattern)
        found = re.compile(pattern).fullmatch(self._layout.bare(first, last))
        if found is None:
            raise Cannot
        for at, name in enumerate(self._names, 1):
            self.found.setdefault(name, []).append(Spot(first + found.start(at), first + found.end(at)))
        self._pattern, self._names = [], []
