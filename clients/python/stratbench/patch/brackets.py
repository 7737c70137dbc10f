"""Which brackets are needed, found by parsing: the new text without any, then with those where its tree differs, and without those of them
that do nothing. Where a statement can be parsed alone, that is done there."""

from __future__ import annotations

from collections.abc import Sequence, Set
from typing import Callable, Final, NamedTuple, Optional, Union

from ..terms import LIST, Term, plain, position, read
from ..terms import at as subterm
from .dialect import Alone, Dialect, Wrong
from .edits import Unwritable
from .grammar import Grammar
from .layout import span
from .needed import Bracketed, Pair, fewest, needed
from .nodes import Frame
from .render import Assembled, Renderer
from .rope import Mark, RopeEdit
from .templates import Templates

# Parses texts; the second says whether positions are wanted.
Parse = Callable[[Sequence[bytes], bool], list[Union[bytes, Wrong]]]
_MOST_TRIES: Final = 60


class Region(NamedTuple):
    """Where a text has another tree than it should, and the nodes that should be there, from the outer ones on; or a line in which the
    parser found a fault, and at which place."""

    first: int
    last: int
    nodes: tuple[Term, ...] = ()
    place: int = -1


class Search:
    """The search for the brackets of a new text."""

    def __init__(
        self, dialect: Dialect, text: bytes, new: Term, edits: Sequence[RopeEdit], templates: Templates, newline: bytes, parse: Parse
    ) -> None:
        self._grammar, self._alone, self._text, self._parse = dialect.grammar, dialect.alone, text, parse
        self._new, self._edits, self._brackets = new, edits, templates.brackets
        self._renderer = Renderer(newline, templates.brackets)
        self._nodes = {id(it): at for at, it in enumerate(templates.marked_nodes)}
        self._kept = frozenset(templates.kept)
        self._wanted = plain(new).encode()
        self._why = ""

    def found(self, frames: Sequence[Frame], is_least: bool = True) -> Assembled:
        """Returns the text, with the fewest brackets or with enough. Raises `Unwritable` where none was found."""
        active = set(self._kept)
        regions = self._regions(active)
        if regions and self._alone is not None:
            local = self._local(frames, self._alone, active)
            if local != active:
                active = local
                regions = self._regions(active)
        some: Set[int] = self._kept
        if regions:
            some = active = self._searched(regions, active)
        return self._assembled(self._least(active, active & some) if is_least else active)

    def _assembled(self, active: Set[int]) -> Assembled:
        return self._renderer.assembled(self._text, self._edits, active)

    def needed(self, marks: Sequence[int], found: Assembled, between: tuple[bytes, bytes], is_right: Callable[[set[int]], bool]) -> set[int]:
        """Returns those that are needed of some brackets, which aren't all redundant. They are in this text, which is parsed between two
        others."""
        begin, pairs = len(between[0]), dict[int, Pair]()
        for it in marks:
            (first, last), brackets = found.where[it], self._brackets(it)
            if brackets.constructor is None:
                pairs[it] = Pair((begin + first, begin + last), (begin + first + len(brackets.opens), begin + last - len(brackets.closes)))
        if self._alone is None or len(marks) == 1 or not pairs:
            return fewest(marks, is_right)
        text = between[0] + found.text + between[1]
        [got] = self._parse([text], True)
        tree = Term(LIST) if isinstance(got, Wrong) else read(got)
        return needed(marks, Bracketed(text, tree, pairs), self._sort, self._short_trees, is_right)

    # The sort of a node that can be made a statement.
    def _sort(self, node: Term) -> Optional[str]:
        sort = self._grammar.sort(node)
        return sort if self._alone is not None and sort in self._alone.around else None

    # The trees of statements that are made of nodes of some sorts.
    def _short_trees(self, texts: Sequence[tuple[str, bytes]]) -> list[Optional[bytes]]:
        alone = self._alone
        assert alone is not None
        whole = [alone.before + alone.around[sort][0] + text + alone.around[sort][1] + alone.after for sort, text in texts]
        return [None if isinstance(it, Wrong) else it for it in self._parse(whole, False)]

    # --- the whole text

    def _spells(self, active: Set[int]) -> bool:
        return self._parse([self._assembled(active).text], False) == [self._wanted]

    # Where the tree of the new text isn't the new tree; nothing where it is.
    def _regions(self, active: Set[int]) -> list[Region]:
        text = self._assembled(active).text
        [got] = self._parse([text], False)
        if got == self._wanted:
            return []
        if not isinstance(got, Wrong):
            [got] = self._parse([text], True)
        self._why = f"{got.message}: " if isinstance(got, Wrong) else ""
        if isinstance(got, Wrong):
            return [Region(*_line(text, got.place), place=got.place)]
        return differing(self._grammar, self._new, read(got), len(text))

    # The marks of the nodes that differ in some regions, and of their parts.
    def _near(self, regions: Sequence[Region]) -> set[int]:
        found: set[int] = set()
        for node in (it for region in regions for it in region.nodes):
            parts = (part for child in node.children for part in (child.children if child.head == LIST else (child,)))
            found |= {self._nodes[id(it)] for it in (node, *parts) if id(it) in self._nodes}
        return found

    def _searched(self, regions: list[Region], active: set[int]) -> set[int]:
        wrong: set[int] = set()
        for _ in range(_MOST_TRIES):
            where = self._assembled(active).where
            more = (self._near(regions) & where.keys()) - active - wrong
            if not more:
                more = {it for it, place in where.items() if it not in active | wrong and any(_meet(place, it) for it in regions)}
            if not more:
                more = where.keys() - active - wrong
            if not more and active:
                # a bracket where none may be: the last one before the place
                place = regions[0].place if regions[0].place >= 0 else regions[0].last
                last = max(active, key=lambda it: (where[it][0] <= place, where[it][0] if where[it][0] <= place else -where[it][0]))
                active, wrong = active - {last}, wrong | {last}
            elif not more:
                break
            active = active | more
            regions = self._regions(active)
            if not regions:
                return active
        raise Unwritable(f"no text spells the new tree: {self._why}{self._text_at(regions, active)!r}")

    def _text_at(self, regions: Sequence[Region], active: Set[int]) -> str:
        first, last = regions[0][:2]
        return self._assembled(active).text[first : min(last, first + 60)].decode(errors="replace")

    # The brackets without those of some that do nothing.
    def _least(self, active: set[int], some: set[int]) -> set[int]:
        rest = active - some
        if not some or self._spells(rest):
            return rest
        return rest | self.needed(sorted(some), self._assembled(active), (b"", b""), lambda it: self._spells(rest | it))

    # --- statements alone

    # The brackets that statements need which have edits, as far as they can be parsed alone, from the innermost on.
    def _local(self, frames: Sequence[Frame], alone: Alone, active: Set[int]) -> set[int]:
        found, done = set(active), set(active)
        for it in frames:
            first, last = span(it.old)
            edits = [one for one in self._edits if first <= one.first and one.last <= last]
            marks = sorted({piece.number for one in edits for piece in one.rope if isinstance(piece, Mark)} - done)
            own = self._in_statement(it, edits, alone, found, marks) if marks else None
            if own is not None:
                found |= own
                done.update(marks)
        return found

    # Those that are needed of some in a statement, where others are known; or nothing where it can't be parsed alone.
    def _in_statement(self, frame: Frame, edits: Sequence[RopeEdit], alone: Alone, known: Set[int], marks: Sequence[int]) -> Optional[set[int]]:
        def assembled(active: Set[int]) -> Assembled:
            return self._renderer.assembled(self._text, edits, active | known, *span(frame.old))

        def is_right(active: Set[int]) -> bool:
            [got] = self._parse([alone.before + assembled(active).text + alone.after], False)
            return not isinstance(got, Wrong) and not differing(self._grammar, frame.new, subterm(read(got), alone.path), 0)

        if is_right(set()):
            return set()
        if not is_right(set(marks)):
            # brackets may be wrong somewhere: one is enough, mostly
            return next(({it} for it in marks if is_right({it})), None)
        return self.needed(marks, assembled(set(marks)), (alone.before, alone.after), is_right)


def differing(grammar: Grammar, new: Term, got: Term, length: int) -> list[Region]:
    """Returns where in the text of `got` it differs from `new`, where a block around one statement may be a bracket."""
    found: list[Region] = []
    waiting = [(new, got, Region(0, length))]
    while waiting:
        one, two, around = waiting.pop()
        around = Region(*(position(two) or around[:2]), (*around.nodes[-1:], one) if grammar.is_node(one) else around.nodes)
        if type(one.head) is not type(two.head) or one.head != two.head:
            inner = _in_brackets(grammar, one, two)
            if inner is None:
                found.append(around)
            else:
                waiting.append((one, inner, around))
        elif len(one.children) != len(two.children):
            found.append(_in_list(one, two, around) if one.head == LIST else around)
        else:
            waiting.extend((it, other, around) for it, other in zip(one.children, two.children))
    return found


# The statement in a block, where that is a bracket for statements of its sort.
def _in_brackets(grammar: Grammar, new: Term, got: Term) -> Optional[Term]:
    found = grammar.brackets.get(grammar.sort(new))
    if found is None or found.constructor is None or got.head != found.constructor:
        return None
    inner = got.children[-1]
    return inner.children[0] if inner.head == LIST and len(inner.children) == 1 else None


def _in_list(one: Term, two: Term, around: Region) -> Region:
    for it, other in zip(one.children, two.children):
        if plain(it) != plain(other):
            return around._replace(first=(position(other) or around[:2])[0])
    return around


def _line(text: bytes, place: int) -> tuple[int, int]:
    end = text.find(b"\n", place)
    return text.rfind(b"\n", 0, place) + 1, len(text) if end < 0 else end


def _meet(one: tuple[int, int], two: Region) -> bool:
    return one[0] < two.last and two.first < one[1]
