"""New text while it is made: markers stand for nodes whose text is known, and marks for brackets that may be needed."""

from __future__ import annotations

import ast
import re
from collections.abc import Sequence, Set
from itertools import count
from typing import Final, NamedTuple

from ....patch.edits import Lines
from ....patch.needed import Bracketed, Pair, needed
from ....terms import LIST, Term, string
from ..source import CONSTRUCTORS, parse, to_term, unparse
from .edits import EXPRESSIONS, LOAD, NONE, OPEN, PATTERNS, Cannot, Edit

STRINGS: Final = re.compile(r"""('''|\"\"\"|'|")(?:\\.|(?!\1).)*\1""", re.DOTALL)


# The same of bytes, and comments, in which quotation marks are none.
_TEXTS: Final = rb"#[^\r\n]*|" + STRINGS.pattern.encode()


def indented(text: bytes, old: bytes, new: bytes) -> bytes:
    """A text with another indentation of its lines but the first. Those within strings stay."""
    begin = rb"|(?P<end>\n|\r(?!\n))%s(?=[^\S\r\n]*\S)" % re.escape(old)
    return text if old == new else re.sub(_TEXTS + begin, lambda it: it[0] if it["end"] is None else it["end"] + new, text, flags=re.DOTALL)


class Piece(NamedTuple):
    """The text of the marker that stands for a node while the text around is made, and the node's own, with the brackets that it may need. Before
    a dot a number has some."""

    shown: str
    text: str
    is_number: bool


def unparsed(term: Term) -> str:
    text = unparse(term)
    if term.head in ("NamedExpr", "Yield", "YieldFrom") and text.startswith("("):
        return text[1:-1]
    return text


def name_of(text: str) -> Term:
    return Term("Name", (string(text), LOAD))


# A node in whose place the text of another comes, and its own text. For what goes on as far as it can it is one of the same constructor, which
# `ast.unparse` puts into brackets wherever it would the node itself.
def marker_of(term: Term, number: int) -> tuple[str, Term]:
    name, head = string(f"_p{number}_"), term.head
    one = Term("Name", (name, LOAD))
    if head in OPEN:
        empty = Term(LIST)
        parameters = Term("arguments", (empty, empty, NONE, empty, empty, NONE, empty))
        parts = {"Lambda": (parameters, one), "IfExp": (one, one, one), "NamedExpr": (one, one)}
        marker = Term(head, parts.get(str(head), (one,)))
    elif head == "keyword":
        marker = Term(head, (NONE, one))
    elif head in ("arg", "alias"):
        marker = Term(head, (name, NONE, NONE)[: len(term.children)])
    elif head == "MatchStar":
        marker = Term(head, (name,))
    elif head in PATTERNS:
        marker = Term("MatchAs", (NONE, name))
    elif head in EXPRESSIONS:
        marker = one
    else:
        raise Cannot
    return unparsed(marker), marker


class Brackets:
    """Pairs of brackets that may be needed around nodes, as marks in new text: a sign, a bracket, and the number of the pair. Those that are
    needed are found by parsing the text without them."""

    def __init__(self, sign: str) -> None:
        self._sign, self._numbers = sign, count()
        self._mark = re.compile(rf"{sign}([()])(\d+){sign}")

    def around(self, text: str) -> str:
        """The text with a pair around it."""
        number = next(self._numbers)
        return f"{self._sign}({number}{self._sign}{text}{self._sign}){number}{self._sign}"

    def of(self, term: Term, text: str) -> str:
        """The text of a node with a pair around it, if the node may have brackets. Those of a generator are a pair themselves."""
        if term.head == "GeneratorExp":
            return self.around(text[1:-1])
        return self.around(text) if may_have_brackets(term) else text

    def around_edits(self, first: int, last: int, edits: Sequence[Edit]) -> list[Edit]:
        """Edits within an old node, or in its place, with a pair around it."""
        if len(edits) == 1 and (edits[0].first, edits[0].last) == (first, last):
            return [Edit(first, last, self.around(edits[0].text.decode()).encode())]
        opens, closes = self.around("\0").encode().split(b"\0")
        return [Edit(first, first, opens), *edits, Edit(last, last, closes)]

    def instead(self, edits: Sequence[Edit]) -> list[Edit]:
        """Edits with a pair in the place of the brackets in which the new text is."""
        opens, closes = self.around("\0").encode().split(b"\0")
        begun = [edits[0]._replace(text=opens + edits[0].text[1:]), *edits[1:]]
        return [*begun[:-1], begun[-1]._replace(text=begun[-1].text[:-1] + closes)]

    def are_in(self, text: bytes) -> bool:
        return self._sign.encode() in text and self._mark.search(text.decode()) is not None

    def needed(self, text: str) -> set[int] | None:
        """The pairs that a text of statements needs, so that its tree is the one that it has with all; or nothing where it has none then."""
        numbers = {int(it) for _, it in self._mark.findall(text)}
        wanted = _dumped(self.written(text, numbers)) if numbers else None
        if wanted is None:
            return None

        def is_right(some: Set[int]) -> bool:
            return _dumped(self.written(text, some)) == wanted

        if is_right(set()):
            return set()
        return numbers if len(numbers) == 1 else needed(numbers, self._bracketed(text), _sort, _short_trees, is_right)

    def written(self, text: str, some: Set[int]) -> str:
        """The text with these pairs, and without the others."""
        return self._mark.sub(lambda it: it[1] if int(it[2]) in some else "", text)

    # The text with all pairs. Of several that begin at one place it doesn't matter which one's sign is which one's.
    def _bracketed(self, text: str) -> Bracketed:
        opened, pairs, removed = list[int](), dict[int, Pair](), 0
        for it in re.finditer(self._mark.pattern.encode(), text.encode()):
            place = it.start() - removed
            removed += len(it[0]) - 1
            if it[1] == b"(":
                opened.append(place)
            else:
                first = opened.pop()
                pairs[int(it[2])] = Pair((first, place + 1), (first + 1, place))
        whole = self.written(text, pairs.keys())
        return Bracketed(whole.encode(), to_term(parse(whole), Lines(whole.encode())), pairs)


def filled(text: str, pieces: Sequence[Piece]) -> str:
    """The text with those of the pieces in the places of their markers."""
    found = {it.shown: it for it in pieces}

    def own(it: re.Match[str]) -> str:
        piece = found[it[0]]
        return f"({piece.text})" if piece.is_number and it.string[it.end() : it.end() + 1] == "." else piece.text

    return re.sub("|".join(re.escape(it) for it in found), own, text) if found else text


def may_have_brackets(term: Term) -> bool:
    if term.head == "Tuple" and any(it.head == "Slice" for it in term.children[0].children):
        return False
    return term.head in EXPRESSIONS and term.head not in ("Starred", "Slice") or term.head in PATTERNS and term.head != "MatchStar"


def _dumped(text: str) -> str | None:
    try:
        return ast.dump(parse(text))
    except SyntaxError:
        return None


# Between which texts a node of a sort is a statement.
_AROUND: Final = {"expr": ("(", ")"), "stmt": ("", ""), "keyword": ("f(", ")")}


def _sort(node: Term) -> str | None:
    sort = CONSTRUCTORS[str(node.head)].sort
    return sort if sort in _AROUND else None


def _short_trees(texts: Sequence[tuple[str, bytes]]) -> list[str | None]:
    return [_dumped(_AROUND[sort][0] + text.decode() + _AROUND[sort][1]) for sort, text in texts]
