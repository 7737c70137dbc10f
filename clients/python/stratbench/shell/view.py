"""Terms over lines, with what changed in them in colour, and places with what is around them."""

from __future__ import annotations

from collections.abc import Callable, Iterable, Mapping, Sequence
from operator import is_
from typing import Dict, Literal, Optional

from .. import Replacement
from ..terms import LIST, TUPLE, Term, readable, write

_MORE = Term("..")
# Unchanged terms beside changed ones are shown to this depth, of a term with more children only the neighbours, and this much of a leaf.
_BESIDE = 2
_MANY = 6
_LEAF = 20

# What a text is shown as, with the escapes of a terminal for a colour.
Paint = Callable[[str], str]


def plain(text: str) -> str:
    """Shows a text as it is."""
    return text


class Marks(Dict[int, "Marks"]):
    """Places in a term: for each child with some in it those. `whole` is a term of which all is a place, `head` one that is a place
    itself, but not all that is in it."""

    def __init__(self, below: Mapping[int, Marks] | None = None, kind: Literal["whole", "head", "below"] = "below") -> None:
        super().__init__(below or {})
        self.kind = kind


Marked = Optional[Marks]
_WHOLE = Marks(kind="whole")


def with_characters(term: Term) -> Term:
    """Returns the term with the characters of its strings in place of their bytes, to be shown.

    >>> with_characters(Term("f", (Term("grün".encode()), Term(b"\\377"))))
    f("grün","\\377")
    """
    head, children, annotations = term
    if isinstance(head, bytes) and not head.isascii():
        head = readable(write(Term(head)))
    found = tuple(map(with_characters, children))
    notes = tuple(map(with_characters, annotations))
    is_same = head is term.head and all(map(is_, found, children)) and all(map(is_, notes, annotations))
    return term if is_same else Term(head, found, notes)


def folded(term: Term, depth: int | None, marks: Marked = None) -> tuple[Term, Marked]:
    """Returns the term, and places in it, with `..` for what is below so many levels.

    >>> folded(Term("f", (Term("g", (Term(1), Term(2))), Term("a"))), 1)
    (f(g(..),a), None)
    """
    if not term.children or depth is None:
        return term, marks
    if depth == 0:
        return term._replace(children=(_MORE,)), Marks({0: _WHOLE}, marks.kind) if marks is not None else None
    found = [folded(it, depth - 1, marks.get(at) if marks else None) for at, it in enumerate(term.children)]
    return _with(term, found, marks)


# The term with these children, and the places in it.
def _with(term: Term, found: list[tuple[Term, Marked]], marks: Marked) -> tuple[Term, Marked]:
    below = {at: it for at, (_, it) in enumerate(found) if it is not None}
    return term._replace(children=tuple(it for it, _ in found)), Marks(below, marks.kind) if marks is not None else None


def lines(term: Term, width: int, indent: int = 0, after: str = "", marks: Marked = None, paint: Paint = plain) -> list[str]:
    """Returns the text of a term over lines of this width, where that can be, with its marked places painted.

    >>> print(*lines(Term("f", (Term("g", (Term(1), Term(2))), Term("abcdef"))), 10), sep="\\n")
    f(
      g(1,2),
      abcdef)
    """
    text = write(term)
    if indent + len(text) + len(after) <= width or not term.children:
        return [" " * indent + _on_one_line(term, marks, paint) + after]
    if marks is not None and marks.kind == "whole":
        whole = lines(term, width, indent, after)
        whole[-1] = whole[-1][: len(whole[-1]) - len(after)]
        return [_painted(it, paint) + (after if at == len(whole) - 1 else "") for at, it in enumerate(whole)]
    head, begins, ends = _signs(term)
    paint_head = paint if marks is not None and marks.kind == "head" else plain
    found = [" " * indent + paint_head(head + begins)]
    for at, child in enumerate(term.children):
        last = at == len(term.children) - 1
        below = marks.get(at) if marks else None
        found += lines(child, width, indent + 2, ends + after if last else ",", below, paint)
    return found


def _painted(line: str, paint: Paint) -> str:
    text = line.lstrip(" ")
    return line[: len(line) - len(text)] + paint(text)


# What a term with children begins and ends with.
def _signs(term: Term) -> tuple[str, str, str]:
    end = write(Term("", (), term.annotations))
    if term.head == LIST:
        return "", "[", f"]{end}"
    return "" if term.head == TUPLE else write(Term(term.head)), "(", f"){end}"


def _on_one_line(term: Term, marks: Marked, paint: Paint) -> str:
    if marks is None:
        return write(term)
    if marks.kind == "whole" or not term.children:
        return paint(write(term))
    head, begins, ends = _signs(term)
    paint_head = paint if marks.kind == "head" else plain
    children = [_on_one_line(it, marks.get(at), paint) for at, it in enumerate(term.children)]
    return f"{paint_head(head + begins)}{','.join(children)}{paint_head(ends)}"


def changed(old: Term, new: Term) -> tuple[Marked, Marked]:
    """Returns where the one term and where the other differs from the other one, as far inside as that can be.

    >>> red, green = "-{}-".format, "+{}+".format
    >>> def show(old, new):
    ...     one, two = changed(old, new)
    ...     print(*lines(old, 80, marks=one, paint=red), *lines(new, 80, marks=two, paint=green))
    >>> show(Term("f", (Term(1), Term(2))), Term("f", (Term(1), Term(3))))
    f(1,-2-) f(1,+3+)

    Where one term comes for another, what is in both is no difference. Of two lists what begins and what ends both is none, either.

    >>> show(Term("f", (Term("a"), Term("b"))), Term("g", (Term("b"), Term(1))))
    -f(--a-,b-)- +g(+b,+1++)+
    >>> show(Term("f", (Term("g", (Term("a"), Term("b"))),)), Term("h", (Term("b"), Term("a"))))
    -f(--g(-a,b-)--)- +h(+b,a+)+
    >>> show(Term(LIST, (Term(1), Term(2), Term(3))), Term(LIST, (Term(1), Term(4), Term(5), Term(3))))
    [1,-2-,3] [1,+4+,+5+,3]
    """
    if old.head != new.head or type(old.head) is not type(new.head) or old.annotations != new.annotations:
        return _replaced(old, new)
    one, two = old.children, new.children
    if len(one) == len(two):
        pairs = [changed(*it) for it in zip(one, two)]
        olds = {at: it for at, (it, _) in enumerate(pairs) if it is not None}
        news = {at: it for at, (_, it) in enumerate(pairs) if it is not None}
        return (Marks(olds), Marks(news)) if olds else (None, None)
    if old.head != LIST:
        return _replaced(old, new)
    most = min(len(one), len(two))
    begin = next((at for at in range(most) if one[at] != two[at]), most)
    end = next((at for at in range(most - begin) if one[-1 - at] != two[-1 - at]), most - begin)
    kept = [{at: _WHOLE for at in range(begin, len(it) - end)} for it in (one, two)]
    return Marks(kept[0], "below" if kept[0] else "head"), Marks(kept[1], "below" if kept[1] else "head")


# The places of two terms of which one comes for the other.
def _replaced(old: Term, new: Term) -> tuple[Marks, Marks]:
    table: dict[object, int] = {}
    one, two = _numbers(old, table), _numbers(new, table)
    return _not_in(old, one, set(two.values())), _not_in(new, two, set(one.values()))


# The number of each subterm, by its identity: equal ones have equal numbers.
def _numbers(term: Term, table: dict[object, int]) -> dict[int, int]:
    found: dict[int, int] = {}

    def number(it: Term) -> int:
        key = (it.head, *map(number, it.children), None, *map(number, it.annotations))
        found[id(it)] = table.setdefault(key, len(table))
        return found[id(it)]

    number(term)
    return found


# The places of a term that are none of the others; all of it where it is one of them itself, since it is in another place.
def _not_in(term: Term, numbers: dict[int, int], others: set[int]) -> Marks:
    if numbers[id(term)] in others:
        return _WHOLE
    new = [at for at, it in enumerate(term.children) if numbers[id(it)] not in others]
    below = {at: _not_in(term.children[at], numbers, others) for at in new}
    whole = len(below) == len(term.children) and all(it.kind == "whole" for it in below.values())
    return _WHOLE if whole else Marks(below, "head")


def differences(old: Term, new: Term, path: tuple[int, ...] = ()) -> list[Replacement]:
    """Returns the outermost places at which two terms differ in more than what is below.

    >>> differences(Term("f", (Term("g", (Term(1),)), Term(2))), Term("f", (Term("g", (Term(3),)), Term(2))))
    [Replacement(path=(0, 0), old=1, new=3)]
    """
    if old._replace(children=()) != new._replace(children=()) or len(old.children) != len(new.children):
        return [Replacement(path, old, new)]
    pairs = enumerate(zip(old.children, new.children))
    return [it for at, (one, two) in pairs for it in differences(one, two, (*path, at))]


def against(old: Term, new: Term, width: int, depth: int | None, less: Paint = plain, more: Paint = plain) -> list[str]:
    """Returns the lines that show a term and what comes in its place, without most of what is the same in both.

    >>> print(*against(Term("f", (Term(1), Term(2))), Term("f", (Term(1), Term(3))), 80, None), sep="\\n")
      - f(1,2)
      + f(1,3)
    """
    one, two = changed(old, new)
    if one is None:
        return [f"  = {it}" for it in lines(folded(new, depth)[0], width - 4)]
    sides = ((old, one, "-", less), (new, two, "+", more))
    return [
        f"  {paint(sign)} {line}"
        for term, marks, sign, paint in sides
        for line in lines(*_near(term, marks, depth, width - 4), paint=paint)
    ]


# The arguments of `lines` for a term in which what is far from the marked places is folded.
def _near(term: Term, marks: Marked, depth: int | None, width: int) -> tuple[Term, int, int, str, Marked]:
    near, below = _beside(term, marks, depth)
    return near, width, 0, "", below


def _beside(term: Term, marks: Marked, depth: int | None) -> tuple[Term, Marked]:
    if marks is None or marks.kind == "whole":
        return folded(term, _BESIDE if marks is None and depth is not None else depth, marks)
    found: list[tuple[Term, Marked]] = []
    for at, it in enumerate(term.children):
        if len(term.children) <= _MANY or any(near in marks for near in (at - 1, at, at + 1)):
            found.append(_beside(it, marks.get(at), depth))
        elif not found or found[-1][0] is not _MORE:
            found.append((_MORE, None))
    return _with(term, found, marks)


def surroundings(term: Term, path: Sequence[int], width: int) -> str:
    """Returns what is around a place of a term, which is shown as `_`, as far as that fits.

    >>> term = Term("f", (Term("g", (Term("a"), Term("h", (Term(1),)))), Term(2)))
    >>> surroundings(term, (0, 0), 80), surroundings(term, (0, 0), 12)
    ('f(g(_,h(..)),2)', '.. g(_,h(..))')
    """
    above = [term]
    for step in path[:-1]:
        above.append(above[-1].children[step])
    text = "_"
    for parent, step in zip(reversed(above), reversed(path)):
        head, begins, ends = _signs(parent)
        wider = f"{head}{begins}{','.join(_neighbours(parent.children, step, text))}{ends}"
        if len(wider) > width and text != "_":
            return f".. {text}"
        text = wider
    return text


def _neighbours(children: Sequence[Term], step: int, text: str) -> Iterable[str]:
    near = range(len(children)) if len(children) <= _MANY else range(step - 1, step + 2)
    if near[0] > 0:
        yield ".."
    yield from (text if at == step else brief(children[at]) for at in near if 0 <= at < len(children))
    if near[-1] < len(children) - 1:
        yield ".."


def brief(term: Term) -> str:
    """Returns a term without what is in it.

    >>> brief(Term("f", (Term(1),))), brief(Term(b"a string that is rather long"))
    ('f(..)', '"a string that is ra..')
    """
    text = write(folded(term._replace(annotations=()), 0)[0])
    return text if term.children or len(text) <= _LEAF else f"{text[:_LEAF]}.."
