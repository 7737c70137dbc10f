"""Terms as Python values, and their texts.

    >>> term = read('Plus(Var("x"),[1,(2,3)]){"note"}')
    >>> term.head, term.children[0], term.annotations
    ('Plus', Var("x"), ("note",))
    >>> write(term)
    'Plus(Var("x"),[1,(2,3)]){"note"}'
    >>> Term("Var", (string("x"),)) == term.children[0]
    True
    >>> read("f(1")
    Traceback (most recent call last):
    stratbench.terms.NoTerm: the term ends too early

`docs/manual/term-text.md` says which texts spell a term. `read` and `write` don't recurse, so terms may be of any height.
"""

from __future__ import annotations

import gc
import re
import sys
from collections.abc import Callable, Iterator, Mapping, Sequence
from contextlib import contextmanager
from typing import Final, NamedTuple, Union

LIST: Final = "[]"
TUPLE: Final = "()"

# An integer, a word (or LIST, or TUPLE), or the bytes of a quoted name.
Head = Union[int, str, bytes]


class NoTerm(ValueError):
    """A text that spells no term, or a term that isn't what was asked for. `place` is where that is in a source, if it is known."""

    place: tuple[int, int] | None = None


class Term(NamedTuple):
    """A term: its head, its children and its annotations.

    The head is an `int` for an integer, `LIST` or `TUPLE`, another `str` for an application of a word, and `bytes` for one of
    a quoted name. A quoted name without children is a string.
    """

    head: Head
    children: tuple[Term, ...] = ()
    annotations: tuple[Term, ...] = ()

    def __eq__(self, other: object) -> bool:
        if not isinstance(other, Term):
            return NotImplemented
        waiting: list[tuple[Term, Term]] = [(self, other)]
        while waiting:
            one, two = waiting.pop()
            if one is two:
                continue
            if (
                type(one.head) is not type(two.head)
                or one.head != two.head
                or len(one.children) != len(two.children)
                or len(one.annotations) != len(two.annotations)
            ):
                return False
            waiting.extend(zip(one.children, two.children))
            waiting.extend(zip(one.annotations, two.annotations))
        return True

    def __ne__(self, other: object) -> bool:
        return not self == other

    def __hash__(self) -> int:
        return hash((self.head, len(self.children), len(self.annotations)))

    def __repr__(self) -> str:
        return write(self)

    @property
    def text(self) -> str:
        """The text of a string. Bytes that aren't UTF-8 become lone surrogates, as in file names."""
        if not isinstance(self.head, bytes):
            raise NoTerm(f"{self!r} is no string")
        return self.head.decode(errors="surrogateescape")

    def is_a(self, word: str, children: int | None = None) -> bool:
        """Whether it is an application of the word, and to as many children where a number is given."""
        return self.head == word and isinstance(self.head, str) and children in (None, len(self.children))


def string(text: str | bytes) -> Term:
    """Returns the string of a text, in UTF-8, or of bytes."""
    return Term(text.encode(errors="surrogateescape") if isinstance(text, str) else text)


def items(*terms: Term) -> Term:
    """Returns the list of terms."""
    return Term(LIST, terms)


def at(term: Term, path: Sequence[int]) -> Term:
    """Returns the subterm at a path, as `[0, 2]` for `/0/2`."""
    for step in path:
        term = term.children[step]
    return term


def put(term: Term, path: Sequence[int], new: Term) -> Term:
    """Returns the term with another subterm at the path.

    >>> put(read("f(a,g(b))"), [1, 0], read("c"))
    f(a,g(c))
    """
    above = [term]
    for step in path:
        above.append(above[-1].children[step])
    for step, parent in zip(reversed(path), reversed(above[:-1])):
        new = Term(parent.head, (*parent.children[:step], new, *parent.children[step + 1 :]), parent.annotations)
    return new


def exchange(term: Term, new: Mapping[tuple[int, ...], Term]) -> Term:
    """Returns the term with other subterms at these paths, none of which leads through another.

    >>> exchange(read("f(a,g(b,c))"), {(0,): read("1"), (1, 1): read("2")})
    f(1,g(b,2))
    """
    if not new:
        return term
    if () in new:
        return new[()]
    below: dict[int, dict[tuple[int, ...], Term]] = {}
    for path, it in new.items():
        below.setdefault(path[0], {})[path[1:]] = it
    children = [exchange(it, below[at]) if at in below else it for at, it in enumerate(term.children)]
    return Term(term.head, tuple(children), term.annotations)


def position(term: Term) -> tuple[int, int] | None:
    """Returns the bytes from which and to which a node goes, where its annotation has them."""
    if len(term.annotations) != 1:
        return None
    head, children, _ = term.annotations[0]
    if head != TUPLE or len(children) != 2:
        return None
    first, last = children[0].head, children[1].head
    return (first, last) if isinstance(first, int) and isinstance(last, int) else None


def subterms(term: Term) -> Iterator[Term]:
    """Yields all subterms, parents before children, without annotations."""
    waiting = [term]
    while waiting:
        it = waiting.pop()
        yield it
        waiting.extend(reversed(it.children))


def size(term: Term) -> int:
    """Returns the number of terms in it, annotations and itself included.

    >>> size(read("f(a,[1]){b}"))
    5
    """
    count, waiting = 0, [term]
    while waiting:
        it = waiting.pop()
        count += 1
        waiting.extend(it.children)
        waiting.extend(it.annotations)
    return count


def height(term: Term) -> int:
    """Returns the number of levels, annotations included: 1 for a leaf.

    >>> height(read("f(a{b},1)"))
    3
    """
    most, waiting = 0, [(term, 1)]
    while waiting:
        it, level = waiting.pop()
        most = max(most, level)
        waiting.extend((child, level + 1) for child in it.children)
        waiting.extend((child, level + 1) for child in it.annotations)
    return most


@contextmanager
def deep() -> Iterator[None]:
    """Lets trees of 1,000 levels be gone through by functions that call themselves. Memory isn't searched for cycles meanwhile:
    trees have none, and the search would take as long as the work."""
    before, searches = sys.getrecursionlimit(), gc.isenabled()
    sys.setrecursionlimit(max(before, 12_000))
    gc.disable()
    try:
        yield
    finally:
        sys.setrecursionlimit(before)
        if searches:
            gc.enable()


class Shown(NamedTuple):
    """The text of a term, and its size."""

    text: str
    size: int


def shown(term: Term) -> Shown:
    """Returns the text of a term with its size.

    >>> shown(read("f(a,[1]){b}"))
    Shown(text='f(a,[1]){b}', size=5)
    """
    return Shown(write(term), size(term))


_PLAIN: Final = re.compile(rb"[ !#-\[\]-~]*")
_SPECIAL: Final = {
    byte: {0x22: '\\"', 0x5C: "\\\\", 0x0A: "\\n", 0x09: "\\t", 0x0D: "\\r"}.get(
        byte, chr(byte) if 32 <= byte <= 126 else f"\\{byte:03o}"
    )
    for byte in range(256)
}


def _quoted(name: bytes) -> str:
    if _PLAIN.fullmatch(name):
        return f'"{name.decode()}"'
    return f'"{name.decode("latin-1").translate(_SPECIAL)}"'


def plain(term: Term) -> str:
    """Returns the text of a term without annotations.

    >>> plain(read("f(a{1},[b{2}])"))
    'f(a,[b])'
    """
    out: list[str] = []
    _plain(term, out.append)
    return "".join(out)


def _plain(term: Term, add: Callable[[str], None]) -> None:
    head, children, _ = term
    is_bracket = head == LIST or head == TUPLE
    if not is_bracket:
        add(head if isinstance(head, str) else str(head) if isinstance(head, int) else _quoted(head))
    if children or is_bracket:
        add("[" if head == LIST else "(")
        comma = False
        for it in children:
            if comma:
                add(",")
            comma = True
            _plain(it, add)
        add("]" if head == LIST else ")")


def write(term: Term) -> str:
    """Returns the text of a term as the workbench prints it, in ASCII."""
    out: list[str] = []
    add = out.append
    waiting: list[Term | str] = [term]
    while waiting:
        it = waiting.pop()
        if isinstance(it, str):
            add(it)
            continue
        head, children, annotations = it
        if annotations:
            waiting.append("}")
            _wait(waiting, annotations)
            waiting.append("{")
        if head == LIST or head == TUPLE:
            add("[" if head == LIST else "(")
            waiting.append("]" if head == LIST else ")")
            _wait(waiting, children)
            continue
        add(head if isinstance(head, str) else str(head) if isinstance(head, int) else _quoted(head))
        if children:
            add("(")
            waiting.append(")")
            _wait(waiting, children)
    return "".join(out)


def _wait(waiting: list[Term | str], terms: tuple[Term, ...]) -> None:
    for place in range(len(terms) - 1, -1, -1):
        waiting.append(terms[place])
        if place:
            waiting.append(",")


# An escaped backslash, or escaped bytes that no ASCII character has.
_ESCAPED_BYTES: Final = re.compile(r"\\\\|(?:\\[23][0-7]{2})+")


def readable(text: str) -> str:
    """Returns the text of a term with its escaped bytes as characters, where they are UTF-8 and can be seen. It spells the same term.

    >>> readable(r'f("gr\\303\\274n \\377", "\\\\303")')
    'f("grün \\\\377", "\\\\\\\\303")'
    """
    return _ESCAPED_BYTES.sub(_characters, text)


def _characters(found: re.Match[str]) -> str:
    if found[0] == "\\\\":
        return found[0]
    escaped = bytes(int(it, 8) for it in found[0].split("\\")[1:])
    shown = escaped.decode(errors="surrogateescape")
    return "".join(it if it.isprintable() else "".join(f"\\{byte:03o}" for byte in it.encode(errors="surrogateescape")) for it in shown)


def cut(term: Term) -> str:
    """Returns the text of a term, or its beginning, for messages."""
    text = readable(write(term))
    return text if len(text) <= 100 else text[:97] + "..."


# The texts are read as characters of one byte each, so that words need no conversion. `_BEGIN` is the beginning of a term or
# of several, or what closes an empty bracket; `_AFTER` is what may follow a term. Its first case is the annotation of a
# place, as positions in a source are, which is worth a case of its own.
_BEGIN: Final = re.compile(
    r"[ \t\n\r]*(?:([A-Za-z_][A-Za-z0-9_\-+*$.']*\()|([A-Za-z_][A-Za-z0-9_\-+*$.']*)"
    r'|"((?:[^"\\]|\\.)*)"|(-?[0-9]+)|([\[(])|([)\]}]))',
    re.DOTALL,
)
_CALL, _WORD, _QUOTED, _INTEGER, _OPENS = 1, 2, 3, 4, 5
_AFTER: Final = re.compile(r"[ \t\n\r]*(?:([,)\]}({])(?<!\{)|\{\(([0-9]{1,18}),([0-9]{1,18})\)\}|(\{))")
_PLACE: Final = 3
_BLANK: Final = re.compile(r"[ \t\n\r]*\Z")
_ESCAPE: Final = re.compile(r'\\(?:([0-7]{3})|(["\\ntr])|(.?))', re.DOTALL)
_ESCAPED: Final = {'"': '"', "\\": "\\", "n": "\n", "t": "\t", "r": "\r"}
_CLOSES: Final = {"[": "]", "(": ")", "{": "}"}


def _escape(found: re.Match[str]) -> str:
    octal, letter, _ = found.groups()
    if octal:
        if int(octal, 8) > 255:
            raise NoTerm(f"the escape \\{octal} is no byte")
        return chr(int(octal, 8))
    if letter:
        return _ESCAPED[letter]
    raise NoTerm("a wrong escape in a string")


def _integer(text: str) -> int:
    digits = text.lstrip("-0") or "0"
    value = int(digits) * (-1 if text[0] == "-" else 1) if len(digits) < 20 else 2**63
    if not -(2**63) <= value < 2**63:
        raise NoTerm(f"the integer {text} is out of range")
    return value


def read(text: str | bytes) -> Term:
    """Returns the term that a text spells. Raises `NoTerm` where it spells none."""
    if isinstance(text, str):
        text = text.encode(errors="surrogateescape")
    # nothing here makes a cycle, and looking for cycles would take half of the time
    enabled = gc.isenabled()
    gc.disable()
    try:
        return _read(text.decode("latin-1"))
    finally:
        if enabled:
            gc.enable()


def _stuck(flat: str, at: int) -> NoTerm:
    return NoTerm("the term ends too early" if _BLANK.match(flat, at) else f"no term goes on at byte {at}")


def _read(flat: str) -> Term:
    begin, after, make = _BEGIN.match, _AFTER.match, tuple.__new__
    # for each open bracket its sign, what it belongs to, and the terms before that in the bracket around
    above: list[tuple[str, Head, tuple[Term, ...], list[Term]]] = []
    terms: list[Term] = []
    at, opened = 0, False
    while True:
        found = begin(flat, at)
        if found is None:
            raise _stuck(flat, at)
        kind, at = found.lastindex, found.end()
        sign = can = ""
        if kind == _CALL or kind == _OPENS:
            name = found.group(kind)
            above.append((name[-1], LIST if name == "[" else name[:-1] or TUPLE, (), terms))
            terms, opened = [], True
            continue
        if kind == _WORD:
            terms.append(make(Term, (found.group(_WORD), (), ())))
            can = "({"
        elif kind == _QUOTED:
            name = found.group(_QUOTED)
            text = (_ESCAPE.sub(_escape, name) if "\\" in name else name).encode("latin-1")
            terms.append(make(Term, (text, (), ())))
            can = "({"
        elif kind == _INTEGER:
            terms.append(make(Term, (_integer(found.group(_INTEGER)), (), ())))
            can = "{"
        elif opened:
            sign = found.group(found.lastindex or 0)
        else:
            raise NoTerm(f"no term goes on at byte {at - 1}")
        opened = False
        while True:
            if not sign:
                found = after(flat, at)
                if found is None:
                    if above or not _BLANK.match(flat, at):
                        raise _stuck(flat, at)
                    return terms[0]
                at = found.end()
                if found.lastindex == _PLACE:
                    if "{" not in can:
                        raise NoTerm(f"no term goes on at byte {found.start()}")
                    last = terms[-1]
                    first, second = int(found.group(2)), int(found.group(3))
                    place = make(Term, (TUPLE, (make(Term, (first, (), ())), make(Term, (second, (), ()))), ()))
                    terms[-1] = make(Term, (last.head, last.children, (place,)))
                    can = ""
                    continue
                sign = found.group(found.lastindex or 0)
            if sign == "," and above:
                break
            if sign in can:
                last = terms.pop()
                above.append((sign, last.head, last.children, terms))
                terms, opened = [], True
                break
            if not above or _CLOSES[above[-1][0]] != sign:
                raise NoTerm(f"no term goes on at byte {at - 1}")
            sign, head, children, before = above.pop()
            if sign == "{":
                before.append(make(Term, (head, children, tuple(terms))))
                can = ""
            else:
                before.append(make(Term, (head, tuple(terms), ())))
                can = "{"
            terms, sign = before, ""
