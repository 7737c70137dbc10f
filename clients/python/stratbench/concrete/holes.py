"""Metavariables in a text, hidden as words that the language's own parser takes.

| `$x` | one thing |
| `$*xs` | any number of elements of a list |
| `$**ks` | any number, where the language has two kinds of elements in one list |
| `$?x` | one thing, or none where the syntax may leave it out |
| `"$s"` | the content of a string |
| `${p}` | the pattern p of Stratego |
| `<... p ...>` | something in which the pattern p stands |
| `\\( p \\| q \\)` | what matches p or q |

    >>> way = Way(r'#[^\\n]*|"[^"]*"')
    >>> source = Source("it", 'f($x, "$s", "a $x")')
    >>> hidden = Hidden(Span(source, 0, len(source.text)), way)
    >>> hidden.text
    'f(h0_, "h1_", "a $x")'
    >>> hidden.marks[0].name, hidden.own(5), source.text[hidden.own(5) :]
    ('x', 4, ', "$s", "a $x")')
"""

from __future__ import annotations

import re
from collections.abc import Callable, Iterator
from typing import Final, Literal, NamedTuple, Optional

from .pattern import At
from .text import Fault, Source, Span


class Mark(NamedTuple):
    """What a word stands for: a metavariable, the content of a string, a pattern of Stratego, or patterns that stand inside or beside each
    other, at these spans."""

    kind: Literal["one", "many", "text", "raw", "inside", "either"]
    at: At
    name: str = ""
    stars: str = ""
    spans: tuple[Span, ...] = ()


def _plain(mark: Mark, word: str, before: str, after: str) -> str:
    return word


class Way(NamedTuple):
    """How a language hides metavariables: what a piece of its text is that has none, as a comment or a string; the parts of such pieces that
    are as outside, by how the piece begins; what stands for a mark between the texts before and after it, if not the word alone; and whether
    `$` is a letter of its names."""

    opaque: str
    inner: tuple[tuple[str, str], ...] = ()
    word: Callable[[Mark, str, str, str], str] = _plain
    dollars: bool = False


_META: Final = re.compile(r"\$(?P<stars>\*\*|\*|\?|)(?P<name>[A-Za-z_][A-Za-z0-9_]*)")
_TEXT: Final = re.compile(r"""(?P<quote>["'])\$(?P<name>[A-Za-z_]\w*)(?P=quote)""")
# What is said of a `$` that begins nothing.
_FORMS: Final = "they are `$x`, `$*xs`, `$**ks`, `$?x`, `$_` and `${p}`"


class Hidden:
    """A span of the user's text with words in the places of metavariables. `words` finds these words."""

    def __init__(self, span: Span, way: Way) -> None:
        self.span, self._way = span, way
        self.source = span.source
        self.marks: list[Mark] = []
        prefix = "h"
        while re.search(rf"{prefix}[0-9]", span.text):
            prefix += "h"
        self._prefix = prefix
        self.words: Final = re.compile(rf"{prefix}([0-9]+)_")
        self._opaque = re.compile(way.opaque, re.DOTALL)
        self._letters: list[str] = []
        self._own: list[int] = []
        self._take(span.first, span.last)
        self.text = "".join(self._letters)

    def own(self, place: int) -> int:
        """Returns the place in the user's text of a place in the hidden one."""
        return self._own[place] if 0 <= place < len(self._own) else self.span.last

    def fault(self, message: str, place: int) -> Fault:
        """Returns what is wrong at a place of the hidden text."""
        return Fault(message, self.source, self.own(place))

    def dedented(self, column: int) -> None:
        """Takes away the indentation that all lines have. The first line begins after so many columns."""
        lines = self.text.split("\n")
        depths = [len(it) - len(it.lstrip(" ")) for it in lines]
        depths[0] += column
        least = min((depth for depth, it in zip(depths, lines) if it.strip()), default=0)
        text, own, at = [], [], 0
        for number, line in enumerate(lines):
            cut = min(least, depths[number]) - (column if number == 0 else 0)
            text.append(line[cut:] if cut >= 0 else " " * -cut + line)
            places = [*self._own[at : at + len(line)], self._own[at + len(line)] if at + len(line) < len(self._own) else self.span.last]
            own += places[cut:] if cut >= 0 else places[:1] * -cut + places
            at += len(line) + 1
        self.text, self._own = "\n".join(text), own

    def mark_of(self, text: str) -> Optional[Mark]:
        """Returns the mark that a word of the hidden text is, if it is one. Raises `Fault` where one is a part of it."""
        found = self.words.search(text)
        if found is None:
            return None
        mark = self.marks[int(found[1])]
        if found.span() != (0, len(text)):
            raise Fault("a metavariable stands for a whole name, not for a part of one", *mark.at)
        return mark

    # -- what the text is made of

    def _put(self, text: str, first: int, own: bool = False) -> None:
        self._letters += text
        self._own += range(first, first + len(text)) if own else [first] * len(text)

    def _mark(self, mark: Mark) -> str:
        self.marks.append(mark)
        return f"{self._prefix}{len(self.marks) - 1}_"

    # Puts a word for a mark that ends at a place.
    def _hide(self, mark: Mark, end: int) -> None:
        word = self._mark(mark)
        self._put(self._way.word(mark, word, "".join(self._letters), self.source.text[end : self.span.last]), mark.at.place)

    def _take(self, first: int, last: int) -> None:
        text, at = self.source.text, first
        while at < last:
            opaque = self._opaque.match(text, at, last)
            if opaque and opaque.end() > at:
                self._take_opaque(at, opaque.end())
                at = opaque.end()
            elif text[at] == "$":
                at = self._take_dollar(at, last)
            elif text.startswith("<...", at):
                end = self._closing(at, last, "<...", "...>")
                self._hide(Mark("inside", At(self.source, at), spans=(Span(self.source, at + 4, end - 4).stripped(),)), end)
                at = end
            elif text.startswith("\\(", at):
                end = self._closing(at, last, "\\(", "\\)")
                self._hide(Mark("either", At(self.source, at), spans=tuple(self._branches(at + 2, end - 2))), end)
                at = end
            else:
                self._put(text[at], at, own=True)
                at += 1

    def _take_dollar(self, at: int, last: int) -> int:
        text = self.source.text
        found = _META.match(text, at, last)
        if found:
            stars, name = found["stars"], found["name"]
            self._hide(Mark("many" if "*" in stars else "one", At(self.source, at), name, stars), found.end())
            return found.end()
        if text.startswith("${", at):
            end = self._closing(at, last, "{", "}", at + 1)
            self._hide(Mark("raw", At(self.source, at + 2), spans=(Span(self.source, at + 2, end - 1),)), end)
            return end
        if self._way.dollars and text.startswith("$$", at):
            rest = re.compile(r"[\w$]*").match(text, at + 2, last)
            assert rest
            self._put("$" + rest[0], at + 1, own=True)
            return rest.end()
        more = ", and the letter `$` is written `$$`" if self._way.dollars else ""
        raise Fault(f"`$` begins no metavariable: {_FORMS}{more}", self.source, at)

    # A comment, or a string: one that is nothing but a metavariable has one for its content.
    def _take_opaque(self, first: int, last: int) -> None:
        text = self.source.text[first:last]
        whole = _TEXT.fullmatch(text)
        if whole:
            mark = Mark("text", At(self.source, first + 1), whole["name"])
            self._put(text[0], first)
            self._put(self._mark(mark), first + 1)
            self._put(text[-1], last - 1)
            return
        inner = next((it for begins, it in self._way.inner if re.match(begins, text)), None)
        at = first
        for found in re.finditer(inner, text) if inner else ():
            begin, end = first + found.start(), first + found.end()
            for place in range(at, begin + found[0].index("{")):
                self._put(self.source.text[place], place, own=True)
            self._take(begin + found[0].index("{"), end)
            at = end
        for place in range(at, last):
            self._put(self.source.text[place], place, own=True)

    # The end of what begins at a place with one sign and ends with another.
    def _closing(self, first: int, last: int, opens: str, closes: str, begin: Optional[int] = None) -> int:
        text, at, depth = self.source.text, first if begin is None else begin, 0
        while at < last:
            if text.startswith(closes, at):
                depth -= 1
                at += len(closes)
                if not depth:
                    return at
            elif text.startswith(opens, at):
                depth += 1
                at += len(opens)
            else:
                at += 1
        raise Fault(f"`{self.source.text[first : first + 2] if begin else opens}` isn't closed by `{closes}`", self.source, first)

    def _branches(self, first: int, last: int) -> Iterator[Span]:
        text, depth, begin = self.source.text, 0, first
        for it in re.compile(r"\\[(|)]").finditer(text, first, last):
            depth += {"\\(": 1, "\\)": -1}.get(it[0], 0)
            if it[0] == "\\|" and not depth:
                yield Span(self.source, begin, it.start()).stripped()
                begin = it.end()
        yield Span(self.source, begin, last).stripped()
