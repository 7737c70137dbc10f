"""Terms of texts with hidden metavariables, as patterns. A language's tables say which nodes a metavariable may stand for.

    >>> carriers("Name(x,_) : an expression", "Expr(Name(x,_)) : a statement", "alias(x,None()) : imported names, many")["Expr"]
    (Carrier(pattern=Expr(Name(x,_)), form='a statement', how=''),)
"""

from __future__ import annotations

from collections.abc import Callable, Mapping, Sequence
from dataclasses import dataclass, field
from typing import Final, NamedTuple, Optional

from ..strategies import Pattern as Given
from ..strategies import pattern as given
from ..terms import LIST, Term, string, write
from .holes import Hidden, Mark, Way
from .pattern import Apply, Either, Hole, Inside, Items, Leaf, Pattern, Raw, Unseen
from .text import Span

# The guard of what may be absent, in each language's helpers.
PRESENT: Final = "present'"


class Carrier(NamedTuple):
    """A node that a metavariable may stand for: its pattern, with the variable x where the word is, and the form. `how` is `many` where it is
    one for `$*x` alone, and `all` where such a one is all of the node."""

    pattern: Given
    form: str
    how: str = ""


def carriers(*rows: str) -> Mapping[str, tuple[Carrier, ...]]:
    """Returns carriers by their constructors."""
    found: dict[str, tuple[Carrier, ...]] = {}
    for row in rows:
        text, _, rest = row.partition(" : ")
        form, _, how = rest.partition(", ")
        it = Carrier(given(text.strip()), form.strip(), how.strip())
        found[str(it.pattern.name)] = (*found.get(str(it.pattern.name), ()), it)
    return found


class Field(NamedTuple):
    """A field of a constructor: its name, and `*` for a list, `?` for one that may be absent."""

    name: str
    number: str = ""


# What a language does with a node before all else: it returns a pattern, or nothing.
Special = Callable[["Reading", Term], Optional[Pattern]]


def _nothing(reading: Reading, term: Term) -> Optional[Pattern]:
    return None


@dataclass(frozen=True)
class Tables:
    """What is to be known of a language's trees: the carriers; the fields of each constructor; the guards of what stands in a field, and the
    form of a string in it; which constructors and fields no text shows, these as what they are built as; the kind of text that has a form; and
    whether a node in a field is a word, so that a metavariable stands for its string alone."""

    carriers: Mapping[str, tuple[Carrier, ...]]
    fields: Callable[[str], Sequence[Field]]
    guards: Callable[[str, Field], tuple[str, ...]]
    string: Callable[[str, str], tuple[str, tuple[str, ...]]] = lambda constructor, field: ("a name", ())
    unseen: frozenset[str] = frozenset()
    unseen_fields: Mapping[tuple[str, str], Pattern] = field(default_factory=dict)
    kinds: Mapping[str, str] = field(default_factory=dict)
    special: Special = _nothing
    is_word: Callable[[Term, str], bool] = lambda parent, field: False


class Reading:
    """The patterns of a text. `parse` reads the texts in it that are patterns of their own."""

    def __init__(self, hidden: Hidden, tables: Tables, parse: Callable[[Span], Mapping[str, Pattern]], way: Way) -> None:
        self.hidden, self.tables, self._parse, self._way = hidden, tables, parse, way

    def node(self, term: Term, guards: tuple[str, ...] = (), forms: tuple[str, str] = ("", "")) -> Pattern:
        """Returns the pattern of a term, or of a hole which has to pass these guards. `forms` are the constructor and the field around it."""
        for it in self.tables.carriers.get(str(term.head), ()):
            word = _word(it.pattern, term)
            mark = self.hidden.mark_of(word) if word is not None else None
            if mark is not None and mark.kind != "text" and (not it.how or mark.kind == "many"):
                return self.hole(mark, it.form, guards, it.how == "all")
        special = self.tables.special(self, term)
        if special is not None:
            return special
        if isinstance(term.head, bytes):
            return self.string(term, *self.tables.string(*forms), guards=guards)
        if isinstance(term.head, int):
            return Leaf(write(term))
        name = str(term.head)
        if name == LIST:
            return Items(tuple(self.node(it, guards, forms) for it in term.children))
        if name in self.tables.unseen:
            return Unseen(Apply(name))
        return Apply(name, tuple(self.field(term, it, child) for it, child in zip(self.tables.fields(name), term.children)))

    def field(self, parent: Term, field: Field, child: Term) -> Pattern:
        """Returns the pattern of what stands in a field of a term."""
        constructor = str(parent.head)
        if isinstance(child.head, str) and len(child.children) == 1 and self.tables.is_word(parent, field.name):
            return Apply(child.head, (self.node(child.children[0], (), (child.head, "")),))
        unseen = self.tables.unseen_fields.get((constructor, field.name))
        if unseen is not None:
            return Unseen(unseen)
        return self.node(child, self.tables.guards(constructor, field), (constructor, field.name))

    def string(self, term: Term, form: str, more: tuple[str, ...], guards: tuple[str, ...]) -> Pattern:
        """Returns the pattern of a name, or of another string."""
        mark = self.hidden.mark_of(term.text)
        if mark is None or mark.kind == "text" and form == "a name":
            return Leaf(write(Term(term.head)))
        return self.hole(mark, form, (*more, *(it for it in guards if it != PRESENT)))

    def hole(self, mark: Mark, form: str, guards: tuple[str, ...] = (), whole: bool = False) -> Pattern:
        """Returns what a mark is as this form. One of many is all of a node where that is said."""
        if mark.kind == "raw":
            return Raw(mark.at, mark.spans[0].last)
        if mark.kind == "inside":
            return Inside(self.inner(mark.spans[0], form), mark.at, guards)
        if mark.kind == "either":
            return Either(tuple(self.inner(it, form) for it in mark.spans), mark.at, guards)
        if mark.kind == "many":
            return Hole(mark.name, mark.at, form, many=not whole)
        return Hole(mark.name, mark.at, form, guards=tuple(it for it in guards if it != PRESENT or mark.stars != "?"))

    def inner(self, span: Span, form: str) -> Pattern:
        """Returns the pattern of a text in the text, as this form."""
        kind = self.tables.kinds.get(form)
        if kind is None:
            hidden = Hidden(span, self._way)
            mark = hidden.mark_of(hidden.text)
            if mark is None and not hidden.text.isidentifier():
                raise span.fault(f"{form} is expected here")
            return Leaf(write(string(hidden.text))) if mark is None else Reading(hidden, self.tables, self._parse, self._way).hole(mark, form)
        found = self._parse(span)
        if kind not in found:
            raise span.fault(f"this is {' or '.join(found)}, and {form} is expected here")
        return found[kind]


# The text at the variable of a carrier's pattern, where the term matches that.
def _word(pattern: Given, term: Term) -> Optional[str]:
    if pattern.kind == "variable":
        return term.text if isinstance(term.head, bytes) else None
    if pattern.kind == "other":
        return ""
    if pattern.kind != "constructor" or term.head != (LIST if pattern.name == LIST else pattern.name) or len(pattern.parts) != len(term.children):
        return None
    found = ""
    for part, child in zip(pattern.parts, term.children):
        word = _word(part, child)
        if word is None:
            return None
        found = found or word
    return found
