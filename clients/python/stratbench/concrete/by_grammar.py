"""Rules in the syntax of a language that is a grammar and a front end."""

from __future__ import annotations

import re
from collections.abc import Callable, Mapping, Sequence
from functools import lru_cache
from typing import Final, NamedTuple, Optional

from ..languages.by_grammar import ByGrammar
from ..languages.front import Parsed
from ..patch.dialect import Wrong
from ..patch.grammar import Grammar
from ..terms import LIST, Term, read
from .holes import Hidden, Way
from .pattern import Apply, Hole, Items, Pattern, is_rest
from .text import Fault, Span
from .trees import PRESENT, Field, Reading, Tables

# The forms that every such language has.
EXPRESSION, STATEMENT, STATEMENTS, NAME, TEXT = "an expression", "a statement", "statements", "a name", "a text"


class Reads(NamedTuple):
    """A way to read a text: the kinds that it is then, one for a node, two for one element and several of a list; what is put around it; and
    where in the tree the node, or the list, is. Lists on the way have one element."""

    kinds: tuple[str, ...]
    before: str
    after: str
    path: tuple[int, ...]


def fields_of(grammar: Callable[[], Grammar]) -> Callable[[str], Sequence[Field]]:
    """Returns the fields of each constructor of a grammar."""

    @lru_cache(maxsize=None)
    def fields(name: str) -> tuple[Field, ...]:
        known = grammar().constructors.get(name)
        if known is None:
            return (Field("value"),)
        return tuple(Field(it, "*" if known.by_name[it].kind == "list" else "?" if it in known.groups else "") for it in known.fields)

    return fields


def guards_of(others: Mapping[tuple[str, str], str]) -> Callable[[str, Field], tuple[str, ...]]:
    """Returns the guards of fields: what may be absent is there; these fields of constructors have guards of their own."""

    def guards(constructor: str, field: Field) -> tuple[str, ...]:
        own = others.get((constructor, field.name))
        return (*((PRESENT,) if field.number == "?" else ()), *((own,) if own is not None else ()))

    return guards


class GrammarAdapter:
    """The adapter of such a language. `variable` is the constructor of a name that is an expression, and `statement` that of an expression
    that is a statement, where it has these. `fronts` are the kinds of files that a text may be in."""

    def __init__(
        self,
        language: ByGrammar,
        reads: Sequence[Reads],
        tables: Tables,
        way: Way,
        helpers: Callable[[], str],
        fronts: Sequence[str],
        variable: str = "",
        statement: str = "",
        adding: Sequence[tuple[str, str]] = (),
    ) -> None:
        self._language, self._reads, self._tables, self._way, self._helpers = language, reads, tables, way, helpers
        self._fronts, self._variable, self._statement, self._adding = fronts, variable, statement, adding
        self.title: Final = language.title
        # what was read, since a rule is read to find its arrow, and again to compile it
        self._known: dict[Span, Mapping[str, Pattern]] = {}

    @property
    def helpers(self) -> str:
        return self._helpers()

    def parse(self, span: Span) -> Mapping[str, Pattern]:
        if span not in self._known:
            self._known[span] = self._parsed(span)
        return self._known[span]

    def _parsed(self, span: Span) -> Mapping[str, Pattern]:
        hidden = Hidden(span, self._way)
        found: dict[str, Pattern] = {}
        faults: list[tuple[int, str]] = []
        wrong: list[Fault] = []
        if not hidden.text.strip():
            return {it.kinds[-1]: Items() for it in self._reads if len(it.kinds) > 1}
        for front in self._fronts:
            for reads in self._reads:
                term = self._term(hidden, reads, front, faults)
                if term is not None:
                    # what is a call in one place is the head of a method in another, where it means nothing
                    try:
                        self._add(found, term, reads, hidden)
                    except Fault as fault:
                        wrong.append(fault)
            if found:
                return found
        if wrong:
            raise wrong[0]
        place, message = max(faults, default=(0, "it is none"))
        raise hidden.fault(f"no {self.title}: {message}", place)

    # The node or list that a text is when it is read so, if it is one.
    def _term(self, hidden: Hidden, reads: Reads, front: str, faults: list[tuple[int, str]]) -> Optional[Term]:
        [parsed] = self._language.front.parsed(front, [f"{reads.before}{hidden.text}{reads.after}".encode()], False)
        if isinstance(parsed, Wrong):
            # in characters, and in the text itself
            place = len(f"{reads.before}{hidden.text}".encode()[: parsed.place].decode(errors="ignore")) - len(reads.before)
            faults.append((max(0, min(place, len(hidden.text))), parsed.message))
            return None
        assert isinstance(parsed, Parsed)
        term = read(parsed.text)
        for step in reads.path:
            if step >= len(term.children) or term.head == LIST and len(term.children) != 1:
                return None
            term = term.children[step]
        return term if (term.head == LIST) == (len(reads.kinds) > 1) else None

    def _add(self, found: dict[str, Pattern], term: Term, reads: Reads, hidden: Hidden) -> None:
        reading = Reading(hidden, self._tables, self.parse, self._way)
        pattern = reading.node(term)
        if not isinstance(pattern, Items):
            found.setdefault(reads.kinds[0], pattern)
            return
        if len(pattern.parts) == 1 and not is_rest(pattern):
            found.setdefault(reads.kinds[0], pattern.parts[0])
        found.setdefault(reads.kinds[1], pattern)

    # A name that is also an expression is a variable of this name; an expression that is also a statement is a statement of it.
    def settle(self, hole: Hole, forms: frozenset[str]) -> Pattern:
        if self._variable and hole.form == EXPRESSION and forms & {NAME, TEXT}:
            return Apply(self._variable, (hole._replace(form=NAME, guards=()),))
        if self._statement and hole.form == STATEMENT and not hole.many and EXPRESSION in forms:
            return Apply(self._statement, (hole._replace(form=EXPRESSION),))
        return hole

    def rooted(self, left: Pattern, right: Pattern) -> tuple[Pattern, Pattern]:
        return left, right

    def same(self, have: str, want: str) -> Optional[str]:
        if {have, want} <= {NAME, TEXT}:
            return ""
        return "same'" if have == want else None

    def conversion(self, have: str, want: str) -> Optional[str]:
        if have == want or (have, want) == (NAME, TEXT):
            return ""
        return "identifier'" if (have, want) == (TEXT, NAME) else None

    def adding(self, needed: str) -> Optional[str]:
        for pattern, strategy in self._adding:
            found = re.fullmatch(pattern, needed)
            if found:
                return found.expand(strategy)
        return None
