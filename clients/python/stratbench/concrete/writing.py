"""Patterns written as strategies have them: one that is matched, one that is built, or a congruence.

What a pattern of Stratego can't say, as a list with a hole in its middle, becomes a condition beside it. The conditions of a matching come
before a rule's own `where`, those of a building after it.
"""

from __future__ import annotations

from collections.abc import Iterator, Sequence
from dataclasses import dataclass, field
from itertools import count
from typing import NamedTuple, Union

from ..strategies import RESERVED
from .adapter import Adapter
from .pattern import Apply, At, Either, Hole, Inside, Items, Leaf, Pattern, Raw, Unseen
from .text import Fault, Made, joined, put


def variable(name: str) -> str:
    """Returns the variable of a metavariable. Names with `'` are those that are made here, since no metavariable has one."""
    return name + "'" if name in RESERVED else name


class Search(NamedTuple):
    """A condition with all later ones in it, so that another place is tried where these fail: a call of a strategy up to the end of its
    argument, and the variable that it is applied to."""

    call: Made
    subject: Made


Condition = Union[Made, Search]


def conjunction(conditions: Sequence[Condition]) -> Made:
    """Returns the strategy that tests the conditions in order, and keeps what they bind."""
    parts: list[Made] = []
    for at, it in enumerate(conditions):
        if isinstance(it, Search):
            inner = conjunction(conditions[at + 1 :])
            parts.append(put("where(<{}{}{})> {})", it.call, "; " if inner else "", inner, it.subject))
            break
        parts.append(put("where({})", it))
    return joined("; ", parts)


class Form(NamedTuple):
    """A variable that stands for a metavariable, and the form of what it is bound to: "" where that isn't known. One that is bound outside
    can't stand in a pattern itself."""

    variable: str
    form: str
    is_outside: bool = False


@dataclass
class Bound:
    """What is known of the metavariables of a rule. What is bound outside never stands in a pattern itself, since a closure `\\ l -> r \\`
    takes a variable of l for a new one. `others` are names that strategies bind, whose form isn't known; `words` are those that the user's
    text has, none of which is made here. `numbers` are those of new variables: what is written into one definition shares them, also where it is
    bound apart, as in a condition."""

    variables: dict[str, list[Form]] = field(default_factory=dict)
    many: dict[str, bool] = field(default_factory=dict)
    others: frozenset[str] = frozenset()
    words: frozenset[str] = frozenset()
    numbers: Iterator[int] = field(default_factory=lambda: count(1))

    def fresh(self, kind: str) -> str:
        """Returns a new variable."""
        return next(found for number in self.numbers if (found := f"{kind}'{number}") not in self.words)

    def check(self, hole: Hole) -> None:
        if self.many.setdefault(hole.name, hole.many) != hole.many:
            raise Fault(f"`{hole.name}` stands for one thing in one place and for many in another", *hole.at)


def _groups(parts: Sequence[Pattern]) -> tuple[list[list[Pattern]], list[Hole]]:
    """Returns the parts of a list between its holes for many, and these holes: one part more than holes."""
    groups: list[list[Pattern]] = [[]]
    many: list[Hole] = []
    for it in parts:
        if isinstance(it, Hole) and it.many:
            many.append(it)
            groups.append([])
        else:
            groups[-1].append(it)
    return groups, many


def _single(hole: Hole) -> None:
    if hole.many:
        raise Fault(f"{hole.shown} stands where there is one thing, and no list", *hole.at)


def _list(items: Sequence[Made], tail: Union[Made, str] = "") -> Made:
    if tail and not items:
        return put("{}", tail)
    return put("[{}{}{}]", joined(",", items), "|" if tail else "", tail)


def _applied(name: str, parts: Sequence[Made]) -> Made:
    return put("{}({})", name, joined(",", parts))


def _spelt(text: str, at: At) -> Made:
    return Made.of(text, at.source, at.place)


@dataclass
class Matching:
    """Writes patterns that are matched. `text` returns the pattern, and adds to `conditions`."""

    bound: Bound
    adapter: Adapter
    conditions: list[Condition] = field(default_factory=list)

    def text(self, pattern: Pattern) -> Made:
        if isinstance(pattern, Hole):
            _single(pattern)
            return self._hole(pattern)
        if isinstance(pattern, Raw):
            return Made.own(pattern.at.source, pattern.at.place, pattern.last)
        if isinstance(pattern, Leaf):
            return Made.of(pattern.text)
        if isinstance(pattern, Unseen):
            return Made.of("_")
        if isinstance(pattern, Apply):
            return _applied(pattern.name, [self.text(it) for it in pattern.parts])
        if isinstance(pattern, Items):
            return self._items(pattern.parts)
        if isinstance(pattern, Inside):
            return self._inside(pattern)
        return self._either(pattern)

    def _guarded(self, kind: str, at: At, guards: Sequence[str]) -> Made:
        mine = _spelt(self.bound.fresh(kind), at)
        self.conditions += [put("<{}> {}", it, mine) for it in guards]
        return mine

    def _hole(self, hole: Hole) -> Made:
        if hole.name == "_":
            return self._guarded("any", hole.at, hole.guards) if hole.guards else Made.of("_")
        self.bound.check(hole)
        known = self.bound.variables.setdefault(hole.name, [])
        if not known:
            known.append(Form(variable(hole.name), hole.form))
            mine = _spelt(variable(hole.name), hole.at)
            self.conditions += [put("<{}> {}", it, mine) for it in hole.guards]
            return mine
        first = known[0]
        same = self.adapter.same(first.form or hole.form, hole.form)
        if same is None and not first.is_outside:
            raise Fault(f"{hole.shown} stands for {first.form} before, and for {hole.form} here", *hole.at)
        if not same and not first.is_outside:
            return _spelt(first.variable, hole.at)
        mine = self._guarded(hole.name, hole.at, hole.guards)
        self.conditions.append(put("<{}(|{})> {}", same or "same'", first.variable, mine))
        known.append(Form(str(mine), hole.form))
        return mine

    def _inside(self, pattern: Inside) -> Made:
        mine = self._guarded("any", pattern.at, pattern.guards)
        at = len(self.conditions)
        self.conditions.append(Made())
        self.conditions[at] = Search(put("oncetd(?{}", self.text(pattern.pattern)), mine)
        return mine

    # Each alternative binds the same names: those that one alone binds aren't known afterwards.
    def _either(self, pattern: Either) -> Made:
        mine = self._guarded("any", pattern.at, pattern.guards)
        before = {name: list(forms) for name, forms in self.bound.variables.items()}
        branches, after = [], []
        for it in pattern.patterns:
            self.bound.variables = {name: list(forms) for name, forms in before.items()}
            one = Matching(self.bound, self.adapter)
            text = one.text(it)
            more = conjunction(one.conditions)
            branches.append(put("?{}{}{}", text, "; " if more else "", more))
            after.append(self.bound.variables)
        self.bound.variables = {name: forms for name, forms in after[0].items() if all(name in it for it in after)}
        self.conditions.append(put("<{}> {}", joined(" <+ ", branches), mine))
        return mine

    def _items(self, parts: Sequence[Pattern]) -> Made:
        groups, many = _groups(parts)
        for before, after in zip(groups[1:-1], many[1:]):
            if not before:
                raise Fault(f"nothing says where {after.shown} begins, since another `$*` is right before it", *after.at)
        if not many:
            return _list([self.text(it) for it in groups[0]])
        if len(many) == 1 and not groups[1]:
            return _list([self.text(it) for it in groups[0]], self._hole(many[0]))
        rest = _spelt(self.bound.fresh("list"), many[0].at)
        return _list([self.text(it) for it in groups[0]], self._later(rest, groups[1:], many))

    # The variable of what is left of a list, and the conditions for it: holes, and after each a group.
    def _later(self, rest: Made, groups: list[list[Pattern]], many: list[Hole]) -> Made:
        front = _spelt(self.bound.fresh("front"), many[0].at)
        at = len(self.conditions)
        self.conditions.append(Made())
        if len(many) == 1:
            items = [self.text(it) for it in reversed(groups[0])]
            self.conditions[at] = put("<reverse'> {} => {}", rest, _list(items, front))
            self._reversed(front, many[0])
            return rest
        after = _spelt(self.bound.fresh("list"), many[1].at)
        last = len(many) == 2 and not groups[1]
        items = [self.text(it) for it in groups[0]]
        self.conditions[at] = Search(put("split'(?({},{})", front, _list(items, self._hole(many[1]) if last else after)), rest)
        self._reversed(front, many[0])
        if not last:
            self._later(after, groups[1:], many[1:])
        return rest

    def _reversed(self, front: Made, hole: Hole) -> None:
        if hole.name != "_":
            at = len(self.conditions)
            self.conditions.insert(at, put("<reverse'> {} => {}", front, self._hole(hole)))


@dataclass
class Building:
    """Writes patterns that are built. `text` returns the pattern, and adds to `conditions`."""

    bound: Bound
    adapter: Adapter
    conditions: list[Condition] = field(default_factory=list)

    def text(self, pattern: Pattern) -> Made:
        if isinstance(pattern, Hole):
            _single(pattern)
            return self._hole(pattern)
        if isinstance(pattern, Raw):
            return Made.own(pattern.at.source, pattern.at.place, pattern.last)
        if isinstance(pattern, Leaf):
            return Made.of(pattern.text)
        if isinstance(pattern, Unseen):
            return self.text(pattern.built)
        if isinstance(pattern, Apply):
            text = _applied(pattern.name, [self.text(it) for it in pattern.parts])
            return self._made(put("<{}> {}", pattern.finish, text)) if pattern.finish else text
        if isinstance(pattern, Items):
            return self._items(pattern)
        sign = "<... p ...>" if isinstance(pattern, Inside) else "\\( p \\| q \\)"
        raise Fault(f"`{sign}` has no value that could be built", *pattern.at)

    def _items(self, pattern: Items) -> Made:
        groups, many = _groups(pattern.parts)
        items = [[self.text(it) for it in group] for group in groups]
        if not many:
            return _list(items[0])
        if len(many) == 1 and not items[1]:
            return _list(items[0], self._hole(many[0]))
        lists = [it for group, hole in zip(items[1:], many) for it in (self._hole(hole), *([_list(group)] if group else []))]
        return _list(items[0], self._made(put("<concat'> [{}]", joined(",", lists))))

    def _made(self, strategy: Made) -> Made:
        mine = self.bound.fresh("made")
        self.conditions.append(put("{} => {}", strategy, mine))
        return Made.of(mine)

    def _hole(self, hole: Hole) -> Made:
        if hole.name == "_":
            raise Fault(f"{hole.shown} has no value that could be built", *hole.at)
        known = self.bound.variables.get(hole.name)
        if not known:
            if hole.name in self.bound.others:
                return _spelt(variable(hole.name), hole.at)
            raise Fault(f"{hole.shown} isn't bound: it doesn't stand on the left, nor in a `where`", *hole.at)
        if known[0].form:
            self.bound.check(hole)
        ways = [(made, it) for it in known if (made := self.adapter.conversion(it.form, hole.form) if it.form else "") is not None]
        if not ways:
            raise Fault(f"{hole.shown} stands for {known[0].form} on the left, and for {hole.form} here", *hole.at)
        made, it = min(ways, key=lambda way: way[0] != "")
        mine = _spelt(it.variable, hole.at)
        return self._made(put("<{}> {}", f"map({made})" if hole.many else made, mine)) if made else mine


def congruence(pattern: Pattern) -> Made:
    """Returns the congruence of a pattern: each hole is the strategy of its name, `$_` is `id`."""
    if isinstance(pattern, Hole):
        return _spelt("id" if pattern.name == "_" else pattern.name, pattern.at)
    if isinstance(pattern, Raw):
        return put("({})", Made.own(pattern.at.source, pattern.at.place, pattern.last))
    if isinstance(pattern, Unseen):
        return Made.of("id")
    if isinstance(pattern, Leaf):
        return Made.of(f"?{pattern.text}")
    if isinstance(pattern, Apply):
        return _applied(pattern.name, [congruence(it) for it in pattern.parts])
    if isinstance(pattern, Inside):
        return put("where(oncetd({}))", congruence(pattern.pattern))
    if isinstance(pattern, Either):
        return put("({})", joined(" <+ ", map(congruence, pattern.patterns)))
    groups, many = _groups(pattern.parts)
    if len(many) > 1 or many and groups[1]:
        raise Fault("in a congruence `$*` stands at the end of a list", *many[0].at)
    return _list([congruence(it) for it in groups[0]], congruence(many[0]) if many else "")
