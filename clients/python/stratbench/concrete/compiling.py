"""Rules in a language's own syntax as modules of strategies, with a definition of each rule, and one that applies all of them."""

from __future__ import annotations

import re
from collections.abc import Iterable, Sequence
from typing import Final, NamedTuple

from .adapter import Adapter
from .pattern import Apply, Items, settled
from .quotations import WORD, in_strategy, kind_of_both, raw_names
from .rules import Rule
from .text import Made, put
from .writing import Bound, Building, Condition, Matching, Search, conjunction

# What applies all rules everywhere, and the module in which it is.
DRIVER: Final = "all-rules'"
MODULE: Final = "made-rules"
# A module of the workbench has 4,000 tokens at most.
_MOST_TOKENS: Final = 3_500
_TOKEN: Final = re.compile(r'"(?:\\.|[^"\\])*"|[A-Za-z_][A-Za-z0-9_\'-]*|-?\d+|->|=>|<\+|\S')


class Compiled(NamedTuple):
    """A rule as a definition; whether it is one of a list's beginning; and a pattern of the constructor that it is about, if it is about
    one."""

    rule: Rule
    text: Made
    of_list: bool
    head: str


class Module(NamedTuple):
    """A module that was made."""

    name: str
    text: Made


def compile_rule(rule: Rule, adapter: Adapter) -> Compiled:
    """Returns the definition of a rule. Raises `Fault`."""
    left, right = kind_of_both(adapter.parse(rule.left), adapter.parse(rule.right), adapter, rule.right)
    left, right = settled([left, right], adapter.settle)
    if isinstance(left, Items) and not left.parts:
        raise rule.left.fault("nothing stands on the left")
    words = frozenset(word for it in (rule.left, rule.right, *rule.where) for word in WORD.findall(it.text))
    bound = Bound(others=frozenset(raw_names(left)), words=words)
    matching, building = Matching(bound, adapter), Building(bound, adapter)
    before = matching.text(left)
    conditions: list[Condition] = list(matching.conditions)
    # the user's condition is applied to the whole, also where it is tried for each split of a list
    searched = any(isinstance(it, Search) for it in conditions)
    for it in rule.where:
        read = in_strategy(it, adapter, bound)
        bound.others |= read.matched
        conditions.append(put("<{}> whole'", _ended(read.made)) if searched else _ended(read.made))
    if searched and rule.where:
        before = put("whole'@{}", before)
    after = building.text(right)
    conditions += building.conditions
    text = put(
        "  {} :{} ->{}{}{}",
        Made.of(rule.name, rule.source, rule.left.first),
        Made.of(" ", rule.source, rule.left.first) + before,
        Made.of(" ", rule.source, rule.right.first) + after,
        " where " if conditions else "",
        conjunction(conditions),
    )
    return Compiled(rule, text, isinstance(left, Items), f"{left.name}({','.join('_' for _ in left.parts)})" if isinstance(left, Apply) else "")


# A condition that may end with a comment.
def _ended(made: Made) -> Made:
    return made + "\n" if "//" in str(made) else made


def compiled(rules: Sequence[Rule], adapter: Adapter, name: str = MODULE) -> list[Module]:
    """Returns modules with the definitions of the rules, and with `DRIVER`, which applies them all, the first that matches, to each node of
    a tree, children first; and then those that need an import. Raises `Fault`."""
    groups: dict[str, list[Compiled]] = {}
    for rule in rules:
        groups.setdefault(rule.name, []).append(compile_rule(rule, adapter))
    for one in groups.values():
        for it in one:
            if it.of_list != one[0].of_list:
                raise it.rule.left.fault(f"`{it.rule.name}` is a rule of one node, and one of several: give it another name")
    made: list[Module] = []
    waiting: list[Compiled] = []
    for one in groups.values():
        if waiting and _tokens([*waiting, *one]) > _MOST_TOKENS:
            made.append(_module(f"{name}{len(made) + 1}", waiting))
            waiting = []
        waiting += one
    made.append(_module(name, waiting, driver(groups, adapter)))
    return made


def driver(groups: dict[str, list[Compiled]], adapter: Adapter) -> Made:
    """Returns the definition of `DRIVER`."""
    by_needs: dict[tuple[str, ...], dict[str, list[Compiled]]] = {}
    for name, one in groups.items():
        by_needs.setdefault(tuple(dict.fromkeys(it.text for rule in one for it in rule.rule.needs)), {})[name] = one
    plain = by_needs.pop((), {})
    parts = [put("bottomup(try({}))", _choice(plain))] if plain else []
    for one_group in by_needs.values():
        adds = _added([it.rule for one in one_group.values() for it in one], adapter)
        parts.append(put("try(everywhere'({}){})", _choice(one_group), "".join(f"; {it}" for it in adds)))
    text = Made()
    for at, it in enumerate(parts):
        text = text + (";\n    " if at else "") + it
    return put("strategies\n  {} = {}\n", DRIVER, text)


# The strategies that add what rules need.
def _added(rules: Iterable[Rule], adapter: Adapter) -> list[str]:
    found: dict[str, None] = {}
    for rule in rules:
        for it in rule.needs:
            strategy = adapter.adding(it.text)
            if strategy is None:
                raise it.fault(f"what is needed is an import of {adapter.title}")
            found[strategy] = None
    return list(found)


def applied(name: str, of_list: bool) -> str:
    """Returns the strategy that applies a rule to a node."""
    return f"in-list'({name})" if of_list else name


# The choice of all rules. One by one they would take five steps each at every node: so those of one constructor are tried at its nodes alone.
def _choice(groups: dict[str, list[Compiled]]) -> str:
    of_heads: dict[str, list[str]] = {}
    lists = []
    for name, one in groups.items():
        if one[0].of_list:
            lists.append(name)
        for head in () if one[0].of_list else dict.fromkeys(it.head for it in one):
            of_heads.setdefault(head, []).append(name)
    anywhere = of_heads.pop("", [])
    last = [*anywhere, *([applied(" <+ ".join(lists), True)] if lists else [])]
    if len(groups) < 4:
        return " <+ ".join([*dict.fromkeys(it for one in of_heads.values() for it in one), *last])
    tests = [f"?{head} < ({' <+ '.join([*one, *anywhere])}) + " for head, one in of_heads.items()]
    return "\n    ".join([*tests, f"({' <+ '.join(last) or 'fail'})"])


def _tokens(found: Iterable[Compiled]) -> int:
    return sum(len(_TOKEN.findall(str(it.text))) for it in found)


def _module(name: str, found: Sequence[Compiled], end: Made = Made()) -> Module:
    text = Made.of(f"module {name}\nrules\n")
    for it in found:
        text = text + it.text + "\n"
    return Module(name, text + end)
