"""What differs between two trees, in changes that can be made or left alone.

A strategy's preview has places at which the new tree has other terms. Where such a place is a list, or a node that stays with other
parts, only what differs inside is a change: of a rule for lists, `[s1,s2|rest] -> [t|rest]`, the elements that go and those that come.
Changes between which something moves are made together, or not at all.
"""

from __future__ import annotations

from bisect import bisect_right
from collections.abc import Iterable, Iterator, Mapping
from typing import NamedTuple, Optional

from ..languages.language import Kinds, Path
from ..terms import LIST, Term, position
from ..terms import at as subterm
from .edits import aligned, gaps


class Change(NamedTuple):
    """At a path of the old tree comes another term, or these for the elements of a list from one to another."""

    path: Path
    elements: Optional[tuple[int, int]]
    comes: tuple[Term, ...]

    def goes(self, old: Term) -> tuple[Term, ...]:
        """What goes of the old tree."""
        term = subterm(old, self.path)
        return (term,) if self.elements is None else term.children[self.elements[0] : self.elements[1]]


def changes_of(old: Term, places: Mapping[Path, Term], kinds: Kinds) -> list[list[Change]]:
    """Returns the changes that lead to other terms at these places, in groups that are made together."""
    found = [it for path, new in places.items() for it in _narrowed(subterm(old, path), new, path, kinds)]
    return _together(old, found, kinds)


def changed(old: Term, changes: Iterable[Change]) -> Term:
    """Returns the tree with these changes."""
    own: dict[Path, list[Change]] = {}
    above: set[Path] = set()
    for it in changes:
        own.setdefault(it.path, []).append(it)
        above.update(it.path[:end] for end in range(len(it.path) + 1))
    return _changed(old, (), own, above)


def _changed(term: Term, path: Path, own: Mapping[Path, list[Change]], above: set[Path]) -> Term:
    here = own.get(path, [])
    if here and here[0].elements is None:
        return here[0].comes[0]
    children = [_changed(it, (*path, at), own, above) if (*path, at) in above else it for at, it in enumerate(term.children)]
    for it in reversed(here):
        assert it.elements is not None
        children[it.elements[0] : it.elements[1]] = it.comes
    return Term(term.head, tuple(children), term.annotations)


# The changes that make a term another.
def _narrowed(old: Term, new: Term, path: Path, kinds: Kinds) -> Iterator[Change]:
    if old == new:
        return
    if old.head == LIST and new.head == LIST and all(it.annotations for it in old.children):
        yield from _of_list(old, new, path, kinds)
    elif _is_kept(old, new) and len(old.children) == len(new.children):
        for at, (one, two) in enumerate(zip(old.children, new.children)):
            yield from _narrowed(one, two, (*path, at), kinds)
    else:
        yield Change(path, None, (new,))


# Whether a node is one that stays, with other parts perhaps.
def _is_kept(old: Term, new: Term) -> bool:
    return old.head == new.head and old.annotations == new.annotations and old.annotations != ()


def _of_list(old: Term, new: Term, path: Path, kinds: Kinds) -> Iterator[Change]:
    places = {(it.head, position(it)): at for at, it in enumerate(old.children)}
    pairs = aligned([places.get((it.head, position(it))) if it.annotations else None for it in new.children])
    for goes, comes in gaps(pairs, len(old.children), len(new.children)):
        yield from _of_gap(path, old.children[goes.start : goes.stop], goes.start, new.children[comes.start : comes.stop], kinds)
        if goes.stop < len(old.children):
            yield from _narrowed(old.children[goes.stop], new.children[comes.stop], (*path, goes.stop), kinds)


# The changes where elements come for others. An import that is new comes alone: without it other changes may be wrong, and where it
# isn't needed it does no harm.
def _of_gap(path: Path, goes: tuple[Term, ...], first: int, comes: tuple[Term, ...], kinds: Kinds) -> Iterator[Change]:
    begin, end, last = 0, len(comes), first + len(goes)
    while begin < end and _is_new_import(comes[begin], kinds):
        begin += 1
    while end > begin and _is_new_import(comes[end - 1], kinds):
        end -= 1
    if begin > 0:
        yield Change(path, (first, first), comes[:begin])
    if _are_apart(goes, comes[begin:end], kinds):
        yield from (Change(path, (first + at, first + at + 1), (it,)) for at, it in enumerate(comes[begin:end]))
    elif goes or begin < end:
        yield Change(path, (first, last), comes[begin:end])
    if end < len(comes):
        yield Change(path, (last, last), comes[end:])


# Whether each of several expressions is of parts of the one in its place alone. Statements next to each other may belong together.
def _are_apart(goes: tuple[Term, ...], comes: tuple[Term, ...], kinds: Kinds) -> bool:
    if len(goes) != len(comes) or len(goes) < 2 or any(it.head in kinds.statements for it in goes):
        return False
    spans = [position(it) or (0, -1) for it in goes]
    return all(first <= place < last for (first, last), it in zip(spans, comes) for place in _pieces([it]))


def _is_new_import(term: Term, kinds: Kinds) -> bool:
    return term.head in kinds.imports and position(term) is None


# The changes in groups: a group has all those of which one takes what another gives away, and those of lists that go together.
def _together(old: Term, changes: list[Change], kinds: Kinds) -> list[list[Change]]:
    spans = ((position(term), at) for at, it in enumerate(changes) for term in it.goes(old))
    gone = sorted((*found, at) for found, at in spans if found is not None)
    firsts = [first for first, _, _ in gone]
    group = list(range(len(changes)))

    def leader(at: int) -> int:
        while group[at] != at:
            at = group[at]
        return at

    for at, it in enumerate(changes):
        for place in _pieces(it.comes):
            found = bisect_right(firsts, place) - 1
            if found >= 0 and place < gone[found][1]:
                group[leader(gone[found][2])] = leader(at)
    nodes: dict[Path, int] = {}
    for at, it in enumerate(changes):
        if it.path and subterm(old, it.path[:-1]).head in kinds.parallel:
            group[leader(nodes.setdefault(it.path[:-1], at))] = leader(at)
    groups: dict[int, list[Change]] = {}
    for at, it in enumerate(changes):
        groups.setdefault(leader(at), []).append(it)
    return list(groups.values())


# Where the old nodes begin that are in new ones.
def _pieces(terms: Iterable[Term]) -> Iterator[int]:
    waiting = list(terms)
    while waiting:
        it = waiting.pop()
        found = position(it)
        if found is not None:
            yield found[0]
        waiting.extend(it.children)
