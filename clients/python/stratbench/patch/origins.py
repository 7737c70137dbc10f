"""The old nodes that those of a new tree are: by their positions, which stay with them."""

from __future__ import annotations

from collections.abc import Callable, Container
from operator import is_
from typing import Optional

from ..terms import LIST, Term, position, subterms


class Origins:
    """The nodes of a tree that have positions, by these and their constructors."""

    def __init__(self, tree: Term, constructors: Container[object]) -> None:
        self.found: dict[tuple[int, int, str], Term] = {}
        # the list of each element, and its place there
        self.homes: dict[int, tuple[Term, int]] = {}
        waiting = [tree]
        while waiting:
            it = waiting.pop()
            head, children, annotations = it
            if annotations and head in constructors:
                place = position(it)
                if place is not None:
                    self.found[(*place, str(head))] = it
            elif head == LIST:
                for at, child in enumerate(children):
                    if child.annotations:
                        self.homes[id(child)] = (it, at)
            waiting.extend(children)

    def of(self, term: Term) -> Optional[Term]:
        """Returns the old node that a node of the new tree is, or was with other parts."""
        if not term.annotations:
            return None
        place = position(term)
        return None if place is None else self.found.get((*place, str(term.head)))

    def first_in(self, new: Term) -> Optional[Term]:
        """Returns the first old node in a new one, or the one that it is."""
        return next((origin for it in subterms(new) if (origin := self.of(it)) is not None), None)

    def present(self, new: Term) -> set[int]:
        """Returns the ids of the old nodes that are in a new tree, as they were or with other parts."""
        return {id(origin) for it in subterms(new) if (origin := self.of(it)) is not None}

    def shared(self, new: Term, candidate: Optional[Term], made: Callable[[Term], Term]) -> Term:
        """Returns a new tree with the old nodes where nothing changed, so that `is` compares them. `candidate` is the old one in its place, if
        there is one, and `made` gets all others."""
        head, children, annotations = new
        candidate = self.of(new) or candidate
        if candidate is new:
            return new
        old = candidate.children if candidate is not None else ()
        if len(children) == len(old):
            children = tuple([self.shared(it, other, made) for it, other in zip(children, old)])
        else:
            children = tuple([self.shared(it, old[at] if at < len(old) else None, made) for at, it in enumerate(children)])
        if candidate is not None and type(head) is type(candidate.head) and head == candidate.head and len(children) == len(old):
            if all(map(is_, children, old)) and annotations == candidate.annotations:
                return candidate
        return made(Term(head, children, annotations))
