"""Which old node a new one was: by its position, or by what it is made of."""

from __future__ import annotations

from ....patch.origins import Origins
from ....terms import Term, subterms
from .edits import STATEMENTS


class Former:
    """What of the old tree is in the new one, and which old statements others are in the place of.

    A statement made anew is an old one of its constructor where its first old part is right in that one, and that one isn't in the new
    tree itself. Each old statement is one new statement at most.
    """

    def __init__(self, old: Term, new: Term, origins: Origins) -> None:
        self._origins, self._present = origins, origins.present(new)
        self._heirs: dict[int, Term] = {}
        self._claimed: set[int] = set()
        made = [it for it in subterms(new) if it.head in STATEMENTS and origins.of(it) is None]
        statements = _statements(old) if made else {}
        for it in made:
            part = origins.first_in(it)
            owner = None if part is None else statements[id(part)]
            if owner is not None and owner.head == it.head and not self.is_taken(owner):
                self._heirs[id(it)] = owner
                self._claimed.add(id(owner))

    def of(self, new: Term) -> Term | None:
        """The old node that a new one was."""
        return self._origins.of(new) or self._heirs.get(id(new))

    def is_present(self, old: Term) -> bool:
        """Whether an old node with a position is in the new tree, as it was or with other parts."""
        return id(old) in self._present

    def is_taken(self, old: Term) -> bool:
        """Whether an old statement is in the new tree, or another is in its place."""
        return id(old) in self._claimed or self.is_present(old)


# The innermost statement around each node, by the node's id.
def _statements(tree: Term) -> dict[int, Term]:
    found: dict[int, Term] = {}
    waiting = [(tree, tree)]
    while waiting:
        it, statement = waiting.pop()
        found[id(it)] = statement
        if it.head in STATEMENTS:
            statement = it
        waiting.extend((child, statement) for child in it.children if child.children or child.annotations)
    return found
