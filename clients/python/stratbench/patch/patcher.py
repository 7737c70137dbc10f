"""The patch of a whole source: its edits, with the brackets that they need, checked by a parse, and the comments that are lost."""

from __future__ import annotations

from collections.abc import Sequence
from functools import cached_property

from ..terms import NoTerm, Term
from .brackets import Parse, Search
from .dialect import Dialect
from .edits import Cannot, Patch, Unwritable
from .layout import Comment, Layout
from .nodes import Nodes
from .redundant import OldBrackets
from .rope import RopeEdit, notes, without
from .templates import Templates


def patch_of(dialect: Dialect, text: bytes, old: Term, new: Term, parse: Parse) -> Patch:
    """Returns the edits that make a text spell a new tree, and the comments that it lacks then. Raises `NoTerm` where that is no tree of the
    language, and `Unwritable` where no text was found."""
    patcher = Patcher(dialect, text, old, new, parse)
    if patcher.new is old:
        return Patch([], [])
    if patcher.new.head != old.head:
        raise NoTerm(f"the tree is no {old.head!s}")
    why = Unwritable("no text spells the new tree")
    # first as the file is written, then with the signs that it does without, then with nodes made anew
    for complete, coarse in ((False, False), (True, False), (True, True)):
        try:
            return patcher.patch(complete, coarse)
        except Cannot:
            pass
        except Unwritable as error:
            why = error
    raise why


class Patcher:
    """The patch of a source."""

    def __init__(self, dialect: Dialect, text: bytes, old: Term, new: Term, parse: Parse) -> None:
        self._dialect, self._text, self._old, self._parse = dialect, text, old, parse
        self.layout = Layout(dialect.grammar, text, old, dialect.comment, dialect.line_comments)
        self.new = self.layout.origins.shared(new, old, self._checked)
        self._brackets = OldBrackets(dialect, self.layout, parse)

    def _checked(self, made: Term) -> Term:
        self._dialect.grammar.check(made)
        return made

    # Looked at where something goes, or comments do.
    @cached_property
    def _present(self) -> set[int]:
        return self.layout.origins.present(self.new)

    # Whether an old node is in the new tree.
    def _is_present(self, old: Term) -> bool:
        return id(old) in self._present

    def patch(self, complete: bool, coarse: bool) -> Patch:
        """Returns the patch. A complete one has all signs in new text. A coarse one makes each node anew of which a field of its own
        changes."""
        dialect, layout = self._dialect, self.layout
        style = dialect.style(layout)._replace(without=frozenset() if complete else layout.missing())
        templates = Templates(dialect, layout, style)
        nodes = Nodes(dialect.grammar, layout, templates, self._is_present, self._brackets.needed)
        nodes.coarse = coarse
        edits = nodes.slot(self._old, self.new)
        edits, lost = self._owned(edits)
        search = Search(dialect, self._text, self.new, edits, templates, layout.newline, self._parse)
        return Patch(search.found(nodes.frames).edits, lost)

    # The edits with each comment once, and the comments that are in none.
    def _owned(self, edits: Sequence[RopeEdit]) -> tuple[list[RopeEdit], list[Comment]]:
        gone: list[Comment] = []
        for it in edits:
            if it.first < it.last:
                gone += self.layout.comments_in(it.first, it.last)
        if not gone and not any(notes(it.rope) for it in edits):
            return list(edits), []
        there = {it.first for it in self.layout.comments} - {it.first for it in gone}
        kept = [it._replace(rope=without(it.rope, there)) for it in edits]
        return kept, [it for it in gone if it.first not in there]
