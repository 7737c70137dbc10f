"""The edits of a whole source."""

from __future__ import annotations

from bisect import bisect_right

from ....patch.edits import Patch
from ....terms import Term
from ..source import Source
from .clauses import Clauses
from .commas import Commas
from .comments import Marks, staying
from .edits import Cannot, Edit
from .fresh import Fresh
from .fstrings import Joined
from .moved import Moved
from .nodes import Nodes
from .statements import Statements
from .tokens import Token
from .trees import Trees


class Patcher:
    """The edits that make a source spell a new tree. What calls in a circle is tied together here."""

    def __init__(self, source: Source, new: Term, marks: Marks | None = None) -> None:
        self.trees = trees = Trees(source, new, marks)
        fresh = Fresh(trees)
        commas, moved = Commas(trees, fresh), Moved(trees, fresh)
        nodes = Nodes(trees, fresh, commas, Joined(trees, fresh, self._expression))
        self._statements = Statements(trees, fresh, nodes, moved)
        fresh.inside, fresh.display, fresh.rendered = nodes.inside, commas.display, moved.rendered
        commas.child, commas.fields, moved.statement = nodes.child, nodes.fields, self._statements.statement
        nodes.clauses = Clauses(trees, fresh, commas, nodes, moved, self._statements)

    def edits(self) -> list[Edit]:
        """Returns the edits, in order, with marks in the comments of what is copied."""
        if self.trees.old is self.trees.new:
            return []
        self.trees.carried, self.trees.carrying, self.trees.staying = set(), [], set()
        found = self._statements.block(self.trees.old, self.trees.new, "body", b"")
        if self.trees.carrying:
            # once more, now that the comments that go elsewhere are known, and what stays
            self.trees.carried = {comment for comment, statement in self.trees.carrying if statement not in self.trees.staying}
            found = self._statements.block(self.trees.old, self.trees.new, "body", b"")
        return sorted(found, key=lambda it: (it.first, it.last))

    def patch(self) -> Patch:
        """Returns the edits, and the comments that are lost."""
        edits = self.edits()
        if not edits:
            return Patch([], [])
        there = self.trees.marks.noted(edits) & self.trees.carried
        ends = [it.last for it in edits]
        left = [self._away(it, ends) for it in staying(self.trees.tokens.comments, edits) if it.first in there]
        if left:
            edits = sorted([*edits, *left], key=lambda it: (it.first, it.last))
        return self.trees.marks.resolved(edits, self.trees.tokens.comments)

    # The edit without a comment, and without its line where it is alone there. It is between others, which end at these places.
    def _away(self, comment: Token, ends: list[int]) -> Edit:
        at = bisect_right(ends, comment.first) - 1
        before = ends[at] if at >= 0 else 0
        if comment.first in self.trees.tokens.comment_lines:
            return Edit(max(before, self.trees.line_start(comment.first)), self.trees.line_end(comment.first)[1], b"")
        return Edit(max(before, self.trees.tokens.last_before(comment.first).last), comment.last, b"")

    def _expression(self, source: Source, new: Term, offset: int) -> list[Edit]:
        source.encoding = self.trees.source.encoding
        try:
            return Patcher(source, new, Marks(b"", self.trees.marks.offset + offset, self.trees.marks.sign)).edits()
        except Cannot:
            return []
