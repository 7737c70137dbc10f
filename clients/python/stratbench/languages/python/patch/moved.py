"""Statements that come to stand elsewhere, with the comments and the blank lines that are theirs."""

from __future__ import annotations

from collections.abc import Callable, Sequence
from functools import cached_property

from ....terms import Term
from .edits import BLOCKS, DEFINITIONS, Edit, field_of, span
from .fresh import Fresh
from .markers import indented
from .tokens import Token
from .trees import Trees


class Moved:
    """The texts of statements, and what goes with them. Given are the edits within a statement, or those that make it anew."""

    statement: Callable[[Term, Term, bytes], list[Edit]]

    def __init__(self, trees: Trees, fresh: Fresh) -> None:
        self._trees, self._fresh = trees, fresh

    def end_with_comments(self, statement: Term) -> int:
        """Where a statement ends with the comments after it that go elsewhere. Those inside one of several lines with blocks go with it."""
        end = span(statement)[1]
        lines = statement.head in BLOCKS and self._trees.line_start(self._trees.begin(statement)) != self._trees.line_start(end)
        follows = self._trees.comment_after(end)
        if follows is not None and (lines or follows.first in self._trees.carried):
            end = follows.last
        elif lines and not self._trees.text[end : self._trees.line_end(end)[0]].strip(b" \t;"):
            end = self._trees.line_end(end)[0]
        if not self._trees.leads(statement):
            return end
        indent = self._trees.indent(self._trees.begin(statement))
        end = self._trees.tail(end, indent, False, None if lines else self._trees.carried)
        return self._trees.tail(end, indent, True, self._trees.carried) if self._ends_block(statement) else end

    # Whether a statement is the last of a block with an indentation of its own. Comments after it may be about the block.
    def _ends_block(self, statement: Term) -> bool:
        block, at = self._trees.homes[id(statement)]
        return at == len(block.children) - 1 and not self._trees.text[span(statement)[0] :].startswith(b"elif")

    def begin_with_comments(self, statement: Term) -> int:
        """Where the comments begin that go elsewhere with a statement, or the statement."""
        begin = self._trees.leading_comments(self._trees.begin(statement), self._trees.carried)
        return self._after_head(begin, self._trees.carried) if self._trees.leads(statement) and self._begins_block(statement) else begin

    # Whether a statement is the first of a block with an indentation of its own.
    def _begins_block(self, statement: Term) -> bool:
        block, at = self._trees.homes[id(statement)]
        return at == 0 and block is not field_of(self._trees.old, "body") and not self._trees.text[span(statement)[0] :].startswith(b"elif")

    # Where the line of a block's head ends, before its first statement.
    def _head_end(self, begin: int) -> int:
        return self._trees.line_end(self._trees.tokens.tokens[self._trees.tokens.before(begin) - 1].last)[1]

    # Where the comments begin between the head of a block and its first statement, if all are as deep as that, and among these.
    def _after_head(self, begin: int, some: set[int] | None = None) -> int:
        inside = self._trees.tokens.comments_between(self._head_end(begin), begin)
        if any(self._trees.indent(it.first) != self._trees.indent(begin) or (some is not None and it.first not in some) for it in inside):
            return begin
        return inside[0].first if inside else begin

    # The comments of a block's `else` or `finally`, above it or in its line, which go with its statements.
    def _heads(self, block: Term) -> list[Token]:
        begin = self._trees.begin(block.children[0])
        word = self._trees.tokens.tokens[self._trees.tokens.before(begin) - 2]
        if word.text not in ("else", "finally") or id(block) in self._trees.staying:
            return []
        above = self._trees.leading_comments(word.first)
        return [*self._trees.tokens.comments_between(above, word.first), *self._trees.tokens.comments_between(word.first, self._head_end(begin))]

    def rendered(self, new: Sequence[Term], indent: bytes) -> bytes:
        """The text of statements, without the indentation of its first line. Neighbours that were neighbours before keep what is between
        them, and the comments before and after them come along.
        """
        texts: list[bytes] = []
        at = 0
        while at < len(new):
            if at:
                room = max(self.room(new[at - 1], indent), self.room(new[at], indent))
                texts.append(self._trees.newline * (1 + room) + indent)
            origin = self._trees.was(new[at])
            home = self._trees.homes.get(id(origin)) if origin is not None else None
            if origin is None or home is None or self._trees.plain:
                texts.append(self._fresh.statement(new[at], indent))
                at += 1
                continue
            chunk = [(origin, new[at])]
            while at + len(chunk) < len(new):
                following = self._trees.was(new[at + len(chunk)])
                if following is None or self._trees.homes.get(id(following)) != (home[0], home[1] + len(chunk)):
                    break
                chunk.append((following, new[at + len(chunk)]))
            texts.append(self._chunk(chunk, indent, self._is_whole(home[0], new)))
            at += len(chunk)
        return b"".join(texts)

    # Whether all statements of a block are among others. Then the comments at its end go with the last one.
    def _is_whole(self, block: Term, new: Sequence[Term]) -> bool:
        if block is field_of(self._trees.old, "body"):
            return False
        there = {id(self._trees.was(it)) for it in new}
        return all(id(it) in there for it in block.children)

    def _chunk(self, chunk: list[tuple[Term, Term]], indent: bytes, is_whole: bool) -> bytes:
        begin, end = self._trees.begin(chunk[0][0]), span(chunk[-1][0])[1]
        before = self._trees.indent(begin)
        if self._trees.text[begin:].startswith(b"elif") and chunk[0][0].head == "If":
            edits = [Edit(begin, begin + 2, b"")]
        else:
            edits = []
        for old, new in chunk:
            edits += self.statement(old, new, before)
        heads: list[Token] = []
        if self._trees.leads(chunk[0][0]):
            begin = self._trees.leading_comments(begin)
            if is_whole and self._begins_block(chunk[0][0]):
                heads = self._heads(self._trees.homes[id(chunk[0][0])][0])
                begin = self._after_head(begin)
        follows = self._trees.comment_after(end)
        if follows is not None:
            end = follows.last
        if self._trees.leads(chunk[-1][0]):
            end = self._trees.tail(end, before, is_whole and self._ends_block(chunk[-1][0]))
        begins, ends = [self._trees.begin(it) for it, _ in chunk], [span(it)[1] for it, _ in chunk]
        for place, until, statement in zip([begin, *ends], [*begins, end], [*chunk, chunk[-1]]):
            self._trees.carrying.extend((it.first, id(statement[0])) for it in self._trees.tokens.comments_between(place, until))
        self._trees.carrying.extend((it.first, id(self._trees.homes[id(chunk[0][0])][0])) for it in heads)
        head = b"".join(self._trees.copied(it.first, it.last, []) + self._trees.newline + indent for it in heads)
        # an edit of the first or the last line may be one of the whole line
        first, last = min([begin, *(it.first for it in edits)]), max([end, *(it.last for it in edits)])
        text = self._trees.copied(first, last, edits)
        text = text.lstrip(b" \t\f") if first < begin else text
        return head + indented(text.rstrip(b"\r\n") if last > end else text, before, indent)

    # How many blank lines are before a definition, for one in a module and for one in a block.
    @cached_property
    def _usual_room(self) -> tuple[int, int]:
        found: tuple[list[int], list[int]] = ([], [])
        for block, at in self._trees.homes.values():
            if at and block.children[at].head in DEFINITIONS:
                found[block is not field_of(self._trees.old, "body")].append(self._room_above(block.children[at]))
        one, two = (max(it, key=it.count) if it else usual for it, usual in zip(found, (2, 1)))
        return one, two

    def _room_above(self, statement: Term) -> int:
        return self._trees.blanks_before(self._trees.line_start(self._trees.leading_comments(self._trees.begin(statement))))[0]

    def room(self, statement: Term, indent: bytes) -> int:
        """How many blank lines a statement has around it: a definition as many as were before it."""
        if statement.head not in DEFINITIONS:
            return 0
        origin = self._trees.was(statement)
        home = self._trees.homes.get(id(origin)) if origin is not None else None
        if origin is None or home is None:
            return self._usual_room[bool(indent)]
        if home[1]:
            return self._room_above(origin)
        return len(self._trees.blanks_after(self._trees.line_end(self.end_with_comments(origin))[1])) if len(home[0].children) > 1 else 0
