"""The two trees, the source between them, and its lines."""

from __future__ import annotations

import re
import tokenize
from bisect import bisect_left, bisect_right
from collections.abc import Sequence
from functools import cached_property
from typing import Callable

from ..source import CONSTRUCTORS, Source
from ....patch.origins import Origins
from ....terms import Term
from .comments import Marks
from .edits import BLOCKS, COMPREHENSIONS, DEFINITIONS, DISPLAYS, Cannot, Edit, apply_edits, field_of, normal, parts_of, span
from .former import Former
from .markers import Brackets
from .tokens import Token, Tokens


class Trees:
    """The source with its old tree, and the new tree. Of the old one it says what is where in its lines."""

    def __init__(self, source: Source, new: Term, marks: Marks | None = None) -> None:
        self.source, self.text = source, source.text
        self.marks = marks or Marks(source.text)
        self.brackets = Brackets(self.marks.sign.decode())
        self.old = source.term
        self.origins = Origins(self.old, CONSTRUCTORS)
        self.origin, self.homes = self.origins.of, self.origins.homes
        self.new = self.origins.shared(new, self.old, normal)
        # whether changed statements are made anew as a whole
        self.plain = False
        # the comments that go with statements to other places: by the pass before, and so far by this one, with the ids of the statements or
        # blocks; and those of these that stay where they are
        self.carried: set[int] = set()
        self.carrying: list[tuple[int, int]] = []
        self.staying: set[int] = set()
        self.newline = b"\r\n" if b"\r\n" in self.text[: self.line_end(0)[1]] else b"\n"
        if self.newline == b"\n" and b"\n" not in self.text and b"\r" in self.text:
            self.newline = b"\r"

    @cached_property
    def tokens(self) -> Tokens:
        """The tokens of the source, which are read only where something changed."""
        return Tokens(self.text, self.source.lines)

    @cached_property
    def former(self) -> Former:
        """What the new nodes were, which is asked only where they aren't old ones themselves."""
        return Former(self.old, self.new, self.origins)

    @cached_property
    def owners(self) -> dict[int, Term]:
        """The literals and comprehensions that nodes, by their ids, are parts of."""
        owners = (it for it in self.origins.found.values() if it.head in DISPLAYS or it.head in COMPREHENSIONS)
        return {id(part): it for it in owners for part in parts_of(it)}

    def tried(self, edits: Callable[[], list[Edit]]) -> list[Edit] | None:
        """Edits, or nothing where they can't be made. Then no comments go elsewhere by them."""
        before = len(self.carrying)
        try:
            return edits()
        except Cannot:
            del self.carrying[before:]
            return None

    def was(self, statement: Term) -> Term | None:
        """The statement that a new one was. What is made anew as a whole was none."""
        return self.origin(statement) or (None if self.plain else self.former.of(statement))

    def is_moved(self, old: Term, new: Term) -> bool:
        """Whether an old node, in whose place another comes, is elsewhere in the new tree."""
        origin = self.origin(new)
        return origin is not old and (origin is not None or self.former.is_present(old))

    def copied(self, first: int, last: int, edits: Sequence[Edit]) -> bytes:
        """Old text with edits in it, and with marks in its comments."""
        comments = self.tokens.comments_between(first, last)
        if comments:
            edits = [*edits, *self.marks.edits(comments, sorted(edits, key=lambda it: (it.first, it.last)))]
        return apply_edits(self.text, first, last, edits)

    # Places in the lines of the source.

    def begin(self, statement: Term) -> int:
        """Where a statement begins, with its decorators; or a case, which has no position."""
        if statement.head == "match_case":
            return self.tokens.back(span(field_of(statement, "pattern"))[0], "case").first
        first = span(statement)[0]
        if statement.head in DEFINITIONS and field_of(statement, "decorator_list").children:
            return self.at_sign(field_of(statement, "decorator_list").children[0])
        return first

    def at_sign(self, decorator: Term) -> int:
        """Where the sign before a decorator is."""
        return self.tokens.back(span(decorator)[0], "@").first

    def line_start(self, place: int) -> int:
        """Where the line of a place begins."""
        starts = self.source.lines.starts
        return starts[bisect_right(starts, place) - 1]

    def line_end(self, place: int) -> tuple[int, int]:
        """Where the line of a place ends, without and with its line end."""
        starts = self.source.lines.starts
        at = bisect_right(starts, place)
        after = starts[at] if at < len(starts) else len(self.text)
        return after - len(self.text[place:after]) + len(self.text[place:after].rstrip(b"\r\n")), after

    def statement_end(self, statement: Term) -> tuple[int, int]:
        """Where the last line of a statement ends."""
        at = self.tokens.after(span(statement)[1])
        while at < len(self.tokens.tokens) and self.tokens.tokens[at].kind != tokenize.NEWLINE:
            at += 1
        place = self.tokens.tokens[at].first if at < len(self.tokens.tokens) else len(self.text)
        return self.line_end(place)

    def leads(self, statement: Term) -> bool:
        """Whether a statement is the first of its line."""
        before = self.tokens.before(self.begin(statement))
        return before < 0 or self.tokens.tokens[before].kind == tokenize.NEWLINE

    def is_followed(self, statement: Term) -> bool:
        """Whether another statement comes after this one in its line."""
        at = self.tokens.after(span(statement)[1])
        return self.tokens.text_at(at) == ";" and self.tokens.tokens[at + 1].kind != tokenize.NEWLINE

    def indent(self, place: int) -> bytes:
        """The indentation of the line of a place."""
        found = re.compile(rb"[ \t\f]*").match(self.text, self.line_start(place))
        return found.group() if found else b""

    def frame(self, place: int) -> bytes:
        """The indentation of the statement that a place is in."""
        return self.indent(self.tokens.logical_line(place))

    def head(self, statement: Term) -> tuple[int, int]:
        """Where the head of a statement, of a handler or of a case is, or the whole statement where it has no blocks."""
        if statement.head == "Match":
            return span(statement)[0], self.tokens.tokens[self.tokens.after(self.begin(field_of(statement, "cases").children[0])) - 2].last
        return self.begin(statement), self.colon(statement) + 1 if statement.head in BLOCKS else span(statement)[1]

    def colon(self, statement: Term) -> int:
        """The place of the colon that ends the head of a statement."""
        return self.tokens.back(self.begin(field_of(statement, "body").children[0]), ":").first

    def comment_after(self, place: int) -> Token | None:
        """The comment after a place in its line."""
        at = self.tokens.after(place)
        if at < len(self.tokens.tokens) and self.tokens.tokens[at].kind != tokenize.NEWLINE:
            return None
        follows = bisect_left(self.tokens.comment_firsts, place)
        if follows < len(self.tokens.comments) and self.tokens.comments[follows].last <= self.line_end(place)[0]:
            return self.tokens.comments[follows]
        return None

    def leading_comments(self, place: int, some: set[int] | None = None) -> int:
        """Where the comments right before a line begin that are as deep as it, of all or of these. Those from the first line of the file on
        are about the file.
        """
        begin = place
        line = self.line_start(place)
        indent = self.indent(place)
        while line > 0:
            above = self.line_start(line - 1)
            start = above + len(self.indent(above))
            if start not in self.tokens.comment_lines or self.indent(above) != indent or (some is not None and start not in some):
                return begin
            begin, line = start, above
        return place

    # What lists ask of their surroundings.

    def bare(self, first: int, last: int) -> bytes:
        """Old text with blanks in the places of comments, and of the ends of lines that go on."""
        blanks = [Edit(it.first, it.last, b" " * (it.last - it.first)) for it in self.tokens.comments_between(first, last)]
        return re.sub(rb"\\\r?\n", lambda it: b" " * len(it[0]), apply_edits(self.text, first, last, blanks))

    def leading(self, place: int) -> int:
        """Where the comments above an element begin that is the first of its line."""
        return self.leading_comments(place) if not self.text[self.line_start(place) : place].strip() else place

    def trailing(self, place: int) -> int:
        """Where the comment after an element ends, which is the last one of its line."""
        comments = self.tokens.comments_between(place, self.line_end(place)[0])
        return comments[0].last if comments and not self.text[place : comments[0].first].strip(b" \t,") else place

    def tail(self, place: int, indent: bytes, as_deep: bool, some: set[int] | None = None) -> int:
        """Where the comments end on the lines after that of a place, of all or of these: those deeper than an indentation, or as deep."""
        end, line = place, self.line_end(place)[1]
        while line < len(self.text):
            own = self.indent(line)
            comment = self.tokens.comment_lines.get(line + len(own))
            after = self.line_end(line)[1]
            if comment is None:
                if self.text[line:after].strip():
                    break
            elif not own.startswith(indent) or (own == indent and not as_deep) or (some is not None and comment.first not in some):
                break
            else:
                end = comment.last
            line = after
        return end

    def blanks_before(self, line: int) -> tuple[int, int]:
        """How many blank lines are before a line, and where they begin."""
        count = 0
        while line > 0:
            above = self.line_start(line - 1)
            if self.text[above:line].strip(b" \t\r\n"):
                break
            count, line = count + 1, above
        return count, line

    def blanks_after(self, line: int) -> list[int]:
        """How many blank lines there are from a line on, and where each of them ends."""
        ends: list[int] = []
        while line < len(self.text):
            line, begin = self.line_end(line)[1], line
            if self.text[begin:line].strip(b" \t\r\n"):
                break
            ends.append(line)
        return ends

    def inside_of(self, display: Term) -> tuple[int, int]:
        """The places between the brackets of a literal."""
        first, last = span(display)
        return (first, last) if display.head == "Tuple" and not self.is_bracketed_tuple(display) else (first + 1, last - 1)

    def is_bracketed_tuple(self, term: Term) -> bool:
        """Whether the brackets of a tuple are its own."""
        first, last = span(term)
        return self.text[first : first + 1] == b"(" and self.tokens.closing(self.tokens.after(first)).last == last
