"""The parts of statements with blocks: `else` and `finally`, handlers and cases, decorators."""

from __future__ import annotations

from collections.abc import Iterable
from itertools import takewhile

from ....terms import LIST, Term
from .commas import Commas
from .edits import BLOCKS, PASS, Cannot, Edit, aligned, blocks_of, field_of, gaps, span
from .fresh import Fresh
from .markers import indented, name_of
from .moved import Moved
from .nodes import Nodes
from .statements import Statements
from .trees import Trees


class Clauses:
    """The edits of these parts."""

    def __init__(self, trees: Trees, fresh: Fresh, commas: Commas, nodes: Nodes, moved: Moved, statements: Statements) -> None:
        self._trees, self._fresh, self._commas, self._nodes, self._moved, self._statements = trees, fresh, commas, nodes, moved, statements

    def clause(self, old: Term, new: Term, name: str) -> list[Edit]:
        """The edits for a block of a statement, with its `else` or `finally`."""
        one, two = field_of(old, name).children, field_of(new, name).children
        outer = self._trees.indent(self._trees.begin(old))
        inner = outer + self._trees.tokens.unit
        if name == "body":
            return self._statements.block(old, new, name, inner)
        word = b"finally" if name == "finalbody" else b"else"
        if not one:
            before = _innermost_last(it for _, it in takewhile(lambda it: it[0] != name, blocks_of(old)))
            return [self._statements.line_after(before, outer + self._alternative(two, outer, inner, word), outer)]
        begin, end = self._trees.begin(one[0]), span(one[-1])[1]
        is_elif = old.head == "If" and len(one) == 1 and one[0].head == "If" and self._trees.text[begin:].startswith(b"elif")
        if not two:
            if is_elif:
                start = self._trees.leading_comments(begin, self._trees.carried)
            else:
                start = self._trees.tokens.back(begin, "else", "finally").first
            # with the comments at its end
            end = self._trees.tail(self._trees.statement_end(one[-1])[0], outer, False)
            return [Edit(self._trees.line_start(start), self._trees.line_end(end)[1], b"")]
        if not is_elif:
            if self._statements.all_in(two) & {id(it) for it in one}:
                # what is said of the block is said of them
                self._trees.staying.add(id(field_of(old, name)))
            return self._statements.block(old, new, name, inner)
        if len(two) == 1 and two[0].head == "If" and self._trees.origin(two[0]) in (None, one[0]) and not self._trees.plain:
            found = self._trees.tried(lambda: self._nodes.settled(one[0], two[0]))
            if found is not None:
                return found
        begin = self._trees.leading_comments(begin, self._trees.carried)
        return [Edit(begin, self._moved.end_with_comments(one[0]), self._alternative(two, outer, inner, word))]

    # An `else` or a `finally` made anew, or an `elif`.
    def _alternative(self, new: tuple[Term, ...], outer: bytes, inner: bytes, word: bytes) -> bytes:
        if word == b"else" and len(new) == 1 and new[0].head == "If" and self._fresh.is_elif(new[0]):
            return b"el" + self._moved.rendered(new, outer)
        return word + b":" + self._trees.newline + inner + self._moved.rendered(new, inner)

    def parts(self, old: Term, new: Term, name: str) -> list[Edit]:
        """The handlers of a `try`, or the cases of a `match`."""
        one, two = field_of(old, name).children, field_of(new, name).children
        homes = {id(self._named(it)): at for at, it in enumerate(one)}
        pairs = aligned([homes.get(id(self._trees.origin(self._named(it)))) for it in two])
        edits: list[Edit] = []
        for goes, comes in gaps(pairs, len(one), len(two)):
            # the first ones come in the places of those that go
            stay = [(goes.stop, comes.stop)] if goes.stop < len(one) else []
            for at, other in [*zip(goes, comes), *stay]:
                if one[at] is not two[other]:
                    edits += self._nodes.settled(one[at], two[other])
            edits += [self._without_part(one[at]) for at in goes[len(comes) :]]
            if len(comes) > len(goes):
                edits.append(self._more_parts(old, name, one[: goes.stop], two[comes.start + len(goes) : comes.stop]))
        return edits

    # The node by which a handler or a case is known.
    def _named(self, part: Term) -> Term:
        return field_of(part, "pattern") if part.head == "match_case" else part

    # The edit without a handler or a case, and without the comments in it.
    def _without_part(self, part: Term) -> Edit:
        begin = self._trees.begin(part)
        last = field_of(part, "body").children[-1]
        end = self._trees.tail(self._trees.statement_end(last)[0], self._trees.indent(begin), False)
        return Edit(self._trees.line_start(begin), self._trees.line_end(end)[1], b"")

    # The edit that puts handlers or cases after these.
    def _more_parts(self, old: Term, name: str, before: tuple[Term, ...], comes: tuple[Term, ...]) -> Edit:
        if name == "cases" and not before:
            raise Cannot
        outer = self._trees.indent(self._trees.begin(before[0]) if before else span(old)[0])
        text = self._fresh_parts(str(old.head), comes, outer)
        last = _innermost_last([field_of(before[-1] if before else old, "body")])
        return self._statements.line_after(last, outer + text, outer)

    # Handlers or cases made anew: the end of a statement that is made anew.
    def _fresh_parts(self, head: str, parts: tuple[Term, ...], indent: bytes) -> bytes:
        if head == "Match":
            above = indent[: len(indent) - len(self._trees.tokens.unit)]
            whole = self._fresh.statement(Term("Match", (name_of("_"), Term(LIST, parts))), above)
            return whole.split(self._trees.newline, 1)[1][len(above + self._trees.tokens.unit) :]
        empty = Term(LIST)
        whole = self._fresh.statement(Term(head, (Term(LIST, (PASS,)), Term(LIST, parts), empty, empty)), indent)
        return whole.split(self._trees.newline, 2)[2][len(indent) :]

    def decorators(self, old: Term, new: Term) -> list[Edit]:
        """Decorators, each on a line of its own."""
        one, two = field_of(old, "decorator_list").children, field_of(new, "decorator_list").children
        indent = self._trees.indent(span(old)[0])
        homes = {id(it): at for at, it in enumerate(one)}
        pairs = aligned([homes.get(id(self._trees.origin(it))) for it in two])
        edits: list[Edit] = []
        for before, after in pairs:
            edits += self._nodes.child(new, one[before], two[after])
        for goes, comes in gaps(pairs, len(one), len(two)):
            for at, other in zip(goes, comes):
                around = self._commas.around((self._trees.at_sign(one[at]), span(old)[0]), one[at])
                edits.append(Edit(*around, self._fresh.text(two[other], indent).encode()))
            for at in goes[len(comes) :]:
                begin = self._trees.leading_comments(self._trees.at_sign(one[at]), self._trees.carried)
                edits.append(Edit(self._trees.line_start(begin), self._trees.statement_end(one[at])[1], b""))
            lines = [self._decorator(two[other], indent) for other in comes[len(goes) :]]
            if lines:
                place = span(old)[0]
                if goes.stop < len(one):
                    place = self._trees.at_sign(one[goes.stop])
                    place = self._trees.leading_comments(place) if goes.stop else place
                edits.append(Edit(place, place, b"".join(it + self._trees.newline + indent for it in lines)))
        return edits

    # The text of a decorator. One from elsewhere has the comments before it, but for the first, and that in its line.
    def _decorator(self, decorator: Term, indent: bytes) -> bytes:
        text = b"@" + self._fresh.text(decorator, indent).encode()
        origin = self._trees.origin(decorator)
        home = self._trees.homes.get(id(origin)) if origin is not None else None
        if origin is None or home is None or self._trees.plain or self._trees.tokens.text_at(self._trees.tokens.before(span(origin)[0])) != "@":
            return text
        sign, end = self._trees.at_sign(origin), span(origin)[1]
        begin = self._trees.leading_comments(sign) if home[1] else sign
        self._trees.carrying.extend((it.first, id(origin)) for it in self._trees.tokens.comments_between(begin, sign))
        comment = self._trees.comment_after(end)
        text = indented(self._trees.copied(begin, sign, []), self._trees.indent(sign), indent) + text
        return text if comment is None else text + self._trees.copied(end, comment.last, [])


# The last statement in some blocks, and in its own.
def _innermost_last(blocks: Iterable[Term]) -> Term:
    last = [it for it in blocks if it.children][-1].children[-1]
    return _innermost_last(it for _, it in blocks_of(last)) if last.head in BLOCKS else last
