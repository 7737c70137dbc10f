"""Blocks in which statements come, go, move and change."""

from __future__ import annotations

from bisect import bisect_left, bisect_right
from collections.abc import Sequence
from typing import NamedTuple

from ....terms import LIST, Term
from .edits import BLOCKS, IMPORTS, STATEMENTS, Cannot, Edit, aligned, field_of, gaps, span
from .fresh import Fresh
from .moved import Moved
from .nodes import Nodes
from .trees import Trees


class Stretch(NamedTuple):
    """Of a block a statement that stays, or what goes and comes between those that stay."""

    goes: range
    comes: range
    stays: bool


# The stretches of a block of so many statements, before and after, of which these stay.
def _stretches(old: int, new: int, pairs: list[tuple[int, int]]) -> list[Stretch]:
    found: list[Stretch] = []
    for goes, comes in gaps(pairs, old, new):
        if goes or comes:
            found.append(Stretch(goes, comes, False))
        found.append(Stretch(range(goes.stop, goes.stop + 1), range(comes.stop, comes.stop + 1), True))
    return found[:-1]


class Statements:
    """The edits of blocks."""

    def __init__(self, trees: Trees, fresh: Fresh, nodes: Nodes, moved: Moved) -> None:
        self._trees, self._fresh, self._nodes, self._moved = trees, fresh, nodes, moved

    def statement(self, old: Term, new: Term, indent: bytes) -> list[Edit]:
        """The edits within a statement, or those that make it anew."""
        if old is new:
            return []
        if old.head == new.head and not self._trees.plain:
            found = self._trees.tried(lambda: self._nodes.settled(old, new))
            if found is not None:
                return found
        return [Edit(self._trees.begin(old), self._moved.end_with_comments(old), self._fresh.statement(new, indent))]

    def block(self, owner_old: Term, owner_new: Term, name: str, indent: bytes) -> list[Edit]:
        """The edits for a list of statements that isn't empty before and after, but for that of a module."""
        old, new = field_of(owner_old, name).children, field_of(owner_new, name).children
        if old and self._trees.leads(old[0]):
            indent = self._trees.indent(self._trees.begin(old[0]))
        # at one place, what comes first stands first: what is before all statements, what is in one, what is after it
        front: list[Edit] = []
        changed: list[Edit] = []
        between: list[Edit] = []
        pairs = self._pairs(old, new)
        self._trees.staying.update(id(old[at]) for at, _ in pairs)
        for line in self._lines(old, _stretches(len(old), len(new), pairs)):
            first, last = line[0].goes.start, line[-1].goes.stop
            if self._is_broken(old, new, line):
                self._trees.staying.difference_update(id(it) for it in old[first:last])
                changed += self._replaced(old, first, last, new[line[0].comes.start : line[-1].comes.stop], indent)
                continue
            for it in line:
                if it.stays:
                    changed += self.statement(old[it.goes.start], new[it.comes.start], indent)
                else:
                    edits = self._gap(old, it.goes.start, it.goes.stop, new[it.comes.start : it.comes.stop], indent)
                    (between if it.goes.start else front).extend(edits)
        return front + changed + between

    # The stretches of a block by lines of the source.
    def _lines(self, old: tuple[Term, ...], stretches: list[Stretch]) -> list[list[Stretch]]:
        in_head = bool(old) and not self._trees.leads(old[0])
        lines: list[list[Stretch]] = []
        for it in stretches:
            at = it.goes.start
            if lines and (in_head or (at < len(old) and not self._trees.leads(old[at]))):
                lines[-1].append(it)
            else:
                lines.append([it])
        return lines

    # Whether a line is broken up, since a statement with a block comes into it beside others, or after the head of its block.
    def _is_broken(self, old: tuple[Term, ...], new: tuple[Term, ...], line: list[Stretch]) -> bool:
        goes = old[line[0].goes.start : line[-1].goes.stop]
        if not goes or not any(new[at].head in BLOCKS for it in line if not it.stays for at in it.comes):
            return False
        return len(line) > 1 or not self._trees.leads(goes[0]) or any(self._trees.is_followed(it) for it in goes)

    # The old and the new places of the statements that are the same ones, in order.
    def _pairs(self, old: tuple[Term, ...], new: tuple[Term, ...]) -> list[tuple[int, int]]:
        homes = {id(it): at for at, it in enumerate(old)}
        found: list[tuple[int, int]] = []
        for goes, comes in gaps(aligned([homes.get(id(self._trees.was(it))) for it in new]), len(old), len(new)):
            found += [*self._replacements(old, goes, new, comes), (goes.stop, comes.stop)]
        return found[:-1]

    # Of the others one made anew of nothing old, or of parts of it, is the one of the same constructor that is gone.
    def _replacements(self, old: tuple[Term, ...], goes: range, new: tuple[Term, ...], comes: range) -> list[tuple[int, int]]:
        found: list[tuple[int, int]] = []
        left: dict[object, list[int]] = {}
        for at in goes if comes and not self._trees.plain else ():
            if not self._trees.former.is_taken(old[at]):
                left.setdefault(old[at].head, []).append(at)
        begins = [self._trees.begin(old[at]) for at in goes] if left else []
        first = goes.start
        for other in comes if left else ():
            alike = left.get(new[other].head, [])
            if not alike or self._trees.was(new[other]) is not None:
                continue
            part = self._trees.origins.first_in(new[other])
            owner = first if part is None else self._owner(old, goes, begins, part)
            place = bisect_left(alike, first if owner is None else max(owner, first))
            if owner is not None and place < len(alike) and (part is None or alike[place] == owner):
                found.append((alike[place], other))
                first = alike[place] + 1
        return found

    # The edits where the statements from one place to another go, and others come. What has parts of an old one takes its
    # place.
    def _gap(self, old: tuple[Term, ...], first: int, last: int, comes: tuple[Term, ...], indent: bytes) -> list[Edit]:
        if first == last or not comes:
            return self._replaced(old, first, last, comes, indent)
        units: list[tuple[int | None, list[Term]]] = []
        begins = [self._trees.begin(it) for it in old[first:last]]
        for it in comes:
            part = self._trees.origins.first_in(it)
            owner = None if part is None else self._owner(old, range(first, last), begins, part)
            if units and owner is not None and units[-1][0] == owner:
                units[-1][1].append(it)
            else:
                units.append((owner, [it]))
        edits: list[Edit] = []
        pairs = [(at, self._held(old, at, last, units[unit][1]), unit) for at, unit in aligned([owner for owner, _ in units])]
        for (_, old_from, new_from), (old_to, _, new_to) in zip([(first, first, -1), *pairs], [*pairs, (last, last, len(units))]):
            between = [it for _, terms in units[new_from + 1 : new_to] for it in terms]
            if old_to - old_from == len(between):
                for at, it in enumerate(between, old_from):
                    edits += self._replaced(old, at, at + 1, (it,), indent)
            else:
                edits += self._replaced(old, old_from, old_to, tuple(between), indent)
        for at, end, unit in pairs:
            edits += self._replaced(old, at, end, tuple(units[unit][1]), indent)
        return edits

    # Where the statements from one on end that are all in these new ones.
    def _held(self, old: tuple[Term, ...], first: int, last: int, new: list[Term]) -> int:
        held = self.all_in(new)
        end = first + 1
        while end < last and id(old[end]) in held:
            end += 1
        return end

    def all_in(self, new: Sequence[Term]) -> set[int]:
        """The old statements, by their ids, that are in these new ones and in their blocks."""
        found: set[int] = set()
        waiting = list(new)
        while waiting:
            it = waiting.pop()
            if it.head in STATEMENTS:
                found.add(id(self._trees.was(it)))
            if it.head in BLOCKS:
                waiting += [inner for child in it.children if child.head == LIST for inner in child.children]
        return found

    # The one of some old statements, which begin at these places, that an old node is in.
    def _owner(self, old: tuple[Term, ...], places: range, begins: list[int], part: Term) -> int | None:
        place = span(part)[0]
        at = bisect_right(begins, place) - 1
        return places[at] if at >= 0 and place < span(old[places[at]])[1] else None

    # The edits where some statements, or none, are in the place of others.
    def _replaced(self, old: tuple[Term, ...], first: int, last: int, comes: tuple[Term, ...], indent: bytes) -> list[Edit]:
        if first == last and not comes:
            return []
        simple = all(it.head not in BLOCKS for it in comes)
        if first == last:
            return self._inserted(old, first, comes, indent, simple)
        begin, end = self._trees.begin(old[first]), span(old[last - 1])[1]
        if not comes:
            return self._deleted(old, first, last)
        if not simple and not self._trees.leads(old[0]):
            # a block in the line of its head
            begin = self._trees.tokens.last_before(self._trees.begin(old[0])).last
            return [Edit(begin, self._moved.end_with_comments(old[last - 1]), self._trees.newline + indent + self._moved.rendered(comes, indent))]
        if not self._trees.leads(old[first]) or self._trees.is_followed(old[last - 1]):
            if not simple:
                raise Cannot
            text = b"; ".join(self._moved.rendered((it,), indent) for it in comes)
            return [Edit(begin, end, text)]
        for stop in range(first + 1, last):
            if self._trees.leads(old[stop]) and not self._all_goes(self._trees.statement_end(old[stop - 1])[1], self._trees.begin(old[stop])):
                # line by line, so that the comments between stay
                return self._replaced(old, first, stop, comes, indent) + self._deleted(old, stop, last)
        begin = self._moved.begin_with_comments(old[first])
        end = self._moved.end_with_comments(old[last - 1])
        text = self._moved.rendered(comes, indent)
        if comes[-1].head in BLOCKS and self._trees.tokens.text_at(self._trees.tokens.after(end)) == ";":
            end = self._trees.tokens.first_after(end).last
        line = self._trees.line_start(begin)
        above = self._moved.room(comes[0], indent) - self._trees.blanks_before(line)[0] if first else 0
        if above > 0:
            begin, text = line, self._trees.newline * above + indent + text
        below = self._moved.room(comes[-1], indent) - len(self._trees.blanks_after(self._trees.line_end(end)[1])) if last < len(old) else 0
        return [Edit(begin, end, text + self._trees.newline * below)]

    # The edits without these statements, line by line.
    def _deleted(self, old: tuple[Term, ...], first: int, last: int) -> list[Edit]:
        edits: list[Edit] = []
        lines: list[tuple[int, int]] = []
        while first < last:
            stop = first + 1
            while stop < last and not self._trees.leads(old[stop]):
                stop += 1
            begin, end = self._trees.begin(old[first]), span(old[stop - 1])[1]
            if self._trees.is_followed(old[stop - 1]):
                edits.append(Edit(begin, self._trees.begin(old[stop]), b""))
            elif self._trees.leads(old[first]):
                begin = self._trees.line_start(self._moved.begin_with_comments(old[first]))
                end = max(self._trees.statement_end(old[stop - 1])[1], self._trees.line_end(self._moved.end_with_comments(old[stop - 1]))[1])
                if lines and self._all_goes(lines[-1][1], begin):
                    begin, _ = lines.pop()
                lines.append((begin, end))
            elif first == 0:
                raise Cannot
            else:
                edits.append(Edit(span(old[first - 1])[1], self._moved.end_with_comments(old[stop - 1]), b""))
            first = stop
        is_last = last == len(old)
        return edits + [self._lines_away(*it, is_last and it is lines[-1]) for it in lines]

    # Whether all comments from one place between statements to another go elsewhere.
    def _all_goes(self, first: int, last: int) -> bool:
        return all(it.first in self._trees.carried for it in self._trees.tokens.comments_between(first, last))

    # The edit without some lines. Of the blank lines around them the more stay; those after a block aren't its own.
    def _lines_away(self, begin: int, end: int, is_last: bool) -> Edit:
        before, where = self._trees.blanks_before(begin)
        after = self._trees.blanks_after(end)
        if is_last:
            begin = where
        elif after and (before or begin == 0):
            end = after[min(before, len(after)) - 1 if begin else -1]
        return Edit(begin, end, b"")

    def line_after(self, statement: Term, lines: bytes, indent: bytes) -> Edit:
        """The edit that puts lines after that of a statement, and after the comments there that are deeper than an indentation."""
        end, after = self._trees.line_end(self._trees.tail(self._trees.statement_end(statement)[0], indent, False))
        return Edit(after, after, lines + self._trees.newline) if after > end else Edit(end, end, self._trees.newline + lines)

    def _inserted(self, old: tuple[Term, ...], at: int, comes: tuple[Term, ...], indent: bytes, simple: bool) -> list[Edit]:
        if at > 0:
            before = old[at - 1]
            if self._trees.is_followed(before) or (not self._trees.leads(before) and not self._trees.leads(old[0])):
                if not simple:
                    raise Cannot
                place = span(before)[1]
                return [Edit(place, place, b"".join(b"; " + self._moved.rendered((it,), indent) for it in comes))]
            return [self._lines_between(old, at, comes, indent)]
        if old:
            place = self._trees.begin(old[0])
            if self._trees.leads(old[0]):
                place = self._trees.leading_comments(place)
                room = max(self._moved.room(comes[-1], indent), self._moved.room(old[0], indent))
                if comes[-1].head in IMPORTS and old[0].head not in IMPORTS and not indent:
                    room = max(room, 1)
                text = self._moved.rendered(comes, indent) + self._trees.newline * (1 + room)
                return [Edit(place, place, text + indent)]
            if not simple:
                raise Cannot
            return [Edit(place, place, b"".join(self._moved.rendered((it,), indent) + b"; " for it in comes))]
        text = self._moved.rendered(comes, indent) + self._trees.newline
        if self._trees.text and not self._trees.text.endswith((b"\n", b"\r")):
            text = self._trees.newline + text
        return [Edit(len(self._trees.text), len(self._trees.text), text)]

    # The edit that puts statements on lines after those of another: an import next to imports, definitions with room around.
    def _lines_between(self, old: tuple[Term, ...], at: int, comes: tuple[Term, ...], indent: bytes) -> Edit:
        before, text = old[at - 1], self._moved.rendered(comes, indent)
        edit = self.line_after(before, indent + text, indent)
        there = len(self._trees.blanks_after(edit.first))
        if comes[0].head in IMPORTS and before.head not in IMPORTS and at < len(old):
            if old[at].head in IMPORTS and self._trees.leads(old[at]):
                place = self._trees.leading_comments(self._trees.begin(old[at]))
                return Edit(place, place, text + self._trees.newline + indent)
            room = there
        else:
            room = max(self._moved.room(before, indent), self._moved.room(comes[0], indent))
        below = max(0, self._moved.room(comes[-1], indent) - there) if at < len(old) else 0
        return edit._replace(text=self._trees.newline * room + edit.text + self._trees.newline * below)
