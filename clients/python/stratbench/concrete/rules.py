"""Rules in a language's own syntax, as a command line or a file has them.

    rule   = before "->" after ["where" condition]      on one line: the first `->` with patterns on both sides is the rule's
    file   = entries, which blank lines separate; or, where a line `rule NAME` begins each, that go on to the next such line

In an entry of a file `->` may stand on a line of its own, and these words begin lines:

    rule NAME              what the rule is called; several of one name are tried in order
    where CONDITION        a strategy, in which `$x` is x
    needs import m         what a file gets that the rule changes
    test: a => b           what the rule does, which `--test` tries; `test:` and `=>` may stand on lines of their own
    stays: a               what it leaves alone
    # ..                   a comment
"""

from __future__ import annotations

import re
from collections.abc import Iterator
from typing import Final, NamedTuple, Optional

from .adapter import Adapter
from .text import Fault, Source, Span


class Test(NamedTuple):
    """What a rule makes of a text, or leaves: then there is no `after`."""

    before: Span
    after: Optional[Span]


class Rule(NamedTuple):
    """A rule as it was written: what it is called, its sides, its conditions, the imports that it needs, and its tests."""

    name: str
    left: Span
    right: Span
    where: tuple[Span, ...] = ()
    needs: tuple[Span, ...] = ()
    tests: tuple[Test, ...] = ()

    @property
    def source(self) -> Source:
        return self.left.source


_ARROW: Final = re.compile(r"\s*->(?!>)\s*")
_WHERE: Final = re.compile(r"\s+where\s+")


def rule_of(span: Span, adapter: Adapter, name: str = "Rule1") -> Rule:
    """Returns a rule on one line, or more. Its arrow is the first of which both sides are patterns, since a language may have arrows.
    Raises `Fault`."""
    text = span.text
    faults: list[Fault] = []
    for arrow in _ARROW.finditer(text):
        ends = [(it.start(), it.end()) for it in _WHERE.finditer(text, arrow.end())][::-1]
        for end, begin in [*ends, (len(text), len(text))]:
            found = Rule(name, _part(span, 0, arrow.start()), _part(span, arrow.end(), end), (_part(span, begin, len(text)),) if begin < len(text) else ())
            fault = _fault(found, adapter)
            if fault is None:
                return found
            faults.append(fault)
    if not faults:
        raise span.fault("a rule is `BEFORE -> AFTER`, and has no ` -> `", span.last)
    # the one that got the furthest
    raise max(faults, key=lambda it: it.place)


def _part(span: Span, first: int, last: int) -> Span:
    return Span(span.source, span.first + first, span.first + last)


def _fault(rule: Rule, adapter: Adapter) -> Optional[Fault]:
    for side in (rule.left, rule.right):
        try:
            adapter.parse(side)
        except Fault as fault:
            return fault
    return None


_NAMED: Final = re.compile(r"^rule\b[ \t]*(?P<name>[^\n]*)$", re.MULTILINE)
_NAME: Final = re.compile(r"[A-Za-z_](?:[A-Za-z0-9_]|-(?!>))*")
_PARAGRAPH: Final = re.compile(r"(?:^(?![ \t]*$)[^\n]*\n?)+", re.MULTILINE)
_COMMENT: Final = re.compile(r"^#(?:[ \t#][^\n]*)?$", re.MULTILINE)
# The words that begin a line of an entry, after its sides.
_WORDS: Final = re.compile(r"^(?:(?P<word>where|needs)\b|(?P<test>test|stays):)[ \t]*", re.MULTILINE)
_ALONE: Final = re.compile(r"^->[ \t]*$\n?", re.MULTILINE)


def read_rules(source: Source, adapter: Adapter) -> list[Rule]:
    """Returns the rules of a file. Raises `Fault`."""
    # blanks in the place of comments, so that the places stay those of the file
    source = source._replace(text=_COMMENT.sub(lambda it: " " * len(it[0]), source.text))
    found: list[Rule] = []
    for number, (name, first, last) in enumerate(_entries(source), 1):
        if source.text[first:last].strip():
            found.append(_entry(name or f"Rule{number}", Span(source, first, last), adapter))
    return found


# The names of the entries, and where each begins and ends.
def _entries(source: Source) -> Iterator[tuple[str, int, int]]:
    text = source.text
    named = list(_NAMED.finditer(text))
    if not named:
        for it in _PARAGRAPH.finditer(text):
            yield "", it.start(), it.end()
        return
    if text[: named[0].start()].strip():
        raise Fault("a line `rule NAME` begins each rule of a file in which one has a name", source, len(text) - len(text.lstrip()))
    for it, end in zip(named, [*(it.start() for it in named[1:]), len(text)]):
        name = it["name"].strip()
        if not _NAME.fullmatch(name):
            raise Fault("a rule's name is a name of strategies: letters, digits, `_` and `-`", source, it.start("name"))
        yield name, it.end(), end


def _entry(name: str, span: Span, adapter: Adapter) -> Rule:
    source, first, last = span
    words = list(_WORDS.finditer(source.text, first, last))
    begins = words[0].start() if words else last
    alone = _ALONE.search(source.text, first, begins)
    if alone:
        found = Rule(name, _lines(source, first, alone.start()), _lines(source, alone.end(), begins))
        fault = _fault(found, adapter)
        if fault is not None:
            raise fault
    else:
        found = rule_of(Span(source, first, begins).stripped(), adapter, name)
    for it, end in zip(words, [*(it.start() for it in words[1:]), last]):
        text = Span(source, it.end(), end)
        if it["word"] == "where":
            found = found._replace(where=(*found.where, text.stripped()))
        elif it["word"] == "needs":
            found = found._replace(needs=(*found.needs, text.stripped()))
        else:
            found = found._replace(tests=(*found.tests, _test(it["test"], text, adapter)))
    return found


# Lines without the blank ones at their beginning and end.
def _lines(source: Source, first: int, last: int) -> Span:
    while first < last and (line := source.text.find("\n", first, last)) >= 0 and not source.text[first:line].strip():
        first = line + 1
    return Span(source, first, first + len(source.text[first:last].rstrip()))


def _test(word: str, span: Span, adapter: Adapter) -> Test:
    if word == "stays":
        return Test(_lines(span.source, span.first, span.last), None)
    alone = re.compile(r"^=>[ \t]*$\n?", re.MULTILINE).search(span.source.text, span.first, span.last)
    if alone:
        return Test(_lines(span.source, span.first, alone.start()), _lines(span.source, alone.end(), span.last))
    arrows = list(re.compile(r"\s+=>(?:[ \t]+|$)", re.MULTILINE).finditer(span.source.text, span.first, span.last))
    for it in arrows:
        found = Test(Span(span.source, span.first, it.start()), Span(span.source, it.end(), span.last).stripped())
        # a language may have such arrows
        if it is arrows[-1] or all(_parses(one, adapter) for one in (found.before, found.after) if one is not None):
            return found
    raise span.fault("a test is `BEFORE => AFTER`, or begins with `stays:`")


def _parses(span: Span, adapter: Adapter) -> bool:
    try:
        adapter.parse(span)
    except Fault:
        return False
    return True
