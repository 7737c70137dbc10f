"""The tests of rules: what a rule makes of a text, or leaves as it is."""

from __future__ import annotations

import tempfile
from collections.abc import Sequence
from typing import NamedTuple, Union

from .. import languages
from ..concrete.adapter import Adapter, adapter_of
from ..concrete.compiling import applied, compile_rule
from ..concrete.rules import Rule, Test
from ..concrete.text import Span
from ..languages.language import Fault, Language, Source
from ..terms import Term, deep, exchange
from .rewriting import rewritten
from .runs import Bench, Refused
from .task import Task


class Trial(NamedTuple):
    """A test of a rule, and what is wrong with it, if anything is."""

    rule: Rule
    test: Test
    fault: str = ""


def tried(rules: Sequence[Rule], task: Task) -> list[Trial]:
    """Tries the tests of rules by a task that has their modules. All rules of a name are tried in order. Raises `ValueError` where the
    modules are wrong."""
    language = languages.named(task.language)
    adapter = adapter_of(task.language)
    assert adapter is not None
    trials = [Trial(rule, test) for rule in rules for test in rule.tests]
    with deep(), tempfile.TemporaryDirectory(prefix="stratbench-") as room:
        bench = Bench(room, task)
        befores = _sources(language, [it.test.before for it in trials])
        afters = _sources(language, [it.test.after or it.test.before for it in trials])
        given = [at for at, (one, two) in enumerate(zip(befores, afters)) if not isinstance(one, Fault) and not isinstance(two, Fault)]
        strategies = [f"bottomup(try({_applied(trials[at].rule, adapter)}))" for at in given]
        sources = [it for at in given if not isinstance(it := befores[at], Fault)]
        previews = dict(zip(given, bench.previews([it.shown for it in sources], strategies)))
        return [it._replace(fault=_fault(it, befores[at], afters[at], previews.get(at))) for at, it in enumerate(trials)]


# The texts as sources of the language, without the indentation of a file of rules.
def _sources(language: Language, spans: Sequence[Span]) -> Sequence[Union[Source, Fault]]:
    return language.sources([(f"test{language.suffixes[0]}", (it.text + "\n").encode()) for it in spans])


def _applied(rule: Rule, adapter: Adapter) -> str:
    return applied(rule.name, compile_rule(rule, adapter).of_list)


def _fault(
    trial: Trial, before: Union[Source, Fault], after: Union[Source, Fault], found: Union[dict[tuple[int, ...], Term], Refused, None]
) -> str:
    test = trial.test
    for it, span in ((before, test.before), (after, test.after or test.before)):
        if isinstance(it, Fault):
            return span.source.wrong(f"the test of `{trial.rule.name}` isn't read: {it.message}", span.first)
    if isinstance(found, Refused):
        return test.before.source.wrong(f"the test of `{trial.rule.name}` is refused: {found}", test.before.first)
    assert found is not None and not isinstance(before, Fault) and not isinstance(after, Fault)
    new = exchange(before.term, found)
    if _bare(new) == _bare(after.term):
        return ""
    text = rewritten(before, new).text.decode().strip()
    says = "it stays as it is" if not found else f"`{trial.rule.name}` makes this of it:"
    lines = [] if not found else [f"    {line}" for line in text.split("\n")]
    return "\n".join([test.before.source.wrong(f"a test of `{trial.rule.name}` failed: {says}", test.before.first), *lines])


# A term without annotations.
def _bare(term: Term) -> Term:
    return Term(term.head, tuple(map(_bare, term.children)))


