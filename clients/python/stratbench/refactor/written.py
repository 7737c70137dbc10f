"""Tasks whose rules and strategies are written in a language's own syntax: with the modules that are made of them."""

from __future__ import annotations

import os
from collections.abc import Iterable, Sequence
from typing import NamedTuple, Optional

from .. import languages
from ..concrete.adapter import Adapter, adapter_of
from ..concrete.compiling import DRIVER, MODULE, Module, compiled
from ..concrete.quotations import has_quotations, in_module, in_strategy
from ..concrete.rules import Rule, read_rules, rule_of
from ..concrete.text import Made, Source, Span
from ..languages.by_grammar import resource
from .task import Task


class Written(NamedTuple):
    """Rules as they are given: those of the command line, a condition of each of these, and files of rules."""

    rules: tuple[Source, ...] = ()
    where: Optional[Source] = None
    files: tuple[Source, ...] = ()

    def __bool__(self) -> bool:
        return bool(self.rules or self.files)


def is_for(name: str, language: str) -> bool:
    """Whether a module or a file of rules is for a language: one whose name begins with another language's isn't."""
    first = own_language(name)
    return first is None or first == language


def own_language(name: str) -> Optional[str]:
    """Returns the language whose name a name begins with, if it is one."""
    first = os.path.basename(name).partition(".")[0].partition("-")[0]
    return first if first in languages.NAMES else None


def rules_of(written: Written, language: str) -> list[Rule]:
    """Returns the rules for a language. Raises `Fault`, and `ValueError` where the language has no such rules."""
    files = [it for it in written.files if is_for(it.name, language)]
    if not written.rules and not files:
        return []
    adapter = _adapter(language)
    found: list[Rule] = []
    for number, it in enumerate(written.rules, 1):
        rule = rule_of(Span(it, 0, len(it.text)), adapter, f"Rule{number}")
        if written.where is not None:
            rule = rule._replace(where=(*rule.where, Span(written.where, 0, len(written.where.text))))
        found.append(rule)
    for it in files:
        found += read_rules(it, adapter)
    return found


def _adapter(language: str) -> Adapter:
    found = adapter_of(language)
    if found is None:
        raise ValueError(f"{languages.named(language).title} has no rules in its own syntax")
    return found


def made_of(rules: Sequence[Rule], language: str, taken: Iterable[str] = ()) -> list[Module]:
    """Returns the modules of rules. Raises `Fault`."""
    name, taken = MODULE, set(taken)
    while name in taken:
        name += "-"
    return compiled(rules, _adapter(language), name) if rules else []


def with_written(task: Task, written: Written) -> Task:
    """Returns the task with modules of its language for what is written in its syntax. Raises `Fault`."""
    rules = rules_of(written, task.language)
    quoted = [name for name, text in task.modules if has_quotations(_decoded(text))]
    if not rules and not quoted and not has_quotations(task.strategy):
        return task
    adapter = _adapter(task.language)
    traces: dict[str, Made] = {}
    modules: dict[str, tuple[bytes, str]] = {}
    for (name, text), file in zip(task.modules, task.files):
        modules[name] = (text, file)
        if name in quoted:
            traces[name] = in_module(Source(file, _decoded(text)), adapter)
            modules[name] = (str(traces[name]).encode(errors="surrogateescape"), file)
    for it in made_of(rules, task.language, modules):
        traces[it.name] = it.text
        modules[it.name] = (str(it.text).encode(errors="surrogateescape"), f"<{it.name}>")
    for name, made in needed(task.language, adapter).items():
        modules.setdefault(name, (made.encode(), f"<{name}>"))
    strategy = task.strategy or DRIVER
    if has_quotations(strategy):
        source = Source("--do", strategy)
        traces[""] = in_strategy(Span(source, 0, len(strategy)), adapter).made
        strategy = str(traces[""])
    texts = tuple((name, text) for name, (text, _) in modules.items())
    return task._replace(modules=texts, files=tuple(file for _, file in modules.values()), strategy=strategy, traces=tuple(traces.items()))


def needed(language: str, adapter: Adapter) -> dict[str, str]:
    """Returns the modules that what is made needs: the constructors, and what it calls."""
    return {
        language: languages.named(language).signature(),
        "concrete": resource("stratbench.concrete", "concrete.str"),
        f"{language}-concrete": adapter.helpers,
    }


def _decoded(text: bytes) -> str:
    return text.decode(errors="surrogateescape")
