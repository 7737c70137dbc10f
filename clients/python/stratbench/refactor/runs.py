"""Runs of the workbench on trees, with the modules and the strategy of a task."""

from __future__ import annotations

import re
import subprocess
import tempfile
from collections.abc import Iterable, Iterator, Sequence
from functools import cached_property
from itertools import repeat
from typing import Final, NamedTuple, Protocol

from .. import installed
from ..diagnostics import Diagnostic, others, parsed, told
from ..places import Command, Text
from ..terms import Shown, Term, deep, exchange, height, items, shown
from . import task as bounds
from .needs import Needs
from .previewed import replacement
from .task import MOST_LEVELS, MOST_STEPS, Task
from .traces import Traces

# The budget where none is given, a term of the file, and the least: a traversal with four rules takes some 20 steps a term.
STEPS_A_TERM: Final = 300
LEAST_STEPS: Final = 1_000_000

# Refusals of the strategy or the modules themselves, whatever the tree is.
_OF_TEXTS: Final = (2, 3, 8, 10, 11)
# A tree to which a strategy may be applied where only that is in question.
_EMPTY: Final = shown(items())


class Tree(Protocol):
    """A tree that is given to the workbench: its term, its text with its size, and a bound of its height."""

    @property
    def term(self) -> Term: ...

    @property
    def shown(self) -> Shown: ...

    @property
    def most_levels(self) -> int: ...


class Result:
    """What a strategy gave for a tree: terms that take the places at these paths, or why there are none. `new` is the new tree, which is
    made when it is asked for. `steps` is where the steps went, by definition, where that was asked for."""

    def __init__(self, tree: Tree, replaced: dict[tuple[int, ...], Term] | None, why: Explained | None = None) -> None:
        self.tree, self.replaced = tree, replaced
        self.left, self.of_texts, self.warnings = why or Explained("")
        self.steps: tuple[tuple[str, int], ...] = ()

    @property
    def places(self) -> tuple[tuple[int, ...], ...]:
        """The paths of what changes."""
        return tuple(self.replaced or ())

    @cached_property
    def new(self) -> Term | None:
        with deep():
            return None if self.replaced is None else exchange(self.tree.term, self.replaced)


class Explained(NamedTuple):
    """Why a tree has no result: whether the modules or the strategy may be wrong, whatever the tree is, and the modules' warnings."""

    left: str
    of_texts: bool = False
    warnings: tuple[str, ...] = ()


class Refused(Exception):
    """A preview of a tree that was refused. Why is asked for later."""

    def __init__(self, answer: str, tree: Shown) -> None:
        super().__init__(answer)
        self.number, self.tree = int(answer.split()[1]), tree


class NoProgram(OSError):
    """The program can't be run."""


class _Ended(Exception):
    """The program ended before it answered, as where a module is refused."""


def transformed(trees: Sequence[Tree], task: Task) -> list[Result]:
    """Returns what the strategy gives for trees. Python's limit of recursion has to be high enough for them."""
    found = {at: Result(it, None, Explained(why)) for at, it in enumerate(trees) if (why := _too_large(it))}
    given = [at for at in range(len(trees)) if at not in found]
    with tempfile.TemporaryDirectory(prefix="stratbench-") as room:
        bench = Bench(room, task)
        refused: dict[int, Refused] = {}
        try:
            for at, one in zip(given, bench.previews([trees[at] for at in given])):
                if isinstance(one, Refused):
                    refused[at] = one
                else:
                    found[at] = Result(trees[at], one)
        except _Ended as error:
            found.update((at, Result(trees[at], None, Explained(str(error), of_texts=True))) for at in given)
        found.update((at, Result(trees[at], None, why)) for at, why in _explained(bench, refused))
        for at, steps in zip(given, bench.steps):
            found[at].steps = steps
    return [found[at] for at in range(len(trees))]


# Why a tree can't be given, if it can't.
def _too_large(tree: Tree) -> str:
    terms = tree.shown.size
    levels = tree.most_levels if tree.most_levels <= MOST_LEVELS else height(tree.term)
    if levels > MOST_LEVELS:
        return f"too deep: {levels:,} levels, and a tree has at most {MOST_LEVELS:,}"
    return f"too large: {terms:,} terms, and a tree has at most {bounds.MOST_TERMS:,}" if terms > bounds.MOST_TERMS else ""


# Why previews were refused.
def _explained(bench: Bench, refused: dict[int, Refused]) -> Iterator[tuple[int, Explained]]:
    of_texts = {at: it for at, it in refused.items() if it.number in _OF_TEXTS}
    yield from ((at, Explained(str(it), of_texts=True)) for at, it in of_texts.items())
    others = {at: it for at, it in refused.items() if at not in of_texts}
    said, warnings = bench.explained(list(others.values()))
    yield from ((at, Explained(why, warnings=warnings)) for at, why in zip(others, said))


class Bench:
    """Runs of `stratbench` with the modules of a task. Its files are in the folder.

    Modules are loaded without explanations, since to explain them takes longer than to load them. What is refused is done once
    more, with explanations.
    """

    def __init__(self, room: str, task: Task) -> None:
        self.room, self.task = room, task
        self.program = installed.program(task.program)
        self.words = ["--library", f"--max-terms={bounds.MOST_TERMS}", f"--max-steps={MOST_STEPS}"]
        # where the steps of the last previews went
        self.steps: list[tuple[tuple[str, int], ...]] = []
        self.traces = Traces(task.traces, {file: name for file, (name, _) in zip(task.files, task.modules)})
        for at, (name, text) in enumerate(task.modules):
            file = f"{room}/{at}.str"
            with open(file, "wb") as it:
                it.write(text)
            self.words += ["--module", f"{name}={file}"]

    def run(self, script: str, trees: Sequence[Shown] = (), options: Sequence[str] = ()) -> Ran:
        """Runs a script with trees `t0`, `t1` and so on."""
        words = [self.program, *self.words, *options]
        for at, tree in enumerate(trees):
            file = f"{self.room}/{at}.aterm"
            with open(file, "w") as it:
                it.write(tree.text)
            words += ["--tree", f"t{at}={file}"]
        try:
            ran = subprocess.run(words, input=script.encode(errors="surrogateescape"), capture_output=True)
        except OSError as error:
            raise NoProgram(f"{self.program}: {error.strerror}") from None
        said = ran.stderr.decode(errors="replace")
        for at, name in enumerate(self.task.files):
            said = said.replace(f"{self.room}/{at}.str", name)
        return Ran(ran.returncode, ran.stdout.split(b"\n"), said)

    def previews(self, trees: Sequence[Term | Shown | Tree], strategies: Sequence[str] = ()) -> list[dict[tuple[int, ...], Term] | Refused]:
        """Previews the task's strategy on these trees; or one for each tree."""
        if not trees:
            return []
        texts = [it if isinstance(it, Shown) else shown(it) if isinstance(it, Term) else it.shown for it in trees]
        commands = self.commands(texts, strategies)
        ran = self.run(_script(commands), texts, ["--profile", "--explain=json"] if self.task.profile else [])
        if ran.status not in (0, 1) or len(ran.lines) <= len(texts):
            raise _Ended(re.sub(r"^stratbench: (/\S+: )?", "", self.told(ran.said)) or f"{self.program} ended with status {ran.status}")
        found: list[dict[tuple[int, ...], Term] | Refused] = []
        at = 0
        for tree, text in zip(trees, texts):
            answer = ran.lines[at].decode(errors="replace")
            at += 1
            if answer.startswith("refused "):
                found.append(Refused(answer, text))
                continue
            count = int(answer.split()[1])
            found.append(_replacements(ran.lines[at : at + count], tree, text))
            at += count
        if self.task.profile:
            said = {it.line: it.steps for it in parsed(ran.said) if it.severity == "profile"}
            self.steps = [tuple((name or "the command", steps) for name, steps in said.get(it.line, ())) for it in commands]
        return found

    def explained(self, refused: Sequence[Refused]) -> tuple[list[str], tuple[str, ...]]:
        """Returns the refusals with why, and the warnings of the modules."""
        if not refused:
            return [], ()
        trees = [it.tree for it in refused]
        commands = self.commands(trees)
        ran = self.run(_script(commands), trees, ["--explain=json"])
        said = _refusals(ran.said)
        return [self.why(it, said.get(it.line), str(one)) for it, one in zip(commands, refused)], self.warnings(ran.said)

    def told(self, said: str) -> str:
        """Returns what was said, with what is data as text."""
        return "\n".join([*filter(None, [others(said).strip()]), *map(self._told, parsed(said))])

    def warnings(self, said: str) -> tuple[str, ...]:
        """Returns the warnings in what was said."""
        return tuple(self._told(it) for it in parsed(said) if it.severity == "warning")

    def why(self, command: Command, said: Diagnostic | None, answer: str) -> str:
        """Returns a refusal, and why."""
        if said is None:
            return answer
        traced = self.traces.told(said, command)
        if traced is not None:
            return traced
        # the command is ours: its word and its name say nothing to whoever gave the strategy
        why = command.explained(said, subject=False, others=self.traces.line)[0]
        return f"{answer}: {why}" if said.message.text else answer + why

    # A diagnostic as the program says it in text, or of the text that what it speaks of was made of.
    def _told(self, it: Diagnostic) -> str:
        return self.traces.told(it) or f"stratbench: {told(it)}"

    def commands(self, trees: Sequence[Shown], strategies: Sequence[str] = ()) -> list[Command]:
        """The previews of the task's strategy, or of these, on these trees."""
        found: list[Command] = []
        line = 1
        for at, (tree, strategy) in enumerate(zip(trees, strategies or repeat(self.task.strategy))):
            found.append(Command(f"preview t{at} within {budget(self.task, tree.size)} do ", Text(strategy), line, 0))
            line += found[-1].sent.count("\n") + 1
        return found


def budget(task: Task, size: int) -> int:
    """Returns the most steps that a run on a tree of this size may take."""
    return task.within if task.within is not None else max(LEAST_STEPS, STEPS_A_TERM * size)


def _script(commands: Iterable[Command]) -> str:
    return "".join(f"{it.sent}\n" for it in commands)


class Ran(NamedTuple):
    """A run of the program: its status, the lines of its answers, and what it said."""

    status: int
    lines: list[bytes]
    said: str


# What comes at which places of a tree.
def _replacements(lines: Sequence[bytes], tree: Term | Shown | Tree, text: Shown) -> dict[tuple[int, ...], Term]:
    if isinstance(tree, (Term, Shown)):
        return dict(map(replacement, lines))
    whole: Tree = tree
    return dict(replacement(it, len(text.text), lambda: whole.term) for it in lines)


# What was said of refused commands, by the lines of the script.
def _refusals(said: str) -> dict[int, Diagnostic]:
    return {it.line: it for it in parsed(said) if it.line is not None and it.severity == "refusal"}


def prepared(task: Task) -> Task | None:
    """Returns the task with what its strategy needs, or nothing where the modules or the strategy are wrong: `check_texts` says why."""
    with tempfile.TemporaryDirectory(prefix="stratbench-") as room:
        bench = Bench(room, task)
        [command] = bench.commands([_EMPTY])
        ran = bench.run(f"{command.sent}\ntext library\n", [_EMPTY])
    answer, *rest = [it.decode(errors="surrogateescape") for it in ran.lines]
    if ran.status not in (0, 1) or not rest or answer.startswith("refused ") and int(answer.split()[1]) in _OF_TEXTS:
        return None
    library = rest[0 if answer.startswith("refused ") else int(answer.split()[1]) :]
    texts = [text.decode(errors="surrogateescape") for _, text in task.modules]
    return task._replace(needs=Needs(["\n".join(library), *texts], task.strategy))


def check_texts(task: Task) -> tuple[str, tuple[str, ...]]:
    """Returns what is wrong with the modules, or with the strategy whatever its tree is; nothing where nothing is. And their warnings."""
    with tempfile.TemporaryDirectory(prefix="stratbench-") as room:
        bench = Bench(room, task)
        [command] = bench.commands([_EMPTY])
        ran = bench.run(_script([command]), [_EMPTY], ["--explain=json"])
        warnings = bench.warnings(ran.said)
    if len(ran.lines) < 2:
        return bench.told(ran.said) or f"{bench.program} ended with status {ran.status}", ()
    answer = ran.lines[0].decode(errors="replace")
    if not answer.startswith("refused ") or int(answer.split()[1]) not in _OF_TEXTS:
        return "", warnings
    said = _refusals(ran.said).get(command.line)
    why = bench.why(command, said, answer)
    # what was made of a text has its name
    return why if said is not None and bench.traces.told(said, command) else f"--do: {why}", warnings
