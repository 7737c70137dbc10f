"""The command line: what was asked for is done, and said."""

from __future__ import annotations

import argparse
import contextlib
import os
import signal
import sys
from collections.abc import Iterator, Sequence
from types import FrameType
from typing import Any

from .. import installed, languages, versions
from ..cluster import Lost, Unreachable
from ..concrete.text import Fault, Source
from ..languages.language import Missing
from ..settings import settings_of
from . import files, positions, trials
from .batches import outcomes
from .report import Left, Progress, Tally, counted, said
from .runs import NoProgram, check_texts, prepared
from .task import MOST_STEPS, Task
from .writing import STOPPING, Stopped, WriteFault, recover, write_all
from .written import Written, is_for, made_of, own_language, rules_of, with_written

# Files with their contents.
_Work = list[tuple[str, bytes]]


def main(words: Sequence[str] | None = None) -> int:
    """Runs the command, and returns its status."""
    given = _arguments(words)
    try:
        with _stopping():
            return _done(given)
    except Stopped as error:
        print(f"nothing was written: {error}", file=sys.stderr)
        # whoever started this sees what ended it
        signal.signal(error.number, signal.SIG_DFL)
        os.kill(os.getpid(), error.number)
        return 128 + error.number


# Has a signal raise `Stopped`, so that what was begun is taken away.
@contextlib.contextmanager
def _stopping() -> Iterator[None]:
    def stop(number: int, frame: FrameType | None) -> None:
        # what is taken away then isn't stopped
        for it in before:
            signal.signal(it, signal.SIG_IGN)
        raise Stopped(number)

    before: dict[signal.Signals, Any] = {}
    with contextlib.suppress(ValueError):
        for it in STOPPING:
            # one that is ignored, as by nohup, still is
            if signal.getsignal(it) is not signal.SIG_IGN:
                before[it] = signal.signal(it, stop)
    try:
        yield
    finally:
        for number, handler in before.items():
            signal.signal(number, handler)


def _arguments(words: Sequence[str] | None) -> argparse.Namespace:
    parser = argparse.ArgumentParser(
        prog=installed.command("stratbench.refactor", "stratbench-refactor"),
        description="Refactors files of Python, JavaScript, TypeScript, Java, JSON and YAML by a strategy, with small patches.",
        epilog="Status: 0; 1 with --check where something would change; 2 for a wrong command line, module or strategy; "
        "3 where a file or a place was left, or files couldn't be written.",
    )
    parser.add_argument("--module", action="append", default=[], metavar="NAME=FILE", help="load a module of strategies; where none is named, those of stratbench.json are loaded")
    parser.add_argument("--modules", action="append", default=[], metavar="FOLDER", help="load the modules of a folder, as strategies")
    parser.add_argument("--language", choices=languages.NAMES, help="the language of files whose suffix says none; of folders its files alone")
    parser.add_argument("--do", metavar="STRATEGY", help="the strategy that is applied to each file's tree, else all rules everywhere")
    parser.add_argument("--rule", action="append", default=[], metavar="RULE", help="a rule in the language's own syntax: 'BEFORE -> AFTER'")
    parser.add_argument("--where", metavar="STRATEGY", help="a condition of each --rule")
    parser.add_argument("--rules", action="append", default=[], metavar="FILE", help="a file of such rules")
    parser.add_argument("--within", type=int, metavar="K", help="the most steps that it may take, else 300 a term, and 1,000,000 at least")
    parser.add_argument("--keep-comments", action="store_true", help="leave places as they are where a comment would be lost")
    where = parser.add_mutually_exclusive_group()
    where.add_argument("--jobs", type=int, default=1, metavar="N", help="do the files in N processes side by side")
    where.add_argument("--cluster", metavar="ADDRESS", help="do the files on the workers of the Dask cluster with this scheduler")
    parser.add_argument("--program", metavar="FILE", help="stratbench, where it isn't in PATH or STRATBENCH")
    parser.add_argument("--report", metavar="FILE", help="write what was done to a file, as JSON")
    parser.add_argument("--profile", action="store_true", help="say where the steps and the time went")
    how = parser.add_mutually_exclusive_group()
    how.add_argument("--write", action="store_true", help="change the files, all or none")
    how.add_argument("--check", action="store_true", help="end with status 1 where something would change")
    how.add_argument("--test", action="store_true", help="try the tests in the files of rules, and do nothing else")
    how.add_argument("--show-module", action="store_true", help="print the modules that are made of rules, and do nothing else")
    how.add_argument("--recover", action="store_true", help="put back what a run left that was killed while it wrote, and do nothing else")
    parser.add_argument("--version", action="store_true", help="say the version, and do nothing else")
    parser.add_argument("files", nargs="*", metavar="FILES", help="files, folders, or - for standard input")
    found = parser.parse_args(words)
    if found.version:
        print(installed.version("stratbench-refactor"))
        sys.exit()
    ruled = found.rule or found.rules
    if (found.test or found.show_module) and not ruled:
        parser.error("--rule or --rules is missing")
    if not found.recover and not found.test and not found.show_module and (found.do is None and not ruled or not found.files):
        parser.error(f"{'FILES' if found.do is not None or ruled else '--do, --rule or --rules'} is missing")
    if found.jobs < 1 or found.within is not None and not 1 <= found.within <= MOST_STEPS:
        parser.error(f"--jobs is at least 1, and --within from 1 to {MOST_STEPS}")
    return found


def _done(given: argparse.Namespace) -> int:
    left = _recovered()
    if given.recover:
        return 3 if left else 0
    try:
        given.settings = settings_of(os.getcwd())
        task, written = _task(given), _written_rules(given)
        if given.show_module:
            return _show_modules(given, written)
    except ValueError as error:
        print(error, file=sys.stderr)
        return 2
    try:
        _check_version(given)
        return _tried(given, task, written) if given.test else _refactored(given, task, written)
    except (Unreachable, NoProgram, Missing) as error:
        print(error, file=sys.stderr)
        return 2
    except Lost as error:
        print(f"not all files were done, and nothing was written: {error}", file=sys.stderr)
        return 3


# Sees that the program is one that the client speaks to. Of a cluster only the workers may have it.
def _check_version(given: argparse.Namespace) -> None:
    if given.cluster is None:
        program = installed.program(given.program)
        try:
            versions.check_program(program)
        except OSError as error:
            raise NoProgram(f"{program}: {error.strerror}") from None


# Puts back what a run left that was killed, and says so. Returns whether something couldn't be put back.
def _recovered() -> bool:
    found = recover()
    for names, what in ((found.back, "put back"), (found.finished, "as that run wrote them")):
        if names:
            print(f"a run was killed while it wrote: {counted(len(names), 'file')} {what}: {', '.join(names)}", file=sys.stderr)
    for it in found.left:
        print(f"a run was killed while it wrote: {it}", file=sys.stderr)
    return bool(found.left)


# The modules of a folder, as words NAME=FILE.
def _folder(folder: str) -> list[str]:
    return [f"{_stem(it)}={folder}/{it}" for it in sorted(os.listdir(folder)) if it.endswith(".str")]


def _stem(file: str) -> str:
    return os.path.basename(file)[: -len(".str")]


def _task(given: argparse.Namespace) -> Task:
    modules, names = [], []
    words: list[str] = []
    for folder in given.modules:
        try:
            words += _folder(installed.found(folder))
        except OSError as error:
            raise ValueError(f"--modules {folder}: {error.strerror}") from None
    words += given.module
    if not words and given.settings.is_there:
        words = [f"{_stem(it)}={it}" for it in given.settings.files(os.getcwd())]
        for name, text in given.settings.declared():
            if not any(it.startswith(f"{name}=") for it in words):
                modules.append((name, text.encode()))
                names.append(f"{name}.str")
    for word in words:
        name, equals, file = word.partition("=")
        if not equals:
            raise ValueError(f"--module: no NAME=FILE: {word}")
        try:
            with open(installed.found(file), "rb") as it:
                modules.append((name, it.read()))
        except OSError as error:
            raise ValueError(f"--module {word}: {error.strerror}") from None
        names.append(file)
    return Task(tuple(modules), given.do or "", given.within, given.program, tuple(names), given.keep_comments, given.profile)


# The rules that are given in the language's own syntax.
def _written_rules(given: argparse.Namespace) -> Written:
    number = len(given.rule) > 1
    rules = [Source(f"--rule {at}" if number else "--rule", text) for at, text in enumerate(given.rule, 1)]
    read = []
    for name in given.rules:
        try:
            with open(installed.found(name), encoding="utf-8") as it:
                read.append(Source(name, it.read()))
        except (OSError, UnicodeDecodeError) as error:
            raise ValueError(f"--rules {name}: {getattr(error, 'strerror', None) or error}") from None
    return Written(tuple(rules), Source("--where", given.where) if given.where else None, tuple(read))


# The language of rules, where no file says it.
def _language(given: argparse.Namespace) -> str:
    named = [own_language(it) for it in given.rules]
    return str(given.language or next((it for it in named if it is not None), given.settings.language or "python"))


def _show_modules(given: argparse.Namespace, written: Written) -> int:
    language = _language(given)
    print(*(it.text for it in made_of(rules_of(written, language), language)), sep="\n", end="")
    return 0


def _tried(given: argparse.Namespace, task: Task, written: Written) -> int:
    language = _language(given)
    try:
        task = with_written(task._replace(language=language), written)
        if _wrong_texts(task):
            return 2
        found = trials.tried(rules_of(written, language), task)
    except ValueError as error:
        print(error, file=sys.stderr)
        return 2
    for it in found:
        if it.fault:
            print(it.fault, file=sys.stderr)
    failed = sum(1 for it in found if it.fault)
    print(f"{counted(len(found), 'test')}, {failed or 'none'} failed", file=sys.stderr)
    return 1 if failed else 0


# Where the modules or the strategy are wrong, says why.
def _wrong_texts(task: Task) -> bool:
    wrong, warnings = check_texts(task)
    if wrong:
        print(*warnings, wrong, sep="\n", file=sys.stderr)
    return bool(wrong)


# The task in a language: with what its strategy needs, where that is known, and without the modules of other languages. Else what is wrong
# with its rules, if anything is.
def _prepared(given: argparse.Namespace, task: Task, written: Written) -> tuple[Task, bool, str]:
    kept = [at for at, (name, _) in enumerate(task.modules) if is_for(name, task.language)]
    names = tuple(task.files[at] for at in kept)
    task = task._replace(modules=tuple(task.modules[at] for at in kept), files=names)
    try:
        task = with_written(task, written)
    except ValueError as error:
        return task, False, str(error)
    if not task.strategy:
        return task, False, f"no rule is for {languages.named(task.language).title}"
    try:
        known = prepared(task)
    except NoProgram:
        # only the workers may have it
        if given.cluster is None:
            raise
        known = task
    return known or task, known is not None, ""


# Says what is wrong with the rules, the modules or the strategy in each language. Returns false where nothing is.
def _said_wrong(tasks: dict[str, tuple[Task, bool, str]]) -> bool:
    wrong = False
    for task, _, fault in tasks.values():
        if fault:
            print(fault, file=sys.stderr)
        wrong = bool(fault) or _wrong_texts(task) or wrong
    return wrong


def _refactored(given: argparse.Namespace, task: Task, written: Written) -> int:
    contents = list(files.read(files.found(given.files, given.language)))
    read = [(name, it) for name, it in contents if isinstance(it, bytes)]
    groups = files.by_language(read, given.language)
    unknown = groups.pop(None, [])
    if unknown and given.settings.language:
        groups.setdefault(given.settings.language, []).extend(unknown)
        unknown = []
    unread = [Left(name, f"{name}: {it}") for name, it in contents if isinstance(it, str)]
    unread += [Left(name, f"{name}: its suffix says no language: give --language") for name, _ in unknown]
    asked = groups or ({} if unknown else {_language(given): []})
    tasks = {language or "": _prepared(given, task._replace(language=language or ""), written) for language in asked}
    if not any(known for _, known, _ in tasks.values()) and _said_wrong(tasks):
        return 2
    # a strategy of some languages leaves files of the others alone, where these were found in folders
    apart = [language for language, (_, known, _) in tasks.items() if not known and any(known for _, known, _ in tasks.values())]
    for name in apart:
        print(f"{languages.named(name).title}: the strategy isn't one for its {counted(len(groups.pop(name)), 'file')}", file=sys.stderr)
    work = [it for group in groups.values() for it in group]
    first = next((it for language, (it, _, _) in tasks.items() if language not in apart), task)
    tally = Tally(unread, first.needs.rule() if first.needs is not None else None)
    for one in tally.unread:
        print(one.why, file=sys.stderr)
    progress = Progress(len(work))
    if not all([_shown(given, tasks[language or ""][0], group, tally, progress) for language, group in groups.items()]):
        return 2
    progress.clear()
    if not tally.left and not tally.changed and not given.check:
        # nothing was done: a warning may say why
        with contextlib.suppress(NoProgram):
            for language, group in groups.items():
                own = tasks[language or ""][0]
                for line in (*check_texts(own)[1], *positions.warning(group, own)):
                    print(line, file=sys.stderr)
    wrote = bool(given.write) and _written(work, tally)
    status = 3 if tally.left or tally.comments(left=True) or given.write and not wrote else 1 if given.check and tally.changed else 0
    if given.profile:
        print(tally.profile(), file=sys.stderr)
    print(tally.summary(wrote), file=sys.stderr)
    if given.report is not None:
        try:
            with open(given.report, "w") as out:
                out.write(tally.report(status, wrote))
        except OSError as error:
            print(f"--report {given.report}: {error.strerror}", file=sys.stderr)
            return 3
    return status


# Shows what comes of each file of a language. Returns false where the modules or the strategy are wrong.
def _shown(given: argparse.Namespace, task: Task, work: _Work, tally: Tally, progress: Progress) -> bool:
    checked = False
    told: set[str] = set()

    def say(line: str) -> None:
        progress.clear()
        print(line, file=sys.stderr)

    for outcome in outcomes(work, task, given.jobs, given.cluster, say):
        tally.outcomes.append(outcome)
        lines = said(outcome)
        if outcome.diff or lines:
            progress.clear()
        if outcome.of_texts and not checked:
            checked = True
            if _wrong_texts(task):
                return False
        if outcome.name != files.STANDARD or not given.write:
            sys.stdout.buffer.write(outcome.diff)
            sys.stdout.buffer.flush()
        for line in lines:
            # the warnings of a module once
            if line not in told:
                print(line, file=sys.stderr)
                told.add(line)
        progress.done(len(tally.outcomes))
    return True


# Writes what changes. Returns false where nothing was written.
def _written(work: _Work, tally: Tally) -> bool:
    fault = next((f"{it.name}: the result {it.fault}" for it in tally.outcomes if it.fault), "")
    try:
        if fault:
            raise WriteFault(fault)
        changed = [(name, before, it.contents) for (name, before), it in zip(work, tally.outcomes) if it.contents is not None]
        write_all([it for it in changed if it[0] != files.STANDARD])
    except WriteFault as error:
        print(f"nothing was written: {error}", file=sys.stderr)
        return False
    # of standard input comes standard output, changed or not
    for (name, before), it in zip(work, tally.outcomes):
        if name == files.STANDARD:
            sys.stdout.buffer.write(it.contents if it.contents is not None else before)
            sys.stdout.buffer.flush()
    return True
