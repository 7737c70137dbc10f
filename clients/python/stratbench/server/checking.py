"""A session of the program that stays up. It keeps the modules of a folder, and checks them anew where some of them change.

What it says of a text has places in what is sent, where each line but the first begins with a blank:

    >>> text = Sent("  \\nmodule m\\nstrategies\\r\\n  f = \\"ü\\"; g")
    >>> text.sent
    'module m\\n strategies\\n  f = "ü"; g'
    >>> text.own[text.place(len(text.sent.encode()) - 1)], text.own[text.place(10)]
    ('g', 's')
"""

from __future__ import annotations

import bisect
import contextlib
import os
import re
import subprocess
import tempfile
import time
from collections.abc import Iterable, Iterator, Mapping, Sequence
from functools import cached_property
from typing import Final, NamedTuple, Optional

from .. import versions
from ..diagnostics import Diagnostic, others, parsed
from ..process import Process

# How long the program may take.
_SECONDS: Final = 20
# A command is complete when the next one begins: a carriage return and a blank, which are skipped, begin it.
_BEGINS: Final = "\r "
# Each accepted change is a step, which keeps the text before it. After so many another session is begun.
_MOST_STEPS: Final = 500
# How many modules may change at once before that is done.
_MOST_CHANGED: Final = 8
# How often modules with faults are left out until the others have none.
_MOST_COMMITS: Final = 8
_BLANKS: Final = " \t\r\n"
_SIGNATURE: Final = re.compile(r"\bsignature\b.*?(?=\brules\b|\bstrategies\b|\Z)", re.DOTALL)
_APART: Final = re.compile(r'"(?:\\.|[^"\\])*"|//[^\n]*|/\*.*?\*/', re.DOTALL)


class Sent:
    """The text of a module as it is sent: its lines begin with a blank, as no command does, and it has none at its ends."""

    def __init__(self, own: str) -> None:
        self.own = own
        # where a line begins in what is sent, and what is there in the text
        self._sent: list[int] = []
        self._own: list[int] = []
        lines: list[str] = []
        at = begin = 0
        for line in own.split("\n"):
            kept = line.rstrip("\r") if lines else line.strip("\r").lstrip(_BLANKS)
            if lines or kept:
                more = bool(lines) and kept[:1] not in ("", " ", "\t")
                lines.append(" " * more + kept)
                self._sent.append(at + more)
                self._own.append(begin + (0 if len(lines) > 1 else line.index(kept)))
                at += more + len(kept) + 1
            begin += len(line) + 1
        self.sent = "\n".join(lines).rstrip(_BLANKS)

    def place(self, byte: int) -> int:
        """Returns the character of the text that a byte of what is sent belongs to."""
        if not self._sent:
            return 0
        at = len(self.sent.encode(errors="replace")[:byte].decode(errors="ignore"))
        number = max(0, bisect.bisect_right(self._sent, at) - 1)
        return min(self._own[number] + at - self._sent[number], len(self.own))

    @cached_property
    def signatures(self) -> list[str]:
        """The texts of its signatures."""
        return _SIGNATURE.findall(_APART.sub(" ", self.own))


class Said(NamedTuple):
    """What was said of a command: of the text of a module, or of all of them, which has no name."""

    module: Optional[str]
    diagnostic: Diagnostic


class Session:
    """The program with the modules of a folder: as many of them as have no fault together."""

    def __init__(self, program: str, library: bool) -> None:
        self.has_library = library
        self._words = [program, "--explain=json", *["--library"] * library]
        self._process: Optional[Process] = None
        self._line = 1
        self._steps = 0
        # the modules that it has, the warnings of each, and the signatures of all when these were said
        self._texts: dict[str, Sent] = {}
        self._warnings: dict[str, list[Said]] = {}
        self._signatures: dict[str, list[str]] = {}
        self._asked: Optional[dict[str, Sent]] = None
        self._found: list[Said] = []

    def check(self, texts: Mapping[str, Sent]) -> list[Said]:
        """Returns what is wrong with these modules, or else what may be. Raises `OSError` where there is no program, `EOFError` where it has
        ended, and `TimeoutError` where it takes too long."""
        if self._asked != texts:
            self._found = self._checked(texts)
            self._asked = dict(texts)
        return self._found

    def outcome(self, strategy: str, term: str) -> tuple[bool, str, list[Said]]:
        """Returns whether a strategy gives a term of a term, with the modules that were checked last, and which; or what is said of it."""
        answers, said = self._answers(["begin", f"tree t {term}", f"apply t do {strategy}", "show t", "abandon"])
        return answers[1:3] == ["ok", "ok"], answers[3], said

    def end(self) -> None:
        """Ends the program."""
        if self._process is not None:
            self._process.end(kill=True)
        self._process, self._line, self._steps, self._texts, self._asked = None, 1, 0, {}, None

    def _checked(self, texts: Mapping[str, Sent]) -> list[Said]:
        left, wrong = self._others(texts), []
        if self._process is None or self._steps >= _MOST_STEPS or len(left) > _MOST_CHANGED or not self._texts.keys() <= texts.keys():
            wrong = self._begin(texts)
        elif len(left) > 1:
            wrong = self._take(left)
        left = self._others(texts)
        # of what is wrong with a group less is said
        if all(it.module is None for it in wrong):
            if len(left) == 1:
                wrong = self._take_one(*left.popitem())
            elif left:
                wrong = self._looked(texts)
        if wrong:
            return wrong
        # the places of what has the same text may be others
        self._texts = dict(texts)
        if self._signatures != _signatures(texts):
            # what is a constant in one module says what is odd in all
            self._warnings, self._signatures = _by_module(texts, self._looked(texts)), _signatures(texts)
        return [it for name in texts for it in self._warnings[name]]

    # The modules that it doesn't have as they are.
    def _others(self, texts: Mapping[str, Sent]) -> dict[str, Sent]:
        return {name: it for name, it in texts.items() if name not in self._texts or self._texts[name].sent != it.sent}

    # Begins a session with as many of these modules as have no fault. Returns what is wrong.
    def _begin(self, texts: Mapping[str, Sent]) -> list[Said]:
        self.end()
        wrong: list[Said] = []
        wanted = dict(texts)
        for _ in range(_MOST_COMMITS):
            said = self._looked(wanted)
            if all(it.diagnostic.severity == "warning" for it in said):
                break
            wrong = wrong or said
            faulty = {it.module for it in said} | {name for it in said for name in _faulty(it.diagnostic)}
            wanted = {name: it for name, it in wanted.items() if name not in faulty}
        else:
            wanted, said = {}, []
        with _files(wanted) as names:
            versions.check_program(self._words[0])
            self._process = Process([*self._words, *_loading(names)])
            # which it answers after it has read the files
            self._answers(["history"])
        self._texts, self._warnings, self._signatures = wanted, _by_module(wanted, said), _signatures(wanted)
        return wrong

    # What another process says of modules together: why they are refused, or their warnings.
    def _looked(self, texts: Mapping[str, Sent]) -> list[Said]:
        with _files(texts) as names:
            ran = subprocess.run(
                [*self._words, "--check", *_loading(names), *[os.devnull] * (not names)],
                stdin=subprocess.DEVNULL, stdout=subprocess.DEVNULL, stderr=subprocess.PIPE, timeout=_SECONDS,
            )  # fmt: skip
        said = ran.stderr.decode(errors="replace")
        found = [Said(names.get(it.file or ""), it) for it in parsed(said)]
        if ran.returncode not in (0, 1):
            raise EOFError(others(said))
        return found

    # Gives a module its text. Returns why that isn't done, or nothing.
    def _take_one(self, name: str, text: Sent) -> list[Said]:
        answers, said = self._answers([_giving(name, text)], [name])
        if answers != ["ok"]:
            return said
        self._steps += 1
        self._texts[name], self._warnings[name] = text, said
        return []

    # Gives modules their texts as far as they have no fault. Returns what is wrong.
    def _take(self, texts: Mapping[str, Sent]) -> list[Said]:
        answers, said = self._answers(["begin", *(_giving(*it) for it in texts.items())], [None, *texts])
        wrong = [it for it in said if it.diagnostic.severity == "refusal"]
        taken = {name: it for (name, it), answer in zip(texts.items(), answers[1:]) if answer == "ok"}
        away: set[str] = set()
        for number in range(_MOST_COMMITS):
            answers, said = self._answers(["commit"])
            if answers == ["ok"]:
                self._steps += 1
                self._texts = {name: it for name, it in {**self._texts, **taken}.items() if name not in away}
                # in a group the program warns of what a module was before
                self._signatures = {}
                return wrong
            # what is no module counts as it was, where it was one
            if number == 0 and all(it.module in self._texts for it in wrong):
                wrong = wrong + said
            faulty = {name for it in said for name in _faulty(it.diagnostic)} & ({*taken, *self._texts} - away)
            if not faulty:
                break
            # they get back what they had, or go where they had nothing
            old = {name: self._texts[name] for name in faulty & taken.keys() & self._texts.keys()}
            away |= faulty - old.keys()
            self._answers([*(_giving(*it) for it in old.items()), *(f"unload {it}" for it in faulty - old.keys())])
            taken = {name: it for name, it in taken.items() if name not in faulty}
        self._answers(["abandon"])
        return wrong

    # Sends commands, and returns the answer to each, a line, and what was said of them, with the names of their modules.
    def _answers(self, commands: Sequence[str], names: Sequence[Optional[str]] = ()) -> tuple[list[str], list[Said]]:
        assert self._process is not None
        begins: dict[int, Optional[str]] = {}
        for number, command in enumerate(commands):
            begins[self._line] = names[number] if number < len(names) else None
            self._line += command.count("\n") + 1
        try:
            self._process.write("".join(f"{it}\n{_BEGINS}" for it in commands))
            until = time.monotonic() + _SECONDS
            answers = [self._process.line(until) for _ in commands]
        except BaseException:
            self.end()
            raise
        return answers, [Said(begins.get(it.line or 0), it) for it in parsed(self._process.said())]


# The names of modules, by the file in which each is meanwhile.
@contextlib.contextmanager
def _files(texts: Mapping[str, Sent]) -> Iterator[dict[str, str]]:
    with tempfile.TemporaryDirectory(prefix="stratbench-") as room:
        names = {}
        for number, (name, it) in enumerate(texts.items()):
            file = os.path.join(room, f"{number}.str")
            with open(file, "w", encoding="utf-8", errors="replace", newline="") as out:
                out.write(it.sent)
            names[file] = name
        yield names


# The words by which the program loads them.
def _loading(names: Mapping[str, str]) -> list[str]:
    return [f"--module={name}={file}" for file, name in names.items()]


def _signatures(texts: Mapping[str, Sent]) -> dict[str, list[str]]:
    return {name: it.signatures for name, it in texts.items()}


def _faulty(it: Diagnostic) -> Iterator[str]:
    for sentence in it.faults():
        first = sentence.first()
        if first and first.module:
            yield first.module


def _giving(name: str, text: Sent) -> str:
    return f"module {name} {text.sent}"


def _by_module(names: Iterable[str], said: Iterable[Said]) -> dict[str, list[Said]]:
    found: dict[str, list[Said]] = {name: [] for name in names}
    for it in said:
        if it.module in found and it.diagnostic.severity == "warning":
            found[it.module].append(it)
    return found
