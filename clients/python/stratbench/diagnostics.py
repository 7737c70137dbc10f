"""What the program says of commands, as `--explain=json` writes it: a line of JSON each.

    >>> [it] = parsed('{"severity":"warning","code":"nothing","line":3,"message":"the strategy replaced nothing","labels":[],"notes":[]}')
    >>> it.line, it.message.told()
    (3, 'the strategy replaced nothing')
"""

from __future__ import annotations

import json
from collections.abc import Callable
from typing import Any, NamedTuple, Optional


class Label(NamedTuple):
    """A place that a sentence speaks of: in the text of the command, in that of a module, or a path in the tree. Lines and columns are
    counted from 1, columns in characters; spans are bytes of the text. `said` are the bytes of the sentence that say where it is."""

    module: str | None
    span: tuple[int, int] | None
    line: int | None
    column: int | None
    path: str | None
    said: tuple[int, int]


class Replacement(NamedTuple):
    """What may take the place of a span of the command's text."""

    span: tuple[int, int]
    text: str


class Told(str):
    """A warning as text, with the first place that it speaks of in the caller's text: its line and column, from 1."""

    place: tuple[int, int] | None = None


# What is said in place of where a label is; nothing where it stays.
Telling = Callable[[Label], Optional[str]]


class Sentence(NamedTuple):
    """A sentence, with the places that it speaks of: the message, a note, a further fault, or a help."""

    text: str
    labels: tuple[Label, ...]
    kind: str = "message"
    replacement: Replacement | None = None

    def first(self) -> Label | None:
        """Returns the first place that it speaks of."""
        return self.labels[0] if self.labels else None

    def told(self, telling: Telling = lambda _: None) -> str:
        """Returns the sentence, with other words for some of the places."""
        text = self.text.encode()
        for label in sorted(self.labels, key=lambda it: it.said, reverse=True):
            said = telling(label)
            if said is not None:
                text = text[: label.said[0]] + said.encode() + text[label.said[1] :]
        return text.decode()


class Diagnostic(NamedTuple):
    """Why a command was refused (`severity` is `refusal`), what may be a mistake (`warning`), or where steps went (`profile`). `line` is that
    of the script on which the command begins; a text that was loaded has a `file` in its place. `module` and `definition` are where the
    cause is, if it is in a module. `subject` is the command that the message is about, where it says that. `ends` tells that a text ends too early. `steps` are those of definitions, or of the command, which has no name."""

    severity: str
    code: str
    number: int | None
    answer: str | None
    line: int | None
    file: str | None
    module: str | None
    definition: str | None
    subject: str | None
    ends: bool
    message: Sentence
    excerpt: tuple[str, ...]
    notes: tuple[Sentence, ...]
    steps: tuple[tuple[str | None, int], ...]

    def told(self, telling: Telling = lambda _: None, excerpt: tuple[str, ...] | None = None, subject: bool = True) -> str:
        """Returns all of it as lines, with other words for some of the places, with another excerpt, or without its subject."""
        lines = self.excerpt if excerpt is None else excerpt
        begins = f"{self.subject}: " if subject and self.subject else ""
        return "\n".join([begins + self.message.told(telling), *(f"    {it}" for it in (*lines, *(note.told(telling) for note in self.notes)))])

    def first(self) -> Label | None:
        """Returns the first place that the message speaks of."""
        return self.message.first()

    def faults(self) -> list[Sentence]:
        """Returns the message, and those of further faults."""
        return [self.message, *(it for it in self.notes if it.kind == "fault")]


def told(it: Diagnostic) -> str:
    """Returns a diagnostic as the program says it in text, without its name."""
    begins = it.file if it.file is not None else f"line {it.line}"
    middle = f": {it.answer}" if it.answer else ": warning" if it.severity == "warning" else ""
    return f"{begins}{middle}{': ' if it.message.text or it.subject else ''}{it.told()}"


def parsed(said: str) -> list[Diagnostic]:
    """Returns the diagnostics among the lines of what was said."""
    return [_diagnostic(json.loads(line)) for line in said.splitlines() if line.startswith("{")]


def others(said: str) -> str:
    """Returns what else was said."""
    return "\n".join(line for line in said.splitlines() if not line.startswith("{"))


def _diagnostic(it: dict[str, Any]) -> Diagnostic:
    return Diagnostic(
        it["severity"],
        it["code"],
        it.get("number"),
        it.get("answer"),
        it.get("line"),
        it.get("file"),
        it.get("module"),
        it.get("definition"),
        it.get("subject"),
        it.get("ends", False),
        _sentence(it),
        tuple(it.get("excerpt", ())),
        tuple(map(_sentence, it["notes"])),
        tuple((one["definition"], one["steps"]) for one in it.get("steps", ())),
    )


def _sentence(it: dict[str, Any]) -> Sentence:
    replacement = it.get("replace")
    return Sentence(
        it["message"],
        tuple(map(_label, it["labels"])),
        it.get("kind", "message"),
        replacement and Replacement((replacement["span"][0], replacement["span"][1]), replacement["with"]),
    )


def _label(it: dict[str, Any]) -> Label:
    span, said = it.get("span"), it["said"]
    return Label(it.get("module"), span and (span[0], span[1]), it.get("line"), it.get("column"), it.get("path"), (said[0], said[1]))
