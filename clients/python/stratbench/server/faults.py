"""What is wrong with the modules of a folder: what the program says of them, as diagnostics of the protocol."""

from __future__ import annotations

import os
import re
from typing import TYPE_CHECKING, Any, Final, Optional

from ..diagnostics import Label, Sentence
from ..settings import Settings
from . import answers
from .checking import Said, Sent
from .folder import Folder, Modules
from .never import never
from .texts import Text, uri_of

if TYPE_CHECKING:
    from .quoted import WrongQuotation

ERROR: Final = 1
WARNING: Final = 2
HINT: Final = 4
# The tag of what can go.
UNNECESSARY: Final = 1
_NAME: Final = re.compile(r"[A-Za-z_][A-Za-z0-9_*+.$'-]{0,63}")


def names_of(folder: Folder, paths: list[str]) -> dict[str, str]:
    """Returns a name for each module, and its file: its own, or that of the file where another has that."""
    found: dict[str, str] = {}
    for number, path in enumerate(paths):
        stem = os.path.basename(path).removesuffix(".str")
        for name in (folder.text(path).name, stem):
            if name and _NAME.fullmatch(name) and name not in found:
                found[name] = path
                break
        else:
            found[f"module-{number}"] = path
    return found


class _Modules:
    """The modules that something is said of, by the names that the program knows them by."""

    def __init__(self, folder: Folder, own: str) -> None:
        self.files = names_of(folder, sorted({*folder.paths(), own}))
        # what is wrong with quotations, by the module
        self.wrong: dict[str, WrongQuotation] = {}
        self.texts: dict[str, Text] = {}
        self.sent: dict[str, Sent] = {}
        for name, path in self.files.items():
            self.texts[name], sent = folder.text(path), folder.sent(path)
            if isinstance(sent, Sent):
                self.sent[name] = sent
            else:
                self.wrong[name] = sent
        for name, text in folder.declared(self.files.values()).items():
            # a file may declare a language's constructors itself
            if name not in self.texts:
                self.texts[name], self.sent[name] = text, text.sent

    def place(self, label: Label, own: Optional[str]) -> tuple[str, int, int] | None:
        """Returns the module of a label and its characters; none of one that is elsewhere. `own` is the module whose text was refused."""
        name = label.module or own
        if name not in self.sent or label.line is None:
            return None
        if label.span is None:
            end = len(self.texts[name].text.rstrip())
            return name, end, end
        begin, end = map(self.sent[name].place, label.span)
        return name, begin, end

    def told(self, sentence: Sentence, own: Optional[str]) -> str:
        """Returns a sentence with its places as the files have them."""

        def telling(label: Label) -> str | None:
            place = self.place(label, own)
            if place is None:
                return None
            line, column = self.texts[place[0]].line_and_column(place[1])
            return f"line {line}, column {column}"

        return sentence.told(telling)


def faults_of(folder: Folder, own: str) -> dict[str, list[dict[str, Any]]]:
    """Returns the diagnostics of each file of a folder that is looked at with this one, those without any, too."""
    modules = _Modules(folder, own)
    found: dict[str, list[dict[str, Any]]] = {path: [] for path in modules.files.values()}
    for one, why in modules.wrong.items():
        found[modules.files[one]].append({
            "range": modules.texts[one].range(why.place, why.place + 1), "severity": ERROR, "code": "quotation", "source": "stratbench",
            "message": str(why),
        })  # fmt: skip
        last = folder.sent_last(modules.files[one])
        if last is not None:
            modules.sent[one] = last
    if not modules.wrong.keys() <= modules.sent.keys():
        # the others may need what it defines
        return found
    said = folder.session.check(modules.sent)
    # what is no module has no other places
    broken = {it.module for it in said if it.module and it.diagnostic.severity == "refusal"} | modules.wrong.keys()
    for it in said:
        for sentence in it.diagnostic.faults():
            first = sentence.first()
            name = (first.module if first else None) or it.module
            if name in modules.files and (it.module or name not in broken) and name not in modules.wrong:
                found[modules.files[name]].append(_as_told(modules, it, name, sentence))
    return found


def oddities(modules: Modules, settings: Settings) -> dict[str, tuple[Text, list[dict[str, Any]]]]:
    """Returns what may not be meant in the modules of a folder as a whole, by the file, with its text: definitions that nothing calls, where
    the settings say what is called from outside, and rules that never match."""
    found: dict[str, tuple[Text, list[dict[str, Any]]]] = {}

    def add(path: str, text: Text, begin: int, end: int, **more: Any) -> None:
        found.setdefault(path, (text, []))[1].append({"range": text.range(begin, end), "source": "stratbench", "tags": [UNNECESSARY], **more})

    for path, text in modules.texts:
        for it in never(text.module, lambda key: [one for _, _, one in modules.defining(key)]) if path else ():
            message = f"never matches: `{it.earlier}` before it takes all that it would"
            add(path, text, it.begin, it.end, severity=WARNING, code="never", message=message)
    for path, text, one in answers.unused(modules, settings.entries) if settings.entries is not None else ():
        add(path, text, one.at, one.at + len(one.name), severity=HINT, code="unused", message=f"nothing calls `{one.head}`")
    return found


def _as_told(modules: _Modules, said: Said, name: str, sentence: Sentence) -> dict[str, Any]:
    """A diagnostic of the protocol. What is said beside the first fault belongs to that."""
    it, text = said.diagnostic, modules.texts[name]
    is_first = sentence is it.message
    beside = [note for note in it.notes if note.kind != "fault"] if is_first else []
    lines = [modules.told(one, said.module) for one in (sentence, *beside)]
    if is_first:
        lines[0] = ": ".join(part for part in ((it.answer or "").removeprefix("refused "), lines[0]) if part)
    first = sentence.first()
    found: dict[str, Any] = {
        "range": _range(modules, first, said.module) if first else text.range(0, 0),
        "severity": WARNING if it.severity == "warning" else ERROR,
        "code": it.code,
        "source": "stratbench",
        "message": "\n".join(filter(None, lines)),
    }
    related = [one for note in beside for one in _related(modules, note, said.module)]
    if related:
        found["relatedInformation"] = related
    for note in beside:
        if note.replacement:
            begin, end = map(modules.sent[name].place, note.replacement.span)
            found["data"] = {"range": text.range(begin, end), "with": note.replacement.text}
    return found


def _range(modules: _Modules, label: Label, own: Optional[str]) -> dict[str, Any]:
    place = modules.place(label, own)
    if place is None:
        return Text("").range(0, 0)
    name, begin, end = place
    return modules.texts[name].range(begin, max(end, begin + 1))


def _related(modules: _Modules, note: Sentence, own: Optional[str]) -> list[dict[str, Any]]:
    found = []
    for label in note.labels:
        place = modules.place(label, own)
        if place and place[0] in modules.files:
            location = {"uri": uri_of(modules.files[place[0]]), "range": _range(modules, label, own)}
            found.append({"location": location, "message": modules.told(note, own)})
    return found
