"""The server: it reads messages, keeps the buffers, and answers."""

from __future__ import annotations

import os
import queue
import subprocess
import sys
import threading
from collections.abc import Callable, Sequence
from typing import IO, Any, Final

from .. import installed
from ..settings import BadSettings
from . import answers, faults, layout, trying
from .folder import Folder, Modules
from .messages import receive, send
from .reading import Name
from .texts import Text, path_of, uri_of

# Errors of JSON-RPC and of the protocol.
_NO_METHOD, _FAILED, _NOT_BEGUN = -32601, -32803, -32002
_CAPABILITIES: Final = {
    "positionEncoding": "utf-16",
    "textDocumentSync": {"openClose": True, "change": 2, "save": {}},
    "completionProvider": {"triggerCharacters": ["<", "!", "?"]},
    "hoverProvider": True,
    "signatureHelpProvider": {"triggerCharacters": ["(", ",", "|"]},
    "definitionProvider": True,
    "referencesProvider": True,
    "documentHighlightProvider": True,
    "renameProvider": {"prepareProvider": True},
    "documentSymbolProvider": True,
    "workspaceSymbolProvider": True,
    "foldingRangeProvider": True,
    "documentFormattingProvider": True,
    "codeLensProvider": {},
    "executeCommandProvider": {"commands": ["stratbench.try"]},
    "codeActionProvider": {"codeActionKinds": ["quickfix"]},
    "semanticTokensProvider": {"legend": {"tokenTypes": answers.TOKENS, "tokenModifiers": answers.MODIFIERS}, "full": True},
}


# What may be wrong with the program or the settings.
_WRONG: Final = (OSError, EOFError, subprocess.SubprocessError, BadSettings)


class Refused(Exception):
    """A request that can't be met, and why."""


class Server:
    """Answers the messages of one editor."""

    def __init__(self, out: IO[bytes], program: str) -> None:
        self.out = out
        self.program = program
        # those that the editor has sent, and that wait
        self.messages: queue.SimpleQueue[dict[str, Any] | None] = queue.SimpleQueue()
        self.buffers: dict[str, Text] = {}
        self.folders: dict[str, Folder] = {}
        # The files whose folders are to be looked at again, and those that have diagnostics.
        self.dirty: dict[str, None] = {}
        self.told: dict[str, set[str]] = {}
        # by folder: what is wrong with each file, what is odd in it, with the text that is, and a file of those in which nothing is wrong
        self.found: dict[str, dict[str, list[dict[str, Any]]]] = {}
        self.odd: dict[str, dict[str, tuple[Text, list[dict[str, Any]]]]] = {}
        self.sound: dict[str, str] = {}
        self.has_ended = False
        self.is_begun = False

    # ---- messages

    def run(self, source: IO[bytes]) -> int:
        """Answers messages until the editor ends it. Returns the exit status: 0 if it was asked to shut down before."""
        messages = self.messages

        def read() -> None:
            message: dict[str, Any] | None = {}
            while message is not None and message.get("method") != "exit":
                message = receive(source)
                messages.put(message)

        reading = threading.Thread(target=read)
        reading.start()
        try:
            message: dict[str, Any] | None = {}
            while message is not None and message.get("method") != "exit":
                self.take(message)
                if self.dirty and messages.empty():
                    self.look()
                if self.sound and messages.empty():
                    self.look_again()
                message = messages.get()
        finally:
            for folder in self.folders.values():
                folder.end()
        reading.join()
        return 0 if self.has_ended else 1

    def take(self, message: dict[str, Any]) -> None:
        """Answers a message."""
        method, given = message.get("method", ""), message.get("params") or {}
        if "id" not in message:
            if method in _NOTICES:
                _NOTICES[method](self, given)
            return
        reply: dict[str, Any] = {"id": message["id"]}
        try:
            if method not in _REQUESTS:
                reply["error"] = {"code": _NO_METHOD, "message": f"no method {method}"}
            elif not self.is_begun and method != "initialize":
                reply["error"] = {"code": _NOT_BEGUN, "message": "it isn't initialized"}
            else:
                reply["result"] = _REQUESTS[method](self, given)
        except (Refused, *_WRONG) as why:
            reply["error"] = {"code": _FAILED, "message": str(why)}
        send(self.out, reply)

    def tell(self, method: str, given: dict[str, Any]) -> None:
        send(self.out, {"method": method, "params": given})

    # ---- files

    def folder(self, path: str) -> Folder:
        """Returns the folder of a file."""
        name = os.path.dirname(path)
        if name not in self.folders:
            self.folders[name] = Folder(name, self.buffers, self.program)
        return self.folders[name]

    def open(self, given: dict[str, Any]) -> None:
        path = path_of(given["textDocument"]["uri"])
        self.buffers[path] = Text(given["textDocument"]["text"])
        self.dirty[path] = None

    def change(self, given: dict[str, Any]) -> None:
        path = path_of(given["textDocument"]["uri"])
        for change in given["contentChanges"]:
            self.buffers[path] = self.buffers.get(path, Text("")).changed(change)
        self.dirty[path] = None

    def close(self, given: dict[str, Any]) -> None:
        path = path_of(given["textDocument"]["uri"])
        self.buffers.pop(path, None)
        self.dirty.pop(path, None)
        others = [it for it in self.buffers if os.path.dirname(it) == os.path.dirname(path)]
        if others:
            self.dirty[others[0]] = None
        else:
            self.found.pop(os.path.dirname(path), None)
            self.publish(os.path.dirname(path))

    def save(self, given: dict[str, Any]) -> None:
        self.dirty[path_of(given["textDocument"]["uri"])] = None

    def look(self) -> None:
        """Looks at the folders that changed, and publishes what is wrong with them."""
        paths, self.dirty = self.dirty, {}
        for name in {os.path.dirname(it) for it in paths}:
            own = next(it for it in reversed(paths) if os.path.dirname(it) == name)
            try:
                self.found[name] = faults.faults_of(self.folder(own), own)
            except _WRONG as why:
                self.tell("window/showMessage", {"type": 1, "message": f"stratbench: {why}"})
                continue
            self.publish(name)
            # what is odd is looked for where nothing is wrong, when there is time
            if not any(it["severity"] == faults.ERROR for every in self.found[name].values() for it in every):
                self.sound[name] = own

    def look_again(self) -> None:
        """Publishes what may be wrong with whole folders that were looked at."""
        while self.sound:
            name, own = self.sound.popitem()
            try:
                modules = self.folder(own).modules(own)
                for _, text in modules.texts:
                    # to read them all takes longer than a message may wait
                    if not self.messages.empty():
                        self.sound[name] = own
                        return
                    assert text.module
                found = faults.oddities(modules, self.folder(own).settings())
            except _WRONG:
                # which is said when the folder is looked at
                continue
            if found != self.odd.get(name, {}):
                self.odd[name] = found
                self.publish(name)

    def publish(self, name: str) -> None:
        """Publishes the diagnostics of a folder's files, and takes those away that it had before. What is odd counts for a text alone."""
        found = {path: list(every) for path, every in self.found.get(name, {}).items()}
        for path, (text, every) in self.odd.get(name, {}).items():
            if path in found and self.folders[name].text(path) is text:
                found[path] += every
        before = self.told.get(name, set())
        self.told[name] = {path for path, every in found.items() if every}
        for path in sorted({*found, *before}):
            every = found.get(path, [])
            if every or path in before or path in self.buffers:
                self.tell("textDocument/publishDiagnostics", {"uri": uri_of(path), "diagnostics": every})

    # ---- requests

    def initialize(self, given: dict[str, Any]) -> dict[str, Any]:
        self.is_begun = True
        return {"capabilities": _CAPABILITIES, "serverInfo": {"name": "stratbench"}}

    def shutdown(self, given: dict[str, Any]) -> None:
        self.has_ended = True

    def at(self, given: dict[str, Any]) -> tuple[Modules, Text, int]:
        """The modules that a request is about, that of its file first, with its text and the place that it names."""
        path = path_of(given["textDocument"]["uri"])
        modules = self.folder(path).modules(path)
        text = modules.texts[0][1]
        return modules, text, text.place(given["position"]) if "position" in given else 0

    def name_at(self, given: dict[str, Any]) -> tuple[Modules, Name | None]:
        modules, text, place = self.at(given)
        return modules, text.module.name_at(place)

    def definition(self, given: dict[str, Any]) -> list[dict[str, Any]]:
        modules, name = self.name_at(given)
        return answers.definition(modules, name) if name else []

    def references(self, given: dict[str, Any]) -> list[dict[str, Any]]:
        modules, name = self.name_at(given)
        return answers.references(modules, name, given["context"]["includeDeclaration"]) if name else []

    def highlights(self, given: dict[str, Any]) -> list[dict[str, Any]]:
        modules, name = self.name_at(given)
        return answers.highlights(modules, name) if name else []

    def hover(self, given: dict[str, Any]) -> dict[str, Any] | None:
        modules, name = self.name_at(given)
        return answers.hover(modules, name) if name else None

    def completion(self, given: dict[str, Any]) -> list[dict[str, Any]]:
        modules, _, place = self.at(given)
        return answers.completions(modules, place)

    def signature(self, given: dict[str, Any]) -> dict[str, Any] | None:
        modules, _, place = self.at(given)
        return answers.signature(modules, place)

    def prepare_rename(self, given: dict[str, Any]) -> dict[str, Any] | None:
        modules, name = self.name_at(given)
        if not name:
            return None
        why = answers.refusal(modules, name, name.name + "'")
        if why:
            raise Refused(why)
        return {"range": modules.texts[0][1].range(name.begin, name.end), "placeholder": name.name}

    def rename(self, given: dict[str, Any]) -> dict[str, Any] | None:
        modules, name = self.name_at(given)
        if not name:
            return None
        if name.name == given["newName"]:
            return {"changes": {}}
        why = answers.refusal(modules, name, given["newName"])
        if why:
            raise Refused(why)
        return answers.rename(modules, name, given["newName"])

    def symbols(self, given: dict[str, Any]) -> list[dict[str, Any]]:
        return answers.symbols(self.at(given)[1])

    def workspace_symbols(self, given: dict[str, Any]) -> list[dict[str, Any]]:
        found = []
        for name in {os.path.dirname(it) for it in self.buffers}:
            folder = self.folder(os.path.join(name, "any.str"))
            for path in folder.paths():
                for it in answers.symbols(folder.text(path)):
                    if given.get("query", "").lower() in it["name"].lower():
                        location = {"uri": uri_of(path), "range": it["selectionRange"]}
                        found.append({"name": it["name"], "kind": it["kind"], "location": location})
        return found

    def folds(self, given: dict[str, Any]) -> list[dict[str, Any]]:
        return answers.folds(self.at(given)[1])

    def semantic_tokens(self, given: dict[str, Any]) -> dict[str, Any]:
        return {"data": answers.semantic_tokens(self.at(given)[1])}

    def formatting(self, given: dict[str, Any]) -> list[dict[str, Any]]:
        text = self.at(given)[1]
        new = layout.laid_out(text.text)
        return [] if new == text.text else [{"range": text.range(0, len(text.text)), "newText": new}]

    def lenses(self, given: dict[str, Any]) -> list[dict[str, Any]]:
        modules, text, _ = self.at(given)
        return [
            {
                "range": text.range(it.begin, it.end),
                "command": {"title": "Try it", "command": "stratbench.try", "arguments": [modules.own, it.strategy, it.term]},
            }
            for it in trying.trials(text)
        ]

    def execute(self, given: dict[str, Any]) -> str:
        path, strategy, term = given["arguments"]
        gives, text = trying.outcome(self.folder(path), path, strategy, term)
        self.tell("window/showMessage", {"type": 3 if gives else 2, "message": f"{strategy} on {term} {'gives ' if gives else '- '}{text}"})
        return text

    def actions(self, given: dict[str, Any]) -> list[dict[str, Any]]:
        found = []
        for it in given["context"]["diagnostics"]:
            data = it.get("data")
            if data:
                change = {"changes": {given["textDocument"]["uri"]: [{"range": data["range"], "newText": data["with"]}]}}
                found.append({"title": f"Write `{data['with']}`", "kind": "quickfix", "diagnostics": [it], "edit": change})
        return found


_NOTICES: Final[dict[str, Callable[[Server, dict[str, Any]], None]]] = {
    "textDocument/didOpen": Server.open,
    "textDocument/didChange": Server.change,
    "textDocument/didClose": Server.close,
    "textDocument/didSave": Server.save,
}
_REQUESTS: Final[dict[str, Callable[[Server, dict[str, Any]], Any]]] = {
    "initialize": Server.initialize,
    "shutdown": Server.shutdown,
    "textDocument/definition": Server.definition,
    "textDocument/references": Server.references,
    "textDocument/documentHighlight": Server.highlights,
    "textDocument/hover": Server.hover,
    "textDocument/completion": Server.completion,
    "textDocument/signatureHelp": Server.signature,
    "textDocument/prepareRename": Server.prepare_rename,
    "textDocument/rename": Server.rename,
    "textDocument/documentSymbol": Server.symbols,
    "workspace/symbol": Server.workspace_symbols,
    "textDocument/foldingRange": Server.folds,
    "textDocument/semanticTokens/full": Server.semantic_tokens,
    "textDocument/formatting": Server.formatting,
    "textDocument/codeAction": Server.actions,
    "textDocument/codeLens": Server.lenses,
    "workspace/executeCommand": Server.execute,
}


def main(words: Sequence[str] | None = None) -> int:
    """Serves one editor over standard input and output."""
    given = sys.argv[1:] if words is None else list(words)
    if given == ["--version"]:
        print(installed.version("stratbench-server"))
        return 0
    if given and given != ["--stdio"]:
        name = installed.command("stratbench.server", "stratbench-server")
        print(f"usage: {name} [--stdio | --version]\n\n{__package__}: the language server for modules", file=sys.stderr)
        return 2
    try:
        return Server(sys.stdout.buffer, installed.program()).run(sys.stdin.buffer)
    except BrokenPipeError:
        # the editor is gone, and nobody reads what is left to be written
        os.dup2(os.open(os.devnull, os.O_WRONLY), sys.stdout.fileno())
        return 1
