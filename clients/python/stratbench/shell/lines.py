"""Commands as they are typed, with a history and editing by `prompt_toolkit` where it is at hand, else by `readline`."""

from __future__ import annotations

import contextlib
import importlib
import os
import re
import select
import shutil
import sys
from collections.abc import Callable
from typing import Any, Final, Protocol

from .completion import Candidate, word_before
from .syntax import commands, indentation, is_complete, of_script, outdent, tokens

_PROMPT, _GROUP, _MORE = "> ", ">> ", ". "
# What a terminal gives of a line without `readline`, and the longest text that is coloured.
_MOST_OF_A_LINE: Final = 4_095
_MOST_COLOURED: Final = 20_000
# The colours of tokens, by their kinds.
_COLOURS: Final = {
    "command": "bold", "keyword": "ansimagenta", "constructor": "ansiblue", "string": "ansigreen", "number": "ansicyan",
    "path": "ansicyan", "comment": "ansibrightblack", "wrong": "ansired bold underline",
}  # fmt: skip

Complete = Callable[[str], "list[Candidate]"]


class Reader(Protocol):
    """What commands are read from. `edits` says whether `read` can begin with a text."""

    edits: bool

    def read(self, grouped: bool, begin: str = "") -> list[str]:
        """Returns the next commands: several where a text with more than one was pasted. Raises `EOFError` at the end, and
        `KeyboardInterrupt` where it is cancelled."""


class Script:
    """A script on standard input."""

    edits = False

    def __init__(self) -> None:
        self._commands = of_script(sys.stdin)

    def read(self, grouped: bool, begin: str = "") -> list[str]:
        for command in self._commands:
            return [command]
        raise EOFError


class _Cut(Exception):
    """A line that may not be all that was typed."""


class Plain:
    """Lines of a terminal, with the editing of `readline` where this Python has it."""

    edits = False

    def __init__(self, complete: Complete, history: str | None) -> None:
        # what is shown before the line that is typed, and the lines of its command before it
        self._prompt, self._text = "", ""
        self._readline = _with_readline(self, complete, history)

    def read(self, grouped: bool, begin: str = "") -> list[str]:
        before = self._readline.get_current_history_length() if self._readline else 0
        try:
            text = self._text_of(_GROUP if grouped else _PROMPT)
        except _Cut:
            print(f"the terminal gives at most {_MOST_OF_A_LINE} bytes of a line, and this one was cut: nothing was done")
            return []
        if self._readline:
            _remember(self._readline, before, text)
        return commands(text)

    def _text_of(self, prompt: str) -> str:
        text = self._line(prompt, "")
        while not is_complete(text):
            try:
                text += "\n" + self._line(_MORE, f"{text}\n")
            except EOFError:
                # what was begun ends there
                print()
                break
        return text

    def _line(self, prompt: str, text: str) -> str:
        self._prompt, self._text = prompt, text
        if self._readline is None:
            line = input(prompt)
            if len(line.encode(errors="surrogateescape")) >= _MOST_OF_A_LINE:
                raise _Cut
            return line
        # what is pasted without the signs for it has its own indentation
        if text and not select.select([sys.stdin], [], [], 0)[0]:
            begin = indentation(text[:-1])
            self._readline.set_startup_hook(lambda: self._readline.insert_text(begin))
        try:
            return input(prompt)
        finally:
            self._readline.set_startup_hook()

    @property
    def shown(self) -> tuple[str, str]:
        """The prompt of the line that is typed, and the lines of its command before it."""
        return self._prompt, self._text


# `readline`, where this Python has it, with completion and the history.
def _with_readline(typed: Plain, complete: Complete, history: str | None) -> Any:
    import atexit

    try:
        readline: Any = importlib.import_module("readline")
    except ImportError:
        return None

    def completed(word: str, number: int) -> str | None:
        text = readline.get_line_buffer()[: readline.get_endidx()]
        begin, own = readline.get_begidx(), len(text) - len(word_before(text))
        # `readline` may take more or less of the text for the word
        found = [text[begin:own] + it.text[max(0, begin - own) :] for it in complete(typed.shown[1] + text)]
        return found[number] if number < len(found) else None

    def show(substitution: str, matches: list[str], longest: int) -> None:
        prompt, before = typed.shown
        text = readline.get_line_buffer()
        print("\n" + "\n".join(_columns([it.shown for it in complete(before + text[: readline.get_endidx()])])))
        print(prompt, text, sep="", end="", flush=True)

    readline.set_completer(completed)
    readline.set_completion_display_matches_hook(show)
    readline.set_completer_delims(" \t\n()[]{},;|<>\"!?@")
    readline.parse_and_bind("tab: complete")
    # Python turns it off: what is pasted is then taken line by line
    readline.parse_and_bind("set enable-bracketed-paste on")
    if history is not None:
        if os.path.exists(history):
            readline.read_history_file(history)
        atexit.register(readline.write_history_file, history)
    return readline


def _columns(words: list[str]) -> list[str]:
    wide = max(map(len, words), default=0) + 2
    many = max(1, shutil.get_terminal_size().columns // wide)
    return ["".join(it.ljust(wide) for it in words[at : at + many]).rstrip() for at in range(0, len(words), many)]


# Makes one line of the history of each command over lines, as it can be given again.
def _remember(readline: Any, before: int, text: str) -> None:
    if "\n" not in text:
        return
    for at in reversed(range(before, readline.get_current_history_length())):
        readline.remove_history_item(at)
    for command in commands(text):
        comments = re.sub(r'("(?:\\.|[^"\\])*")|//([^\n]*)', lambda it: it[1] or f"/*{it[2]} */", command)
        readline.add_history(" ".join(it.strip() for it in comments.split("\n") if it.strip()))


class Toolkit:
    """A terminal, by `prompt_toolkit`."""

    edits = True

    def __init__(self, complete: Complete, history: str | None, colours: bool) -> None:
        toolkit: Any = importlib.import_module("prompt_toolkit")
        histories: Any = importlib.import_module("prompt_toolkit.history")
        processors: Any = importlib.import_module("prompt_toolkit.layout.processors")
        styles: Any = importlib.import_module("prompt_toolkit.styles")
        depth: Any = importlib.import_module("prompt_toolkit.output.color_depth")
        style = {**_COLOURS, **dict.fromkeys(("matching-bracket.cursor", "matching-bracket.other"), "noinherit reverse")}
        self._session = toolkit.PromptSession(
            history=histories.FileHistory(history) if history else histories.InMemoryHistory(),
            completer=_completer(complete),
            complete_while_typing=False,
            key_bindings=_keys(),
            multiline=True,
            prompt_continuation=lambda width, line, wrapped: "" if wrapped else _MORE,
            enable_history_search=True,
            lexer=_lexer(),
            style=styles.Style.from_dict(style),
            color_depth=None if colours else depth.ColorDepth.DEPTH_1_BIT,
            input_processors=[processors.HighlightMatchingBracketProcessor(chars="()[]{}")],
        )

    def read(self, grouped: bool, begin: str = "") -> list[str]:
        return commands(str(self._session.prompt(_GROUP if grouped else _PROMPT, default=begin)))


def _completer(complete: Complete) -> Any:
    completion: Any = importlib.import_module("prompt_toolkit.completion")

    class Completer(completion.Completer):  # type: ignore[misc]
        def get_completions(self, document: Any, event: Any) -> Any:
            text = document.text_before_cursor
            for it in complete(text):
                yield completion.Completion(it.text, -len(word_before(text)), display=it.shown, display_meta=it.about)

    return Completer()


def _lexer() -> Any:
    lexers: Any = importlib.import_module("prompt_toolkit.lexers")

    class Lexer(lexers.Lexer):  # type: ignore[misc]
        def lex_document(self, document: Any) -> Any:
            lines = coloured(document.text)
            return lambda number: lines[number] if number < len(lines) else []

    return Lexer()


def coloured(text: str) -> list[list[tuple[str, str]]]:
    """Returns the lines of a text, each in pieces with their colours.

    >>> coloured('show t\\n1')
    [[('class:command', 'show'), ('', ' '), ('class:name', 't')], [('class:number', '1')]]
    """
    found: list[list[tuple[str, str]]] = [[]]
    at = 0
    pieces: list[tuple[str, str]] = []
    for kind, begin, end in tokens(text) if len(text) <= _MOST_COLOURED else ():
        pieces += [("", text[at:begin]), (f"class:{kind}", text[begin:end])]
        at = end
    for style, piece in [*pieces, ("", text[at:])]:
        first, *others = piece.split("\n")
        found[-1] += [(style, first)] * bool(first)
        found += [[(style, it)] * bool(it) for it in others]
    return found


def _keys() -> Any:
    filters: Any = importlib.import_module("prompt_toolkit.filters")
    bindings: Any = importlib.import_module("prompt_toolkit.key_binding")
    application: Any = importlib.import_module("prompt_toolkit.application.current")
    keys = bindings.KeyBindings()

    # whether only blanks are before the cursor, in a line after the first
    @filters.Condition  # type: ignore[misc]
    def indents() -> bool:
        document = application.get_app().current_buffer.document
        return document.cursor_position_row > 0 and not document.current_line_before_cursor.strip()

    @keys.add("enter")  # type: ignore[misc]
    def enter(event: Any) -> None:
        buffer = event.current_buffer
        document = buffer.document
        if document.on_last_line and is_complete(buffer.text):
            buffer.validate_and_handle()
        else:
            out = outdent(document.text_before_cursor)
            buffer.cursor_left(document.cursor_position_col)
            buffer.delete(out)
            buffer.cursor_right(document.cursor_position_col - out)
            buffer.insert_text("\n" + indentation(buffer.document.text_before_cursor))

    @keys.add("escape", "enter")  # type: ignore[misc]
    def end(event: Any) -> None:
        event.current_buffer.validate_and_handle()

    @keys.add("tab", filter=indents)  # type: ignore[misc]
    def tab(event: Any) -> None:
        event.current_buffer.insert_text("  ")

    @keys.add("s-tab", filter=indents)  # type: ignore[misc]
    @keys.add("backspace", filter=indents)  # type: ignore[misc]
    def back(event: Any) -> None:
        column = event.current_buffer.document.cursor_position_col
        event.current_buffer.delete_before_cursor((column - 1) % 2 + 1 if column else 1)

    return keys


def reader(complete: Complete, history: str | None, colours: bool) -> Reader:
    """Returns what commands are read from. The history is kept in files whose names begin so."""
    if not sys.stdin.isatty():
        return Script()
    if not os.environ.get("STRATBENCH_PLAIN"):
        with contextlib.suppress(ImportError):
            return Toolkit(complete, history and f"{history}-toolkit", colours)
    return Plain(complete, history and f"{history}-readline")
