"""What the commands at a terminal do in a session."""

from __future__ import annotations

import contextlib
import difflib
import inspect
import itertools
import os
import re
import shlex
import shutil
import signal
import subprocess
import tempfile
from collections.abc import Callable, Iterable
from typing import Final, Literal

from .. import Refused, Replacement
from ..places import shown
from ..python import deep
from ..settings import NAME as SETTINGS
from ..settings import BadSettings, settings_of
from ..terms import Term, read, readable
from .browsing import described, listed
from .completion import Candidate, Completer
from .output import Clock, Target, deliver, is_long, page, split_target
from .session import Again, Gone, Loaded, Refusal, RefusedFile, Session
from .syntax import FORMS, of_script
from .view import Marked, Paint, against, changed, differences, folded, lines, plain, surroundings, with_characters

# The shell's own commands, with their forms and what they do.
OWN: Final = {
    "load": ("[FILE..]", "load modules (*.str) and trees (other files), as one step, or those of stratbench.json; NAME=FILE gives a name"),
    "reload": ("[NAME..]", "load again what has changed of these files, or those of these names"),
    "save": ("NAME FILE", "write a module or a tree to a file"),
    "edit": ("NAME", "edit a module or a tree in $EDITOR, and load it"),
    "run": ("FILE", "run the commands of a script"),
    "history": ("", "the steps of this session, with their numbers"),
    "undo": ("[N]", "go to the point after step N, or a step back"),
    "diff": ("", "what the last step changed"),
    "why": ("", "the last refusal again"),
    "profile": ("N [at P] [within K] do S", "where the steps of that `apply` would go, which isn't done"),
    "info": ("NAME", "what a tree, a module, a constructor or a definition is"),
    "browse": ("[MODULE]", "what a module declares and defines, or all modules"),
    "depth": ("N", "show trees down to N levels; 0 shows all"),
    "set": ("[NAME VALUE]", "the settings, or another value for one: depth, pager, timing, bytes"),
    "help": ("", "this list"),
    "quit": ("", "end, as Ctrl-D does"),
}
_HELP: Final = """\
Other lines are commands of the workbench:
{forms}
N and C are names, P is a path as /0/2, T a term, M the text of a module, S a strategy, K a number.
A command goes on over lines while brackets are open; `module N` and `tree N` alone go on, too. An empty line ends them.
After a command that shows something `> FILE`, `>> FILE` and `| PROGRAM` say where that goes.
Tab completes. Ctrl-R searches what was typed. Ctrl-C cancels a line, or stops a run that takes long; the session is then as before it."""
# A text larger than this is shown without its changes in colour.
_LARGE: Final = 1_000_000
_RED: Final = "31"
_GREEN: Final = "32"
# What is shown of a step, and the width of text that goes to an editor.
_STEP = 90
_WIDE = 100


# Commands that go on by themselves, or have the terminal: what they show isn't kept for a pager.
_AT_ONCE: Final = (":load", ":reload", ":run", ":edit", ":quit")


class Quit(Exception):
    """The end of the shell."""


class Shell:
    """What the commands at a terminal mean in a session. Texts are shown by `say`, with `colours` where there can be some."""

    def __init__(self, session: Session, say: Callable[[str], None], colours: bool = False, at_terminal: bool = False) -> None:
        self.session, self._say, self.colours = session, say, colours
        # whether texts go to a terminal, and those that are kept until the command is done
        self._at_terminal = at_terminal
        self._kept: list[str] | None = None
        self._clock = Clock(False)
        self.switches = {"pager": True, "timing": False, "bytes": False}
        # whether a text can be edited where commands are typed, and the one with which the next command begins
        self.edits_here, self.begun = False, ""
        self.depth: int | None = 12
        self.last = "no command was refused"
        # that the session was made again while nothing could be shown
        self._again = ""
        # the files that were loaded, each with the name that it was given, and what it had
        self._files: dict[str, tuple[str, Loaded]] = {}
        # texts from the editor that were refused, and commands that were typed with such a text
        self._drafts: dict[str, str] = {}
        self._typed: dict[str, str] = {}
        self._own: dict[str, Callable[..., None]] = {word: getattr(self, f"do_{word}") for word in OWN}
        own = {f":{word}": form for word, (form, _) in OWN.items()}
        self._completer = Completer(session, own, self._steps, lambda: [it.name for _, it in self._files.values()])

    def do(self, command: str) -> bool:
        """Does a command, and shows what comes of it. Returns whether it wasn't stopped."""
        if self._again:
            self.say(self._again)
            self._again = ""
        try:
            if command.strip() and not command.startswith("#"):
                self._do_timed(command.lstrip())
        except (Refused, RefusedFile) as refused:
            self.last = str(refused)
            self.say(self.last)
        except Again as again:
            # on a line of its own, since the terminal has shown `^C`
            stopped = "\n" if again.stopped else ""
            self.say(f"{stopped}{again}: the session was made again, as it was before this command")
            return not again.stopped
        except KeyboardInterrupt:
            self.say("\nstopped, when the command was done")
            return False
        except OSError as error:
            self.say(f"{error.filename}: {error.strerror}" if error.filename else str(error))
        except (Gone, Refusal, ValueError) as error:
            self.say(str(error))
        except Quit:
            raise
        except Exception as error:
            # a mistake of the shell doesn't end the session
            self.say(f"the shell has a fault: {type(error).__name__}: {error}")
        return True

    def say(self, text: str) -> None:
        """Shows a text, now or when the command is done."""
        if self._kept is not None:
            self._kept.append(text)
        else:
            self._clock.clear()
            self._say(text)

    # Does a command, shows what it says where that belongs, and how long it took, where that is wanted.
    def _do_timed(self, command: str) -> None:
        command, target = split_target(self._expanded(command))
        at_once = command.split(None, 1)[0] in _AT_ONCE
        with Clock(self._at_terminal and not at_once) as self._clock:
            said = None if at_once else self._said(command, target is not None)
            if at_once:
                self._do_any(command)
        if said is not None:
            self._deliver(said, target)
        if self.switches["timing"]:
            self.say(f"took {self._clock.seconds:.2f} s")

    # What a command says; for a file or a program without colours, and with nothing left out.
    def _said(self, command: str, is_plain: bool) -> str:
        before = self.colours, self.depth
        if is_plain:
            self.colours, self.depth = False, None
        kept: list[str] = []
        self._kept = kept
        try:
            self._do_any(command)
            return "\n".join(kept)
        except BaseException:
            self._kept = None
            for it in kept:
                self.say(it)
            raise
        finally:
            self._kept = None
            if is_plain:
                self.colours, self.depth = before

    def _deliver(self, text: str, target: Target | None) -> None:
        if target is not None:
            text = deliver(text, target)
        elif self._at_terminal and self.switches["pager"] and is_long(text) and page(text):
            return
        if text:
            self.say(text)

    def _do_any(self, command: str) -> None:
        if command.startswith(":"):
            self._do_own(command)
        else:
            self._do(command)

    # A command of the shell with the whole of its word, of which the beginning is enough.
    def _expanded(self, command: str) -> str:
        if not command.startswith(":"):
            return command
        word, *rest = command[1:].split(None, 1) or [""]
        found = [word] if word in OWN else [it for it in OWN if word and it.startswith(word)]
        if not found:
            raise Refusal(f"there is no :{word}; :help lists what there is")
        if len(found) > 1:
            raise Refusal(f":{word} may be {' or '.join(f':{it}' for it in found)}")
        return " ".join([f":{found[0]}", *rest])

    def completions(self, text: str) -> list[Candidate]:
        """Returns what the last word of a text may become."""
        with contextlib.suppress(Again, Gone, KeyboardInterrupt):
            try:
                return self._completer.candidates(text)
            except Again as again:
                # the next command says so
                self._again = f"{again}: the session was made again"
                return self._completer.candidates(text)
        return []

    def _do(self, command: str) -> None:
        words = command.split()
        if words[0] in ("module", "tree") and len(words) == 2:
            raise Refusal(f"{command.strip()}: there is no text, and nothing was done")
        if words[0] == "exit":
            raise Refusal("`:quit` or Ctrl-D ends")
        if words[0] in OWN and words[0] not in FORMS:
            raise Refusal(f"the shell's own commands begin with a colon: `:{words[0]}`")
        if words[0] == "preview":
            self._preview(command, words[1:2])
        elif words[0] == "show":
            self._show(command, words)
        elif words[0] == "pretty" and not self.switches["bytes"]:
            self.say(readable(self.session.run(command)))
        elif words[0] in ("module", "tree"):
            self._typed[words[1]] = command
            self.say(self.session.run(command))
            del self._typed[words[1]]
        else:
            self.say(self.session.run(command))
        self._say_warnings()

    # What the program says of what it accepted, with the place that it speaks of.
    def _say_warnings(self) -> None:
        for said, text, place in self.session.warnings:
            self.say(f"warning: {said}")
            rows = text.split("\n")
            if place and "\n" not in said and place[0] <= len(rows):
                self.say("\n".join(f"    {it}" for it in shown(rows[place[0] - 1], place[1])))

    def _show(self, command: str, words: list[str]) -> None:
        text = self.session.run(command)
        term, marks = self._readable(read(text)), None
        if self.colours and len(text) < _LARGE:
            old = self.session.before(words[1], words[3] if len(words) > 3 else None)
            with deep():
                marks = changed(self._readable(old), term)[1] if old is not None else None
        self._say_term(term, marks)

    # A term as it is shown: with the characters of strings, or their bytes.
    def _readable(self, term: Term) -> Term:
        if self.switches["bytes"]:
            return term
        with deep():
            return with_characters(term)

    def _say_term(self, term: Term, marks: Marked) -> None:
        with deep():
            near, below = folded(term, self.depth, marks)
            self.say("\n".join(lines(near, self._width(), marks=below, paint=self._paint(_GREEN))))

    def _preview(self, command: str, name: list[str]) -> None:
        first, *rest = self.session.run(command).split("\n")
        self.say(first)
        if rest:
            self._show_places(self.session.ask(lambda it: it.term(name[0])), map(Replacement.read, rest))

    # Places of a tree, each with what is around it, and the old against the new.
    def _show_places(self, tree: Term, places: Iterable[Replacement]) -> None:
        tree = self._readable(tree)
        for place in places:
            it = Replacement(place.path, self._readable(place.old), self._readable(place.new))
            path, width = "/" + "/".join(map(str, it.path)), self._width()
            with deep():
                around = f" in {surroundings(tree, it.path, width - len(path) - len(' in '))}" if it.path else ""
                terms = against(it.old, it.new, width, self.depth, self._paint(_RED), self._paint(_GREEN))
            self.say("\n".join([path + around, *terms]))

    def _width(self) -> int:
        return shutil.get_terminal_size().columns

    def _paint(self, colour: str) -> Paint:
        return (lambda text: f"\x1b[{colour}m{text}\x1b[m") if self.colours else plain

    def _do_own(self, command: str) -> None:
        word, *rest = command[1:].split(None, 1)
        form, what = OWN[word]
        # a strategy stays as it is
        words = rest if word == "profile" else shlex.split(command[1:])[1:]
        try:
            inspect.signature(self._own[word]).bind(*words)
        except TypeError:
            raise Refusal(f"the form is `{f':{word} {form}'.rstrip()}`: {what}") from None
        self._own[word](*words)

    def do_help(self) -> None:
        for word, (form, what) in OWN.items():
            self.say(f"{f':{word} {form}':18} {what}")
        forms = [f"{word} {form}".rstrip() for word, form in FORMS.items()]
        rows = [f"  {one:40}{other}".rstrip() for one, other in itertools.zip_longest(forms[::2], forms[1::2], fillvalue="")]
        self.say(_HELP.format(forms="\n".join(rows)))
        if self.edits_here:
            self.say("In the last line of a text Enter ends it, in others it begins a line; Escape and then Enter ends it anywhere.")

    def do_quit(self) -> None:
        raise Quit

    def do_why(self) -> None:
        self.say(self.last)

    def do_profile(self, strategy: str) -> None:
        self.say(self.session.profile(f"preview {strategy}"))

    def do_info(self, name: str) -> None:
        self.say("\n".join(described(self.session, name)))

    def do_browse(self, name: str = "") -> None:
        self.say("\n".join(listed(self.session, name)) or "there is no module")

    def do_depth(self, number: str) -> None:
        if not number.isdigit():
            raise Refusal(f"{number} is no number of levels")
        self.depth = int(number) or None

    def do_set(self, name: str = "", value: str = "") -> None:
        if not name:
            self.say(f"depth {self.depth or 0}")
            self.say("\n".join(f"{name} {'on' if is_on else 'off'}" for name, is_on in self.switches.items()))
        elif name == "depth":
            self.do_depth(value)
        elif name not in self.switches:
            raise Refusal(f"there is no setting {name}: there are {', '.join(['depth', *self.switches])}")
        elif value not in ("on", "off"):
            raise Refusal(f"{name} is `on` or `off`")
        else:
            self.switches[name] = value == "on"

    # What the session's own steps were, from the start on, those that are undone after the others.
    def _steps(self) -> list[str]:
        session = self.session
        return ["the start", *session.done[session.started :], *reversed(session.undone)]

    def do_history(self) -> None:
        session = self.session
        first = -session.started
        steps = [*session.done, *reversed(session.undone)]
        self.say(f"{first:4}   nothing")
        for at, it in enumerate(steps, first + 1):
            undone = at > len(session.done) + first
            self.say(f"{at:4} {'u ' if undone else '  '}{it if len(it) <= _STEP else it[: _STEP - 2] + '..'}")
        if session.group is not None:
            self.say(f"a group is open, with {len(session.group)} changes")

    def do_undo(self, step: str = "") -> None:
        own = len(self.session.done) - self.session.started
        if not step and own <= 0:
            raise Refusal("there is no step of yours to undo")
        if not re.fullmatch(r"-?\d*", step) or step == "-":
            raise Refusal(f"{step} is no step; :history shows them")
        self.session.go_to(int(step) if step else own - 1)
        self.say("ok")

    def do_diff(self) -> None:
        (trees_before, before), (trees, modules) = self.session.last_step()
        for name in sorted({*trees_before, *trees}):
            if name in trees_before and name in trees:
                with deep():
                    places = differences(trees_before[name], trees[name])
                if places:
                    self.say(f"tree {name}")
                    self._show_places(trees[name], places)
            else:
                self.say(f"tree {name}: {'new' if name in trees else 'dropped'}")
        for name in sorted({*before, *modules}):
            old, new = (it.get(name, "").splitlines() for it in (before, modules))
            for line in difflib.unified_diff(old, new, f"module {name}, before", f"module {name}", lineterm=""):
                self.say({"-": self._paint(_RED), "+": self._paint(_GREEN)}.get(line[0], plain)(line))

    def do_load(self, *files: str) -> None:
        if not files:
            self._load_settings()
            return
        found = [self._from_file(it) for it in files]
        self._load([it for _, it in found], f":load {' '.join(files)}")
        self._files.update((it.file, (name, it)) for name, it in found)

    # Loads the modules that the folder's settings name, with the constructors that they want.
    def _load_settings(self) -> None:
        try:
            settings = settings_of(os.getcwd())
        except BadSettings as why:
            raise Refusal(str(why)) from None
        if not settings.is_there:
            raise Refusal(f"no file is named, and there is no {SETTINGS} in this folder or around it")
        found = [self._from_file(os.path.relpath(it)) for it in settings.files(os.getcwd())]
        names = {it.name for _, it in found}
        declared = [Loaded("module", name, text) for name, text in settings.declared() if name not in names]
        if found or declared:
            self._load([*declared, *(it for _, it in found)], ":load")
            self._files.update((it.file, (name, it)) for name, it in found)

    def do_reload(self, *names: str) -> None:
        known = {name: file for file, (_, it) in self._files.items() for name in (file, it.name, _stem(file))}
        for name in names:
            if name not in known:
                raise Refusal(f"no file of the name {name} was loaded")
        found = []
        for file, (name, before) in self._files.items():
            _, it = entry = self._from_file(f"{name}={file}" if name else file)
            if it.text != before.text and not names or file in map(known.get, names):
                found.append(entry)
        if not found:
            raise Refusal("no file has changed" if self._files else "no file was loaded")
        self._load([it for _, it in found], ":reload " + " ".join(it.file for _, it in found))
        self._files.update((it.file, (name, it)) for name, it in found)

    def _load(self, loaded: list[Loaded], what: str) -> None:
        self.session.load(loaded, what)
        self.say("\n".join(f"{it.kind} {it.name}" for it in loaded))
        self._say_warnings()

    # What a file has, with the name that it was given. A module has its own name, or that of its file.
    def _from_file(self, word: str) -> tuple[str, Loaded]:
        name, equals, path = word.partition("=")
        if not equals:
            name, path = "", word
        path = os.path.expanduser(path)
        with open(path, encoding="utf-8", errors="surrogateescape", newline="") as it:
            text = it.read()
        if not path.endswith(".str"):
            return name, Loaded("tree", name or _stem(path), text, path)
        own = re.match(r"(?:\s|//[^\n]*\n|/\*.*?\*/)*module\s+([A-Za-z_][A-Za-z0-9_+*$.'-]*)", text, re.DOTALL)
        return name, Loaded("module", name or (own[1] if own else _stem(path)), text, path)

    def do_save(self, name: str, file: str) -> None:
        trees, modules = self._names()
        file = os.path.expanduser(file)
        is_module = name in modules and (name not in trees or file.endswith(".str"))
        text = self.session.ask(lambda it: it.text(name) if is_module else it.show(name)) + "\n"
        with open(file, "w", encoding="utf-8", errors="surrogateescape", newline="") as it:
            it.write(text)
        # it is that of a loaded file from now on
        self._files[file] = name, Loaded("module" if is_module else "tree", name, text, file)
        self.say(f"{len(text)} bytes")

    def _names(self) -> tuple[list[str], list[str]]:
        return self.session.ask(lambda it: (it.trees(), it.modules()))

    def do_edit(self, name: str) -> None:
        trees, modules = self._names()
        if name not in trees and name not in modules and name not in self._typed and name not in self._drafts:
            self.say(f"there is no {name} yet; this is a new module")
        kind: Literal["tree", "module"] = "tree" if name in trees and name not in modules else "module"
        before = self._text(kind, name) if kind == "tree" or name in modules else ""
        file = next((file for file, (_, it) in self._files.items() if (it.kind, it.name) == (kind, name)), "")
        if self.edits_here and not _editor():
            kept = f"tree {name} {before}" if kind == "tree" else f"module {name}\n{_indented(before)}"
            self.begun = self._typed.pop(name, kept)
        elif file and _same(self._files[file][1].text, before):
            self._edit_file(name, file)
        else:
            self._edit_text(kind, name, before)

    def _text(self, kind: str, name: str) -> str:
        if kind == "module":
            return self.session.ask(lambda it: it.text(name))
        with deep():
            return "\n".join(lines(self.session.ask(lambda it: it.term(name)), _WIDE))

    # Edits the file that has what is loaded.
    def _edit_file(self, name: str, file: str) -> None:
        _edit(file)
        given, before = self._files[file]
        _, it = self._from_file(f"{given}={file}" if given else file)
        if it.text == before.text:
            raise Refusal("nothing has changed")
        self._load([it], f":edit {name}")
        self._files[file] = given, it

    # Edits a text, and keeps one that is refused for the next time.
    def _edit_text(self, kind: Literal["tree", "module"], name: str, before: str) -> None:
        text = self._edited(name, kind, before)
        if text == before:
            raise Refusal("nothing has changed")
        try:
            self._load([Loaded(kind, name, text)], f":edit {name}")
        except Refused:
            self._drafts[name] = text
            self.say(f"`:edit {name}` goes on with what you wrote")
            raise

    # The text from the editor: it begins with the one that was refused last, if there is one.
    def _edited(self, name: str, kind: str, before: str) -> str:
        with tempfile.TemporaryDirectory(prefix="stratbench-") as room:
            path = f"{room}/{name}.{'str' if kind == 'module' else 'aterm'}"
            with open(path, "w", encoding="utf-8", errors="surrogateescape") as it:
                it.write(f"{self._drafts.pop(name, before)}\n")
            _edit(path)
            with open(path, encoding="utf-8", errors="surrogateescape") as it:
                return it.read().rstrip("\n")

    def do_run(self, file: str) -> None:
        with open(os.path.expanduser(file), encoding="utf-8", errors="surrogateescape") as it:
            script = it.readlines()
        for command in of_script(script):
            self.say(f"> {command}")
            if not self.do(command):
                break


def _stem(path: str) -> str:
    return os.path.splitext(os.path.basename(path))[0]


# Whether two texts differ in blanks at most.
def _same(one: str, two: str) -> bool:
    return one.split() == two.split()


def _editor() -> list[str]:
    return shlex.split(os.environ.get("VISUAL") or os.environ.get("EDITOR") or "")


# Opens a file in the editor, to which Ctrl-C belongs while it runs.
def _edit(path: str) -> None:
    command = _editor() or ["vi"]
    before = signal.signal(signal.SIGINT, lambda number, frame: None)
    try:
        subprocess.run([*command, path], check=False)
    except FileNotFoundError:
        raise Refusal(f"there is no editor `{command[0]}`; the environment's EDITOR names another") from None
    finally:
        signal.signal(signal.SIGINT, before)


# The text of a module without its own head, with lines that begin with two blanks at least.
def _indented(text: str) -> str:
    first, *others = re.sub(r"^\s*module\s+\S+[ \t]*\n?", "", text).split("\n")
    few = min((len(it) - len(it.lstrip()) for it in others if it.strip()), default=0)
    return "\n".join([f"  {first.strip()}", *("  " + it[few:] if few < 2 else it for it in others)])
