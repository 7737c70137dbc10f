"""A session that can be made again, with what each of its steps was."""

from __future__ import annotations

import contextlib
import re
import signal
import time
from collections.abc import Callable, Iterator, Sequence
from typing import Any, Final, Literal, NamedTuple, TypeVar

from .. import Ended, Refused, Stratbench
from ..terms import Term

# The commands that are steps, those of trees and others, and all that change a session.
_OF_TREES: Final = ("tree", "copy", "drop", "put", "annotate", "apply")
_STEPS: Final = (*_OF_TREES, "module", "unload")
_CHANGES: Final = (*_STEPS, "undo", "redo", "begin", "commit", "abandon")

_Given = TypeVar("_Given")
# Trees, and the texts of modules, by their names.
_Contents = tuple[dict[str, Term], dict[str, str]]


class Again(Exception):
    """A call was stopped, or the program ended in it. The session has been made again, as it was before the call."""

    def __init__(self, why: str, stopped: bool) -> None:
        super().__init__(why)
        self.stopped = stopped


class Gone(Exception):
    """The session couldn't be made again; it says why. The next call tries it once more."""


class Refusal(Exception):
    """What the shell itself refuses; it says why."""


class Loaded(NamedTuple):
    """A tree or a module that is loaded, by its name and text, and the file that it is from."""

    kind: Literal["tree", "module"]
    name: str
    text: str
    file: str = ""


class RefusedFile(Exception):
    """A file that was refused when it was loaded, and why."""


def _contents(bench: Stratbench) -> _Contents:
    return {it: bench.term(it) for it in bench.trees()}, {it: bench.text(it) for it in bench.modules()}


# How the program has ended.
def _how(ended: Ended) -> str:
    if ended.status >= 0:
        return str(ended)
    said = f": {ended.said}" if ended.said else ""
    return f"the program was ended by {signal.Signals(-ended.status).name}{said}"


# Says which of the files was refused, where that can be seen.
@contextlib.contextmanager
def _of_file(loaded: Sequence[Loaded]) -> Iterator[None]:
    try:
        yield
    except Refused as refused:
        named = refused.diagnostic and refused.diagnostic.module
        found = loaded if len(loaded) == 1 else [it for it in loaded if (it.kind, it.name) == ("module", named)]
        if not found or not found[0].file:
            raise
        raise RefusedFile(f"{found[0].file}: {refused}") from None


class Session:
    """A session of the program, started with these arguments of `Stratbench`. Where making it again takes long, `tell` says so."""

    def __init__(self, tell: Callable[[str], None], **start: Any) -> None:
        self._start, self._tell = start, tell
        # all that was changed, in order
        self._made: list[Callable[[Stratbench], object]] = []
        self.bench = Stratbench(**start)
        # what the program said of the last command, each with the text that it speaks of
        self.warnings: list[tuple[str, str, tuple[int, int] | None]] = []
        # what the steps were that can be undone and redone, the next last; the first ones are those of the start
        self.done = ["the start of the session"] * self.bench.history()[0]
        self.undone: list[str] = []
        self.started = len(self.done)
        # what was done in the open group
        self.group: list[str] | None = None

    def run(self, command: str) -> str:
        """Runs a command, and returns its answer."""
        words = command.split()
        if words[0] == "undo" and self.group is None:
            self._check_undo(words[1:])
        note = (lambda: self._note(words, command)) if words[0] in _CHANGES else None
        answer = self._call(lambda bench: bench.run(command), note)
        self.warnings = [(it, command, it.place) for it in self.bench.warnings]
        return answer

    def load(self, loaded: Sequence[Loaded], what: str) -> None:
        """Loads trees and modules, as one step."""
        said: list[tuple[str, str, tuple[int, int] | None]] = []

        def give(bench: Stratbench, it: Loaded) -> None:
            with _of_file([it]):
                if it.kind == "tree":
                    bench.tree(it.name, it.text)
                else:
                    bench.module(it.name, it.text)
            said.extend((f"{it.file}: {warning}" if it.file else warning, it.text, warning.place) for warning in bench.warnings)

        def give_all(bench: Stratbench) -> None:
            # one is a step of its own, with names looked at as it is given
            group = contextlib.nullcontext() if self.group is not None or len(loaded) == 1 else bench.group()
            with _of_file(loaded), group:
                for it in loaded:
                    give(bench, it)

        self._call(give_all, lambda: self._note(["tree"], what))
        # not those of when it is made again
        self.warnings = said[:]

    def go_to(self, step: int) -> None:
        """Undoes or redoes until this was the last step. The first of the session's own is 1, and those of its start are below 1."""
        own = len(self.done) - self.started
        if not -self.started <= step <= own + len(self.undone):
            raise Refusal(f"there are the steps {-self.started} to {own + len(self.undone)}")
        if step != own:
            command = f"undo {own - step}" if step < own else f"redo {step - own}"
            self._call(lambda bench: bench.run(command), lambda: self._note(command.split(), command))

    def last_step(self) -> tuple[_Contents, _Contents]:
        """Returns all trees and modules before the last step and now."""
        if self.group is not None or not self.done:
            raise Refusal("a group is open" if self.done else "there is no step")

        def both(bench: Stratbench) -> tuple[_Contents, _Contents]:
            now = _contents(bench)
            bench.undo()
            before = _contents(bench)
            bench.redo()
            return before, now

        return self.ask(both)

    def before(self, name: str, at: str | None) -> Term | None:
        """Returns what a tree had at a path before the last step, where it had something there, and nothing was undone since."""
        if self.group is not None or self.undone or len(self.done) == self.started:
            return None
        if not any(it.split(" ")[0] in _OF_TREES for it in self.done[-1].split("; ")):
            return None

        def there(bench: Stratbench) -> Term | None:
            bench.undo()
            found = None
            with contextlib.suppress(Refused):
                found = bench.term(name, at)
            bench.redo()
            return found

        return self.ask(there)

    def profile(self, command: str) -> str:
        """Returns where the steps of a `preview` go. It runs in a session of its own, with the trees and modules of this one."""
        trees, modules = self.ask(_contents)
        start: dict[str, Any] = {**self._start, "library": False, "options": [*self._start.get("options", ()), "--profile"]}
        with Stratbench(**start) as bench:
            for name, tree in trees.items():
                bench.tree(name, tree)
            with bench.group():
                for name, text in modules.items():
                    bench.module(name, text)
            bench.run(command)
            return "\n".join(bench.warnings)

    def ask(self, question: Callable[[Stratbench], _Given]) -> _Given:
        """Returns what the session has for a call that changes nothing."""
        return self._call(question)

    # Calls the program. What changed the session is noted: until that is done Ctrl-C waits.
    def _call(self, call: Callable[[Stratbench], _Given], note: Callable[[], None] | None = None) -> _Given:
        try:
            found = call(self.bench)
            signal.pthread_sigmask(signal.SIG_BLOCK, {signal.SIGINT})
        except KeyboardInterrupt:
            self._again()
            raise Again("stopped", True) from None
        except Ended as ended:
            self._again()
            raise Again(_how(ended), False) from None
        try:
            if note is not None:
                self._made.append(call)
                note()
        finally:
            signal.pthread_sigmask(signal.SIG_UNBLOCK, {signal.SIGINT})
        return found

    # Makes the session again; nothing stops that. Where it can't be done the session is an ended one, and the next call tries again.
    def _again(self) -> None:
        before = signal.signal(signal.SIGINT, signal.SIG_IGN)
        begun, told = time.monotonic(), False
        try:
            self.bench.close()
            self.bench = Stratbench(**self._start)
            for at, call in enumerate(self._made):
                if not told and time.monotonic() > begun + 1:
                    self._tell(f"the session is made again: {at} of {len(self._made)} changes so far ..")
                    told = True
                call(self.bench)
        except (Ended, Refused, RefusedFile, OSError) as error:
            self.bench.close()
            why = f"{error.filename}: {error.strerror}" if isinstance(error, OSError) and error.filename else str(error)
            raise Gone(f"the session couldn't be made again: {why}\nthe next command tries it once more") from None
        finally:
            signal.signal(signal.SIGINT, before)

    def _check_undo(self, numbers: list[str]) -> None:
        own = max(0, len(self.done) - self.started)
        if len(numbers) > 1 or numbers and not numbers[0].isdigit():
            return
        if int(numbers[0] if numbers else 1) > own:
            further = f"; `:undo {-self.started}` takes back the start of the session, too" if self.started else ""
            raise Refusal(f"{own} of your steps can be undone{further}")

    def _note(self, words: list[str], command: str) -> None:
        what = " ".join(command.split())
        if words[0] in _STEPS and self.group is not None:
            self.group.append(what)
        elif words[0] in _STEPS:
            self._step(what)
        elif words[0] == "begin":
            self.group = []
        elif words[0] == "commit":
            if self.group:
                self._step("; ".join(self.group))
            self.group = None
        elif words[0] == "abandon":
            self.group = None
        elif words[0] in ("undo", "redo"):
            one, two = (self.done, self.undone) if words[0] == "undo" else (self.undone, self.done)
            for _ in range(int(words[1]) if len(words) > 1 else 1):
                two.append(one.pop())

    def _step(self, what: str) -> None:
        # the steps of the start may have been undone, too
        self.started = min(self.started, len(self.done))
        self.done.append(what)
        self.undone = []
