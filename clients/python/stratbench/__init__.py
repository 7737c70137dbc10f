"""A client for the workbench `stratbench`: trees that are transformed by strategies, with exact undo.

    >>> bench = Stratbench(library=True)
    >>> bench.tree("e", "Plus(Zero,Var(\\"x\\"))")
    >>> bench.module("m", '''
    ...   signature constructors
    ...     Plus : e * e -> e   Zero : e
    ...   rules
    ...     Unit : Plus(Zero(),x) -> x
    ... ''')
    >>> bench.apply("e", "innermost(Unit)")
    >>> bench.show("e")
    'Var("x")'
    >>> bench.undo()
    >>> bench.show("e")
    'Plus(Zero,Var("x"))'
    >>> bench.close()
    0

The program is looked for in PATH; the environment's STRATBENCH names another. `stratbench.versions` says which versions of it the client
speaks to: any other is refused, with an `OSError`. Each command is answered before the next is sent.
With `Stratbench(embedded=True)` the session is in this process, in the shared object of the library for C.
"""

from __future__ import annotations

import contextlib
import re
import time
from collections.abc import Collection, Iterator, Sequence
from types import TracebackType
from typing import Final, NamedTuple, Union

from . import installed, versions
from .diagnostics import Diagnostic, Label, Telling, Told, others, parsed, told
from .embedded import Embedded, Stopped as Stopped
from .parts import Step, TooLong, Unbalanced, in_parts
from .places import Command, Text
from .private import Hidden, Names
from .process import Process
from .terms import NoTerm, Term, read, write

# A path as it is written, `/0/2`, or the steps of one, `(0, 2)`; and a term as a text, or as a value.
Path = Union[str, Sequence[int]]
TermText = Union[str, Term]

# A command is complete when the next begins. So the start of the next is sent with each: a carriage return and a blank, which
# are skipped where a command follows them.
_BEGINS: Final = "\r "
# The most bytes of a command with that start, and those of a part of a term that is longer.
_MOST: Final = 65_536 - len(_BEGINS)
_PART: Final = 50_000
# As the program has them where nothing is given: the budget of an `apply` that names none, the greatest budget, and the greatest
# size of a term.
_STEPS: Final = 100_000
_MOST_STEPS: Final = 1_000_000
_MOST_TERMS: Final = 100_000
# The refusal of a text that spells no term.
_NO_TERM: Final = 7


class Refused(Exception):
    """A command that was refused, and changed nothing.

    `number` and `word` are those of the refusal; for the number 11, whose word is `check`, there is the `fault`, as
    `('unknown', 'f', 0, 0)`, of which the first is its kind. Names that aren't words have their quotes. `explanation` says
    what was wrong; a line and a column in it are those of the text that the caller gave, as `place` is, the first of these. `diagnostic`
    is the same as data, with the places that the program has.

        >>> with Stratbench() as bench:
        ...     bench.module("m", "strategies\\n  f = id\\n  g = f)\\n")
        Traceback (most recent call last):
        stratbench.Refused: refused 10 syntax: module m: no module goes on with `)` at line 3, column 8
              g = f)
                   ^
    """

    def __init__(
        self, answer: str, explanation: str = "", place: tuple[int, int] | None = None, diagnostic: Diagnostic | None = None
    ) -> None:
        super().__init__(answer, explanation, place, diagnostic)
        self.explanation, self.place, self.diagnostic = explanation, place, diagnostic
        _, number, self.word = answer.split(" ", 2)
        self.number = int(number)
        self.fault: tuple[str, str, int, int] | None = None
        if self.number == 11:
            kind, rest = self.word.split(" ", 1)
            name, first, second = rest.rsplit(" ", 2)
            self.word, self.fault = "check", (kind, name, int(first), int(second))

    def __str__(self) -> str:
        return f"{self.args[0]}: {self.explanation}" if self.explanation else str(self.args[0])


class Ended(EOFError):
    """The program has ended: `status` is its exit status, and `said` what it said on standard error.

        >>> Stratbench(options=["--tree", "t=/none"])
        Traceback (most recent call last):
        stratbench.Ended: the session has ended with status 3: read fault: /none
            No such file or directory (os error 2)
    """

    def __init__(self, status: int, said: str) -> None:
        super().__init__(status, said)
        self.status, self.said = status, said

    def __str__(self) -> str:
        return f"the session has ended with status {self.status}" + (f": {self.said}" if self.said else "")


class Replacement(NamedTuple):
    """What an `apply` would replace: a path, the subterm there, and the term that would be there."""

    path: tuple[int, ...]
    old: Term
    new: Term

    @classmethod
    def read(cls, line: str) -> Replacement:
        """Returns what a line of a `preview` says."""
        place, old, new = _replacement(line)
        return cls(_steps(place), read(old), read(new))


class Stratbench:
    """A session. `library` loads the usual traversals first, `steps` is the budget of `apply` where it names none, and
    `options` are further words of the command line, as `["--tree", "t=in.aterm"]`. It can be a context manager, which
    closes it.

    `max_steps` is the greatest budget, from 1,000,000, which it is by default, to 4,000,000,000, `max_terms` the greatest
    size of a term that is set or built, from 100,000, which it is by default, to 1,000,000,000, and `max_tokens` the most tokens of a
    module, from 4,000, which it is by default, to 65,535. With any other number the program ends at once.

        >>> bench = Stratbench(max_steps=2_000_000, max_terms=131_071)
        >>> bench.module("m", "rules Twice : x -> (x,x)")
        >>> bench.tree("t", "a")
        >>> bench.apply("t", "; ".join(["Twice"] * 16), within=2_000_000)
        >>> bench.show("t", at=[1] * 16)
        'a'

    An `embedded` session takes no options, no `seconds` and no `max_tokens`, and isn't stopped by Ctrl-C; `stop` stops a call. The shared
    object is `program`, or what the environment's STRATBENCH_LIBRARY names, or `libstratbench.so`. It is used by one thread at a
    time, but for `stop`.

    A call that takes more than `seconds` raises `TimeoutError`, and ends the session; the attribute may be changed. What the
    program says of an accepted command, as the warnings of a module, is in `warnings` until the next command. With the option
    `--profile` that is where the steps of an `apply` or a `preview` went, too.

        >>> bench = Stratbench(seconds=10)
        >>> bench.module("m", "rules R : x -> y")
        >>> bench.warnings
        ['in `R`, line 1, column 16: `y` is only on the right side: nothing binds it']
        >>> bench.tree("t", "a")
        >>> bench.seconds = 0.001
        >>> bench.apply("t", "rec x(x)", within=1_000_000)
        Traceback (most recent call last):
        TimeoutError: no answer after 0.001 seconds
    """

    def __init__(
        self,
        library: bool = False,
        steps: int | None = None,
        options: Sequence[str] = (),
        program: str | None = None,
        seconds: float | None = None,
        embedded: bool = False,
        max_steps: int | None = None,
        max_terms: int | None = None,
        max_tokens: int | None = None,
    ) -> None:
        self.seconds = seconds
        self.warnings: list[Told] = []
        self._line = 1
        self._grouped = False
        self._names = Names()
        self._process: Process | Embedded
        if embedded:
            if options or seconds is not None or max_tokens is not None:
                raise ValueError("an embedded session takes no options, no seconds and no max_tokens")
            limits = (_MOST_TERMS if max_terms is None else max_terms, _MOST_STEPS if max_steps is None else max_steps)
            self._process = Embedded(installed.library(program), library, _STEPS if steps is None else steps, limits)
            return
        words = [installed.program(program), *options]
        versions.check_program(words[0])
        words += ["--explain=json"] + ["--library"] * library
        numbers = {"steps": steps, "max-steps": max_steps, "max-terms": max_terms, "max-tokens": max_tokens}
        words += [f"--{option}={number}" for option, number in numbers.items() if number is not None]
        self._process = Process(words)
        self._answer("history")

    def __enter__(self) -> Stratbench:
        return self

    def __exit__(self, kind: type[BaseException] | None, error: BaseException | None, trace: TracebackType | None) -> None:
        self.close()

    def close(self) -> int:
        """Ends the session, and returns the exit status of the program. What it said at its end is in `warnings`.

        >>> bench = Stratbench()
        >>> bench.close(), bench.close()
        (0, 0)
        >>> bench.trees()
        Traceback (most recent call last):
        stratbench.Ended: the session has ended with status 0
        """
        if self._process.status is None:
            with contextlib.suppress(EOFError):
                # which completes what was begun
                self._process.write("history\n")
            self._process.end()
            said = self._process.said()
            self.warnings = [*(Told(it.told()) for it in parsed(said)), *map(Told, filter(None, [_plain(others(said))]))]
        return self._process.end()

    def stop(self) -> None:
        """Stops the command that another thread waits for, in an `embedded` session: the call there raises `Stopped`, all is as it was
        before the command, and the session goes on. Where no command is run, nothing happens. Any thread may call this, as that of a
        `threading.Timer(60, bench.stop)`; but a handler of a signal is run by the main thread, once its own call has returned.
        """
        if not isinstance(self._process, Embedded):
            raise ValueError("only an embedded session can be stopped")
        self._process.stop()

    def run(self, command: str) -> str:
        """Runs a command as scripts have it, and returns its answer.

        >>> with Stratbench() as bench:
        ...     bench.run("tree t f(a,b)"), bench.run("show t at /1"), bench.run("trees")
        ('ok', 'b', 'trees t')
        """
        word = command.split(None, 1)[0] if command.strip() and not command.startswith("#") else ""
        if not word:
            raise ValueError("no command")
        return "\n".join(self._answer("", Text(command, comments=word not in ("tree", "put", "annotate"))))

    def tree(self, name: str, text: TermText) -> None:
        """Gives the name the tree that the text spells. A text that is too long for a command is given in parts, as one step.

        >>> bench = Stratbench()
        >>> bench.tree("t", "[" + ",".join(map(str, range(50_000))) + "]")
        >>> bench.show("t", at=(49_999,)), bench.history()
        ('49999', (1, 0))
        >>> bench.tree("u", Term("f", (Term(1), Term(b"a string"))))
        >>> bench.show("u")
        'f(1,"a string")'
        """
        self._give(f"tree {name} ", name, (), text)

    def put(self, name: str, at: Path, text: TermText) -> None:
        """Replaces the subterm at the path by what the text spells.

        >>> bench = Stratbench()
        >>> bench.tree("t", "f(a,b)")
        >>> bench.put("t", "/1", "g(c)")
        >>> bench.annotate("t", (0,), "{1}")
        >>> bench.copy("t", "u")
        >>> bench.drop("t")
        >>> bench.trees(), bench.show("u"), bench.term("u", at="/1").head
        (['u'], 'f(a{1},g(c))', 'g')
        """
        self._give(f"put {name} {_path(at)} ", name, _steps(at), text)

    def annotate(self, name: str, at: Path, text: str) -> None:
        """Replaces the annotations of the subterm at the path by those of the text, `{..}`."""
        self._answer(f"annotate {name} {_path(at)} ", Text(text, comments=False))

    def copy(self, name: str, to: str) -> None:
        """Gives the other name a copy of the tree."""
        self._answer(f"copy {name} {to}")

    def drop(self, name: str) -> None:
        """Takes a tree away."""
        self._answer(f"drop {name}")

    def module(self, name: str, text: str, public: Collection[str] | None = None) -> None:
        """Gives the name a module of strategies. Where `public` has names, definitions of these are seen by other modules and in strategies
        that are applied; all others are the module's own, and other modules may have some of the same names. `text` and `dump` have them
        as they are sent, with the module's name after an apostrophe.

        >>> bench = Stratbench()
        >>> bench.module("one", "strategies\\n  f = step\\n  step = ?1; !2", public=["f"])
        >>> bench.module("two", "strategies\\n  g = step; step\\n  step = ?2; !3", public=["g"])
        >>> bench.tree("t", "1")
        >>> bench.apply("t", "f")
        >>> try:
        ...     bench.apply("t", "g")
        ... except Refused as refused:
        ...     print(refused.explanation.splitlines()[1].strip())
        `?2` fails on `3`, made at `/`, in `step` of the module `two`, line 3 of its text
        >>> bench.text("two")
        "strategies\\n  g = step'two; step'two\\n  step'two = ?2; !3"
        """
        if public is None:
            self._answer(f"module {name} ", Text(text))
            return
        hidden = Hidden(name, text, public)
        # undo may bring it back, so it stays known
        self._names.add(hidden)
        self._answer(f"module {name} ", hidden)

    def unload(self, name: str) -> None:
        """Takes a module away."""
        self._answer(f"unload {name}")

    def trees(self) -> list[str]:
        """Returns the names of the trees."""
        return self._answer("trees")[0].split(" ")[1:]

    def modules(self) -> list[str]:
        """Returns the names of the modules."""
        return self._answer("modules")[0].split(" ")[1:]

    def apply(self, name: str, strategy: str, at: Path | None = None, within: int | None = None) -> None:
        """Replaces the tree, or its subterm at the path, by what the strategy gives for it in at most `within` steps.

        >>> bench = Stratbench()
        >>> bench.tree("t", "[1,2]")
        >>> bench.apply("t", '?x; prim("addi",x,40)', at="/1")
        >>> bench.show("t"), bench.show("t", at="/1")
        ('[1,42]', '42')
        >>> bench.apply("t", "f")
        Traceback (most recent call last):
        stratbench.Refused: refused 11 unknown f 0 0: at line 1, column 1
            f
            ^
        >>> try:
        ...     bench.apply("t", "rec x(x)", within=10)
        ... except Refused as refused:
        ...     print(refused.number, refused.word, refused.fault)
        13 spent None
        """
        self._answer(f"apply {name}{_place(at, within)} do ", Text(strategy))

    def preview(
        self, name: str, strategy: str, at: Path | None = None, within: int | None = None
    ) -> tuple[int, list[tuple[str, str, str]]]:
        """Returns how many steps such an `apply` would take, and what it would replace: for each place its path, the
        subterm there, and the term that would be there. Nothing changes.

        >>> bench = Stratbench()
        >>> bench.tree("t", 'f(a,"x => y")')
        >>> bench.preview("t", "all({x: ?x; ![x]})")
        (9, [('/0', 'a', '[a]'), ('/1', '"x => y"', '["x => y"]')])
        >>> bench.show("t")
        'f(a,"x => y")'
        """
        first, *lines = self._answer(f"preview {name}{_place(at, within)} do ", Text(strategy))
        return int(first.split(" ")[-1]), [_replacement(line) for line in lines]

    def replacements(self, name: str, strategy: str, at: Path | None = None, within: int | None = None) -> list[Replacement]:
        """Returns what such an `apply` would replace, as terms. Nothing changes.

        >>> bench = Stratbench()
        >>> bench.tree("t", "f(a,g(b))")
        >>> bench.replacements("t", "all(all(!1))")
        [Replacement(path=(1, 0), old=b, new=1)]
        """
        _, *lines = self._answer(f"preview {name}{_place(at, within)} do ", Text(strategy))
        return [Replacement.read(line) for line in lines]

    def show(self, name: str, at: Path | None = None) -> str:
        """Returns the tree, or its subterm at the path, as a text."""
        return self._answer(f"show {name}{_place(at)}")[0]

    def pretty(self, name: str, at: Path | None = None) -> str:
        """Returns the tree, or its subterm at the path, as a text over lines.

        >>> bench = Stratbench()
        >>> bench.tree("t", Term("f", (Term(b"a" * 60), Term(b"b" * 60))))
        >>> bench.pretty("t").split("\\n") == ["f(", '  "' + "a" * 60 + '",', '  "' + "b" * 60 + '")']
        True
        """
        return "\n".join(self._answer(f"pretty {name}{_place(at)}"))

    def term(self, name: str, at: Path | None = None) -> Term:
        """Returns the tree, or its subterm at the path, as a term."""
        return read(self.show(name, at))

    def text(self, name: str) -> str:
        """Returns the text of a module.

        >>> bench = Stratbench()
        >>> bench.module("m", "strategies\\n  f = id // nothing")
        >>> bench.text("m")
        'strategies\\n  f = id // nothing'
        """
        return "\n".join(self._answer(f"text {name}"))

    def diff(self, name: str | None = None) -> list[str]:
        """Returns what the last step changed, or in a group what that changed so far: a line for each place where a tree differs from
        the one before, and for each module that changed. With a name these are the lines of that name.

        >>> bench = Stratbench()
        >>> bench.tree("t", "f(a,g(b))")
        >>> bench.diff()
        ['t (none) => f(a,g(b))']
        >>> bench.apply("t", "all(all(!1))")
        >>> bench.diff("t")
        ['t/1/0 b => 1']
        """
        return self._answer("diff" if name is None else f"diff {name}")[1:]

    def dump(self) -> str:
        """Returns a script that makes the trees and the modules again.

        >>> bench = Stratbench()
        >>> bench.tree("t", "f(A)")
        >>> bench.module("m", "strategies f = id")
        >>> print(bench.dump())
        tree t f(A)
        begin
        module m strategies f = id
        commit
        """
        return "\n".join(self._answer("dump"))

    def undo(self, steps: int = 1) -> None:
        """Undoes this many steps."""
        self._answer(f"undo {steps}")

    def redo(self, steps: int = 1) -> None:
        """Redoes this many undone steps."""
        self._answer(f"redo {steps}")

    @contextlib.contextmanager
    def group(self) -> Iterator[Stratbench]:
        """Makes one step of the changes in it. An exception undoes them all.

        >>> bench = Stratbench()
        >>> bench.tree("t", "a")
        >>> with bench.group():
        ...     bench.tree("t", "b")
        ...     bench.apply("u", "id")
        Traceback (most recent call last):
        stratbench.Refused: refused 5 notree: there is no tree `u`
            there is `t`
        >>> bench.show("t"), bench.history()
        ('a', (1, 0))
        """
        self._answer("begin")
        try:
            yield self
            self._answer("commit")
        except BaseException:
            # where the program has ended there is nothing to take back
            with contextlib.suppress(Ended):
                self._answer("abandon")
            raise

    def history(self) -> tuple[int, int]:
        """Returns the numbers of steps that can be undone and redone."""
        undone, redone = map(int, re.findall(r"\d+", self._answer("history")[0]))
        return undone, redone

    # Gives a tree, or a subterm of one, in parts where it is too long for a command. The text isn't read here.
    def _give(self, head: str, name: str, path: tuple[int, ...], given: TermText) -> None:
        text = Text(write(given) if isinstance(given, Term) else given, comments=False)
        if len(head) + len(text.sent) <= _MOST // 2 or len((head + text.sent).encode(errors="surrogateescape")) <= _MOST:
            self._answer(head, text)
            return
        try:
            self._give_steps(head.split(" ")[0], name, list(in_parts(text.sent, path, _PART)))
        except TooLong as error:
            # it may be the blanks between its parts
            less = write(_read(text.own))
            if len(less) >= len(text.sent):
                raise Refused("refused 3 long", str(error)) from None
            self._give(head, name, path, less)
        except (Unbalanced, Refused) as error:
            # the places in what a part is refused for aren't those in the text
            if isinstance(error, Unbalanced) or error.number == _NO_TERM:
                _read(text.own)
            raise

    def _give_steps(self, begins: str, name: str, steps: list[Step]) -> None:
        if not self._grouped:
            with self.group():
                self._give_parts(name, begins, steps)
            return
        # in a group of the caller's a copy gets the parts, so that nothing has changed where one is refused
        trees = self.trees()
        aside = next(it for it in map("aside{}".format, range(len(trees) + 1)) if it not in trees)
        if begins == "put":
            self.copy(name, aside)
        try:
            self._give_parts(aside, begins, steps)
            self.copy(aside, name)
        finally:
            with contextlib.suppress(Refused):
                self.drop(aside)

    def _give_parts(self, name: str, begins: str, steps: list[Step]) -> None:
        for at, (kind, path, text) in enumerate(steps):
            if kind == "join":
                self.apply(name, text, path, within=_MOST_STEPS)
            elif at == 0 and begins == "tree":
                self._answer(f"tree {name} ", Text(text, comments=False))
            else:
                self._answer(f"{kind} {name} {_path(path)} ", Text(text, comments=False))

    # Sends a command, and returns the lines of its answer.
    def _answer(self, head: str, text: Text | None = None) -> list[str]:
        if "\n" in head or "\r" in head:
            raise ValueError("a line feed in a name or a path")
        command = Command(head, text or Text(""), self._line, 0 if self._line == 1 else len(_BEGINS))
        word = (command.sent.split(None, 1) or [""])[0]
        self.warnings = []
        try:
            lines = self._lines(word, command.sent)
        except EOFError:
            raise Ended(self._process.end(), _plain(self._process.said())) from None
        except Stopped:
            raise
        except BaseException as error:
            # the answer would be taken for that of the next command
            self._process.end(kill=True)
            if isinstance(error, TimeoutError):
                raise TimeoutError(f"no answer after {self.seconds} seconds") from None
            raise
        said = [self._names.of(it) for it in parsed(self._process.said())]
        if lines[0].startswith("refused "):
            found = next((it for it in said if it.line == command.line and it.severity == "refusal"), None)
            raise Refused(lines[0], *(command.explained(found, others=self._elsewhere) if found else ("", None)), found)
        self.warnings = [_warning(command, it, self._elsewhere) for it in said]
        self._grouped = word == "begin" or self._grouped and word not in ("commit", "abandon")
        return lines

    # Says where a place is in the caller's text of another module, if definitions of that are hidden.
    def _elsewhere(self, label: Label) -> str | None:
        if label.module is None or label.line is None or label.column is None or not self._names:
            return None
        text = None
        # with the option --stop the program has ended
        with contextlib.suppress(Ended):
            text = self._names.text(label.module, self.text(label.module))
        if text is None:
            return None
        line, column = text.own_place(label.line, label.column)
        # a sentence may say the line alone
        is_line = label.said[1] - label.said[0] == len(f"line {label.line}")
        return f"line {line}" if is_line else f"line {line}, column {column}"

    def _lines(self, word: str, command: str) -> list[str]:
        # the answers to these have any number of lines, and that to `history` begins with `undo `, as none of theirs does
        script = [command, "history"] if word in ("pretty", "text", "dump") else [command]
        self._process.write("".join(f"{it}\n{_BEGINS}" for it in script))
        if self._process.goes_on:
            self._line += command.count("\n") + len(script)
        until = None if self.seconds is None else time.monotonic() + self.seconds
        lines = [self._process.line(until)]
        if word in ("preview", "diff") and lines[0].startswith("changes "):
            lines += [self._process.line(until) for _ in range(int(lines[0].split(" ")[1]))]
        elif len(script) > 1:
            while not lines[-1].startswith("undo "):
                lines.append(self._process.line(until))
            lines.pop()
        return lines


# All that the program said, without its name.
def _plain(said: str) -> str:
    plain = re.sub(r"^stratbench: ", "", others(said), flags=re.MULTILINE)
    return "\n".join([*filter(None, [plain]), *map(told, parsed(said))])


# A warning on a command.
def _warning(command: Command, it: Diagnostic, others: Telling) -> Told:
    text, place = command.explained(it, others=others)
    warning = Told(text)
    warning.place = place
    return warning


# The term of a text.
def _read(text: str) -> Term:
    try:
        return read(text)
    except NoTerm as error:
        raise Refused(f"refused {_NO_TERM} term", str(error)) from None


# A line of `preview`: a path, the term that is there, and the one that would be there.
def _replacement(line: str) -> tuple[str, str, str]:
    at, _, rest = line.partition(" ")
    # outside strings, a printed term has no blanks
    end = next(found.start() for found in re.finditer(r'"(?:\\.|[^"\\])*"| ', rest, re.DOTALL) if found.group() == " ")
    return at, rest[:end], rest[end + len(" => ") :]


def _path(at: Path) -> str:
    return at if isinstance(at, str) else "/" + "/".join(map(str, at))


def _steps(at: Path) -> tuple[int, ...]:
    return tuple(int(step) for step in at.split("/") if step) if isinstance(at, str) else tuple(at)


def _place(at: Path | None, within: int | None = None) -> str:
    return (f" at {_path(at)}" if at is not None else "") + (f" within {within}" if within is not None else "")
