"""The client: what its refusals say, with places in the caller's own text; long texts; how sessions end."""

import contextlib
import doctest
import gc
import importlib
import os
import signal
import subprocess
import sys
import tempfile

from stratbench import Ended, Refused, Stratbench
from stratbench.parts import in_parts
from stratbench.terms import LIST, TUPLE, Term, items, read, write
from stratbench.versions import Misfit

# Calls that are refused: the name of the method, its arguments, what the refusal says, and the place.
REFUSED = [
    ("module", ("m", "rules\n  A : x -> x\nB : y) -> y\n"), "module m: no module goes on with `)` at line 3, column 6\n    B : y) -> y\n         ^", (3, 6)),
    ("module", ("m", 'rules A : x -> "one\ntwo" B : y) -> y'), "module m: no module goes on with `)` at line 2, column 11\n    two\" B : y) -> y\n              ^", (2, 11)),
    ("module", ("m", "// one\n/* two\nthree */ rules A : -> x"), "module m: no module goes on with `->` at line 3, column 20\n    three */ rules A : -> x\n                       ^", (3, 20)),
    ("module", ("m", "strategies\nf = g"), "in `f` of the module `m`, line 2, column 5\n    f = g\n        ^", (2, 5)),
    ("module", ("m", "strategies f = (id"), "module m: the module ends too early: the `(` at line 1, column 16 has no `)`\n    strategies f = (id\n                   ^", (1, 16)),
    ("tree", ("t", "f(a,\n b,,c)"), "no term goes on with `,` at line 2, column 4; the `(` at line 1, column 2 is open\n     b,,c)\n       ^", (2, 4)),
    ("tree", ("t", '("a\nb",)'), "no term goes on with `)` at line 2, column 4; the `(` at line 1, column 1 is open\n    b\",)\n       ^", (2, 4)),
    ("put", ("old", "/0", "g(\n1.5)"), None, (2, 2)),
    ("put", ("old", (5,), "g"), "`/5` leads only as far as `/`, where the subterm has 2 children; they are counted from 0", None),
    ("annotate", ("old", "/", "{a"), None, (1, 1)),
    ("apply", ("old", "topdown(id)"), "at line 1, column 1\n    topdown(id)\n    ^\n    the library defines `topdown`, but `--library` wasn't given; it takes 1 strategy", (1, 1)),
    ("apply", ("old", "\n  {x:\n?x}; g"), "at line 3, column 6\n    ?x}; g\n         ^", (3, 6)),
    ("apply", ("old", "é" * 3), None, (1, 1)),
    ("preview", ("old", "id;" + " " * 200 + "g;id"), "at line 1, column 204\n    .." + " " * 60 + "g;id\n    " + " " * 62 + "^", (1, 204)),
    ("show", ("none",), "there is no tree `none`\n    there is `old`", None),
    ("unload", ("base",), "in `twice` of the module `uses`, line 2, column 11 of its text\n      twice = half; half\n              ^\n    also unknown half 0 0, in `twice` of the module `uses`, line 2, column 17 of its text", None),
    ("module", ("a", "strategies\nhalf = id"), "in `half` of the module `base`, line 1, column 12 of its text\n    strategies half = id\n               ^\n    the module `a` defines it, too, at line 2, column 1", (2, 1)),
    ("run", ("apply old do\n g"), "at line 2, column 2\n     g\n     ^", (2, 2)),
]  # fmt: skip


# Calls where modules keep definitions to themselves, and what the refusal says, with the place.
HIDDEN = [
    ("apply", ("t", "half"), "at line 1, column 1\n    half\n    ^", (1, 1)),
    ("apply", ("t", "twice"), "it was applied to the constant `a`\n    `?A()` fails on `a` at `/`, in `half` of the module `one`, line 3 of its text\n"
        "    `A()` takes the constant `A`\n    called by, innermost first: `half` (line 3), `twice` (line 2), the command", None),
    ("module", ("more", "strategies\n  g = half\n  h = twice", ["g"]), "in `g` of the module `more`, line 2, column 7\n      g = half\n          ^", (2, 7)),
    ("module", ("more", "strategies\n  g = g; h; k\n  h = id", []), "in `g` of the module `more`, line 2, column 13\n      g = g; h; k\n                ^", (2, 13)),
    ("module", ("more", "strategies\n  g = g; g )", []), "module more: no module goes on with `)` at line 2, column 12\n      g = g; g )\n               ^", (2, 12)),
    ("unload", ("base",), "in `half` of the module `one`, line 3, column 11 of its text\n      half = ?A()\n              ^\n"
        "    also unknown s 0 0, in `half` of the module `two`, line 3, column 20 of its text", None),
]  # fmt: skip


# Scripts and modules as `stratbench.problems` is given them, with options, and the lines that it prints, less those that are indented.
PROBLEMS = [
    ("script", [], "tree t a\napply t do id; revers\n", ["script:2:16: error: refused 11 unknown revers 0 0: at line 2, column 16"]),
    ("m.str", [], "module m\n strategies\n  f = g\n  h = k; k\n", [
        "m.str:3:7: error: refused 11 unknown g 0 0: in `f` of the module `m`, line 3, column 7",
        "m.str:4:7: error: also unknown k 0 0, in `h` of the module `m`, line 4, column 7",
        "m.str:4:10: error: also unknown k 0 0, in `h` of the module `m`, line 4, column 10"]),
    ("m.str", [], "module m\n rules\n  R : A() -> B() C\n  S : x -> x\n  T : ( -> x\n", [
        "m.str:4:3: error: refused 10 syntax: module m: no module goes on with `S` at line 4, column 3",
        "m.str:5:9: error: no module goes on with `->` at line 5, column 9, either"]),
    ("m.str", ["--check"], "module m\n rules\n  R : (y,y) -> x\n", ["m.str:3:16: warning: in `R`, line 3, column 16: `x` is only on the right side: nothing binds it"]),
    ("script", [], "show none\nundo\n", [
        "script:1: error: refused 5 notree: there is no tree `none`", "script:2: error: refused 15 noundo: there are 0 steps to undo"]),
    ("script", ["--steps=x"], "", ["error: invalid value 'x' for '--steps <N>': invalid digit found in string", "For more information, try '--help'."]),
    ("script", ["--profile"], "tree t a\napply t do id\n", ["script:2: warning: the strategy replaced nothing"]),
]  # fmt: skip


def problems():
    for name, options, text, wanted in PROBLEMS:
        with tempfile.TemporaryDirectory() as room:
            with open(f"{room}/{name}", "w", encoding="utf-8") as it:
                it.write(text)
            environment = {**os.environ, "PYTHONPATH": os.path.dirname(os.path.dirname(__file__))}
            words = [sys.executable, "-m", "stratbench.problems", *options, name]
            ran = subprocess.run(words, cwd=room, env=environment, capture_output=True, text=True)
        lines = [line for line in ran.stdout.splitlines() if line and not line.startswith(" ")]
        yield f"problems of {text!r:.40}", "" if lines == wanted and not ran.stderr else f"{ran.stdout}{ran.stderr}"


def explained():
    with Stratbench() as bench:
        bench.tree("old", "f(a,b)")
        bench.module("base", "strategies half = id")
        bench.module("uses", "strategies\n  twice = half; half")
        for method, given, wanted, place in REFUSED:
            try:
                getattr(bench, method)(*(given if isinstance(given, tuple) else (given,)))
                yield f"{method} of {given!r:.50}", "it wasn't refused"
            except Refused as refused:
                fault = "" if wanted in (None, refused.explanation) and refused.place == place else f"{refused!s}\n{refused.place}"
                yield f"{method} of {given!r:.50}", fault
        bench.module("m", "rules\nR : x -> y")
        wanted = ["in `R`, line 2, column 10: `y` is only on the right side: nothing binds it"]
        yield "a warning has its place", "" if bench.warnings == wanted else f"{bench.warnings}"
        yield "its lines are kept", "" if bench.text("m") == "rules\n R : x -> y" else bench.text("m")
        bench.tree("t", '"one\ntwo\r\n#three"')
        yield "line feeds in a string", "" if bench.term("t").head == b"one\ntwo\r\n#three" else bench.show("t")
        bench.module("c", "\n\n// one\n\nstrategies\n\n  g = id")
        yield "empty lines and comments", "" if "g = id" in bench.text("c") else bench.text("c")
        for wrong in ("", " ", "# comment"):
            with contextlib.suppress(ValueError):
                bench.run(wrong)
                yield f"no command: {wrong!r}", "it was taken"
    script = "from stratbench import *\nwith Stratbench() as b:\n  try: b.show('t')\n  except Refused: pass\n"
    ran = subprocess.run([sys.executable, "-c", script], env={**os.environ, "PYTHONPATH": sys.path[0]}, capture_output=True)
    yield "a refusal prints nothing", "" if ran.returncode == 0 and not ran.stdout + ran.stderr else f"{ran}"


def hidden():
    with Stratbench() as bench:
        bench.tree("t", "a")
        bench.module("base", "signature constructors A : t  strategies s = id")
        bench.module("one", "strategies\n  twice = half; half\n  half = ?A()", ["twice"])
        bench.module("two", "strategies\n  half(s) = half; s\n  half = half(id); s", [])
        for method, given, wanted, place in HIDDEN:
            try:
                getattr(bench, method)(*given)
                yield f"hidden: {method} of {given!r:.50}", "it wasn't refused"
            except Refused as refused:
                fault = "" if wanted == refused.explanation and refused.place == place else f"{refused!s}\n{refused.place}"
                yield f"hidden: {method} of {given!r:.50}", fault
        bench.undo(2)
        bench.module("one", "strategies half = !2  other = half", ["half"])
        bench.apply("t", "half")
        yield "hidden no longer", "" if bench.show("t") == "2" else bench.show("t")


def tree_of(depth, wide):
    """A tree of these levels, with so many leaves at each."""
    term = Term("Leaf", (), (read("end"),))
    for at in range(depth):
        term = Term("Node", (items(*(Term(b"leaf %d" % it) for it in range(wide))), Term(at), term), (Term(at),))
    return term


LONG = [
    ("a wide list", items(*map(Term, range(60_000)))),
    ("a list of lists with annotations", Term(LIST, tuple(Term(LIST, tuple(map(Term, range(3_000))), (Term(at),)) for at in range(20)), (Term("all"),))),
    ("many levels", tree_of(300, 30)),
    ("a wide application", Term("f", tuple(Term("x", (Term(b"y" * 20),)) for _ in range(9_000)))),
    ("a tuple with one long part", Term(TUPLE, (Term(1), items(*(Term(b"z" * 1_000) for _ in range(300))), Term(2)))),
]  # fmt: skip


def long_texts():
    with Stratbench() as bench:
        bench.tree("small", "f(a,b)")
        for title, term in LONG:
            bench.tree("t", write(term))
            yield f"{title}, as a tree", "" if bench.term("t") == term and bench.history() == (2, 0) else f"{bench.history()}"
            bench.undo()
            bench.put("small", (1,), term)
            yield f"{title}, put", "" if bench.term("small", "/1") == term and bench.history() == (2, 0) else f"{bench.history()}"
            bench.undo()
        with bench.group():
            bench.tree("t", LONG[0][1])
            bench.put("small", "/0", LONG[2][1])
            in_group = bench.trees(), bench.term("small", "/0") == LONG[2][1]
        yield "in a group", "" if in_group == (["small", "t"], True) and bench.history() == (2, 0) else f"{in_group}"
        bench.undo()
        wrong = [("8 deep", "[" * 1_000 + "1," * 40_000 + "1" + "]" * 1_000), ("7 term", "f(" + "a," * 40_000), ("3 long", '"' + "a" * 70_000 + '"')]
        for refusal, text in wrong:
            for grouped in (False, True):
                with bench.group() if grouped else contextlib.nullcontext():
                    try:
                        bench.tree("t", text)
                        got = "it was taken"
                    except Refused as refused:
                        got = "" if f"{refused.number} {refused.word}" in (refusal, "14 big") else str(refused)[:200]
                    yield f"refused {refusal}{' in a group' * grouped}", got or ("" if bench.trees() == ["small"] else f"{bench.trees()}")


def all_parts():
    for at, (_, term) in enumerate(LONG):
        whole = Term(0)
        for kind, path, text in in_parts(write(term), (), 2_000 if at != 3 else 30_000):
            old = whole
            for step in path:
                old = old.children[step]
            if kind == "put":
                new = read(text)
            elif kind == "join":
                new = Term(LIST, (*old.children[:-1], *old.children[-1].children))
            else:
                new = Term(old.head, old.children, read(f"x{text}").annotations)
            whole = _with(whole, path, new)
        yield f"the parts of {LONG[at][0]} make it", "" if whole == term else "another term"


def _with(term, path, new):
    if not path:
        return new
    children = list(term.children)
    children[path[0]] = _with(children[path[0]], path[1:], new)
    return Term(term.head, tuple(children), term.annotations)


def limits():
    with Stratbench(steps=1_500_000, max_steps=2_000_000, max_terms=1_000_000) as bench:
        bench.tree("t", items(*map(Term, range(200_000))))
        bench.apply("t", "rec x([] <+ [id|x])")
        bench.apply("t", "id", within=2_000_000)
        yield "raised limits", "" if bench.show("t", (199_999,)) == "199999" else bench.show("t")[-80:]
        try:
            bench.apply("t", "id", within=2_000_001)
            yield "a budget above them", "it was taken"
        except Refused as refused:
            yield "a budget above them", "" if "from 1 to 2000000" in str(refused) else str(refused)


def ends():
    with tempfile.TemporaryDirectory() as room:
        with open(f"{room}/wrong.str", "w") as it:
            it.write("rules\n  A : x) -> x\n")
        starts = [
            ({"options": ["--tree", "t=/none"]}, 3, "read fault: /none\n    No such file or directory (os error 2)"),
            ({"options": ["--module", f"m={room}/wrong.str"]}, 1, "no module goes on with `)` at line 2, column 8\n      A : x) -> x\n           ^"),
            ({"options": ["--none"]}, 2, "--none"),
            ({"steps": 2_000_000}, 2, "'2000000' for '--steps <N>': the greatest budget is 1000000 (--max-steps raises it)"),
            ({"max_steps": 999_999}, 2, "'999999' for '--max-steps <N>': 999999 is not in 1000000..=4000000000"),
            ({"max_terms": -1}, 2, "'-1' for '--max-terms <N>': -1 is not in 100000..=1000000000"),
            ({"max_tokens": 3999}, 2, "'3999' for '--max-tokens <N>': 3999 is not in 4000..=65535"),
        ]  # fmt: skip
        for given, status, said in starts:
            try:
                Stratbench(**given)
                yield f"a start with {given}", "it began"
            except Ended as ended:
                yield f"a start with {list(given)} says why it fails", "" if ended.status == status and said in ended.said else repr(ended)
        try:
            Stratbench(program="/none/stratbench")
            yield "no program", "it began"
        except FileNotFoundError:
            yield "no program", ""
        other = f"{room}/other"
        with open(other, "w") as it:
            it.write("#!/bin/sh\necho stratbench 2.0.0\n")
        os.chmod(other, 0o755)
        try:
            Stratbench(program=other)
            yield "a program of another version", "it began"
        except Misfit as why:
            fits = str(why) == f"{other}: it is version 2.0.0, and this client is for versions from 1.3.0 to below 2.0.0"
            yield "a program of another version", "" if fits else str(why)
        bench = Stratbench(options=["--write", f"t={room}/out", "--write", f"u={room}/none"])
        bench.tree("t", "f(1)")
        status = bench.close()
        with open(f"{room}/out") as it:
            fault = "" if status == 1 and it.read() == "f(1)\n" and "refused 5 notree" in "".join(bench.warnings) else f"{status} {bench.warnings}"
        yield "files are written at the end", fault
    bench = Stratbench()
    bench.run("begin")
    bench.close()
    wanted = ["the group is still open at the end: what it changed is no step"]
    yield "a group that is left open", "" if bench.warnings == wanted else f"{bench.warnings}"
    with Stratbench() as bench:
        with contextlib.suppress(Refused):
            bench.show("t")
    yield "the status after a refusal", "" if bench.close() == 1 else f"{bench.close()}"


def interrupted(process):
    """Has an alarm come while the next answer of a process is waited for, and not before."""
    line = process.line

    def alarmed(until):
        signal.setitimer(signal.ITIMER_REAL, 0.1)
        return line(until)

    process.line = alarmed


def stops():
    # so many steps that no program takes them before a client that stalls looks for the answer
    bench = Stratbench(seconds=300, max_steps=4_000_000_000)
    bench.tree("t", "a")
    bench.seconds = 0.001
    try:
        bench.apply("t", "rec x(x)", within=4_000_000_000)
        yield "a time limit", "there was none"
    except TimeoutError as error:
        yield "a time limit", "" if str(error) == "no answer after 0.001 seconds" and bench.close() == -signal.SIGKILL else f"{error}"
    try:
        bench.show("t")
        yield "a session that was ended", "it went on"
    except Ended as ended:
        yield "a session that was ended", "" if ended.status == -signal.SIGKILL else repr(ended)
    for title, stop in (("an interrupt", signal.SIGINT), ("an end by the system", None)):
        with Stratbench() as bench:
            pid = bench._process._ran.pid
            os.kill(pid, signal.SIGSTOP if stop else signal.SIGKILL)
            before = signal.signal(signal.SIGALRM, signal.default_int_handler)
            if stop:
                interrupted(bench._process)
            try:
                bench.trees()
                fault = "it went on"
            except (KeyboardInterrupt, Ended) as error:
                fault = "" if isinstance(error, KeyboardInterrupt) == bool(stop) and bench._process.status == -signal.SIGKILL else repr(error)
            finally:
                signal.signal(signal.SIGALRM, before)
            yield title, fault
    try:
        with Stratbench() as bench:
            pid = bench._process._ran.pid
            raise KeyError
    except KeyError:
        yield "an exception closes the session", "" if bench._process.status == 0 else "it goes on"
    bench = Stratbench()
    pid = bench._process._ran.pid
    apart = os.getsid(pid) != os.getsid(0)
    del bench
    gc.collect()
    with contextlib.suppress(ProcessLookupError):
        os.kill(pid, 0)
        yield "a session that nobody has ends", "it goes on"
    yield "Ctrl-C isn't the program's", "" if apart else "it is"


def tests(top, everything):
    # those of the other modules are run by trials/examples
    for name in ("places", "parts", "strategies", "refactor.needs", "refactor.previewed", "refactor.report", "refactor.writing", "shell.completion", "shell.lines", "shell.syntax", "shell.view", "versions"):
        found = doctest.testmod(importlib.import_module(f"stratbench.{name}"))
        yield f"the examples of {name}", "" if found.attempted and not found.failed else f"{found}"
    yield from explained()
    yield from hidden()
    yield from problems()
    yield from all_parts()
    yield from long_texts()
    yield from limits()
    yield from ends()
    yield from stops()
