"""The command `python -m stratbench.refactor`: what it prints, what it writes, and its status."""

import json
import os
import pty
import re
import shutil
import signal
import subprocess
import sys
import tempfile

from stratbench import refactor
from stratbench.refactor import task as bounds
from stratbench.refactor.report import Tally
from stratbench.refactor.runs import check_texts, prepared

RULES = """module used
rules
  Old : Name("old",c) -> Name("new",c)
  Wrong : Name("wrong",c) -> Name("not a name",c)
"""
EVERY = "topdown(try(Old <+ Wrong))"
HUNK = "--- a.py\n+++ a.py\n@@ -1,3 +1,3 @@\n # \u00e9\n-old\n+new\n b\n"


# The last line of a run, on standard error.
SUMMARY = re.compile(r"^[0-9,]+ of [0-9,]+ files? (?:changed|would change)\b.*\n\Z", re.MULTILINE)


class Room:
    """A folder with files, in which the command is run. `summary` is the last line of the last run, which isn't among what it said."""

    def __init__(self, top, **files):
        self.top, self.folder = top, tempfile.mkdtemp(prefix="stratbench-")
        self.put("rules.str", RULES)
        for name, contents in files.items():
            self.put(f"{name}.py", contents)

    def put(self, name, contents):
        with open(f"{self.folder}/{name}", "wb") as it:
            it.write(contents if isinstance(contents, bytes) else contents.encode())

    def has(self, name):
        with open(f"{self.folder}/{name}", "rb") as it:
            return it.read().decode("latin-1" if name == "latin.py" else "utf-8")

    def close(self):
        shutil.rmtree(self.folder)

    def run(self, *words, strategy=EVERY, modules=None):
        if modules is None:
            modules = ["--module", f"python={self.top}/strategies/python.str", "--module", "rules=rules.str"]
        command = [sys.executable, "-m", "stratbench.refactor", *modules, "--do", strategy, *words]
        environment = {**os.environ, "PYTHONPATH": f"{self.top}/clients/python", "XDG_STATE_HOME": f"{self.folder}/state"}
        ran = subprocess.run(command, cwd=self.folder, env=environment, capture_output=True)
        said = ran.stderr.decode()
        found = SUMMARY.search(said)
        self.summary = found[0].rstrip("\n") if found else ""
        return ran.returncode, ran.stdout.decode("utf-8", "replace"), SUMMARY.sub("", said)

    def files(self):
        """The names of all that is there, but for the folder of journals, which is empty."""
        return sorted(it for it in os.listdir(self.folder) if it != "state" or os.listdir(f"{self.folder}/state/stratbench"))


def wanted(got, status, out=None, said=""):
    """What is wrong with a run, or nothing."""
    right = got[0] == status and (out is None or got[1] == out) and (said in got[2] if said else not got[2])
    return "" if right else f"{got}, wanted {(status, out, said)}"


A = "# \u00e9\nold\nb\n"

def task_of(top, strategy):
    """What is done by a strategy, without a process for the command."""
    with open(f"{top}/strategies/python.str", "rb") as it:
        return refactor.Task((("python", it.read()), ("rules", RULES.encode())), strategy)


# Strategies that are none, and what is said of them.
STRATEGIES = [
    ("id; ", "refused 10 syntax: the strategy ends too early: it can't end with `;` at line 1, column 3\n    id; \n      ^"),
    (")", "refused 10 syntax: no strategy begins with `)` at line 1, column 1\n    )\n    ^"),
    ("id\n)", "refused 10 syntax: no strategy goes on with `)` at line 2, column 1\n    )\n    ^"),
    ("", "refused 10 syntax: the strategy is missing"),
]


def tests(top, everything):
    room = Room(top, a=A, same="b\n", broken="def\n")
    yield "a diff", wanted(room.run("a.py", "same.py"), 0, HUNK) or ("" if room.has("a.py") == A else "the file changed")
    yield "--check where something changes", wanted(room.run("--check", "a.py"), 1, HUNK)
    yield "--check where nothing does", wanted(room.run("--check", "same.py"), 0, "")
    yield "a file with a syntax error", wanted(room.run("broken.py", "a.py"), 3, HUNK, "broken.py:1: no Python: ")
    yield "a file that isn't there", wanted(room.run("none.py", "a.py"), 3, HUNK, "none.py: No such file")
    yield "a folder", wanted(room.run("."), 3, None, "broken.py:1: no Python: ")
    got = room.run("a.py", "same.py", strategy="sometd(Old)")
    yield "a refusal has the file's name and the explanation", wanted(got, 3, HUNK, "same.py: refused 12 fails: ")
    yield "a strategy that is none", wanted(room.run("a.py", strategy="topdown(try(Odl))"), 2, "", "there is `Old`") and wanted(
        room.run("a.py", strategy="topdown(try(Odl))"), 2, "", "--do: refused 11 unknown Odl 0 0"
    )
    for strategy, said in STRATEGIES:
        got = check_texts(task_of(top, strategy))[0]
        yield f"--do '{strategy}'", "" if got == f"--do: {said}" else got
    yield "a module that is none", module_fault(top)
    yield "no --do", "" if refactor_status(top, ["a.py"]) == 2 else "another status"
    yield from writing(top)
    yield from comments(top)
    yield from encodings(top)
    yield from messages(top)
    yield from starts(top)
    yield from compared(top)
    yield from limits(top)
    yield from summaries(top)
    yield from named(top)
    got = Room(top, a="x = x + 1\n").run("--modules", f"{top}/strategies", "a.py", strategy="bottomup(try(AugmentedNumber))", modules=())
    yield "--modules loads a folder", wanted(got, 0, "--- a.py\n+++ a.py\n@@ -1 +1 @@\n-x = x + 1\n+x += 1\n")
    many = {f"f{at}": f"old\n{at}\n" for at in range(40)}
    room = Room(top, **many)
    names = [f"{name}.py" for name in many]
    one, two = room.run(*names), room.run("--jobs", "3", *names)
    yield "--jobs gives the same", "" if one == two and one[0] == 0 and one[1].count("+new") == 40 else f"{one}\n{two}"
    yield from stopped(top, names, many)
    room.put("ends", f'#!/bin/sh\ncase "$*" in *t1=*) kill -9 $PPID ;; esac\nexec {os.environ["STRATBENCH"]} "$@"\n')
    os.chmod(f"{room.folder}/ends", 0o755)
    got = room.run("--jobs", "2", "--write", "--program", "./ends", *names)
    yield "a process of --jobs that ends", wanted(got, 3, "", "nothing was written: a process ended") or ("" if room.has(names[0]) == many["f0"] else "a file changed")


def stopped(top, names, files):
    """The command is stopped while the workbench runs, by a signal that the program sends."""
    for words, target in ((), "$PPID"), (("--jobs", "2"), "$(cut -d' ' -f4 /proc/$PPID/stat)"):
        room = Room(top, **files)
        os.mkdir(f"{room.folder}/temporary")
        room.put("stops", f'#!/bin/sh\ncase "$*" in *t1=*) kill -TERM {target} ;; esac\nexec {os.environ["STRATBENCH"]} "$@"\n')
        os.chmod(f"{room.folder}/stops", 0o755)
        os.environ["TMPDIR"] = f"{room.folder}/temporary"
        got = room.run(*words, "--write", "--program", "./stops", *names)
        del os.environ["TMPDIR"]
        left = os.listdir(f"{room.folder}/temporary")
        same = all(room.has(f"{name}.py") == text for name, text in files.items())
        right = got[0] == -signal.SIGTERM and got[2] == "nothing was written: stopped by SIGTERM\n" and not left and same
        yield f"SIGTERM while files are done {words}", "" if right else f"{got} {left} {same}"
        room.close()


def refactor_status(top, words):
    environment = {**os.environ, "PYTHONPATH": f"{top}/clients/python"}
    return subprocess.run([sys.executable, "-m", "stratbench.refactor", *words], env=environment, capture_output=True).returncode


def module_fault(top):
    room = Room(top, a=A)
    room.put("rules.str", "module used\nrules\n  Old : Name(x,c)) -> x\n")
    return wanted(room.run("a.py"), 2, "", "rules.str: refused 10 syntax: module rules: no module goes on with `)` at line 3, column 18")


def writing(top):
    room = Room(top, a=A, b="x = old  # b\n", broken="def\n")
    room.put("latin.py", "# coding: latin-1\n'\u00e9'; old\n".encode("latin-1"))
    os.chmod(f"{room.folder}/a.py", 0o755)
    os.symlink("b.py", f"{room.folder}/link.py")
    got = room.run("--write", "a.py", "link.py", "latin.py", "broken.py")
    files = [room.has("a.py"), room.has("b.py"), room.has("latin.py")]
    want = [A.replace("old", "new"), "x = new  # b\n", "# coding: latin-1\n'\u00e9'; new\n"]
    kept = os.stat(f"{room.folder}/a.py").st_mode & 0o777 == 0o755 and os.path.islink(f"{room.folder}/link.py")
    left = room.files() == "a.py b.py broken.py latin.py link.py rules.str".split()
    yield "--write changes the files, and leaves a broken one", "" if got[0] == 3 and files == want and kept and left else f"{got} {files}"
    room = Room(top, a=A, wrong="old; wrong\n")
    got = room.run("--write", "a.py", "wrong.py")
    fault = wanted(got, 3, HUNK, "wrong.py: the result is no program")
    yield "a result that doesn't parse leaves all", fault or ("" if room.has("a.py") == A else "a file changed")
    room = Room(top, a=A, fixed="old\n")
    os.chmod(f"{room.folder}/fixed.py", 0o444)
    got = room.run("--write", "a.py", "fixed.py")
    fault = wanted(got, 3, None, "nothing was written: fixed.py: it may not be written")
    yield "a file that may not be written leaves all", fault or ("" if room.has("a.py") == A else "a file changed")
    shutil.rmtree(room.folder)


def comments(top):
    text = "try:  # one\n    a()\n    # two\nexcept E:\n    pass  # three\n# four\ntry:\n    b()  # five\nexcept F:\n    pass\n"
    room = Room(top, t=text)
    flat = "topdown(try(\\ Try(b,[ExceptHandler(e,None(),[Pass()])],[],[]) -> With([withitem(e,None())],b,None()) \\))"
    got = room.run("--write", "t.py", strategy=flat)
    fault = wanted(got, 0, None, "t.py:1: comment lost: # one\nt.py:5: comment lost: # three\n")
    new = "with E:\n    a()\n    # two\n# four\nwith F:\n    b()  # five\n"
    yield "comments that are lost are named", fault or ("" if room.has("t.py") == new and got[2].count("\n") == 2 else f"{got} {room.has('t.py')}")
    room.put("t.py", text)
    got = room.run("--write", "--keep-comments", "t.py", strategy=flat)
    fault = wanted(got, 3, None, "t.py:1: left, since a comment would be lost: # one\nt.py:5: left, since a comment would be lost: # three\n")
    new = text.replace("try:\n    b()", "with F:\n    b()").replace("except F:\n    pass\n", "")
    yield "--keep-comments leaves their places", fault or ("" if room.has("t.py") == new else room.has("t.py"))
    room.put("t.py", "gone()  # gone\nold\n")
    got = room.run("--write", "--keep-comments", "t.py", strategy="Module(\\ [_|ss] -> ss \\,id)")
    yield "--keep-comments may leave all", wanted(got, 3, "", "t.py:1: left, since a comment would be lost: # gone\n")


def encodings(top):
    room = Room(top, a=A, mark=b"\xef\xbb\xbfold\n")
    room.put("latin.py", b"# coding: latin-1\nold; wrong\n")
    diff = "--- mark.py\n+++ mark.py\n@@ -1 +1 @@\n-\ufeffold\n+\ufeffnew\n"
    yield "the diff of a file with a byte order mark", wanted(room.run("mark.py"), 0, diff)
    room.put("rules.str", RULES.replace("not a name", "\\343\\201\\202"))
    got = room.run("--write", "a.py", "latin.py")
    fault = wanted(got, 3, HUNK, "nothing was written: latin.py: the result doesn't fit the encoding iso-8859-1\n")
    yield "a name that the encoding doesn't have", fault or ("" if room.has("a.py") == A else "a file changed")
    room.put("latin.py", b"# coding: latin-1\nx = f(1)\n")
    got = room.run("latin.py", strategy='topdown(try(\\ Call(f,_,k) -> Call(f,[Constant("\\343\\201\\202\\303\\251",None())],k) \\))')
    yield "a string that the encoding doesn't have is escaped", "" if "+x = f('\\u3042\ufffd')\n" in got[1] and got[0] == 0 else f"{got}"


def messages(top):
    room = Room(top, a=A, wrong="old\nold; wrong\n", call="a\nf(1,\n  g(2))\n")
    got = room.run("wrong.py")
    yield "a text that doesn't parse is shown", wanted(got, 3, "", "wrong.py: the result is no program: line 2 of the new text: invalid syntax: new; not a name\n")
    got = room.run("call.py", strategy="topdown(try(?Constant(2,_); !Pass()))")
    yield "where a term is no tree", wanted(got, 3, "", "call.py: the result is no program: line 3: no expr in the field args of Call: Pass\n")
    got = room.run("call.py", strategy="Module(\\ [x,y] -> [[x,x],y] \\,id)")
    yield "a list in a list", wanted(got, 3, "", "no stmt in the field body of Module, but a list, whose elements belong there: [Expr(")
    yield "no such folder", wanted(room.run("a.py", "--modules", "none"), 2, "", "--modules none: No such file or directory\n")
    yield "no such module", wanted(room.run("a.py", "--module", "x=none.str"), 2, "", "--module x=none.str: No such file or directory\n")
    yield "no such program", wanted(room.run("a.py", "--program", "./none"), 2, "", "./none: No such file or directory\n")
    for said, what in (("stratbench 2.0.0", "is version 2.0.0"), ("stratbench 1.1.9", "is version 1.1.9"), ("a shell", "says no version")):
        room.put("other", f"#!/bin/sh\necho {said}\n")
        os.chmod(f"{room.folder}/other", 0o755)
        why = f"./other: it {what}, and this client is for versions from 1.3.0 to below 2.0.0\n"
        yield f"a program that {what}", wanted(room.run("--write", "a.py", "--program", "./other"), 2, "", why) or ("" if room.has("a.py") == A else "a.py changed")


def starts(top):
    """The program is asked for its version, and then started once to look at the modules and the strategy and once for a few files. It explains
    only what is refused."""
    room = Room(top, a=A, same="b\n", broken="def\n")
    room.put("logs", f'#!/bin/sh\necho "$*" >>log\nexec {os.environ["STRATBENCH"]} "$@"\n')
    os.chmod(f"{room.folder}/logs", 0o755)
    for title, strategy, words in [
        ("the program is started once for the files", EVERY, ["run", "run"]),
        ("what is refused is explained", "sometd(Old)", ["run", "run", "explain"]),
        ("a wrong strategy is explained", "Odl", ["run", "explain"]),
        ("where nothing is done, warnings are asked for", "try(!Pass(); fail)", ["run", "run", "explain"]),
        ("what surely changes nothing isn't run", "try(fail)", ["run", "explain"]),
    ]:
        room.put("log", "")
        room.run("--program", "./logs", "a.py", "same.py", strategy=strategy)
        first, *rest = room.has("log").splitlines()
        got = ["explain" if "--explain" in it else "run" for it in rest]
        yield title, "" if (first, got) == ("--version", words) else f"{first} {got}"
    room.put("rules.str", "module used\nrules\n  R : x -> y\n")
    got = room.run("a.py", strategy="topdown(try(R))")
    yield "where nothing is done, the warnings are shown", wanted(got, 0, "", "stratbench: rules.str: warning: in `R`, line 3, column 12: `y`")
    got = room.run("a.py", "same.py", strategy="R")
    yield "and where all fail, once", wanted(got, 3, "", "rules.str: warning: in `R`") or ("" if got[2].count("warning") == 1 else got[2])


# Rules of a module, a strategy, and the variables that may have compared positions, where the second file would change without.
POSITIONS = [
    ('R : BoolOp(Or(),[x,x]) -> x', "topdown(try(R))", "`x` in `R`"),
    ('R : BoolOp(Or(),[x,y]) -> x where <id> y => x', "topdown(try(R))", "`x` in `R`"),
    ('R : Pass() -> Pass()', "topdown(try(?BoolOp(_,[x,x]); !x))", "`x` in --do"),
    ('R : BoolOp(Or(),[x,y]) -> x where prim("eq-ignore-annos",x,y)', "topdown(try(R))", ""),
    ('R : BoolOp(Or(),[Name(x,_),Name(x,_)]) -> Name(x,Store())', "topdown(try(R))", ""),
    ('R : BoolOp(And(),[x,x]) -> x', "topdown(try(R))", ""),
]


def compared(top):
    """Where nothing is done, a place is named that would change but for positions."""
    room = Room(top, a="# 1\nif a or b:\n    pass\n", b="x = 1\nif (\n    f(a)\n    or f(a)): y\n")
    for rule, strategy, said in POSITIONS:
        room.put("rules.str", f"module used\nrules\n  {rule}\n")
        got = room.run("a.py", "b.py", strategy=strategy)
        wrong = [it for it in got[2].splitlines() if "but for positions" in it]
        right = f"b.py:3: warning: would change but for positions, which a variable that stands twice compares: {said}; `eq-ignore-annos` doesn't"
        yield f"{rule}: positions", "" if wrong == [right] * bool(said) and got[0] == 0 else f"{got}"


def limits(top):
    room = Room(top, a=A)
    room.put("deep.py", " + ".join(["a"] * 1_500) + "\n")
    yield "a tree that is too deep", wanted(room.run("deep.py", "a.py"), 3, HUNK, "deep.py: too deep: ")
    most, bounds.MOST_TERMS = bounds.MOST_TERMS, 20
    [outcome] = refactor.refactored([("a.py", b"x = y + 1\n")], refactor.Task((), "id"))
    bounds.MOST_TERMS = most
    yield "a tree that is too large", "" if outcome.left.startswith("a.py: too large: ") else f"{outcome}"
    # the limits by default are 100,000 terms and 1,000,000 steps
    room.put("wide.py", f"a = [{', '.join(['1'] * 30_000)}, old]\n")
    got = room.run("--write", "wide.py")
    yield "a statement of 180,000 terms", wanted(got, 0) or ("" if room.has("wide.py").endswith(" 1, new]\n") else "another text")
    room.put("long.py", '"""doc"""\n\n' + "x = 1\n" * 8_000 + "old\n")
    modules = ["--modules", f"{top}/strategies", "--module", "rules=rules.str"]
    got = room.run("--write", "long.py", strategy=f'{EVERY}; add-import(|"re")', modules=modules)
    new = '"""doc"""\n\nimport re\n\n' + "x = 1\n" * 8_000 + "new\n"
    yield "a module of 100,000 terms, seen as a whole", wanted(got, 0) or ("" if room.has("long.py") == new else room.has("long.py")[:100])
    room.put("steps.py", "x = f(1, 2, 3)\n" * 10 + "old\n")
    yield "a budget", wanted(room.run("--within", "500", "steps.py"), 3, "", "steps.py: refused 13 spent: the 500 steps of the budget are used up")
    yield "the budget of a short file", wanted(room.run("a.py", strategy="repeat(id)"), 3, "", "a.py: refused 13 spent: the 1000000 steps of the budget are used up")
    yield "a budget out of range", "" if refactor_status(top, ["--within", "4000000001", "--do", "id", "a.py"]) == 2 else "another status"
    got = room.run("steps.py", "a.py", strategy="?Module(x,y); !Module(y,x); fail")
    yield "a strategy that fails", wanted(got, 3, "", "a.py: refused 12 fails: ")


# Strategies, with a text and the lines and rules of the places in its report.
PLACES = [
    ("topdown(try(Old))", A, [(2, "Old")]),
    (EVERY, A, [(2, None)]),
    # what comes of a list is told by what differs in it
    ('topdown(try(\\ [Expr(Name("x",_)),y|r] -> [y,y,y|r] \\))', "if a:\n    x\n    y\n    z\n", [(2, None)]),
    ('If(id,\\ [x,y|r] -> [x,y,y|r] \\,id)'.join(["Module([", "],id)"]), "if a:\n    x\n    y\n    z\n", [(4, None)]),
]


def summaries(top):
    text = "try:  # one\n    old\nexcept E:\n    pass\n"
    room = Room(top, a=A, b="old; x = (old,\n old)\n", same="b\n", broken="def\n", t=text)
    room.run("a.py", "b.py", "same.py")
    yield "the summary", "" if room.summary == "2 of 3 files would change, 4 places" else room.summary
    got = room.run("--write", "--report", "report.json", "a.py", "b.py", "same.py", "broken.py", "none.py")
    yield "the summary of what was written", "" if room.summary == "2 of 5 files changed, 4 places; 2 files left" else room.summary
    with open(f"{room.folder}/report.json") as it:
        report = json.load(it)
    entry = {"changed": False, "places": [], "lost": [], "kept": [], "left": None}
    place = {"rule": None}
    want = {
        "version": 1,
        "status": 3,
        "written": True,
        "counts": {"files": 5, "changed": 2, "places": 4, "lost": 0, "kept": 0, "left": 2},
        "files": [
            {**entry, "file": "a.py", "changed": True, "places": [{**place, "line": 2}]},
            {**entry, "file": "b.py", "changed": True, "places": [{**place, "line": it} for it in (1, 1, 2)]},
            {**entry, "file": "broken.py", "left": "broken.py:1: no Python: invalid syntax"},
            {**entry, "file": "none.py", "left": "none.py: No such file or directory"},
        ],
    }
    yield "--report", "" if got[0] == 3 and report == want else f"{got} {report}"
    for strategy, contents, places in PLACES:
        task = prepared(task_of(top, strategy))
        tally = Tally([], task.needs.rule())
        tally.outcomes += refactor.refactored([("p.py", contents.encode())], task)
        [file] = json.loads(tally.report(0, False))["files"]
        got = [(it["line"], it["rule"]) for it in file["places"]]
        yield f"the places of `{strategy}`", "" if got == places else f"{got}"
    flat = "topdown(try(\\ Try(b,[ExceptHandler(e,None(),[Pass()])],[],[]) -> With([withitem(e,None())],b,None()) \\))"
    for words, summary, lost, kept in (
        ((), "1 of 1 file would change, 1 place; 1 comment would be lost", [{"line": 1, "comment": "# one"}], []),
        (("--keep-comments",), "0 of 1 file would change; places left for 1 comment", [], [{"line": 1, "comment": "# one"}]),
    ):
        room.run("--report", "report.json", *words, "t.py", strategy=flat)
        with open(f"{room.folder}/report.json") as it:
            [file] = json.load(it)["files"]
        yield f"the summary of comments {words}", "" if room.summary == summary and (file["lost"], file["kept"]) == (lost, kept) else f"{room.summary} {file}"
    got = room.run("--report", "none/report.json", "same.py")
    yield "a report that can't be written", wanted(got, 3, "", "--report none/report.json: No such file or directory\n")
    room.put("a.py", A)
    got = room.run("--profile", "a.py")
    steps = re.search(r"^steps: `try` ([0-9,]+), .*`Old` ([0-9,]+)", got[2], re.MULTILINE)
    yield "--profile", "" if got[0] == 0 and steps and re.search(r"^seconds: reading files [0-9.]+, the workbench [0-9.]+, making patches [0-9.]+$", got[2], re.MULTILINE) else f"{got}"
    yield "a line of progress on a terminal", progress(room)
    room.close()


def progress(room):
    """Runs the command with standard error on a terminal, and standard output on none."""
    shown, terminal = pty.openpty()
    command = [sys.executable, "-m", "stratbench.refactor", "--do", "id", *["same.py"] * 40]
    environment = {**os.environ, "PYTHONPATH": f"{room.top}/clients/python", "XDG_STATE_HOME": f"{room.folder}/state"}
    ran = subprocess.run(command, cwd=room.folder, env=environment, stdout=subprocess.PIPE, stderr=terminal)
    os.close(terminal)
    said = b""
    try:
        while more := os.read(shown, 1 << 16):
            said += more
    except OSError:
        # the other end is closed
        pass
    os.close(shown)
    line = rb"\r1 of 40 files(\r[0-9]+ of 40 files)*\r +\r0 of 40 files would change\r\n"
    return "" if ran.returncode == 0 and not ran.stdout and re.fullmatch(line, said) else f"{said}"


# Names of files that a diff has in quotes, so that they can't be taken for more than a name.
NAMES = ["a\nb.py", "a\tb.py", 'a"b.py', "a\\b.py", "a\x7f.py", "\u00e9\r.py"]


def named(top):
    room = Room(top)
    for name in NAMES:
        room.put(name, A)
    got = room.run(*NAMES)
    ran = subprocess.run(["patch", "-p0"], cwd=room.folder, input=got[1].encode(), capture_output=True)
    files = sorted(it for it in os.listdir(room.folder) if it.endswith(".py"))
    for name in NAMES:
        right = files == sorted(NAMES) and ran.returncode == 0 and room.has(name) == A.replace("old", "new")
        yield f"the diff of the file {name!r}", "" if right else f"{got} {ran}"
    room.close()
