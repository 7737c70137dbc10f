"""The language server: what it answers, over its protocol and through Neovim, Emacs and VS Code's extension. Neovim and node are installed
where they aren't there and that can be done."""

import doctest
import glob
import importlib
import json
import os
import random
import re
import shutil
import statistics
import subprocess
import sys
import tempfile
import time

import packages
from stratbench.server import answers, layout, reading
from stratbench.server.checking import Sent, Session
from stratbench.server.folder import Folder, Modules
from stratbench.server.messages import receive, send
from stratbench.server.never import never
from stratbench.server.texts import Text, path_of, uri_of

CLIENT = os.path.dirname(os.path.dirname(os.path.realpath(__file__)))
EXAMPLE = re.compile(r"^ *// example: (.+) on (.+?) (?:gives .+|fails)$", re.MULTILINE)
# How many names are changed, and how many mistakes are made in how many modules, and how many changes of small ones.
RENAMED, MISTAKES, MODULES, CHANGES = 100, 60, 40, 150
# The milliseconds that the answer to a mistake may take on a quiet machine: in the median, and at most.
MEDIAN, MOST = 50, 200


class Editor:
    """An editor that speaks to the server."""

    def __init__(self, **more):
        environment = {**os.environ, "PYTHONPATH": CLIENT}
        words = [sys.executable, "-m", "stratbench.server"]
        self.server = subprocess.Popen(words, stdin=subprocess.PIPE, stdout=subprocess.PIPE, env=environment, **more)
        self.number = 0
        self.told = {}
        self.ask("initialize", processId=None, rootUri=None, capabilities={})
        self.note("initialized")

    def note(self, method, **given):
        send(self.server.stdin, {"method": method, "params": given})

    def ask(self, method, **given):
        self.number += 1
        send(self.server.stdin, {"id": self.number, "method": method, "params": given})
        while True:
            message = self.next()
            if message.get("id") == self.number:
                return message["error"] if "error" in message else message["result"]

    def next(self):
        message = receive(self.server.stdout)
        if message is None:
            raise EOFError
        if message.get("method") == "textDocument/publishDiagnostics":
            self.told[path_of(message["params"]["uri"])] = message["params"]["diagnostics"]
        return message

    def diagnostics(self, path):
        """The next diagnostics of a file. What is odd in a whole folder comes after what is wrong with it."""
        self.told.pop(path, None)
        while path not in self.told:
            self.next()
        # those of the folder's other files come before the answer to what is asked then
        self.ask("workspace/symbol", query="")
        return self.told[path]

    def open(self, path, text):
        self.note("textDocument/didOpen", textDocument={"uri": uri_of(path), "languageId": "stratego", "version": 1, "text": text})

    def change(self, path, text):
        self.note("textDocument/didChange", textDocument={"uri": uri_of(path), "version": 2}, contentChanges=[{"text": text}])

    def end(self):
        self.ask("shutdown")
        self.note("exit")
        self.server.stdin.close()
        self.server.stdout.close()
        return self.server.wait()


def general(top):
    """The modules for all languages."""
    languages = {os.path.basename(os.path.dirname(it)) for it in glob.glob(f"{CLIENT}/stratbench/languages/*/__init__.py")}
    return [it for it in sorted(glob.glob(f"{top}/strategies/*.str")) if os.path.basename(it).removesuffix(".str").split("-")[0] not in languages]


def contents(path):
    with open(path, encoding="utf-8") as it:
        return it.read()


def written(room, name, text):
    path = os.path.join(room, name)
    with open(path, "w", encoding="utf-8") as it:
        it.write(text)
    return path


# A module with a mistake or what may be one, and the line, the first and the last column and the severity of what is said of it.
SAID = [
    ("strategies\n  f = revers\n", [(1, 6, 12, 1)]),
    ("strategies\n  f = g; h\n  k = l\n", [(1, 6, 7, 1), (1, 9, 10, 1), (2, 6, 7, 1)]),
    ("rules\n  R : x -> (y,x) y\n  S : ( -> x\n  T : x -> x)\n", [(2, 2, 3, 1), (2, 8, 10, 1), (3, 12, 13, 1)]),
    ("strategies\nf = g\n", [(1, 4, 5, 1)]),
    ("rules\n  R : x -> y\n", [(1, 11, 12, 2)]),
    ("strategies\n  f = topdown(try(?(x,y); !(y,x)))\n", [(1, 20, 21, 2)]),
    ("strategies\n  f = !\"ü𝄞\"; g\n", [(1, 14, 15, 1)]),
    ("strategies\n  f = \"\n", [(1, 6, 7, 1)]),
    ("strategies\n  f = (id", [(1, 6, 7, 1)]),
    ("strategies\n  f = id\n", []),
]


def said():
    with tempfile.TemporaryDirectory() as room:
        editor = Editor()
        path = os.path.join(room, "m.str")
        editor.open(path, "")
        editor.diagnostics(path)
        for text, wanted in SAID:
            editor.change(path, text)
            found = [
                (it["range"]["start"]["line"], it["range"]["start"]["character"], it["range"]["end"]["character"], it["severity"])
                for it in editor.diagnostics(path)
            ]
            yield f"what is said of {text!r:.60}", "" if found == wanted else f"{found}\n{editor.told[path]}"
        # a fault in another module of the folder, whose lines begin in the first column
        other = written(room, "other.str", "module other\nstrategies\nf = missing\n  g = id\n")
        editor.change(path, "module m strategies h = g; gone")
        own, there = editor.diagnostics(path), editor.told.get(other, [])
        yield "faults in two modules", "" if [it["range"]["start"] for it in own + there] == [
            {"line": 0, "character": 27}, {"line": 2, "character": 4}] else f"{own} {there}"  # fmt: skip
        # what may be written instead
        written(room, "other.str", "module other strategies g = id")
        editor.change(path, "module m strategies hello = g  k = helo")
        found = [it for it in editor.diagnostics(path) if it.get("data")]
        actions = editor.ask("textDocument/codeAction", textDocument={"uri": uri_of(path)}, range={}, context={"diagnostics": found})
        edits = [edit for it in actions for edit in it["edit"]["changes"][uri_of(path)]]
        wanted = [{"range": {"start": {"line": 0, "character": 35}, "end": {"line": 0, "character": 39}}, "newText": "hello"}]
        yield "a fix", "" if edits == wanted else f"{found} {edits}"
        editor.note("textDocument/didClose", textDocument={"uri": uri_of(path)})
        editor.ask("workspace/symbol", query="")
        # what nothing calls, where the settings name what is called from outside
        written(room, "stratbench.json", '{"modules": ["m.str"], "library": false, "entries": ["main"]}')
        editor.open(path, "strategies main = f  f = id  g = f  try(s) = s <+ id")
        found = [it["message"] for it in editor.diagnostics(path) or editor.diagnostics(path)]
        yield "the folder's settings", "" if found == ["nothing calls `g`", "nothing calls `try(s)`"] else f"{found}"
        written(room, "stratbench.json", "{")
        editor.change(path, "strategies main = id")
        message = editor.next()
        yield "settings that are wrong", "" if message["method"] == "window/showMessage" and "stratbench.json" in message["params"]["message"] else f"{message}"
        # definitions that are tried on terms in comments
        os.remove(os.path.join(room, "stratbench.json"))
        editor.change(path, "strategies\n  // > swap on (1,g(2))\n  swap = ?(x,y); !(y,x)\n  // example: swap on A fails\n")
        lenses = editor.ask("textDocument/codeLens", textDocument={"uri": uri_of(path)})
        shown = [editor.ask("workspace/executeCommand", **{key: it["command"][key] for key in ("command", "arguments")}) for it in lenses]
        wanted = ["(g(2),1)", "refused 12 fails: it was applied to the constant `A`"]
        yield "definitions that are tried", "" if [it.split("\n")[0] for it in shown] == wanted else f"{lenses} {shown}"
        fault = editor.ask("textDocument/nothing")
        yield "an unknown request", "" if fault.get("code") == -32601 else f"{fault}"
        yield "the status", "" if editor.end() == 0 else "it isn't 0"


# Modules with `^` under a name, a new name, and the texts after it; or why it can't be changed.
CHANGED = [
    ("strategies f(s) = s; s  g = f(id); f", "           ^", "h", "strategies h(s) = s; s  g = h(id); f"),
    ("strategies f(s) = s; !s  g(s) = s", "             ^", "t", "strategies f(t) = t; !s  g(s) = s"),
    ("strategies f(s) = s; !s  g = !s", "                      ^", "x", "strategies f(s) = s; !x  g = !s"),
    ("strategies f(|x) = ?x; \\ x -> x \\; {x: !x}", "              ^", "y", "strategies f(|y) = ?y; \\ x -> x \\; {x: !x}"),
    ("strategies f = ?x; \\ x -> y where !x; ?y \\; !y", "                     ^", "z", "strategies f = ?x; \\ z -> y where !z; ?y \\; !y"),
    ("strategies f = rec a(a; rec a(a))", "                     ^", "b", "strategies f = rec b(b; rec a(a))"),
    ("signature constructors C : s  C : s -> s strategies f = ?C(); C; C(id)", "                       ^", "D",
     "signature constructors D : s  C : s -> s strategies f = ?D(); D; C(id)"),
    ("strategies f = id  g = f", "           ^", "g", "there is a definition `g` with as many parameters"),
    ("strategies f = id  g(h) = f; h", "           ^", "h", "a parameter `h` would hide it"),
    ("strategies f = ?x; !y", "                ^", "y", "`y` stands for something else in `f`"),
    ("strategies f = ?x", "                ^", "if", "`if` is no name"),
    ("strategies f = ?x", "                ^", "x y", "`x y` is no name"),
    ("strategies f = try(id)", "               ^", "tries", "`try` is of the library"),
]  # fmt: skip


def renamed():
    for text, mark, new, wanted in CHANGED:
        with tempfile.TemporaryDirectory() as room:
            path = os.path.join(room, "m.str")
            editor = Editor()
            editor.open(path, text)
            given = {"textDocument": {"uri": uri_of(path)}, "position": {"line": 0, "character": len(mark) - 1}}
            found = editor.ask("textDocument/rename", newName=new, **given)
            editor.end()
        got = "no name" if found is None else found["message"] if "message" in found else changed(Text(text), found["changes"].get(uri_of(path), []))
        yield f"{text!r:.50}, {new}", "" if got == wanted else f"{got}"


def changed(text, edits):
    """The text after these edits."""
    for it in sorted(edits, key=lambda it: (it["range"]["start"]["line"], it["range"]["start"]["character"]), reverse=True):
        text = text.changed({"range": it["range"], "text": it["newText"]})
    return text.text


def answered(room, files, terms):
    """What the program answers to each example, in the module of examples of a folder."""
    words = [os.environ["STRATBENCH"], "--library", *[f"--module={os.path.basename(it)[:-4]}={it}" for it in files]]
    script = "".join(f"tree t{number} {term}\napply t{number} do example-{number}\nshow t{number}\n" for number, term in enumerate(terms))
    ran = subprocess.run(words, input=script, capture_output=True, text=True, cwd=room)
    return ran.stdout + ran.stderr


def with_examples(top, room):
    """Copies the modules into a folder, with one that has their examples. Returns the files, and the terms of the examples."""
    files = [shutil.copy(it, room) for it in general(top)]
    examples = [it for file in files for it in EXAMPLE.findall(contents(file))]
    text = "strategies\n" + "".join(f"  example-{n} = {s}\n" for n, (s, _) in enumerate(examples))
    used = {(it.name, it.strategies) for it in reading.read(text).names if it.kind in ("constructor", "use") and it.name[0].isupper()}
    declared = [f"  {name} : {' * '.join('t' * count)}{' -> ' * (count > 0)}t\n" for name, count in sorted(used)]
    files.append(written(room, "examples.str", "module examples signature constructors\n" + "".join(declared) + text))
    return files, [term for _, term in examples]


def names_change(top):
    """A hundred names of the modules are changed, one after the other, in all of them and in their examples."""
    choose = random.Random(1)
    with tempfile.TemporaryDirectory() as room:
        files, terms = with_examples(top, room)
        before = answered(room, files, terms)
        folder = Folder(room, {}, os.environ["STRATBENCH"])
        every = [(file, it) for file in files for it in folder.text(file).module.names if not file.endswith("examples.str")]
        every = [it for it in every if it[1].kind in ("definition", "use", "strategy", "term", "rec", "variable")]
        choose.shuffle(every)
        done, faults = 0, []
        for number, (file, name) in enumerate(every):
            new = f"new-name-{number}"
            modules = folder.modules(file)
            if answers.refusal(modules, name, new):
                continue
            edits = answers.rename(modules, name, new)["changes"]
            old = {path_of(uri): contents(path_of(uri)) for uri in edits}
            for uri, its in edits.items():
                written(room, path_of(uri), changed(folder.text(path_of(uri)), its))
            if answered(room, files, terms) != before:
                faults.append(f"{os.path.basename(file)}: {name.name} at {name.begin}")
            for path, text in old.items():
                written(room, path, text)
            done += 1
            if done == RENAMED:
                break
        others = re.findall("^(?:refused (?!12 ).*|stratbench: .*)$", before, re.MULTILINE)
        few = "" if done == RENAMED and len(terms) > 100 and not others else f"{done} names, {len(terms)} examples, {others[:3]}"
        yield f"{done} names change, and no answer to {len(terms)} examples", few or "\n".join(faults[:5])


def mistakes(top, everything):
    """Mistakes in a folder of forty modules, those of `strategies` among them, are told in the definitions that have them, while somebody
    types in Neovim, a mistake a second. How long that may take is asked of a quiet machine alone, with `--all`."""
    if not has_neovim():
        yield from packages.untried("mistakes through Neovim", "there is none")
        return
    choose = random.Random(2)
    with tempfile.TemporaryDirectory() as room:
        files = [shutil.copy(it, room) for it in sorted(glob.glob(f"{top}/strategies/*.str"))]
        for number in range(MODULES - len(files)):
            text = f"module more-{number}\nstrategies\n" + "".join(f"  more-{number}-{n}(s) = try(s); all(more-{number}-{n}(s))\n" for n in range(20))
            files.append(written(room, f"more-{number}.str", text))
        calling = [it for it in files if any(name.kind == "use" for name in reading.read(contents(it)).names)]
        plan = [planted(choose, choose.choice(calling)) for _ in range(MISTAKES)]
        said, found = by_neovim(room, "mistakes", PLAN=written(room, "plan", "".join("\t".join(map(str, it)) + "\n" for it in plan)))
        lines = [it.split("\t") for it in found.splitlines()]
        wrong = [f"{it}: {line}" for it, line in zip(plan, lines) if line[0] != "true" or line[2] != "true"]
        wrong += [] if len(lines) == len(plan) else [f"{len(lines)} lines: {said}"]
        seconds = [float(it[1]) for it in lines] or [0.0]
        median, most = statistics.median(seconds), max(seconds)
        wrong += [f"{median} and {most} ms"] if everything and (median > MEDIAN or most > MOST) else []
        yield f"{len(plan)} mistakes in {len(files)} modules, {median:.0f} ms in the median, {most:.0f} at most", "\n".join(wrong[:5])


def planted(choose, file):
    """A mistake in a file: a line and a column, what is inserted there, and the lines of the definition that has it."""
    text = Text(contents(file))
    use = choose.choice([it for it in text.module.names if it.kind == "use"])
    inside = next(it for it in text.module.definitions if it.begin <= use.begin < it.end)
    line = text.position(use.begin)["line"]
    column = len(text.text[text.starts[line] : use.end].encode())
    return file, line, column, "-lost", text.position(inside.begin)["line"], text.position(inside.end)["line"]


def layouts(top):
    """Each module is laid out: it is the same program, and laid out again it stays."""
    faults = []
    files = sorted(glob.glob(f"{top}/strategies/*.str") + glob.glob(f"{top}/examples/*/*.str"))
    choose = random.Random(3)
    for file in files:
        text = contents(file)
        spread = re.sub(r"\n *", lambda it: "\n" + " " * choose.randrange(9), text)
        for it in (text, spread):
            new = layout.laid_out(it)
            plain = [[token.text for token in reading.tokens_of(one) if token.kind != "comment"] for one in (it, new)]
            comments = [[" ".join(token.text.split()) for token in reading.tokens_of(one) if token.kind == "comment"] for one in (it, new)]
            if plain[0] != plain[1] or comments[0] != comments[1] or layout.laid_out(new) != new:
                faults.append(file)
    yield f"the layout of {len(files)} modules", "\n".join(faults)
    with tempfile.TemporaryDirectory() as room:
        files, terms = with_examples(top, room)
        before = answered(room, files, terms)
        new = [layout.laid_out(re.sub(r"\n *", lambda it: "\n" + " " * choose.randrange(9), contents(it))) for it in files]
        stayed = [file for file, text in zip(files, new) if contents(file) == text]
        for file, text in zip(files, new):
            written(room, file, text)
        wrong = "" if len(stayed) < len(files) and answered(room, files, terms) == before else f"{stayed}\n{answered(room, files, terms)}"
        yield f"laid out, {len(files)} modules answer {len(terms)} examples as before", wrong


def read_all(top):
    """Each name of each module is known."""
    faults = []
    files = sorted(glob.glob(f"{top}/strategies/*.str") + glob.glob(f"{top}/examples/*/*.str"))
    for file in files:
        module = reading.read(contents(file))
        known = {it.begin for it in module.names}
        faults += [f"{file}: {it.text} at {it.begin}" for it in module.tokens if it.kind == "word" and it.text != "_" and it.begin not in known]
    yield f"the names of {len(files)} modules", "\n".join(faults[:5])


MODULE = "module m\nstrategies\n  // s, two times\n  twice(s) = s; s\n  four(s) = twice(twice(s))\n"
THROUGH_NEOVIM = """diagnostic\t3:13-17\t11 unknown nope 0 0: in `twice` of the module `m`, line 4, column 14
none left\ttrue
completion\ttwice(s)\ttwice(${1:s})\tm
definition\t1
renamed\tmodule m
renamed\tstrategies
renamed\t  // s, two times
renamed\t  double(s) = s; s
renamed\t  four(s) = double(double(s))
"""


def has_neovim():
    """Whether there is a Neovim, or one could be installed."""
    return bool(shutil.which("nvim")) or not packages.installed("neovim")


def neovim(room, script, **more):
    """Starts Neovim with a script in a folder, where it writes to the file `out`."""
    environment = {**os.environ, "PYTHONPATH": CLIENT, "OUT": f"{room}/out", "PYTHON": sys.executable, "HOME": room, "TMPDIR": room, **more}
    command = f"luafile {os.path.dirname(os.path.realpath(__file__))}/{script}.lua"
    words = ["nvim", "--headless", "-u", "NONE", "-i", "NONE", "-n", "-c", command]
    pipes = {"stdin": subprocess.DEVNULL, "stdout": subprocess.PIPE, "stderr": subprocess.STDOUT}
    return subprocess.Popen(words, cwd=room, env=environment, text=True, **pipes)


def by_neovim(room, script, **more):
    """Runs a script of Neovim's in a folder. Returns what it said, and what it wrote."""
    ran = neovim(room, script, **more)
    said, _ = ran.communicate(timeout=600)
    return said, contents(f"{room}/out") if os.path.exists(f"{room}/out") else ""


def through_neovim():
    if not has_neovim():
        yield from packages.untried("the server through Neovim", "there is none")
        return
    with tempfile.TemporaryDirectory() as room:
        said, found = by_neovim(room, "neovim", FILE=written(room, "m.str", MODULE))
        yield "through Neovim", "" if found == THROUGH_NEOVIM else f"{found}{said}"
        yield "nothing is left running", "\n".join(left_in(room))
    with tempfile.TemporaryDirectory() as room:
        editor = neovim(room, "waiting", FILE=written(room, "m.str", MODULE.replace("= s", "= lost; s")))
        while not os.path.exists(f"{room}/out") and editor.poll() is None:
            time.sleep(0.05)
        running = [it for it in glob.glob("/proc/[0-9]*/cwd") if real(it) == os.path.realpath(room)]
        editor.kill()
        editor.communicate(timeout=300)
        left = left_in(room)
        # Neovim, the server and the program ran
        few = "" if len(running) == 3 and contents(f"{room}/out") == "true" else f"{len(running)} ran"
        yield "nothing is left running, and no file, where Neovim is killed", few or "\n".join([*left, *glob.glob(f"{room}/stratbench-*")])


# Texts that modules have by turns, of which many don't go together.
TURNS = {
    "a": ["module a\nstrategies\n  f = g\n  h = id", "module a\nstrategies\n  f = id", "strategies f = (", "module a strategies f = Z; h(id|1)"],
    "b": ["strategies g = id\nrules\nR : Zero -> x", "strategies g = f", "rules R : Zero() -> y", "strategies g = id  h = helo", ""],
    "c": ["signature constructors Zero : t  Z : t -> t", "signature constructors One : t", "strategies h = g", "  \n\nstrategies\r\nk = gg\r\n"],
    "d": ["strategies h(s|x) = s; !x", "strategies h(s|x) = s; !x; f", "strategies }", "strategies e = f; g"],
}


def by_turns():
    """A session says of each of many changes what another says that begins with the same modules."""
    choose = random.Random(4)
    program = os.environ["STRATBENCH"]
    one, faults, kinds = Session(program, False), [], set()
    texts = {name: Sent(every[0]) for name, every in TURNS.items()}
    for number in range(CHANGES):
        for name in choose.sample(sorted(TURNS), choose.choice((1, 1, 1, 2, 3))):
            texts[name] = Sent(choose.choice(TURNS[name]))
        if number % 20 == 19:
            texts = {name: it for name, it in texts.items() if name != "d"}
        other = Session(program, False)
        got, wanted = ([gist(it) for it in session.check(texts)] for session in (one, other))
        other.end()
        kinds.add(min((it.split(" ")[0] for it in wanted), default="none"))
        # of what is no module the other knows no text before it, and so nothing of what depends on that
        lacks = any(it.startswith("syntax") for it in wanted)
        if not set(wanted) <= set(got) if lacks else sorted(got) != sorted(wanted):
            faults.append(f"{number}: {got}, and not {wanted}: {[it.own for it in texts.values()]}")
    one.end()
    few = "" if len(kinds) > 4 else f"{kinds}"
    yield f"{CHANGES} changes of modules in one session", few or "\n".join(faults[:3])


def gist(said):
    """What is said, with the places as they are in either session."""
    it = said.diagnostic
    places = [(one.first().module or said.module, one.first().span) for one in it.faults() if one.first()]
    return f"{it.code} {places} {[note.replacement and note.replacement.text for note in it.notes]}"


def left_in(room):
    """What still runs in a folder, after as long as it takes to end: the server and the program run where the editor does."""
    until = time.monotonic() + 300
    while (left := [it for it in glob.glob("/proc/[0-9]*/cwd") if real(it) == os.path.realpath(room)]) and time.monotonic() < until:
        time.sleep(0.05)
    return left


THROUGH_EMACS = """mode\tstratego-mode
diagnostic\tstratbench [unknown]: 11 unknown nope 0 0: in `twice` of the module `m`, line 4, column 17
renamed\tmodule m|strategies|  // s, two times|  double(s) = s; s|  four(s) = double(double(s))|
"""


def through_emacs(top):
    """Emacs with Eglot, which isn't installed for this: it takes minutes."""
    eglot = sorted(glob.glob("/usr/share/emacs/site-lisp/elpa-src/eglot-*/eglot.el"))
    if not shutil.which("emacs") or not eglot:
        packages.left_out("the server through Emacs", "Emacs or Eglot isn't there")
        return
    with tempfile.TemporaryDirectory() as room:
        path = written(room, "m.str", MODULE)
        mode = f"{top}/clients/editors/emacs/stratego-mode.el"
        environment = {**os.environ, "PYTHONPATH": CLIENT, "MODE": mode, "FILE": path, "PYTHON": sys.executable, "HOME": room}
        words = ["emacs", "-Q", "--batch", "-l", eglot[-1], "-l", f"{CLIENT}/tests/eglot.el"]
        ran = subprocess.run(words, cwd=room, env=environment, capture_output=True, text=True, stdin=subprocess.DEVNULL, timeout=300)
        yield "through Emacs", "" if ran.stdout == THROUGH_EMACS else ran.stdout + ran.stderr


BY_CODE = """diagnostics 0
diagnostic 3 16 3 20 0 11 unknown twic 0 0: in `twice` of the module `m`, line 4, column 17
fix [[[3,16,3,20],"twice"]]
diagnostics 0
completion twice(s) twice(${1:s})
hover twice(s) = s; s
definitions 1
references 3
rename [[[3,2,3,7],"double"],[[4,12,4,17],"double"],[[4,18,4,23],"double"]]
symbols G twice(s) four(s)
tokens 0
layout 0
signature twice(s)
message: four(\\ G(x) -> x \\) on G(G(G(G(1)))) gives 1
"""


def by_code(top):
    """VS Code's extension, which is started as VS Code starts it."""
    if not shutil.which("node") and packages.installed("nodejs"):
        yield from packages.untried("VS Code's extension", "there is no node")
        return
    with tempfile.TemporaryDirectory() as room:
        text = MODULE.replace("strategies", "signature constructors G : t -> t strategies") + "  // > four(\\ G(x) -> x \\) on G(G(G(G(1))))\n"
        path = written(room, "m.str", text)
        words = ["node", f"{CLIENT}/tests/vscode.js", f"{top}/clients/editors/vscode", path]
        environment = {**os.environ, "PYTHONPATH": CLIENT, "PYTHON": sys.executable}
        ran = subprocess.run(words, env=environment, capture_output=True, text=True, timeout=300)
        yield "VS Code's extension", "" if ran.stdout == BY_CODE and not ran.stderr else ran.stdout + ran.stderr


# Modules in which rules never match, with the places of these; and in which no rule may be said to, though it looks like it.
NEVER = [
    ("rules R : F(x) -> x  R : F(G(x)) -> x", ["R 21"]),
    ("rules R : F(x) -> x  S : F(\"a\") -> x where id  strategies f = try(R <+ S <+ id)", ["S 71"]),
    ("strategies f = \\ F(x) -> x \\ <+ \\ F(F(x)) -> x \\", ["\\ F(F(x)) -> x \\ 32"]),
    ("rules R : F(x) -> x where id  R : F(G(x)) -> x  S : F(x) -> y  S : F(G(x)) -> x  T(|x) : F(x) -> x  T(|x) : F(G(x)) -> x", []),
    ("rules R : G2(x,x) -> x  R : G2(1,1) -> 1  S : F(1) -> 1  S : F(2) -> 1  T : [x|y] -> x  T : [x] -> x  U : F(x) -> [1|x]  U : F(F(x)) -> 1", []),
    ("rules R : F(x) -> x  strategies R2 = ?F(x); fail  g = R2 <+ R  h(R) = R <+ \\ F(F(x)) -> x \\  k = F(id) <+ R", []),
]  # fmt: skip


def oddities(top):
    """Rules that never match."""
    for text, wanted in NEVER:
        module = reading.read(text)
        found = [f"{text[it.begin : it.end]} {it.begin}" for it in never(module, module.by_key.get)]
        yield f"rules that never match in {text!r:.60}", "" if found == wanted else f"{found}"
    files = [sorted(glob.glob(f"{it}/*.str")) for it in (f"{top}/strategies", *glob.glob(f"{top}/examples/*"))]
    alarms = []
    for group in files:
        modules = Modules("", [(it, Text(contents(it))) for it in group])
        for path, text in modules.texts:
            found = never(text.module, lambda key: [it for _, _, it in modules.defining(key)])
            alarms += [f"{path}: {text.text[it.begin : it.end]}: {it.earlier}" for it in found]
    yield f"no false alarm in {sum(map(len, files))} modules", "\n".join(alarms)
    with tempfile.TemporaryDirectory() as room:
        path = os.path.join(room, "m.str")
        editor = Editor()
        editor.open(path, "signature constructors F : t -> t  G : t -> t " + NEVER[0][0])
        found = [it["code"] for it in editor.diagnostics(path) or editor.diagnostics(path)]
        yield "a rule that never matches is told", "" if found == ["never"] else f"{found}"
        editor.end()


def bounds(top):
    """No example takes more steps than its bound, where it has one."""
    with tempfile.TemporaryDirectory() as room:
        files, terms = with_examples(top, room)
        modules = Folder(room, {}, os.environ["STRATBENCH"]).modules(files[0])
        every = answers.bounds_of(modules)
        script = "".join(f"tree t{number} {term}\npreview t{number} do example-{number}\n" for number, term in enumerate(terms))
        words = [os.environ["STRATBENCH"], "--library", *[f"--module={os.path.basename(it)[:-4]}={it}" for it in files]]
        ran = subprocess.run(words, input=script, capture_output=True, text=True)
        said = [it for it in ran.stdout.splitlines() if it.startswith(("changes ", "refused "))]
        known, wrong = 0, []
        for number, it in enumerate(said):
            bound = every.of((f"example-{number}", 0, 0))
            known += bound is not None
            if bound is not None and it.startswith("changes ") and int(it.split()[3]) > bound.steps:
                wrong.append(f"example {number}: {it}, and not {bound}")
        few = "" if len(said) == len(terms) and known > 20 else f"{len(said)} answers, {known} bounds"
        yield f"{known} bounds of {len(terms)} examples", few or "\n".join(wrong)


HOVER = """signature constructors Plus : e * e -> e  // a sum
rules R : Plus(x,Plus(y,1)) -> Plus(y,x)
strategies
  // s, or nothing
  may(s) = s <+ id
  f(|t) = may(R); ?Plus(t,_)
"""
# A place in the text above, and what is shown there.
SHOWN = [
    ("may(R)", "```stratego\nmay(s) = s <+ id\n```\ns, or nothing\n\n*m*\n\ntakes at most 4 + s steps"),
    ("Plus(t", "```stratego\nPlus : e * e -> e\n```\na sum\n\n*m*"),
    ("x,Plus", "a variable of the sort `e`"),
    ("t,_", "a term parameter of the sort `e`"),
    ("s <+", "a strategy parameter"),
]


def hovers():
    with tempfile.TemporaryDirectory() as room:
        path = os.path.join(room, "m.str")
        editor = Editor()
        editor.open(path, HOVER)
        for mark, wanted in SHOWN:
            where = Text(HOVER).position(HOVER.index(mark))
            found = editor.ask("textDocument/hover", textDocument={"uri": uri_of(path)}, position=where)["contents"]["value"]
            yield f"what is shown at {mark}", "" if found == wanted else found
        editor.end()


# Modules with quotations, and the line, the columns and the code of what is said of them.
QUOTED = [
    ("module q\nrules\n  A : `print($x, $*r)` -> `log($x, $*r)`\nstrategies\n  f = bottomup(try(A))\n", []),
    ("module q\nrules\n  A : `print($x` -> `log($x)`\n", [(2, 12, 13, "quotation")]),
    ("module q\nrules\n  A : `print($x)` -> `log($y)`\n", [(2, 26, 27, "quotation")]),
    ("module q\nrules\n  A : `print($x)` -> `log($x)` where <lost> x\n  B : x -> `a`\nstrategies g = gone", [(2, 38, 42, "unknown"), (4, 15, 19, "unknown")]),
    ("module q\nrules\n  A : `print($x)` -> `log($x)` where\nstrategies", [(3, 0, 1, "quotation")]),
]


def quotations():
    """What is said of modules with patterns in a language's own syntax."""
    with tempfile.TemporaryDirectory() as room:
        written(room, "stratbench.json", '{"language": "python"}')
        written(room, "other.str", "module other strategies h = A")
        path = os.path.join(room, "q.str")
        editor = Editor()
        for text, wanted in QUOTED:
            editor.open(path, text)
            found = [
                (it["range"]["start"]["line"], it["range"]["start"]["character"], it["range"]["end"]["character"], it["code"])
                for it in editor.diagnostics(path)
            ]
            yield f"quotations in {text!r:.50}", "" if found == wanted else f"{found} {editor.told}"
        text = QUOTED[0][0]
        editor.change(path, text)
        given = {"textDocument": {"uri": uri_of(path)}, "position": {"line": 2, "character": 14}}
        edits = editor.ask("textDocument/rename", newName="value", **given)["changes"][uri_of(path)]
        wanted = text.replace("$x", "$value")
        yield "a metavariable is renamed", "" if changed(Text(text), edits) == wanted else f"{edits}"
        editor.end()


MINE = "module mine\nrules\n  Not-none : Compare(x,[Eq()],[Constant(None(),k)]) -> Compare(x,[Is()],[Constant(None(),k)])\n"
# What `stratbench.json` may not have, and what is said of that.
WRONG_SETTINGS = [
    ("{", "Expecting property name"),
    ("[]", "it isn't an object"),
    ('{"library": 1}', "`library` isn't true or false"),
    ('{"modules": "*.str"}', "`modules` isn't a list of texts"),
    ('{"language": "cobol"}', "`language` isn't one of python, "),
    ('{"module": []}', "there is no member `module`; there are `modules`, `library`, `signature`, `language`, `entries`"),
]


def settings():
    """The file of settings, which the server, the command that refactors and the shell read."""
    with tempfile.TemporaryDirectory() as room:
        os.makedirs(f"{room}/rules/inner")
        written(room, "rules/mine.str", MINE)
        path = written(room, "stratbench.json", '{"modules": ["rules/*.str"], "signature": "python", "language": "python"}')
        written(room, "rules/inner/code", "a == None\n")
        editor = Editor()
        editor.open(f"{room}/rules/mine.str", MINE)
        found = editor.diagnostics(f"{room}/rules/mine.str")
        name = {"textDocument": {"uri": uri_of(f"{room}/rules/mine.str")}, "position": {"line": 2, "character": 15}}
        hover = editor.ask("textDocument/hover", **name)["contents"]["value"]
        yield "the signature of a language, in the server", "" if not found and "Compare : expr" in hover else f"{found} {hover}"
        editor.end()
        ran = told(f"{room}/rules/inner", "stratbench.refactor", "--do", "bottomup(try(Not-none))", "code")
        yield "in the command that refactors", "" if "+a is None" in ran.stdout and ran.returncode == 0 else f"{ran}"
        ran = told(f"{room}/rules/inner", "stratbench", given="tree t Compare(1,[Eq()],[Constant(None(),2)])\napply t do Not-none\nshow t\n")
        yield "in the shell", "" if ran.stdout == "module python\nmodule mine\nok\nok\nCompare(1,[Is],[Constant(None,2)])\n" else f"{ran}"
        written(room, "stratbench.json", '{"library": false}')
        ran = told(room, "stratbench", given="modules\n")
        yield "without the library", "" if ran.stdout == "modules\n" else f"{ran}"
        for text, wanted in WRONG_SETTINGS:
            written(room, "stratbench.json", text)
            said = [told(room, *words).stderr for words in (("stratbench.refactor", "--do", "id", "."), ("stratbench",))]
            yield f"settings {text}", "" if all(it.startswith(f"{path}: {wanted}") for it in said) else f"{said}"


def told(room, module, *words, given=""):
    """What a module of the client prints in a folder."""
    environment = {**os.environ, "PYTHONPATH": CLIENT, "HOME": room}
    return subprocess.run([sys.executable, "-m", module, *words], cwd=room, env=environment, input=given, capture_output=True, text=True)


# What Vim shows the beginnings of pieces of this text as.
COLOURED = """module m
rules
  R : F(x,"a\\"b") -> `f($x)` // c
strategies
  f-g(s|t) = s; all(id) /* d */
"""
COLOURS = [
    ("module", "strategoSection"), ("R :", "strategoDefinition"), ("F(", "strategoConstructor"), ("x,", "strategoVariable"),
    ("\"a", "strategoString"), ("\\\"", "strategoEscape"), ("-> `", "strategoOperator"), ("$x", "strategoMeta"), ("// c", "strategoComment"),
    ("f-g", "strategoDefinition"), ("all", "strategoForm"), ("/* d", "strategoComment"),
]  # fmt: skip


def vims(top):
    """Vim and Neovim know the type of modules, colour them, and indent them as the layout does."""
    files = sorted(glob.glob(f"{top}/strategies/*.str") + glob.glob(f"{top}/examples/*/*.str"))
    for words in (["nvim", "--headless", "-u", "NONE", "-i", "NONE", "-n"], ["vim", "-es", "-u", "NONE", "-i", "NONE", "-n", "-N"]):
        if not shutil.which(words[0]):
            packages.left_out(f"colours and layout by {words[0]}", "there is none")
            continue
        with tempfile.TemporaryDirectory() as room:
            every = [layout.laid_out(contents(it)) for it in files]
            new = [written(room, f"{number}.str", re.sub(r"(?m)^ +", "", it)) for number, it in enumerate(every)]
            path = written(room, "colours.str", COLOURED)
            places = [Text(COLOURED).line_and_column(COLOURED.index(it)) for it, _ in COLOURS]
            names = ",".join(f'synIDattr(synID({line}, {column}, 1), "name")' for line, column in places)
            script = [f"set runtimepath^={top}/clients/editors/vim", "filetype plugin indent on", "syntax on"]
            for it in new:
                script += [f"silent edit {it}", "silent normal! gg=G", "silent write!"]
            script += [f"silent edit {path}", f'call writefile([&filetype, {names}], "{room}/out")', "qall!"]
            source = written(room, "script.vim", "\n".join(script) + "\n")
            ran = subprocess.run([*words, "-S", source], capture_output=True, text=True, stdin=subprocess.DEVNULL, timeout=300)
            got = contents(f"{room}/out").split("\n") if os.path.exists(f"{room}/out") else [f"{ran}"]
            wanted = ["stratego", *(it for _, it in COLOURS), ""]
            yield f"colours of {words[0]}", "" if got == wanted else f"{[it for it in zip(got, wanted) if it[0] != it[1]]} {ran.stderr}"
            other = [file for file, it, text in zip(files, new, every) if contents(it) != text]
            yield f"{words[0]} indents {len(files)} modules", "\n".join(other)


def command_of_editors(top):
    """The editors' files have the server's command."""
    folder = f"{top}/clients/editors"
    command = json.loads(contents(f"{folder}/kate/settings.json"))["servers"]["stratego"]["command"]
    helix = re.findall(r'^(?:command|args) = (.*)$', contents(f"{folder}/helix/languages.toml"), re.MULTILINE)
    same = command == ["python3", "-m", "stratbench.server"] == [json.loads(helix[0]), *json.loads(helix[1])]
    yield "the command of Kate and Helix", "" if same else f"{command} {helix}"


def real(link):
    try:
        return os.readlink(link)
    except OSError:
        return None


def ends():
    """The server ends with its input."""
    for how in ("the end of the input", "exit"):
        editor = Editor()
        if how == "exit":
            editor.note("exit")
        else:
            editor.server.stdin.close()
        status = editor.server.wait(timeout=300)
        yield f"{how}, with no shutdown before", "" if status == 1 else f"status {status}"
        if how == "exit":
            editor.server.stdin.close()
        editor.server.stdout.close()
    editor = Editor(stderr=subprocess.PIPE)
    editor.server.stdout.close()
    editor.open("/none/m.str", "strategies f = g")
    _, said = editor.server.communicate(timeout=300)
    yield "nobody reads the answer", "" if editor.server.returncode == 1 and not said else f"{editor.server.returncode} {said}"
    with tempfile.TemporaryDirectory() as room:
        editor = Editor(cwd=room)
        editor.open(os.path.join(room, "m.str"), "strategies f = g")
        editor.diagnostics(os.path.join(room, "m.str"))
        editor.server.kill()
        editor.server.communicate(timeout=300)
        yield "the program ends with the server", "\n".join(left_in(room))


def tests(top, everything):
    for name in ("reading", "layout", "texts", "messages", "trying", "checking", "costs", "never"):
        found = doctest.testmod(importlib.import_module(f"stratbench.server.{name}"))
        yield f"the examples of {name}", "" if found.attempted and not found.failed else f"{found}"
    yield from read_all(top)
    yield from layouts(top)
    yield from said()
    yield from renamed()
    yield from settings()
    yield from quotations()
    yield from hovers()
    yield from oddities(top)
    yield from bounds(top)
    yield from ends()
    yield from by_turns()
    yield from mistakes(top, everything)
    yield from names_change(top)
    yield from through_neovim()
    yield from command_of_editors(top)
    yield from vims(top)
    yield from through_emacs(top)
    yield from by_code(top)
