"""The command on files of several languages: which are taken, what is said of the others, standard input, encodings, what is missing, and each
of its options with each language."""

import json
import os
import subprocess
import sys
import tempfile
from typing import NamedTuple

import try_languages
from packages import untried
from stratbench import languages
from stratbench.languages.language import Missing

# A module that is called after a language is loaded for that alone.
WORDS = 'module yaml-mine rules Word : Plain("old") -> Plain("new")'
TEXTS = 'module json-mine rules Text : String("old") -> String("new")'
SCRIPT = """module script
rules
  Rename : Identifier("old") -> Identifier("now")
  Drop : CallExpression(f,o,[_|_]) -> CallExpression(f,o,[])
"""


class Small(NamedTuple):
    """A language in a few lines: the suffix of its files, rules, a text in which the word `old` is in the first line and a comment in the
    second one, one from which `Drop` takes a comment in its second line, and one that isn't of the language."""

    suffix: str
    rules: str
    text: str
    comment: str
    loses: str
    broken: str


RULES = {
    "javascript": Small(".js", SCRIPT, "old(1); // one\n// two\n", "/* three */", "a();\nf(g(1 /* three */));\n", "f(\n"),
    "java": Small(
        ".java",
        "module java-mine rules Rename : Identifier(\"old\") -> Identifier(\"now\") Drop : MethodInvocation(f,[_|_]) -> MethodInvocation(f,[])",
        "class A { int a = old; // one\n// two\n}\n",
        "/* three */",
        "class A {\n    int a = f(g(1 /* three */));\n}\n",
        "class A {\n",
    ),
    "json": Small(
        ".json",
        "module json-mine rules Rename : String(\"old\") -> String(\"now\") Drop : Array([_|_]) -> Array([])",
        "[\"old\", // one\n // two\n 1]\n",
        "// three",
        "{\n  \"a\": [1, // three\n 2]}\n",
        "[\n",
    ),
    "yaml": Small(
        ".yaml",
        "module yaml-mine rules Rename : Plain(\"old\") -> Plain(\"now\") Drop : FlowSequence([_|_]) -> FlowSequence([])",
        "a: old  # one\n# two\n",
        "# three",
        "a: 1\nb: [c,  # three\n  d]\n",
        "a: [\n",
    ),
}


class Room:
    """A folder in which the command is run, with these files."""

    def __init__(self, top, files, python=sys.executable):
        self.top, self.python, self._folder = top, python, tempfile.TemporaryDirectory()
        self.folder = self._folder.name
        for name, contents in files.items():
            os.makedirs(os.path.dirname(f"{self.folder}/{name}"), exist_ok=True)
            with open(f"{self.folder}/{name}", "wb") as it:
                it.write(contents if isinstance(contents, bytes) else contents.encode())

    def run(self, *words, given=b"", **more):
        command = [self.python, "-m", "stratbench.refactor", "--modules", f"{self.top}/strategies", *words]
        environment = {**os.environ, "PYTHONPATH": f"{self.top}/clients/python", "XDG_STATE_HOME": f"{self.folder}/state", **more}
        ran = subprocess.run(command, cwd=self.folder, env=environment, input=given, capture_output=True)
        return ran.returncode, ran.stdout, ran.stderr.decode()

    def has(self, name):
        with open(f"{self.folder}/{name}", "rb") as it:
            return it.read()


def same(got, wanted):
    return "" if got == wanted else f"{got}\nwanted\n{wanted}"


def data(top):
    """JSON and YAML, which need no other program."""
    try:
        languages.named("yaml").sources([("a.yaml", b"a: 1")])
    except Missing as error:
        yield from untried("files of YAML and JSON", error)
        return
    room = Room(top, {
        "words.str": WORDS, "texts.str": TEXTS, "a/b.json": '["old"]\n', "a/c.yaml": "- old\n", "a/d.txt": "old\n", "a/e.py": "old\n", "a/.gitignore": "out\n*.tmp.json\n",
        "a/out/f.json": '["old"]\n', "a/g.tmp.json": '["old"]\n', "mark.json": b'\xef\xbb\xbf["old",\r\n "\xc3\xa4"]\r\n', "latin.yaml": b"a: old # \xe4\n",
        "config": "- old\n",
    })  # fmt: skip
    mine = ("--module", "yaml-mine=words.str", "--module", "json-mine=texts.str", "--do")
    subprocess.run(["git", "init", "-q"], cwd=f"{room.folder}/a", capture_output=True)
    status, out, said = room.run(*mine, "topdown(try(Word))", "--language", "yaml", "a")
    yield "a folder's files of a language", same((status, out.count(b"+++"), said), (0, 1, "1 of 1 file would change, 1 place\n"))
    status, out, said = room.run(*mine, "topdown(try(Text))", "a")
    right = status == 0 and b"+++ a/b.json" in out and out.count(b"+++") == 1 and "YAML: the strategy isn't one" in said and "Python" in said
    yield "a folder of several languages, without what Git ignores", "" if right else f"{status} {out} {said}"
    status, out, said = room.run(*mine, "topdown(try(Text))", "a/out", "a/g.tmp.json")
    yield "an ignored folder that is named, and an ignored file", same((status, out.count(b"+++")), (0, 2))
    status, out, said = room.run(*mine, "topdown(try(Word))", "config")
    yield "a file whose suffix says no language", same((status, said.splitlines()[0]), (3, "config: its suffix says no language: give --language"))
    status, out, said = room.run(*mine, "topdown(try(Word))", "--language", "yaml", "config", "--check")
    yield "the same with --language and --check", same((status, out.count(b"+- new")), (1, 1))
    status, out, said = room.run(*mine, "topdown(try(Word))", "--language", "yaml", "-", given=b"- old  # one\n")
    yield "standard input", same((status, out), (0, b"--- -\n+++ -\n@@ -1 +1 @@\n-- old  # one\n+- new  # one\n"))
    status, out, said = room.run(*mine, "topdown(try(Word))", "--language", "yaml", "--write", "-", given=b"- old  # one\n")
    yield "standard input with --write", same((status, out), (0, b"- new  # one\n"))
    status, out, said = room.run(*mine, "topdown(try(Text))", "mark.json", "--write")
    yield "a byte order mark and line ends stay", same((status, room.has("mark.json")), (0, b'\xef\xbb\xbf["new",\r\n "\xc3\xa4"]\r\n'))
    status, out, said = room.run(*mine, "topdown(try(Word))", "latin.yaml", "--write")
    yield "a file that isn't in UTF-8", same((status, room.has("latin.yaml")), (0, b"a: new # \xe4\n"))
    status, out, said = room.run(*mine, "id", "--language", "toy", "config")
    yield "a language that there isn't", same((status, "invalid choice" in said), (2, True))


def scripts(top):
    """JavaScript, by a front end of its own."""
    try:
        languages.named("javascript").sources([("a.js", b"")])
    except Missing as error:
        yield from untried("files of JavaScript", error)
        return
    files = {f"{at}.js": f"old({at}); // one\nf(\n  g(1 /* two */)\n);\n" for at in range(6)}
    room = Room(top, {"script.str": SCRIPT, "broken.js": "f(\n", "a.ts": "let a = old as any\n", "b.tsx": "x = <a b={old}>old</a>\n", **files})
    mine = ("--module", "script=script.str", "--do")
    status, out, said = room.run(*mine, "topdown(try(Drop))", "--keep-comments", "0.js")
    wanted = "0.js:3: left, since a comment would be lost: /* two */\n1 of 1 file would change, 2 places; places left for 1 comment\n"
    yield "--keep-comments", same((status, b"+old();" in out, said), (3, True, wanted))
    status, out, said = room.run(*mine, "topdown(try(Drop))", "0.js")
    yield "a comment that is lost is named", same((status, said.splitlines()[0]), (0, "0.js:3: comment lost: /* two */"))
    one = room.run(*mine, "topdown(try(Rename))", *files)
    yield "--jobs", same(room.run(*mine, "topdown(try(Rename))", "--jobs", "3", *files), one) or same(one[0], 0)
    status, out, said = room.run(*mine, "topdown(try(Rename))", "broken.js", "1.js", "--write")
    yield "a file that isn't read is left, and others are written", same((status, said.splitlines()[0], room.has("1.js")[:6]), (3, "broken.js:2: no JavaScript: Unexpected token", b"now(1)"))
    status, out, said = room.run(*mine, "topdown(try(Rename))", "a.ts", "b.tsx", "--write")
    yield "TypeScript and JSX", same((status, room.has("a.ts"), room.has("b.tsx")), (0, b"let a = now as any\n", b"x = <a b={now}>old</a>\n"))
    status, out, said = room.run(*mine, "id", "0.js", NODE="/nowhere/node")
    yield "a front end that is missing", same((status, out, said.startswith("JavaScript needs node and @babel/parser: apt install")), (2, b"", True))


def options(top, name, small):
    """Each option with a language. It finds the same files changed, and names the same comments, however it is run."""
    language = languages.named(name)
    try:
        language.sources([("a" + small.suffix, small.text.encode())])
    except Missing as error:
        yield from untried(f"the options with {name}", error)
        return
    files = {f"{at}{small.suffix}": small.text for at in range(5)}
    room = Room(top, {"mine.str": small.rules, "loses" + small.suffix: small.loses, "broken" + small.suffix: small.broken, **files})
    module = small.rules.split()[1]
    mine = ("--module", f"{module}=mine.str", "--do")
    loses, broken = "loses" + small.suffix, "broken" + small.suffix
    alone = room.run(*mine, "topdown(try(Rename))", *files)
    yield f"{name}: a run", same((alone[0], alone[1].count(b"+++"), alone[2]), (0, 5, "5 of 5 files would change, 5 places\n"))
    yield f"{name}: --jobs", same(room.run(*mine, "topdown(try(Rename))", "--jobs", "2", *files), alone)
    status, out, said = room.run(*mine, "topdown(try(Rename))", "--check", *files)
    yield f"{name}: --check where something would change", same((status, out, said), (1, *alone[1:]))
    status, out, said = room.run(*mine, "topdown(try(Rename))", "--check", loses)
    yield f"{name}: --check where nothing would", same((status, out, said.splitlines()[-1]), (0, b"", "0 of 1 file would change"))
    status, out, said = room.run(*mine, "topdown(try(Drop))", "--report", "lost.json", loses, broken)
    got = json.loads(room.has("lost.json"))
    lost = [{"line": 2, "comment": small.comment}]
    counts = {"files": 2, "changed": 1, "places": 1, "lost": 1, "kept": 0, "left": 1}
    yield f"{name}: --report counts", same((status, got["status"], got["written"], got["counts"]), (3, 3, False, counts))
    of_loses = {"file": loses, "changed": True, "places": [{"line": 2, "rule": "Drop"}], "lost": lost, "kept": [], "left": None}
    yield f"{name}: --report of a file that changes", same([it for it in got["files"] if it["file"] == loses], [of_loses])
    [left] = [it for it in got["files"] if it["file"] == broken]
    yield f"{name}: --report of a file that isn't read", "" if left["left"].startswith(f"{broken}:") and not left["changed"] else f"{left}"
    status, out, said = room.run(*mine, "topdown(try(Drop))", "--keep-comments", "--report", "kept.json", "--write", loses)
    [kept] = json.loads(room.has("kept.json"))["files"]
    yield f"{name}: --keep-comments", same((status, room.has(loses).decode(), kept["kept"], kept["changed"]), (3, small.loses, lost, False))
    status, out, said = room.run(*mine, "topdown(try(Rename))", "--write", "--report", "written.json", "--jobs", "2", *files)
    yield f"{name}: --write", same([room.has(it).decode() for it in files], [small.text.replace("old", "now")] * 5)
    got = json.loads(room.has("written.json"))
    yield f"{name}: --report after --write", same((status, got["written"], [it["places"] for it in got["files"]]), (0, True, [[{"line": 1, "rule": "Rename"}]] * 5))


def tests(top, everything):
    # what others install at this time is waited for
    for name in RULES:
        try_languages.missing(name)
    yield from data(top)
    yield from scripts(top)
    for name, small in RULES.items():
        yield from options(top, name, small)
