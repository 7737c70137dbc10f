"""Languages other than Python: cases of patches as data, grammars on real files, and refactorings of these.

What needs a front end is left out where that isn't there, and its name says what to install; with `CI=true` it fails then. On Debian it is
installed where that can be done.
"""

import glob
import os
import re
import zipfile

import grammars
import layouts
import packages
import try_mixed
from samples import below, sample, sampled
from stratbench import languages, refactor
from stratbench.languages.by_grammar import ByGrammar
from stratbench.languages.language import Fault, Missing
from stratbench.patch import patched
from stratbench.terms import Term, deep, string

PACKAGES = {"javascript": ["nodejs", "node-babel7"], "yaml": ["python3-yaml"], "java": ["default-jdk-headless"]}
# What an empty file of each language is.
SMALL = {"javascript": b"x", "json": b"1", "yaml": b"a: 1\n", "java": b"class A {}"}


def missing(name):
    """What a language lacks on this machine, after it was tried to install it."""
    language = languages.named(name)
    try:
        language.sources([("a" + language.suffixes[0], SMALL[name])])
        return ""
    except Missing as error:
        if name in PACKAGES and not any([packages.installed(it) for it in PACKAGES[name]]):
            try:
                language.sources([("a" + language.suffixes[0], SMALL[name])])
                return ""
            except Missing as again:
                return str(again)
        return str(error)


# Real files of a language: a few of them, or many.
FOLDERS = {"javascript": "/usr/share/nodejs", "json": "/usr/share/nodejs", "yaml": "/usr/lib"}
# The JDK's own sources, which few machines have.
SOURCES = "/usr/lib/jvm/*/lib/src.zip"


def jdk_sources(count):
    """So many of the JDK's sources, with their contents."""
    for archive in sorted(it for it in glob.glob(SOURCES) if os.path.exists(it)):
        with zipfile.ZipFile(archive) as it:
            some = (one for one in it.infolist() if re.match(r"java.base/java/(util|io|time)/.*[a-z]\.java", one.filename))
            names = sampled({one.filename: one.CRC for one in some if 500 < one.file_size < 40_000}, count)
            return [(name, it.read(name)) for name in names]
    return []


def real_files(name, count):
    """So many files of a language that the machine has, of a size that is soon done, with their contents."""
    if name == "java":
        return jdk_sources(min(count, 30))
    return sample(below(FOLDERS[name], lambda file: languages.name_of(file) == name), range(501, 30_000), count)


def fitting(name, everything):
    """Whether the grammar fits real files, and each made wholly anew has the same tree."""
    language = languages.named(name)
    files = real_files(name, 200 if everything else 40)
    if not files:
        packages.left_out(f"real files of {name}", "this machine has none")
        return
    wrong, parsed = [], 0
    with deep():
        for file, contents in files:
            [source] = language.sources([(file, contents)])
            if isinstance(source, Fault):
                continue
            parsed += 1
            wrong += [f"{file}: {what}: {node.head}" for what, node in grammars.faults(source) if what == "overlap"]
            try:
                grammars.anew(source)
            except Exception as error:
                wrong.append(f"{file}: {error}")
    yield f"{name}: the grammar fits {parsed} files", "" if not wrong and 2 * parsed >= min(len(files), 4) else "\n".join(wrong[:20]) or f"{parsed} parsed"


JAVA_RULES = ["bottomup(try(IsEmpty <+ NotEqual <+ CompoundOf))", "topdown(try(ReturnTest))", "topdown(try(java-no-else-after-return))"]


def jdk_rules(top):
    """The rules for Java on the JDK's own sources: each result is a program, and the comments that are gone are named."""
    work, modules = jdk_sources(30), []
    for name in ("lists", "java", "java-conditions"):
        with open(f"{top}/strategies/{name}.str", "rb") as it:
            modules.append((name, it.read()))
    if not work:
        packages.left_out("rules for java on the JDK's own sources", "this machine has none")
        return
    for strategy in JAVA_RULES:
        outcomes = refactor.refactored(work, refactor.Task(tuple(modules), strategy, language="java"))
        changed = sum(it.contents is not None for it in outcomes)
        wrong = [it.left for it in outcomes if it.left and "aren't read" not in it.left]
        for (_, before), it in zip(work, outcomes):
            gone = len(COMMENT.findall(before)) - len(COMMENT.findall(it.contents)) if it.contents is not None else 0
            wrong += [f"{it.name}: {gone} comments are gone, and {len(it.comments)} are named"] * (gone != len(it.comments))
        yield f"java: {strategy} changes {changed} of {len(work)} files of the JDK", "\n".join(wrong[:20])


# What Java 21 added.
LATER = """record P(int x, Object y) {}
class A {
    int f(Object o) {
        if (o instanceof P(int x, P(var y, _)) && old > 1) return x; // one
        switch (o) {
            case P(int x, var y) when  old > 0: // two
                return 1;
            default:
        }
        return switch (o) {
            case P(int x, int y) when old.f( y ) -> x; // three
            case String s when !s.isEmpty() -> { yield  old; }
            case null, default -> 0;
        };
    }
}
"""
LATER_RULES = """module later
rules
  Rename : Identifier("old") -> Identifier("now")
  Less : GuardedRule(ls,_,b) -> CaseRule(ls,b)
"""
LATER_DIFF = """-        if (o instanceof P(int x, P(var y, _)) && old > 1) return x; // one
+        if (o instanceof P(int x, P(var y, _)) && now > 1) return x; // one
-            case P(int x, var y) when  old > 0: // two
+            case P(int x, var y) when  now > 0: // two
-            case P(int x, int y) when old.f( y ) -> x; // three
-            case String s when !s.isEmpty() -> { yield  old; }
+            case P(int x, int y) when now.f( y ) -> x; // three
+            case String s -> { yield  now; }
"""


def later(top):
    """What only later compilers read, where the machine has one."""
    homes = [it for it in sorted(glob.glob("/usr/lib/jvm/*")) if (found := re.search(r"-(\d+)-", it + "-")) and int(found[1]) >= 22 and os.path.exists(f"{it}/bin/java")]
    if not homes:
        packages.left_out("guards of cases, and patterns of records", "this machine has no JDK of 22 or later")
        return
    room = try_mixed.Room(top, {"later.str": LATER_RULES, "A.java": LATER})
    status, out, said = room.run("--module", "later=later.str", "--do", "topdown(try(Less)); topdown(try(Rename))", "A.java", JAVA_HOME=homes[-1])
    changed = "".join(line + "\n" for line in out.decode().splitlines()[2:] if line[0] in "+-")
    yield "guards of cases, and patterns of records", "" if (status, changed) == (0, LATER_DIFF) else f"{status} {out.decode()} {said}"


# A comment, or what looks like one in a string: both are the same before and after.
COMMENT = re.compile(rb"//[^\n]*|/\*.*?\*/", re.DOTALL)


class Counting:
    """A front end that counts the bytes which it is sent."""

    def __init__(self, front):
        self.front, self.bytes = front, 0

    def parsed(self, kind, sources, places):
        self.bytes += sum(len(it) for it in sources)
        return self.front.parsed(kind, sources, places)


def conditional(term):
    """A tree with a conditional expression in the place of each name `old`."""
    if (term.head, term.children) == (OLD.head, OLD.children):
        return Term("ConditionalExpression", (OLD, OLD, OLD))
    return Term(term.head, tuple(conditional(it) for it in term.children), term.annotations)


OLD = Term("Identifier", (string("old"),))
# Files with operands.
CHAINS = {"javascript": "x = {};\n", "java": "class A {{\n    void f() {{\n        x = {};\n    }}\n}}\n"}


def chains(name):
    """What is parsed where all operands of operations come to need brackets is linear in how many there are."""
    known = languages.named(name)
    for sign in (" || ", " - "):
        found = []
        for count in (40, 80):
            front = Counting(known.front)
            language = ByGrammar(name, known.title, known.suffixes, known.kinds, known.dialect, front, known.kind)
            [source] = language.sources([("a" + known.suffixes[0], CHAINS[name].format(sign.join(["old"] * count)).encode())])
            with deep():
                got = patched(source, conditional(source.term))
            wanted = CHAINS[name].format(sign.join(["(old ? old : old)"] * count)).encode()
            found.append(front.bytes if got == wanted else 0)
        few, many = found
        yield f"twice the operands of {sign.strip()} that need brackets take twice the bytes", "" if 0 < many < 2.3 * few else f"{few} and {many}"


def tests(top, everything):
    for name in (it for it in languages.NAMES if it != "python"):
        lacks = missing(name)
        if lacks:
            yield from packages.untried(name, lacks)
            continue
        for title, fault in layouts.tests(top, name):
            yield f"{name}: {title}", fault
        if name in CHAINS:
            for title, fault in chains(name):
                yield f"{name}: {title}", fault
        yield from fitting(name, everything)
        if name == "java":
            yield from jdk_rules(top)
            yield from later(top)
