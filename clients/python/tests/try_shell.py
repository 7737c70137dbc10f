"""The shell, in a pseudo-terminal: with `readline`, without, and with `prompt_toolkit` where a Python here has it."""

import os
import re
import signal
import subprocess
import sys
import tempfile

from packages import interpreter, left_out
from stratbench.shell.session import Again, Session
from terminals import Terminal, Unlike

RULES = """module arith
signature constructors
  Plus : e * e -> e   Zero : e   A : e   B : e
rules
  Unit : Plus(Zero(),x) -> x
"""
FILES = {
    "arith.str": RULES,
    "script": "# a script\ntree s f(\n  a)\nshow s\n",
    "one.str": "module uses\nstrategies first = all(second)\n",
    "two.str": "module has\nstrategies second = !1\n",
}
def first(it, folder):
    """A session from the first command on, with a kill and a stop."""
    it.see(r"^> ?$")
    it.do("tree t Plus(Zero,Plus(Zero,A))", "^ok")
    it.do("show t", r"^Plus\(Zero,Plus\(Zero,A\)\)")
    it.do(":load arith.str", "^module arith")
    it.do("apply t do innermost(Unti)", r"^refused 11 unknown Unti 0 0: at line 1, column 22\n    apply t do innermost\(Unti\)\n {25}\^")
    it.do(":why", "refused 11 unknown Unti 0 0: at line 1, column 22")
    it.do("apply t do innermost(Unit)", "^ok")
    it.do("show t", "^A$")
    # a mended file
    with open(f"{folder}/arith.str", "w") as file:
        file.write(RULES + "  Gone : A() -> B()\n")
    it.do(":reload", "^module arith")
    it.do(":reload", "^no file has changed")
    it.do("apply t do Gone", "^ok")
    it.do(":history", r"^   1   tree t .*\n   2   :load arith.str\n   3   apply t do innermost\(Unit\)\n   4   :reload arith.str\n   5   apply t do Gone")
    # the program is ended by the system, and stopped in a run
    os.kill(it.program(), signal.SIGKILL)
    it.do("show t", "^the program was ended by SIGKILL: the session was made again, as it was before this command")
    it.do("show t", "^B$")
    os.kill(it.program(), signal.SIGSTOP)
    it.at = len(it.seen)
    it.type("apply t do !1\n")
    it.see(r"do !1\n")
    it.interrupt(r"^stopped: the session was made again, as it was before this command\n> ?$")
    it.do("show t", "^B$")
    it.do(":undo 2", "^ok")
    it.do("show t", r"^Plus\(Zero,Plus\(Zero,A\)\)")
    it.do(":history", r"^   2   :load arith.str\n   3 u apply t do innermost\(Unit\)")
    it.do("redo 3", "^ok")
    it.do("show t", "^B$")
    it.do("undo 6", "^5 of your steps can be undone; `:undo -1` takes back the start of the session, too")
    it.do("undo 5", "^ok")
    it.do("undo", "^0 of your steps can be undone")
    it.do(":undo", "^there is no step of yours to undo")
    it.do(":undo -2", "^there are the steps -1 to 5")
    it.do(":undo -1", "^ok")
    it.do("modules", "^modules$")
    it.do(":history", r"^  -1   nothing\n   0 u the start of the session\n   1 u tree t")
    it.do(":undo 5", "^ok")
    it.do(":save t out.aterm", "^2 bytes")
    it.do(":load new=out.aterm", "^tree new")
    it.do("trees", "^trees new t$")


def second(it, folder):
    """Lines that go on, and lines that don't."""
    it.see(r"^> ?$")
    it.at = len(it.seen)
    it.type("module m\nsignature constructors f : t -> t  A : t  B : t\nrules\nR : A() -> f(\nB())\n\n")
    it.see(r"\nok\n> ?$")
    it.do("tree t [A,A]", "^ok")
    it.do("apply t do map(R)", "^ok")
    it.at = len(it.seen)
    it.type("tree u [1,\n2]\n")
    it.see(r"\nok\n> ?$")
    it.do("show u", r"^\[1,2\]")
    it.do("text m", r"rules\n *R : A\(\) -> f\(\n *B\(\)\)")
    # cancelled
    it.at = len(it.seen)
    it.type("tree v f(")
    it.see(r"f\(")
    it.cancel()
    it.do("trees", "^trees t u$")
    it.at = len(it.seen)
    it.type("module m\n\n")
    it.see("^module m: there is no text, and nothing was done\n> ?$")
    it.do("preview t do all(!1)", r"^changes 2 steps \d+\n/0 in \[_,f\(..\)\]\n  - f\(B\)\n  \+ 1\n/1 in \[f\(..\),_\]\n  - f\(B\)\n  \+ 1$")
    it.do("begin", "^ok")
    it.see(r"^>> ?$")
    it.do("drop u", "^ok")
    it.do("abandon", "^ok")
    it.do(f"tree long [{','.join(map(str, range(1500)))}]", "^ok")
    it.do("show long at /1499", "^1499")
    it.do(":depth 1", "")
    it.do("show t", r"^\[f\(\.\.\),f\(\.\.\)\]")
    it.do(":run script", r"^> tree s f\(\n  a\)\nok\n> show s\nf\(a\)")
    it.do(":load one.str two.str", "^module uses\nmodule has")
    it.do("apply t do first", "^ok")
    it.do(":diff", r"^tree t\n/0 in \[_,1\]\n  - f\(B\)\n  \+ 1\n/1 in \[1,_\]\n")
    it.do(":edit m", "^module m")
    it.do(":diff", r"^-.*B\(\)\)\n\+.*f\(B\(\)\)\)")
    it.do(":none", "^there is no :none")
    it.do(":load", "^no file is named, and there is no stratbench.json")
    it.do(":load none.str", "none.str")
    it.do(":help", r"^:reload(?s:.*)\n  history +dump")
    it.do(":profile long at /1499 do ?x; !x", r"^3 steps\n    the steps: the command 100 % \(3\)")
    it.do(":profile long within 2 do ?x; !x", "^refused 13 spent")
    it.do(":profile long", "^refused 2 line: `do` and a strategy are missing")
    it.do(":profile", "^the form is `:profile N")
    # completion
    it.at = len(it.seen)
    it.type("show lo")
    it.complete()
    it.type(" at /7\n")
    it.see(r"\n7\n> ?$")


def third(it, folder):
    """The history of the session before."""
    it.see(r"^> ?$")
    it.at = len(it.seen)
    it.type("\x1b[A")
    it.see("show long at /7")
    it.type("\n")
    it.see(r"^refused 5 notree(?s:.*)\n> ?$")
    # a module over lines is one entry
    it.at = len(it.seen)
    it.type("module m\nstrategies\nf = id // nothing\n")
    it.see(r"nothing\n\. *$")
    it.type("\n")
    it.see(r"^ok\n> ?$")
    it.do("unload m", "^ok")
    it.at = len(it.seen)
    it.type("\x1b[A\x1b[A")
    it.see(r"nothing")
    it.type("\n")
    it.see(r"^ok\n> ?$")
    it.do("text m", r"^strategies\s+f = id")
    # searched
    it.at = len(it.seen)
    it.type("\x12at /7")
    it.see("show long at /7")
    it.cancel()


def fourth(it, folder):
    """What is completed, and what is in colour."""
    it.see(r"^> ?$")
    it.do("tree tea f(a,g(b))", "^ok")
    it.do(":l arith.str", "^module arith")
    it.do("apply tea at /1 do !7", "^ok")
    it.do("show tea", r"^f\(a,7\)")
    raw(it, "f(a,\x1b[32m7\x1b[m)")
    it.do("show tea at /1", "^7")
    raw(it, "\x1b[32m7\x1b[m")
    it.do("undo", "^ok")
    it.do("show tea", r"^f\(a,g\(b\)\)")
    it.do("preview tea at /1 do all(!7)", r"^changes 1 steps 2\n/1/0 in f\(a,g\(_\)\)\n  - b\n  \+ 7$")
    raw(it, "\x1b[31m-\x1b[m \x1b[31mb\x1b[m")
    for typed, wanted in (
        ("sho\t te\t at /1/\t", "^b$"),
        ("appl\t tea a\t /0 do \\ x -> Zer\t() \\", "^ok$"),
        ("show tea at /0", "^Zero$"),
        ("apply tea do all(tr\tUn\t))", "^ok$"),
        ("put tea /\t0 Plus(Zero,A)", "^ok$"),
        ("tree u Pl\tZero,A)", "^ok$"),
        ("dro\t u\t", "^ok$"),
        ("text ar\t", "^module arith$"),
        (":ru\t sc\t", "^> tree s"),
        (":reload ar\t", "^module arith$"),
        (":sa\t tea o\ter", "^[0-9]* bytes$"),
    ):
        it.at = len(it.seen)
        for key in typed:
            it.complete() if key == "\t" else it.type(key)
        it.type("\n")
        it.see(rf"(?s:{wanted}.*)\n>>? ?$")
    it.at = len(it.seen)
    it.type("apply tea do once")
    it.complete()
    it.complete()
    it.see(r"oncebu\(s\)(?s:.*)oncetd\(s\)")
    it.cancel()


def raw(it, wanted):
    if wanted not in it.seen[it.at :]:
        raise Unlike(f"{it.seen[it.at :]!r} has no {wanted!r}")


def fifth(it, folder):
    """What is pasted, edited, and asked for by mistake."""
    it.see(r"^> ?$")
    it.at = len(it.seen)
    it.paste("# a script\nmodule p\n  signature constructors A : t  B : t\n\n  rules\n    P : A() -> B()\n")
    it.paste("tree q [A,\n A]\napply q do map(P)\nshow q")
    it.see("show q")
    it.type("\n")
    it.see(r"^> tree q \[A,\n A\]\nok\n> apply q do map\(P\)\nok\n> show q\n\[B,B\]\n> ?$")
    for word, wanted in (
        ("  :depth 12", ""),
        ("help", "^the shell's own commands begin with a colon: `:help`"),
        ("exit", "^`:quit` or Ctrl-D ends"),
        (":h", "^:h may be :history or :help"),
        (":save q", "^the form is `:save NAME FILE`"),
        (":undo x", "^x is no step"),
        (":depth x", "^x is no number of levels"),
        (":load 'a", "^No closing quotation"),
        (":reload", "^no file was loaded"),
        (":reload p", "^no file of the name p was loaded"),
        (":edit q", "^nothing has changed"),
    ):
        it.do(word, wanted)
    # a text that is refused isn't lost
    it.do("module p signature constructors A : t  B : t  f : t -> t  rules P : A() -> B()", "^ok")
    it.do(":edit p", "^module p")
    it.do("text p", r"P : A\(\) -> f\(B\(\)\)")
    it.do("module p signature constructors A : t  B : t rules P : A() -> B()", "^ok")
    it.do(":edit p", r"^`:edit p` goes on with what you wrote\nrefused 11 undeclared f 1 0")
    it.do(":edit p", r"^`:edit p` goes on with what you wrote\nrefused 11 undeclared f 1 0(?s:.*)f\(f\(B\(\)\)\)")
    # the file of a module is edited, not a copy of it
    it.do(":load arith.str two.str", "^module arith\nmodule has")
    with open(f"{folder}/two.str", "a") as file:
        file.write("third = !Q()\n")
    it.do(":reload two", "^two.str: refused 11 undeclared Q 0 0")
    it.do(":load script", "^script: refused 7 term")
    it.do(":save q ~/q.aterm", "^6 bytes")
    it.do(":load ~/q.aterm", "^tree q")


def sixth(it, folder):
    """What names are, settings, and where what is shown goes."""
    it.see(r"^> ?$")
    it.do(":load arith.str", "^module arith")
    it.do(r'tree t Plus(Zero,"gr\303\274n \377")', "^ok")
    it.do("show t", r'^Plus\(Zero,"grün \\377"\)$')
    it.do("pretty t", r'^Plus\(Zero,"grün \\377"\)$')
    it.do(":set bytes on", "")
    it.do("show t", r'^Plus\(Zero,"gr\\303\\274n \\377"\)$')
    it.do("pretty t", r'^Plus\(Zero,"gr\\303\\274n \\377"\)$')
    it.do(":set bytes off", "")
    it.do("apply t at /1 do !\"\\303\\274\"", "^ok")
    it.do(":diff", r'^tree t\n/1 in Plus\(Zero,_\)\n  - "grün \\377"\n  \+ "ü"$')
    it.do("undo", "^ok")
    it.do(":info Plus", r"^constructor Plus : e \* e -> e\n  in the module arith$")
    it.do(":info Unit", r"^Unit : Plus\(Zero\(\),x\) -> x\n  in the module arith$")
    it.do(":info t", r"^tree t: Plus\(..\), 3 terms, 2 levels$")
    it.do(":info arith", "^module arith: 4 constructors, 1 definition$")
    it.do(":info repeat", r"^repeat\(s\) =(?s:.*)\n  in the module library$")
    it.do(":info no", "^there is no tree, module, constructor or definition no$")
    it.do(":browse arith", r"^module arith\n  Plus : e \* e -> e\n  Zero : e\n  A : e\n  B : e\n  Unit \(rule\)$")
    it.do(":browse no", "^there is no module no$")
    it.do("show t > a.out", "^24 bytes$")
    it.do(":brow arith >> a.out", r"^\d+ bytes$")
    with open(f"{folder}/a.out") as file:
        if file.read().split("\n")[:2] != ['Plus(Zero,"grün \\377")', "module arith"]:
            raise Unlike("the file has something else")
    it.do("show u > b.out", "^refused 5 notree")
    if os.path.exists(f"{folder}/b.out"):
        raise Unlike("a refused command has written a file")
    it.do("show t | tr P p | head -1", r'^plus\(Zero,"grün')
    it.do("show t | false", "^`false` ended with the status 1$")
    it.do("text arith > /none/there", "^/none/there: No such file or directory$")
    it.do("apply t do id > a.out", "^refused 10 syntax")
    # long texts go through the pager
    it.do(f"tree long [{','.join(f'{number:020}' for number in range(10 ** 12, 10 ** 12 + 60))}]", "^ok")
    it.do("show long", r"^paged: \[\npaged:   1000000000000,")
    it.do(":set pager off", "")
    it.do("show long", r"^\[\n  1000000000000,")
    it.do(":set", "^depth 12\npager off\ntiming off\nbytes off$")
    it.do(":set timing on", r"^took \d+\.\d\d s$")
    it.do(":set timing", "^timing is `on` or `off`$")
    it.do(":set no on", "^there is no setting no: there are depth, pager, timing, bytes$")
    # a command that takes long says how long
    os.kill(it.program(), signal.SIGSTOP)
    it.at = len(it.seen)
    it.type("show t\n")
    it.see(r"^\d+ s; Ctrl-C stops it")
    os.kill(it.program(), signal.SIGCONT)
    it.see(r"Plus\(Zero(?s:.*)\ntook (?:[2-9]|\d\d+)\.\d\d s\n> ?$")


SCENES = (first, second, third, fourth, fifth, sixth)


def screens(top, python, scenes, name, hidden=(), **more):
    """Plays scenes, and all of them once more where one fails: keys that a shell misses while it draws are missed by people, too."""
    faults = played(top, python, scenes, hidden, more)
    again = played(top, python, scenes, hidden, more) if any(faults) else faults
    for scene, first, last in zip(scenes, faults, again):
        tries = ", at the second try" if first and not last else ""
        yield f"{name}: {scene.__doc__}{tries}", last and f"{last}\nand at the first try: {first or 'as wanted'}"


def played(top, python, scenes, hidden, more):
    """Plays scenes in a folder of their own, with some modules of Python hidden from the shell, and more in its environment. Returns what
    is wrong with each, if anything is."""
    faults = []
    with tempfile.TemporaryDirectory() as folder:
        os.symlink(os.environ["STRATBENCH"], f"{folder}/program")
        for scene in scenes:
            for file, text in FILES.items():
                with open(f"{folder}/{file}", "w") as it:
                    it.write(text)
            terminal = Terminal(top, python, folder, hidden, **more)
            try:
                scene(terminal, folder)
                fault = ""
            except Unlike as error:
                fault = f"{error}"
            status = terminal.end()
            faults.append(fault or ("" if status == 0 else f"status {status}"))
    return faults


def piped(top):
    """Without a terminal there is no prompt."""
    environment = {**os.environ, "PYTHONPATH": f"{top}/clients/python"}
    script = "tree t f(\n a)\nshow t\nmodule m\n  rules\n\n    R : x -> 1\nshow u\n:quit\nshow t\n"
    ran = subprocess.run([sys.executable, "-m", "stratbench"], env=environment, input=script, capture_output=True, text=True)
    wanted = "ok\nf(a)\nok\nrefused 5 notree: there is no tree `u`\n    there is `t`\n"
    return "" if (ran.returncode, ran.stdout, ran.stderr) == (0, wanted, "") else f"{ran}"


def limits(top):
    """The options for limits hold, also of a session that is made again."""
    environment = {**os.environ, "PYTHONPATH": f"{top}/clients/python"}
    script = "tree t a\napply t within 2000000 do !1\napply t within 2000001 do !1\n"
    words = [sys.executable, "-m", "stratbench", "--max-steps", "2000000", "--max-terms", "131071"]
    ran = subprocess.run(words, env=environment, input=script, capture_output=True, text=True)
    if not re.fullmatch(r"ok\nok\nrefused 2 line: .*from 1 to 2000000\n(?s:.*)", ran.stdout):
        return f"{ran}"
    session = Session(print, max_steps=2_000_000, max_terms=131_071)
    session.run("module m rules Twice : x -> (x,x)")
    session.run("tree t a")
    os.kill(session.bench._process._ran.pid, signal.SIGKILL)
    try:
        session.run("trees")
        return "it wasn't made again"
    except Again:
        found = session.run("apply t within 2000000 do " + "; ".join(["Twice"] * 16))
        profile = session.profile("preview t within 2000000 do id")
    return "" if found == "ok" and profile.startswith("1 step") else f"{found} {profile}"


def replaced(it, folder):
    """The program is gone for a while."""
    it.see(r"^> ?$")
    it.do("tree t f(a)", "^ok")
    os.remove(f"{folder}/program")
    os.kill(it.program(), signal.SIGKILL)
    it.do("show t", "^the session couldn't be made again: ./program: No such file or directory\nthe next command tries it once more$")
    os.symlink(os.environ["STRATBENCH"], f"{folder}/program")
    it.do("show t", "^the program was ended by SIGKILL: the session was made again")
    it.do("show t", r"^f\(a\)$")


def in_prompt(it, folder):
    """Texts that are edited where commands are typed."""
    it.see(r"^> ?$")
    it.do("module m strategies f = id", "^ok")
    it.at = len(it.seen)
    it.type(":edit m\n")
    it.see("f = id$")
    it.type("; id\x1b\n")
    it.see(r"^ok\n> ?$")
    it.do("text m", "f = id; id$")
    # what was typed and is refused isn't lost
    it.do("module m strategies f = g", "^refused 11 unknown g 0 0")
    it.at = len(it.seen)
    it.type(":edit m\n")
    it.see("f = g$")
    it.type("\x7fid\x1b\n")
    it.see(r"^ok\n> ?$")
    it.do("text m", "f = id$")
    it.do(":help", "Escape and then Enter ends it anywhere")
    it.at = len(it.seen)
    it.type(":edit none\n")
    it.see("^there is no none yet; this is a new module")
    it.type("\x03")
    it.see(r"^> ?$")
    it.do("tree t f(a,[b])", "^ok")
    it.at = len(it.seen)
    it.type(":edit t\n")
    it.see(r"tree t f\(a,\[b\]\)$")
    it.type("\x7f\x7f,c])\n")
    it.see(r"^ok\n> ?$")
    it.do("show t", r"^f\(a,\[b,c\]\)$")
    # a line is put into a module that was typed before
    it.at = len(it.seen)
    it.type("module n\nrules\nA : 1 -> 2\nstrategies\ng = A\n\n")
    it.see(r"^ok\n> ?$")
    it.at = len(it.seen)
    it.type("\x1b[A")
    it.see("g = A")
    it.type("\x1b[A\x1b[A\x1b[A\x1b[F\nB : 2 -> 3\x1b\n")
    it.see(r"^ok\n> ?$")
    it.do("text n", r"^rules\n    A : 1 -> 2\n    B : 2 -> 3\n  strategies\n    g = A$")


def uncoloured(it, folder):
    """No colours where they aren't wanted."""
    it.see(r"^> ?$")
    it.do("tree t f(a)", "^ok")
    it.do("apply t do !1", "^ok")
    it.do("show t", "^1")
    if re.search("\x1b\\[[0-9;]*3[0-9]m", it.seen):
        raise Unlike(f"{it.seen!r} has colours")


def cut(it, folder):
    """A line that the terminal cuts."""
    it.see(r"^> ?$")
    it.at = len(it.seen)
    it.type(f"tree t {'a' * 5_000}\n")
    it.see(r"^the terminal gives at most 4095 bytes of a line, and this one was cut: nothing was done\n> ?$")
    it.do("trees", "^trees$")


def tests(top, everything):
    yield "a script on standard input", piped(top)
    yield "options for limits", limits(top)
    environment = {**os.environ, "PYTHONPATH": f"{top}/clients/python"}
    ran = subprocess.run([sys.executable, "-m", "stratbench", "--program", "/none"], env=environment, capture_output=True, text=True)
    yield "no program", "" if ran.returncode == 2 and "/none" in ran.stderr and not ran.stdout else f"{ran}"
    yield from screens(top, sys.executable, SCENES, "readline", ("prompt_toolkit",))
    yield from screens(top, sys.executable, (uncoloured,), "readline, as asked for", STRATBENCH_PLAIN="1", NO_COLOR="1")
    yield from screens(top, sys.executable, (replaced,), "readline", ("prompt_toolkit",), STRATBENCH="./program")
    yield from screens(top, sys.executable, (first, cut), "neither", ("prompt_toolkit", "readline"))
    python, _ = interpreter("prompt_toolkit", "python3-prompt-toolkit")
    if python is None:
        left_out("the shell with prompt_toolkit", "no Python here has it")
        return
    yield from screens(top, python, SCENES, f"prompt_toolkit of {python}")
    yield from screens(top, python, (uncoloured,), f"prompt_toolkit of {python}", NO_COLOR="1")
    yield from screens(top, python, (in_prompt,), f"prompt_toolkit of {python}", EDITOR="", VISUAL="")
