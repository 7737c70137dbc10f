"""Ten minutes of typing at the shell, replayed key by key: a normaliser of logic is written and mended, and the program is killed twice.

At the end the trees, the modules and what can be undone are those that the accepted commands give in a script.
"""

import os
import re
import signal
import sys
import tempfile
import threading

from packages import found
from stratbench import Stratbench
from terminals import Terminal, Unlike

# Keys: to delete a character and a word, to go to the start and the end of the line, to the left, to the line before, and to complete.
DELETE, WORD, START, END, LEFT, UP, TAB = "\x7f", "\x17", "\x01", "\x05", "\x02", "\x1b[A", "\t"
A_SECOND = 4
OK, MORE = r"^ok$", None

# What is typed in a line, and what it gives; after KILL the next command is answered that the session was made again, and typed once more.
KILL, KILL_IN_A_RUN = "the program is killed", "the program is killed while it runs"
TYPED = [
    ("tree p Imo" + DELETE + 'p(And(Var("a"),True),Or(Not(Not(Var("b"))),False))', OK),
    ("shwo p", r"there is no command `shwo`; did you mean `show`\?"),
    ("sho" + TAB + " p", r'^Imp\(And\(Var\("a"\),True\),Or\(Not\(Not\(Var\("b"\)\)\),False\)\)$'),
    ("module lgoic" + WORD + "logic", MORE),
    ("signature constructors", MORE),
    ("True : prop   False : prop   Var : str -> prop", MORE),
    ("Not : prop -> prop   And : prop * prop -> prop", MORE),
    ("Or : prop * prop -> prop   Imp : prop * prop -> prop", MORE),
    ("", OK),
    ("text logic", r"^signature constructors(?s:.*)Imp : prop \* prop -> prop$"),
    ("module arrows", MORE),
    ("rules", MORE),
    ("Arrow : Imp(x,y)) -> Or(Not(x),y)", MORE),
    ("", r"^refused 10 syntax: module arrows: no module goes on with `\)` at line 3, column"),
    (":why", r"^refused 10 syntax: module arrows"),
    ("module arrows", MORE),
    ("rules", MORE),
    ("Arrow : Imp(x,y) -> Or(Not(x),y)", MORE),
    ("", OK),
    ("module nots", MORE),
    ("rules", MORE),
    ("DoubleNot : Not(Not(x)) -> x", MORE),
    ("DeMorgan : Not(And(x,y)) -> Or(Not(x),Not(y))", MORE),
    ("DeMorgan : Not(Or(x,y)) -> Adn" + DELETE * 2 + "nd(Not(x),Not(z))", MORE),
    ("", r"^ok\nwarning: in `DeMorgan`, line 5, column \d+: `z` is only on the right side: nothing binds it\n +DeMorgan : Not\(Or\(x,y\)\)"),
    ("preview p do oncetd(Arow)", r"^refused 11 unknown Arow 0 0(?s:.*)did you mean `Arrow`"),
    ("preview p do oncetd(Arrow)", r"^changes 1 steps \d+\n/\n  - Imp\(And(?s:.*)\n  \+ Or\(Not\(And"),
    ("apply p do oncetd(Arrow)", OK),
    ("show p", r"^Or\(Not\(And\("),
    (KILL, ""),
    ("apply p do innermost(Arrow <+ DoubleNot <+ DeMorgan)", OK),
    ("show p at " + TAB + "0/0", r'^Not\(Var\("a"\)\)$'),
    ("undo", OK),
    ("history", r"^undo \d+ redo 1$"),
    ("redo", OK),
    ("module nots rules DoubleNot : Not(Not(x)) -> x DeMorgan : Not(And(x,y)) -> Or(Not(x),Not(y)) DeMorgan : Not(Or(x,y)) -> And(Not(x),Not(y))", OK),
    ("module units", MORE),
    ("rules", MORE),
    ("Unit : And(True(),x) -> x", MORE),
    ("Unit : And(x,True()) -> x", MORE),
    ("Unit : Or(False(),x) -> x", MORE),
    ("Unit : Or(x,False()) -> x", MORE),
    ("Null : And(False(),x) -> False()", MORE),
    ("Null : Or(True(),x) -> True()", MORE),
    ("Null : Or(x,True()) -> True()", MORE),
    ("", OK),
    ("module normal strategies normalise = innermost(Arrow <+ DoubleNot <+ DeMorgan <+ Unit <+ Nulll" + DELETE + ")", OK),
    ("preview p do normalise", r"^changes 1 steps \d+"),
    ("apply p do normalise", OK),
    ("show p", r'^Or\(Or\(Not\(Var\("a"\)\),Not\(True\)\),Var\("b"\)\)$'),
    ("undo", OK),
    ("module constants", MORE),
    ("rules", MORE),
    ("Opposite : Not(True()) -> False()", MORE),
    ("Opposite : Not(False()) -> True()", MORE),
    ("", OK),
    ("begin", OK),
    ("module normal", MORE),
    ("strategies", MORE),
    ("simplify = Unit <+ Null <+ Opposite", MORE),
    ("normalise = innermost(Arrow <+ DoubleNot <+ DeMorgan <+ simplify)", MORE),
    ("", OK),
    ("apply p do normalise", OK),
    ("commit", OK),
    ("show p", r'^Or\(Not\(Var\("a"\)\),Var\("b"\)\)$'),
    (":diff", r"^tree p(?s:.*)module normal"),
    ("tree q Not(Or(Imp(Var(\"a\"),Var(\"b\")),And(True,Var(\"c\")))", MORE),
    (")", OK),
    (KILL_IN_A_RUN, ""),
    ("apply q do normalise", OK),
    ("show q", r'^And\(And\(Var\("a"\),Not\(Var\("b"\)\)\),Not\(Var\("c"\)\)\)$'),
    (UP + " at /1/0", r'^Var\("c"\)$'),
    ("apply q within 100 do repeat(Comm)", r"^refused 11 unknown Comm"),
    ("module comm rules Comm : And(x,y) -> And(y,x)", OK),
    ("apply q within 100 do repeat(Comm)", r"^refused 13 spent"),
    ("apply q do try(Comm)", OK),
    ("copy q r", OK),
    ("put r /0 Imp(True,Var(\"d\"))", OK),
    ("apply r do normalise", OK),
    ("show r", r'^And\(Var\("d"\),And\(Var\("a"\),Not\(Var\("b"\)\)\)\)$'),
    ("drop q", OK),
    ("undo", OK),
    ("unload normal", OK),
    ("apply r do normalise", r"^refused 11 unknown normalise"),
    ("undo 2", OK),
    ("redo", OK),
    ("module laws", MORE),
    ("rules", MORE),
    ("// wihtout" + WORD + "without what is said twice", MORE),
    ("Same : And(x,x) -> x", MORE),
    ("Same : Or(x,x) -> x", MORE),
    ("Absorb : And(x,Or(x,y)) -> x", MORE),
    ("Absorb : Or(x,And(x,y) -> x", MORE),
    ("", r"^refused 10 syntax: module laws: no module goes on with `->`"),
    ("module laws", MORE),
    ("rules", MORE),
    ("Same : And(x,x) -> x", MORE),
    ("Same : Or(x,x) -> x", MORE),
    ("Absorb : And(x,Or(x,y)) -> x", MORE),
    ("Absorb : Or(x,And(x,y)) -> x", MORE),
    ("strategies", MORE),
    ("shorten = innermost(Same <+ Absorb)", MORE),
    ("", OK),
    ("tree s Or(And(Var(\"x\"),Or(Var(\"x\"),Var(\"y\"))),And(Var(\"x\"),Var(\"z\")))", OK),
    ("preview s do alltd(Absorb)", r"^changes 1 steps \d+\n/0 in Or\(_,And\(\.\.\)\)\n  - And(?s:.*)\n  \+ Var\(\"x\"\)$"),
    ("apply s do shorten", OK),
    ("s" + START + "show " + END, r'^Var\("x"\)$'),
    ("undo", OK),
    ("redo", OK),
    ("preview p at /0 do !F" + DELETE + "Not(Fasle" + LEFT + DELETE + LEFT + "l" + END + "())", r"^changes 1 steps 1\n/0 in Or\(_,Var\(..\)\)"),
    ("apply p at /7 do normalise", r"^refused 9 path(?s:.*)they are counted from 0"),
    ("tree l [Var(\"x\"),Or(Var(\"x\"),Var(\"x\")),Imp(True,True)]", OK),
    ("apply l do map(normalise; shorten)", OK),
    ("show l", r'^\[Var\("x"\),Var\("x"\),True\]$'),
    (":save s s.aterm", "^9 bytes$"),
    (":load again=s.aterm", "^tree again$"),
    ("annotate r / {\"done\"}", OK),
    ("show r", r'\{"done"\}$'),
]  # fmt: skip


class Session:
    """The typing of it all, and the commands that were accepted."""

    def __init__(self, it):
        self.it, self.keys, self.accepted, self.command = it, 0, [], []

    def line(self, keys, wanted):
        it = self.it
        it.at = len(it.seen)
        for key in re.findall(r"\x1b\[A|(?s:.)", keys):
            it.complete() if key == TAB else it.type(key)
            self.keys += 1
        it.type("\n")
        self.keys += 1
        return it.see(r"^\. *$" if wanted is MORE else rf"(?s:{wanted}.*)\n>>? ?$")

    def killed(self, how, keys, wanted):
        """Types a line that the end of the program keeps from being answered, and then once more."""
        it = self.it
        os.kill(it.program(), signal.SIGKILL if how == KILL else signal.SIGSTOP)
        if how == KILL_IN_A_RUN:
            threading.Timer(1, os.kill, (it.program(), signal.SIGKILL)).start()
        self.line(keys, "^the program was ended by SIGKILL: the session was made again, as it was before this command")
        self.line(UP, wanted)

    def all(self):
        """Types everything. Returns what the shell dumps at the end, and what it can undo and redo."""
        self.it.see(r"^> ?$")
        how = None
        for keys, wanted in TYPED:
            if keys in (KILL, KILL_IN_A_RUN):
                how = keys
                continue
            if how:
                self.killed(how, keys, wanted)
            else:
                self.line(keys, wanted)
            how = None
            self.command.append(as_typed(keys))
            if wanted is not MORE:
                self.accepted += ["\n ".join(self.command)] * (wanted == OK or wanted.startswith("^ok"))
                self.accepted += ['tree again Var("x")'] * keys.startswith(":load")
                self.command = []
        return self.it.do("dump", "^tree again")[0], self.it.do("history", "^undo")[0]


def as_typed(keys):
    """What is left of the keys of a line."""
    text = ""
    for key in keys:
        if key == DELETE:
            text = text[:-1]
        elif key == WORD:
            text = text.rpartition(" ")[0] + " "
        elif key == TAB:
            text = COMPLETED[text]
        else:
            text += key
    return text


# What is completed.
COMPLETED = {"sho": "show", "show p at ": "show p at /"}


def replayed(top, python, name, *hidden):
    session, fault, dump, history = typed(top, python, hidden)
    tries = ""
    if fault:
        # as the scenes of the shell: keys that are missed while it draws are typed again
        first = fault
        session, fault, dump, history = typed(top, python, hidden)
        fault, tries = (f"{fault}\nand at the first try: {first}", "") if fault else ("", ", at the second try")
    minutes = session.keys / A_SECOND / 60
    yield f"{name}: {session.keys} keys, {minutes:.0f} minutes of typing, and two kills{tries}", fault
    if not fault:
        yield f"{name}: nothing is lost", same_as_script(session.accepted, dump, history)


def typed(top, python, hidden):
    """Types everything at a shell. Returns the session, what is wrong with it, and what it dumps and can undo at its end."""
    with tempfile.TemporaryDirectory() as folder:
        it = Terminal(top, python, folder, hidden, PAGER="cat")
        session = Session(it)
        fault = dump = history = ""
        try:
            dump, history = session.all()
        except Unlike as error:
            fault = f"{error}"
        status = it.end()
    minutes = session.keys / A_SECOND / 60
    return session, fault or ("" if status == 0 and minutes >= 10 else f"status {status}, {minutes} minutes"), dump, history


def same_as_script(commands, dump, history):
    """Whether the commands alone give this, but for blanks."""
    with Stratbench(library=True) as bench:
        for it in commands:
            bench.run(it)
        wanted = bench.dump(), bench.run("history")
    got = [it.rpartition("\n")[0] for it in (dump, history)]
    return "" if ["".join(it.split()) for it in got] == ["".join(it.split()) for it in wanted] else f"{got}\nwanted\n{wanted}"


def tests(top, everything):
    python = found("prompt_toolkit")
    if python:
        yield from replayed(top, python, "prompt_toolkit")
    yield from replayed(top, sys.executable, "readline", "prompt_toolkit")
