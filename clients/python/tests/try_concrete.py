"""Rules in a language's own syntax: what is made of them, what is said of wrong ones, and what they do. That is in tests/concrete: files of
rules, whose tests are run, as are those of strategies/*.rules."""

import os
import subprocess
import sys
import tempfile

import try_languages
from packages import untried
from stratbench import languages
from stratbench.concrete.adapter import adapter_of
from stratbench.concrete.compiling import compile_rule, compiled
from stratbench.concrete.quotations import in_module, in_strategy
from stratbench.concrete.rules import rule_of
from stratbench.concrete.text import Fault, Source, Span
from stratbench.refactor import Task, refactored, trials
from stratbench.refactor.runs import check_texts
from stratbench.refactor.written import Written, is_for, own_language, rules_of, with_written

# A rule, and the definition that is made of it.
MADE = {
    "python": {
        "not $x in $y -> $x not in $y": "UnaryOp(Not(),Compare(x,[In()],[y])) -> Compare(x,[NotIn()],[y])",
        # contexts aren't seen; a metavariable twice is compared without positions and contexts
        "$x = $x + $y -> $x += $y": "Assign([x],BinOp(x'1,Add(),y),_) -> AugAssign(made'2,Add(),y) where where(<same-but-contexts'(|x)> x'1); "
        "where(<to-one-target'> x => made'2)",
        # `-> T` of a function is no arrow of a rule
        "def $f() -> $r: pass -> pass": "FunctionDef(f,arguments([],[],None(),[],[],None(),[]),[Pass()],[],r,_,[]) -> Pass() where where(<present'> r)",
        # lists: at the end, at the front, around
        "f($x, $*xs) -> $x": 'Call(Name("f",_),[x|xs],[]) -> x where where(<unstarred\'> x)',
        "f($*xs, 1) -> f(1, $*xs)": 'Call(Name("f",_),list\'1,[]) -> Call(Name("f",Load()),[Constant(1,None())|xs],[]) '
        "where where(<reverse'> list'1 => [Constant(1,_)|front'2]); where(<reverse'> front'2 => xs)",
        "f($*a, 1, $*b) -> f($*b)": 'Call(Name("f",_),list\'1,[]) -> Call(Name("f",Load()),b,[]) '
        "where where(<split'(?(front'2,[Constant(1,_)|b]); where(<reverse'> front'2 => a))> list'1)",
        # a name that is also an expression
        "lambda $x: $f($x) -> $f": "Lambda(arguments([],[arg(x,None(),_)],None(),[],[],None(),[]),Call(f,[Name(x,_)],[])) -> f",
        # several statements are the beginning of a list
        "pass; break -> break": "[Pass(),Break()|rest'] -> [Break()|rest']",
        "${UnaryOp(o,_)} + $x -> $x": "BinOp(UnaryOp(o,_),Add(),x) -> x",
        "'$HOME' -> '$'": 'Constant(HOME,_) -> Constant("$",None()) where where(<text\'> HOME)',
        "f(<... $x ...>) -> $x": "Call(Name(\"f\",_),[any'1],[]) -> x where where(<unstarred'> any'1); where(<oncetd(?x)> any'1)",
        "\\( 1 \\| 2 \\) -> 3": "any'1 -> Constant(3,None()) where where(<?Constant(1,_) <+ ?Constant(2,_)> any'1)",
        # what a text has is never made
        "$x - $x -> ${x'1}": "BinOp(x,Sub(),x'2) -> x'1 where where(<same'(|x)> x'2)",
    },
    "javascript": {
        "f($x, $*xs) -> $x": "CallExpression(Identifier(\"f\"),False(),[x|xs]) -> x where where(<unstarred'> x)",
        # a name of a property isn't a variable
        "$o.$m() -> $m": 'CallExpression(MemberExpression(o,False(),Identifier(m)),False(),[]) -> Identifier(m)',
        # the letter `$`, in a name, alone, and in a string, a regular expression and a template
        "$$.ajax(a$b, '$c', /d$/) -> $$el": 'CallExpression(MemberExpression(Identifier("$"),False(),Identifier("ajax")),False(),'
        '[Identifier("a$b"),StringLiteral(c),RegExpLiteral("d$","")]) -> Identifier("$el") where where(<text\'> c)',
        "`$ ${$x}` -> $x": 'TemplateLiteral([TemplateElement("$ "),Interpolation(x),TemplateElement("")]) -> x',
        "$a / $b / $c -> $a": 'BinaryExpression(BinaryExpression(a,"/",b),"/",c) -> a',
        # types
        "let $x: $T = $v; -> let $x = $v as $T;": 'VariableDeclaration("let",[VariableDeclarator(TypedIdentifier(x,False(),TSTypeAnnotation(T)),v)]) -> '
        'VariableDeclaration("let",[VariableDeclarator(Identifier(x),TSAsExpression(v,T))]) where where(<present\'> v)',
    },
}

# A rule, and the column and what is said of it, with the line and the sign below it.
WRONG = {
    "javascript": {
        "f( -> 1": (3, 'no JavaScript: Unexpected token, expected ","'),
        "$(a) -> 1": (1, "`$` begins no metavariable: they are `$x`, `$*xs`, `$**ks`, `$?x`, `$_` and `${p}`, and the letter `$` is written `$$`"),
        "é + $x -> $x + $y": (16, "`$y` isn't bound: it doesn't stand on the left, nor in a `where`"),
        "é = ) -> 1": (5, "no JavaScript: Unexpected token"),
        "f($x); -> g($x": (15, 'no JavaScript: Unexpected token, expected ","'),
    },
    "java": {"if ($c) -> 1": (8, "no Java: illegal start of statement")},
    "json": {'{"a": } -> 1': (7, "no JSON: a value is wanted")},
    "yaml": {"a: [ -> b: 1": (5, "no YAML: did not find expected node content")},
    "python": {
        "not $x in -> $x": (10, "no Python: invalid syntax"),
        "f($x, 1)(2 -> g": (9, "no Python: '(' was never closed"),
        "$x -> $y": (7, "`$y` isn't bound: it doesn't stand on the left, nor in a `where`"),
        "$x -> $_": (7, "`$_` has no value that could be built"),
        "$x -> <... f ...>": (7, "`<... p ...>` has no value that could be built"),
        "$x -> \\( f \\| g \\)": (7, "`\\( p \\| q \\)` has no value that could be built"),
        "f($*x, $*y) -> 1": (8, "nothing says where `$*y` begins, since another `$*` is right before it"),
        "$*x + 1 -> 1": (1, "`$*x` stands where there is one thing, and no list"),
        "f($*x) -> g($x)": (13, "`x` stands for one thing in one place and for many in another"),
        "a.b$x -> 1": (4, "a metavariable stands for a whole name, not for a part of one"),
        "import $x.y -> import z": (8, "a metavariable stands for a whole name, not for a part of one"),
        "import $*m -> f($*m)": (17, "`$*m` stands for imported names on the left, and for an expression here"),
        "a $ b -> 1": (3, "`$` begins no metavariable: they are `$x`, `$*xs`, `$**ks`, `$?x`, `$_` and `${p}`"),
        "${f( -> 1": (1, "`${` isn't closed by `}`"),
        "f(<... $x) -> 1": (3, "`<...` isn't closed by `...>`"),
        "$x + 1": (7, "a rule is `BEFORE -> AFTER`, and has no ` -> `"),
        " -> pass": (1, "nothing stands on the left"),
        "$x.\\( a + b \\| c \\) -> 1": (7, "a name is expected here"),
        "f(\\( $x \\| pass \\)) -> 1": (12, "this is a statement or statements, and an expression is expected here"),
        # a name that one alternative alone binds isn't bound
        "f(\\( $x \\| 1 \\)) -> $x": (21, "`$x` isn't bound: it doesn't stand on the left, nor in a `where`"),
        "$x + $y -> $y where <is-name> $z": (31, "`$z` isn't bound: it doesn't stand on the left, and no pattern before binds it"),
        "f($x) -> 1 where !`g($y)` => y; !`h($z)`": (37, "`$z` isn't bound: it doesn't stand on the left, nor in a `where`"),
        "f($x) -> 1 where <?`g(`> x": (22, "no Python: '(' was never closed"),
        "f($x) -> 1 where `g` => x": (18, "a quotation is a pattern: `?` or `!` belongs before it, or `~` for a congruence"),
    },
}

# A module with quotations, and without.
MODULE = r"""rules
  A(|f) : `$x = $f($*a)
           return $x` -> `return $f($*a)` where <is-name> x
  B : F(x) -> `g($x)` where <?`$_.$m`> x
strategies
  c(|y) = ?`$x == $x`; !`f(1, $*y, 2)`
  d(s) = ~`if $_: $*s`
  e = bottomup(try(\ `f($x)` -> `g($x)` \))
  f = ?``"`"``; id => `f($x)`; <g> `[$x]`
"""
PLAIN = r"""rules
  A(|f) : [Assign([x],Call(f'1,a,[]),_),Return(x'2)|rest']
 -> [Return(Call(f,a,[]))|rest'] where where(<same'(|f)> f'1); where(<present'> x'2); where(<same-but-contexts'(|x)> x'2); where(<is-name> x)
  B : F(x) -> Call(Name("g",Load()),[x],[]) where <?Attribute(_,m,_)> x
strategies
  c(|y) = (?Compare(x,[Eq()],[x'3]); where(<same'(|x)> x'3)); (where(<concat'> [y,[Constant(2,None())]] => made'4); !Call(Name("f",Load()),[Constant(1,None())|made'4],[]))
  d(s) = If(id,s,[])
  e = bottomup(try(\ Call(Name("f",_),[x],[]) -> Call(Name("g",Load()),[x],[]) where where(<unstarred'> x) \))
  f = ?Constant("`",_); id => Call(Name("f",_),[x],[]); where(where(<unstarred'> x)); <g> List([x],Load())
"""
# Strategies with quotations that are wrong, the column, and what is said.
STRATEGIES = {
    "?`f(`": (4, "no Python: '(' was never closed"),
    "`f`": (1, "a quotation is a pattern: `?` or `!` belongs before it, or `~` for a congruence"),
    "~id": (2, "a quotation is expected after `~`"),
    "!`f($x)`": (5, "`$x` isn't bound: it doesn't stand on the left, nor in a `where`"),
    "~`f($*a, 1)`": (5, "in a congruence `$*` stands at the end of a list"),
    "?`f` <+": (8, "the text ends too early"),
    "?`f` id": (6, "`id` isn't expected here"),
}
# What the program refuses: rules, a condition or none, the place, and how the first line begins after it.
REFUSED = [
    ("not $x in $y -> $x not in $y where <nosuch> x", None, "--rule: line 1, column 37: refused 11 unknown nosuch 0 0"),
    ("not $x in $y -> $x not in $y", "<nosuch> $x", "--where: line 1, column 2: refused 11 unknown nosuch 0 0"),
    ("not $x in $y -> $x not in $y", "<id x", "--where: line 1, column 5: refused 10 syntax: no module goes on with `x`"),
    ("not $x in $y -> ${Nam(x,y)}", None, "--rule: line 1, column 19: refused 11 undeclared Nam 2 0"),
    ("$x + $y -> $x\n\nwhere <?`f($z)` ; nosuch> y", None, "--rule: line 3, column 19: refused 11 unknown nosuch 0 0"),
]


def rule(text, language, name="Rule1", source="--rule"):
    return rule_of(Span(Source(source, text), 0, len(text)), adapter_of(language), name)


# How a fault is said: the line and the column of the source, and the line with a sign below it.
def said(text, column, message, name="--rule"):
    return f"{name}: line 1, column {column}: {message}\n    {text}\n    {' ' * (column - 1)}^"


def fault(make):
    try:
        make()
    except Fault as error:
        return str(error)
    return "nothing is wrong"


def differs(got, wanted):
    return "" if got == wanted else f"{got}\nwanted\n{wanted}"


def tests(top, everything):
    # what others install at this time is waited for
    lacking = {it: "" if it == "python" else try_languages.missing(it) for it in languages.NAMES}
    for language, why in lacking.items():
        if why:
            yield from untried(f"rules for {language}", why)
    for language, rows in MADE.items():
        for text, want in () if lacking[language] else rows.items():
            got = str(compile_rule(rule(text, language), adapter_of(language)).text)
            yield f"made of {text!r}", differs(got, f"  Rule1 : {want}")
    for language, rows in WRONG.items():
        for text, (column, message) in () if lacking[language] else rows.items():
            yield f"wrong: {text!r}", differs(fault(lambda: compile_rule(rule(text, language), adapter_of(language))), said(text, column, message))
    python = adapter_of("python")
    yield "a module with quotations", differs(str(in_module(Source("m", MODULE), python)), PLAIN)
    yield "a module without any", differs(str(in_module(Source("m", PLAIN), python)), PLAIN)
    for text, (column, message) in STRATEGIES.items():
        yield f"wrong: --do {text!r}", differs(fault(lambda: in_strategy(Span(Source("--do", text), 0, len(text)), python)), said(text, column, message, "--do"))
    yield "more rules than a module may have tokens", many()
    for text, where, begins in REFUSED:
        task = Task((), "", language="python")
        wrong, _ = check_texts(with_written(task, Written((Source("--rule", text),), where and Source("--where", where))))
        yield f"refused: {text!r}", "" if wrong.startswith(begins) else f"{wrong}\nwanted\n{begins}"
    files = [f"{top}/{folder}/{it}" for folder in ("clients/python/tests/concrete", "strategies") for it in sorted(os.listdir(f"{top}/{folder}"))]
    for path in files:
        if path.endswith(".rules") and not lacking[own_language(path)]:
            # those of the tests have names that modules have, too
            loaded = strategies(top, own_language(path)) if "/strategies/" in path else ()
            yield from of_file(path, own_language(path), list(loaded))
    yield from commands(top)


# The modules of strategies for a language, with their texts.
def strategies(top, language):
    for name in sorted(os.listdir(f"{top}/strategies")):
        if name.endswith(".str") and is_for(name, language):
            with open(f"{top}/strategies/{name}", "rb") as it:
                yield name[: -len(".str")], it.read()


def of_file(path, language, modules):
    """Runs the tests of a file of rules. Yields each."""
    with open(path, encoding="utf-8") as it:
        written = Written(files=(Source(os.path.basename(path), it.read()),))
    task = with_written(Task(tuple(modules), "", language=language, files=tuple(name for name, _ in modules)), written)
    for it in trials.tried(rules_of(written, language), task):
        line, _ = it.test.before.source.line_and_column(it.test.before.first)
        yield f"{os.path.basename(path)}, line {line}: {it.rule.name}", it.fault


def many():
    rules = [rule(f"f{at}($*a, None, $*b) -> g{at}($*a, $*b)", "python", f"R{at}") for at in range(120)]
    made = compiled(rules, adapter_of("python"))
    if len(made) < 2 or "?Call(_,_,_) < (R0" not in str(made[-1].text):
        return "all are in one module, or tried one by one"
    sources = tuple(Source(f"--rule {at}", it.source.text) for at, it in enumerate(rules))
    task = with_written(Task((), "", language="python"), Written(sources))
    [outcome] = refactored([("it.py", b"f0(None)\nf119(1, None)\n")], task)
    return differs(outcome.contents, b"g0()\ng119(1)\n")


RULES = """rule Negated
not $x in $y -> $x not in $y
test: not a in b => a not in b
test: not a in b => b not in a
stays: not a in b

rule Suppressed
try: $s
except $E: pass
->
with contextlib.suppress($E): $s
needs import contextlib
"""
FAILED = """r.rules: line 4, column 7: a test of `Negated` failed: `Negated` makes this of it:
    test: not a in b => b not in a
          ^
    a not in b
r.rules: line 5, column 8: a test of `Negated` failed: `Negated` makes this of it:
    stays: not a in b
           ^
    a not in b
3 tests, 2 failed
"""
QUOTED = "module m\nrules\n  A : `$x in $y` -> `f($x)` where <nosuch> x\n"
SOURCE = "import os\n\ntry: f()\nexcept E: pass\nx = not a in b\n"
# Words of the command, and its status, with what it prints, and what is among what it says.
COMMANDS = [
    (["--rule", "not $x in $y -> $x not in $y", "a.py"], 0, "-x = not a in b\n+x = a not in b\n", "1 of 1 file would change, 1 place"),
    (["--rule", "$x in $y -> $x", "--where", "<?Name(_,_)> $x", "--check", "a.py"], 1, "+x = not a\n", ""),
    (["--rules", "r.rules", "--modules", "STRATEGIES", "a.py"], 0, "+import contextlib\n", "1 of 1 file would change"),
    (["--rules", "r.rules", "--modules", "STRATEGIES", "b.py"], 0, "+x = a not in b\n", "1 of 1 file would change, 1 place"),
    (["--rules", "r.rules", "--do", "bottomup(try(Negated))", "a.py"], 2, "", "refused 11 unknown add-import 0 1"),
    (["--do", r"bottomup(try(\ `not $x` -> `f($x)` \))", "a.py"], 0, "+x = f(a in b)\n", ""),
    (["--do", r"bottomup(try(\ `not $x` -> `f($x)` where <nosuch> x \))", "a.py"], 2, "", "--do: line 1, column 43: refused 11 unknown nosuch 0 0"),
    (["--module", "m=m.str", "--do", "A", "a.py"], 2, "", "m.str: line 3, column 36: refused 11 unknown nosuch 0 0: in `A` of the module `m`, line 3, column 36\n"
     "      A : `$x in $y` -> `f($x)` where <nosuch> x\n"),
    (["--rule", "not $x -> $x where fail", "--do", "sometd(Rule1)", "b.py"], 3, "", "in `Rule1` of the module `made-rules`, line 1 of its text"),
    (["--rules", "r.rules", "--modules", "STRATEGIES", "--test"], 1, "", FAILED),
    (["--rule", "$x + 1 -> 1", "--show-module"], 0, "module made-rules\nrules\n  Rule1 : BinOp(x,Add(),Constant(1,_)) -> Constant(1,None())\n"
     "strategies\n  all-rules' = bottomup(try(Rule1))\n", ""),
    (["--rule", "f( -> 1", "a.py"], 2, "", "--rule: line 1, column 2: no Python: '(' was never closed\n    f( -> 1\n     ^\n"),
    (["--rules", "none.rules", "a.py"], 2, "", "--rules none.rules: No such file"),
    (["--test"], 2, "", "--rule or --rules is missing"),
    (["a.py"], 2, "", "--do, --rule or --rules is missing"),
]


def commands(top):
    with tempfile.TemporaryDirectory() as folder:
        for name, text in (("a.py", SOURCE), ("b.py", "x = not a in b\n"), ("r.rules", RULES), ("m.str", QUOTED)):
            with open(f"{folder}/{name}", "w") as it:
                it.write(text)
        environment = {**os.environ, "PYTHONPATH": f"{top}/clients/python", "XDG_STATE_HOME": f"{folder}/state"}
        for words, status, out, err in COMMANDS:
            command = [sys.executable, "-m", "stratbench.refactor", *(it.replace("STRATEGIES", f"{top}/strategies") for it in words)]
            ran = subprocess.run(command, cwd=folder, env=environment, capture_output=True, text=True)
            right = ran.returncode == status and out in ran.stdout and err in ran.stderr
            yield f"the command {' '.join(words)}", "" if right else f"{ran.returncode}\n{ran.stdout}{ran.stderr}"
