"""What isn't done, since nothing would come of it: files that lack what a strategy needs aren't sent to the workbench, and text that is
known isn't read. What comes of them is the same without that."""

import os
import random
import tempfile

import stratbench
import try_modules
import try_trees
from stratbench import Stratbench, python, strategies, terms
from stratbench.languages.python import narrow
from stratbench.refactor import Bench, Task, needs, refactored
from stratbench.refactor.runs import Refused, budget, prepared

MODULE = """module needs
rules
  Old : Name("old",c) -> Name("new",c)
  Loop : While(x,b,[]) -> While(x,b,[Pass()])
  Pick(|n) : Attribute(x,n,c) -> Name(n,c)
  Two : Assert(x,None()) -> Assert(x,x)
  Two : Global(ns) -> Nonlocal(ns)
  Where : Call(f,[],k) -> f where <?Name("old",_)> f
  Never : Constant(x,k) -> x where fail
strategies
  down = all(down)
  twice = all(twice); all(twice)
  odd = ?Lambda(_,_) <+ one(even)
  even = all(odd)
  hidden(|n) = {n: ?Name(n,_); !Pass()}
  shown(|n) = ?Name(n,_); !Pass()
  own(|n) = \\ Name(n,_) -> n \\
  inner(s) = topdown(try(topdown(try(s))))
  count = try(all(count))
"""
# Strategies, of which the workbench needn't be asked about some files each, and others about which it has to be.
SOUND = [
    "topdown(try(Old))", "bottomup(try(Loop <+ Old))", "alltd(Loop)", "try(oncetd(Loop))", "try(sometd(Two))", "try(somebu(Two))",
    "innermost(Loop)", "outermost(Loop)", "repeat(oncebu(Loop))", 'topdown(try(Pick(|"nowhere")))', 'bottomup(try(shown(|"nowhere")))',
    "Module([],id) <+ topdown(try(Loop))", "try(Module(map(try(Loop)),id))", "downup(try(Two))", "count", "down; topdown(try(Old))",
    "rec x(try(Loop); all(x))", "topdown(try(Try(id,id,id,id); !Pass()))", "bottomup(try(\\ While(_,b,_) -> b \\))", "not(oncetd(Loop))",
    "if oncetd(Loop) then !Pass() end", "oncetd(Two) < !Pass() + id", "where(down)", 'topdown(try(?Name("old",_); !Pass()))',
    "topdown(try(Never))", "topdown(try(Where))", 'topdown(try(hidden(|"nowhere")))', 'topdown(try(own(|"nowhere")))', "topdown(try(2(Loop)))", "topdown(try([Loop|id]))", "try(odd)", "bottomup(try(Match(id,id)); try(Loop))", "alltd(?Lambda(_,_) => Set(_))",
]  # fmt: skip
UNSOUND = [
    "repeat(id)", "twice", "inner(Loop)", "topdown(Old)", "oncetd(Loop)", "all(!Pass())", "fail", "topdown(!Pass())", 'hidden(|"old")', 'own(|"old")',
    "rec x(x)", "topdown(try(?x; !x))", "not(id)", 'prim("gensym","x")', "where(!1)", "even",
]  # fmt: skip
# The budgets beside the usual one.
BUDGETS = (None, 40, 400, 4_000)
RANDOM = 150


def tests(top, everything):
    with open(f"{top}/strategies/python.str", "rb") as it:
        task = Task((("python", it.read()), ("needs", MODULE.encode())), "id")
    texts = [it.encode() for it in try_trees.SOURCES] + [b"old\n", b"x.nowhere\n", b"while a: b\n", "\u00e9.old\n".encode(), b"1\n"]
    for file in sorted(try_modules.modules(True), key=os.path.getsize)[10:60:10]:
        with open(file, "rb") as it:
            texts.append(it.read())
    sources = [python.Source(it) for it in texts]
    yield "the text of a tree is that of its term, and a survey is true", "\n".join(filter(None, map(seen, sources)))
    yield from matched()
    library = prepared(task).needs._definitions
    yield from same(task, sources, library)
    yield from whole(task, texts)
    yield from narrowed(top, everything)
    yield from unread(top)


def seen(source):
    if terms.shown(source.term) != source.shown:
        return f"{source.text[:40]}: another text"
    heads = {it.head for it in terms.subterms(source.term)}
    lacking = [name for name, it in python.CONSTRUCTORS.items() if it.sort != "expr_context" and lacks(source, it) == (name in heads)]
    bounds = source.least_terms <= source.shown.size <= source.most_terms and terms.height(source.term) <= source.most_levels
    return "" if bounds and not lacking else f"{source.text[:40]}: {lacking} {source.survey}"


def lacks(source, constructor):
    return source.lacks(strategies.pattern(f"{constructor.name}({','.join('_' * len(constructor.fields))})"))


# Patterns, and which of `MATCHED` they may match.
PATTERNS = [
    ('Name("old",_)', "1000"), ('Call(Name("old",_),[_],[])', "1000"), ("Call(_,[],_)", "0110"), ("Call(_,[_|_],_)", "1000"), ("Call(_,x@[Constant(1,_)],_)", "1000"),
    ('Call(_,_,[keyword("a",_)])', "0010"), ('Constant("b",None())', "0001"), ('Constant("b","u")', "0000"), ("Return(None())", "0000"), ("Return(Name(_,_))", "0000"),
    ("FunctionDef(_,_,[Pass(),_],_,_,_,_)", "0001"), ("BoolOp(Or(),_)", "0010"), ("UnaryOp(Not(),Compare(_,[In()],[_]))", "0010"), ("Compare(_,[NotIn()],_)", "0000"),
    ("Attribute(x{1},_,_)", "0100"), ('Call(Attribute(_,"\\303\\251",_),_,_)', "0100"),
]  # fmt: skip
MATCHED = ["old(1)", "x.\u00e9()", "f(a=not x in y or z)", "def f():\n pass\n 'b'"]


def matched():
    """Whether a text lacks what a pattern matches. Only the second text of a constant may have a kind that isn't looked at."""
    sources = [python.Source(it.encode()) for it in MATCHED]
    for text, wanted in PATTERNS:
        got = "".join("01"[not it.lacks(strategies.pattern(text))] for it in sources)
        yield f"what `{text}` may match", "" if got == wanted else got


def drawn(draw, depth):
    """A strategy, drawn by chance."""
    leaves = ["id", "fail", "Old", "Loop", "Two", "?Name(_,_)", "?[]", "!Pass()", "down", "count", "?x", 'Pick(|"nowhere")', "?While(_,_,_)"]
    if depth == 0:
        return draw.choice(leaves)
    one, two = drawn(draw, depth - 1), drawn(draw, draw.randrange(depth))
    forms = [
        f"({one}; {two})", f"({one} <+ {two})", f"try({one})", f"all({one})", f"one({one})", f"some({one})", f"not({one})", f"where({one})",
        f"topdown({one})", f"bottomup(try({one}))", f"alltd({one})", f"oncetd({one})", f"({one} < {two} + id)", f"Module({one},{two})",
        f"[{one}|{two}]", f"map({one})", f"rec x({one} <+ all(x))", f"{{x: {one}}}", f"if {one} then {two} end", f"repeat({one})", f"1({one})",
        f"innermost({one})", f"({one} => While(_,_,_))", f"Expr({one})",
    ]  # fmt: skip
    return draw.choice(forms)


def same(task, sources, library):
    """Where a tree is found to lack what a strategy needs, the workbench gives that very tree, within the budget."""
    draw = random.Random(1)
    some = sources[-12:]
    tried = [(it, source) for it in SOUND + UNSOUND for source in sources]
    tried += [(it, draw.choice(some)) for it in (drawn(draw, 3) for _ in range(RANDOM)) for _ in range(2)]
    found = {it: needs.Needs([], it) for it, _ in tried}
    for it in found.values():
        it._definitions = library
    for within in BUDGETS:
        limited = task._replace(within=within)
        left = [(it, source) for it, source in tried if found[it].unmet(source, budget(limited, source.least_terms))]
        with tempfile.TemporaryDirectory() as room:
            results = Bench(room, limited).previews([source.shown for _, source in left], [it for it, _ in left])
        wrong = [f"{it} on {source.text[:40]!r}: {result}" for (it, source), result in zip(left, results) if not the_same(source, result)]
        yield f"{len(left)} of {len(tried)} trees aren't sent, with the budget {within}", "\n".join(wrong[:5])
        if within is None:
            yield "each strategy that is understood spares some trees", "\n".join(it for it in SOUND if it not in {one for one, _ in left})
            yield "and no other does", "\n".join(it for it in UNSOUND if it in {one for one, _ in left})


def the_same(source, result):
    """Whether a preview gives the tree that it was given: it may say that a list is replaced by its like."""
    return not isinstance(result, Refused) and all(terms.at(source.term, path) == new for path, new in result.items())


def whole(task, texts):
    """What comes of files is the same where nothing is known of what is needed."""
    work = [(f"{at}.py", it) for at, it in enumerate([*texts, b"def\n", b"+".join([b"a"] * 600) + b"\n"])]
    for strategy in ("bottomup(try(Old <+ Loop))", "oncetd(Old)", "try(odd)"):
        one = refactored(work, prepared(task._replace(strategy=strategy)))
        two = refactored(work, task._replace(strategy=strategy))
        bare = [[it._replace(seconds=()) for it in outcomes] for outcomes in (one, two)]
        yield f"what comes of files by `{strategy}`", "" if bare[0] == bare[1] else f"{[it for it in zip(*bare) if it[0] != it[1]]}"


# Changes within statements: with modules of the library, and rules.
CHANGES = """module changes
rules
  Gone : [Expr(Call(f,a,k))|ss] -> ss
  More : [Return(x)|ss] -> [Expr(Call(Name("log",Load()),[],[])),Return(x)|ss]
  Turn : If(c,[a],[b]) -> If(UnaryOp(Not(),c),[b],[a])
  Wrap : If(c,b,[]) -> If(c,[Try(b,[],[],[Pass()])],[])
  Bare : FunctionDef(n,a,b,[d|ds],r,t,p) -> FunctionDef(n,a,b,ds,r,t,p)
  Word : Constant("utf-8",k) -> Constant("a\\n'b",k)
strategies
  in-some = Module([id|rec x([id|x] <+ [])],id)
"""
WITHIN = ["alltd(Gone)", "topdown(try(More))", "bottomup(try(Turn))", "alltd(Wrap)", "topdown(try(Bare))", "topdown(try(Word))", "oncetd(Turn)", "oncebu(Gone)"]


def narrowed(top, everything):
    """What comes of a few statements in their own text is what comes of them in the whole."""
    with open(f"{top}/strategies/python.str", "rb") as it:
        modules = (("python", it.read()), ("changes", CHANGES.encode()))
    files = sorted(try_modules.modules(True), key=os.path.getsize)[20 : None if everything else 110 : 1 if everything else 18]
    work = []
    for file in files:
        with open(file, "rb") as it:
            work.append((file, it.read()))
    parts, taken = narrow.parts, []

    def noted(*given):
        found = parts(*given)
        taken.append(found is not None)
        return found

    for strategy in WITHIN:
        task = Task(modules, strategy)
        narrow.parts = noted
        one = refactored(work, task)
        narrow.parts = lambda source, replaced: None
        two = refactored(work, task)
        narrow.parts = parts
        differ = [(it.name, it.diff.decode(), other.diff.decode(), it.left, other.left) for it, other in zip(one, two) if it._replace(seconds=()) != other._replace(seconds=())]
        yield f"`{strategy}` in a few statements, and in the whole", "\n".join(map(str, differ[:1]))
    yield "some are looked at in a few statements", "" if taken.count(True) >= 5 else f"{taken.count(True)} of {len(taken)}"


def unread(top):
    """A long text goes to the program as it is."""
    text = "[" + ",".join(f'f({at}, "a,[b{{\\\\\\"\u00e9" ){{({at},2)}}' for at in range(9_000)) + "]"
    read, called = terms.read, []
    with Stratbench() as bench:
        stratbench.read = lambda it: called.append(it) or read(it)
        try:
            bench.tree("t", text)
        finally:
            stratbench.read = read
        got = bench.term("t")
    yield "a long text isn't read", "it was" if called else "" if got == read(text) else "another term"
