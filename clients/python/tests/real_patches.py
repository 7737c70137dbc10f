"""Patches of the modules of Python's standard library: wrapped and unwrapped they are as before, and each comment is in a changed one once,
or is named. And what patches cost."""

import ast
import glob
import io
import os
import random
import sys
import tokenize
from collections import Counter

from samples import sample
from stratbench import python
from stratbench.languages.python import LANGUAGE
from stratbench.languages.python.patch.edits import BLOCKS, EXPRESSIONS, STATEMENTS, normal
from stratbench.patch import apply_edits, changes, patch_of, patched
from stratbench.refactor import rewriting
from stratbench.terms import LIST, Term, string

NONE, LOAD = Term("None"), Term("Load")
WRAPPED = Term("Name", (string("wrapped"), LOAD))


def listed(*children):
    return Term(LIST, children)


def called(name, *arguments):
    return Term("Call", (Term("Name", (string(name), LOAD)), listed(*arguments), listed()))


def bottom_up(term, change):
    children = tuple(bottom_up(it, change) for it in term.children)
    if any(one is not two for one, two in zip(children, term.children)):
        term = Term(term.head, children, term.annotations)
    return change(term)


def is_alone(source, statement):
    """Whether a statement is alone on its lines."""
    first, last = python.position(statement)
    before = source.text[source.text.rfind(b"\n", 0, first) + 1 : first]
    after = source.text[last:].partition(b"\n")[0].partition(b"#")[0]
    return not before.strip() and not after.strip()


# Each with what wraps a node of a source, and what unwraps one.


def with_block(*statements):
    return Term("With", (listed(Term("withitem", (WRAPPED, NONE))), listed(*statements), NONE))


def wrap_statement(source, term):
    return with_block(term) if term.head in ("Return", "Assign", "Expr") and is_alone(source, term) else term


def unwrap_statements(term):
    if term.head != LIST:
        return term
    return listed(*(inner for it in term.children for inner in (it.children[1].children if is_with(it) else (it,))))


def is_with(term):
    return term.head == "With" and term.children[0].children[0].children[0].children[:1] == (string("wrapped"),)


def wrap_body(source, term):
    if term.head not in ("FunctionDef", "AsyncFunctionDef"):
        return term
    if not all(is_alone(source, it) or it.head in BLOCKS for it in term.children[2].children):
        return term
    return Term(term.head, (*term.children[:2], listed(with_block(*term.children[2].children)), *term.children[3:]), term.annotations)


def wrap_value(source, term):
    # a tuple without brackets gets them, and keeps them
    if term.head != "Return" or term.children[0].head in ("None", "Tuple"):
        return term
    return Term("Return", (called("wrapped", *term.children),), term.annotations)


def unwrap_value(term):
    is_wrapped = term.head == "Call" and term.children[0].children[:1] == (string("wrapped"),)
    return term.children[1].children[0] if is_wrapped else term


WRAPS = [
    ("each statement wrapped in a `with`", wrap_statement, unwrap_statements),
    ("each body wrapped in a `with`", wrap_body, unwrap_statements),
    ("each value that is returned wrapped in a call", wrap_value, unwrap_value),
]


def there_and_back(source, wrap, unwrap):
    """What is wrong with a source that is wrapped and unwrapped, or nothing; and whether there was something to wrap."""
    with python.deep():
        wrapped = patched(source, bottom_up(source.term, lambda it: wrap(source, it)))
        other = python.Source(wrapped)
        back = patched(other, bottom_up(other.term, unwrap))
    return "" if back == source.text else "it isn't as before", wrapped != source.text


# Changes by chance.


def changed_expression(chance, term):
    """Another expression in the place of one."""
    others = [
        lambda: called("wrapped", term),
        lambda: Term("UnaryOp", (Term("Not"), term)),
        lambda: Term("BinOp", (term, Term("Pow"), WRAPPED)),
        lambda: Term("BoolOp", (Term("And"), listed(WRAPPED, term))),
        lambda: Term("IfExp", (WRAPPED, term, WRAPPED)),
        lambda: Term("List", (term.children[0] if term.head == "Tuple" else listed(term), LOAD)),
        lambda: Term(term.head, term.children),
        lambda: called("twice", term, term),
        lambda: WRAPPED,
    ]
    return chance.choice(others)()


def changed_block(chance, block):
    """Other statements in the place of some."""
    at = chance.randrange(len(block))
    end = at + chance.randrange(1, 4)
    some = block[at:end]
    others = [
        lambda: (),
        lambda: (*some, *some),
        lambda: some[::-1],
        lambda: (Term("If", (WRAPPED, listed(*some), listed())),),
        lambda: (Term("Try", (listed(*some), listed(), listed(), listed(Term("Pass")))),),
        lambda: tuple(Term(it.head, it.children) for it in some),
        lambda: (Term("If", (WRAPPED, listed(Term("Pass")), listed())),),
    ]
    return (*block[:at], *chance.choice(others)(), *block[end:])


def may_change(term):
    """Whether another expression may stand in the place of a node."""
    parts = term.children[0].children if term.head == "Tuple" else ()
    return (
        term.head in EXPRESSIONS
        and term.annotations
        and term.head not in ("Starred", "Slice", "NamedExpr", "Yield", "YieldFrom", "Await")
        and not any(it.head in ("Store", "Del") for it in term.children)
        and not any(it.head in ("Slice", "Starred") for it in parts)
    )


def changed_by_chance(chance, term):
    if term.head in ("JoinedStr", "arg", "alias", "MatchValue", "MatchMapping", "MatchClass", "AnnAssign"):
        return term
    children = tuple(changed_by_chance(chance, it) for it in term.children)
    if term.head == LIST and children and children[0].head in STATEMENTS and chance.random() < 0.08:
        children = changed_block(chance, children) if not any(it.head == "ImportFrom" for it in children) else children
    if len(children) != len(term.children) or any(one is not two for one, two in zip(children, term.children)):
        term = Term(term.head, children, term.annotations)
    if may_change(term) and chance.random() < 0.02:
        return changed_expression(chance, term)
    return term


def comments_of(text):
    lines = io.StringIO(text.decode(), newline="").readline
    return Counter(it.string for it in tokenize.generate_tokens(lines) if it.type == tokenize.COMMENT)


def kept(source, new):
    """What is wrong with a new tree, or with the comments, or nothing."""
    with python.deep():
        found = patch_of(source, new)
        text = apply_edits(source.text, 0, len(source.text), found.edits)
        wanted = ast.dump(python.from_term(normal_all(new)))
        if ast.dump(python.parse(text.decode())) != wanted:
            return "another tree"
        before, after = comments_of(source.text), comments_of(text)
        if after - before:
            return f"comments come twice: {after - before}"
        if before - after != Counter(it.text for it in found.lost):
            return f"comments that are lost aren't those that are named: {before - after}"
        groups = changes.changes_of(source.term, {(): new}, LANGUAGE.kinds)
        if changes.changed(source.term, [it for group in groups for it in group]) != new:
            return "the changes don't lead to the new tree"
        left = rewriting.with_comments(source, {(): new})
        return "" if comments_of(left.text) == before else "a comment is lost, though places are left"


def normal_all(term):
    return normal(Term(term.head, tuple(normal_all(it) for it in term.children)))


# What is linear in the size of a literal, or of a block.
WIDE = [
    ("a dictionary", "x = {{{}}}\n", "{}: 7,  # a\n"),
    ("a list", "x = [{}]\n", "7,\n"),
    ("a list in which brackets come", "x = [{}]\n", "2 * 7,\n"),
    ("a tuple", "x = {}1\n", "7, "),
    ("a call", "f({})\n", "7, "),
    ("an operation", "x = {}1\n", "7 or "),
    ("a comparison", "x = {}1\n", "7 < "),
    ("an operation whose operands need brackets", "x = {}1\n", "8 or "),
    ("operations in one another whose operands need brackets", "x = 1{}\n", " * 7"),
    ("operations whose operators change", "x = {}1\n", "1 * 1 | "),
    ("a list from which elements go", "x = [{}]\n", "gone, 1,  # a\n"),
    ("a block", "{}", "x = 7  # a\n"),
    ("a block from which statements go", "{}", "x\ngone  # a\n"),
    ("a block that is made anew", "{}", "made  # a\n"),
    ("a block of which every other statement is made anew", "{}", "made  # a\nx = 7\n"),
]


def other(term):
    """Another node in the place of one; `gone` for none."""
    if term.head == LIST:
        return listed(*(it for it in term.children if it.head != "gone"))
    if term.head == "Constant" and term.children[0].head == 7:
        return Term("BinOp", (Term("Constant", (Term(3), NONE)), Term("Add"), Term("Constant", (Term(4), NONE))))
    if term.head == "Constant" and term.children[0].head == 8:
        return Term("IfExp", (WRAPPED, WRAPPED, WRAPPED))
    if term.head == "BitOr":
        return Term("Pow")
    if term.head == "Expr" and term.children[0].children[:1] == (string("made"),):
        return Term("Pass")
    if term.head in ("Name", "Expr") and any(it.head in (b"gone", "gone") for it in term.children):
        return Term("gone")
    return term


def calls(outer, part, count):
    """How many calls of functions it takes to change each part of a source."""
    source = python.Source(outer.format("".join(part.format(it) for it in range(count))).encode())
    new = bottom_up(source.term, other)
    found = 0

    def count_one(frame, event, argument):
        nonlocal found
        found += event in ("call", "c_call")

    sys.setprofile(count_one)
    try:
        patched(source, new)
    finally:
        sys.setprofile(None)
    return found


def tests(everything):
    files = sample(glob.glob(f"{os.path.dirname(os.__file__)}/*.py"), range(60_000), 90 if everything else 11)
    sources = {os.path.basename(file): python.Source(contents) for file, contents in files}
    for title, wrap, unwrap in WRAPS:
        outcomes_of = {name: there_and_back(it, wrap, unwrap) for name, it in sources.items()}
        yield from ((f"{title} and unwrapped: {name}", fault) for name, (fault, _) in outcomes_of.items() if fault)
        some = any(it for _, it in outcomes_of.values())
        yield f"{title} and unwrapped: {len(sources)} modules", "" if some else "nothing was wrapped"
    for name, source in sources.items():
        fault = kept(source, changed_by_chance(random.Random(name), source.term))
        if fault:
            yield f"changes by chance of {name}", fault
    yield f"changes by chance of {len(sources)} modules", ""
    for title, outer, part in WIDE:
        few, many = calls(outer, part, 100), calls(outer, part, 200)
        yield f"{title} of twice the size takes twice the calls", "" if many < 2.3 * few else f"{few} and {many}"
