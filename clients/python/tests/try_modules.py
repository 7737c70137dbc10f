"""The modules of Python's standard library: to terms and back, refactored as by `ast.NodeTransformer`, patched, undone."""

import ast
import glob
import os
import re
import subprocess
import sys
import tempfile
import traceback
import warnings

from packages import left_out
from stratbench import Stratbench, python, refactor, terms
from stratbench.patch import apply_edits, patch

FOLDER = os.path.dirname(os.__file__)

# The modules of which a patched copy has to pass its own test.
TESTED = "textwrap shlex string queue colorsys statistics sched cmd pprint graphlib optparse csv calendar".split()


def modules(everything):
    """The files, all or every eighth one."""
    return sorted(glob.glob(f"{FOLDER}/*.py"))[:: 1 if everything else 8]


def library(top, *names):
    """The task of a strategy with these modules of `strategies`."""
    with_texts = []
    for name in names:
        with open(f"{top}/strategies/{name}.str", "rb") as it:
            with_texts.append((name, it.read()))
    return tuple(with_texts)


class Conditions(ast.NodeTransformer):
    """`not x in y` to `x not in y` and its like."""

    NEGATED = {ast.In: ast.NotIn, ast.NotIn: ast.In, ast.Is: ast.IsNot, ast.IsNot: ast.Is}

    def visit_UnaryOp(self, node):
        self.generic_visit(node)
        it = node.operand
        if isinstance(node.op, ast.Not) and isinstance(it, ast.Compare) and len(it.ops) == 1 and type(it.ops[0]) in self.NEGATED:
            return ast.Compare(it.left, [self.NEGATED[type(it.ops[0])]()], it.comparators)
        return node


class Branches(ast.NodeTransformer):
    """`if not c: A else: B` to `if c: B else: A`, where B isn't an `elif`; and of an expression."""

    def visit_If(self, node):
        self.generic_visit(node)
        if isinstance(node.test, ast.UnaryOp) and isinstance(node.test.op, ast.Not) and node.orelse:
            if not (len(node.orelse) == 1 and isinstance(node.orelse[0], ast.If)):
                return ast.If(node.test.operand, node.orelse, node.body)
        return node

    def visit_IfExp(self, node):
        self.generic_visit(node)
        if isinstance(node.test, ast.UnaryOp) and isinstance(node.test.op, ast.Not):
            return ast.IfExp(node.test.operand, node.orelse, node.body)
        return node


class Assignments(ast.NodeTransformer):
    """`x = x + y` to `x += y`."""

    def visit_Assign(self, node):
        self.generic_visit(node)
        target, value = node.targets[0], node.value
        if len(node.targets) == 1 and isinstance(target, ast.Name) and isinstance(value, ast.BinOp):
            if isinstance(value.left, ast.Name) and value.left.id == target.id:
                return ast.AugAssign(target, value.op, value.right)
        return node


REFACTORINGS = [
    (Conditions, ("python", "lists", "terms", "python-conditions"), "bottomup(try(NegatedTest))"),
    (Branches, ("python", "lists", "terms", "python-conditions"), "bottomup(try(NegatedIf))"),
    (
        Assignments,
        ("python", "lists", "terms", "names", "python-names", "python-statements"),
        "bottomup(try(Augmented))",
    ),
]


def parsed(text):
    with warnings.catch_warnings():
        warnings.simplefilter("ignore")
        return ast.parse(text)


def spans(source, places):
    """The lines of the source, from 0, that the replaced places touch."""
    lines = set()
    for path in places:
        # a place without a position is a part of the node above it
        while python.position(terms.at(source.term, path)) is None and path:
            path = path[:-1]
        found = python.position(terms.at(source.term, path))
        first, last = found if found else (0, len(source.text))
        begin = source.text.count(b"\n", 0, first)
        lines.update(range(begin, source.text.count(b"\n", 0, last) + 1))
    return lines


def others_stay(source, after, places):
    """Whether the lines outside of the replaced places are in the new text, in order."""
    touched = spans(source, places)
    waiting = iter(after.split(b"\n"))
    return all(line in waiting for at, line in enumerate(source.text.split(b"\n")) if at not in touched)


def refactoring(transformer, source, result):
    """What is wrong with a refactoring of a source, or nothing; and the number of edits."""
    if result.new is None:
        return result.left, 0
    edits = patch(source, result.new)
    after = apply_edits(source.text, 0, len(source.text), edits)
    wanted = ast.dump(ast.fix_missing_locations(transformer().visit(parsed(source.contents))))
    if ast.dump(parsed(after)) != wanted:
        return "the patched source isn't what NodeTransformer gives", len(edits)
    if ast.dump(python.from_term(result.new)) != wanted:
        return "the tree isn't what NodeTransformer gives", len(edits)
    if not others_stay(source, after, result.places):
        return "a line changed outside of the replaced places", len(edits)
    return "", len(edits)


def undone(task, sources, results):
    """Applies the strategy in a session, and undoes it. Yields what is wrong with each."""
    with tempfile.TemporaryDirectory() as room:
        options = []
        for at, (name, text) in enumerate(task.modules):
            with open(f"{room}/{at}.str", "wb") as it:
                it.write(text)
            options += ["--module", f"{name}={room}/{at}.str"]
        for at, source in enumerate(sources):
            with open(f"{room}/{at}", "w") as it:
                it.write(terms.write(source.term))
            options += ["--tree", f"t{at}={room}/{at}"]
        limits = {"max_steps": refactor.MOST_STEPS, "max_terms": refactor.MOST_TERMS}
        with Stratbench(library=True, options=options, **limits) as bench:
            for at, (source, result) in enumerate(zip(sources, results)):
                bench.apply(f"t{at}", task.strategy, within=refactor.MOST_STEPS)
                applied = bench.show(f"t{at}")
                bench.undo()
                if terms.read(applied) != result.new:
                    yield "what was applied isn't what was previewed"
                elif bench.show(f"t{at}") != terms.write(source.term):
                    yield "undo doesn't give the tree from before"
                else:
                    yield ""


def tests(top, everything):
    files = modules(everything)
    sources = {}
    for file in files:
        with open(file, "rb") as it:
            contents = it.read()
        source = sources[file] = python.Source(contents)
        back = ast.dump(python.from_term(terms.read(terms.write(source.term))))
        if back != ast.dump(parsed(contents)):
            yield f"{os.path.basename(file)} to terms and back", "another tree"
    yield f"{len(files)} modules to terms and back", ""
    for transformer, names, strategy in REFACTORINGS:
        task = refactor.Task(library(top, *names), strategy)
        changed = places = 0
        names, given = list(sources), list(sources.values())
        for at in range(0, len(given), 16):
            some = given[at : at + 16]
            results = refactor.transformed(some, task)
            for name, source, result, undo in zip(names[at:], some, results, undone(task, some, results)):
                try:
                    fault, count = refactoring(transformer, source, result)
                except Exception:
                    fault, count = traceback.format_exc(), 0
                if fault or undo:
                    yield f"{os.path.basename(name)} by {strategy}", fault or undo
                changed, places = changed + bool(count), places + count
        yield f"{strategy}: {changed} of {len(files)} modules changed, by {places} edits", "" if places else "none changed"
    yield from copies(top, TESTED if everything else TESTED[:3])


def copies(top, names):
    """Patched copies of modules pass their own tests."""
    if not os.path.exists(f"{FOLDER}/test/test_bisect.py"):
        left_out("patched copies of modules", "this machine has no tests of the standard library")
        return
    modules = library(top, "python", "lists", "terms", "names", "python-conditions", "python-names", "python-statements", "python-strings")
    strategy = "rename-self(|\"me\"); bottomup(try(NegatedTest <+ NegatedIf <+ AugmentedNumber <+ FormatToFString))"
    task = refactor.Task(modules, strategy)
    for name in names:
        with tempfile.TemporaryDirectory() as room:
            file = f"{FOLDER}/{name}.py"
            with open(file, "rb") as it:
                [outcome] = refactor.refactored([(file, it.read())], task)
            if outcome.left or outcome.contents is None:
                yield f"a patched copy of {name}", outcome.left or "nothing changed"
                continue
            with open(f"{room}/{name}.py", "wb") as it:
                it.write(outcome.contents)
            command = [sys.executable, "-c", f"import sys; sys.path.insert(0, {room!r}); import {name}; assert {name}.__file__.startswith({room!r}); import unittest, test.test_{name} as t; unittest.main(t, argv=['x', '-b'])"]
            ran = subprocess.run(command, cwd=room, capture_output=True, text=True, timeout=600)
            lines = outcome.diff.count(b"\n+") - 1
            ok = ran.returncode == 0 and re.search(r"^Ran [1-9]", ran.stderr, re.MULTILINE)
            yield f"a copy of {name} with {lines} changed lines passes its test", "" if ok else ran.stderr[-2000:]
