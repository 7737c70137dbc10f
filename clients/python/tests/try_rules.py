"""The rules of strategies/python-*.rules on the modules of Python's standard library: each gives the tree that code by hand over `ast` gives
(`by_hand.py`). Where the sample has no place for a rule, its own tests have."""

import ast
import os
import tempfile

from by_hand import RULES, ByHand
from stratbench import python
from stratbench.concrete.adapter import adapter_of
from stratbench.concrete.compiling import applied, compile_rule
from stratbench.concrete.text import Source
from stratbench.refactor import Bench, Task
from stratbench.refactor.previewed import replacement
from stratbench.refactor.runs import budget
from stratbench.refactor.written import Written, rules_of, with_written
from stratbench.terms import deep, exchange
from try_modules import modules


def written(top):
    folder = f"{top}/strategies"
    found = []
    for name in sorted(os.listdir(folder)):
        if name.startswith("python-") and name.endswith(".rules"):
            with open(f"{folder}/{name}", encoding="utf-8") as it:
                found.append(Source(name, it.read()))
    return Written(files=tuple(found))


def strategies(top):
    for name in ("python", "lists", "terms", "names", "python-names", "python-imports"):
        with open(f"{top}/strategies/{name}.str", "rb") as it:
            yield name, it.read()


def previews(bench, task, source, names):
    """What each strategy replaces in a tree."""
    script = "".join(f"preview t0 within {budget(task, source.shown.size)} do bottomup(try({it}))\n" for it in names)
    ran = bench.run(script, [source.shown])
    at = 0
    for _ in names:
        words = ran.lines[at].split()
        if words[0] != b"changes":
            raise ValueError(f"{ran.lines[at]!r} {ran.said}")
        yield dict(map(replacement, ran.lines[at + 1 : at + 1 + int(words[1])]))
        at += 1 + int(words[1])


def tests(top, everything):
    given = written(top)
    modules_of = tuple(strategies(top))
    task = with_written(Task(modules_of, "", files=tuple(name for name, _ in modules_of)), given)
    rules = rules_of(given, "python")
    by_name = {it.name: applied(it.name, compile_rule(it, adapter_of("python")).of_list) for it in rules}
    yield "each rule has code by hand", "" if by_name.keys() == RULES.keys() else f"{by_name.keys() ^ RULES.keys()}"
    places = dict.fromkeys(by_name, 0)
    faults = {}
    texts = [(name, it) for name, it in contents(modules(everything))]
    # what the tests of rules begin with, as further sources
    texts += [(f"{it.name} {at}", f"{test.before.text}\n".encode()) for it in rules for at, test in enumerate(it.tests)]
    with deep(), tempfile.TemporaryDirectory(prefix="stratbench-") as room:
        bench = Bench(room, task)
        for name, text in texts:
            source = python.Source(text)
            for one, found in zip(by_name, previews(bench, task, source, by_name.values())):
                count, fault = compared(source, text, one, found)
                places[one] += count
                if fault:
                    faults.setdefault(one, f"{name}: {fault}")
    for one, count in places.items():
        yield f"{one}: as by hand in {len(texts)} texts, {count} places", faults.get(one, "" if count else "no place")


def contents(names):
    for name in names:
        with open(name, "rb") as it:
            yield os.path.basename(name), it.read()


# How many places code by hand has, and how the trees differ, if they do.
def compared(source, text, name, found):
    by_hand = ByHand(name)
    tree = by_hand.visit(ast.parse(text))
    if not found or not by_hand.places:
        return by_hand.places, "" if not found and not by_hand.places else f"{len(found)} replaced, and {by_hand.places} places by hand"
    got, wanted = ast.dump(python.from_term(exchange(source.term, found))), ast.dump(tree)
    at = next((at for at, (one, two) in enumerate(zip(got, wanted)) if one != two), 0)
    return by_hand.places, "" if got == wanted else f"{got[max(at - 100, 0) : at + 100]}\nwanted\n{wanted[max(at - 100, 0) : at + 100]}"
