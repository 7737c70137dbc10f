"""Cases of patches as data, in `patches/*.txt` for Python and in folders there for other languages. A case is a few lines:

    === what it shows
    do: topdown(try(\\ Name("old",c) -> Name("new",c) \\))
    --- before
    f( old )  # one
    --- after
    f( new )  # one
    --- lost
    1: # one
    --- shadowed
    1: f

`do` is the strategy, in whose place `keep` stands for `--keep-comments`. After `lost` are the comments that are to be named, with their
lines; with `keep` those for which a place is left. After `shadowed` are the names of new imports that are bound to something else, too.
Both may be left out. A file begins with what its cases need, a version of Python or modules of `strategies` besides the language's own,
with the suffix of its sources, where that isn't the first one of the language, and with rules, which are a module of their own.
"""

import glob
import os
import re
import sys
import tempfile
from typing import NamedTuple

from stratbench import languages, refactor
from stratbench.languages.python.shadows import shadowed
from stratbench.patch import Unwritable
from stratbench.refactor import rewriting
from stratbench.terms import NoTerm


class Case(NamedTuple):
    title: str
    keep: bool
    strategy: str
    before: str
    after: str
    lost: list
    shadowed: list


def read_cases(text):
    """What the file says first, the text of the module of its own, and its cases."""
    head, *parts = re.split(r"^=== ", text, flags=re.MULTILINE)
    said = dict(re.findall(r"^(modules|python|suffix): (.*)\n", head, re.MULTILINE))
    rules = re.sub(r"^(?:modules|python|suffix):.*\n", "", head, flags=re.MULTILINE)
    return said, "module cases\n" + rules, [read_case(it) for it in parts]


def read_case(text):
    title, rest = text.split("\n", 1)
    how, *sections = re.split(r"^--- (before|after|lost|shadowed)\n", rest, flags=re.MULTILINE)
    found = dict(zip(sections[::2], sections[1::2]))
    word, strategy = how.split(":", 1)
    assert word in ("do", "keep") and "before" in found and "after" in found, title
    lost, shadowed = (found.get(it, "").splitlines() for it in ("lost", "shadowed"))
    return Case(title, word == "keep", strategy.strip(), found["before"], found["after"], lost, shadowed)


def results(top, language, said, rules, cases):
    """The trees that the strategies give, by one process of the workbench."""
    modules = []
    for name in [language.name, *said.get("modules", "").split()]:
        with open(f"{top}/strategies/{name}.str", "rb") as it:
            modules.append((name, it.read()))
    task = refactor.Task((*modules, ("cases", rules.encode())), "id")
    name = "case" + said.get("suffix", language.suffixes[0])
    sources = language.sources([(name, it.before.encode()) for it in cases])
    with tempfile.TemporaryDirectory() as room:
        found = refactor._Bench(room, task).previews([it.term for it in sources], [it.strategy for it in cases])
    return zip(cases, sources, found)


def fault_of(case, source, result):
    """What is wrong with a case, or nothing."""
    if not isinstance(result, dict):
        return f"refused: {result}"
    new = refactor.exchange(source.term, result)
    try:
        found = rewriting.with_comments(source, result) if case.keep else rewriting.rewritten(source, new)
    except (NoTerm, Unwritable) as error:
        return f"unwritable: {error}"
    lost = [f"{source.lines.number(it.first)}: {it.text}" for it in found.lost]
    if found.text.decode() != case.after:
        return f"{found.text.decode()}wanted\n{case.after}"
    if lost != case.lost:
        return f"lost are {lost}, wanted {case.lost}"
    others = [f"{source.lines.number(place)}: {name}" for name, place in shadowed(source.term, new)] if source.language.name == "python" else []
    return "" if others == case.shadowed else f"shadowed are {others}, wanted {case.shadowed}"


def tests(top, name="python"):
    """The title of each case of a language, and what is wrong with it."""
    language = languages.named(name)
    folder = "" if name == "python" else name + "/"
    for file in sorted(glob.glob(f"{os.path.dirname(__file__)}/patches/{folder}*.txt")):
        with open(file, newline="") as it:
            said, rules, cases = read_cases(it.read())
        title = os.path.basename(file)[:-4]
        if sys.version_info < tuple(int(it) for it in said.get("python", "3.9").split(".")):
            yield f"{title}: this Python is too old for these", ""
            continue
        for case, source, result in results(top, language, said, rules, cases):
            yield f"{title}: {case.title}", fault_of(case, source, result)
