"""Whether a grammar fits the trees of its front end: no two children of a node overlap, what is between them is what the template has there,
and each file that is made wholly anew by templates has the same tree.

    python grammars.py LANGUAGE FILES..
"""

import sys
from collections import Counter

from stratbench import languages
from stratbench.languages.language import Fault
from stratbench.patch.edits import Cannot, Unwritable
from stratbench.patch.nodes import Nodes
from stratbench.patch.patcher import Patcher
from stratbench.patch.brackets import Search
from stratbench.patch.rope import RopeEdit
from stratbench.patch.templates import Templates
from stratbench.terms import NoTerm, Term, deep, position, subterms


def bare(grammar, term):
    """The tree without positions, but for atoms, whose text no template has."""
    children = tuple(bare(grammar, it) for it in term.children)
    return Term(term.head, children, term.annotations if term.head in grammar.atoms else ())


def anew(source):
    """Makes a whole file anew by templates, and raises `Unwritable` where it has another tree."""
    dialect = source.language.dialect(source.kind)
    patcher = Patcher(dialect, source.text, source.term, source.term, source._again)
    new = bare(dialect.grammar, source.term)
    templates = Templates(dialect, patcher.layout, dialect.style(patcher.layout))
    # the templates know it weakly
    nodes = Nodes(dialect.grammar, patcher.layout, templates, lambda old: False)
    edits = [RopeEdit(0, len(source.text), templates._fresh(new, b""))]
    del nodes
    return Search(dialect, source.text, new, edits, templates, patcher.layout.newline, source._again).found([], is_least=False).text


def faults(source):
    """What doesn't fit in a source: the constructors of nodes whose children overlap, or whose text isn't as the template has it."""
    dialect = source.language.dialect(source.kind)
    layout = Patcher(dialect, source.text, source.term, source.term, source._again).layout
    for it in subterms(source.term):
        dialect.grammar.check(it)
        if dialect.grammar.is_node(it) and position(it) is not None:
            try:
                layout.gaps(it)
            except Cannot:
                yield "overlap", it
                continue
            try:
                if it.head not in dialect.grammar.atoms:
                    layout.spots(it)
            except Cannot:
                yield "another text", it


def main(name, files):
    language = languages.named(name)
    found, examples = Counter(), {}
    with deep():
        for file in files:
            with open(file, "rb") as it:
                [source] = language.sources([(file, it.read())])
            if isinstance(source, Fault):
                found[f"no parse: {source.message[:60]}"] += 1
                examples.setdefault(f"no parse: {source.message[:60]}", file)
                continue
            found["files"] += 1
            for what, node in faults(source):
                found[f"{what}: {node.head}"] += 1
                first, last = position(node)
                examples.setdefault(f"{what}: {node.head}", (file, source.text[first:last][:100]))
            try:
                anew(source)
                found["anew"] += 1
            except (Unwritable, NoTerm) as error:
                found[f"not anew: {str(error)[:70]}"] += 1
                examples.setdefault(f"not anew: {str(error)[:70]}", file)
    for it, count in found.most_common(40):
        print(count, it, examples.get(it, ""))


if __name__ == "__main__":
    main(sys.argv[1], sys.argv[2:])
