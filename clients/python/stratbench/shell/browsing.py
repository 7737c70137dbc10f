"""What names stand for in a session: trees, modules, constructors and definitions."""

from __future__ import annotations

from collections.abc import Iterator, Mapping

from ..server.reading import Constructor, Definition, Module, read
from ..terms import Term, height, size
from .session import Refusal, Session
from .view import brief


def listed(session: Session, name: str) -> Iterator[str]:
    """Yields a line for each constructor and definition of a module, or of all modules where there is no name."""
    texts = _texts(session)
    if name and name not in texts:
        raise Refusal(f"there is no module {name}")
    for module, text in texts.items():
        if name in ("", module):
            read_text = read(text)
            yield f"module {module}"
            yield from (f"  {_declared(it)}" for it in read_text.constructors)
            yield from (f"  {it}" for it in dict.fromkeys(_defined(it) for it in read_text.definitions))


def described(session: Session, name: str) -> Iterator[str]:
    """Yields what a name stands for: lines on a tree, a module, and each constructor and definition of the name."""
    texts, found = _texts(session), False
    if name in session.ask(lambda it: it.trees()):
        found = True
        yield _of_tree(name, session.ask(lambda it: it.term(name)))
    if name in texts:
        found = True
        yield _of_module(name, read(texts[name]))
    for module, text in texts.items():
        for lines in _of_text(name, read(text), text):
            found = True
            yield f"{lines}\n  in the module {module}"
    if not found:
        raise Refusal(f"there is no tree, module, constructor or definition {name}")


def _texts(session: Session) -> Mapping[str, str]:
    return session.ask(lambda it: {name: it.text(name) for name in it.modules()})


def _of_tree(name: str, tree: Term) -> str:
    return f"tree {name}: {brief(tree)}, {size(tree):,} terms, {height(tree):,} levels"


def _of_module(name: str, module: Module) -> str:
    counts = ((len(module.constructors), "constructor"), (len({it.key for it in module.definitions}), "definition"))
    return f"module {name}: " + ", ".join(f"{count} {what}{'' if count == 1 else 's'}" for count, what in counts)


# The texts of the constructors and definitions of a name, each with the comment that belongs to it.
def _of_text(name: str, module: Module, text: str) -> Iterator[str]:
    for declared in module.constructors:
        if declared.name == name:
            yield _with(declared.comment, f"constructor {_declared(declared)}")
    for defined in module.definitions:
        if defined.name == name:
            yield _with(defined.comment, text[defined.begin : defined.end].rstrip())


def _with(comment: str, text: str) -> str:
    return f"{text}\n  {comment}" if comment else text


def _declared(it: Constructor) -> str:
    return f"{it.name} : {' * '.join(it.sorts)} -> {it.own}" if it.sorts else f"{it.name} : {it.own}"


def _defined(it: Definition) -> str:
    return f"{it.head}{' (rule)' if it.is_rule else ''}"
