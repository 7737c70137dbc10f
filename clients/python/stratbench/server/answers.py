"""Answers to what an editor asks of a place in a module."""

from __future__ import annotations

import os
import re
from collections.abc import Iterable, Iterator
from typing import Any, Final

from ..strategies import RESERVED
from .costs import Bounds
from .folder import Modules
from .reading import Constructor, Definition, Module, Name, tokens_of
from .texts import Text, uri_of

# The kinds of the protocol.
_FUNCTION, _CONSTRUCTOR, _VARIABLE, _KEYWORD, _SNIPPET = 3, 4, 6, 14, 15
_SYMBOL_FUNCTION, _SYMBOL_CONSTRUCTOR = 12, 9
TOKENS: Final = ("keyword", "comment", "string", "number", "operator", "function", "parameter", "variable", "enumMember", "type", "namespace")
MODIFIERS: Final = ("declaration",)
_OF_NAMES: Final = {
    "definition": "function", "use": "function", "strategy": "parameter", "term": "parameter", "rec": "parameter", "variable": "variable",
    "constructor": "enumMember", "sort": "type", "module": "namespace", "primitive": "string",
}  # fmt: skip
_OF_TOKENS: Final = {"reserved": "keyword", "comment": "comment", "string": "string", "quote": "string", "number": "number", "sign": "operator"}


class Meant:
    """What a name stands for in all modules of a folder: `key` tells it from others, and `places` are those of its names, by file."""

    def __init__(self, key: tuple[str, ...], name: str, is_local: bool) -> None:
        self.key = key
        self.name = name
        self.is_local = is_local


def meaning(modules: Modules, name: Name) -> Meant:
    """Returns what a name stands for. A use is one of a definition, or else of a constructor."""
    kind, *rest = name.stands_for
    if kind != "use":
        return Meant(name.stands_for, name.name, kind in ("strategy", "term", "rec", "variable"))
    is_constructor = name.terms == 0 and not modules.defining(name.key) and modules.declaring(name.name, name.strategies)
    return Meant(("constructor", *rest[:2]) if is_constructor else ("definition", *rest), name.name, False)


def occurrences(modules: Modules, meant: Meant) -> Iterator[tuple[str, Text, Name]]:
    """Yields all names that stand for the same, each with its file; those of the library have none."""
    uses: dict[tuple[str, int, int], bool] = {}
    for path, text, it in modules.named(meant.name):
        if meant.is_local and path != modules.own:
            return
        if it.kind == "use" and it.key not in uses:
            uses[it.key] = meaning(modules, it).key == meant.key
        if uses[it.key] if it.kind == "use" else it.stands_for == meant.key:
            yield path, text, it


def _location(path: str, text: Text, begin: int, end: int) -> dict[str, Any]:
    return {"uri": uri_of(path), "range": text.range(begin, end)}


def definition(modules: Modules, name: Name) -> list[dict[str, Any]]:
    """Returns where a name is introduced, all bodies of a definition."""
    meant = meaning(modules, name)
    found = [(path, text, it) for path, text, it in occurrences(modules, meant) if path]
    return [_location(path, text, it.begin, it.end) for path, text, it in found if it.is_binding] or (
        [_location(path, text, it.begin, it.end) for path, text, it in found[:1]] if meant.is_local else []
    )


def references(modules: Modules, name: Name, with_bindings: bool = True) -> list[dict[str, Any]]:
    """Returns all places of what a name stands for."""
    found = occurrences(modules, meaning(modules, name))
    return [_location(path, text, it.begin, it.end) for path, text, it in found if path and (with_bindings or not it.is_binding)]


def highlights(modules: Modules, name: Name) -> list[dict[str, Any]]:
    """Returns the places in the same file."""
    found = occurrences(modules, meaning(modules, name))
    return [{"range": text.range(it.begin, it.end), "kind": 3 if it.is_binding else 2} for path, text, it in found if path == modules.own]


def refusal(modules: Modules, name: Name, new: str) -> str:
    """Returns why a name can't be changed to another one; nothing if it can."""
    meant = meaning(modules, name)
    if meant.key[0] in ("sort", "module", "primitive"):
        return f"the name of a {meant.key[0]} isn't changed"
    found = [it.text for it in tokens_of(new)]
    if found != [new] or new in RESERVED or not re.match("[A-Za-z_]", new) or new == "_":
        return f"`{new}` is no name"
    if any(not path for path, _, _ in occurrences(modules, meant)):
        return f"`{name.name}` is of the library"
    if meant.key[0] in ("definition", "constructor"):
        return _refusal_of_all(modules, meant, new)
    # A local name may be changed to one that nothing in its definition has.
    module = modules.texts[0][1].module
    inside = module.definition_at(name.begin)
    if inside and any(it.name == new for it in module.within(inside)):
        return f"`{new}` stands for something else in `{inside.name}`"
    return ""


def _refusal_of_all(modules: Modules, meant: Meant, new: str) -> str:
    """Returns why a definition or a constructor can't have a name."""
    strategies, terms = int(meant.key[2]), int(meant.key[3]) if meant.key[0] == "definition" else 0
    if meant.key[0] == "definition" and modules.defining((new, strategies, terms)):
        return f"there is a definition `{new}` with as many parameters"
    if meant.key[0] == "constructor" and modules.declaring(new, strategies):
        return f"there is a constructor `{new}` of as many terms"
    if modules.declaring(new, strategies) or modules.defining((new, strategies, 0)):
        return f"there is something else of the name `{new}`"
    hides = any(it.kind in ("strategy", "rec") for _, _, it in modules.named(new))
    return f"a parameter `{new}` would hide it" if hides else ""


def rename(modules: Modules, name: Name, new: str) -> dict[str, Any]:
    """Returns the changes that give what a name stands for another name."""
    changes: dict[str, list[dict[str, Any]]] = {}
    for path, text, it in occurrences(modules, meaning(modules, name)):
        changes.setdefault(uri_of(path), []).append({"range": text.range(it.begin, it.end), "newText": new})
    return {"changes": changes}


def _module_name(path: str, module: Module) -> str:
    return module.name or (os.path.basename(path).removesuffix(".str") if path else "library")


def hover(modules: Modules, name: Name) -> dict[str, Any] | None:
    """Returns what there is to know of a name: the text of its definition, the comment before it, and how many steps it takes; or how it is
    declared; or the sort of a variable."""
    meant = meaning(modules, name)
    parts: list[str] = []
    if meant.key[0] == "definition":
        key = (name.name, int(meant.key[2]), int(meant.key[3]))
        for path, text, it in modules.defining(key):
            parts.append(_shown(_module_name(path, text.module), text.text[it.begin : it.end], it.comment))
        bound = bounds_of(modules).of(key)
        if bound:
            parts = [*parts[:5], f"takes at most {bound} steps"]
    elif meant.key[0] == "constructor":
        for path, text, declared in modules.declaring(name.name, int(meant.key[2])):
            parts.append(_shown(_module_name(path, text.module), text.text[declared.at : declared.end], declared.comment))
    elif meant.key[0] in ("variable", "term"):
        what = "a variable" if meant.key[0] == "variable" else "a term parameter"
        sorts = _sorts_of(modules, meant)
        parts.append(f"{what} of the sort `{sorts[0]}`" if len(sorts) == 1 else what)
    else:
        parts.append({"strategy": "a strategy parameter", "rec": "stands for the whole of its `rec`"}.get(meant.key[0], f"a {meant.key[0]}"))
    return {"contents": {"kind": "markdown", "value": "\n\n".join(parts[:6])}} if parts else None


def bounds_of(modules: Modules) -> Bounds:
    """Returns the bounds of the steps of definitions."""
    return Bounds(lambda key: [it for _, _, it in modules.defining(key)], modules.declaring)


def _sorts_of(modules: Modules, meant: Meant) -> list[str]:
    """Returns the sorts of a variable, by the constructors that it is a part of."""
    parts = [it.part for _, _, it in occurrences(modules, meant) if it.part]
    return sorted({declared.sorts[at] for name, terms, at in parts for _, _, declared in modules.declaring(name, terms)})


def _shown(module: str, text: str, comment: str) -> str:
    return f"```stratego\n{text}\n```\n{comment}\n\n*{module}*" if comment else f"```stratego\n{text}\n```\n*{module}*"


def symbols(text: Text) -> list[dict[str, Any]]:
    """Returns the outline of a module."""
    found: list[dict[str, Any]] = []
    for it in text.module.definitions:
        found.append({
            "name": it.head, "kind": _SYMBOL_FUNCTION, "detail": "rule" if it.is_rule else "strategy", "range": text.range(it.begin, it.end),
            "selectionRange": text.range(it.at, it.at + len(it.name)),
        })  # fmt: skip
    for declared in text.module.constructors:
        found.append({
            "name": declared.name, "kind": _SYMBOL_CONSTRUCTOR, "detail": _sorts(declared), "range": text.range(declared.at, declared.end),
            "selectionRange": text.range(declared.at, declared.at + len(declared.name)),
        })  # fmt: skip
    return sorted(found, key=lambda it: (it["range"]["start"]["line"], it["range"]["start"]["character"]))


def _sorts(it: Constructor) -> str:
    return f"{' * '.join(it.sorts)} -> {it.own}" if it.sorts else it.own


def folds(text: Text) -> list[dict[str, Any]]:
    """Returns what can be folded: sections, definitions of several lines, and comments."""
    spans = [(it.begin, it.end, "region") for it in text.module.sections] + [(it.begin, it.end, "region") for it in text.module.definitions]
    spans += [(it.begin, it.end, "comment") for it in text.module.tokens if it.kind == "comment"]
    found = []
    for begin, end, kind in spans:
        first, last = text.position(begin)["line"], text.position(end)["line"]
        if last > first:
            found.append({"startLine": first, "endLine": last, "kind": kind})
    return found


def semantic_tokens(text: Text) -> list[int]:
    """Returns the tokens as the protocol writes them: five numbers each, counted from the token before."""
    names = {it.begin: it for it in text.module.names}
    numbers: list[int] = []
    before = {"line": 0, "character": 0}
    for token in text.module.tokens:
        name = names.get(token.begin)
        kind = _OF_NAMES[name.kind] if name else _OF_TOKENS.get(token.kind)
        if kind is None:
            continue
        begin = token.begin
        # a token of several lines is one a line
        for piece in token.text.split("\n"):
            here = text.position(begin)
            if piece:
                same = here["line"] == before["line"]
                length = text.position(begin + len(piece))["character"] - here["character"]
                numbers += [
                    here["line"] - before["line"], here["character"] - (before["character"] if same else 0), length,
                    TOKENS.index(kind), int(bool(name and name.is_binding)),
                ]  # fmt: skip
                before = here
            begin += len(piece) + 1
    return numbers


def completions(modules: Modules, place: int) -> list[dict[str, Any]]:
    """Returns the names that may stand at a place: in a pattern constructors, else definitions, parameters and congruences."""
    text = modules.texts[0][1]
    before = [it for it in text.module.tokens if it.begin < place]
    if before and before[-1].end >= place and before[-1].kind in ("comment", "string"):
        return []
    inside = next((it for it in reversed(text.module.definitions) if it.begin <= place), None)
    found: dict[str, dict[str, Any]] = {}
    for word in sorted(RESERVED):
        found[word] = {"label": word, "kind": _KEYWORD, "sortText": f"3{word}"}
    for _, _, declared in modules.constructors():
        label = declared.name + ("(" + ",".join(declared.sorts) + ")" if declared.sorts else "()")
        found[f"{declared.name}/{len(declared.sorts)}"] = {
            "label": label, "kind": _CONSTRUCTOR, "detail": f"{declared.name} : {_sorts(declared)}", "filterText": declared.name,
            "insertText": _snippet(declared.name, declared.sorts, ()) if declared.sorts else f"{declared.name}()", "insertTextFormat": 2,
            "sortText": f"2{declared.name}",
        }  # fmt: skip
    for path, other, it in modules.definitions():
        found["/".join(map(str, it.key))] = {
            "label": it.head, "kind": _FUNCTION, "detail": _module_name(path, other.module), "filterText": it.name,
            "documentation": it.comment, "insertText": _snippet(it.name, it.strategies, it.terms), "insertTextFormat": 2, "sortText": f"1{it.name}",
        }  # fmt: skip
    if inside:
        for name in {it.name for it in text.module.within(inside) if it.kind in ("strategy", "term", "rec", "variable")}:
            found[f"local {name}"] = {"label": name, "kind": _VARIABLE, "detail": f"in {inside.name}", "sortText": f"0{name}"}
    return list(found.values())


def _snippet(name: str, strategies: Iterable[str], terms: Iterable[str]) -> str:
    holes = iter(range(1, 100))
    first = ",".join(f"${{{next(holes)}:{it}}}" for it in strategies)
    second = ",".join(f"${{{next(holes)}:{it}}}" for it in terms)
    return f"{name}({first}{'|' + second if second else ''})" if first or second else name


def signature(modules: Modules, place: int) -> dict[str, Any] | None:
    """Returns the heads of what is called at a place, and which argument stands there."""
    text = modules.texts[0][1]
    tokens = [it for it in text.module.tokens if it.end <= place and it.kind != "comment"]
    depth = before = 0
    for number in range(len(tokens) - 1, -1, -1):
        token = tokens[number]
        if token.kind != "sign":
            continue
        if token.text in ")]}":
            depth += 1
        elif token.text in "([{":
            depth -= 1
            if depth < 0:
                if token.text == "(" and number and tokens[number - 1].kind == "word":
                    return _signatures(modules, tokens[number - 1].text, before)
                depth = before = 0
        elif depth == 0 and (token.text == "," or token.text == "|" and tokens[number - 1].text != "("):
            before += 1
    return None


def _signatures(modules: Modules, name: str, before: int) -> dict[str, Any] | None:
    found: dict[str, dict[str, Any]] = {}
    for _, _, it in modules.definitions():
        if it.name == name and (it.strategies or it.terms):
            found[it.head] = {"label": it.head, "documentation": it.comment, "parameters": [{"label": one} for one in (*it.strategies, *it.terms)]}
    for _, _, declared in modules.constructors():
        if declared.name == name and declared.sorts:
            label = f"{name}({','.join(declared.sorts)})"
            found[label] = {"label": label, "parameters": [{"label": one} for one in declared.sorts]}
    if not found:
        return None
    return {"signatures": list(found.values()), "activeSignature": 0, "activeParameter": before}


def unused(modules: Modules, entries: Iterable[str]) -> Iterator[tuple[str, Text, Definition]]:
    """Yields the definitions that nothing calls on any way from definitions of these names."""
    calls: dict[tuple[str, int, int], set[tuple[str, int, int]]] = {}
    for _, text in modules.texts:
        for key, uses in text.module.calls.items():
            calls[key] = calls[key] | uses if key in calls else uses
    wanted = set(entries)
    left = [key for key in calls if key[0] in wanted]
    reached: set[tuple[str, int, int]] = set()
    while left:
        key = left.pop()
        if key in calls and key not in reached:
            reached.add(key)
            left += calls[key]
    return ((path, text, it) for path, text, it in modules.definitions() if path and it.key not in reached)
