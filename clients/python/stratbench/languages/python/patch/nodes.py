"""Nodes that change in their place: what differs in them, and the brackets that they need then."""

from __future__ import annotations

import tokenize
from typing import Final, Protocol

from ..source import CONSTRUCTORS, position
from ....terms import LIST, Term
from .commas import Commas, same_shape
from .edits import (
    BLOCKS, COMMAS, COMPREHENSIONS, DEFINITIONS, DISPLAYS, OPERATIONS, OPERATORS, Cannot, Edit, apply_edits, is_same, operands, span,
)  # fmt: skip
from .fresh import Fresh
from .fstrings import Joined
from .markers import may_have_brackets
from .trees import Trees


# What is around the head of a statement, a handler or a case where it is parsed alone.
_AROUND: Final = {"Match": ("", "\n case _: pass"), "ExceptHandler": ("try: pass\n", " pass"), "match_case": ("match _:\n ", " pass")}


class Parts(Protocol):
    """The edits of the parts of statements with blocks."""

    def clause(self, old: Term, new: Term, name: str) -> list[Edit]: ...

    def parts(self, old: Term, new: Term, name: str) -> list[Edit]: ...

    def decorators(self, old: Term, new: Term) -> list[Edit]: ...


class Nodes:
    """The edits of a node by those of its fields."""

    clauses: Parts

    def __init__(self, trees: Trees, fresh: Fresh, commas: Commas, joined: Joined) -> None:
        self._trees, self._fresh, self._commas, self._joined = trees, fresh, commas, joined

    def settled(self, old: Term, new: Term) -> list[Edit]:
        """The edits within a statement, a handler or a case, with the brackets that its head needs."""
        edits, brackets = self.inside(old, new), self._trees.brackets
        if not any(brackets.are_in(it.text) for it in edits):
            return edits
        first, last = self._trees.head(old)
        before, after = _AROUND.get(str(old.head), ("", " pass" if old.head in BLOCKS else ""))
        if old.head in DEFINITIONS and self._trees.indent(first):
            before = f"if 1:\n{self._trees.indent(first).decode()}"
        text = apply_edits(self._trees.text, first, last, [it for it in edits if first <= it.first and it.last <= last]).decode()
        needed = brackets.needed(before + (text[2:] if text.startswith("elif") else text) + after) or set()
        found = [it._replace(text=brackets.written(it.text.decode(), needed).encode()) for it in edits]
        return [it for it in found if it.first < it.last or it.text]

    def node(self, old: Term, new: Term) -> list[Edit]:
        """The edits that make the old node the new one, which stands in its place."""
        if old is new:
            return []
        first, last = span(old)
        if not self._trees.plain and not self._trees.is_moved(old, new):
            found = None
            if old.head == new.head:
                found = self._trees.tried(lambda: self.inside(old, new))
            elif any(old.head in it and new.head in it for it in (DISPLAYS, COMPREHENSIONS)):
                found = self._trees.tried(lambda: self._commas.display(old, new))
            if found is not None:
                return found
        return [Edit(first, last, self._fresh.made(new, self._trees.frame(first), old).encode())]

    def inside(self, old: Term, new: Term) -> list[Edit]:
        """The edits within a node whose constructor stays."""
        if old.head == "JoinedStr":
            return self._joined.edits(old, new)
        edits = self.fields(old, new)
        at = OPERATIONS.get(str(old.head))
        if at is not None and old.children[at] is not new.children[at]:
            # an operator that changes may bind its operands otherwise, so these may need brackets now; others have some already
            for it, other in zip(operands(old), operands(new)):
                if _binding(it) == _binding(other):
                    edits += self._trees.brackets.around_edits(*span(it), [])
        return edits

    def fields(self, old: Term, new: Term) -> list[Edit]:
        """The edits of the fields of a node whose constructor stays."""
        head = str(old.head)
        fields = CONSTRUCTORS[head].fields
        if old.head != new.head or len(old.children) != len(fields) or len(new.children) != len(fields):
            raise Cannot
        edits: list[Edit] = []
        if head == "Call":
            joint = self._commas.call(old, new)
            if joint is not None:
                return joint
        if head == "ClassDef":
            edits += self._commas.bases(old, new)
        if head == "Dict" and len(old.children[0].children) != len(new.children[0].children):
            return self._commas.dictionary(old, new)
        if head == "arguments" and not same_shape(old, new):
            raise Cannot
        for at, field in enumerate(fields):
            one, two = old.children[at], new.children[at]
            if is_same(one, two) or field.sort == "expr_context" or (head == "ClassDef" and field.name in ("bases", "keywords")):
                continue
            edits += self._field(old, new, field.name, one, two)
        return edits

    def _field(self, old: Term, new: Term, name: str, one: Term, two: Term) -> list[Edit]:
        head = str(old.head)
        if head in BLOCKS and name in ("body", "orelse", "finalbody"):
            return self.clauses.clause(old, new, name)
        if name == "handlers" or name == "cases":
            return self.clauses.parts(old, new, name)
        if name == "decorator_list":
            return self.clauses.decorators(old, new)
        if (head, name) in (("FunctionDef", "args"), ("AsyncFunctionDef", "args"), ("Lambda", "args")):
            return self._commas.parameters(old, one, two)
        if name == "returns" and head in DEFINITIONS:
            return self._returns(old, new, one, two)
        word = self._word(old, new, name, one, two)
        if word is not None:
            return word
        if one.head == LIST and two.head == LIST:
            if len(one.children) == len(two.children):
                return [edit for it, other in zip(one.children, two.children) if not is_same(it, other) for edit in self.child(new, it, other)]
            least = COMMAS.get((head, name))
            if least is None or len(two.children) < least or not one.children:
                if (head, name) != ("List", "elts"):
                    raise Cannot
            inside = self._trees.inside_of(old) if head in DISPLAYS else span(old)
            elements = [self._commas.item(inside, it) for it in one.children]
            return self._commas.items(new, inside, elements, [(it,) for it in two.children])
        return self.child(new, one, two)

    def child(self, owner: Term, old: Term, new: Term) -> list[Edit]:
        """The edits for a child of a new node that isn't a list, with the brackets that it may need there."""
        if position(old) is None:
            if old.head == new.head and old.head in ("arguments", "comprehension", "withitem"):
                return self.fields(old, new)
            raise Cannot
        if new.head not in CONSTRUCTORS or new.head == "None":
            raise Cannot
        first, last = span(old)
        edits = self.node(old, new)
        whole = len(edits) == 1 and (edits[0].first, edits[0].last) == (first, last)
        brackets, there = self._trees.brackets, self._trees.tokens.are_around(first, last)
        if whole or old.head != new.head:
            if new.head == "GeneratorExp" or new.head == "Tuple" and there and edits[0].text[:1] == b"(":
                return brackets.instead(edits)
            is_number = owner.head == "Attribute" and new.head == "Constant" and not isinstance(new.children[0].head, bytes)
            if not there and (is_number or new.head in ("NamedExpr", "Yield", "YieldFrom") and owner.head != "Expr" and old.head != new.head):
                return [Edit(first, last, b"(" + edits[0].text + b")")]
        if may_have_brackets(new) and (_binding(old) != _binding(new) or whole and b"\n" in edits[0].text):
            return brackets.around_edits(first, last, edits)
        return edits

    # Names and operators, which are one token or a few.
    def _word(self, old: Term, new: Term, name: str, one: Term, two: Term) -> list[Edit] | None:
        head, tokens = str(old.head), self._trees.tokens
        if name == "attr" or (name in ("arg", "name") and head in ("keyword", "arg", *DEFINITIONS)):
            if not isinstance(one.head, bytes) or not isinstance(two.head, bytes):
                raise Cannot
            first, last = span(old)
            if name == "attr":
                token = tokens.last_before(last)
            else:
                at = tokens.after(first)
                while tokens.tokens[at].text in ("async", "def", "class"):
                    at += 1
                token = tokens.tokens[at]
            return [Edit(token.first, token.last, two.head)]
        if name == "annotation" and head == "arg":
            return self._annotation(old, new, one, two)
        if (head, name) == ("ExceptHandler", "name"):
            if not isinstance(one.head, bytes) or not isinstance(two.head, bytes):
                raise Cannot
            token = tokens.last_before(self._trees.colon(old))
            return [Edit(token.first, token.last, two.head)]
        if name == "names" and head in ("Global", "Nonlocal"):
            return self._names(old, one, two)
        if head == "ImportFrom" and name in ("module", "level"):
            return self._module(old, new) if name == "module" or old.children[0] is new.children[0] else []
        if name == "op" or name == "ops":
            return self._operators(old, one, two)
        return None

    def _names(self, old: Term, one: Term, two: Term) -> list[Edit]:
        first, last = span(old)
        words = [it for it in self._trees.tokens.between(first, last) if it.kind == tokenize.NAME][1:]
        if not len(words) == len(one.children) == len(two.children):
            raise Cannot
        changed = zip(words, one.children, two.children)
        return [Edit(token.first, token.last, new.head) for token, it, new in changed if it != new and isinstance(new.head, bytes)]

    def _module(self, old: Term, new: Term) -> list[Edit]:
        module, _, level = new.children
        if not isinstance(level.head, int):
            raise Cannot
        tokens = self._trees.tokens.between(*span(old))
        end = next(at for at, it in enumerate(tokens) if it.text == "import")
        text = b"." * level.head + (module.head if isinstance(module.head, bytes) else b"")
        return [Edit(tokens[1].first, tokens[end - 1].last, text)]

    def _operators(self, old: Term, one: Term, two: Term) -> list[Edit]:
        head = str(old.head)
        if head == "UnaryOp":
            token = self._trees.tokens.first_after(span(old)[0])
            space = b" " if two.head == "Not" and self._trees.text[token.last : token.last + 1] not in b" \t(" else b""
            return [Edit(token.first, token.last, OPERATORS[str(two.head)].encode() + space)]
        if head == "BoolOp":
            operands = list(old.children[1].children)
            pairs = [(one, two)] * (len(operands) - 1)
        elif head == "Compare":
            operands = [old.children[0], *old.children[2].children]
            pairs = list(zip(one.children, two.children))
        else:
            operands, pairs = [old.children[0], old.children[2]], [(one, two)]
        if len(pairs) != len(operands) - 1:
            raise Cannot
        edits = []
        for (it, new), left, right in zip(pairs, operands, operands[1:]):
            if it == new:
                continue
            between = [token for token in self._trees.tokens.between(span(left)[1], span(right)[0]) if token.text not in "()"]
            text = OPERATORS[str(new.head)] + ("=" if head == "AugAssign" else "")
            edits.append(Edit(between[0].first, between[-1].last, self._spaced(text, between[0].first, between[-1].last)))
        return edits

    # A word of an operator needs blanks around where the sign before had none.
    def _spaced(self, text: str, first: int, last: int) -> bytes:
        if not text[0].isalpha():
            return text.encode()
        before = "" if self._trees.text[first - 1 : first] in (b" ", b"\t", b"\n", b"\r", b")", b"]", b"}") else " "
        after = "" if self._trees.text[last : last + 1] in (b" ", b"\t", b"\n", b"\r", b"(", b"[", b"{", b"\\") else " "
        return (before + text + after).encode()

    def _annotation(self, old: Term, new: Term, one: Term, two: Term) -> list[Edit]:
        token = self._trees.tokens.first_after(span(old)[0])
        if one.head == "None":
            return [Edit(token.last, token.last, b": " + self._fresh.text(two, self._trees.frame(token.first)).encode())]
        if two.head == "None":
            return [Edit(token.last, self._commas.around((token.last, span(old)[1]), one)[1], b"")]
        return self.child(new, one, two)

    def _returns(self, old: Term, new: Term, one: Term, two: Term) -> list[Edit]:
        colon = self._trees.colon(old)
        if one.head == "None":
            return [Edit(colon, colon, b" -> " + self._fresh.text(two, self._trees.frame(colon)).encode())]
        if two.head == "None":
            arrow = self._trees.tokens.back(span(one)[0], "->").first
            return [Edit(self._trees.tokens.last_before(arrow).last, colon, b"")]
        return self.child(new, one, two)


# What says how strongly a node binds: its constructor, and its operator.
def _binding(term: Term) -> tuple[object, object]:
    at = OPERATIONS.get(str(term.head))
    return term.head, None if at is None else term.children[at].head
