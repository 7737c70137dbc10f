"""New text: that of nodes that are made anew, with the texts of old ones in it."""

from __future__ import annotations

import ast
import re
from collections.abc import Callable, Sequence

from ..source import CONSTRUCTORS, parse, unparse
from ....terms import LIST, NoTerm, Term, string
from .edits import BLOCKS, COMPREHENSIONS, DISPLAYS, LOAD, OPERATIONS, STATEMENTS, Cannot, Edit, parts_of, span
from .markers import STRINGS, Piece, filled, indented, marker_of, unparsed
from .trees import Trees


class Fresh:
    """How nodes are written that weren't there before.

    Given are the edits within an old node that stays with other parts, those that make a literal, or a comprehension, another, and the text of
    statements without the indentation of its first line.
    """

    inside: Callable[[Term, Term], list[Edit]]
    display: Callable[[Term, Term], list[Edit]]
    rendered: Callable[[Sequence[Term], bytes], bytes]

    def __init__(self, trees: Trees) -> None:
        self._trees = trees

    def text(self, term: Term, indent: bytes) -> str:
        """The text of a node, its own where it is an old one, in a statement of an indentation, with the brackets that it may need."""
        known = self._piece_text(term, indent)
        return self._trees.brackets.of(term, self.made(term, indent) if known is None else known)

    def _piece_text(self, term: Term, indent: bytes) -> str | None:
        origin = None if self._trees.plain else self._trees.origin(term)
        if origin is None:
            return None
        try:
            first, last = span(origin)
            own = self._trees.copied(first, last, [] if origin is term else self.inside(origin, term))
        except Cannot:
            return None
        text = indented(own, self._trees.frame(first), indent).decode()
        if term.head == "Tuple" and not self._trees.is_bracketed_tuple(origin) and not any(it.head == "Slice" for it in term.children[0].children):
            return f"({text})"
        return text

    def made(self, term: Term, indent: bytes, old: Term | None = None) -> str:
        """The text of a node that is made anew, with the texts of old ones in it."""
        if term.head in STATEMENTS:
            return self.statement(term, b"").decode()
        if old is not None:
            known = self._piece_text(term, indent) if self._trees.origin(term) is not old else None
            if known is not None:
                return known
        display = None if self._trees.plain else self._display_text(term, indent)
        if display is not None:
            return display
        pieces: list[Piece] = []
        made = self._with_pieces(term, pieces, indent, root=True)
        text = filled(self.fitting(unparsed(made)), pieces)
        if term.head in ("JoinedStr", "Constant") and old is not None:
            return self._requoted(text, old)
        return text

    # The text of a literal, or of a comprehension, of which parts are those of an old one that is gone: that one's, with other brackets.
    def _display_text(self, term: Term, indent: bytes) -> str | None:
        heads = next((it for it in (DISPLAYS, COMPREHENSIONS) if term.head in it), None)
        if heads is None:
            return None
        parts = (self._trees.origin(it) for it in parts_of(term))
        old = next((self._trees.owners.get(id(it)) for it in parts if it is not None), None)
        if old is None or old.head not in heads or self._trees.former.is_present(old):
            return None
        first, last = span(old)
        try:
            text = self._trees.copied(first, last, self.display(old, term))
        except Cannot:
            return None
        return indented(text, self._trees.frame(first), indent).decode()

    def fitting(self, text: str) -> str:
        """A new text with escapes in its strings for what the encoding of the file doesn't have."""
        encoding = self._trees.source.encoding
        if encoding.startswith("utf-8"):
            return text
        return STRINGS.sub(lambda it: it.group().encode(encoding, "backslashreplace").decode(encoding), text)

    # A string in the quotes of the first one that was in its place, and as raw as that.
    def _requoted(self, text: str, old: Term) -> str:
        tokens = self._trees.tokens.between(*span(old))
        first = next((it.text for it in tokens if it.text[-1:] in ("'", '"')), "")
        found = re.match(r"""([A-Za-z]*)('+|"+)""", first)
        mine = re.fullmatch(r"""([fb]?)('|")(.*)\2""", text, re.DOTALL)
        if not found or not mine:
            return text
        quotes = found[2] if len(found[2]) in (1, 3) else found[2][0]
        for it in _spellings(found[1], quotes, mine[1], mine[3]):
            try:
                if ast.dump(parse(it)) == ast.dump(parse(text)):
                    return it
            except SyntaxError:
                pass
        return text

    # The node with markers in the places of the nodes whose text is known.
    def _with_pieces(self, term: Term, pieces: list[Piece], indent: bytes, root: bool = False) -> Term:
        if not root and term.head in CONSTRUCTORS:
            text = self._piece_text(term, indent)
            if text is None and not self._trees.plain:
                text = self._display_text(term, indent)
            if text is None and term.head in OPERATIONS:
                # the brackets that `ast.unparse` would put around it may not be needed
                text = self.made(term, indent)
            if text is not None:
                shown, marker = marker_of(term, len(pieces))
                pieces.append(Piece(shown, self._trees.brackets.of(term, text), term.head == "Constant" and text[0].isdigit()))
                return marker
        if not term.children or term.head == "JoinedStr":
            return term
        return Term(term.head, tuple([self._with_pieces(it, pieces, indent) for it in term.children]))

    def statement(self, term: Term, indent: bytes) -> bytes:
        """A statement made anew, without the indentation of its first line."""
        if self._trees.plain:
            return indented(self.fitting(unparse(term)).strip("\n").encode(), b"", indent)
        pieces: list[Piece] = []
        blocks: list[Term] = []
        stub = self._stub(term, pieces, blocks, indent)
        brackets = self._trees.brackets
        if term.head == "Expr" and term.children[0].head == "Constant":
            text = unparse(Term("Module", (Term(LIST, (stub,)), Term(LIST))))
        else:
            text = unparsed(stub)
        text = self.fitting(text).strip("\n")
        needed = brackets.needed(filled(text, pieces)) or set()
        if not blocks:
            text = filled(indented(text.encode(), b"", indent).decode(), pieces)
            return brackets.written(text, needed).encode()
        lines: list[bytes] = []
        for line in text.split("\n"):
            found = re.fullmatch(r"( *)_block_(\d+)_", line)
            if found:
                level = indent + self._trees.tokens.unit * (len(found.group(1)) // 4)
                lines.append(level + self.rendered(blocks[int(found.group(2))].children, level))
            else:
                level = indent + self._trees.tokens.unit * ((len(line) - len(line.lstrip(" "))) // 4)
                lines.append(level + brackets.written(filled(line.lstrip(" "), pieces), needed).encode())
        return self._trees.newline.join(lines)[len(indent) :]

    # A statement with markers in the places of its blocks and of the nodes whose text is known.
    def _stub(self, term: Term, pieces: list[Piece], blocks: list[Term], indent: bytes) -> Term:
        head = str(term.head)
        if head not in CONSTRUCTORS or len(CONSTRUCTORS[head].fields) != len(term.children):
            raise NoTerm(f"no statement: {term!r:.100}")
        children = []
        for field, child in zip(CONSTRUCTORS[head].fields, term.children):
            if head in BLOCKS and field.name in BLOCKS[head] and child.head == LIST and child.children:
                inner = child.children[0]
                if field.name == "orelse" and head == "If" and len(child.children) == 1 and inner.head == "If" and self.is_elif(inner):
                    children.append(Term(LIST, (self._stub(inner, pieces, blocks, indent),)))
                    continue
                name = Term("Name", (string(f"_block_{len(blocks)}_"), LOAD))
                blocks.append(child)
                children.append(Term(LIST, (Term("Expr", (name,)),)))
            elif head in BLOCKS and field.name in ("handlers", "cases"):
                deeper = indent + self._trees.tokens.unit if field.name == "cases" else indent
                children.append(Term(LIST, tuple(self._stub(it, pieces, blocks, deeper) for it in child.children)))
            else:
                children.append(self._with_pieces(child, pieces, indent))
        return Term(head, tuple(children))

    def is_elif(self, term: Term) -> bool:
        """Whether an `If` in the `else` of another is written `elif`: it was, or is new."""
        origin = self._trees.origin(term)
        return origin is None or self._trees.text[span(origin)[0] :].startswith(b"elif")


# Texts with a prefix and quotes, which may spell a string, from that with a prefix of its own: like the old one first.
def _spellings(prefix: str, quotes: str, own: str, body: str) -> list[str]:
    bodies = [body.replace("\\n", "\n"), body] if len(quotes) == 3 else [body]
    plain = "".join(it for it in prefix if it.lower() not in "rfb")
    raw = "".join(it for it in prefix if it.lower() == "r")
    found: list[str] = []
    if raw:
        unescaped = [re.sub(r"\\([\\'\"])", r"\1", it) for it in bodies]
        like = prefix if own in prefix.lower() and (own or prefix == raw) else raw + own
        found += [f"{like}{quotes}{it}{quotes}" for it in unescaped]
    return [*found, *(f"{it}{quotes}{other}{quotes}" for it in (prefix, plain + own, own) for other in bodies)]
