"""The text of nodes that come: old text where a node is an old one, the template of its constructor where it is new."""

from __future__ import annotations

from collections.abc import Iterable, Sequence
from typing import Optional, Protocol

from ..terms import LIST, NoTerm, Term, cut
from .dialect import Dialect, Style
from .edits import Cannot
from .grammar import Brackets, Constructor, Field, Group, Part, Sign
from .layout import Comment, Layout, span
from .rope import Break, Copy, Mark, Note, Piece, Rope, RopeEdit, joined, lines, placed


class Inside(Protocol):
    """The edits within an old node that stays with other parts."""

    def within(self, old: Term, new: Term) -> list[RopeEdit]: ...

    def slot(self, old: Term, new: Term, plain: bool = False) -> list[RopeEdit]: ...


class Templates:
    """The texts of nodes, in the style of a file."""

    def __init__(self, dialect: Dialect, layout: Layout, style: Style) -> None:
        self._dialect, self._layout, self._style = dialect, layout, style
        self._grammar = dialect.grammar
        # the nodes of the pairs of marks, by their numbers; and the brackets of those that are in the source, with the blanks inside them
        self.marked_nodes: list[Term] = []
        self.kept: dict[int, Brackets] = {}
        self.inside: Inside

    def rope(self, new: Term, like: bytes = b"") -> Rope:
        """Returns the text of a node as if it began in the first column. `like` is the text in whose place it comes."""
        origin = self._layout.origin(new)
        if origin is not None:
            try:
                return self.copied(origin, [] if origin is new else self.inside.within(origin, new))
            except Cannot:
                pass
        return self._fresh(new, like)

    def element(self, new: Term, plain: bool = False) -> Rope:
        """Returns the text of a part of a new node, with the places of brackets."""
        if new.head == self._grammar.absent:
            return []
        return self.marked(new, self.rope(new), plain)

    @property
    def unit(self) -> bytes:
        """A level of indentation."""
        return self._style.unit

    def marked(self, new: Term, rope: Rope, plain: bool) -> Rope:
        """Returns a rope with marks around it, where the node may have brackets."""
        if plain or not self._grammar.has_brackets(new):
            return rope
        opens, closes = self.marks(new)
        return [opens, *rope, closes]

    def brackets(self, number: int) -> Brackets:
        """Returns the brackets of a pair of marks."""
        return self.kept.get(number) or self._grammar.brackets[self._grammar.sort(self.marked_nodes[number])]

    def marks(self, node: Term) -> tuple[Mark, Mark]:
        """Returns the places of a pair of brackets around a node."""
        number = len(self.marked_nodes)
        self.marked_nodes.append(node)
        return Mark(number, True), Mark(number, False)

    def bracketed(self, old: Term, new: Term, edits: Sequence[RopeEdit], there: Optional[tuple[int, int]]) -> list[RopeEdit]:
        """Returns edits with the places of brackets around an old node, in whose place a new one is. `there` is where it has some."""
        first, last = span(old)
        opens, closes = self.marks(new)
        begin, end = there or (first, last)
        if there is not None:
            text = self._layout.text
            self.kept[opens.number] = Brackets(text[begin:first], text[last:end], None)
        return [RopeEdit(begin, first, [opens]), *edits, RopeEdit(last, end, [closes])]

    # --- old text

    def copied(self, node: Term, edits: Sequence[RopeEdit]) -> Rope:
        """Returns the text of an old node with edits in it."""
        first, last = span(node)
        return [Copy(first, True), *self.spliced(first, last, edits, self._layout.indent(first)), Copy(last, False)]

    def run(self, chunk: Sequence[Term], whole_lines: bool, plain: bool) -> Rope:
        """Returns the text of elements that were neighbours, with what was between them; and their comments, where they have lines of their
        own."""
        origins = [it for it in map(self._layout.origin, chunk) if it is not None]
        edits: list[RopeEdit] = []
        for old, new in zip(origins, chunk):
            found = self.inside.slot(old, new, plain)
            if not found and not plain and self._grammar.has_brackets(new) and not whole_lines:
                found = self.bracketed(old, old, [], None)
            edits += found
        first, last = span(origins[0])[0], span(origins[-1])[1]
        indent = self._layout.indent(first)
        begin, end = (self._layout.leading(first), self._layout.trailing(last)) if whole_lines else (first, last)
        return [Copy(first, True), *self.spliced(begin, end, edits, indent), Copy(last, False)]

    def spliced(self, first: int, last: int, edits: Sequence[RopeEdit], indent: bytes) -> Rope:
        """Returns the text from one place to another with edits in it, whose comments know that they are some."""
        out: Rope = []
        for edit in edits:
            out += self._old(first, edit.first, indent)
            out += edit.rope
            first = edit.last
        return out + self._old(first, last, indent)

    # The old text from one place to another: comments are pieces, and so are atoms of several lines.
    def _old(self, first: int, last: int, indent: bytes) -> Rope:
        text = self._layout.text
        if first >= last:
            return []
        if b"\n" not in text[first:last] and not self._layout.comments_in(first, last):
            return [text[first:last]]
        out: Rope = []
        whole: list[tuple[int, int, Optional[Comment]]] = [(*it, None) for it in self._atoms(first, last)]
        whole += [(it.first, it.last, it) for it in self._layout.comments_in(first, last)]
        for begin, end, comment in sorted(whole, key=lambda it: it[:2]):
            out += lines(text[first:begin], indent)
            if comment is None:
                out.append(text[begin:end])
            else:
                out.append(Note(begin, tuple(lines(text[begin:end], indent)), comment.to_end))
            first = end
        return [*out, *lines(text[first:last], indent)]

    # Where the atoms of several lines are between two places.
    def _atoms(self, first: int, last: int) -> list[tuple[int, int]]:
        found: list[tuple[int, int]] = []
        text, at = self._layout.text, first
        while 0 <= (at := text.find(b"\n", at, last)):
            atom = next((it for it in self._layout.around(at) if it.head in self._grammar.atoms - self._grammar.indented), None)
            if atom is not None and first <= span(atom)[0] and span(atom)[1] <= last:
                found.append(span(atom))
                at = span(atom)[1]
            else:
                at += 1
        return found

    # --- new text

    def _fresh(self, new: Term, like: bytes) -> Rope:
        constructor = self._grammar.constructors.get(str(new.head)) if isinstance(new.head, str) else None
        if constructor is None or len(constructor.fields) != len(new.children):
            raise NoTerm(f"no constructor of {len(new.children)} terms: {cut(new)}")
        literal = self._dialect.literal(new, like, self._style)
        if literal is not None:
            return [*lines(literal, b"")] if new.head in self._grammar.indented else [literal]
        return self.template(constructor.parts, constructor, new)

    def template(self, parts: Sequence[Part], constructor: Constructor, new: Term) -> Rope:
        """Returns the text of parts of a template."""
        out: Rope = []
        values = dict(zip(constructor.fields, new.children))
        # the parts of an atom are one token, as those of a regular expression that ends with `\/`
        is_atom = new.head in self._grammar.atoms
        for at, it in enumerate(parts):
            rope: Rope = []
            if isinstance(it, Sign):
                before = parts[at - 1] if at else None
                after = parts[at + 1] if at + 1 < len(parts) else None
                rope = self._sign(it, self._is_empty(before, values), self._is_empty(after, values))
            elif isinstance(it, Group):
                if not self._grammar.is_absent(values[it.field]):
                    rope = self.template(it.parts, constructor, new)
                elif it.otherwise:
                    rope = [it.otherwise.encode()]
            else:
                rope = self.field(it, values[it.name])
            if is_atom:
                out += rope
            else:
                self._add(out, rope)
        return out

    def _is_empty(self, part: Optional[Part], values: dict[str, Term]) -> bool:
        return isinstance(part, Field) and part.kind == "list" and values[part.name] == Term(LIST)

    # A sign, without the lines around an empty list.
    def _sign(self, sign: Sign, after_empty: bool, before_empty: bool) -> Rope:
        if sign.may_miss and sign.text in self._style.without:
            return []
        text = sign.text.rstrip("\n\t ") if before_empty else sign.text
        return self._lines(text.lstrip("\n\t ") if after_empty else text)

    # A text of a template: a tabulator is a level of indentation.
    def _lines(self, text: str) -> Rope:
        out: Rope = []
        for at, line in enumerate(text.split("\n")):
            plain = line.lstrip("\t") if at else line
            if at:
                out.append(Break(self._style.unit * (len(line) - len(plain))))
            if plain:
                out.append(plain.encode())
        return out

    def _add(self, out: Rope, more: Sequence[Piece]) -> None:
        one, two = _edge(reversed(out)), _edge(more)
        if one and two and joined(one, two):
            out.append(b" ")
        out += more

    def field(self, field: Field, value: Term) -> Rope:
        """Returns the text of a field."""
        if field.kind == "list" and value.head == LIST:
            out = self.elements(field, value.children)
        elif self._grammar.is_node(value):
            out = self.element(value, field.plain)
        else:
            text = field.word(value)
            if text is None:
                raise NoTerm(f"no text for {cut(value)}")
            out = [text]
        return placed(out, self._style.unit * field.level) if field.level else out

    def elements(self, field: Field, values: Sequence[Term]) -> Rope:
        """Returns the text of a list. Neighbours that were neighbours keep what was between them."""
        out: Rope = []
        at = 0
        over_lines = "\n" in field.given[0] and not field.given[0].strip()
        while at < len(values):
            chunk = self._chunk(values, at)
            if at:
                apart = over_lines and (values[at - 1].head in self._grammar.apart or values[at].head in self._grammar.apart)
                out += self._lines(field.given[0] + "\n" * (apart and field.given[0].count("\n") < 2))
            own_lines = over_lines and self._layout.origin(chunk[0]) is not None
            more = self.run(chunk, own_lines, field.plain) if own_lines or len(chunk) > 1 else self.element(chunk[0], field.plain)
            if field.given[0] and not (out and isinstance(out[-1], Break)):
                self._add(out, more)
            else:
                out += more
            at += len(chunk)
        return out

    def _chunk(self, values: Sequence[Term], at: int) -> Sequence[Term]:
        origin = self._layout.origin(values[at])
        home = self._layout.homes.get(id(origin)) if origin is not None else None
        end = at + 1
        if home is None:
            return values[at:end]
        while end < len(values):
            following = self._layout.origin(values[end])
            if following is None or self._layout.homes.get(id(following)) != (home[0], home[1] + end - at):
                break
            end += 1
        return values[at:end]


# The first text of some pieces, where no line ends before it.
def _edge(pieces: Iterable[Piece]) -> bytes:
    first = next((it for it in pieces if isinstance(it, Break) or isinstance(it, bytes) and it), b"")
    return first if isinstance(first, bytes) else b""
