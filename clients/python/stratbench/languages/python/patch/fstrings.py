"""F-strings: only the fields and the texts between them that differ are changed.

Python before 3.12 gives wrong positions inside f-strings, so fields are looked for in the source, and each has to spell the
node that it should.
"""

from __future__ import annotations

import re
from collections.abc import Callable, Iterator, Sequence
from typing import NamedTuple

from ..source import Source, parse, to_term, unparse
from ....terms import LIST, NoTerm, Term, put, subterms
from .edits import Cannot, Edit, apply_edits, same_tree, span
from .fresh import Fresh
from .trees import Trees

_LITERAL = re.compile(rb"""([A-Za-z]*)('''|\"""|'|")""")
_BETWEEN = re.compile(rb"(?:[ \t\f\r\n]|\\\r?\n|#[^\r\n]*)*")
_PAIR = re.compile(rb"\\(?:\r\n|.)", re.DOTALL)


class Field(NamedTuple):
    """What is between two braces: where it is with them, the quote of its string, its expression, where the text of `{x=}` ends,
    and its format."""

    first: int
    last: int
    quote: bytes
    value: tuple[int, int]
    shown: int | None
    form: Literal | None


class Literal(NamedTuple):
    """A literal of a string, or the format of a field: where it is without its quotes, and its fields."""

    first: int
    last: int
    quote: bytes
    is_raw: bool
    is_f: bool
    fields: list[Field]


# A text between two fields, or an end: the literal that it is in, and its places.
Stretch = tuple[Literal, int, int]


class Reader:
    """Reads the literals of a string."""

    def __init__(self, text: bytes, last: int) -> None:
        self.text, self.last = text, last

    def literals(self, at: int) -> Iterator[Literal]:
        while at < self.last:
            found = _LITERAL.match(self.text, at)
            if found is None:
                raise Cannot
            literal = self._literal(found.end(), found[1].lower(), found[2])
            yield literal
            between = _BETWEEN.match(self.text, literal.last + len(literal.quote))
            at = between.end() if between else self.last

    def _literal(self, first: int, prefix: bytes, quote: bytes) -> Literal:
        fields: list[Field] = []
        is_raw, is_f, at = b"r" in prefix, b"f" in prefix, first
        while not self.text.startswith(quote, at):
            at = self._next(at, is_raw, is_f, quote, fields)
        return Literal(first, at, quote, is_raw, is_f, fields)

    # The place after a character, an escape, or a field.
    def _next(self, at: int, is_raw: bool, is_f: bool, quote: bytes, fields: list[Field]) -> int:
        if at >= self.last:
            raise Cannot
        sign = self.text[at : at + 1]
        if sign == b"\\":
            if is_f and not is_raw and self.text.startswith(b"N{", at + 1):
                return self.text.index(b"}", at) + 1
            if is_f and self.text[at + 1 : at + 2] in (b"{", b"}"):
                return at + 1
            pair = _PAIR.match(self.text, at)
            return pair.end() if pair else at + 1
        if not is_f or sign not in (b"{", b"}"):
            return at + 1
        if self.text[at + 1 : at + 2] == sign:
            return at + 2
        if sign == b"}":
            raise Cannot
        fields.append(self._field(at, is_raw, quote))
        return fields[-1].last

    def _field(self, first: int, is_raw: bool, quote: bytes) -> Field:
        at = end = self._expression(first + 1)
        shown = None
        if self.text[at : at + 1] == b"=":
            at = shown = len(self.text) - len(self.text[at + 1 :].lstrip(b" \t\f\r\n"))
        if self.text[at : at + 1] == b"!":
            at += 2
        form = None
        if self.text[at : at + 1] == b":":
            begin, fields = at + 1, list[Field]()
            at = begin
            while self.text[at : at + 1] != b"}":
                if self.text.startswith(quote, at):
                    raise Cannot
                if self.text[at : at + 1] == b"{":
                    fields.append(self._field(at, is_raw, quote))
                    at = fields[-1].last
                else:
                    at = self._next(at, is_raw, False, quote, fields)
            form = Literal(begin, at, quote, is_raw, True, fields)
        if self.text[at : at + 1] != b"}":
            raise Cannot
        return Field(first, at + 1, quote, (first + 1, end), shown, form)

    # Where the expression that begins at a place ends: before `}`, `:`, `!` or the `=` of `{x=}`.
    def _expression(self, at: int) -> int:
        depth, text = 0, self.text
        while at < self.last:
            sign = text[at : at + 1]
            if sign in (b"'", b'"'):
                at = self._skipped(at)
                continue
            if sign == b"#":
                at = len(text) - len(re.sub(rb"\A[^\r\n]*", b"", text[at:]))
                continue
            if depth == 0 and (sign in (b"}", b":") or (sign == b"!" and text[at + 1 : at + 2] != b"=")):
                return at
            if depth == 0 and sign == b"=" and text[at - 1 : at] not in (b"=", b"!", b"<", b">"):
                if re.compile(rb"=[ \t\f\r\n]*(?:[:}]|!(?!=))").match(text, at):
                    return at
            depth += {b"(": 1, b"[": 1, b"{": 1, b")": -1, b"]": -1, b"}": -1}.get(sign, 0)
            at += 1
        raise Cannot

    # The place after a string in an expression.
    def _skipped(self, at: int) -> int:
        begin = at
        while self.text[begin - 1 : begin].isalpha():
            begin -= 1
        found = _LITERAL.match(self.text, begin)
        if found is None:
            raise Cannot
        literal = self._literal(found.end(), found[1].lower(), found[2])
        return literal.last + len(literal.quote)


class Joined:
    """The edits of an f-string by those of its fields. `expression` makes those of an expression in a source of its own, which begins at a
    place of the whole."""

    def __init__(self, trees: Trees, fresh: Fresh, expression: Callable[[Source, Term, int], list[Edit]]) -> None:
        self._trees, self._fresh, self._expression = trees, fresh, expression

    def edits(self, old: Term, new: Term) -> list[Edit]:
        """The edits that make an f-string another."""
        first, last = span(old)
        literals = list(Reader(self._trees.text, last).literals(first))
        for made_anew in (False, True):
            try:
                edits = self._strings(literals, old, new, made_anew)
                text = apply_edits(self._trees.text, first, last, edits).decode()
                if same_tree(to_term(parse(f"({text})")).children[0].children[0].children[0], new):
                    return edits
            except (Cannot, NoTerm, SyntaxError):
                pass
        raise Cannot

    # The edits of literals that are one string.
    def _strings(self, literals: Sequence[Literal], old: Term, new: Term, made_anew: bool) -> list[Edit]:
        texts, values = _parts(old)
        new_texts, new_values = _parts(new)
        fields = [it for literal in literals for it in literal.fields]
        if len(fields) != len(values):
            raise Cannot
        begin, end = 0, 0
        if len(values) != len(new_values):
            # fields come or go between those that stay
            least = min(len(values), len(new_values))
            while begin < least and texts[begin] == new_texts[begin] and same_tree(values[begin], new_values[begin]):
                begin += 1
            while end < least - begin and texts[-1 - end] == new_texts[-1 - end] and same_tree(values[-1 - end], new_values[-1 - end]):
                end += 1
            parts = _joined_parts(new_texts[begin : len(new_texts) - end], new_values[begin : len(new_values) - end])
            return [self._stretched(literals, fields, begin, len(values) - end, parts)]
        edits: list[Edit] = []
        for at, text in enumerate(new_texts):
            if text != texts[at]:
                if at < len(fields) and fields[at].shown is not None:
                    raise Cannot
                edits.append(self._restated(list(_stretches(literals, fields, at, at)), text))
        for field, one, two in zip(fields, values, new_values):
            if not same_tree(one, two):
                edits += self._formatted(field, one, two, made_anew)
        return edits

    # The edit that puts other parts from the text before one field to that before another.
    def _stretched(self, literals: Sequence[Literal], fields: Sequence[Field], first: int, last: int, parts: list[Term]) -> Edit:
        found = list(_stretches(literals, fields, first, last))
        if len(found) != 1 or any(it.shown is not None for it in fields[first : last + 1]):
            raise Cannot
        literal, begin, end = found[0]
        return Edit(begin, end, _body(Term("JoinedStr", (Term(LIST, tuple(parts)),)), literal.quote))

    # The edit of a text, in the one literal in which it differs.
    def _restated(self, stretches: list[Stretch], new: str) -> Edit:
        texts = [self._said(*it) for it in stretches]
        old = "".join(texts)
        begin = next((at for at, (one, two) in enumerate(zip(old, new)) if one != two), min(len(old), len(new)))
        ends = next((at for at, (one, two) in enumerate(zip(old[begin:][::-1], new[begin:][::-1])) if one != two), min(len(old), len(new)) - begin)
        at = 0
        for (literal, first, last), text in zip(stretches, texts):
            if at <= begin and len(old) - ends <= at + len(text):
                own = text[: begin - at] + new[begin : len(new) - ends] + text[len(old) - ends - at :]
                if self._trees.text[first:last] == text.encode():
                    first, own = first + len(text[: begin - at].encode()), new[begin : len(new) - ends]
                    last -= len(text[len(old) - ends - at :].encode())
                return Edit(first, last, self._spelt(literal, own))
            at += len(text)
        raise Cannot

    # What the text between two fields says.
    def _said(self, literal: Literal, first: int, last: int) -> str:
        prefix = ("f" if literal.is_f else "") + ("r" if literal.is_raw else "")
        quote = literal.quote.decode()
        found = to_term(parse(f"{prefix}{quote}{self._trees.text[first:last].decode()}{quote}")).children[0].children[0].children[0]
        texts, values = _parts(found) if found.head == "JoinedStr" else ([found.children[0].text], [])
        if values:
            raise Cannot
        return texts[0]

    # The source of a text in a literal.
    def _spelt(self, literal: Literal, text: str) -> bytes:
        if not literal.is_raw:
            text = "".join(it if it == "'" or it == '"' else repr(it)[1:-1] for it in text)
            text = text.replace("\\n", "\n") if len(literal.quote) == 3 else text
            text = text.replace(literal.quote.decode(), "\\" + literal.quote.decode())
        text = text.replace("{", "{{").replace("}", "}}") if literal.is_f else text
        return self._fresh.fitting(f"'{text}'")[1:-1].encode()

    # The edits of a field.
    def _formatted(self, field: Field, old: Term, new: Term, made_anew: bool) -> list[Edit]:
        value, conversion, form = old.children
        new_value, new_conversion, new_form = new.children
        first, last = field.value
        if conversion != new_conversion or (form.head == "None") != (new_form.head == "None") or (field.shown and not same_tree(value, new_value)):
            shown = self._trees.text[first : field.shown].replace(b"{", b"{{").replace(b"}", b"}}") if field.shown else b""
            return [Edit(field.first, field.last, shown + _body(Term("JoinedStr", (Term(LIST, (new,)),)), field.quote))]
        edits: list[Edit] = []
        if not same_tree(value, new_value):
            text = self._trees.text[first:last]
            source = Source(b"(" + text + b")")
            [statement] = source.term.children[0].children
            if not same_tree(statement.children[0], value):
                raise Cannot
            changed = [] if made_anew else self._expression(source, put(source.term, [0, 0, 0], _placed(new_value, statement.children[0])), first - 1)
            if field.quote not in text and any(field.quote in it.text for it in changed):
                raise Cannot
            if not changed or changed[0].first < 1 or changed[-1].last > 1 + len(text):
                own = _body(Term("JoinedStr", (Term(LIST, (Term("FormattedValue", (new_value, Term(-1), Term("None"))),)),)), field.quote)
                changed = [Edit(1, 1 + len(text), own[1:-1])]
            edits += [Edit(it.first + first - 1, it.last + first - 1, it.text) for it in changed]
        if field.form is not None and not same_tree(form, new_form):
            edits += self._strings([field.form], form, new_form, made_anew)
        return edits


# The texts before, between and after the fields of a string, and the fields.
def _parts(term: Term) -> tuple[list[str], list[Term]]:
    texts, values = [""], list[Term]()
    for it in term.children[0].children:
        if it.head == "FormattedValue":
            values.append(it)
            texts.append("")
        elif it.head == "Constant" and isinstance(it.children[0].head, bytes):
            texts[-1] += it.children[0].head.decode(errors="surrogatepass")
        else:
            raise Cannot
    return texts, values


def _joined_parts(texts: Sequence[str], values: Sequence[Term]) -> list[Term]:
    found: list[Term] = []
    for at, text in enumerate(texts):
        if text:
            found.append(Term("Constant", (Term(text.encode(errors="surrogatepass")), Term("None"))))
        found += values[at : at + 1]
    return found


# The texts from after the field before one to before another.
def _stretches(literals: Sequence[Literal], fields: Sequence[Field], first: int, last: int) -> Iterator[Stretch]:
    begin = fields[first - 1].last if first else 0
    end = fields[last].first if last < len(fields) else literals[-1].last
    for it in literals:
        if begin <= it.last and end >= it.first:
            yield it, max(begin, it.first), min(end, it.last)


# An f-string made anew, without its quotes, for others: with other quotes inside where those are the same.
def _body(term: Term, quote: bytes) -> bytes:
    found = re.fullmatch(r"""f('''|\"""|'|")(.*)\1""", unparse(term), re.DOTALL)
    if found is None:
        raise Cannot
    text = found[2]
    if len(quote) == 1 and quote.decode() in text:
        text = text.translate({ord("'"): '"', ord('"'): "'"})
    return text.encode()


# The new node with the places of the old one, in which nodes have places, as far as they are the same.
def _placed(new: Term, old: Term) -> Term:
    if same_tree(new, old):
        return old
    if type(new.head) is type(old.head) and new.head == old.head and len(new.children) == len(old.children):
        children = [_placed(one, two) for one, two in zip(new.children, old.children)]
        return Term(new.head, tuple(children), old.annotations)
    return _found(new, [it for it in subterms(old) if it.annotations])


# The new node with those of the old ones in it that are the same.
def _found(new: Term, old: Sequence[Term]) -> Term:
    same = next((it for it in old if same_tree(new, it)), None) if new.children else None
    return same or Term(new.head, tuple(_found(it, old) for it in new.children))
