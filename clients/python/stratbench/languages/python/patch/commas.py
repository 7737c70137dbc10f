"""Lists with commas between their elements: arguments, parameters, entries, imports."""

from __future__ import annotations

from collections.abc import Sequence
from typing import Callable, NamedTuple, Tuple, Union

from ....patch.rope import RopeEdit, spelt
from ....patch.separated import Separated
from ....terms import LIST, Term, string
from ..source import position
from .edits import COMPREHENSIONS, DISPLAYS, NONE, PASS, Cannot, Edit, aligned, field_of, gaps, is_same, span
from .fresh import Fresh
from .tokens import BRACKETS
from .trees import Trees

# The text of an item, from the nodes that it is made of.
Texts = Callable[[Tuple[Term, ...]], str]


class Item(NamedTuple):
    """An element of a list with commas, which may be more than one node: where it is in the source, the nodes that it is made
    of, and how its text is made of theirs."""

    first: int
    last: int
    parts: tuple[Term, ...]


# The node by which an item is known: the first, or what is after `**`.
def key_of(parts: tuple[Term, ...]) -> Term:
    return parts[1] if len(parts) > 1 and parts[0].head == "None" else parts[0]


# Whether two parameter lists have as many parameters of each kind, and defaults of the same ones.
def same_shape(one: Term, two: Term) -> bool:
    return two.head == "arguments" and len(two.children) == len(one.children) and all(
        len(it.children) == len(other.children) and [x.head == "None" for x in it.children] == [x.head == "None" for x in other.children]
        if it.head == LIST and other.head == LIST
        else (it.head == "None") == (other.head == "None")
        for it, other in zip(one.children, two.children)
    )


# The parameters in the order of the text: the sign before each, its node, and its default. The signs `/` and `*` that stand
# alone are `/` and `bare`.
def flat_parameters(term: Term) -> list[tuple[str, Term, Union[Term, None]]]:
    if term.head != "arguments" or len(term.children) != 7:
        raise Cannot
    only, plain, star, keywords, keyword_defaults, stars, defaults = term.children
    found: list[tuple[str, Term, Union[Term, None]]] = []
    positional = [*only.children, *plain.children]
    without = len(positional) - len(defaults.children)
    for at, it in enumerate(positional):
        if at and at == len(only.children):
            found.append(("/", NONE, None))
        found.append(("", it, defaults.children[at - without] if at >= without else None))
    if only.children and not plain.children:
        found.append(("/", NONE, None))
    if star.head != "None":
        found.append(("*", star, None))
    elif keywords.children:
        found.append(("bare", NONE, None))
    for it, default in zip(keywords.children, keyword_defaults.children):
        found.append(("", it, None if default.head == "None" else default))
    if stars.head != "None":
        found.append(("**", stars, None))
    return found


class Commas:
    """The edits of such lists, in which elements come, go and change. Given are those where a node comes in the place of another in a third, and
    those of the fields of one."""

    child: Callable[[Term, Term, Term], list[Edit]]
    fields: Callable[[Term, Term], list[Edit]]

    def __init__(self, trees: Trees, fresh: Fresh) -> None:
        self._trees, self._fresh = trees, fresh

    def around(self, inside: tuple[int, int], term: Term) -> tuple[int, int]:
        """The node with the brackets around it, inside these places."""
        tokens, found = self._trees.tokens, span(term)
        while tokens.are_around(*found):
            outer = tokens.last_before(found[0]).first, tokens.first_after(found[1]).last
            if outer[0] < inside[0] or outer[1] > inside[1]:
                break
            found = outer
        return found

    def item(self, inside: tuple[int, int], *parts: Term) -> Item:
        """The element that is made of these nodes."""
        known = [it for it in parts if position(it) is not None or it.head == "withitem"]
        if not known:
            raise Cannot
        spans = [self.around(inside, it) if it.head != "withitem" else self._with_span(it) for it in known]
        first, last = spans[0][0], spans[-1][1]
        if parts[0].head == "None":
            # `**x` in a dictionary
            first = self._trees.tokens.last_before(first).first
        return Item(first, last, parts)

    def _with_span(self, item: Term) -> tuple[int, int]:
        spans = [self.around(span(it), it) for it in item.children if it.head != "None"]
        if self._trees.tokens.are_around(*spans[0]):
            raise Cannot
        return spans[0][0], spans[-1][1]

    def items(
        self,
        owner: Term,
        inside: tuple[int, int],
        old: Sequence[Item],
        new: Sequence[tuple[Term, ...]],
        text: Texts | None = None,
    ) -> list[Edit]:
        """The edits for a list with commas in this new node. `inside` are the places between its brackets."""
        if any(one.last > two.first for one, two in zip(old, old[1:])):
            raise Cannot
        # that of an item of one node
        text = text or (lambda parts: self._fresh.text(parts[0], self._trees.frame(inside[0])))
        keys = {id(key_of(it.parts)): at for at, it in enumerate(old)}
        kept = [keys.get(id(self._trees.origin(key_of(parts)))) for parts in new]
        for other, at in enumerate(kept):
            if at is not None and [it.head == "None" for it in new[other]] != [it.head == "None" for it in old[at].parts]:
                kept[other] = None
        # at one place, what comes before an element stands first, and what comes after it last
        front: list[Edit] = []
        edits: list[Edit] = []
        pairs = aligned(kept)
        there = Separated(self._trees, [(it.first, it.last) for it in old], *inside, ", ")
        for one, two in pairs:
            for before, after in zip(old[one].parts, new[two]):
                if not is_same(before, after):
                    edits += self.child(owner, before, after)
        for goes, comes in gaps(pairs, len(old), len(new)):
            texts = [text(new[it]).encode() for it in comes]
            edits += [Edit(old[at].first, old[at].last, it) for at, it in zip(goes, texts)]
            more = texts[len(goes) :]
            if len(goes) > len(texts):
                made = there.gone(goes[len(texts)], goes[-1])
            elif more and old:
                made = there.come(goes.stop - 1, [[it] for it in more])
            else:
                made = [RopeEdit(inside[0], inside[0], [b", ".join(more)])] if more else []
            (edits if goes.stop or not old else front).extend(Edit(it.first, it.last, spelt(it.rope, self._trees.newline)) for it in made)
        return front + edits

    def display(self, old: Term, new: Term) -> list[Edit]:
        """The edits that make a list, a tuple or a set another of these, with its elements, or a comprehension another."""
        if old.head in COMPREHENSIONS:
            return self._comprehension(old, new)
        before, after = old.children[0].children, new.children[0].children
        first, last = span(old)
        inside = self._trees.inside_of(old)
        if (new.head == "Set" and not after) or (new.head == "Tuple" and len(after) == 1 != len(before)):
            raise Cannot
        elements = [self.item(inside, it) for it in before]
        opens, closes = DISPLAYS[str(new.head)]
        items = self.items(new, inside, elements, [(it,) for it in after])
        is_bare = new.head == "Tuple" and len(after) == 1 and self._trees.tokens.first_after(elements[0].last).text != ","
        comma = [Edit(elements[0].last, elements[0].last, b",")] if is_bare else []
        return [Edit(first, inside[0], opens), *items, *comma, Edit(inside[1], last, closes)]

    # The same of comprehensions.
    def _comprehension(self, old: Term, new: Term) -> list[Edit]:
        first, last = span(old)
        opens, closes = COMPREHENSIONS[str(new.head)]
        edits = self.fields(old, Term(old.head, new.children))
        return [Edit(first, first + 1, opens), *edits, Edit(last - 1, last, closes)]

    def call(self, old: Term, new: Term) -> list[Edit] | None:
        """The arguments of a call, where they are others than before in number or kind."""
        function, arguments, keywords = old.children
        if len(new.children) != 3 or new.children[1].head != LIST or new.children[2].head != LIST:
            raise Cannot
        lengths = [(len(it.children), len(other.children)) for it, other in zip(old.children[1:], new.children[1:])]
        if all(one == two for one, two in lengths):
            return None
        last = span(old)[1]
        inside = (self._trees.tokens.first_after(self.around(span(old), function)[1]).last, last - 1)
        before = [*arguments.children, *keywords.children]
        if any(it.head == "GeneratorExp" and span(it)[1] == last for it in before):
            raise Cannot
        edits = self.child(new, function, new.children[0]) if function is not new.children[0] else []
        after = [(it,) for it in (*new.children[1].children, *new.children[2].children)]
        return edits + self.items(new, inside, [self.item(inside, it) for it in before], after)

    def bases(self, old: Term, new: Term) -> list[Edit]:
        """The bases and the keywords of a class."""
        before = [*field_of(old, "bases").children, *field_of(old, "keywords").children]
        after = [*field_of(new, "bases").children, *field_of(new, "keywords").children]
        if len(before) == len(after) and all(one is two for one, two in zip(before, after)):
            return []
        if field_of(old, "type_params").children:
            raise Cannot
        at = self._trees.tokens.after(span(old)[0]) + 2
        if self._trees.tokens.text_at(at) != "(":
            name = self._trees.tokens.tokens[at - 1]
            texts = [self._fresh.text(it, self._trees.frame(name.first)).encode() for it in after]
            return [Edit(name.last, name.last, b"(" + b", ".join(texts) + b")")]
        inside = (self._trees.tokens.tokens[at].last, self._trees.tokens.closing(at).first)
        elements = [self.item(inside, it) for it in before]
        return self.items(new, inside, elements, [(it,) for it in after])

    def dictionary(self, old: Term, new: Term) -> list[Edit]:
        """The entries of a dictionary, where they are more or fewer than before."""
        first, last = span(old)
        inside = (first + 1, last - 1)
        keys, values = (it.children for it in old.children)
        if len(new.children[0].children) != len(new.children[1].children):
            raise Cannot
        before = [self.item(inside, *pair) for pair in zip(keys, values)]
        after = list(zip(new.children[0].children, new.children[1].children))

        def text(parts: tuple[Term, ...]) -> str:
            key, value = (self._fresh.text(it, self._trees.frame(first)) if it.head != "None" else "" for it in parts)
            return f"{key}: {value}" if key else f"**{value}"

        return self.items(new, inside, before, after, text)

    def parameters(self, old: Term, one: Term, two: Term) -> list[Edit]:
        """The parameters of a function."""
        if same_shape(one, two):
            return self.fields(one, two)
        inside = self._parameter_places(old)
        indent = self._trees.frame(inside[0])
        before, after = flat_parameters(one), flat_parameters(two)
        alone = any(sign in ("/", "bare") for sign, _, _ in [*before, *after])
        if old.head == "Lambda" or alone:
            return [Edit(*inside, self._parameter_list(old.head == "Lambda", two, indent))]
        elements = []
        for sign, name, default in before:
            item = self.item(inside, *([name] if default is None else [name, default]))
            if sign:
                item = item._replace(first=self._trees.tokens.last_before(item.first).first)
            elements.append(item)
        news = [(name,) if default is None else (name, default) for _, name, default in after]
        marks = {id(parts[0]): sign for (sign, _, _), parts in zip(after, news)}
        for item, (sign, name, default) in zip(elements, before):
            marks.setdefault(id(name), sign)

        def text(parts: tuple[Term, ...]) -> str:
            equals = " = " if parts[0].children[1].head != "None" else "="
            default = equals + self._fresh.text(parts[1], indent) if len(parts) > 1 else ""
            return marks.get(id(parts[0]), "") + self._fresh.text(parts[0], indent) + default

        # a parameter that changes its kind is no longer itself
        for parts, (sign, name, _) in zip(news, after):
            origin = self._trees.origin(name)
            if origin is not None and marks.get(id(origin)) != sign:
                return [Edit(*inside, self._parameter_list(False, two, indent))]
        return self.items(two, inside, elements, news, text)

    # Where the parameters of a function are: between its brackets, or before the colon of a lambda.
    def _parameter_places(self, function: Term) -> tuple[int, int]:
        tokens = self._trees.tokens
        at = tokens.after(span(function)[0])
        if function.head == "Lambda":
            depth, end = 0, at + 1
            while depth or tokens.text_at(end) != ":":
                depth += BRACKETS.get(tokens.text_at(end), 0)
                end += 1
            return tokens.tokens[at].last, tokens.tokens[end].first
        if field_of(function, "type_params").children:
            raise Cannot
        while tokens.text_at(at) != "(":
            at += 1
        return tokens.tokens[at].last, tokens.closing(at).first

    def _parameter_list(self, is_lambda: bool, new: Term, indent: bytes) -> bytes:
        if is_lambda:
            text = self._fresh.made(Term("Lambda", (new, Term("Constant", (Term("Ellipsis"), NONE)))), indent)
            return text[len("lambda") : text.rindex(":")].encode()
        empty = Term(LIST)
        made = self._fresh.statement(Term("FunctionDef", (string("f"), new, Term(LIST, (PASS,)), empty, NONE, NONE, empty)), indent)
        return made[made.index(b"(") + 1 : made.rindex(b"):")]
