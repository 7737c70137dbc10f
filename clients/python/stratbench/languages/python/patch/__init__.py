"""Small patches of Python's sources.

A node that has the position of an old one, and is the same or of the same constructor, has that one's text, but for what differs inside.
All other nodes get their text from `ast.unparse`, with the texts of the old ones in it in their places.
"""

from __future__ import annotations

from ....patch.edits import Patch
from ....terms import NoTerm, Term
from ..source import Source, deep, from_term, parse, to_term
from .edits import Cannot, Unwritable, apply_edits, same_tree
from .patcher import Patcher


def patch_of(source: Source, new: Term) -> Patch:
    """Returns the edits that make the source spell the new tree, and the comments that aren't in the text after them. Each of the others is
    there once. Raises `NoTerm` and `Unwritable`."""
    with deep():
        patcher = Patcher(source, new)
        trees = patcher.trees
        if trees.new.head != "Module":
            raise NoTerm("the tree is no Module")
        if trees.new is trees.old:
            return Patch([], [])
        try:
            from_term(trees.new)
        except NoTerm as error:
            raise NoTerm(f"line {source.lines.number(error.place[0])}: {error}" if error.place else str(error)) from None
        why = ""
        for plain in (False, True):
            trees.plain = plain
            try:
                found = patcher.patch()
                text = apply_edits(source.text, 0, len(source.text), found.edits)
                if same_tree(to_term(parse(text.decode())), trees.new):
                    return found
            except (Cannot, NoTerm):
                pass
            except SyntaxError as error:
                line = (error.text or "").strip()
                why = why or f"line {error.lineno} of the new text: {error.msg}{line and ': '}{line}"
        raise Unwritable(why or "no text spells the new tree")
