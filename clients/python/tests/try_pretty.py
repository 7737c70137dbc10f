"""Trees over lines: random ones, the highest and the widest, against the rules of docs/manual/term-text.md. Each text is read back."""

import random
import sys

from stratbench import Stratbench
from stratbench.terms import LIST, TUPLE, Term, height, items, read, write

WIDTH = 100
WORDS = ["a", "f", "Plus", "Call", "a_rather_long_name-of-a*constructor", "x" * 90]
STRINGS = [b"", b"x", b'a "quoted" \\ name\n\t\r', b"a string of some length, with blanks in it", bytes(range(0, 256, 5)), b"y" * 95]


def lines(opening, terms, closing, column):
    return opening + ",".join("\n" + " " * column + wanted(it, column) for it in terms) + closing


def wanted(term, column=0):
    """Returns the text of a term that begins in this column."""
    text = write(term)
    if column + len(text) <= WIDTH:
        return text
    head, children, annotations = term
    if head in (LIST, TUPLE):
        begun = lines(head[0], children, head[1], column + 2)
    else:
        begun = write(Term(head)) + (lines("(", children, ")", column + 2) if children else "")
    return begun + (lines("{", annotations, "}", column + 2) if annotations else "")


def some_term(choose, most):
    """Returns a random term of at most so many levels."""
    head = choose.choice([LIST, LIST, TUPLE, choose.choice(WORDS), choose.choice(WORDS), choose.choice(STRINGS), choose.randrange(-(2**63), 2**63)])
    wide = choose.choice([0, 1, 2, 3, 3, 4, 12]) if most > 1 and not isinstance(head, int) else 0
    noted = choose.choice([0] * 9 + [1, 2, 3]) if most > 1 else 0
    return Term(head, *(tuple(some_term(choose, most - choose.randrange(1, 3)) for _ in range(count)) for count in (wide, noted)))


def deep(levels, around):
    term = Term(1)
    for _ in range(levels - 1):
        term = around(term)
    return term


EXTREMES = [
    ("lists, 1,000 levels", deep(1_000, lambda it: items(it))),
    ("applications, 1,000 levels", deep(1_000, lambda it: Term("Plus", (Term("x"), it, Term(b"a string"))))),
    ("annotations, 1,000 levels", deep(1_000, lambda it: Term("a", (), (it,)))),
    ("a list of 99,999", items(*map(Term, range(99_999)))),
    ("a list of 20,000 applications", items(*(Term("f", (Term("g", (Term(at),)), Term("b"))) for at in range(20_000)))),
    ("a string of 60,000", items(Term(b"x" * 60_000))),
]


def fault_of(bench, term):
    """Returns what is wrong with the text over lines of a term, or nothing."""
    bench.tree("t", term)
    text = bench.pretty("t")
    if text != wanted(term):
        return f"{term!r:.1000} is printed as\n{text:.3000}\nand not as\n{wanted(term):.3000}"
    if any(not it.startswith("  ") for it in text.split("\n")[1:]) or read(text) != term:
        return f"{text:.3000}"
    bench.tree("u", text)
    return "" if bench.term("u") == term else f"{text:.3000}\nis read as another term"


def tests(top, everything):
    sys.setrecursionlimit(20_000)
    count = 10_000 if everything else 1_000
    choose = random.Random(76)
    with Stratbench() as bench:
        faults = list(filter(None, (fault_of(bench, some_term(choose, 5)) for _ in range(count))))
        yield f"{count:,} random trees", "".join(faults[:3])
        for title, term in EXTREMES:
            yield title, fault_of(bench, term) if height(term) <= 1_000 else "it is too high"
        bench.tree("t", "[f({}),1]".format(",".join(["abcdefgh"] * 20)))
        yield "a subterm begins in the first column", "" if bench.pretty("t", "/0") == wanted(bench.term("t", "/0")) else bench.pretty("t", "/0")
