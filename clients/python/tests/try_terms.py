"""Texts of terms: what is read, what is printed, what is refused. The rows are those of docs/manual/term-text.md."""

from itertools import product

from stratbench.refactor.previewed import read_beside
from stratbench.terms import NoTerm, Term, height, items, read, size, string, write

PRINTED = [
    (r'  f ( "x\n\101" , -007 ) { a }', r'f("x\nA",-7){a}'),
    (r'"\000\377"', r'"\000\377"'),
    ("f ()", "f"),
    ("f{}", "f"),
    ("(a)", "(a)"),
    ("()", "()"),
    ("[ ]", "[]"),
    ("-0", "0"),
    ("f((1,2)){(1,2)}", "f((1,2)){(1,2)}"),
    ("a{(1,2)}", "a{(1,2)}"),
    ('"f"(x)', '"f"(x)'),
    ("[a,b{c,d{e}}]", "[a,b{c,d{e}}]"),
    ("9223372036854775807", "9223372036854775807"),
    ("-9223372036854775808", "-9223372036854775808"),
    ('"a\nb\u00e9\\t\\r\\"\\\\"', r'"a\nb\303\251\t\r\"\\"'),
    ("f.g'*+$-_", "f.g'*+$-_"),
]
REFUSED = [
    "", " ", "f(", "f(a,)", "f(a) b", "1.5", '"abc', "9223372036854775808", '"\\400"', '"\\x"', '"\\12"', "a{1}{2}", "a{(1,2)}{b}",
    "a{(1,2)}{(1,2)}", "f()()", "1(2)", "[](a)", "a,b", "f(a]", "{a}", "f(,a)", "f(a b)", "[1 2]", ")", "a{,}", "+1", "(a)(b)", "\u00e9",
]  # fmt: skip
# What is easily taken for another element, or for the end of one.
ELEMENTS = ["a", "ab", '"]"', r'"\\\",["', "f(a,[b])", "f(a,[b]){(1,2)}", "f(a,[b]){(1,23)}", 'a{"}",b}', "[]", "(1,2)"]


def beside():
    """A text that is read beside another one is the same term as alone, and has the other one's subterms around what differs."""
    lists = [",".join(it) for count in range(3) for it in product(ELEMENTS, repeat=count)]
    texts = [f'p("what stays before it",[g([{it}])],"what stays after it"){{(0,99)}}'.encode() for it in lists]
    terms = list(map(read, texts))
    for old_text, old in zip(texts, terms):
        for text, term in zip(texts, terms):
            new = read_beside(text, old_text, old)
            if new != term or write(new).encode() != text:
                return f"{old_text} {text}: {new}"
            if text != old_text and (new.children[0] is not old.children[0] or new.children[2] is not old.children[2]):
                return f"{old_text} {text}: all is read"
    return ""


def tests(top, everything):
    for text, wanted in PRINTED:
        got = write(read(text))
        yield f"{text!r} is printed", "" if got == wanted and write(read(got)) == got else got
    for text in REFUSED:
        try:
            yield f"{text!r} is refused", repr(read(text))
        except NoTerm:
            yield f"{text!r} is refused", ""
    every = Term(bytes(range(256)))
    yield "all bytes", "" if read(write(every)) == every and read(b'"' + b"\x80\xff" + b'"') == Term(b"\x80\xff") else "another string"
    yield "a word and a string differ", "" if Term("f") != string("f") and Term("f") != Term("f", (), (Term(1),)) else "they don't"
    yield "a list and a tuple differ", "" if read("[1]") != read("(1)") and items(Term(1)) == read("[1]") else "they don't"
    deep = read("f(" * 50_000 + "a" + ")" * 50_000)
    yield "50,000 levels", "" if write(deep).count("f") == height(deep) - 1 == size(deep) - 1 == 50_000 and deep == read(write(deep)) else "not"
    yield f"texts of {len(ELEMENTS)} elements beside one another", beside()
