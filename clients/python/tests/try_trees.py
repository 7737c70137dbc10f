"""Python's syntax trees and JSON as terms, and back."""

import ast
import glob
import os
import subprocess
import sys
import warnings

from stratbench import json, python
from stratbench.terms import NoTerm, read, write

SOURCES = [
    "x = 1_000, 0x1F, 2**70, 123456789012345678901234567890, 1.5, 1e400, 2j, 'a', b'\\xff', True, None, ..., u'u'\n",
    "x = '\\ud800\\x00\\n\u00e9', -1, - 2.0\n",
    "def f(a, /, b: int = 1, *c, d, e=2, **g) -> int:\n    'doc'\n    return (yield a)\n",
    "async def f():\n    async with a as b, c: await d\n    async for e in f: pass\n    return [x async for x in y if x if z]\n",
    "class A(B, metaclass=C):\n    @d\n    def f(self): global x; nonlocal_ = 1; del x\n",
    "try: a\nexcept (B, C) as e: raise D from e\nexcept: pass\nelse: b\nfinally: c\n",
    "from . import a as b\nfrom ..c import *\nimport d.e, f as g\n",
    "x[1:2, ::3, ...], {**a, 'b': c}, {d for e in f}, {g: h for i in j}, f(*k, l=m, **n)\n",
    "lambda a, *b, c=1: (d := a) if b else not c\nassert a < b is not c not in d, 'e'\nx: int = 1\ny: str\n",
    "f'{a!r:>{b}} {{}} {c=}' 'd'\nwhile a:\n    break\nelse:\n    continue_ = 1\n",
    "" if sys.version_info < (3, 10) else "match a:\n    case [1, *b] | {'c': d, **e} if f: pass\n    case A(1, x=None) as g: pass\n    case _: pass\n",
    "" if sys.version_info < (3, 11) else "try: a\nexcept* B: pass\n",
    "" if sys.version_info < (3, 12) else "type A[T: int, *U, **V] = B\ndef f[T](a: T) -> T: pass\nclass C[T]: pass\n",
]  # fmt: skip

# JSON, and the terms of it.
JSON = [
    ('{"a": 1, "a": [2.50, -0, 1e400]}', 'Object([Member("a",1),Member("a",[Number("2.50"),Number("-0"),Number("1e400")])])'),
    ('[true, false, null, "\\ud800\\u0000x"]', '[True,False,Null,"\\355\\240\\200\\000x"]'),
    ("[9223372036854775807, 9223372036854775808]", '[9223372036854775807,Number("9223372036854775808")]'),
    ("{}", "Object([])"),
    ('{"type": "A"}', 'Object([Member("type","A")])'),
]
TREES = [
    ('{"type": "A", "start": 1, "end": 2, "b": null}', "A(Null){(1,2)}"),
    ('{"type": "A", "start": 1, "b": []}', "A(1,[])"),
    ('[{"type": "A", "b": 1}, {"type": "A", "c": {"type": 3}}]', '[A(1,Absent),A(Absent,Object([Member("type",3)]))]'),
    ('{"type": "Object", "a": {"type": "no word"}}', 'Object([Member("type","Object"),Member("a",Object([Member("type","no word")]))])'),
    ('{"type": "A", "type": "A"}', 'Object([Member("type","A"),Member("type","A")])'),
]


def tests(top, everything):
    for text in SOURCES:
        with warnings.catch_warnings():
            warnings.simplefilter("ignore")
            source = python.Source(text.encode())
            back = python.from_term(read(write(source.term)))
            fault = "" if ast.dump(back) == ast.dump(ast.parse(text)) else ast.dump(back)
            again = ast.dump(ast.parse(python.unparse(source.term)))
        yield f"to a term and back: {text[:40]!r}", fault or ("" if again == ast.dump(ast.parse(text)) else again)
    yield "each position is that of the node's text", "\n".join(positions(python.Source("".join(SOURCES[:4]).encode())))
    with open(f"{top}/strategies/python.str") as it:
        yield "strategies/python.str is what the program writes", "" if it.read() == python.signature() else "it isn't"
    yield from other_versions(top)
    for text, wanted in JSON:
        got = json.read(text)
        yield f"JSON {text[:40]}", "" if write(got) == wanted and json.write(read(wanted)) == text else f"{got}, {json.write(got)}"
    for text, wanted in TREES:
        schema = json.schema_of(text)
        got = json.read_tree(text, schema)
        yield f"a tree in JSON {text[:40]}", "" if write(got) == wanted and json.write_tree(read(wanted), schema) == text else f"{got}"
    for text in ("[NaN]", "[1", "[" * 100_000, "{'a': 1}"):
        try:
            yield f"no JSON: {text[:10]}", str(json.read(text))
        except NoTerm:
            yield f"no JSON: {text[:10]}", ""


def positions(source):
    """Expressions whose text at their position isn't theirs."""
    for term in python.walk(source.term):
        place = python.position(term)
        if place and python.CONSTRUCTORS[term.head].sort == "expr" and term.head not in ("Starred", "Slice"):
            text = source.text[slice(*place)].decode()
            try:
                got = ast.dump(ast.parse(f"({text})", mode="eval").body)
            except SyntaxError:
                got = text
            if got.replace("Store()", "Load()").replace("Del()", "Load()") != ast.dump(python.from_term(term)).replace("Store()", "Load()").replace("Del()", "Load()"):
                yield f"{text!r} for {term!r:.80}"


def other_versions(top):
    """The signature is the same under the other versions of Python on this machine."""
    for program in sorted(glob.glob("/usr/bin/python3.[0-9]*[0-9]") + glob.glob(os.path.expanduser("~/.pyenv/versions/3.*/bin/python3"))):
        ran = subprocess.run([program, "-c", "import sys; print(sys.version_info >= (3, 9))"], capture_output=True, text=True)
        if ran.stdout != "True\n":
            continue
        environment = {**os.environ, "PYTHONPATH": f"{top}/clients/python", "PYTHONDONTWRITEBYTECODE": "1"}
        ran = subprocess.run([program, "-m", "stratbench.python"], env=environment, capture_output=True, text=True)
        yield f"{os.path.basename(os.path.dirname(os.path.dirname(program)))} writes the same signature", "" if ran.stdout == python.signature() else ran.stderr or "another"
