"""The refactorings of strategies/python-*.str on sources: each a strategy, a source, and what comes of it, or why it is refused."""

import tempfile

from stratbench import python, refactor
from stratbench.patch import patched

MODULES = "python lists terms names python-names python-imports python-conditions python-statements python-strings".split()

CASES = [
    # conditions
    ("bottomup(try(NegatedTest))", "if not a in b: pass\nx = not (a is not b)\nnot a < b\n", "if a not in b: pass\nx = a is b\nnot a < b\n"),
    ("bottomup(try(NegatedEquality))", "x = not a == b\ny = not a == b == c\n", "x = a != b\ny = not a == b == c\n"),
    ("bottomup(try(NegatedIf))", "if not a:\n    b\nelse:\n    c\nx = d if not a else e\nif not a:\n    b\n", "if a:\n    c\nelse:\n    b\nx = e if a else d\nif not a:\n    b\n"),
    ("bottomup(try(EmptyLength))", "x = len(a) == 0\nlen(*a) == 0\n", "x = not a\nlen(*a) == 0\n"),
    ("bottomup(try(TestedLength))", "if len(a.b) > 0: pass\nwhile len(c) != 0: pass\nx = len(a) > 0\n", "if a.b: pass\nwhile c: pass\nx = len(a) > 0\n"),
    ("dead-branches", "def f():\n    if True:  # always\n        a  # a\n        # more\n        b\n    elif c: d\n    while 0: e\n    return\n", "def f():\n    a  # a\n    # more\n    b\n    return\n"),
    ("dead-branches", "if 0:\n    x = 1\nelse:\n    y\nif '': a\n", "if 0:\n    x = 1\nelse:\n    y\n"),
    ("dead-branches", "def f():\n    if None: a\n", "def f():\n    pass\n"),
    ("dead-branches", "if a:\n    b\nelif True:\n    c\nelse:\n    d\n", "if a:\n    b\nelse:\n    c\n"),
    # statements
    ("bottomup(try(AugmentedNumber))", "x = x + 1  # more\ny = y ** 2.0\nx = x + y\na.b = a.b + 1\n", "x += 1  # more\ny **= 2.0\nx = x + y\na.b = a.b + 1\n"),
    ("bottomup(try(Augmented))", "x = x + [y,  z]\nx = y + x\n", "x += [y,  z]\nx = y + x\n"),
    ('prints-to-logger(|"log","debug")', "print('a')\nprint(a,  b) # c\nprint()\nprint(a, file=b)\nx = print(1)\n", "log.debug('a')\nlog.debug('%s %s', a,  b) # c\nlog.debug('')\nprint(a, file=b)\nx = print(1)\n"),
    ('prints-to-logger(|"log","debug")', "from m import print\nprint('a')\n", None),
    ("unused-imports", "import a, b.c, d as e\nfrom f import (\n    g,  # g\n    h as i,\n)\nimport j\nfrom __future__ import k\nfrom l import *\na; i\n", "import a\nfrom f import (\n    h as i,\n)\nfrom l import *\na; i\n"),
    ("unused-imports", "import a\nimport b  # b\nb\n", "import b  # b\nb\n"),
    ("unused-imports", "from a import b, c\n__all__ = ['b']\ndef f():\n    import d\n", "from a import b\n__all__ = ['b']\ndef f():\n    import d\n"),
    # imports
    ('add-import(|"re")', '"""doc"""\n\nimport os\n\nx\n', '"""doc"""\n\nimport os\nimport re\n\nx\n'),
    ('add-import(|"re")', '"""doc"""\nfrom __future__ import a  # a\n\nx\n', '"""doc"""\nfrom __future__ import a  # a\nimport re\n\nx\n'),
    ('add-import(|"re")', "#!/usr/bin/python\n# what\nx\n", "#!/usr/bin/python\n# what\nimport re\n\nx\n"),
    ('add-import(|"re")', "import os, re\nx\n", "import os, re\nx\n"),
    ('add-import-from(|"m","x")', "from m import (\n    y,  # y\n)\n", "from m import (\n    y,  # y\n    x,\n)\n"),
    # strings
    ("bottomup(try(FormatToFString))", 'x = "%s is %r" % (a, b.c)\ny = \'100%%: %a{}\' % (1,)\nz = "%d" % (a,)\nw = "%s" % a\n', 'x = f"{a} is {b.c!r}"\ny = f\'100%: {1!a}{{}}\'\nz = "%d" % (a,)\nw = "%s" % a\n'),
    ("bottomup(try(FormatToFString))", 'x = "a\\n\u00e9%s" % (b,)\n', 'x = f"a\\n\u00e9{b}"\n'),
    # names
    ('rename-function(|"f","g")', "def f(a, f=f):\n    return f(a)\n@f\ndef h():\n    def f(): pass\n    return f\nx = [f for f in f]\ny = [f(a) for a in f]\n__all__ = ['f', 'h']\n", "def g(a, f=g):\n    return f(a)\n@g\ndef h():\n    def f(): pass\n    return f\nx = [f for f in g]\ny = [g(a) for a in g]\n__all__ = ['g', 'h']\n"),
    ('rename-function(|"f","g")', "def f(): pass\ndef h():\n    global f\n    f = 1\nclass A:\n    f = f\n    def k(self, x=f): return f(self.f)\n", "def g(): pass\ndef h():\n    global g\n    g = 1\nclass A:\n    f = f\n    def k(self, x=f): return g(self.f)\n"),
    ('rename-function(|"f","g")', "def f(): pass\ng = 1\n", None),
    ('rename-function(|"f","g")', "def h(): pass\n", None),
    ('rename-imported(|"m","f","g")', "from m import f, h\nf(h.f)\n", "from m import g, h\ng(h.f)\n"),
    ('rename-imported(|"m","f","g")', "import m\nfrom m import f as k\nm.f(k, f=1)\n", "import m\nfrom m import g as k\nm.g(k, f=1)\n"),
    ('rename-imported(|"m","f","g")', "import n\nn.f()\n", None),
    ('rename-parameter(|"f","x","y")', "def f(a, x = 1, *, b):\n    def g(x): return x\n    return lambda: x\nf(1, x=2, b=x)\n", "def f(a, y = 1, *, b):\n    def g(x): return x\n    return lambda: y\nf(1, y=2, b=x)\n"),
    ('rename-parameter(|"f","x","y")', "def f(*x, **z): return x\n", "def f(*y, **z): return y\n"),
    ('rename-parameter(|"f","x","y")', "def f(x): return y\n", None),
    ('rename-self(|"me")', "class A:\n    def f(self, a): return self.a(lambda: self)\n    @staticmethod\n    def g(self): return self\n    def h(self):\n        class B:\n            def k(self): return self\n        return self\n    def i(self): me = 1\n", "class A:\n    def f(me, a): return me.a(lambda: me)\n    @staticmethod\n    def g(self): return self\n    def h(me):\n        class B:\n            def k(me): return me\n        return me\n    def i(self): me = 1\n"),
]

# What a scope binds and uses, of the first statement of a source.
NAMES = [
    ("bound-names", "def f(a, *b, c=d, **e):\n    g = h; import i.j, k as l\n    for m, [n] in o: pass\n    class p: q = 1\n    del r\n    with s as t: u: int\n    (v := w)\n", '["a","b","c","e","g","i","l","m","n","p","r","t","u","v"]'),
    ("used-names", "class A(B):\n    c = d\n    def e(self): return f\n    c += g\n", '["d","g"]'),
]  # fmt: skip


def tests(top, everything):
    modules = []
    for name in MODULES:
        with open(f"{top}/strategies/{name}.str", "rb") as it:
            modules.append((name, it.read()))
    task = refactor.Task(tuple(modules), "id")
    sources = [python.Source(source.encode()) for _, source, _ in CASES + NAMES]
    with tempfile.TemporaryDirectory() as room:
        bench = refactor._Bench(room, task)
        strategies = [it[0] for it in CASES] + [f"Module([{it[0]}],id)" for it in NAMES]
        results = bench.previews([it.term for it in sources], strategies)
    for (strategy, _, wanted), source, result in zip(CASES, sources, results):
        got = patched(source, refactor.exchange(source.term, result)).decode() if isinstance(result, dict) else None
        first = source.text.decode().split("\n")[0]
        yield f"{strategy} on `{first}`", "" if got == wanted else f"{got or result}\nwanted\n{wanted}"
    for (strategy, _, wanted), result in zip(NAMES, results[len(CASES) :]):
        got = repr(result[(0, 0)]) if isinstance(result, dict) else str(result)
        yield f"{strategy}", "" if got == wanted else f"{got}\nwanted\n{wanted}"
