"""What a strategy makes of a source: the traps of patching, each as a source, a strategy and the source that is wanted."""

import re
import tempfile

import layouts
import real_patches
from stratbench import python, refactor
from stratbench.diff import unified
from stratbench.patch import Unwritable, apply_edits, patch, patched
from stratbench.terms import NoTerm, Term, put, read

# Rules that the cases use.
RULES = rb"""module cases
rules
  Rename(|f,g) : Name(f,c) -> Name(g,c)
  Drop : [Expr(Call(Name("gone",_),_,_))|ss] -> ss
  Twice : [s@Expr(Call(Name("twice",_),_,_))|ss] -> [s,s|ss]
  Before : [s@Expr(Call(Name("late",_),_,_))|ss] -> [Expr(Call(Name("early",Load()),[],[])),s|ss]
  Compound : Expr(Call(Name("checked",_),[c],[])) -> If(c,[Expr(Call(Name("fail",Load()),[],[]))],[])
  NotEqual : UnaryOp(Not(),Compare(x,[Eq()],[y])) -> Compare(x,[NotEq()],[y])
  Unwrap : Call(Name("id",_),[x],[]) -> x
  Swap : Call(Name("swap",_),[x,y],[]) -> BinOp(y,Mult(),x)
  Unless : If(UnaryOp(Not(),c),a,b@[_|_]) -> If(c,b,a)
  Else : If(c,a,[]) -> If(c,a,[Expr(Name("other",Load()))])
  NoElse : If(c,a,[_|_]) -> If(c,a,[])
  Flat : If(Constant(True(),_),a,_) -> a
  Keywords : Call(f@Name("f",_),[a,b|xs],ks) -> Call(f,xs,[keyword("x",a),keyword("y",b)|ks])
  Last(|x) : Call(f@Name("f",_),xs,ks) -> Call(f,ys,ks) where <at-end(![x])> xs => ys
  Shorter : Call(f@Name("f",_),[a|xs],ks) -> Call(f,xs,ks)
  Typed : arg("x",None(),t) -> arg("x",Name("int",Load()),t)
  Untyped : arg(x,_,t) -> arg(x,None(),t)
  Returns : FunctionDef(f,a,b,d,None(),t,p) -> FunctionDef(f,a,b,d,Name("int",Load()),t,p)
  NoReturns : FunctionDef(f,a,b,d,r,t,p) -> FunctionDef(f,a,b,d,None(),t,p) where not(<?None()> r)
  Rotate : FunctionDef(f,a,b,[d|ds],r,t,p) -> FunctionDef(f,a,b,es,r,t,p) where <at-end(![d])> ds => es
  Bare : FunctionDef(f,a,b,[_|_],r,t,p) -> FunctionDef(f,a,b,[],r,t,p)
  Decorate : FunctionDef(f,a,b,[],r,t,p) -> FunctionDef(f,a,b,[Name("new",Load())],r,t,p)
  Extra : arguments(a,b,c,d,e,f,g) -> arguments(a,bs,c,d,e,f,g) where <at-end(![arg("extra",None(),None())])> b => bs
  Star : arguments(a,b,None(),d,e,f,g) -> arguments(a,b,arg("rest",None(),None()),d,e,f,g)
  Base : ClassDef(n,[],k,b,d,p) -> ClassDef(n,[Name("Base",Load())],k,b,d,p)
  Text : Constant("old",k) -> Constant("n\303\251w",k)
  Grow : Constant(1,k) -> Constant(100,k)
  Negative : Constant(1,k) -> Constant(-1,k)
  Sum : Constant(7,k) -> BinOp(Constant(3,None()),Add(),Constant(4,None()))
  Choice : Name("choice",c) -> IfExp(Name("a",c),Name("b",c),Name("d",c))
  Pair : Name("pair",c) -> Tuple([Name("a",c),Name("b",c)],c)
  Doc : FunctionDef(f,a,b,d,r,t,p) -> FunctionDef(f,a,[Expr(Constant("What it does.\n\nAnd how.\n",None()))|b],d,r,t,p)
  Second : Dict([k|ks],[v|vs]) -> Dict(ks,vs)
  Async : FunctionDef(f,a,b,d,r,t,p) -> AsyncFunctionDef(f,a,b,d,r,t,p)
  Handler : ExceptHandler(t,"e",b) -> ExceptHandler(t,"error",b)
  From : ImportFrom("old",xs,n) -> ImportFrom("new.one",xs,n)
  Less : Import([alias("gone",_)|xs]) -> Import(xs)
  Less : ImportFrom(m,[alias("gone",_)|xs],n) -> ImportFrom(m,xs,n)
  Flatter : Try(b,[ExceptHandler(e,None(),[Pass()])],[],[]) -> With([withitem(e,None())],b,None())
strategies
  lifted = ?[If(_,_,[_|_])|_]; [If(id,id,?es; ![])|?ss]; where(<conc-two(|ss)> es => others); [id|!others; lifted] <+ [id|lifted] <+ []
  body(s) = Module(s,id)
  at-end(s) = [id|at-end(s)] <+ []; s
  lists(s) = bottomup(try(repeat-here(s)))
  repeat-here(s) = s; try(repeat-here(s)) <+ [id|repeat-here(s)]
  once-each(s) = bottomup(try(here(s)))
  here(s) = s; [id|id] <+ [id|here(s)]
  ops(s) = topdown(try(s))
"""

EVERY = "topdown(try(%s))"
CASES = [
    # bytes and characters
    ("positions are of bytes", 'x = "\u00e4\u00f6\u00fc\U0001f600", old, "\u00e9"; y = old\n', EVERY % 'Rename(|"old","new")', 'x = "\u00e4\u00f6\u00fc\U0001f600", new, "\u00e9"; y = new\n'),
    ("a name in another script", "\u043e\u043b\u0434 = \u043e\u043b\u0434 + old\n", EVERY % 'Rename(|"old","new")', "\u043e\u043b\u0434 = \u043e\u043b\u0434 + new\n"),
    ("new text beyond ASCII", 'x = "old"  # \u00fc\n', EVERY % "Text", 'x = "n\u00e9w"  # \u00fc\n'),
    # brackets
    ("an expression's position leaves out its brackets", "x = ( old ) * (old)\n", EVERY % 'Rename(|"old","new")', "x = ( new ) * (new)\n"),
    ("brackets that are needed come", "x = 7 * 2\ny = 7 + 2\nz = 2 - 7\n", EVERY % "Sum", "x = (3 + 4) * 2\ny = 3 + 4 + 2\nz = 2 - (3 + 4)\n"),
    ("brackets that are there are enough", "x = (7) * 2\nf(7)\n", EVERY % "Sum", "x = (3 + 4) * 2\nf(3 + 4)\n"),
    ("a conditional expression", "x = choice + 1\ny = choice\nz = [choice, (choice)]\nchoice.real\n", EVERY % "Choice", "x = (b if a else d) + 1\ny = b if a else d\nz = [b if a else d, (b if a else d)]\n(b if a else d).real\n"),
    ("a tuple", "f(pair)\nx = pair\nfor i in pair: pass\n", EVERY % "Pair", "f((a, b))\nx = (a, b)\nfor i in (a, b): pass\n"),
    ("operands that are old keep their text", "x = swap(a+b,  c  .d )\ny = swap(1, lambda: 2)\n", EVERY % "Swap", "x = c  .d * (a+b)\ny = (lambda: 2) * 1\n"),
    ("an operand over lines", "x = id(a +\n       b)\ny = id('a'\n  'b').c\n", EVERY % "Unwrap", "x = (a +\n       b)\ny = ('a'\n  'b').c\n"),
    ("a generator", "x = id(y for y in z)\nf(id((y for y in z)))\n", EVERY % "Unwrap", "x = (y for y in z)\nf(y for y in z)\n"),
    ("a number before a dot", "id(1).real\nid(0x1F).real\n", EVERY % "Unwrap", "(1).real\n(0x1F).real\n"),
    ("a negative number", "x = 1 ** 2\n", EVERY % "Negative", "x = (-1) ** 2\n"),
    ("brackets that do nothing stay where a node stays", "old((w := x), (a), [(old)])\nf((w := x))\nx = swap((w := x), (a))\n", EVERY % '(Rename(|"old","new") <+ Last(|Name("z",Load())) <+ Swap)', "new((w := x), (a), [(new)])\nf((w := x), z)\nx = a * (w := x)\n"),
    ("a walrus", "if (n := 1) > 0: pass\n", EVERY % "Grow", "if (n := 100) > 0: pass\n"),
    ("a comparison", "if not (a ==\n        b): pass\nx = -(not a == b)\n", EVERY % "NotEqual", "if a != b: pass\nx = -(a != b)\n"),
    # names and operators
    ("the name of a function", "def  old (a): pass\nasync def old(): pass\nclass old: pass\n", EVERY % "((FunctionDef(?\"old\"; !\"new\",id,id,id,id,id,id) <+ AsyncFunctionDef(?\"old\"; !\"new\",id,id,id,id,id,id)) <+ ClassDef(?\"old\"; !\"new\",id,id,id,id,id))", "def  new (a): pass\nasync def new(): pass\nclass new: pass\n"),
    ("an attribute", "a . old . b\n(a.old)  # old\n", EVERY % 'Attribute(id,?"old"; !"new",id)', "a . new . b\n(a.new)  # old\n"),
    ("a keyword and a parameter", "def f(old : int=1, *, b): pass\nf( old = 1 )\n", EVERY % '(arg(?"old"; !"new",id,id) <+ keyword(?"old"; !"new",id))', "def f(new : int=1, *, b): pass\nf( new = 1 )\n"),
    ("global names", "def f():\n    global a, old,b\n", EVERY % '(?"old"; !"new")', "def f():\n    global a, new,b\n"),
    ("an exception's name", "try: pass\nexcept (A, B) as e :  # e\n    pass\n", EVERY % "Handler", "try: pass\nexcept (A, B) as error :  # e\n    pass\n"),
    ("a module's name", "from  old  import (a, # a\n  b)\nfrom .old import c\n", EVERY % "From", "from  new.one  import (a, # a\n  b)\nfrom .new.one import c\n"),
    ("operators", "x = a+b - (c)  +  d\nx  += 1\n", "ops(?Add(); !Mult())", "x = (a*b - (c))  *  d\nx  *= 1\n"),
    ("operators that are words", "x = a==b\ny = not a\nz = (a)or(b)\n", "ops((?Eq(); !IsNot()) <+ (?Or(); !And()) <+ (?Not(); !USub()))", "x = a is not b\ny = - a\nz = (a)and(b)\n"),
    ("an operator that binds tighter", "x = a + b or c + d\n", "ops(?Add(); !Pow())", "x = a ** b or c ** d\n"),
    ("two places within one line", "f(old, 1, old)  # old\n", EVERY % '(Rename(|"old","new") <+ Grow)', "f(new, 100, new)  # old\n"),
    # f-strings
    ("in an f-string the fields that differ change", 'x = f"{old} is {old!r:>{1}}"  # old\n', EVERY % 'Rename(|"old","new")', 'x = f"{new} is {new!r:>{1}}"  # old\n'),
    ("an f-string in single quotes", "x = f'{old}' + rf'\\d{old}'\n", EVERY % 'Rename(|"old","new")', "x = f'{new}' + rf'\\d{new}'\n"),
    ("an f-string over lines", 'x = f"""\n  {old}\n"""\ny = old\n', EVERY % 'Rename(|"old","new")', 'x = f"""\n  {new}\n"""\ny = new\n'),
    ("its other fields and literals stay", 'x = (f"{ a }\\n"  # one\n     "{old}"  # two\n     f\'\\N{BULLET}{f( a,  old )}\' rf"\\d{a:{old}}{{}}")\n', EVERY % 'Rename(|"old","new")', 'x = (f"{ a }\\n"  # one\n     "{old}"  # two\n     f\'\\N{BULLET}{f( a,  new )}\' rf"\\d{a:{new}}{{}}")\n'),
    ("a field that shows its text", 'x = f"{a=} {old=}"\ny = f"{old = !s:>3}"\n', EVERY % 'Rename(|"old","new")', 'x = f"{a=} old={new!r}"\ny = f"old = {new!s:>3}"\n'),
    ("expressions with signs of fields", "x = f'{a if old==b else c:>{old}} {(lambda x: old)} { {1: old}[1] } {old!=a}'\n", EVERY % 'Rename(|"old","new")', "x = f'{a if new==b else c:>{new}} {(lambda x: new)} { {1: new}[1] } {new!=a}'\n"),
    ("the quotes of an f-string stay", "x = f'{key} {a}', f\"{key}\"\n", EVERY % '\\ Name("key",c) -> Subscript(Name("d",c),Constant("k",None()),c) \\', "x = f'{d[\"k\"]} {a}', f\"{d['k']}\"\n"),
    ("what is in a field moves", 'x = f"{id(a .b)} is {id( [c ] )!r}"\n', EVERY % "Unwrap", 'x = f"{a .b} is {[c ]!r}"\n'),
    ("a text between fields", 'x = f"\\t{a}old{a}" "\\t"\ny = f"{a}" \'\\t\' "old"\n', EVERY % '(Constant(?"old"; !"\'{}\\n",id) <+ Constant(?"old\\t"; !"new\\t",id) <+ Constant(?"\\told"; !"\\tnew",id))', 'x = f"\\t{a}\'{{}}\\n{a}" "\\t"\ny = f"{a}" \'\\t\' "new"\n'),
    ("a field goes", 'x = f"{a!s} \\t {gone} {b}" "\\t"\n', EVERY % 'JoinedStr(rec x(\\ [FormattedValue(Name("gone",_),_,_)|xs] -> xs \\ <+ [id|x]))', 'x = f"{a!s} \\t  {b}" "\\t"\n'),
    ("a conversion", 'x = f"{ a } {old}"\n', EVERY % 'FormattedValue(?Name("old",_),!114,id)', 'x = f"{ a } {old!r}"\n'),
    ("an f-string in what is made anew", 'x = swap(f"{ a }" "b", c)\n', EVERY % "Swap", 'x = c * f"{ a }" "b"\n'),
    ("an f-string that stays", 'x = f"{a}", old\n', EVERY % 'Rename(|"old","new")', 'x = f"{a}", new\n'),
    # statements
    ("elif stays elif", "if a:\n    1\nelif old:  # why\n    2\nelse:\n    3\n", EVERY % 'Rename(|"old","new")', "if a:\n    1\nelif new:  # why\n    2\nelse:\n    3\n"),
    ("an elif is turned", "if a:\n    1\nelif not b:\n    2\nelse:\n    3\n", EVERY % "Unless", "if a:\n    1\nelif b:\n    3\nelse:\n    2\n"),
    ("an if before an elif is turned", "if not a:\n    1\nelif b:\n    2\nelse:\n    3\n", "Module(all(try(Unless)),id)", "if a:\n    if b:\n        2\n    else:\n        3\nelse:\n    1\n"),
    ("a new else", "def f():\n    if a: b  # b\n    # c\n    return\n", EVERY % "Else", "def f():\n    if a: b  # b\n    else:\n        other\n    # c\n    return\n"),
    ("an else goes", "if a:\n    b\nelse:  # else\n    c\nd\nif a:\n    b\nelif c:\n    d\n", EVERY % "NoElse", "if a:\n    b\nd\nif a:\n    b\n"),
    ("branches change places with their comments", "if not a:  # why\n    # b's\n    b  # b\n    c\nelse:\n    d  # d\n", EVERY % "Unless", "if a:  # why\n    d  # d\nelse:\n    # b's\n    b  # b\n    c\n"),
    ("of two lines one goes, the other is made anew", "import a  # a\nimport b  # b\n", "Module(\\ [_,Import(x)] -> [Import(x)] \\,id)", "import b  # b\n"),
    ("statements on one line", "a; gone(); b\ngone(); c\nd; gone()\n", "lists(Drop)", "a; b\nc\nd\n"),
    ("a whole line goes", "a\ngone()  # gone\n# stays\nb\n", "lists(Drop)", "a\n# stays\nb\n"),
    ("a body on the line of its if", "if a: gone(); b\nif a: gone()\n", "lists(Drop)", "if a: b\nif a: pass\n"),
    ("a statement that needs a line", "if a: b; checked(c); d\n", EVERY % "Compound", "if a:\n    b\n    if c:\n        fail()\n    d\n"),
    ("a list that becomes empty", "def f():\n    # why\n    gone()\nclass A:\n    gone()\nfor a in b:\n    c\nelse:\n    gone()\n", "lists(Drop)", "def f():\n    # why\n    pass\nclass A:\n    pass\nfor a in b:\n    c\n"),
    ("a try without its parts", "try:\n    gone()\nexcept A:\n    gone()\nelse:\n    gone()\nfinally:\n    gone()\n", "lists(Drop)", "try:\n    pass\nexcept A:\n    pass\n"),
    ("new statements on a line", "twice(); a\nif b: twice()\n", "once-each(Twice)", "twice(); twice(); a\nif b: twice(); twice()\n"),
    ("new statements between lines", "class A:\n\n    def f(self):\n        # soon\n        late()  # late\n", "once-each(Before)", "class A:\n\n    def f(self):\n        early()\n        # soon\n        late()  # late\n"),
    ("tabs", "if a:\n\tif b:\n\t\tchecked(c)\n\t\td\n", EVERY % "Compound", "if a:\n\tif b:\n\t\tif c:\n\t\t\tfail()\n\t\td\n"),
    ("two blanks", "if a:\n  checked(c)\n", EVERY % "Compound", "if a:\n  if c:\n    fail()\n"),
    ("continued lines", "x = old + \\\n    old\nassert old, \\\n  old\n", EVERY % 'Rename(|"old","new")', "x = new + \\\n    new\nassert new, \\\n  new\n"),
    ("statements move out with their comments, and strings over lines stay", 'def f():\n    if True:\n        # one\n        a = """x\n        y"""  # two\n\n        if b:\n            c\n    d\n', EVERY % "where(one(Flat)); flat-list".replace("flat-list", "(?[s|ss]; where(<Flat> s => a); <conc-two(|ss)> a)"), 'def f():\n    # one\n    a = """x\n        y"""  # two\n\n    if b:\n        c\n    d\n'),
    ("a statement that moves and changes at its end", "a\nif b:\n    c\n    gone()  # gone\n", "Module([id,If(id,\\ [c,_] -> [c] \\,id)]; \\ [x,y] -> [y,x] \\,id)", "if b:\n    c\na\n"),
    ("lines come inside and after", "if a:\n    late()\nlate()\n", "Module([If(id,\\ [x] -> [x,x] \\,id),id],id); Module(\\ [x,y] -> [y,x,x] \\,id)", "late()\nif a:\n    late()\n    late()\nif a:\n    late()\n    late()\n"),
    ("lines come inside and after, at the end", "if a:\n    b", "Module([If(id,\\ [x] -> [x,x] \\,id)],id); Module(\\ [x] -> [x,Pass()] \\,id)", "if a:\n    b\n    b\npass"),
    ("a docstring comes", "def f():\n    return 1\n", EVERY % "Doc", 'def f():\n    """What it does.\n\nAnd how.\n"""\n    return 1\n'),
    ("a docstring stays", 'def f():\n    """One\n    two."""\n    gone()\n', "lists(Drop)", 'def f():\n    """One\n    two."""\n'),
    ("a function becomes another form", "class A:\n    @a  # a\n    def f(self, x=1):  # f\n        # b\n        return x  # x\n", EVERY % "Async", "class A:\n    @a\n    async def f(self, x=1):\n        # b\n        return x  # x\n"),
    # comments
    ("an elif that is lifted", "def f():\n    if a:\n        1\n    # two\n    # lines\n    elif b:\n        2\n    # else\n    else:\n        3\n        # end\n    # after\n    4\n", EVERY % "lifted", "def f():\n    if a:\n        1\n    # two\n    # lines\n    if b:\n        2\n    # else\n    3\n    # end\n    # after\n    4\n"),
    ("comments at the end of a block are no elif's", "if a:\n    1\n    # end\nelif b:\n    2\n", "body(lifted)", "if a:\n    1\n    # end\nif b:\n    2\n"),
    ("neighbours that move together", "def f():\n    import a\n    # why\n    import b  # b\n    return a\n", "body(\\ [FunctionDef(f,a,[i,j|b],d,r,t,p)] -> [i,j,FunctionDef(f,a,b,d,r,t,p)] \\)", "import a\n# why\nimport b  # b\n\ndef f():\n    return a\n"),
    ("an elif that becomes a statement among others", "if a:\n    1\n# why\nelif b:\n    2\n    # end\n# after\nc\n", "body([If(id,id,\\ [x] -> [Pass(),x] \\)|id])", "if a:\n    1\nelse:\n    pass\n    # why\n    if b:\n        2\n        # end\n# after\nc\n"),
    ("comments at the end of blocks that change places", "if not a:\n    b\n    # b's end\nelse:\n    c\n\n    # c's end\nd\n", EVERY % "Unless", "if a:\n    c\n\n    # c's end\nelse:\n    b\n    # b's end\nd\n"),
    ("comments inside a statement that is kept", "try:\n    for x in y:\n        a()\n        # last\n    # end\nexcept E:\n    pass  # away\n# after\n", EVERY % "Flatter", "with E:\n    for x in y:\n        a()\n        # last\n    # end\n# after\n"),
    ("the last statement of what is made anew keeps its comment", "try:\n    a\nexcept E:\n    pass\nexcept F:\n    b  # b\n    # end\nc\n", EVERY % "Try(id,\\ [_,x] -> [x] \\,id,id)", "try:\n    a\nexcept F:\n    b  # b\n    # end\nc\n"),
    ("a semicolon and blanks at the end", "try: a()\nexcept E: pass; \nb\n", EVERY % "Flatter", "with E:\n    a()\nb\n"),
    ("a new else after a comment", "if a:\n    b\n    # end\nc\n", "body([Else|id])", "if a:\n    b\n    # end\nelse:\n    other\nc\n"),
    ("a new statement after a comment", "if a:\n    b\n    # end\n# c\nc\n", "body(\\ [x,y] -> [x,Pass(),y] \\)", "if a:\n    b\n    # end\npass\n# c\nc\n"),
    ("a comment in the first lines is about the file", "#!/usr/bin/python\n# what\na\nb\n", "body(\\ [x,y] -> [y,x] \\)", "#!/usr/bin/python\n# what\nb\na\n"),
    ("no comment but the end of a string", "x = \'\'\'\n# a\'\'\'\ngone()\nb\n", "body(\\ [x,y,z] -> [x,z,y] \\)", "x = \'\'\'\n# a\'\'\'\nb\ngone()\n"),
    ("comments between statements that another takes the place of", "a\n\n# part\n\nb\n\n# other\n\nc\n", "body(\\ [_,_,z] -> [Pass(),z] \\)", "pass\n\n# part\n\n# other\n\nc\n"),
    ("comments between statements that move to another block", "if a:\n    p\n\n    # q's\n\n    q\nelif b:\n    r\nelse:\n    s\n", "body([\\ If(a,x,[y]) -> If(a,[y],x) \\])", "if a:\n    if b:\n        r\n    else:\n        s\nelse:\n    p\n\n    # q's\n\n    q\n"),
    # blank lines
    ("moves in a block and of it", "class A:\n    def f(self): pass\n\n    def g(self): pass\n\n\nclass B: pass\n", "body([ClassDef(id,id,id,\\ [x,y] -> [y,x] \\,id,id),id]; \\ [x,y] -> [y,x] \\)", "class B: pass\n\n\nclass A:\n    def g(self): pass\n\n    def f(self): pass\n"),
    ("functions that move", "import a\n\n\n# f\ndef f():\n    pass\n\n\ndef g():\n    pass\n    # end\n\n\nx = 1\n", "body(\\ [a,b,c,d] -> [a,c,b,d] \\)", "import a\n\n\ndef g():\n    pass\n    # end\n\n\n# f\ndef f():\n    pass\n\n\nx = 1\n"),
    ("a method that takes another place", "class A:\n    x = 1\n\n    def f(self): pass\n\n    def g(self):\n        pass\n\n\ny\n", EVERY % "ClassDef(id,id,id,\\ [x,f,g] -> [g,f,x] \\,id,id)", "class A:\n    def g(self):\n        pass\n\n    def f(self): pass\n\n    x = 1\n\n\ny\n"),
    ("statements that go leave no blank lines", "a\n\ngone()\n\ngone()\n\nb\n\ngone()\n", "body(rec x([Expr(Call(Name(?\"gone\",id),id,id))|id]; \\ [_|ss] -> ss \\; x <+ [id|x] <+ []))", "a\n\nb\n"),
    ("a new function", "import a\n\ndef f(): pass\n\ndef g(): pass\n", "body([id,id|\\ ss -> [FunctionDef(\"h\",arguments([],[],None(),[],[],None(),[]),[Pass()],[],None(),None(),[])|ss] \\])", "import a\n\ndef f(): pass\n\ndef h():\n    pass\n\ndef g(): pass\n"),
    ("a new import next to the others", "\"\"\"doc\"\"\"\n\n# a\nimport a\n\nx\n", "body([id|\\ ss -> [Import([alias(\"z\",None())])|ss] \\])", "\"\"\"doc\"\"\"\n\nimport z\n# a\nimport a\n\nx\n"),
    ("a new import after a docstring", "\"\"\"doc\"\"\"\n\nx\n", "body([id|\\ ss -> [Import([alias(\"z\",None())])|ss] \\])", "\"\"\"doc\"\"\"\n\nimport z\n\nx\n"),
    # decorators
    ("decorators stand before the function", "class A:\n    @one  # 1\n    @two(a,\n         b)\n    def f(self): pass\n", EVERY % "Rotate", "class A:\n    @two(a,\n         b)\n    @one  # 1\n    def f(self): pass\n"),
    ("decorators with comments", "class A:\n    # f\n    @one  # 1\n    # two\n    @two  # 2\n    def f(): pass\n", EVERY % "Rotate", "class A:\n    # f\n    # two\n    @two  # 2\n    @one  # 1\n    def f(): pass\n"),
    ("decorators go", "@one\n# why\n@two\ndef f(): pass\n", EVERY % "Bare", "# why\ndef f(): pass\n"),
    ("a decorator comes", "class A:\n    # f\n    def f(self): pass\n", EVERY % "Decorate", "class A:\n    # f\n    @new\n    def f(self): pass\n"),
    ("a decorated statement goes and comes", "a\n@one\ndef f(): pass\nb\n", "Module(\\ [x,y,z] -> [y,x,z] \\,id)", "@one\ndef f(): pass\na\nb\n"),
    # lists with commas
    ("two keywords for two positions", "f( a,  # a\n   (b), z = 1, )\nf(1, 2)\n", EVERY % "Keywords", "f( x=a,  # a\n   y=b, z = 1, )\nf(x=1, y=2)\n"),
    ("an argument more", "f()\nf( )\nf(a)\nf(a, )\nf(a,\n  b=1)\n", EVERY % 'Last(|Name("z",Load()))', "f(z)\nf(z )\nf(a, z)\nf(a, z, )\nf(a,\n  z,\n  b=1)\n"),
    ("an argument less", "f(a)\nf(a, )\nf(a, b)\nf(a,  # a\n  b=1)\nf((a), *b)\n", EVERY % "Shorter", "f()\nf()\nf(b)\nf(b=1)\nf(*b)\n"),
    ("annotations", "def f(x, y: int = 2, *z: str): pass\n", EVERY % "(Typed <+ Untyped)", "def f(x: int, y = 2, *z): pass\n"),
    ("what a function returns", "def f( a ) : pass\ndef g()->  (int) :pass\n", "Module([Returns,NoReturns],id)", "def f( a )  -> int: pass\ndef g():pass\n"),
    ("a parameter more", "def f(): pass\ndef g(a, # a\n      b=1, *c): pass\nlambda: 1\n", EVERY % "Extra", "def f(extra): pass\ndef g(a, # a\n      b, extra=1, *c): pass\nlambda extra: 1\n"),
    ("a parameter more where it may be", "def f( ): pass\ndef g(a,  # a\n      b): pass\nlambda a: 1\n", EVERY % "Extra", "def f(extra ): pass\ndef g(a,  # a\n      b,\n      extra): pass\nlambda a, extra: 1\n"),
    ("a starred parameter", "def f(a, b = 1): pass\n", EVERY % "Star", "def f(a, b = 1, *rest): pass\n"),
    ("a base class", "class A : pass\nclass B():  # b\n    pass\n", EVERY % "Base", "class A(Base) : pass\nclass B(Base):  # b\n    pass\n"),
    ("an entry of a dictionary goes", "x = {\n    1: a,  # a\n    **b,\n    3: c,\n}\n", EVERY % "Second", "x = {\n    **b,\n    3: c,\n}\n"),
    ("an import goes", "import gone, a\nfrom b import (  # b\n    gone,\n    c,\n)\n", EVERY % "Less", "import a\nfrom b import (  # b\n    c,\n)\n"),
]


def cases(top):
    """Runs all strategies in one process of the workbench. Yields each case with the tree that it gives."""
    with open(f"{top}/strategies/python.str", "rb") as it:
        signature = it.read()
    rules = RULES + b"  conc-two(|ys) = [id|conc-two(|ys)] <+ []; !ys\n"
    task = refactor.Task((("python", signature), ("cases", rules)), "id")
    sources = [python.Source(source.encode()) for _, source, _, _ in CASES]
    with tempfile.TemporaryDirectory() as room:
        bench = refactor._Bench(room, task)
        results = bench.previews([it.term for it in sources], [it[2] for it in CASES])
    for (title, _, _, wanted), source, result in zip(CASES, sources, results):
        yield title, source, result, wanted


# Of files as bytes: the contents, and what is wanted of them, where `old` is renamed.
FILES = [
    ("a byte order mark", b"\xef\xbb\xbfx = old\n", b"\xef\xbb\xbfx = new\n"),
    ("CR LF", b"if a:\r\n    x = '''b\r\n'''; old\r\n", b"if a:\r\n    x = '''b\r\n'''; new\r\n"),
    ("CR LF, and a new line", b"if a:\r\n    late()\r\n", None),
    ("CR alone", b"a = 1\rx = old\r", b"a = 1\rx = new\r"),
    ("an encoding by the first line", "# -*- coding: latin-1 -*-\nx = '\u00e9'; old\n".encode("latin-1"), "# -*- coding: latin-1 -*-\nx = '\u00e9'; new\n".encode("latin-1")),
    ("no line end at the end", b"x = old", b"x = new"),
    ("form feeds", b"a\n\x0c\ndef f():\n    old\n", b"a\n\x0c\ndef f():\n    new\n"),
    ("a line separator that is none", "x = '\u2028\x0b'; old\n".encode(), "x = '\u2028\x0b'; new\n".encode()),
]


def renamed(term):
    children = tuple(renamed(it) for it in term.children)
    if term.head == "Name" and children[0].head == b"old":
        return Term("Name", (Term(b"new"), children[1]))
    return Term(term.head, children, term.annotations)


def files():
    for title, contents, wanted in FILES:
        source = python.Source(contents)
        if wanted is None:
            early = read('Expr(Call(Name("early",Load),[],[]))')
            body = source.term.children[0].children[0].children[1]
            new = put(source.term, [0, 0, 1], Term(body.head, (early, *body.children)))
            got, wanted = source.encoded(patched(source, new)), b"if a:\r\n    early()\r\n    late()\r\n"
        else:
            got = source.encoded(patched(source, renamed(source.term)))
        yield title, "" if got == wanted else f"{got!r}, wanted {wanted!r}"
    source = python.Source("# coding: latin-1\nold\n".encode())
    try:
        source.encoded(patched(source, put(source.term, [0, 0], read('Expr(Name("\\343\\201\\202",Load))'))))
        yield "a name that the encoding doesn't have", "it was written"
    except UnicodeEncodeError:
        yield "a name that the encoding doesn't have", ""


# Trees that no text spells, and terms that are no trees.
WRONG = [
    ("Module([Expr(Name(\"1 x\",Load))],[])", Unwritable),
    ("Module([Try([Pass],[],[],[])],[])", Unwritable),
    ("Module([Expr(Set([]))],[])", Unwritable),
    ("Module([Nothing],[])", NoTerm),
    ("Module([Name(\"x\",Load)],[])", NoTerm),
    ("Module([Return(7)],[])", NoTerm),
    ("[Pass]", NoTerm),
]


def wrong():
    for text, kind in WRONG:
        try:
            patch(python.Source(b"old\n"), read(text))
            yield f"{text} isn't written", "it was"
        except (Unwritable, NoTerm) as error:
            yield f"{text} isn't written", "" if type(error) is kind else f"{error!r}"


def applied(text, diff):
    """The text with a diff, as `patch` applies it, and how many lines the diff takes away and adds."""
    lines, out, at, changed = re.findall(rb"[^\n]*\n|[^\n]+", text), [], 0, 0
    for line in re.findall(rb"[^\n]*\n", diff.replace(b"\n\\ No newline at end of file\n", b"\0\n"))[2:]:
        found = re.match(rb"@@ -(\d+)(,0)?", line)
        if found:
            first = int(found[1]) - (not found[2])
            out, at = out + lines[at:first], first
            continue
        own = line[1:-2] if line.endswith(b"\0\n") else line[1:]
        changed += line[:1] != b" "
        if line[:1] != b"+":
            assert lines[at] == own, f"{lines[at]!r} isn't {own!r}"
            at += 1
        if line[:1] != b"-":
            out.append(own)
    return b"".join(out + lines[at:]), changed


def fewest(one, two):
    """The fewest lines that lead from one text to the other."""
    row = list(range(len(two) + 1))
    for line in one:
        before, row = row, [row[0] + 1]
        for at, other in enumerate(two):
            row.append(before[at] if line == other else min(before[at + 1], row[at]) + 1)
    return row[-1]


def diffs(source, new):
    """What is wrong with the diff of a source, or nothing."""
    edits = patch(source, new)
    after = apply_edits(source.text, 0, len(source.text), edits)
    got, changed = applied(source.text, unified("a.py", source.text, edits))
    least = fewest(source.text.splitlines(True), after.splitlines(True))
    return ("" if got == after else f"the diff gives {got!r}") or ("" if changed == least else f"{changed} lines differ in the diff, and {least} do")


def tests(top, everything):
    yield from layouts.tests(top)
    yield from real_patches.tests(everything)
    for title, source, result, wanted in cases(top):
        if not isinstance(result, dict):
            yield title, f"refused: {result}"
            continue
        new = refactor.exchange(source.term, result)
        try:
            got = patched(source, new).decode()
        except Unwritable as error:
            got = None if wanted is None else f"unwritable: {error}"
        yield title, "" if got == wanted else f"{got}\nwanted\n{wanted}"
        yield f"the diff: {title}", diffs(source, new)
    yield from files()
    yield from wrong()
