"""The rules of strategies/python-*.rules once more, by hand over `ast`: each a function from a node, or from the statements of a list from
one on, to what takes their place, or to nothing. Expected of rules is what these give."""

import ast
import keyword

RULES = {}
# Those of which a function takes the rest of a list of statements.
LISTS = set()


def rule(*names):
    def add(function):
        for name in names:
            RULES.setdefault(name, []).append(function)
        return function

    return add


def rule_of_list(name):
    LISTS.add(name)
    return rule(name)


def load():
    return ast.Load()


def name(text):
    return ast.Name(text, load())


def dumped(node):
    """A node but for contexts."""
    return ast.dump(node).replace("Store()", "Load()").replace("Del()", "Load()")


def same(one, two):
    return dumped(one) == dumped(two)


def is_compare(node, *kinds):
    return isinstance(node, ast.Compare) and len(node.ops) == len(kinds) and all(map(isinstance, node.ops, kinds))


def is_none(node):
    return isinstance(node, ast.Constant) and node.value is None


def is_constant(node, value):
    return isinstance(node, ast.Constant) and type(node.value) is type(value) and node.value == value


def plain(args):
    return not any(isinstance(it, ast.Starred) for it in args)


def is_call(node, function, count, keywords=0):
    """Whether a node is a call of a name with so many arguments, none of them starred."""
    if not isinstance(node, ast.Call) or not isinstance(node.func, ast.Name) or node.func.id != function:
        return False
    return len(node.args) == count and len(node.keywords) == keywords and plain(node.args)


def is_method(node, method, count):
    if not isinstance(node, ast.Call) or not isinstance(node.func, ast.Attribute) or node.func.attr != method:
        return False
    return len(node.args) == count and not node.keywords and plain(node.args)


def is_simple(generators):
    """Whether a comprehension is `for x in y`."""
    return len(generators) == 1 and not generators[0].ifs and not generators[0].is_async


def stored(node, context):
    """An expression as a target."""
    new = ast.parse(ast.unparse(node), mode="eval").body
    for it in ast.walk(new) if isinstance(new, (ast.Tuple, ast.List, ast.Starred)) else [new]:
        if isinstance(it, (ast.Name, ast.Attribute, ast.Subscript, ast.Tuple, ast.List, ast.Starred)):
            it.ctx = context()
    return new


def negated(old, new):
    def function(node):
        if isinstance(node, ast.UnaryOp) and isinstance(node.op, ast.Not) and is_compare(node.operand, old):
            return ast.Compare(node.operand.left, [new()], node.operand.comparators)

    return function


rule("E713")(negated(ast.In, ast.NotIn))
rule("E714")(negated(ast.Is, ast.IsNot))
rule("SIM201")(negated(ast.Eq, ast.NotEq))


@rule("E711")
def none(node):
    for old, new in ((ast.Eq, ast.Is), (ast.NotEq, ast.IsNot)):
        if is_compare(node, old) and is_none(node.comparators[0]):
            return ast.Compare(node.left, [new()], node.comparators)


@rule("SIM208")
def doubly(node):
    if isinstance(node, ast.UnaryOp) and isinstance(node.op, ast.Not) and isinstance(node.operand, ast.UnaryOp) and isinstance(node.operand.op, ast.Not):
        return ast.Call(name("bool"), [node.operand.operand], [])


@rule("SIM210")
def boolean(node):
    if isinstance(node, ast.IfExp) and is_constant(node.body, True) and is_constant(node.orelse, False):
        return ast.Call(name("bool"), [node.test], [])


def neighbours(merge):
    """The first two operands of an `or` that become one."""

    def function(node):
        if not isinstance(node, ast.BoolOp) or not isinstance(node.op, ast.Or):
            return None
        for at, (one, two) in enumerate(zip(node.values, node.values[1:])):
            new = merge(one, two)
            if new is not None:
                values = [*node.values[:at], new, *node.values[at + 2 :]]
                return values[0] if len(values) == 1 else ast.BoolOp(node.op, values)
        return None

    return function


@rule("SIM101")
@neighbours
def instances(one, two):
    if is_call(one, "isinstance", 2) and is_call(two, "isinstance", 2) and same(one.args[0], two.args[0]):
        if not isinstance(one.args[1], ast.Tuple) and not isinstance(two.args[1], ast.Tuple):
            return ast.Call(name("isinstance"), [one.args[0], ast.Tuple([one.args[1], two.args[1]], load())], [])


@rule("PLR1714")
@neighbours
def equals(one, two):
    if is_compare(one, ast.Eq) and is_compare(two, ast.Eq) and same(one.left, two.left):
        return ast.Compare(one.left, [ast.In()], [ast.Tuple([one.comparators[0], two.comparators[0]], load())])


@rule("PLR1716")
def chained(node):
    if isinstance(node, ast.BoolOp) and isinstance(node.op, ast.And) and len(node.values) == 2:
        one, two = node.values
        if is_compare(one, ast.Lt) and is_compare(two, ast.Lt) and isinstance(two.left, ast.Name) and same(one.comparators[0], two.left):
            return ast.Compare(one.left, [ast.Lt(), ast.Lt()], [one.comparators[0], two.comparators[0]])


@rule("PLC1802")
def empty(node):
    if is_compare(node, ast.Eq) and is_call(node.left, "len", 1) and is_constant(node.comparators[0], 0):
        return ast.UnaryOp(ast.Not(), node.left.args[0])


@rule("SIM118")
def keys(node):
    if is_compare(node, ast.In) and is_method(node.comparators[0], "keys", 0):
        return ast.Compare(node.left, node.ops, [node.comparators[0].func.value])


@rule("FURB110")
def either(node):
    if isinstance(node, ast.IfExp) and same(node.test, node.body):
        return ast.BoolOp(ast.Or(), [node.test, node.orelse])


def comprehension(function, made):
    def of(node):
        if is_call(node, function, 1) and isinstance(node.args[0], ast.GeneratorExp) and is_simple(node.args[0].generators):
            return made(node.args[0].elt, node.args[0].generators)

    return of


rule("C400")(comprehension("list", ast.ListComp))
rule("C401")(comprehension("set", ast.SetComp))


@rule("C405")
def literal_set(node):
    if is_call(node, "set", 1) and isinstance(node.args[0], (ast.List, ast.Tuple)) and node.args[0].elts and not isinstance(node.args[0].elts[0], ast.Starred):
        return ast.Set(node.args[0].elts)


@rule("C408")
def literals(node):
    made = {"dict": ast.Dict([], []), "list": ast.List([], load()), "tuple": ast.Tuple([], load())}
    for function, literal in made.items():
        if is_call(node, function, 0):
            return literal
    if isinstance(node, ast.Call) and is_call(node, "dict", 0, len(node.keywords)) and all(it.arg is not None for it in node.keywords):
        return ast.Dict([ast.Constant(it.arg) for it in node.keywords], [it.value for it in node.keywords])


@rule("C413")
def sorted_list(node):
    if is_call(node, "list", 1) and isinstance(node.args[0], ast.Call) and same(node.args[0].func, name("sorted")):
        return node.args[0]


@rule("C416")
def copied(node):
    if isinstance(node, (ast.ListComp, ast.DictComp)) and is_simple(node.generators):
        target = node.generators[0].target
        if isinstance(node, ast.ListComp) and same(node.elt, target):
            return ast.Call(name("list"), [node.generators[0].iter], [])
        if isinstance(node, ast.DictComp) and isinstance(target, ast.Tuple) and same(ast.Tuple([node.key, node.value], load()), target):
            return ast.Call(name("dict"), [node.generators[0].iter], [])


@rule("C419")
def lazy(node):
    for function in ("any", "all"):
        if is_call(node, function, 1) and isinstance(node.args[0], ast.ListComp) and is_simple(node.args[0].generators):
            return ast.Call(node.func, [ast.GeneratorExp(node.args[0].elt, node.args[0].generators)], [])


def assigned(body):
    """The target and the value where statements are one assignment to one target."""
    if len(body) == 1 and isinstance(body[0], ast.Assign) and len(body[0].targets) == 1:
        return body[0].targets[0], body[0].value
    return None


@rule("SIM401")
def defaulted(node):
    if isinstance(node, ast.If) and is_compare(node.test, ast.In) and assigned(node.body) and assigned(node.orelse):
        (one, value), (two, default) = assigned(node.body), assigned(node.orelse)
        wanted = ast.Subscript(node.test.comparators[0], node.test.left, load())
        if same(one, two) and same(value, wanted):
            get = ast.Attribute(node.test.comparators[0], "get", load())
            return ast.Assign([one], ast.Call(get, [node.test.left, default], []))


@rule("SIM108")
def conditional(node):
    if isinstance(node, ast.If) and assigned(node.body) and assigned(node.orelse):
        (one, value), (two, other) = assigned(node.body), assigned(node.orelse)
        if same(one, two):
            return ast.Assign([one], ast.IfExp(node.test, value, other))


@rule("FURB131")
def cleared(node):
    if isinstance(node, ast.Delete) and len(node.targets) == 1 and isinstance(node.targets[0], ast.Subscript):
        it = node.targets[0].slice
        if isinstance(it, ast.Slice) and not it.lower and not it.upper and not it.step:
            return ast.Expr(ast.Call(ast.Attribute(node.targets[0].value, "clear", load()), [], []))


@rule("SIM102")
def nested(node):
    if isinstance(node, ast.If) and not node.orelse and len(node.body) == 1 and isinstance(node.body[0], ast.If) and not node.body[0].orelse:
        return ast.If(ast.BoolOp(ast.And(), [node.test, node.body[0].test]), node.body[0].body, [])


def returned(body, value):
    return len(body) == 1 and isinstance(body[0], ast.Return) and body[0].value is not None and is_constant(body[0].value, value)


@rule("SIM103")
def returned_test(node):
    if isinstance(node, ast.If) and returned(node.body, True) and returned(node.orelse, False):
        return ast.Return(ast.Call(name("bool"), [node.test], []))


@rule("SIM105")
def suppressed(node):
    if isinstance(node, ast.Try) and len(node.body) == 1 and len(node.handlers) == 1 and not node.orelse and not node.finalbody:
        it = node.handlers[0]
        if it.type is not None and it.name is None and len(it.body) == 1 and isinstance(it.body[0], ast.Pass):
            call = ast.Call(ast.Attribute(name("contextlib"), "suppress", load()), [it.type], [])
            return ast.With([ast.withitem(call)], node.body)


@rule_of_list("SIM110")
def any_of(body):
    if len(body) < 2 or not isinstance(body[0], ast.For) or body[0].orelse or not returned(body[1:2], False) or len(body[0].body) != 1:
        return None
    it = body[0].body[0]
    if isinstance(it, ast.If) and not it.orelse and returned(it.body, True):
        generator = ast.GeneratorExp(it.test, [ast.comprehension(body[0].target, body[0].iter, [], 0)])
        return [ast.Return(ast.Call(name("any"), [generator], [])), *body[2:]]


@rule("RET501")
def bare(node):
    if isinstance(node, ast.Return) and node.value is not None and is_none(node.value):
        return ast.Return()


@rule_of_list("RET505")
def flat(body):
    if body and isinstance(body[0], ast.If) and body[0].orelse and isinstance(body[0].body[-1], ast.Return):
        return [ast.If(body[0].test, body[0].body, []), *body[0].orelse, *body[1:]]


@rule("UP028")
def delegated(node):
    if isinstance(node, ast.For) and not node.orelse and len(node.body) == 1 and isinstance(node.body[0], ast.Expr):
        it = node.body[0].value
        if isinstance(it, ast.Yield) and it.value is not None and same(it.value, node.target):
            return ast.Expr(ast.YieldFrom(node.iter))


@rule("PLR6104")
def augmented(node):
    if isinstance(node, ast.Assign) and len(node.targets) == 1 and isinstance(node.value, ast.BinOp) and isinstance(node.value.op, ast.Add):
        right = node.value.right
        number = isinstance(right, ast.Constant) and type(right.value) in (int, float, complex)
        if number and same(node.targets[0], node.value.left) and not isinstance(node.targets[0], (ast.Tuple, ast.List)):
            return ast.AugAssign(node.targets[0], ast.Add(), right)


@rule_of_list("PERF401")
def listed(body):
    if len(body) < 2 or not assigned(body[:1]) or not isinstance(body[1], ast.For) or body[1].orelse or len(body[1].body) != 1:
        return None
    (target, value), it = assigned(body[:1]), body[1].body[0]
    if not isinstance(value, ast.List) or value.elts or not isinstance(it, ast.Expr) or not is_method(it.value, "append", 1):
        return None
    if same(it.value.func.value, target):
        made = ast.ListComp(it.value.args[0], [ast.comprehension(body[1].target, body[1].iter, [], 0)])
        return [ast.Assign([target], made), *body[2:]]


@rule("UP004")
def bases(node):
    if isinstance(node, ast.ClassDef) and len(node.bases) == 1 and same(node.bases[0], name("object")) and not node.keywords:
        if not getattr(node, "type_params", None):
            return ast.ClassDef(node.name, [], [], node.body, node.decorator_list, **({"type_params": []} if hasattr(node, "type_params") else {}))


@rule("UP008")
def parent(node):
    if isinstance(node, ast.Attribute) and is_call(node.value, "super", 2) and same(node.value.args[1], name("self")) and isinstance(node.ctx, ast.Load):
        return ast.Attribute(ast.Call(name("super"), [], []), node.attr, load())
    # the same where it is assigned to
    if isinstance(node, ast.Attribute) and is_call(node.value, "super", 2) and same(node.value.args[1], name("self")):
        return ast.Attribute(ast.Call(name("super"), [], []), node.attr, node.ctx)


@rule("UP012")
def encoded(node):
    if is_method(node, "encode", 1) and is_constant(node.args[0], "utf-8"):
        return ast.Call(node.func, [], [])


@rule("UP015")
def opened(node):
    if is_call(node, "open", 2) and is_constant(node.args[1], "r"):
        return ast.Call(node.func, node.args[:1], [])


@rule("PLW0108")
def unwrapped(node):
    if not isinstance(node, ast.Lambda) or not isinstance(node.body, ast.Call) or node.body.keywords or len(node.body.args) != 1:
        return None
    it, argument = node.args, node.body.args[0]
    if it.posonlyargs or len(it.args) != 1 or it.vararg or it.kwonlyargs or it.kwarg or it.defaults or not isinstance(argument, ast.Name):
        return None
    names = {one.id for one in ast.walk(node.body.func) if isinstance(one, ast.Name)}
    if argument.id == it.args[0].arg and argument.id not in names:
        return node.body.func


def is_identifier(node):
    return isinstance(node, ast.Constant) and isinstance(node.value, str) and node.value.isascii() and node.value.isidentifier() and not keyword.iskeyword(node.value)


@rule("B009")
def attribute(node):
    if is_call(node, "getattr", 2) and is_identifier(node.args[1]):
        return ast.Attribute(node.args[0], node.args[1].value, load())


@rule("B010")
def set_attribute(node):
    if isinstance(node, ast.Expr) and is_call(node.value, "setattr", 3) and is_identifier(node.value.args[1]):
        return ast.Assign([ast.Attribute(node.value.args[0], node.value.args[1].value, ast.Store())], node.value.args[2])


@rule("PIE807")
def empty_list(node):
    if isinstance(node, ast.Lambda) and isinstance(node.body, ast.List) and not node.body.elts:
        it = node.args
        if not (it.posonlyargs or it.args or it.vararg or it.kwonlyargs or it.kwarg):
            return name("list")


@rule("Has-key")
def has_key(node):
    if is_method(node, "has_key", 1):
        return ast.Compare(node.args[0], [ast.In()], [node.func.value])


@rule("Assert-in")
def asserted(node):
    if is_method(node, "assertTrue", 1) and same(node.func.value, name("self")) and is_compare(node.args[0], ast.In):
        call = ast.Attribute(node.func.value, "assertIn", load())
        return ast.Call(call, [node.args[0].left, node.args[0].comparators[0]], [])


@rule("Before-none")
def shorter(node):
    if isinstance(node, ast.Call) and not node.keywords and node.args and is_none(node.args[-1]):
        return ast.Call(node.func, node.args[:-1], [])


class ByHand(ast.NodeTransformer):
    """A rule everywhere, children first. `places` counts where it was applied."""

    def __init__(self, name):
        self.name, self.functions, self.places = name, RULES[name], 0

    def visit(self, node):
        self.generic_visit(node)
        if self.name in LISTS:
            for field in ("body", "orelse", "finalbody"):
                if isinstance(getattr(node, field, None), list):
                    setattr(node, field, self.of_list(getattr(node, field)))
            return node
        for function in self.functions:
            new = function(node)
            if new is not None:
                self.places += 1
                return new
        return node

    def of_list(self, body):
        for at in reversed(range(len(body))):
            for function in self.functions:
                new = function(body[at:])
                if new is not None:
                    self.places += 1
                    body = [*body[:at], *new]
                    break
        return body
