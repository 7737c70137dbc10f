"""Reads the sources of the crates, for `tools/trusted`: definitions in antt, and contracts in Rattle.

Both readers know the forms that the repository uses, not the whole languages. A form that they don't know is an error and
not passed over.
"""

import os
import re

# ---- antt: words, groups and the names in a term

OPEN = {"(": ")", "{": "}", "[": "]"}
CLOSE = set(OPEN.values())
TOKEN = re.compile(r'\s+|--[^\n]*|"(?:\\.|[^"\\])*"|«[^»]*»|[(){}\[\];,.]|[^\s(){}\[\];,."]+')
RESERVED = {
    "λ", "→", "×", ":", "=", "|", "↦", "let", "in", "elim", "as", "record", "where", "Type", "_", "do", "unfold", "data",
    "with", "∧", "∨",
}


class SourceError(Exception):
    pass


class Word:
    """A word, and whether it touches the word or group before it."""

    def __init__(self, text, touches):
        self.text = text
        self.touches = touches


class Group:
    def __init__(self, opening, items, touches):
        self.opening = opening
        self.items = items
        self.touches = touches


def read_items(text, where):
    """The words of a text of antt, with what is in brackets as groups."""
    stack = [(None, [], False)]
    touches = False
    for found in TOKEN.finditer(text):
        token = found.group()
        if token.isspace() or token.startswith("--"):
            touches = False
            continue
        if token in OPEN:
            stack.append((token, [], touches))
            touches = False
            continue
        if token in CLOSE:
            opening, items, touched = stack.pop()
            if opening is None or OPEN[opening] != token:
                raise SourceError(f"{where}: a bracket `{token}` that none opened")
            stack[-1][1].append(Group(opening, items, touched))
        elif not token.startswith('"'):
            stack[-1][1].append(Word(token, touches))
        touches = True
    if len(stack) != 1:
        raise SourceError(f"{where}: a bracket that isn't closed")
    return stack[0][1]


def is_word(item, text=None):
    return isinstance(item, Word) and (text is None or item.text == text)


def is_name(item):
    return isinstance(item, Word) and re.search(r"[^\W\d]", item.text) is not None and item.text not in RESERVED


def split_at(items, text):
    parts = [[]]
    for item in items:
        if is_word(item, text):
            parts.append([])
        else:
            parts[-1].append(item)
    return parts


def binder_names(group):
    """The names that a group `(x y : A)` binds, and the words of A; nothing where it is no such group."""
    for at, item in enumerate(group.items):
        if is_word(item, ":"):
            return ([it.text for it in group.items[:at]], group.items[at + 1:]) if at else None
        if not isinstance(item, Word):
            return None
    return None


class Names:
    """Finds the free names in terms. `found` is called with each: its first part, and the parts after dots.
    `is_constructor` says of a name in a pattern whether it is one or a variable."""

    def __init__(self, found, is_constructor):
        self.found = found
        self.is_constructor = is_constructor

    def term(self, items, bound):
        """Goes over a term in which these names are bound. Answers those that are bound at its end."""
        bound = set(bound)
        lets = []
        at = 0
        while at < len(items):
            item = items[at]
            if isinstance(item, Group):
                bound |= self.group(item, bound)
            elif item.text == "λ":
                at += 1
                while at < len(items) and not is_word(items[at], "."):
                    self.pattern([items[at]], bound)
                    at += 1
            elif item.text == "let":
                names = set()
                at += 1
                self.pattern([items[at]], names)
                lets.append((names, set(bound)))
            elif item.text == "in":
                names, before = lets.pop() if lets else (set(), bound)
                bound = before | names
            elif item.text == ".":
                # a field, or the end of what `λ` binds
                if at + 1 < len(items) and items[at + 1].touches and isinstance(items[at + 1], Word):
                    at += 1
            elif item.text not in RESERVED:
                rest = []
                while at + 2 < len(items) and is_word(items[at + 1], ".") and items[at + 1].touches \
                        and isinstance(items[at + 2], Word) and items[at + 2].touches:
                    rest.append(items[at + 2].text)
                    at += 2
                if item.text not in bound:
                    self.found(item.text, rest)
            at += 1
        return bound

    def group(self, group, bound):
        """Goes over a group, and answers the names that it binds for what follows."""
        binder = binder_names(group)
        if binder is not None and group.opening != "[":
            self.term(binder[1], bound)
            return set(binder[0])
        if group.opening == "[" and any(is_word(it, "↦") for it in group.items):
            for case in split_at(group.items, "|"):
                pattern, body = split_at(case, "↦")
                inner = set(bound)
                self.pattern(pattern, inner)
                self.term(body, inner)
        elif group.opening == "{" and len(group.items) > 1 and is_word(group.items[1], "="):
            for field in split_at(group.items, ";"):
                self.term(field[2:], bound)
        else:
            self.term(group.items, bound)
        return set()

    def pattern(self, items, bound):
        """Goes over patterns and adds the variables in them to those that are bound."""
        at = 0
        while at < len(items):
            item = items[at]
            if isinstance(item, Group):
                fields = len(item.items) > 1 and is_word(item.items[1], "=")
                binder = None if fields else binder_names(item)
                if binder is not None:
                    self.term(binder[1], bound)
                    bound |= set(binder[0])
                else:
                    self.pattern(item.items[2:] if fields else item.items, bound)
            elif at + 2 < len(items) and is_word(items[at + 1], ".") and items[at + 1].touches:
                self.found(item.text, [items[at + 2].text])
                at += 2
            elif is_name(item):
                if self.is_constructor(item.text):
                    self.found(item.text, [])
                else:
                    bound.add(item.text)
            elif item.text not in RESERVED and not item.text.isdigit():
                self.found(item.text, [])
            at += 1


# ---- antt: files of definitions

SIGNATURE = re.compile(r"(?:(?:abbrev|unfoldable)\s+)?(?:pub\s+)?([^\s:]+) :(?:\s|$)")
TYPE = re.compile(r"(?:abbrev\s+)?(?:pub\s+)?(record|data)\s+([^\s:]+)")
FIXITY = re.compile(r"infix[lr]?\s+\d+\s+(\S+)")
USE = re.compile(r"(?:pub\s+)?use\s+([^\s{;]+?)(?:\.?\{(.*)\}|\s+as\s+(\S+))?\s*$", re.S)


def read_use(text, where):
    """The module of an import, the names taken from it (as they are called here, and there), and the name of the module
    where it is imported whole."""
    found = USE.match(text)
    if found is None:
        raise SourceError(f"{where}: an import that isn't understood: {text}")
    module, names, alias = found.groups()
    taken = {}
    if names is None:
        return module, taken, alias or module.rsplit(".", 1)[-1]
    for name in filter(None, (it.strip() for it in names.split(","))):
        there, _, here = name.partition(" as ")
        taken[here.strip() or there.strip()] = there.strip()
    return module, taken, None


class Definition:
    """What belongs together: a signature and its cases, a record, a data type, or what is mutual."""

    def __init__(self, file, first):
        self.file = file
        self.names = []
        self.constructors = []
        self.comment = []
        self.first = first
        self.last = first
        self.header = None
        self.kind = "definition"

    def lines(self):
        """The numbers of its lines, its comment included, but no blank ones."""
        own = range(self.first, self.last + 1)
        header = [] if self.header is None else [self.header]
        return [n for n in self.comment + header + list(own) if self.file.lines[n - 1].strip()]

    def name(self):
        return self.names[0]


def indent_of(line):
    return len(line) - len(line.lstrip())


def goes_on(line, base):
    """Whether a line belongs to what began on a line of this indent."""
    return not line.strip() or indent_of(line) > base or line.strip()[0] in CLOSE


class AnttFile:
    """A file of definitions or proofs: its imports and its definitions."""

    def __init__(self, root, path):
        self.path = path
        parts = path.split("/")
        self.crate = parts[1]
        self.module = ".".join(parts[2:])[:-len(".antt")]
        self.is_inside = path.split("/")[2:4] == ["specs", "inside"]
        with open(f"{root}/{path}", encoding="utf-8") as file:
            self.lines = file.read().split("\n")
        self.imports = {}
        self.modules = {}
        self.reexports = {}
        self.opening = []
        self.definitions = []
        self.by_name = {}
        if self.module.startswith("specs"):
            self.read()
        else:
            self.read_imports()

    def read_imports(self):
        """Of a file of proofs the imports suffice."""
        at = 0
        while at < len(self.lines):
            at = self.read_import(at) if re.match(r"(pub\s+)?use\s", self.lines[at]) else at + 1

    def read(self):
        at = self.read_opening()
        comment = []
        base, header, header_items = 0, None, []
        while at < len(self.lines):
            line = self.lines[at]
            text = line.strip()
            if header is not None and text and indent_of(line) == 0:
                base, header, header_items = 0, None, []
            if not text:
                at += 1
            elif text.startswith("--"):
                comment.append(at + 1)
                at += 1
            elif re.match(r"(pub\s+)?use\s", text):
                at = self.read_import(at)
            elif re.match(r"(pub\s+)?mod\s", text):
                comment = []
                at += 1
            elif text.startswith("module "):
                header = at + 1
                header_items = read_items(text[len("module _"):text.rindex("where")], self.where(at))
                base = indent_of(self.lines[at + 1])
                at += 1
            else:
                at = self.read_definition(at, base, comment, header, header_items)
                comment = []

    def read_opening(self):
        """The comment that a file begins with, where no definition follows it directly."""
        at = 0
        while at < len(self.lines) and self.lines[at].startswith("--"):
            at += 1
        if at < len(self.lines) and self.lines[at].strip() and not re.match(r"(pub\s+)?use\s", self.lines[at]):
            return 0
        self.opening = list(range(1, at + 1))
        return at

    def where(self, at):
        return f"{self.path}:{at + 1}"

    def read_import(self, at):
        text = self.lines[at].strip()
        while text.count("{") > text.count("}"):
            at += 1
            text += " " + self.lines[at].strip()
        module, taken, alias = read_use(text, self.where(at))
        for here, there in taken.items():
            self.imports[here] = (module, there)
        if alias is not None:
            self.modules[alias] = module
            if text.startswith("pub "):
                self.reexports[alias] = module
        return at + 1

    def read_definition(self, at, base, comment, header, header_items):
        line = self.lines[at]
        text = line.strip()
        end = at + 1
        while end < len(self.lines) and goes_on(self.lines[end], base):
            end += 1
        while not self.lines[end - 1].strip():
            end -= 1
        fixity = FIXITY.match(text)
        begins = SIGNATURE.match(text) or TYPE.match(text) or text in ("mutual", "abbrev mutual") or fixity
        if begins and not (fixity and fixity.group(1) in self.by_name):
            made = Definition(self, at + 1)
            made.comment = comment
            made.header = header
            made.header_items = header_items
            made.base = base
            self.definitions.append(made)
            if fixity:
                names = [fixity.group(1)]
            elif text in ("mutual", "abbrev mutual"):
                made.kind = "mutual"
                names = self.names_of_mutual(made, at + 1, end)
            elif TYPE.match(text):
                made.kind = TYPE.match(text).group(1)
                names = [TYPE.match(text).group(2)]
                if made.kind == "data":
                    made.constructors = self.constructors_of(at + 1, end)
            else:
                names = [SIGNATURE.match(text).group(1)]
            made.names = names
            for name in names + made.constructors:
                self.by_name[name] = made
        elif not self.definitions:
            raise SourceError(f"{self.where(at)}: a line that begins no definition: {text}")
        elif begins and not fixity:
            raise SourceError(f"{self.where(at)}: {text}")
        else:
            made = self.definitions[-1]
            if comment:
                made.first = min(made.first, comment[0])
        # A signature below its fixity belongs to the same definition.
        if begins and not fixity and len(self.definitions) > 1 and self.definitions[-2].names == made.names:
            earlier = self.definitions.pop(-2)
            made.comment = earlier.comment + made.comment
            made.first = earlier.first
        made.last = end
        return end

    def names_of_mutual(self, made, at, end):
        names = []
        base = indent_of(self.lines[at])
        while at < end:
            line = self.lines[at]
            text = line.strip()
            if text and indent_of(line) == base and not text.startswith("--"):
                if TYPE.match(text):
                    names.append(TYPE.match(text).group(2))
                    if TYPE.match(text).group(1) == "data":
                        below = at + 1
                        while below < end and goes_on(self.lines[below], base):
                            below += 1
                        made.constructors += self.constructors_of(at + 1, below)
                elif SIGNATURE.match(text):
                    names.append(SIGNATURE.match(text).group(1))
            at += 1
        return names

    def constructors_of(self, at, end):
        names = []
        base = None
        for line in self.lines[at:end]:
            text = line.strip()
            if not text or text.startswith("--") or text == "where":
                continue
            if base is None:
                base = indent_of(line)
            if indent_of(line) == base:
                names += text.split(" : ")[0].removeprefix("pub ").split()
        return names

    # -- the names in a definition

    def logical_lines(self, first, last, base):
        """The lines of this indent, each with the deeper ones below it."""
        parts = []
        for line in self.lines[first - 1:last]:
            if not line.strip() or line.lstrip().startswith("--"):
                continue
            if not goes_on(line, base) or not parts:
                parts.append([line])
            else:
                parts[-1].append(line)
        return ["\n".join(part) for part in parts]

    def names_in(self, made, found, is_constructor):
        finder = Names(found, is_constructor)
        bound = finder.term(made.header_items, set())
        where = f"{self.path}:{made.first}"
        if made.kind == "mutual":
            inner = [n for n in range(made.first + 1, made.last + 1) if self.lines[n - 1].strip()]
            self.names_in_lines(finder, inner[0], made.last, indent_of(self.lines[inner[0] - 1]), bound, where)
        else:
            self.names_in_lines(finder, made.first, made.last, made.base, bound, where)

    def names_in_lines(self, finder, first, last, base, bound, where):
        for text in self.logical_lines(first, last, base):
            head = text.strip()
            if TYPE.match(head):
                self.names_in_type(finder, text, TYPE.match(head), bound, where)
            elif FIXITY.match(head):
                pass
            elif SIGNATURE.match(head):
                finder.term(read_items(head[SIGNATURE.match(head).end():], where), bound)
            elif head.startswith("unfolding "):
                finder.term(read_items(head[len("unfolding "):], where), bound)
            else:
                items = read_items(head, where)
                at = next((n for n, it in enumerate(items) if is_word(it, "=")), None)
                if at is None:
                    raise SourceError(f"{where}: a line without `=`: {head}")
                inner = set(bound)
                own = [it for it in items[:at]]
                if own and is_name(own[0]):
                    own = own[1:]
                finder.pattern(own, inner)
                finder.term(items[at + 1:], inner)

    def names_in_type(self, finder, text, found, bound, where):
        lines = text.split("\n")
        n = next((n for n, line in enumerate(lines) if re.search(r"(^|\s)where\s*$", line)), len(lines) - 1)
        head = " ".join(lines[:n + 1]).strip()
        head = head[found.end():].rsplit("where", 1)[0]
        bound = finder.term(read_items(head, where), bound)
        base = min((indent_of(line) for line in lines[n + 1:]), default=0)
        fields = []
        for line in lines[n + 1:]:
            if indent_of(line) == base:
                fields.append(line.strip())
            else:
                fields[-1] += " " + line.strip()
        for field in fields:
            names, _, kind = field.removeprefix("pub ").partition(" : ")
            finder.term(read_items(kind, where), bound)
            if found.group(1) == "record":
                bound = bound | set(names.split())


# ---- Rattle: items and contracts

STRING = re.compile(
    r'//[^\n]*|/\*.*?\*/|b?r(#+)".*?"\1|b?r"[^"]*"|b?"(?:\\.|[^"\\])*"'
    r"|(?<![A-Za-z0-9_])b?'(?:\\[^']*'|\\''|[^'\\]')", re.S)
ITEM = re.compile(
    r"(?P<pub>pub(?P<within>\s*\([^)]*\))?\s+)?"
    r"(?:(?:unsafe|async|extern|const(?=\s+(?:unsafe\s+)?fn)|default)\s+)*"
    r"(?P<kind>ghost\s+use|ghost|use|mod|const|static|type|struct|enum|trait|impl|fn)\b")
CLAUSE = re.compile(r"(requires|ensures)(\*?)\s*([A-Za-z_0-9]*)\s*\{")
GHOST_CLAUSE = re.compile(r"ghost\s+(\w+)\s*:\s*\{")


def blanked(text):
    """The text with comments and literals blanked, so that brackets count."""
    return STRING.sub(lambda found: re.sub(r"[^\n]", " ", found.group()), text)


def uncommented(text):
    return re.sub(r"(?m)^\s*//[^\n]*", "", text)


class Item:
    def __init__(self, file, kind, name, first, last):
        self.file = file
        self.kind = kind
        self.name = name
        self.first = first
        self.last = last
        self.is_pub = False
        self.is_public = False
        self.owner = None
        self.clauses = []
        self.text = ""
        self.params = set()
        self.uses = []
        self.body = (0, 0)

    def label(self):
        owner = f"{self.owner}::" if self.owner else ""
        return f"{self.file.crate}::{owner}{self.name}"


class Block:
    """An `impl` or a `trait`: what it is of, its own imports, its members."""

    def __init__(self, file, header, first):
        self.file = file
        self.header = header
        self.first = first
        self.uses = []
        self.ghosts = []
        self.declared = []
        self.methods = []
        self.trait = None
        self.type = None


# A macro of this repository makes expressions, never items.
MACRO = re.compile(r"macro_rules!\s*\w+\s*[{(]")


class RattleFile:
    def __init__(self, root, crate, path, modules):
        self.crate = crate
        self.path = path
        self.modules = modules
        with open(f"{root}/{path}", encoding="utf-8") as file:
            self.text = file.read()
        self.clean = blanked(self.text)
        self.uses = []
        self.rust_uses = []
        self.mods = []
        self.items = []
        self.blocks = []
        self.read(0, len(self.clean), None)
        self.imports, self.aliases = imports_of(self.uses, path)

    def line(self, at):
        return self.text.count("\n", 0, at) + 1

    def fail(self, at, what):
        raise SourceError(f"{self.path}:{self.line(at)}: {what}")

    def matching(self, at):
        """Where the bracket that opens at this place is closed."""
        depth = 0
        for found in re.compile(r"[(){}\[\]]").finditer(self.clean, at):
            depth += 1 if found.group() in OPEN else -1
            if depth == 0:
                return found.start()
        self.fail(at, "a bracket that isn't closed")

    def find(self, at, wanted, end):
        """The first of these characters outside brackets."""
        while at < end:
            c = self.clean[at]
            if c in wanted:
                return at
            at = self.matching(at) + 1 if c in OPEN else at + 1
        self.fail(at - 1, f"none of `{wanted}`")

    def read(self, at, end, block):
        is_test = False
        while True:
            blank = re.compile(r"\s*").match(self.clean, at, end)
            at = blank.end()
            if at >= end:
                return
            if self.clean[at] == "#":
                close = self.matching(self.clean.index("[", at))
                attribute = self.clean[at:close]
                is_test = is_test or "cfg(test)" in attribute or attribute.startswith("#[test")
                at = close + 1
                continue
            if self.clean[at] == ";":
                at += 1
                continue
            macro = MACRO.match(self.clean, at, end)
            if macro is not None:
                at = self.matching(macro.end() - 1) + 1
                continue
            found = ITEM.match(self.clean, at, end)
            if found is None:
                self.fail(at, f"no item: {self.text[at:at + 40]!r}")
            at = self.read_item(found, end, block, is_test)
            is_test = False

    def read_item(self, found, end, block, is_test):
        kind = re.sub(r"\s+", " ", found.group("kind"))
        start, at = found.start(), found.end()
        is_pub = found.group("pub") is not None and found.group("within") is None
        if kind in ("ghost use", "use"):
            stop = self.find(at, ";", end)
            if not is_test:
                text = " ".join(self.text[at:stop].split())
                if kind == "ghost use":
                    (self.uses if block is None else block.uses).append(text)
                else:
                    self.rust_uses.append((text, is_pub))
            return stop + 1
        if kind == "ghost":
            return self.read_ghost(start, at, end, block)
        name = re.compile(r"\s+(\w+)").match(self.clean, at)
        if kind == "mod":
            stop = self.find(at, ";{", end)
            if self.clean[stop] == "{":
                self.fail(at, "a module in place")
            if not is_test:
                self.mods.append((name.group(1), is_pub))
            return stop + 1
        if kind == "fn":
            return self.read_function(start, name, end, block, is_pub, is_test)
        if kind in ("impl", "trait"):
            return self.read_block(kind, start, at, name, end, is_pub, is_test)
        stop = self.find(at, ";" if kind in ("const", "static", "type") else ";{(", end)
        if self.clean[stop] in "{(":
            closing = self.matching(stop)
            if self.clean[stop] == "(":
                closing = self.find(closing, ";", end)
            stop = closing
        if not is_test and block is None:
            item = Item(self, kind, name.group(1), self.line(start), self.line(stop))
            item.is_pub = is_pub
            item.text = self.clean[name.end():stop]
            self.items.append(item)
        elif not is_test and kind == "type":
            block.declared.append((name.group(1), self.clean[name.end():stop], self.line(start)))
        return stop + 1

    def read_ghost(self, start, at, end, block):
        name = re.compile(r"\s+(\w+)\s*([=:])\s*\{").match(self.clean, at)
        if name is None or block is None:
            self.fail(start, "a ghost line that isn't understood")
        opening = name.end() - 1
        closing = self.matching(opening)
        text = uncommented(self.text[opening + 1:closing])
        block.ghosts.append((name.group(1), name.group(2), text, self.line(start)))
        return self.find(closing + 1, ";", end) + 1

    def read_block(self, kind, start, at, name, end, is_pub, is_test):
        opening = self.find(at, "{;", end)
        if self.clean[opening] == ";":
            return opening + 1
        closing = self.matching(opening)
        if is_test:
            return closing + 1
        header = " ".join(self.clean[at:opening].split())
        block = Block(self, header, self.line(start))
        if kind == "trait":
            block.trait = name.group(1)
            item = Item(self, "trait", name.group(1), self.line(start), self.line(closing))
            item.is_pub = is_pub
            item.text = header
            item.block = block
            self.items.append(item)
        else:
            target = skip_generics(header)
            of = re.match(r"(.*?)\s+for\s+(.*)$", target)
            block.type = head_of(of.group(2) if of else target)
            block.implements = head_of(of.group(1)) if of else None
        self.blocks.append(block)
        self.read(opening + 1, closing, block)
        block.imports, block.aliases = imports_of(block.uses, self.path)
        return closing + 1

    def read_function(self, start, name, end, block, is_pub, is_test):
        at = name.end()
        item = Item(self, "fn", name.group(1), self.line(start), 0)
        item.is_pub = is_pub
        item.block = block
        item.owner = None if block is None else block.type or block.trait
        # up to the first clause, the body or the semicolon
        stop = at
        while True:
            stop = self.find(stop, "{;rge", end)
            word = re.compile(r"(requires|ensures|ghost)\b").match(self.clean, stop)
            if self.clean[stop] in "{;" or (word and not self.clean[stop - 1].isalnum() and self.clean[stop - 1] != "_"):
                break
            stop += 1
        item.text = self.clean[at:stop]
        item.params = params_of(self.clean[at:stop])
        while True:
            stop = re.compile(r"\s*").match(self.clean, stop).end()
            ghost = GHOST_CLAUSE.match(self.clean, stop)
            clause = ghost or CLAUSE.match(self.clean, stop)
            if clause is None:
                break
            closing = self.matching(clause.end() - 1)
            label = "ghost" if ghost else f"{clause.group(1)} {clause.group(3)}".strip()
            if ghost:
                item.params.add(ghost.group(1))
            text = uncommented(self.text[clause.end():closing])
            item.clauses.append((label, text, self.line(stop)))
            stop = closing + 1
        if self.clean[stop] == "{":
            closing = self.matching(stop)
            item.body = (stop, closing)
        elif self.clean[stop] == ";":
            closing = stop
        else:
            self.fail(stop, "a function without a body")
        item.last = self.line(closing)
        if not is_test:
            (self.items if block is None else block.methods).append(item)
        return closing + 1


def imports_of(uses, path):
    names, aliases = {}, {}
    for text in uses:
        module, taken, alias = read_use("use " + text, path)
        for here, there in taken.items():
            names[here] = (module, there)
        if alias is not None:
            aliases[alias] = module
    return names, aliases


def skip_generics(text):
    """What follows the `<..>` that a text begins with."""
    text = text.strip()
    if not text.startswith("<"):
        return text
    depth = 0
    for at, c in enumerate(text):
        depth += (c == "<") - (c == ">" and text[at - 1] != "-")
        if depth == 0:
            return text[at + 1:].strip()
    return text


def head_of(text):
    """The name of a type, without what it is applied to."""
    return re.split(r"[<\s]", text.strip().lstrip("&"))[0].split("::")[-1]


def params_of(signature):
    """The names of a function's parameters, and `result`."""
    names = {"result", "self"}
    depth = 0
    body = skip_generics(signature)
    piece = ""
    pieces = []
    for at, c in enumerate(body):
        if c in "(<[{":
            depth += 1
            if depth == 1:
                continue
        elif c in ")]}" or (c == ">" and body[at - 1] != "-"):
            depth -= 1
            if depth == 0:
                break
        if depth == 1 and c == ",":
            pieces.append(piece)
            piece = ""
        else:
            piece += c
    pieces.append(piece)
    for piece in pieces:
        found = re.match(r"\s*(?:mut\s+)?(\w+)\s*:", piece)
        if found:
            names.add(found.group(1))
        else:
            names |= set(re.findall(r"[a-z_]\w*", piece.partition(":")[0]))
    return names
