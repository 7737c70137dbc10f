"""Man pages, made of the pages of docs/manual.

Of Markdown that is what the manual has: headings, paragraphs, lists, tables, blocks of code, links, and emphasis. A table becomes a list
with the first column as what is described, since few terminals have room for its columns. A link to another page names its man page.
"""

import re

from checkout import TOP
from packing.parts import text_of

# The pages of the program and of the library for C: what each is called, its section, and what it is in a line.
PAGES = {
    "scripts": ("stratbench", 1, "transforms program trees by the commands of a script"),
    "applying": ("stratbench-applying", 7, "applying strategies, and the library of stratbench"),
    "strategies": ("stratbench-strategies", 7, "strategies and modules of stratbench as texts"),
    "meaning": ("stratbench-meaning", 7, "what strategies of stratbench do"),
    "modules": ("stratbench-modules", 7, "modules, names and faults of stratbench"),
    "primitives": ("stratbench-primitives", 7, "primitives of stratbench"),
    "term-text": ("stratbench-terms", 7, "terms of stratbench as text"),
    "mistakes": ("stratbench-mistakes", 7, "finding mistakes with stratbench"),
    "writing": ("stratbench-writing", 7, "writing strategies for stratbench"),
    "c": ("stratbench", 3, "sessions of stratbench in C"),
}
SECTIONS = {1: "User Commands", 3: "Library Functions Manual", 7: "Miscellaneous Information Manual"}
FENCE = re.compile(r" *```")
ITEM = re.compile(r"( *)(?:-|\d+\.) +(.*)")


def name_of(page):
    name, section, _ = PAGES[page]
    return f"{name}.{section}"


def escaped(text):
    """A text as roff shows it. A sign that begins a request is no request after `\\&`."""
    text = text.replace("\\", "\\e").replace("-", "\\-").replace("'", "\\(aq").replace("`", "\\(ga").replace("^", "\\(ha").replace("~", "\\(ti")
    return re.sub(r"^\.", r"\\&.", text)


def linked(text, target, own):
    """A link: what it is called, and the man page that it leads to."""
    page = re.fullmatch(r"([\w-]+)\.md(?:#.*)?", target)
    if page is None or page[1] not in PAGES or page[1] == own:
        return text
    name, section, _ = PAGES[page[1]]
    return f"{text}, **{name}**({section})"


def inline(text, own):
    """A line of text, with bold for code and emphasis."""
    text = re.sub(r"!\[[^\]]*\]\([^)]*\)", "", text)
    text = re.sub(r"\[((?:`[^`]*`|[^\]`])*)\]\(([^)]*)\)", lambda it: linked(it[1], it[2], own), text)
    made = []
    for part in re.split(r"(``.*?``|`[^`]*`|\*\*.*?\*\*|(?<![\w*])\*[^*\s][^*]*\*)", text):
        if part.startswith("`"):
            made.append(f"\\fB{escaped(part.strip('`').strip())}\\fR")
        elif part.startswith("**"):
            made.append(f"\\fB{escaped(part[2:-2])}\\fR")
        elif part.startswith("*") and len(part) > 2:
            made.append(f"\\fI{escaped(part[1:-1])}\\fR")
        else:
            made.append(escaped(re.sub(r"\\([|*_`<>\\])", r"\1", part)))
    return re.sub(r"^(?=[.'])", r"\\&", "".join(made))


def cells(line):
    """The cells of a row of a table. A bar in code has a backslash before it."""
    return [it.strip().replace("\\|", "|") for it in re.split(r"(?<!\\)\|", line.strip().strip("|"))]


def table(lines, own):
    """A table, as a list: below the first column the others, each with its heading where there are several."""
    heads, rows = cells(lines[0]), [cells(it) for it in lines[2:]]
    for first, *rest in rows:
        yield ".TP"
        yield inline(first, own) or "\\&"
        shown = [(head, it) for head, it in zip(heads[1:], rest) if it]
        if len(heads) == 2:
            yield from (inline(it, own) for _, it in shown)
        for at, (head, it) in enumerate(shown if len(heads) > 2 else ()):
            if at:
                yield ".br"
            yield f"{inline(head, own)}: {inline(it, own)}" if head else inline(it, own)
        if not shown:
            yield "\\&"
    yield ".PP"


def code(lines):
    yield ".PP"
    yield ".RS 4"
    yield ".nf"
    yield from (escaped(it) for it in lines)
    yield ".fi"
    yield ".RE"
    yield ".PP"


def body(text, own):
    """The lines of a page, after its title."""
    lines = text.split("\n")
    at = 0
    while at < len(lines):
        line = lines[at]
        if FENCE.match(line):
            end = next(it for it in range(at + 1, len(lines)) if FENCE.match(lines[it]))
            indent = len(line) - len(line.lstrip())
            yield from code([it[indent:] for it in lines[at + 1 : end]])
            at = end + 1
        elif line.startswith("    ") and (not at or not lines[at - 1].strip()):
            end = at
            while end < len(lines) and (lines[end].startswith("    ") or not lines[end].strip()):
                end += 1
            yield from code([it[4:] for it in "\n".join(lines[at:end]).rstrip().split("\n")])
            at = end
        elif line.startswith("#"):
            level, _, title = line.partition(" ")
            yield f".SH {inline(title.upper(), own)}" if len(level) == 2 else f".SS {inline(title, own)}"
            at += 1
        elif line.startswith("|"):
            end = at
            while end < len(lines) and lines[end].startswith("|"):
                end += 1
            yield from table(lines[at:end], own)
            at = end
        elif item := ITEM.fullmatch(line):
            yield ".IP \\(bu 2"
            yield inline(item[2], own)
            at += 1
        elif not line.strip():
            # a paragraph ends; one that goes on with an item stays in it
            following = next((it for it in lines[at:] if it.strip()), "")
            yield ".IP" if following.startswith("  ") and not following.startswith("    ") and not ITEM.fullmatch(following) else ".PP"
            at += 1
        else:
            yield inline(line.strip(), own)
            at += 1


def tidied(lines):
    """Without an empty paragraph before another macro, and without two in a row."""
    made = []
    for line in lines:
        if made and made[-1] in (".PP", ".IP") and re.match(r"\.(PP|IP|TP|SH|SS)", line):
            made.pop()
        made.append(line)
    return made


def page(own, number, date):
    """The man page of a page of the manual."""
    name, section, what = PAGES[own]
    title, _, text = text_of(f"{TOP}/docs/manual/{own}.md").partition("\n")
    others = [f"\\fB{other}\\fR({it})" for key, (other, it, _) in PAGES.items() if key != own]
    lines = [
        f'.TH {name.upper()} {section} "{date}" "stratbench {number}" "{SECTIONS[section]}"',
        ".SH NAME",
        f"{escaped(name)} \\- {escaped(what)}",
        ".SH DESCRIPTION",
        *tidied(body(text.strip("\n"), own)),
        ".SH SEE ALSO",
        ",\n".join(others),
    ]
    return "\n".join([*lines, ""])
