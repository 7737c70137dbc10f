"""The words of commands, options, refusals, faults and the language, as the sources of the program have them, beside those that clients, grammars,
trials and the manual write by hand. The program's are the ones that count."""

import json
import re
import sys

from workbench import KINDS, TOP, WITHOUT_MEMORY, WORDS, as_module, word_of  # isort: skip
from packing.completion import options, words_of

sys.path.insert(0, f"{TOP}/clients/python")
from stratbench import strategies  # noqa: E402
from stratbench.shell import session, syntax  # noqa: E402

# What an operand of a form is, in a command that fits it.
OPERANDS = {"N": "t", "C": "u", "P": "/0", "K": "3", "T": "f(a)", "M": "rules", "S": "id", "{..}": "{1}"}


def contents(path):
    with open(f"{TOP}/{path}", encoding="utf-8") as it:
        return it.read()


def found(path, pattern, flags=0):
    """What a pattern finds in a source. There has to be something."""
    every = re.findall(pattern, contents(path), flags)
    assert every, f"{path} has no {pattern}"
    return every


# ---- the program's


def forms():
    """The forms of the commands, by their words."""
    [lines] = found("crates/hint_text/src/command.rt", r'pub const FORMS: &str = "([^"]*)";')
    return dict(f"{it} ".split(" ", 1) for it in lines.split("\n"))


def commands():
    return found("crates/script_text/src/keyword.rt", r'b"(\w+)" => Keyword')


def reserved():
    return found("crates/strategy_tokens/src/keyword.rt", r'word == b"(\w+)"')


def refusals():
    """The words of the refusals, by their numbers."""
    path = "crates/session_modules/src/refusal.rt"
    numbers, words = dict(found(path, r"Refusal::(\w+)(?:\(\.\.\))? => (\d+)")), dict(found(path, r'Refusal::(\w+)(?:\(\.\.\))? => "(\w+)"'))
    return {int(number): words[name] for name, number in numbers.items()}


def faults():
    return found("crates/strategy_check/src/fault.rt", r'FaultKind::\w+ => "(\w+)"')


def without_memory():
    [body] = found("crates/script_text/specs/Form.antt", r"\ntakes_no_memory_with [^\n]*=([^\n]*(?:\n +[^\n]*)*)")
    return re.findall(r'"(\w+)"', body)


# ---- compared


def differing(mine, its):
    """The words that only one of two has."""
    return ", ".join(sorted(map(str, {*mine} ^ {*its})))


def beyond(mine, its):
    """The words that the second alone has."""
    return ", ".join(sorted({*its} - {*mine}))


def decoded(words):
    return [it.decode(errors="replace") for it in words]


def grammar_commands():
    """The words that the grammar of scripts has for commands."""
    text = json.dumps(json.loads(contents("clients/editors/vscode/syntaxes/stratbench.tmLanguage.json")), ensure_ascii=False)
    begun = re.findall(r'"begin": "\^\(([a-z|]+)\)', text)
    return [word for it in begun for word in it.split("|")]


def examples():
    """A command of each form, with all that may be left out."""
    for word, form in forms().items():
        operands = re.findall(r"\{\.\.\}|\w+", form)
        yield word, " ".join([word, *(OPERANDS.get(it, it) for it in operands)])


def first_column(page, section, pattern):
    """What a pattern finds at the beginning of rows of a section of the manual."""
    [text] = found(f"docs/manual/{page}", rf"^#+ {section}\n(.*?)(?=^## |\Z)", re.MULTILINE | re.DOTALL)
    return re.findall(rf"^\| {pattern}", text, re.MULTILINE)


def of_the_manual():
    return dict(f"{it} ".split(" ", 1) for it in first_column("scripts.md", "Commands", "`([^`]*)` [|]"))


def options_of_the_manual():
    return [word for cell in first_column("scripts.md", "Scripts and commands", "(`-[^|]*)[|]") for word in re.findall("`([^`]*)`", cell)]


def options_of_node():
    """The options that the command for node takes or lacks, as its trial and its source list them."""
    [taken], [lacks] = found("trials/installing/node.py", r"^TAKEN = \{(.*)\}$", re.MULTILINE), found("clients/node/options.mjs", r"^const LACKS = \[(.*)\];$", re.MULTILINE)
    return [*re.findall('"(-[^"]+)"', taken), *(f"--{it}" for it in re.findall("'([^']*)'", lacks))]


def reserved_of_editors():
    """The reserved words of each editor that has them in a list."""
    folder = "clients/editors"
    yield "Vim", " ".join(found(f"{folder}/vim/syntax/stratego.vim", r"^syntax keyword stratego(?:Section|Form) (.*)$", re.MULTILINE)).split()
    yield "Kate", found(f"{folder}/kate/stratego.xml", r"<item>(\w+)</item>")
    yield "Emacs", re.findall(r"\w+", " ".join(found(f"{folder}/emacs/stratego-mode.el", r"\(regexp-opt '\(([^)]*)\)")))


def keys_of(path, name):
    """The keys of an object in a script of the page."""
    [body] = found(path, rf"^const {name} = \{{\n(.*?)^\}};", re.MULTILINE | re.DOTALL)
    return re.findall(r"^  (\w+)[:(]", body, re.MULTILINE)


def compared():
    """Yields of each list by hand what differs from the program's, if anything does."""
    table, mutate, refuse = forms(), as_module("trials/mutate"), as_module("trials/refuse")
    yield "the words of commands, and their forms", differing(table, commands())
    yield "commands of the manual", differing(table.items(), of_the_manual().items())
    yield "commands of the grammar", differing(table, grammar_commands())
    yield "commands of the shell", differing(table.items(), {word: f"{form} ".lstrip() for word, form in syntax.FORMS.items()}.items())
    yield "commands that the shell knows as such", " ".join(word for word, it in examples() if not syntax._BEGINS.match(it))
    yield "commands of the shell that end in a text", differing(syntax._LONG, [word for word, form in table.items() if form.rstrip().endswith(("T", "M", "S", "{..}"))])
    yield "commands of the shell that are steps", beyond(table, session._CHANGES)
    completion = contents("clients/python/stratbench/shell/completion.py")
    yield "commands whose names the shell completes", " ".join(it for it, form in table.items() if re.search(r"\bN\b", form) and f'"{it}"' not in completion)
    client = contents("clients/python/stratbench/__init__.py")
    yield "commands of the client", " ".join(it for it in table if not re.search(rf'"{it}(?:[ "]|\\)', client))
    yield "commands of mutate", beyond(decoded(mutate.WORDS), table) + beyond(table, decoded(mutate.ANSWERS))
    yield "commands of refuse", beyond(decoded(map(word_of, refuse.FORMS)), table)
    yield "commands without memory", differing(without_memory(), decoded(WITHOUT_MEMORY))
    yield "options of the manual", differing([f"{word} {it.value}".rstrip() for it in options() for word in words_of(it)], options_of_the_manual())
    # its help is in words of its own
    yield "options of the package for node", differing(["--", *(word for it in options() if it.name != "help" for word in words_of(it))], options_of_node())
    yield "refusals of the trials", differing(enumerate(WORDS, 1), refusals().items())
    # one has its fault in place of a word
    listed = first_column("scripts.md", "Refusals", r"`(\d+) (\w+)")
    yield "refusals of the manual", differing(listed, ((f"{number}", "KIND" if word == "check" else word) for number, word in refusals().items()))
    yield "refusals of the page", beyond(map(str, refusals()), keys_of("clients/web/explain.mjs", "MEANINGS"))
    yield "faults of the trials", differing(faults(), KINDS.split())
    yield "faults of the page", differing(faults(), keys_of("clients/web/explain.mjs", "FAULTS")) + beyond(faults(), keys_of("clients/web/explain.mjs", "REPAIRS"))
    yield "faults of the manual", differing(faults(), first_column("modules.md", "Faults", r"`(\w+) "))
    yield "reserved words of the client", differing(reserved(), strategies.RESERVED)
    yield "reserved words of the page", beyond(reserved(), keys_of("clients/web/names.mjs", "FORMS"))
    yield from ((f"reserved words of {editor}", differing(reserved(), words)) for editor, words in reserved_of_editors())
    [manual] = found("docs/manual/strategies.md", r"`(module signature [a-z ]*)` are reserved")
    yield "reserved words of the manual", differing(reserved(), manual.split())
