"""Completion for shells, made of the table of options that the program has (crates/command_line/src/words.rt)."""

import re
from typing import NamedTuple

from checkout import TOP
from packing.parts import text_of

TABLE = f"{TOP}/crates/command_line/src/words.rt"
# An option that takes NAME=FILE may be given again.
NAMED = "NAME=FILE"


class Option(NamedTuple):
    """An option: `--name`, and `-short` if there is one; what its value is called, if it takes one; and its line of help."""

    name: str
    short: str
    value: str
    help: str


def body_of(source, name):
    """The text of a function."""
    return re.search(rf"^fn {name}\b.*?^\}}", source, re.MULTILINE | re.DOTALL)[0]


def called(text, method):
    """The argument of a method in a chain, or nothing."""
    found = re.search(rf"\.{method}\(\s*[\"'](.*?)[\"'],?\s*\)", text)
    return found[1] if found else ""


def options():
    """The options of the program, in the order of its help."""
    source = text_of(TABLE)
    found = []
    for maker, name, line in re.findall(r'\.arg\((\w+)\(\s*alloc,?\s*(?:"(.*?)",\s*"(.*?)",?\s*)?\)\)', body_of(source, "command")):
        body = body_of(source, maker)
        if not name:
            flag = re.search(r'flag\(\s*alloc,\s*"(.*?)",\s*"(.*?)",?\s*\)', body)
            name, line = flag.groups() if flag else (called(body, "long"), called(body, "help"))
        # what has no name is the script
        if name:
            found.append(Option(name, called(body, "short"), called(body, "value_name"), line))
    return [*found, Option("help", "h", "", "Print help"), Option("version", "V", "", "Print version")]


# Options that may be given with a value after `=`, though they take none: the values.
VALUES = {"explain": ["json"]}


def words_of(option):
    yield f"--{option.name}"
    yield from (f"--{option.name}={value}" for value in VALUES.get(option.name, ()))
    if option.short:
        yield f"-{option.short}"


def bash():
    every = options()
    taken = "|".join(f"--{it.name}" for it in every if it.value)
    words = " ".join(word for it in every for word in words_of(it))
    values = "\n".join(f"        --{name}) COMPREPLY=($(compgen -W '{' '.join(them)}' -- \"$word\")); return ;;" for name, them in VALUES.items())
    # bash parts words at `=`: NAME=FILE is three of them
    return f"""# Completion of stratbench for bash, made of the program's table of options.
_stratbench() {{
    local word="${{COMP_WORDS[COMP_CWORD]}}" before="${{COMP_WORDS[COMP_CWORD-1]}}" option=
    COMPREPLY=()
    [[ $before == '=' ]] && option="${{COMP_WORDS[COMP_CWORD-2]}}"
    [[ $word == '=' ]] && option="$before" word=
    case "$option" in
{values}
    esac
    case "$before" in
        {taken}) return ;;
    esac
    if [[ $word == -* ]]; then
        COMPREPLY=($(compgen -W '{words}' -- "$word"))
        return
    fi
    compopt -o filenames 2>/dev/null
    local IFS=$'\\n'
    COMPREPLY=($(compgen -f -- "$word"))
}}
complete -F _stratbench stratbench
"""


def in_zsh(text):
    """A text between single quotes of zsh, in which `_arguments` knows some signs."""
    return re.sub(r"([\[\]:])", r"\\\1", text).replace("'", "'\\''")


def in_fish(text):
    """A text between single quotes of fish."""
    return text.replace("\\", "\\\\").replace("'", "\\'")


def zsh():
    def spec(it):
        shown = in_zsh(it.help)
        name = f"--{it.name}"
        if it.value == NAMED:
            return f"'*{name}[{shown}]:{it.value}:_stratbench_named'"
        value = f":{it.value}: " if it.value else ""
        if it.short:
            return f"'(-{it.short} {name})'{{-{it.short},{name}}}'[{shown}]{value}'"
        equals = "=-" if it.name in VALUES else ""
        more = f"::form:({' '.join(VALUES[it.name])})" if it.name in VALUES else value
        return f"'{name}{equals}[{shown}]{more}'"

    specs = " \\\n    ".join(spec(it) for it in options())
    return f"""#compdef stratbench
# Completion of stratbench for zsh, made of the program's table of options.

_stratbench_named() {{
  if compset -P '*='; then
    _files
  else
    _message 'NAME='
  fi
}}

_stratbench() {{
  _arguments -s \\
    {specs} \\
    '::script:_files'
}}

_stratbench "$@"
"""


def fish():
    lines = ["# Completion of stratbench for fish, made of the program's table of options."]
    for it in options():
        short = f" -s {it.short}" if it.short else ""
        value = " -r" if it.value == NAMED else " -x" if it.value else ""
        lines.append(f"complete -c stratbench -l {it.name}{short}{value} -d '{in_fish(it.help)}'")
        lines += [f"complete -c stratbench -l {it.name}={one} -d '{in_fish(it.help)}'" for one in VALUES.get(it.name, ())]
    return "\n".join([*lines, ""])
