"""Tries the Debian package and the tar file, in a system of their own (rooms.py)."""

import os
import re
import shutil

from c_library import SONAME, declared
from installing.rooms import System
from installing.shared import blocks, needs, put, session_of_readme, tried, version_of, want, want_in
from packing.completion import options, words_of
from packing.man import PAGES as MANUAL
from packing.parts import Failed

OPTIONS = options()
WORDS = sorted({word for it in OPTIONS for word in words_of(it)})
CALLS = declared()
# What bash offers after these words.
BASH = """
source "$1"; shift
COMP_WORDS=("$@") COMP_CWORD=$(($#-1)) COMPREPLY=()
_stratbench
printf '%s\\n' "${COMPREPLY[@]}"
"""


def session(system, program):
    """README's session gives what README says."""
    module, script, answers = session_of_readme()
    put(system.work, "arith.str", module)
    got = system.run("sh", "-c", f"{program} --library --module arith=arith.str 2>/dev/null", given=script, status=1)
    want(got.splitlines(), answers)


def program_in_c(system, find, run):
    """The first program of the manual, compiled as it says, prints what it says; and with the static library. `find` are variables with which
    pkg-config finds the library, `run` those with which the loader does."""
    source, *_ = blocks("docs/manual/c.md", "c")
    put(system.work, "my.c", source)
    compiler = next((it for it in ("gcc", "clang") if system.has(it)), "cc")
    needs(compiler, "pkg-config", has=system.has)
    wanted = 'ok\nPlus(1,"x")\nok\nPlus(Plus(1,0),Plus("x",0))\nstatus 0\n'
    system.run("sh", "-c", f"{compiler} my.c $(pkg-config --cflags --libs stratbench) -o my", **find)
    want(system.run("./my", **run), wanted)
    want_in(SONAME, system.run("sh", "-c", "ldd ./my", **run))
    folder = system.run("pkg-config", "--variable=libdir", "stratbench", **find).strip()
    system.run("sh", "-c", f"{compiler} my.c $(pkg-config --cflags stratbench) {folder}/libstratbench.a -o still", **find)
    want(system.run("./still"), wanted)


def pages(system, **find):
    """`man` shows the pages, and each names what the program or the library has."""
    needs("man", has=system.has)
    shown = system.run("man", "stratbench", MANPAGER="cat", MANWIDTH="100", **find)
    for option in OPTIONS:
        want_in(f"--{option.name}", shown)
    shown = system.run("man", "3", "stratbench", MANPAGER="cat", MANWIDTH="100", **find)
    for name in CALLS:
        want_in(name, shown)
    for name, section, what in MANUAL.values():
        shown = system.run("man", str(section), name, MANPAGER="cat", MANWIDTH="100", **find)
        want_in(f"{name} - {what}", re.sub(r"\s+", " ", shown.replace("‐\n", "")))


def completion_of_bash(system, file):
    """bash offers each option that the program has, and files after `NAME=`."""
    put(system.work, "rules.str", "")
    offered = lambda *words: system.run("bash", "-c", BASH, "bash", file, "stratbench", *words).split()
    want(sorted(offered("-")), WORDS)
    want(offered("--module", "m", "=", "ru"), ["rules.str"])
    want(offered("--explain", "=", "j"), ["json"])
    want(offered("--steps", "r"), [])


def completion_of_fish(system, file):
    needs("fish", has=system.has)
    ran = system.run("fish", "--no-config", "-c", f"source {file}; complete -C 'stratbench -'; complete -C 'stratbench --module m=ru'")
    # what is offered after one `-` are short options and long ones
    want(sorted(line.split("\t")[0] for line in ran.splitlines()), sorted([*WORDS, "m=rules.str"]))


def completion_of_zsh(system, file):
    needs("zsh", has=system.has)
    ran = system.run("zsh", "-fc", f'compdef() {{}}; _arguments() {{ print -rl -- "$@" }}; source {file}')
    named = {it for line in ran.splitlines() for it in re.findall(r"^\*?(?:\([^)]*\))?(--?[\w-]+?)(?==-\[|\[)", line)}
    want(sorted(named | {f"--explain={it}" for it in ["json"]}), WORDS)


def completions(system, bash, zsh, fish):
    """The trials of completion."""
    yield "completion of bash", lambda: completion_of_bash(system, bash)
    yield "completion of fish", lambda: completion_of_fish(system, fish)
    yield "completion of zsh", lambda: completion_of_zsh(system, zsh)


def says_help(system, program):
    """The help of the program names the options of the table, and no others."""
    shown = system.run(program, "--help")
    found = re.findall(r"^\s+(?:-(\w), )?--([\w-]+)(?: <(\S+)>)?\s", shown.partition("Options:")[2], re.MULTILINE)
    want(sorted(found), sorted((it.short, it.name, it.value) for it in OPTIONS))
    for it in OPTIONS:
        want_in(it.help, shown)


# ---- the Debian package


def debian(system, file, build):
    def installed():
        shutil.copy(file, f"{system.work}/stratbench.deb")
        # man's index of all pages takes longer than all else, and isn't needed
        system.run("dpkg", "--no-triggers", "--install", "stratbench.deb")
        system.run("dpkg", "--triggers-only", "libc-bin")
        want(system.run("dpkg", "--verify", "stratbench"), "")
        want(system.run("dpkg-query", "--show", "--showformat", "${Version} ${db:Status-Status}", "stratbench"), f"{build['version']} installed")
        want(system.run("stratbench", "--version"), version_of(build))

    def removed():
        system.run("dpkg", "--no-triggers", "--purge", "stratbench")
        left = system.left()
        if left:
            raise Failed(f"{left[:8]} are left")

    share = "/usr/share"
    shells = f"{share}/bash-completion/completions/stratbench", f"{share}/zsh/vendor-completions/_stratbench", f"{share}/fish/vendor_completions.d/stratbench.fish"
    yield "it is installed", installed
    yield "README's session", lambda: session(system, "stratbench")
    yield "the options are those of its help", lambda: says_help(system, "stratbench")
    yield "a program in C, by pkg-config", lambda: program_in_c(system, {}, {})
    yield "man", lambda: pages(system)
    yield from completions(system, *shells)
    yield "removed, nothing is left", removed


# ---- the tar file


def tar(system, file, build):
    folder = os.path.basename(file).removesuffix(".tar.gz")
    root = f"/tmp/work/{folder}"

    def unpacked():
        shutil.copy(file, system.work)
        system.run("tar", "-xf", os.path.basename(file))
        want(system.run(f"{root}/bin/stratbench", "--version"), version_of(build))

    def removed():
        shutil.rmtree(f"{system.work}/{folder}")
        left = system.left()
        if left:
            raise Failed(f"{left[:8]} are left")

    shells = [f"{root}/share/{it}" for it in ("bash-completion/completions/stratbench", "zsh/site-functions/_stratbench", "fish/vendor_completions.d/stratbench.fish")]
    yield "it is unpacked", unpacked
    yield "README's session", lambda: session(system, f"{root}/bin/stratbench")
    yield "a program in C, by pkg-config", lambda: program_in_c(system, {"PKG_CONFIG_PATH": f"{root}/lib/pkgconfig"}, {"LD_LIBRARY_PATH": f"{root}/lib"})
    yield "man", lambda: pages(system, MANPATH=f"{root}/share/man")
    yield from completions(system, *shells)
    yield "removed, nothing is left", removed


def trials(room, made, build):
    """Makes the trials of what was made. Returns how many failed."""
    failed = 0
    if "debian" in made:
        os.mkdir(f"{room}/debian")
        failed += tried("Debian package", debian(System(f"{room}/debian"), made["debian"], build))
    if "tar" in made:
        os.mkdir(f"{room}/tar")
        failed += tried("tar file", tar(System(f"{room}/tar"), made["tar"], build))
    return failed
