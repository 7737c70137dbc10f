"""What all packages share: what they are made of, and files that have the same bytes each time.

A package is a dictionary of names and files. Its files are kept in the order of their names, with the time of the commit, and belong to
root, whoever makes them.
"""

import gzip
import hashlib
import io
import json
import os
import re
import subprocess
import tarfile
import tempfile
from typing import NamedTuple

from c_library import library, version
from checkout import PROGRAM, TOP, UNPROVED, contents

LICENCES = ["LICENSE-MIT", "LICENSE-APACHE"]


class Failed(Exception):
    """Something that can't be made, or a trial that failed."""


class Missing(Failed):
    """Something that can't be made, since this machine lacks a program."""


class File(NamedTuple):
    """A file of a package: what it holds, and whether it can be run. Or a link, which leads to `link`."""

    text: bytes
    runs: bool = False
    link: str = ""


class Parts(NamedTuple):
    """What packages are made of. `version` ends with `+unproved` where the program is compiled without a proof, and `number` doesn't.
    `when` is the time of the commit."""

    version: str
    number: str
    is_proved: bool
    program: str
    archive: str
    shared: str
    when: int
    build: dict

    @property
    def about(self):
        """The text of `build.json`, which every package has."""
        return as_json(self.build)


def text_of(path):
    return contents(path).decode()


def as_json(it):
    return (json.dumps(it, indent=2, ensure_ascii=False) + "\n").encode()


def said(*words):
    """What a command prints."""
    return subprocess.run(words, cwd=TOP, stdout=subprocess.PIPE, check=True, text=True).stdout.strip()


def checksum(text):
    return hashlib.sha256(text).hexdigest()


def numbers():
    """The version, as each part has it: the program, the header for C, the client for Python, the manual."""
    yield "crates/command_line/src/words.rt", r'^pub const VERSION: &str = "(\S*) .*";$'
    yield "clients/c/stratbench.h", r'^#define STRATBENCH_VERSION "(.*)"$'
    yield "clients/python/stratbench/versions.py", r'^CLIENT: Final = "(.*)"$'
    yield "README.md", r"this is\s+([0-9.]+[0-9])"


def check_numbers():
    """Raises `Failed` where two parts have different versions."""
    found = {path: re.search(pattern, text_of(f"{TOP}/{path}"), re.MULTILINE)[1] for path, pattern in numbers()}
    if len({*found.values()}) > 1:
        raise Failed(f"the version isn't the same everywhere: {found}")


# What the program says of itself, after its version, until it is packed.
UNSTATED = b"(commit ------------, not stated)"


def stamp(build, part="program"):
    """What a packed program says in the place of that, in as many bytes. Where the checkout had changes that weren't committed, a `+` says so."""
    commit = f"{build['commit'][:11]}+" if build["changed"] else build["commit"][:12]
    return f"(commit {commit}, {'was' if build['proved'][part] else 'not'} proved)"


def stamped(room, program, build):
    """Copies the program into a folder, and says in it of which commit it is, and whether it is proved. No other byte changes. Returns its name."""
    text, made = contents(program), stamp(build).encode()
    if text.count(UNSTATED) != 1 or len(made) != len(UNSTATED):
        raise Failed(f"{program} has {text.count(UNSTATED)} times what {made.decode()} takes the place of")
    with open(f"{room}/stratbench", "wb") as it:
        it.write(text.replace(UNSTATED, made))
    return it.name


def licences(folder=""):
    return {f"{folder}{name}": File(contents(f"{TOP}/{name}")) for name in LICENCES}


# ---- what is packed


def gathered(room, proved, gate):
    """Gathers what packages are made of, in a folder. `gate` is a file with what `rt ci` printed, if there is one."""
    check_numbers()
    program = PROGRAM if proved else UNPROVED
    if not proved and subprocess.run([f"{TOP}/tools/unproved"]).returncode or not os.path.exists(program):
        raise Failed("there is no proved program: `rt ci` makes it, or --unproved takes one without a proof" if proved else "there is no program")
    archive, shared = f"{room}/libstratbench.a", f"{room}/libstratbench.so"
    for option, file in (("--archive", archive), ("--shared", shared)):
        if subprocess.run([f"{TOP}/tools/embed", option, file]).returncode or not os.path.exists(file):
            raise Failed("the library for C can't be made")
    number = version()
    named = number if proved else f"{number}+unproved"
    about = build(named, proved, gate)
    return Parts(named, number, proved, stamped(room, program, about), archive, shared, int(said("git", "show", "-s", "--format=%ct", "HEAD")), about)


def build(named, proved, gate):
    """What packages were made of, and what is proved of it."""
    return {
        "version": named,
        "commit": said("git", "rev-parse", "HEAD"),
        "changed": bool(said("git", "status", "--porcelain", "--untracked-files=no")),
        "kit": said("rt", "version").split("\n")[0],
        "proved": {"program": proved, "library": library().is_proved, "module": library().is_proved},
        "gate": passed(gate) if proved and gate else None,
    }


def passed(gate):
    """The lines of what `rt ci` printed that say what it did. Raises `Failed` where it didn't pass."""
    lines = text_of(gate).splitlines()
    ended = [it for it in lines if re.match(r"\d+ passed, \d+ failed", it)]
    if not ended or not re.match(r"\d+ passed, 0 failed", ended[-1]):
        raise Failed(f"{gate}: that isn't what `rt ci` prints where it passes")
    return [it for it in lines if it.startswith("rt: ok")] + ended[-1:]


def statement(build):
    """Which gate passed on which commit, in sentences."""
    changed = ", with changes that aren't committed" if build["changed"] else ""
    lines = [f"stratbench {build['version']}, of the commit {build['commit']}{changed}, by {build['kit']}.", ""]
    if not build["proved"]["program"]:
        lines.append("Not proved: the program was compiled from the sources that `rt ci` proves, without a proof.")
    elif build["gate"]:
        lines += ["The program is proved. `rt ci` printed:", "", *(f"    {it}" for it in build["gate"])]
    else:
        lines.append("The program is the one that `rt ci` left. What `rt ci` printed wasn't kept with it.")
    if build["proved"]["library"]:
        lines += ["", "The library for C, and the module for browsers and node, are compiled from what `rt lib` proved."]
    else:
        lines += ["", "The library for C, and the module for browsers and node, are compiled from the same sources, without a proof."]
    return "\n".join([*lines, ""]).encode()


# ---- archives


def compressed(text):
    made = io.BytesIO()
    with gzip.GzipFile("", "wb", 9, made, mtime=0) as it:
        it.write(text)
    return made.getvalue()


def folders_of(names):
    """The folders that have these files, each before what is in it."""
    found = {name[:at] for name in names for at, sign in enumerate(name) if sign == "/"}
    return sorted(found)


def tarred(files, when):
    """A tar file of these, compressed."""
    made = io.BytesIO()
    with tarfile.open(fileobj=made, mode="w", format=tarfile.USTAR_FORMAT) as tar:
        for name in sorted([*folders_of(files), *files]):
            entry = tarfile.TarInfo(name)
            entry.mtime, entry.uname, entry.gname = when, "root", "root"
            file = files.get(name)
            if file is None:
                entry.type, entry.mode = tarfile.DIRTYPE, 0o755
                tar.addfile(entry)
            elif file.link:
                entry.type, entry.linkname, entry.mode = tarfile.SYMTYPE, file.link, 0o777
                tar.addfile(entry)
            else:
                entry.size, entry.mode = len(file.text), 0o755 if file.runs else 0o644
                tar.addfile(entry, io.BytesIO(file.text))
    return compressed(made.getvalue())


def laid_out(files, folder, when):
    """Puts these into a folder."""
    every = [*folders_of(files), *files]
    for name in folders_of(files):
        os.makedirs(f"{folder}/{name}", exist_ok=True)
        os.chmod(f"{folder}/{name}", 0o755)
    for name, file in files.items():
        if file.link:
            os.symlink(file.link, f"{folder}/{name}")
            continue
        with open(f"{folder}/{name}", "wb") as it:
            it.write(file.text)
        os.chmod(f"{folder}/{name}", 0o755 if file.runs else 0o644)
    # a folder's time is that of the last file that came into it, so the innermost are set first
    for name in sorted(every, reverse=True):
        os.utime(f"{folder}/{name}", (when, when), follow_symlinks=False)
    os.chmod(folder, 0o755)
    os.utime(folder, (when, when))


def in_a_folder(files, when, use):
    """Calls `use` with a folder that has these."""
    with tempfile.TemporaryDirectory() as room:
        folder = f"{room}/files"
        os.mkdir(folder)
        laid_out(files, folder, when)
        return use(folder)
