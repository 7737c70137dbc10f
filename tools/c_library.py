"""Compiles the library for C, of which `embed` makes what others link, and `wasm` the module for browsers.

`rt ci` proves the library, and keeps no compiled one. There are two ways to make it. `rt lib` proves it and all crates below once more, and
compiles what it proved: that is the library to hand out. `rt try` compiles the same sources in a minute, and proves nothing, so that
what is tried after the gate isn't proved twice. What it compiles checks itself as it runs: a number that is out of range stops it.
"""

import contextlib
import glob
import hashlib
import os
import re
import shutil
import subprocess
import tempfile
import time
from typing import NamedTuple

from checkout import TOP, contents

CRATE = f"{TOP}/crates/stratbench_c"
HEADER = f"{TOP}/clients/c/stratbench.h"
# What the library says of itself, in C.
ABOUT = f"{TOP}/clients/c/about.c"
# The fewest bytes of an LLVM module of a program. That of `rt try` itself has fewer.
LEAST = 1_000_000


class Library(NamedTuple):
    """A library for C: the folder of its files, and whether `rt lib` proved it."""

    folder: str
    is_proved: bool

    @property
    def archive(self):
        return f"{self.folder}/libstratbench_c.a"

    @property
    def llvm(self):
        """The LLVM module that was compiled."""
        return f"{self.folder}/libstratbench_c.ll"

    @property
    def stamp(self):
        return f"{self.folder}/libstratbench_c.stamp"

    @property
    def parts(self):
        """What it is made of beside the crates."""
        return [] if self.is_proved else [os.path.realpath(__file__)]

    def is_current(self):
        return is_made(self.stamp, [self.archive, self.llvm], self.parts)


PROVED, TRIED = Library(f"{CRATE}/out", True), Library(f"{TOP}/clients/c/build", False)


def declared():
    """The functions that the header declares."""
    return re.findall(r"^\w[\w *]*\b(stratbench_\w+)\(", contents(HEADER).decode(), re.MULTILINE)


def version_words():
    """The macros with the version that the header has, as words for a compiler."""
    return [f"-D{name}={value}" for name, value in re.findall(r"^#define (STRATBENCH_VERSION\w*) (.+)$", contents(HEADER).decode(), re.MULTILINE)]


def version():
    """The version that the header has."""
    return re.search(r'^#define STRATBENCH_VERSION "(.+)"$', contents(HEADER).decode(), re.MULTILINE)[1]


# The name by which the loader looks for the shared object: it changes with the major version alone.
SONAME = f"libstratbench.so.{version().split('.')[0]}"


def kit():
    """Returns the folder of the kit, of which `rt` is the command."""
    rt = shutil.which("rt")
    return rt and os.path.dirname(os.path.dirname(os.path.realpath(rt)))


def checksum(files=()):
    """A checksum of the crates, of the kit, and of these files."""
    told = hashlib.sha256(subprocess.run(["rt", "version"], stdout=subprocess.PIPE).stdout)
    every = [it for part in ("src", "specs", "proofs") for it in glob.glob(f"{TOP}/crates/*/{part}/**", recursive=True)]
    for file in sorted(it for it in [*every, f"{TOP}/crates.txt", *files] if os.path.isfile(it)):
        told.update(f"{os.path.relpath(file, TOP)} {os.path.getsize(file)} ".encode() + contents(file))
    return told.hexdigest()


def is_made(stamp, made, files=()):
    """Whether these were made of what is there now: the file `stamp` has the checksum of that."""
    return all(map(os.path.exists, [stamp, *made])) and contents(stamp).decode() == checksum(files)


def is_handed_on(file):
    """Whether a process has this file among its words. It is a compiler then, and the file is whole."""
    for words in glob.glob("/proc/[0-9]*/cmdline"):
        with contextlib.suppress(OSError):
            if file.encode() in contents(words).split(b"\0"):
                return True
    return False


def lowered(words, folder, to, says, stops=False):
    """Runs a command of the kit in a folder, and keeps as `to` the LLVM module that it hands to clang, as text. Returns whether there is one.
    What the command says is printed, or if `says` is false only where it fails. If `stops` is true the command is ended once it has handed on
    a module of a program.

    The kit writes that module into the folder for temporary files, and removes it afterwards. A second link to the file stays.
    """
    linked, stopped = {}, False
    with tempfile.TemporaryDirectory() as room, open(f"{room}/said", "wb") as said:
        how = {"cwd": folder, "env": {**os.environ, "TMPDIR": room}, "stdin": subprocess.DEVNULL}
        with subprocess.Popen(words, **how, **{} if says else {"stdout": said, "stderr": said}) as ran:
            while ran.poll() is None:
                for found in glob.glob(f"{room}/*/**/module.bc", recursive=True):
                    # it may be gone again
                    with contextlib.suppress(OSError):
                        if found not in linked:
                            os.link(found, f"{room}/{len(linked)}")
                            linked[found] = f"{room}/{len(linked)}"
                if stops and any(os.path.getsize(kept) > LEAST and is_handed_on(file) for file, kept in linked.items()):
                    stopped = True
                    ran.terminate()
                    break
                time.sleep(0.05)
        if ran.returncode and not stopped or not linked:
            print(contents(f"{room}/said")[-2000:].decode(errors="replace"), f"{' '.join(words)}: status {ran.returncode}", flush=True)
            return False
        # `rt try` also compiles a module of its own, which has no code of the crate
        largest = max(linked.values(), key=os.path.getsize)
        as_text = ["--target=x86_64-unknown-linux-gnu", "-S", "-emit-llvm", "-O0", "-Xclang", "-disable-llvm-passes"]
        subprocess.run([f"{kit()}/toolchain/bin/clang", *as_text, "-x", "ir", largest, "-o", to], check=True)
    return True


def library(proved=False):
    """Returns a library for C that is made of what is there now, or None: a proved one where there is one or it is asked for, which may take
    hours; else one that is compiled without a proof."""
    if not kit():
        print("the library for C isn't compiled, since there is no `rt`, the command of Rattle's kit")
        return None
    it = PROVED if proved or PROVED.is_current() else TRIED
    if it.is_current():
        return it
    os.makedirs(it.folder, exist_ok=True)
    with contextlib.suppress(FileNotFoundError):
        os.remove(it.stamp)
    made_of, begun = checksum(it.parts), time.monotonic()
    if not (prove if it.is_proved else compile_unproved)(it):
        return None
    print(f"the library for C is {'proved and ' * it.is_proved}compiled in {time.monotonic() - begun:.0f} seconds"
        f"{'' if it.is_proved else ', without a proof, from the sources that `rt ci` proves'}", flush=True)
    with open(it.stamp, "w", encoding="ascii") as stamp:
        stamp.write(made_of)
    return it


def prove(made):
    """Proves the library and compiles it. Returns whether that could be done."""
    return lowered(["rt", "lib"], CRATE, made.llvm, True)


# What a call of an export is handed, by the type of its parameter. An address is handed under the parameter's own name.
HANDED = {"Global": "rt.alloc()", "&[u8]": "b\"t\"", "&mut [u8]": "&mut room", "&mut [usize]": "&mut ends", "u32": "1"}
# A program that `rt try` compiles, which calls each export, and so has each. The first session and its stopper end at once, and the last with
# the program.
CALLS = """
fn main(rt: HostRuntime) {
    let mut bench = make(rt.alloc());
    let mut made = make_stopper(&mut bench);
    let handle = (&raw mut bench) as *mut u8;
    let stopper = (&raw mut made) as *mut u8;
    let mut room = [0u8; 64];
    let mut ends = [0usize; 8];
    unsafe {
        stratbench_stopper_drop(stopper);
        stratbench_drop(handle);
        %s
        stratbench_new(rt.alloc(), handle);
        stratbench_stopper_new(handle, stopper);
    }
}
"""


def calls():
    """A call of each export, in the order of the source."""
    exports = re.findall(r'pub (?:unsafe )?extern "C" fn (\w+)\((.*?)\)', contents(f"{CRATE}/src/exports.rt").decode(), re.DOTALL)
    for name, parameters in exports:
        pairs = [it.split(":") for it in parameters.split(",") if it.strip()]
        handed = [HANDED.get(type_.strip(), name_.strip()) for name_, type_ in pairs]
        yield f"let _ = {name}({', '.join(handed)});"


def for_c(text):
    """The text of the LLVM module of a program as that of a library: it shows the exports, by their names in C, and nothing else."""
    text = re.sub(r"^define (?!internal )", "define internal ", text, flags=re.MULTILINE)
    text = re.sub(r'@"stratbench_c::exports::(stratbench_\w+)"', r"@\1", text)
    return re.sub(r"^define internal (.*@stratbench_\w+\()", r"define \1", text, flags=re.MULTILINE)


def change(module, changed):
    """Changes the text of an LLVM module, which is compiled without the sanitizer that `rt try` asks for."""
    with open(module, encoding="utf-8", errors="surrogateescape") as it:
        text = changed(it.read().replace(" sanitize_address", ""))
    with open(module, "w", encoding="utf-8", errors="surrogateescape") as it:
        it.write(text)


def compile_module(module, to, *words):
    """Compiles the text of an LLVM module to an object."""
    words = ["--target=x86_64-unknown-linux-gnu", "-O2", "-ffunction-sections", "-fdata-sections", *words]
    subprocess.run([f"{kit()}/toolchain/bin/clang", *words, "-c", "-x", "ir", module, "-o", to], check=True)


def copied(room, crate):
    """Copies the sources of all crates into a folder, so that what is compiled leaves nothing in them. Returns the crate's folder there."""
    for folder in glob.glob(f"{TOP}/crates/*/src"):
        shutil.copytree(folder, f"{room}/crates/{os.path.basename(os.path.dirname(folder))}/src")
    with open(f"{room}/crates.txt", "w", encoding="utf-8") as it:
        it.write(contents(f"{TOP}/crates.txt").decode().replace("stratbench_c staticlib:", "stratbench_c:"))
    return f"{room}/crates/{crate}"


def compile_unproved(made):
    """Compiles the library without a proof. Returns whether that could be done."""
    with tempfile.TemporaryDirectory() as room:
        crate = copied(room, "stratbench_c")
        with open(f"{crate}/src/lib.rt", "a", encoding="utf-8") as it:
            it.write(CALLS % "\n        ".join(calls()))
        os.rename(f"{crate}/src/lib.rt", f"{crate}/src/main.rt")
        if not lowered(["rt", "try", "--steps", "1"], crate, made.llvm, False):
            return False
        change(made.llvm, for_c)
        compile_module(made.llvm, f"{room}/library.o", "-fPIC")
        with contextlib.suppress(FileNotFoundError):
            os.remove(made.archive)
        subprocess.run(["llvm-ar", "rcs", made.archive, f"{room}/library.o"], executable=f"{kit()}/toolchain/bin/clang", check=True)
    return True
