"""What is installed beside programs in C: the program, the library with its header and pkg-config file, the manual as man pages, completion for
shells, modules of strategies, and licences. A Debian package has that, and a tar file for other systems."""

import hashlib
import os
import subprocess
import tempfile
import time

from c_library import HEADER, SONAME
from checkout import TOP
from packing import completion, man
from packing.parts import Failed, File, Missing, compressed, contents, in_a_folder, licences, statement, tarred, text_of
from packing.wheel import least_libc

ARCHITECTURE = "amd64"
TRIPLE = "x86_64-linux-gnu"
ABOUT = "workbench for transforming program trees with Stratego strategies"


def pkg_config(prefix, libraries, number):
    return f"""prefix={prefix}
libdir=${{prefix}}/{libraries}
includedir=${{prefix}}/include

Name: stratbench
Description: Sessions of a {ABOUT}
Version: {number}
Cflags: -I${{includedir}}
Libs: -L${{libdir}} -lstratbench
""".encode()


def library(parts, folder, prefix):
    """The library for C: what programs are linked with, and what they find when they run."""
    real = f"libstratbench.so.{parts.number}"
    return {
        "include/stratbench.h": File(contents(HEADER)),
        f"{folder}/libstratbench.a": File(contents(parts.archive)),
        f"{folder}/{real}": File(contents(parts.shared)),
        f"{folder}/{SONAME}": File(b"", link=real),
        f"{folder}/libstratbench.so": File(b"", link=SONAME),
        f"{folder}/pkgconfig/stratbench.pc": File(pkg_config(prefix, folder, parts.number)),
    }


def manual(parts):
    """The manual as man pages."""
    date = time.strftime("%Y-%m-%d", time.gmtime(parts.when))
    for own, (name, section, _) in man.PAGES.items():
        yield f"share/man/man{section}/{name}.{section}.gz", File(compressed(man.page(own, parts.number, date).encode()))


def completions(folders):
    made = completion.bash(), completion.zsh(), completion.fish()
    return {name: File(text.encode()) for name, text in zip(folders, made)}


def strategies():
    """The modules that the program loads. Rules in a language's own syntax are for the client for Python."""
    for name in sorted(os.listdir(f"{TOP}/strategies")):
        if name.endswith(".str"):
            yield f"share/stratbench/strategies/{name}", File(contents(f"{TOP}/strategies/{name}"))


def files_of(parts, libraries, prefix, shells):
    """The files below a prefix."""
    return {
        "bin/stratbench": File(contents(parts.program), runs=True),
        **library(parts, libraries, prefix),
        **dict(manual(parts)),
        **completions(shells),
        **dict(strategies()),
        "share/stratbench/build.json": File(parts.about),
        "share/stratbench/GATE.txt": File(statement(parts.build)),
    }


# ---- a tar file


def tar(parts):
    """Returns the tar file, by its name. It works in any folder: what finds a file finds it from its own place."""
    shells = ["share/bash-completion/completions/stratbench", "share/zsh/site-functions/_stratbench", "share/fish/vendor_completions.d/stratbench.fish"]
    files = {**files_of(parts, "lib", "${pcfiledir}/../..", shells), **licences("share/doc/stratbench/")}
    name = f"stratbench-{parts.version}-linux-x86_64"
    return {f"{name}.tar.gz": tarred({f"{name}/{it}": file for it, file in files.items()}, parts.when)}


# ---- a Debian package


def copyright():
    mit = text_of(f"{TOP}/LICENSE-MIT").partition("\n\n")
    lines = [f" {line}" if line.strip() else " ." for line in mit[2].rstrip().split("\n")]
    return "\n".join([
        "Format: https://www.debian.org/doc/packaging-manuals/copyright-format/1.0/",
        "Upstream-Name: Werumbay",
        "",
        "Files: *",
        f"Copyright: {mit[0].removeprefix('Copyright (c) ')}",
        "License: Expat or Apache-2.0",
        "",
        "License: Expat",
        *lines,
        "",
        "License: Apache-2.0",
        " On Debian systems the text is in /usr/share/common-licenses/Apache-2.0.",
        "",
    ]).encode()  # fmt: skip


def control(parts, files):
    size = sum(len(it.text) for it in files.values()) // 1024 + 1
    proved = "The program is proved to meet its specification." if parts.is_proved else "This program was compiled without a proof."
    return "\n".join([
        "Package: stratbench",
        f"Version: {parts.version}",
        f"Architecture: {ARCHITECTURE}",
        "Section: devel",
        "Priority: optional",
        f"Depends: libc6 (>= 2.{least_libc(parts.program, parts.shared)})",
        f"Installed-Size: {size}",
        f"Maintainer: {maintainer()}",
        f"Description: {ABOUT}",
        " The program keeps named syntax trees, applies strategies to them, and undoes",
        " every step exactly. With the library for C, the manual as man pages,",
        " completion for shells, and modules of strategies.",
        " .",
        f" {proved}",
        f" It was made of the commit {parts.build['commit'][:12]} by {parts.build['kit'].split()[0]}.",
        "",
    ]).encode()  # fmt: skip


def maintainer():
    """Who made the commit."""
    return subprocess.run(["git", "show", "-s", "--format=%an <%ae>", "HEAD"], cwd=TOP, stdout=subprocess.PIPE, check=True, text=True).stdout.strip()


def debian(parts):
    """Returns the Debian package, by its name."""
    share = "share/doc/stratbench"
    shells = ["share/bash-completion/completions/stratbench", "share/zsh/vendor-completions/_stratbench", "share/fish/vendor_completions.d/stratbench.fish"]
    below = files_of(parts, f"lib/{TRIPLE}", "/usr", shells)
    below[f"{share}/copyright"] = File(copyright())
    below[f"{share}/changelog.gz"] = File(compressed(contents(f"{TOP}/CHANGELOG.md")))
    files = {f"usr/{name}": it for name, it in below.items()}
    sums = "".join(f"{md5(it.text)}  {name}\n" for name, it in sorted(files.items()) if not it.link)
    files["DEBIAN/control"] = File(control(parts, files))
    files["DEBIAN/md5sums"] = File(sums.encode())
    # the loader finds a shared object by a cache
    files["DEBIAN/triggers"] = File(b"activate-noawait ldconfig\n")
    return {f"stratbench_{parts.version}_{ARCHITECTURE}.deb": in_a_folder(files, parts.when, lambda folder: built(folder, parts.when))}


def built(folder, when):
    with tempfile.TemporaryDirectory() as room:
        words = ["dpkg-deb", "--build", "--root-owner-group", "-Zxz", "--threads-max=1", folder, f"{room}/made.deb"]
        try:
            ran = subprocess.run(words, env={**os.environ, "SOURCE_DATE_EPOCH": str(when)}, stdout=subprocess.PIPE, stderr=subprocess.STDOUT, text=True)
        except FileNotFoundError:
            raise Missing("there is no dpkg-deb, Debian's program that makes packages") from None
        if ran.returncode:
            raise Failed(f"dpkg-deb: {ran.stdout}")
        return contents(f"{room}/made.deb")


def md5(text):
    return hashlib.md5(text, usedforsecurity=False).hexdigest()
