"""The wheel for Python: the client with its commands, the program, the library for C, and the modules and rules of strategies/."""

import base64
import hashlib
import io
import os
import re
import time
import zipfile

from checkout import TOP
from packing.parts import LICENCES, contents

CLIENT = f"{TOP}/clients/python"
# The commands, and the functions that they call.
COMMANDS = {
    "stratbench-refactor": "stratbench.refactor.command:main",
    "stratbench-shell": "stratbench.shell:main",
    "stratbench-server": "stratbench.server.server:main",
}


def project(name):
    """A text of pyproject.toml."""
    found = re.search(rf'^{name} = (?:"(.*)"|\{{text = "(.*)"\}})$', contents(f"{CLIENT}/pyproject.toml").decode(), re.MULTILINE)
    return found[1] or found[2]


def extras():
    """The optional dependencies, by their names."""
    part = re.search(r"^\[project.optional-dependencies\]\n(.*?)\n\n", contents(f"{CLIENT}/pyproject.toml").decode(), re.MULTILINE | re.DOTALL)
    return {name: re.findall(r'"(.*?)"', rest) for name, rest in re.findall(r"^(\w+) = \[(.*)\]$", part[1], re.MULTILINE)}


def least_libc(*programs):
    """The least minor version of the C library 2 that has each version of a symbol that these want."""
    found = {int(it) for program in programs for it in re.findall(rb"\0GLIBC_2\.(\d+)(?=[.\0])", contents(program))}
    return max(found | {17})


def metadata(version):
    lines = ["Metadata-Version: 2.1", "Name: stratbench", f"Version: {version}", f"Summary: {project('description')}"]
    lines += [f"License: {project('license')}", f"Requires-Python: {project('requires-python')}"]
    for name, wanted in extras().items():
        lines += [f"Provides-Extra: {name}", *(f'Requires-Dist: {it}; extra == "{name}"' for it in wanted)]
    return "\n".join([*lines, *(f"License-File: {it}" for it in LICENCES), ""]).encode()


def files_of(parts, tag):
    """The files of the wheel, by their names."""
    found = {}
    for place, folders, names in os.walk(f"{CLIENT}/stratbench"):
        folders[:] = [it for it in folders if it != "__pycache__"]
        for name in names:
            if not name.endswith(".pyc"):
                path = os.path.join(place, name)
                found[os.path.relpath(path, CLIENT)] = contents(path)
    for name in sorted(os.listdir(f"{TOP}/strategies")):
        if name.endswith((".str", ".rules")):
            found[f"stratbench/strategies/{name}"] = contents(f"{TOP}/strategies/{name}")
    found["stratbench/libstratbench.so"] = contents(parts.shared)
    found["stratbench/build.json"] = parts.about
    about, data = f"stratbench-{parts.version}.dist-info", f"stratbench-{parts.version}.data"
    found[f"{data}/scripts/stratbench"] = contents(parts.program)
    found[f"{about}/METADATA"] = metadata(parts.version)
    found[f"{about}/entry_points.txt"] = "\n".join(["[console_scripts]", *(f"{name} = {it}" for name, it in COMMANDS.items()), ""]).encode()
    found[f"{about}/WHEEL"] = f"Wheel-Version: 1.0\nGenerator: tools/package\nRoot-Is-Purelib: false\nTag: {tag}\n".encode()
    for name in LICENCES:
        found[f"{about}/licenses/{name}"] = contents(f"{TOP}/{name}")
    return found


def recorded(found, about):
    """The list of the files with their checksums, which a wheel has."""
    lines = []
    for name, text in sorted(found.items()):
        number = base64.urlsafe_b64encode(hashlib.sha256(text).digest()).rstrip(b"=").decode()
        lines.append(f"{name},sha256={number},{len(text)}")
    return "\n".join([*lines, f"{about}/RECORD,,", ""]).encode()


def make(parts):
    """Returns the wheel, by its name."""
    tag = f"py3-none-manylinux_2_{least_libc(parts.program, parts.shared)}_x86_64"
    found = files_of(parts, tag)
    about = f"stratbench-{parts.version}.dist-info"
    found[f"{about}/RECORD"] = recorded(found, about)
    made, when = io.BytesIO(), time.gmtime(parts.when)[:6]
    with zipfile.ZipFile(made, "w", zipfile.ZIP_DEFLATED) as it:
        for name, text in sorted(found.items()):
            entry = zipfile.ZipInfo(name, when)
            entry.compress_type = zipfile.ZIP_DEFLATED
            entry.external_attr = (0o100755 if name.endswith(("scripts/stratbench", ".so")) else 0o100644) << 16
            it.writestr(entry, text)
    return {f"stratbench-{parts.version}-{tag}.whl": made.getvalue()}
