"""What the trials of the built program share: the rows, and runs of a script with the answer to each command apart. Where they find what they
share with the tools (tools/checkout.py), too.

A command is complete when the first byte of the next has come, and is answered before the program reads on. So a run whose
reads end one byte into each command tells where each answer ends, and how many growths of memory it took.
"""

import atexit
import glob
import os
import re
import resource
import shlex
import shutil
import subprocess
import sys
import tempfile
from typing import Dict, List, NamedTuple, Optional

sys.path.append(f"{os.path.dirname(os.path.dirname(os.path.realpath(__file__)))}/tools")
from checkout import LEFT_OUT, PROGRAM, TOP, UNPROVED, as_module, commands_of, contents, installed, left_out, library  # noqa: E402, F401

# The refusals, by number.
WORDS = (
    "memory line long name notree nomodule term deep path syntax check fails spent big noundo noredo group nogroup".split()
)
KINDS = "parameter twice clash unknown undeclared wild primitive"
REFUSAL = re.compile(
    rb"refused (?:%s|11 (?:%s) \S.* \d+ \d+)\n"
    % (
        b"|".join(b"%d %s" % (number, word.encode()) for number, word in enumerate(WORDS, 1) if number != 11),
        KINDS.replace(" ", "|").encode(),
    )
)
NO_MEMORY = b"refused 1 memory\n"

# The commands that take no memory, from their text to their answer.
WITHOUT_MEMORY = (b"undo", b"redo", b"begin", b"abandon")


class Ended(Exception):
    """A run that ended in a way that no run may."""


def word_of(command):
    """Returns the first word of a command."""
    return command.split()[0] if command.split() else b""


class Row(NamedTuple):
    """A script, the options of the program, and what comes out, as rows/README.md describes them. None is what a row
    doesn't say."""

    name: str
    options: List[str]
    script: bytes
    files: Dict[str, bytes]
    answers: bytes
    explained: Optional[bytes]
    said: Optional[bytes]
    status: int


ROW = re.compile(rb"% (?P<name>.+?)(?: \| (?P<options>.*))?")
SECTION = re.compile(rb"= (answers|explained|said|status \d+|file \S+)")
REPEATED = re.compile(rb"\{([^{}]+)\*(\d+)\}")
ESCAPED = re.compile(rb"\\(?:x([0-9a-f]{2})|([rnt0\\]))")
BYTES = {b"r": b"\r", b"n": b"\n", b"t": b"\t", b"0": b"\0", b"\\": b"\\"}


def spelled(line):
    """The bytes that a line of a row of bytes spells."""
    line = REPEATED.sub(lambda it: it[1] * int(it[2]), line)
    return ESCAPED.sub(lambda it: bytes([int(it[1], 16)]) if it[1] else BYTES[it[2]], line)


def text_of(section, lines, is_of_bytes):
    """The text of these lines of a section; that of the script has no name."""
    if is_of_bytes:
        lines = [spelled(line) for line in lines]
        # The last line of what is read may lack its line feed.
        if not section or section.startswith("file "):
            return b"\n".join(lines)
    return b"".join(line + b"\n" for line in lines)


def row_of(head, sections):
    """The row with this first line, and these names and lines of sections."""
    options = shlex.split((head["options"] or b"").decode())
    texts = {section: text_of(section, lines, "bytes" in options) for section, lines in sections}
    if len(texts) < len(sections) or "answers" not in texts:
        raise ValueError("a section comes twice, or there are no answers")
    status = next((int(it.split()[1]) for it in texts if it.startswith("status ")), None)
    return Row(
        name=head["name"].decode(),
        options=[it for it in options if it != "bytes"],
        script=texts[""],
        files={it.split()[1]: text for it, text in texts.items() if it.startswith("file ")},
        answers=texts["answers"],
        explained=texts.get("explained"),
        said=texts.get("said"),
        status=int(b"\nrefused " in b"\n" + texts["answers"]) if status is None else status,
    )


def rows_of(path):
    """The rows of a file."""
    with open(path, "rb") as it:
        lines = it.read().removesuffix(b"\n").split(b"\n")
    rows, head, sections = [], None, []
    for number, line in enumerate([*lines, None], 1):
        begun = line and ROW.fullmatch(line)
        section = line and SECTION.fullmatch(line)
        if line is None or begun:
            try:
                rows += [row_of(head, sections)] if head else []
            except ValueError as why:
                raise ValueError(f"{path}: the row before line {number}: {why}") from None
            head, sections = begun, [("", [])]
        elif head and section:
            sections.append((section[1].decode(), []))
        elif head:
            sections[-1][1].append(line)
        elif line and not line.startswith(b"#"):
            raise ValueError(f"{path}, line {number}: no row has begun")
    names = [row.name for row in rows]
    if len(names) != len(set(names)):
        raise ValueError(f"{path}: two rows have the name {max(names, key=names.count)!r}")
    return rows


def files_of_rows(kind="rows"):
    """The paths of all files of rows, or of tables."""
    return sorted(glob.glob(f"{TOP}/rows/**/*.{kind}", recursive=True))


class Workbench:
    """The built program, whose runs the preloaded library watches."""

    def __init__(self, program=PROGRAM):
        self.program = os.path.abspath(program)
        self.room = tempfile.mkdtemp(prefix="stratbench-")
        atexit.register(shutil.rmtree, self.room, ignore_errors=True)
        self.library = f"{self.room}/growths.so"
        built = [os.environ.get("CC", "cc"), "-O2", "-shared", "-fPIC", "-Wall", "-o", self.library, f"{TOP}/trials/growths.c"]
        subprocess.run(built, check=True)

    def run(self, script, words=(), refused=None, ends=(), log=None, seconds=10, limits=None):
        """Returns what the program writes to its outputs, and its status. `refused` is the first and the last growth of memory
        that is refused, `ends` are places that no read goes past, `limits` a function that is called in the new process."""
        environment = {"LD_PRELOAD": self.library, "PATH": os.environ["PATH"]}
        if refused:
            environment["GROWTHS_REFUSED"] = "%d %d" % refused
        if ends:
            environment["INPUT_ENDS"] = " ".join(map(str, ends))
        if log:
            environment["GROWTHS_LOG"] = log
        with subprocess.Popen(
            [self.program, *words], env=environment, stdin=subprocess.PIPE, stdout=subprocess.PIPE, stderr=subprocess.PIPE,
            preexec_fn=limits, cwd=self.room,
        ) as ran:
            try:
                out, said = ran.communicate(script, timeout=seconds)
            except subprocess.TimeoutExpired:
                ran.kill()
                raise Ended(f"no end after {seconds} seconds")
        if ran.returncode < 0:
            raise Ended(f"ended by signal {-ran.returncode}")
        return out, said, ran.returncode

    def spent(self, script, seconds=600):
        """Returns the processor seconds of a run, the most memory that it took, in KB, and what it writes."""
        log = f"{self.room}/log-{os.getpid()}"
        open(log, "wb").close()
        before = resource.getrusage(resource.RUSAGE_CHILDREN)
        out, _, _ = self.run(script, log=log, seconds=seconds)
        after = resource.getrusage(resource.RUSAGE_CHILDREN)
        with open(log) as it:
            peak = int(it.read().split()[-1])
        return after.ru_utime + after.ru_stime - before.ru_utime - before.ru_stime, peak, out

    def answers(self, commands, **named):
        """Returns the answer to each of these commands and the number of growths after each, that at the start in front."""
        script, ends = b"", []
        for command in commands:
            # A line of carriage returns alone is empty: the first other byte of a line completes the command before it.
            ends.append(len(script) + len(command) - len(command.lstrip(b"\r")) + 1)
            script += command + b"\n"
        log = f"{self.room}/log-{os.getpid()}"
        open(log, "wb").close()
        out, said, status = self.run(script, ends=ends[1:], log=log, **named)
        with open(log) as it:
            lines = [tuple(map(int, line.split())) for line in it if line[0] != "p"]
        # after each command but the last the program reads on there, the last is answered at the end
        last_at = {read: (growths, written) for read, growths, written in lines}
        notes = [lines[0][1:], *[last_at[end] for end in ends[1:]], *[lines[-1][1:]][: len(commands)]]
        if status not in (0, 1):
            raise Ended(f"status {status}: {said.decode(errors='replace')}")
        if said:
            raise Ended(f"written to standard error: {said.decode(errors='replace')}")
        if notes[-1][1] != len(out):
            raise Ended(f"{notes[-1][1]} bytes written, and {len(out)} seen")
        wanted = 1 if any(REFUSAL.fullmatch(out[a[1] : b[1]]) for a, b in zip(notes, notes[1:])) else 0
        if status != wanted:
            raise Ended(f"status {status}, for answers that mean {wanted}")
        return [out[a[1] : b[1]] for a, b in zip(notes, notes[1:])], [it[0] for it in notes]


def shown(command, most=70):
    """Returns the command on one line, cut where it is long."""
    text = command.decode(errors="backslashreplace").replace("\n", " ")
    return text if len(text) <= most else text[: most - 3] + "..."


def misfits(value, schema, whole=None, where="it"):
    """Says where a value doesn't fit a JSON schema, of which the words are known that ours has."""
    whole = whole or schema
    if "$ref" in schema:
        name = schema["$ref"].removeprefix("#/$defs/")
        yield from misfits(value, whole["$defs"][name], whole, where)
        return
    kinds = {"object": dict, "array": list, "string": str, "integer": int, "null": type(None)}
    wanted = schema.get("type", [])
    wanted = [wanted] if isinstance(wanted, str) else wanted
    if wanted and (isinstance(value, bool) or not isinstance(value, tuple(kinds[it] for it in wanted))):
        yield f"{where} is no {' or '.join(wanted)}"
        return
    if "enum" in schema and value not in schema["enum"]:
        yield f"{where} is {value!r}"
    if isinstance(value, int) and not schema.get("minimum", value) <= value <= schema.get("maximum", value):
        yield f"{where} is {value}"
    if isinstance(value, list):
        if not schema.get("minItems", 0) <= len(value) <= schema.get("maxItems", len(value)):
            yield f"{where} has {len(value)} items"
        for number, item in enumerate(value):
            yield from misfits(item, schema.get("items", {}), whole, f"{where}[{number}]")
    if isinstance(value, dict):
        known = schema.get("properties", {})
        yield from (f"{where} has no {name}" for name in schema.get("required", ()) if name not in value)
        yield from (f"{where} has {name}" for name in value if schema.get("additionalProperties") is False and name not in known)
        for name, item in value.items():
            yield from misfits(item, known.get(name, {}), whole, f"{where}.{name}")
