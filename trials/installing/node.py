"""Tries the package for node, with node and its command alone in PATH: the rows, and the command as it is called."""

import base64
import json
import os
import re
import shutil
import subprocess
import tarfile
from concurrent.futures import ThreadPoolExecutor

from deepest import OPEN_GROUP
from installing.shared import SECONDS, got, needs, put, session_of_readme, tried, version_of, want, want_in
from packing.parts import Failed, contents
from workbench import TOP, files_of_rows, left_out, rows_of

# The options of rows that the package has. A line that is wrong is said in other words, and a refused budget too.
TAKEN = {"--lines", "--library", "--explain", "--explain=json", "--explain-json", "--module", "--tree", "--write", "--pretty", "--steps", "--max-steps", "--max-terms", "--stop", "-i", "--interactive", "--version", "-V", "--"}
ROWS = [(os.path.basename(path), row) for path in files_of_rows() for row in rows_of(path)]
TESTS = {name: contents(f"{TOP}/clients/node/tests/{name}") for name in sorted(os.listdir(f"{TOP}/clients/node/tests"))}


def is_taken(row):
    """Whether the package does what a row asks for: it has the options, and the row is about no wrong one."""
    options = {it.partition("=")[0] if it.startswith(("--module", "--tree", "--write", "--steps", "--max-")) else it for it in row.options if it.startswith("-")}
    return options <= TAKEN and row.status != 2


class Package:
    """The package, unpacked. Its command and node are alone in PATH."""

    def __init__(self, room, file):
        self.node, self.room, self.work = shutil.which("node"), f"{room}/package", f"{room}/work"
        os.mkdir(self.work)
        os.mkdir(f"{room}/bin")
        os.symlink(self.node, f"{room}/bin/node")
        os.symlink(f"{self.room}/stratbench.mjs", f"{room}/bin/stratbench")
        self.variables = {"PATH": f"{room}/bin", "HOME": self.work}
        with tarfile.open(file) as tar:
            tar.extractall(room)
        for name, text in TESTS.items():
            with open(f"{room}/{name}", "wb") as it:
                it.write(text)
        self.tests = room

    def command(self, *words, given="", status=0):
        """Runs the command. Returns what it prints on both streams."""
        ran = self.ran([f"{self.room}/stratbench.mjs", *words], given)
        if ran.returncode != status:
            raise Failed(f"{' '.join(words)[:80]}: status {ran.returncode}\n{ran.stdout[-600:]}{ran.stderr[-1200:]}")
        return ran.stdout, ran.stderr

    def ran(self, words, given=""):
        return subprocess.run([self.node, *words], cwd=self.work, env=self.variables, input=given, text=True, timeout=SECONDS, stdout=subprocess.PIPE, stderr=subprocess.PIPE)


def coded(text):
    return base64.b64encode(text).decode()


def runs_of(row):
    """How a row is run, as trials/rows does: the words before its options, and what is said then."""
    yield [], row.said or b""
    if row.explained is not None:
        yield ["--explain"], row.explained


def rows(package, share, of):
    """Every `of`th row, from this one on, is answered and explained as it says. Returns how many were run, and what is wrong."""
    cases = [(name, row, more, said) for name, row in ROWS if is_taken(row) for more, said in runs_of(row)][share::of]
    given = "".join(
        json.dumps({"words": [*more, *row.options], "script": coded(row.script), "files": {name: coded(text) for name, text in row.files.items()}}) + "\n"
        for _, row, more, _ in cases
    )
    ran = package.ran(["--stack-size=3000", f"{package.tests}/rows.mjs", package.room], given)
    lines = ran.stdout.splitlines()
    if len(lines) != len(cases):
        raise Failed(f"{len(lines)} of {len(cases)} rows are answered: {ran.stderr[-1200:]}")
    wrong = []
    for (name, row, more, said), line in zip(cases, lines):
        told = json.loads(line)
        found = base64.b64decode(told["out"]), base64.b64decode(told["said"]), told["status"]
        # nobody says that a group is open at the end
        wanted = row.answers, re.sub(rb"stratbench: " + OPEN_GROUP.pattern, b"", said), row.status
        if found != wanted:
            wrong.append(f"{name}: {row.name} {more}: {found}, and not {wanted}"[:600])
    return len(cases), wrong


def all_rows(package):
    """The rows, in as many processes as there are processors."""
    of = min(4, os.cpu_count() or 1)
    with ThreadPoolExecutor(of) as pool:
        outcomes = list(pool.map(lambda share: rows(package, share, of), range(of)))
    wrong = [it for _, faults in outcomes for it in faults]
    count = sum(it for it, _ in outcomes)
    print(f"  {count} runs of {sum(is_taken(row) for _, row in ROWS)} of {len(ROWS)} rows")
    if wrong or not count:
        raise Failed("\n".join([f"{len(wrong)} differ", *wrong[:5]]))


def session(package):
    module, script, answers = session_of_readme()
    put(package.work, "arith.str", module)
    out, said = package.command("--library", "--explain", "--module", "arith=arith.str", given=script, status=1)
    want(out.splitlines(), answers)
    want_in("did you mean `Unit`? it takes no arguments", said)


def files(package):
    """Modules and trees from files, and a tree to a file, which keeps what it was before a refusal."""
    put(package.work, "swap.str", "module swap\nrules\n  Swap : (x,y) -> (y,x)\n")
    put(package.work, "in.aterm", "(1,2)\n")
    package.command("--module", "swap=swap.str", "--tree", "t=in.aterm", "--write", "t=out.aterm", given="apply t do Swap\n")
    want(got(package.work, "out.aterm"), "(2,1)\n")
    _, said = package.command("--tree", "t=none.aterm", status=3)
    want(said, "stratbench: read fault: none.aterm\n    No such file or directory (os error 2)\n")
    _, said = package.command("/dev/zero", status=3)
    want(said, "stratbench: read fault\nstratbench: can't read /dev/zero\n    a line has more than 100000000 bytes\n")
    _, said = package.command(".", status=3)
    want(said, "stratbench: read fault\nstratbench: can't read .\n    Is a directory (os error 21)\n")
    put(package.work, "bad\n.aterm", "f(\n")
    _, said = package.command("--tree", "t=bad\n.aterm", status=1)
    want(said, "stratbench: bad\\n.aterm: refused 7 term\n")
    os.remove(f"{package.work}/bad\n.aterm")
    os.symlink("nowhere", f"{package.work}/link")
    _, said = package.command("--tree", "t=in.aterm", "--write", "t=link", status=3)
    want(said, "stratbench: write fault: link\n    a link to no file\n")
    want(sorted(os.listdir(package.work)), ["arith.str", "in.aterm", "link", "out.aterm", "swap.str"])


def talks(package):
    """With `--lines` each command is answered before the next is sent."""
    words = [package.node, f"{package.room}/stratbench.mjs", "--lines"]
    with subprocess.Popen(words, cwd=package.work, env=package.variables, stdin=subprocess.PIPE, stdout=subprocess.PIPE) as ran:
        for command, wanted in ((b"tree e f(a,b)\n", b"ok\n"), (b"show e at /1\n", b"b\n"), (b"show u\n", b"refused 5 notree\n")):
            ran.stdin.write(command)
            ran.stdin.flush()
            want(ran.stdout.readline(), wanted)
        ran.stdin.close()
        want(ran.wait(SECONDS), 1)


def lacks(package):
    """An option that only the program has is refused in a sentence, and so is a wrong one."""
    _, said = package.command("--profile", status=2)
    want_in("'--profile' needs the program", said)
    _, said = package.command("--frob", status=2)
    want_in("unexpected argument '--frob' found", said)
    shown, _ = package.command("--help")
    want_in("--module <NAME=FILE>  Loads a module from a file", shown)


def deep(package):
    """The command has a stack for the highest tree, and for a strategy that goes down in it."""
    tree = "[" * 1000 + "]" * 1000
    out, said = package.command("--library", given=f"tree t {tree}\napply t within 1000000 do bottomup(id)\nshow t\n")
    want((out, said), (f"ok\nok\n{tree}\n", ""))


def own_readme(package):
    """The samples of the package's README: a script, and sessions for programs in node."""
    text = got(package.room, "README.md")
    [(line, wanted)] = re.findall(r"^    (printf .*)\n\nanswers\n\n((?:    .*\n)+)", text, re.MULTILINE)
    ran = subprocess.run(["/bin/sh", "-c", line], env=package.variables, stdout=subprocess.PIPE, stderr=subprocess.STDOUT, text=True, timeout=SECONDS)
    want(ran.stdout, re.sub("^    ", "", wanted, flags=re.MULTILINE))
    os.makedirs(f"{package.work}/node_modules")
    os.symlink(package.room, f"{package.work}/node_modules/stratbench")
    [program] = re.findall(r"^```js\n(.*?)^```$", text, re.MULTILINE | re.DOTALL)
    put(package.work, "mine.mjs", program)
    ran = package.ran(["mine.mjs"])
    want((ran.stdout, ran.stderr), ("ok\n(2,1)\n\n", ""))


def versions(package, build):
    want(package.command("--version")[0], version_of(build, "module"))
    want(json.loads(got(package.room, "build.json")), build)
    ran = package.ran([f"{package.tests}/versions.mjs", package.room])
    want((ran.stdout, ran.returncode), ("", 0))


def by_npm(package, room, file, build):
    """npm installs the command, and takes it away without a trace."""
    npm, folder = os.path.realpath(shutil.which("npm")), f"{room}/npm"
    os.mkdir(folder)
    files = lambda: sorted(os.path.join(place, it) for place, _, names in os.walk(f"{folder}/prefix") for it in names)

    def asked(*words):
        variables = {"PATH": package.variables["PATH"], "HOME": folder}
        subprocess.run([package.node, npm, *words, "--global", "--offline", "--prefix", f"{folder}/prefix"], env=variables, check=True, stdout=subprocess.PIPE, stderr=subprocess.STDOUT, timeout=SECONDS)

    asked("install", file)
    ran = subprocess.run([f"{folder}/prefix/bin/stratbench", "--version"], env=package.variables, stdout=subprocess.PIPE, text=True, timeout=SECONDS)
    want(ran.stdout, version_of(build, "module"))
    asked("uninstall", "stratbench")
    want(files(), [])


def trials(room, file, build):
    """Makes the trials of the package. Returns how many failed."""
    if not shutil.which("node"):
        return tried("package for node", [("all", lambda: needs("node"))])
    package = Package(room, file)
    every = [
        ("the rows", lambda: all_rows(package)), ("README's session", lambda: session(package)), ("files", lambda: files(package)),
        ("line by line", lambda: talks(package)), ("what it lacks", lambda: lacks(package)), ("deep trees", lambda: deep(package)),
        ("its own README", lambda: own_readme(package)), ("versions", lambda: versions(package, build)),
    ]  # fmt: skip
    # Debian's npm is hundreds of packages, so it isn't installed for this
    if shutil.which("npm"):
        every.append(("by npm", lambda: by_npm(package, room, file, build)))
    else:
        left_out("package for node: by npm", "there is no npm")
    return tried("package for node", every)
