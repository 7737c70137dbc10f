"""Tries the samples of docs/manual/team.md, with the wheel: the project is made as the page says, and what it says happens."""

import glob
import json
import os
import re
import shutil
import subprocess

from installing.rooms import System
from installing.shared import PAGES, SECONDS, got, needs, put, tried, want, want_in
from installing.wheel import QUIET
from packing.parts import Failed

PAGE = "docs/manual/team.md"
# Where the machine's own commands are.
SYSTEM = "/usr/bin:/bin"
COUNTED = "n = 0\nn = n + 1\n"


def samples():
    """The files that the page has, by their names."""
    return {name: text for name, text in re.findall(r"^```\w+ (\S+)\n(.*?)^```$", PAGES[PAGE], re.MULTILINE | re.DOTALL)}


SHOP = samples()["src/shop.py"]


class Project:
    """A repository with the files of the page, and the commands of an environment in PATH in which the wheel is installed."""

    def __init__(self, room, wheel, commands):
        self.folder, self.wheel = f"{room}/project", wheel
        os.makedirs(f"{self.folder}/src")
        self.variables = {"PATH": f"{commands}:{SYSTEM}", "HOME": room, "LANG": "C.UTF-8", "GIT_CONFIG_NOSYSTEM": "1", **QUIET}
        for name, text in samples().items():
            os.makedirs(os.path.dirname(f"{self.folder}/{name}") or ".", exist_ok=True)
            put(self.folder, name, text)
        os.chmod(f"{self.folder}/.githooks/pre-commit", 0o755)
        self.run("git init -q && git config user.name a && git config user.email a@b && git config core.hooksPath .githooks")

    def run(self, command, status=0):
        """Runs a line of a shell. Returns what it prints on both streams."""
        ran = subprocess.run(["sh", "-c", command], cwd=self.folder, env=self.variables, stdout=subprocess.PIPE, stderr=subprocess.STDOUT, text=True, timeout=SECONDS)
        if ran.returncode != status:
            raise Failed(f"{command[:100]}: status {ran.returncode}, and not {status}\n{ran.stdout[-1200:]}")
        return ran.stdout


def console(it):
    """Each command of the page prints what it says."""
    for block in re.findall(r"^```console\n(.*?)^```$", PAGES[PAGE], re.MULTILINE | re.DOTALL):
        for part in re.split(r"^\$ ", block, flags=re.MULTILINE)[1:]:
            command, _, wanted = part.partition("\n")
            want(it.run(command), wanted)


def hook(it):
    """The hook refuses a commit with the diff, and lets it through when the files are as the rules say."""
    want_in("+    if name not in seen:  # new", it.run("git add . && git commit -q -m first", status=1))
    it.run("git rev-parse HEAD", status=128)
    it.run("stratbench-refactor --rules rules/house.rules --write src")
    want(got(it.folder, "src/shop.py"), SHOP.replace("not name in seen", "name not in seen"))
    it.run("git add . && git commit -q -m first")
    it.run("git rev-parse HEAD")
    entry = re.search(r"entry: (.*)", samples()[".pre-commit-config.yaml"])[1]
    put(it.folder, "src/shop.py", SHOP)
    it.run(f"{entry} src/shop.py")
    want(got(it.folder, "src/shop.py"), SHOP.replace("not name in seen", "name not in seen"))


def steps(it):
    """The step of CI fails where a rule isn't followed, with a report that says where, and passes where all are."""
    put(it.folder, "src/shop.py", SHOP)
    it.run("sh ci.sh", status=1)
    report = json.loads(got(it.folder, "report.json"))
    want([(one["file"], one["places"]) for one in report["files"]], [("src/shop.py", [{"line": 2, "rule": None}])])
    it.run("stratbench-refactor --rules rules/house.rules --write src")
    it.run("sh ci.sh")
    put(it.folder, "src/counted.py", COUNTED)
    want_in("+n += 1", it.run("sh ci.sh", status=1))
    os.remove(f"{it.folder}/src/counted.py")


def workflow(it):
    """The lines of the workflow, one after the other."""
    os.mkdir(f"{it.folder}/vendor")
    shutil.copy(it.wheel, f"{it.folder}/vendor")
    lines = re.findall(r"^ +- run: (.*)$", samples()[".github/workflows/rules.yml"], re.MULTILINE)
    want(len(lines), 3)
    for line in lines:
        it.run(line)
    shutil.rmtree(f"{it.folder}/vendor")


def statuses(it):
    """Each status of the table."""
    put(it.folder, "src/shop.py", SHOP)
    it.run("stratbench-refactor --rules rules/house.rules src")
    it.run("stratbench-refactor --rules rules/house.rules --check src", status=1)
    put(it.folder, "wrong.rules", "rule Wrong\n$x == None -> $y\ntest: a == None => a\n")
    it.run("stratbench-refactor --rules wrong.rules --check src", status=2)
    put(it.folder, "failing.rules", "rule Failing\n$x == None -> $x is None\ntest: a == None => a\n")
    it.run("stratbench-refactor --rules failing.rules --test", status=1)
    put(it.folder, "src/broken.py", "def\n")
    it.run("stratbench-refactor --rules rules/house.rules --check src", status=3)
    it.run("stratbench-refactor --rules rules/house.rules --check src || test $? -eq 3")
    os.remove(f"{it.folder}/src/broken.py")
    it.run("sh version.sh")


def container(room, made, name, files, command, wanted):
    """The steps of a recipe, in a system of its own, but for the one that asks the network for packages: they have to be there."""
    system = System(room)
    lines = [it.partition(" ") for it in samples()[name].splitlines()]
    for word, _, rest in lines:
        if word == "COPY":
            for it in made.values():
                shutil.copy(it, f"{system.root}/tmp")
            if not glob.glob(f"{system.root}/tmp/{rest.split()[0]}"):
                raise Failed(f"{rest}: there is no such file")
        elif word == "RUN" and not rest.startswith("apt-get"):
            system.run("sh", "-c", rest, **QUIET)
    for place, text in files.items():
        put(system.work, place, text)
    want_in(wanted, system.run("sh", "-c", command, status=1))


def all_of(it, room, made, hides):
    yield "what the page shows", lambda: console(it)
    yield "the hook", lambda: hook(it)
    yield "the step of CI", lambda: steps(it)
    yield "the workflow", lambda: workflow(it)
    yield "statuses", lambda: statuses(it)
    if hides:
        last = json.loads(samples()["Dockerfile"].rpartition("CMD ")[2])
        rules = {"house.rules": samples()["rules/house.rules"], "shop.py": SHOP}
        command = "mkdir rules && mv house.rules rules && " + " ".join(last)
        os.mkdir(f"{room}/one")
        yield "the container with the wheel", lambda: container(f"{room}/one", made, "Dockerfile", rules, command, "+    if name not in seen:  # new")
    if hides and "debian" in made:
        os.mkdir(f"{room}/two")
        yield "the container with the program", lambda: container(
            f"{room}/two", made, "Dockerfile.program", {"script": "tree t a\nshow u\n"}, "stratbench script", "refused 5 notree"
        )


def trials(room, made, commands, hides):
    """Makes the trials of the page, with the commands of a folder. Returns how many failed."""
    is_there = lambda command: shutil.which(command, path=SYSTEM)
    if not is_there("git"):
        return tried("in a team", [("all", lambda: needs("git", has=is_there))])
    return tried("in a team", all_of(Project(room, made["wheel"], commands), room, made, hides))
