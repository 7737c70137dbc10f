#!/usr/bin/env python3
"""Measures what the gate costs: processor time and wall time of each crate.

Run by hand at the top of a clean clone, with nothing beside it:

    tools/measure/gate.py [--keep FILE] [WORD..]    runs `rt ci WORD..`, as with --anew, and watches its processes
    tools/measure/gate.py --read FILE               prints the tables again of what a run kept in FILE

The processes are looked at twice a second, so each counts up to half a second too little; the sums that the system itself
kept stand beside those of the tables. Printed are, for each crate, the minutes of processor time that its proof, its tests
and its wrong bodies took, then the longest chain of proofs, then totals. The exit status is that of `rt ci`.
"""

import json
import os
import re
import resource
import subprocess
import sys
import time

sys.dont_write_bytecode = True
sys.path.insert(0, os.path.dirname(os.path.dirname(os.path.realpath(__file__))))
from rattle_check import TOP, crates  # noqa: E402

TICKS = os.sysconf("SC_CLK_TCK")
PAGE = os.sysconf("SC_PAGE_SIZE")
PROOF, TESTS, EDITS = "proof", "tests", "wrong bodies"


# ---- watching


def processes():
    """Each process's parent, processor time, start and memory, by its number."""
    found = {}
    for name in os.listdir("/proc"):
        if name.isdigit():
            try:
                with open(f"/proc/{name}/stat") as it:
                    fields = it.read().rpartition(")")[2].split()
            except OSError:
                continue
            seconds = (int(fields[11]) + int(fields[12])) / TICKS
            found[int(name)] = (int(fields[1]), seconds, int(fields[19]), int(fields[21]) * PAGE)
    return found


def is_below(number, top, found):
    while number in found and number != top:
        number = found[number][0]
    return number == top


def words_of(number):
    """The command line of a process and where it runs, as far as it still lives."""
    try:
        with open(f"/proc/{number}/cmdline", "rb") as it:
            command = it.read().replace(b"\0", b" ").decode(errors="replace")
        return command, os.readlink(f"/proc/{number}/cwd")
    except OSError:
        return "", ""


def watch(words):
    """Runs the command and returns its status, its wall time, and what was seen of each process below it."""
    begun, seen = time.time(), {}
    run = subprocess.Popen(words, cwd=TOP, stdin=subprocess.DEVNULL)
    while run.poll() is None:
        time.sleep(0.5)
        now, found = time.time() - begun, processes()
        for number, (_, seconds, start, memory) in found.items():
            if not is_below(number, run.pid, found):
                continue
            one = seen.setdefault((number, start), {"first": now, "rss": 0, "cmd": ""})
            # a process that was just forked may have its parent's words
            if not one["cmd"] or now - one["first"] < 3:
                command, place = words_of(number)
                if command:
                    one["cmd"], one["cwd"] = command, place
            one.update(cpu=seconds, last=now, rss=max(one["rss"], memory))
    used = resource.getrusage(resource.RUSAGE_CHILDREN)
    run_data = {"wall": time.time() - begun, "done": run.returncode, "all": used.ru_utime + used.ru_stime}
    return {**run_data, "processors": os.cpu_count(), "seen": list(seen.values())}


# ---- reading what was seen


def task_of(process):
    """The crate that a process works for, and for what; None for what is no check."""
    crate = re.search(r"bin/rattle (?:build|check) .*--crate-name (\w+)", process["cmd"])
    if not crate:
        return None
    if "/rt-edit-" in process.get("cwd", ""):
        return crate[1], EDITS
    return crate[1], TESTS if " --test" in process["cmd"] else PROOF


def sums(seen):
    """The processor time, the begin and the end of each task, in seconds; and the time of all else."""
    tasks, rest = {}, 0
    for process in seen:
        key = task_of(process)
        if key is None:
            rest += process["cpu"]
            continue
        one = tasks.setdefault(key, {"cpu": 0, "first": process["first"], "last": 0})
        one["cpu"] += process["cpu"]
        one["first"], one["last"] = min(one["first"], process["first"]), max(one["last"], process["last"])
    return tasks, rest


def chain(tasks, below):
    """The proofs, last first, each of which waited for the next one."""
    ends = {crate: task["last"] for (crate, kind), task in tasks.items() if kind == PROOF}
    found, crate = [], max(ends, key=ends.get, default=None)
    while crate is not None:
        found.append(crate)
        crate = max((it for it in below.get(crate, []) if it in ends), key=ends.get, default=None)
    return found


def minutes(seconds):
    return f"{seconds / 60:.1f}" if seconds else ""


def report(data):
    tasks, rest = sums(data["seen"])
    below = crates()
    names = sorted({crate for crate, _ in tasks}, key=lambda it: [*below, it].index(it))
    print("\n| Crate | Proof | Tests | Wrong bodies | from minute | to minute |\n|---|---|---|---|---|---|")
    none = {"cpu": 0, "first": 0, "last": 0}
    for crate in names:
        proof, tests, edits = (tasks.get((crate, kind), none) for kind in (PROOF, TESTS, EDITS))
        costs = " | ".join(minutes(it["cpu"]) for it in (proof, tests, edits))
        print(f"| `{crate}` | {costs} | {proof['first'] / 60:.1f} | {proof['last'] / 60:.1f} |")
    totals = [sum(task["cpu"] for (_, of), task in tasks.items() if of == kind) for kind in (PROOF, TESTS, EDITS)]
    print(f"| all | {' | '.join(minutes(it) for it in totals)} | | |")
    links = chain(tasks, below)
    print("\nThe last proof to end and those that it waited for: " + ", ".join(f"`{it}`" for it in reversed(links)) + ".")
    largest = max((process["rss"] for process in data["seen"]), default=0) / 1e9
    print(
        f"\n{data['wall'] / 60:.0f} minutes on {data.get('processors', '?')} processors, {(sum(totals) + rest) / 60:.0f} of processor "
        f"time seen, {data.get('all', 0) / 60:.0f} by the system's count; {largest:.1f} GB in the largest process."
    )


def main(words):
    if words[:1] == ["--read"]:
        with open(words[1]) as it:
            report(json.load(it))
        return 0
    keep = None
    if words[:1] == ["--keep"]:
        keep, words = words[1], words[2:]
    data = watch(["rt", "ci", *words])
    if keep:
        with open(keep, "w") as it:
            json.dump(data, it)
    report(data)
    return data["done"]


if __name__ == "__main__":
    sys.exit(main(sys.argv[1:]))
