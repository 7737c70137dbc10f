"""Measures the refactoring command on files of JavaScript beside recast, the core of jscodeshift.

Run by hand at the top of the repository, after the program was built (README has the command):

    python3 tools/measure/javascript.py [PROGRAM]

It needs node with Debian's node-babel7 and node-recast. The files are two hundred of Debian's packages for node, and the rules those that
`clients/python/tests/peer.js` has for recast. Times are those of the processor, of a command with all its processes, start included. For
recast they are those of a process that parses, applies the rule and prints. Both are measured by turns, so that a machine that is busy for a
while is busy for both, and each time is the least of three.
"""

import os
import resource
import subprocess
import sys
import tempfile

from measure import TOP, built_program, heading

sys.path[:0] = [f"{TOP}/clients/python", f"{TOP}/clients/python/tests"]
import try_javascript  # noqa: E402

TIMES = 3
RULES = ["argument", "includes", "template", "typeof", "require"]
# The rules of the peer, on files by their names.
RECAST = """
const fs = require('fs'), [peer, names, rule] = process.argv.slice(1)
eval(fs.readFileSync(peer, 'utf8').split("let input = ''")[0] + `
for (const name of fs.readFileSync(names, 'utf8').split('\\\\n')) {
  try { const tree = recast.parse(fs.readFileSync(name, 'utf8'), { parser: { parse } }); RULES[rule](tree); recast.print(tree, { quote: 'single' }).code } catch {}
}`)
"""


def spent(words, environment):
    """The seconds of the processor that a command takes, and what it says."""
    before = resource.getrusage(resource.RUSAGE_CHILDREN)
    said = subprocess.run(words, env={**os.environ, **environment}, capture_output=True).stderr.decode()
    after = resource.getrusage(resource.RUSAGE_CHILDREN)
    return after.ru_utime + after.ru_stime - before.ru_utime - before.ru_stime, said


def main():
    program = built_program()
    work = try_javascript.files(200)
    lines = sum(contents.count(b"\n") for _, contents in work)
    heading("The refactoring command on JavaScript beside recast")
    print(f"{len(work)} files, {lines:,} lines, {sum(len(it) for _, it in work):,} bytes\n")
    print("| Seconds of the processor | files that change | recast | the command | times as long |\n|---|---|---|---|---|")
    with tempfile.TemporaryDirectory() as room:
        with open(f"{room}/names", "w") as it:
            it.write("\n".join(name for name, _ in work))
        for rule in RULES:
            strategy = try_javascript.RULES[rule]
            words = [sys.executable, "-m", "stratbench.refactor", "--modules", f"{TOP}/strategies", "--do", strategy, *(name for name, _ in work)]
            peer = ["node", "-e", RECAST, f"{TOP}/clients/python/tests/peer.js", f"{room}/names", rule]
            ours = theirs = float("inf")
            for _ in range(TIMES):
                took, said = spent(words, {"PYTHONPATH": f"{TOP}/clients/python", "STRATBENCH": program})
                ours = min(ours, took)
                theirs = min(theirs, spent(peer, {"NODE_PATH": "/usr/share/nodejs:/usr/lib/nodejs"})[0])
            changed = said.strip().split("\n")[-1].split(" of ")[0]
            shown = strategy.replace("|", "\\|")
            print(f"| `{shown}` | {changed} | {theirs:.2f} | {ours:.2f} | {ours / theirs:.2f} |", flush=True)


if __name__ == "__main__":
    main()
