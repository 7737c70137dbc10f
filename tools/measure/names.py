"""Counts the steps that new names take in a pass that makes many: a thousand random sums, up to eight deep and wide, to assignments of one
operator.

Run by hand at the top of the repository, after the program was built (README has the command):

    python3 tools/measure/names.py [PROGRAM]

The pass hands on what it needs for the next name: the list of all names, for `newname`; or a number, which `fresh-number` looked for once.
Beside them stands the same pass with one name for all, which is wrong, but shows what the rest takes. Printed are steps of a tree, and how
many trees take more than the 100,000 of the budget that an `apply` has where none is named. The answers of the first two are the same but
for the names.
"""

import random
import re
import subprocess

from measure import TOP, built_program, heading

MODULES = [word for name in ("lists", "terms", "names") for word in ("--module", f"{name}={TOP}/strategies/{name}.str")]
# What is handed on for names at first, and how the next name comes of it.
NAMES = {
    "`newname`, the names as a list": ("collect(is-string); nub", "<newname(|n)> \"t\" => x; ![x|n] => m"),
    "`fresh-number`, a number": ('fresh-number(|"t")', 'prim("int-to-string",n) => k; prim("strcat","t",k) => x; prim("addi",n,1) => m'),
    "one name for all": ("![]", '!"t" => x; !n => m'),
}
PASS = r"""module pass
  signature constructors Assign : str * exp -> statement  Plus : exp * exp -> exp  Call : str * list(exp) -> exp  Var : str -> exp  Num : int -> exp
  rules
    // of what is known of names, the statements so far and an expression
    Simple : (n,ss,Plus(a,b)) -> (m,ts,Plus(c,d)) where <atom> (n,ss,a) => (k,rs,c); <atom> (k,rs,b) => (m,ts,d)
    Simple : (n,ss,Call(f,as)) -> (m,ts,Call(f,bs)) where <atoms> (n,ss,as) => (m,ts,bs)
    Simple : (n,ss,e) -> (n,ss,e)
    Named : (n,ss,e) -> (m,[Assign(x,e)|ss],Var(x)) where %s
  strategies
    atom = (id,id,?Var(_) <+ ?Num(_)) <+ Simple; Named
    atoms = (id,id,[]) <+ ?(n,ss,[a|as]); <atom> (n,ss,a) => (k,rs,b); <atoms> (k,rs,as) => (m,ts,bs); !(m,ts,[b|bs])
    pass = ?Assign(y,e); %s => n; <Simple> (n,[],e) => (_,ss,s); <reverse(|[Assign(y,s)])> ss
"""


def expression(chance, depth):
    """A sum of so many levels, or a call of several arguments, one of which has these."""
    if depth == 0:
        return f'Var("{chance.choice("abcxyz")}")' if chance.random() < 0.7 else f"Num({chance.randrange(100)})"
    parts = [expression(chance, depth - 1)]
    parts += [expression(chance, chance.choice([0, 0, max(depth - 2, 0), depth - 1])) for _ in range(1 if chance.random() < 0.7 else chance.randrange(1, 6))]
    chance.shuffle(parts)
    return f"Plus({parts[0]},{parts[1]})" if len(parts) == 2 else f'Call("f",[{",".join(parts)}])'


def assignment(chance):
    """An assignment of at most sixty sums and calls."""
    while True:
        found = f'Assign("x",{expression(chance, chance.choice([2, 4, 6, 8]))})'
        if found.count("Plus") + found.count("Call") <= 60:
            return found


def numbered(text):
    """The text with the new names by the order in which they come."""
    seen = {}
    return re.sub(r'"t\d*"', lambda it: f'"t{seen.setdefault(it[0], len(seen))}"', text)


def tried(program, trees, first, following):
    """The steps for each tree, and what comes of it."""
    script = PASS % (following, first) + "".join(f"tree t {it}\npreview t do pass\n" for it in trees)
    words = ["--library", "--max-steps", "4000000", "--steps", "4000000", *MODULES]
    ran = subprocess.run([program, *words], input=script.encode(), capture_output=True, check=True)
    found = re.findall(r"^changes 1 steps (\d+)\n/ .* => (.*)$", ran.stdout.decode(), re.MULTILINE)
    assert len(found) == len(trees), ran.stdout
    return [int(steps) for steps, _ in found], [numbered(it) for _, it in found]


def main():
    program, chance = built_program(), random.Random(96)
    trees = [assignment(chance) for _ in range(1000)]
    found = {kind: tried(program, trees, *it) for kind, it in NAMES.items()}
    (_, searched), (_, counted), (rest, _) = found.values()
    assert searched == counted
    heading("New names: steps of a pass that makes many")
    print(f"Names a tree: {sum(it.count('Assign') - 1 for it in counted) / len(trees):.0f}.\n")
    print("| Names by | steps, a tree | the longest | for names | over 100,000 |")
    print("|---|---|---|---|---|")
    for kind, (steps, _) in found.items():
        share = 1 - sum(rest) / sum(steps)
        print(f"| {kind} | {sum(steps) / len(trees):,.0f} | {max(steps):,} | {share:.0%} | {sum(it > 100_000 for it in steps)} |")


if __name__ == "__main__":
    main()
