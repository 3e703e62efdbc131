#!/usr/bin/env python3
"""Turns proofs of the older Rattle, `proofs/F/Proof.antt` by `tie.spec`, to today's Invariants.antt and Answers.antt, after port.py and tools/respell.py.

usage: tools/answers.py CRATE [FUNCTION..]     at the top of the project. The crate's sources must compile, and the crates below it must be proved.

It goes by the names that `rt check --generated --old-names` tells: each goal's old name and new one, each step before a goal, each loop's variables. What it
could not turn stands behind 'by hand:'. What it wrote is checked by `rt check` alone.
"""
import glob
import json
import os
import re
import subprocess
import sys
import tempfile

WORD = r"[^\s(){},;.]+"
START = r"(?<![\w.'-])"
ARITH = "use native.Mathlib.Omega.{arith}"


def plain(name):
    """An old name as it is compared: dashes, underscores and capitals aside."""
    return re.sub(r"_lem(?=$|-\d)", "", name).replace("-", "").replace("_", "").lower()


def bare(goal):
    return re.sub(r"^(overflow|nonzero|bounds|slice_bounds|slice-bounds|offset_bounds)-", "", goal)


def old_names(crate):
    """What rt tells of the names of each function of a crate."""
    with tempfile.TemporaryDirectory() as room:
        ran = subprocess.run(["rt", "check", "--generated", room, "--old-names"], cwd=f"crates/{crate}", capture_output=True, text=True)
        if not os.path.exists(f"{room}/names.json"):
            sys.exit(f"answers: {crate}: rt tells no names:\n{ran.stdout[-2000:]}")
        with open(f"{room}/names.json", encoding="utf-8") as f:
            return json.load(f)


class Names:
    """The names of one function, old and new."""

    def __init__(self, told, crate, function):
        self.steps, self.callees, self.given, self.arms = {}, {}, {}, {}
        for _, _, (old, new), callee, _ in told["places"]:
            if old:
                self.steps.setdefault(plain(old), new)
            if callee:
                self.callees[new] = callee
        for known in told["typed"]:
            self.given.update({plain(step): variable for variable, step in known})
        for arm in filter(None, told["arms"]):
            for field, step, path in arm[2]:
                if path and not field.endswith("-own"):
                    self.arms[plain(step), ".".join(path)] = f"{arm[0]}.{field}"
        self.goals = [new for _, new in told["needs"]]
        self.by_old = {plain(bare(old)): new for old, new in told["needs"]}
        self.params = told["params"]
        self.loops = [(plain(old), new, variables, changed) for ((old, new), variables), changed in zip(told["loops"], told["changed"])]
        self.unclear = []
        head = None
        for path in glob.glob(f"crates/{crate}/src/*.rt"):
            with open(path, encoding="utf-8") as f:
                head = head or re.search(rf"\bfn {re.escape(function)}(?:<[^>]*>)?\(([^)]*)\)", f.read())
        self.own = [re.sub("^mut ", "", it.split(":")[0].strip()) for it in head[1].split(",") if it.strip()] if head else []

    def goal(self, old):
        found = self.by_old.get(plain(bare(old))) or next((it for it in self.goals if plain(it) == plain(old)), None)
        if not found:
            self.unclear.append(f"goal {old}")
        return found or old

    def step(self, match):
        """`c.before.before.STEP.FIELD` as `c.STEP.FIELD`."""
        name, rest = match[1], match[2] or ""
        key = plain(name)
        if name in ("args", "requires", "lifetimes", "ranges", "well_formed"):
            return f"c.{name}{rest}"
        if rest.startswith(".given") and key in self.given:
            return f"c.type_inv.{self.given[key]}{rest[len('.given'):]}"
        for end in range(len(rest), 0, -1):
            if (end == len(rest) or rest[end] == ".") and (key, rest[1:end]) in self.arms:
                return f"c.{self.arms[key, rest[1:end]]}{rest[end:]}"
        new = self.steps.get(key)
        if new is None:
            self.unclear.append(f"step {name}")
            return f"c.{name}{rest}"
        if new.startswith("if-not-") and rest in (".true", ".false"):
            return f"(not_from_{'false' if rest == '.true' else 'true'} _ c.{new}{rest})"
        return f"c.{new}{rest}"

    def path(self, text):
        """A proof's term, whose facts are paths from `c`."""
        for found in list(re.finditer(rf"[ \t]*let ([^\s():]+) = c((?:\.before)*)(?:\.({WORD}))? in[ \t]*\n?", text)):
            name, step = found[1], found[3]
            if step and not (plain(step) in self.given or plain(step) in {it for it, _ in self.arms}) or step is None and not found[2]:
                continue
            text = text.replace(found[0], "" if found[0].endswith("\n") else re.match(r"[ \t]*", found[0])[0], 1)
            text = re.sub(rf"{START}{re.escape(name)}(?=\.)", f"c.{step}" if step else "c", text)
        text = re.sub(rf"{START}c(?:\.before)*\.({WORD})((?:\.[^\s(){{}},;.]+)*)", self.step, text)
        text = re.sub(rf"{START}c\.[^\s().]+\.rest(?:\.\d+)+", "(λ e. omega arith)", text)
        return self.fields(text)

    def fields(self, text):
        """Places in tuples of parameters as their names."""
        bound = {it[1]: it[2] for it in re.finditer(r"let ([^\s():]+) = c\.([^\s().]+) in", text)}

        def named(match):
            of, part, place = match[1], match[2], match[3].count(".1")
            step = of[2:] if of.startswith("c.") else bound.get(of)
            params = self.params.get(self.callees.get(step), [])
            return f"{of}.{part}.{params[place]}" if place < len(params) else match[0]

        text = re.sub(rf"{START}(c\.[^\s().]+|[a-z_][\w'-]*)\.(new|auto)((?:\.1)*\.0)(?![\w-])", named, text)
        for of in [it for it, step in bound.items() if step == "args"] + ["c.args"]:
            text = re.sub(rf"{START}({re.escape(of)})\.t(\d+)\b", lambda it: f"{it[1]}.{self.own[int(it[2]) - 1]}" if 0 < int(it[2]) <= len(self.own) else it[0], text)
        return text

    def loop(self, what, name, body):
        """An invariant or a measure over the variables of its loop, as one over `l`."""
        kind, loop = what.split("-", 1)
        found = next((it for it in self.loops if it[0] == plain(loop)), None)
        parts = re.match(re.escape(name) + r"([^=]*)=(.*)$", body, re.S)
        if not found:
            self.unclear.append(f"loop {loop}")
            return body
        _, new, variables, changed = found
        now = [f"l.initial.{v}" if c else f"l.{v}" for v, c in zip(variables, changed)] + [f"l.{v}" for v, c in zip(variables, changed) if c]
        params = parts[1].split()
        if len(params) != len(now):
            self.unclear.append(f"variables of {loop}")
        bound = {w for it in re.findall(r"λ ([^.]*)\.|\(([^():]*) :", parts[2]) for w in " ".join(it).split()}
        self.unclear += [f"{it}, bound in the {kind} too" for it in params if it in bound]
        turned = {old: at for old, at in zip(params, now) if old not in bound}
        text = re.sub(rf"{START}[^\s(){{}},;.◌]+(?![\w'])", lambda it: turned.get(it[0], it[0]), parts[2].strip())
        return f"abbrev pub {kind}-{new} : goal.{kind}-{new}\n{kind}-{new} l = {text}"


def used(lines, text):
    """The imports that the text uses."""
    said = []
    for line in lines:
        group = re.match(r"(.*)\.\{(.*)\}$", line)
        if group:
            names = [it.strip().split(" as ")[-1] for it in group[2].split(",")]
            kept = [it for it in names if (all(q in text for q in it.split("◌") if q) if "◌" in it else re.search(rf"(?<![\w'-]){re.escape(it)}(?![\w'-])", text))]
            line = f"{group[1]}.{{{', '.join(kept)}}}" if kept else None
        if line:
            said.append(line)
    if "omega arith" in text and not any("Omega.{arith}" in it for it in said):
        said.append(ARITH)
    nots = [it for it in ("not_from_false", "not_from_true") if f"({it} _ c." in text]
    if nots:
        said.append(f"use Rattle.std.proofs.lemmas.Bool.{{{', '.join(nots)}}}")
    if re.search(r"search \(?rules", text):
        said.append("use borrow.Author.Rules.{rules}")
    return said


def turn(path, crate, told):
    with open(path, encoding="utf-8") as f:
        lines = f.read().split("\n")
    folder = os.path.dirname(path)
    function = folder.split("/proofs/", 1)[1].replace("/", ".")
    names = Names(told[f"Rattle-{crate}-proofs.{function}.Lts"], crate, function.split(".")[-1])
    head = [it for it in lines if it.startswith("--")][: next(i for i, it in enumerate(lines) if not it.startswith("--"))]
    uses = [it for it in lines if it.startswith("use ") and not re.search(r"\.Statement\.\{|\.Tie as tie|\.Rules\.\{rules\}", it)]
    rest = "\n".join(it for it in lines[len(head) :] if not it.startswith("use "))
    invariants, answers = [], []
    for block in filter(str.strip, re.split(r"\n\s*\n", rest)):
        block = block.strip("\n")
        if re.search(r"tie\.spec\b", block):
            if re.search(r"\(λ c( κs)?\. (?!search rules\))", block):
                names.unclear.append("answers written into tie.spec")
            continue
        goal = re.match(rf"((?:--[^\n]*\n)*)(?:abbrev )?(?:pub )?({WORD}) : tie\.({WORD})[^\n]*\n(.*)$", block, re.S)
        if not goal:
            answers.append(names.path(block))
        elif goal[3].startswith(("invariant-", "decreases-")):
            invariants.append(goal[1] + names.loop(goal[3], goal[2], goal[4]))
        else:
            new = names.goal(goal[3][len("Need-") :])
            opened, body = re.match(r"((?:unfolding[^\n]*\n)*)(.*)$", goal[4], re.S).groups()
            body = re.sub(rf"^{re.escape(goal[2])}(?=\s)", new, body)
            body = re.sub(rf"^({re.escape(new)} c) κs\b", r"\1", body)
            answers.append(f"{goal[1]}pub {new} : goal.{new}\n{opened}{names.path(body)}")
    for name, parts, of in (("Invariants", invariants, "Given"), ("Answers", answers, "Goals")):
        if parts:
            text = "\n\n".join(parts)
            with open(f"{folder}/{name}.antt", "w", encoding="utf-8") as f:
                f.write("\n".join([*head, *used(uses, text), f"use Rattle.{crate}.proofs.{function}.{of} as goal", "", text, ""]))
    os.remove(path)
    print(f"{crate}::{function}: {len(answers)} answers" + "".join(f"\n  by hand: {it}" for it in names.unclear))


def main():
    if len(sys.argv) < 2:
        sys.exit(__doc__)
    crate, only = sys.argv[1], sys.argv[2:]
    told = old_names(crate)
    for path in sorted(glob.glob(f"crates/{crate}/proofs/**/Proof.antt", recursive=True)):
        function = os.path.dirname(path).split("/proofs/", 1)[1]
        with open(path, encoding="utf-8") as f:
            tied = "tie.spec" in f.read()
        if tied and (not only or function in only):
            turn(path, crate, told)


if __name__ == "__main__":
    main()
