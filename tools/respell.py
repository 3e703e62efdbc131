#!/usr/bin/env python3
"""Respells this project's own definitions and lemmas as today's Rattle spells its own: words in snake case, a dash only between two names.

usage: tools/respell.py [--table]     at the top of the project, once, after the kit's port.py. --table prints old and new names and writes nothing.

What is declared in a crate's specs/ or proofs/ turns: `bitAt` to `bit_at`, a field or a constructor `none-starts` to `none_starts`, a lemma `gap-short` to
`gap_short`, and `length-tail` stays where `length` and `tail` are both names of definitions. Functions of src/ and names that the kit's library declares stay.
Types and modules stay. A second run writes nothing more.
"""
import glob
import os
import re
import sys

WORD = re.compile(r'[^\s(){}.;,@"«»`]+')
HEAD = re.compile(r"^(\s*)((?:(?:abbrev|pub|unfoldable|mutual|where|let|in|do|data|record)\s+)*)([^\s(){}.;,@\"]+)(?: \([^=]*\)| \{[^=]*\})* : ")
LET = re.compile(r"(?:\blet|\bin) ([^\s(){}.;,@\"]+) (?:: |= )")
USED = re.compile(r"^(?:ghost )?(?:pub )?use ([^\s{;]+?)\.?\{([^}]*)\}", re.M)
LIBRARY_WORDS = "length append drop take map get set replicate reverse add mul sub mod pow div zero one suc cons some none true false and or not".split()
# Lemmas in snake case already, named as the definitions beside them will be: they get `_lem`.
LEMMAS = {"first_back": "firstBack", "second_back": "secondBack", "is_body": "isBody", "one_bit": "oneBit", "starts_by": "startsBy"}


def files():
    for p in sorted(glob.glob("crates/*/specs/**/*.antt", recursive=True) + glob.glob("crates/*/proofs/**/*.antt", recursive=True)):
        if "/out/" not in p:
            yield p


def snake(name):
    name = re.sub(r"([a-z0-9])([A-Z])", r"\1_\2", name)
    return re.sub(r"([A-Z]+)([A-Z][a-z])", r"\1_\2", name).lower()


def declared():
    """Names with where they stand: in a record or data type, as a definition, or as a lemma."""
    parts, definitions, lemmas = set(), set(), set()
    for p in files():
        walk = p.endswith("/Proof.antt")
        inside = None  # the indentation of the record or data type at hand
        for line in open(p, encoding="utf-8"):
            if line.strip() and inside is not None and len(line) - len(line.lstrip()) <= inside:
                inside = None
            m = HEAD.match(line)
            if m:
                words, name = m[2].split(), m[3]
                if inside is not None:
                    parts.add(name)
                elif "data" in words or "record" in words or "abbrev" in words or "unfoldable" in words or "/specs/" in p:
                    if not walk or re.search("[a-z][A-Z]", name):
                        definitions.add(name)
                elif not walk or re.search("[a-z][A-Z]", name):
                    lemmas.add(name)
            if re.match(r"^\s*(?:pub )?(?:data|record)\b.*\bwhere\s*$", line):
                inside = len(line) - len(line.lstrip())
            for m in LET.finditer(line):
                lemmas.add(m[1])
    return parts, definitions, lemmas


def borrowed():
    """Names that are taken from the kit's library somewhere."""
    own = set(os.listdir("crates"))
    names = set()
    for p in list(files()) + glob.glob("crates/*/src/*.rt"):
        for m in USED.finditer(open(p, encoding="utf-8").read()):
            path = m[1].split(".")
            if path[0] != "Rattle" or path[1] not in own:
                names.update(w.strip().split(" as ")[0] for w in m[2].split(","))
    return names


def table():
    parts, definitions, lemmas = declared()
    library = borrowed()
    functions = set()
    for p in glob.glob("crates/*/src/*.rt"):
        functions.update(re.findall(r"\bfn (\w+)", open(p, encoding="utf-8").read()))
    known = {snake(n) if n[0].islower() else n for n in parts | definitions if "-" not in n} | functions | set(LIBRARY_WORDS)
    turned = {}
    for name in sorted(parts | definitions | lemmas):
        if name in library or name.startswith("◌") or "◌" in name or "*" in name:
            continue
        new = name + "_lem" if LEMMAS.get(name) in definitions else respelled(name, name in parts, known)
        if new != name:
            turned[name] = new
    return turned, parts | definitions | lemmas


def respelled(name, part, known):
    pieces = [snake(p) if p[:1].islower() else p for p in name.split("-")]
    if name[0].isupper():
        return name
    whole = "_".join(pieces)
    if part or len(pieces) == 1:
        return whole
    if whole in known:
        return whole + "_lem"
    # The fewest names of definitions that the pieces make up, if they do.
    made = {0: []}
    for end in range(1, len(pieces) + 1):
        runs = [made[at] + ["_".join(pieces[at:end])] for at in range(end) if at in made and "_".join(pieces[at:end]) in known]
        if runs:
            made[end] = min(runs, key=len)
    return "-".join(made[len(pieces)]) if len(pieces) in made else whole


def turn(text, names):
    return WORD.sub(lambda m: names.get(m[0], m[0]), text)


def turn_prose(text, names):
    """A comment or a page: what stands between backticks, and elsewhere what no English word looks like."""
    spans = re.split(r"(`[^`\n]*`)", text)
    return "".join(turn(s, names) if i % 2 else WORD.sub(lambda m: names[m[0]] if m[0] in names and re.search("[a-z][A-Z]", m[0]) else m[0], s) for i, s in enumerate(spans))


def turn_code(text, names, comment):
    said = []
    for line in text.split("\n"):
        at = re.search(r"(?:^|(?<=\s))" + comment + r"(?=\s|$)", line)
        code, rest = (line[: at.start()], line[at.start() :]) if at else (line, "")
        if comment == "//":
            code = "".join(s if i % 2 else turn(s, names) for i, s in enumerate(re.split(r'(b?"(?:\\.|[^"\\])*")', code)))
        else:
            code = turn(code, names)
        said.append(code + turn_prose(rest, names))
    return "\n".join(said)


def main():
    names, all_names = table()
    if "--table" in sys.argv:
        for old, new in sorted(names.items()):
            print(old, new, sep="\t")
        back = {}
        for old, new in names.items():
            back.setdefault(new, []).append(old)
        for new, olds in sorted(back.items()):
            if len(olds) > 1 or new in all_names:
                print("alike:", new, olds, "declared" if new in all_names else "", file=sys.stderr)
        return
    changed = 0
    pages = glob.glob("*.md") + glob.glob("docs/**/*.md", recursive=True)
    for p in list(files()) + sorted(glob.glob("crates/*/src/*.rt")) + sorted(glob.glob("crates/*/must-fail/*.edit")) + sorted(pages):
        old = open(p, encoding="utf-8").read()
        if p.endswith(".md"):
            new = turn_prose(old, names)
        elif p.endswith(".edit"):
            new = "\n".join(turn_code(s, names, "//" if "file: src/" in old else "--") if re.match("(old|new): ", s) else turn_prose(s, names) for s in old.split("\n"))
        else:
            new = turn_code(old, names, "//" if p.endswith(".rt") else "--")
        if new != old:
            open(p, "w", encoding="utf-8").write(new)
            changed += 1
    print(f"respell: {len(names)} names, {changed} files")


if __name__ == "__main__":
    main()
