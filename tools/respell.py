#!/usr/bin/env python3
"""Spells the repository's own definitions and lemmas as today's Rattle does.

usage: python3 tools/respell.py          at the top of a tree: turns every name that tools/respelled.tsv lists, in contracts, specs/, proofs/ and edits
       python3 tools/respell.py --make   writes tools/respelled.tsv anew from the declarations of the tree

Definitions, fields, constructors and lemmas are written in snake case; a dash stays where it joins two names of definitions. Types keep
their capitals. Names of Rust source, and names that Rattle makes for a proof's goals and places, are left as they are.
"""

import os
import re
import sys

HERE = os.path.dirname(os.path.realpath(__file__))
TABLE = os.path.join(HERE, "respelled.tsv")
# a name of antt: what stands between spaces, brackets, dots and other marks
TOKEN = re.compile(r"[^\s(){}\[\].,;:λ\"`«»]+")
DECLARED = re.compile(r"^\s*(?:(?:abbrev|unfoldable|pub)\s+)*([^\s(){}\[\].,;:λ\"`=?]+(?: [^\s(){}\[\].,;:λ\"`=?]+)*) :(?=\s|$)")
IMPORT = re.compile(r"^(?:ghost )?use\s+([\w.\u0370-\u03ff+'-]+?)\.\{([^}]*)\}")
WORDS = {"let", "use", "elim", "data", "record", "module", "in", "where"}
GOALS = re.compile(r"^(invariant-|decreases-|loop-|if-|returns|Need-|At-|After-|In-|Then|Else)")
# folders of lemmas of the model, whose modules have capitals
MODULES = {m: m.capitalize() for m in ("basics", "conjuncts", "files", "filters", "procedures", "runs", "walks")}


def antt(root):
    for folder, dirs, files in os.walk(os.path.join(root, "crates")):
        dirs[:] = sorted(d for d in dirs if d != "out")
        for f in sorted(files):
            if f.endswith(".antt"):
                yield os.path.join(folder, f)


def sources(root):
    for folder, dirs, files in os.walk(os.path.join(root, "crates")):
        dirs[:] = sorted(d for d in dirs if d != "out")
        for f in sorted(files):
            if f.endswith(".rt") or (f.endswith(".edit") and os.path.basename(folder) == "must-fail"):
                yield os.path.join(folder, f)


def snake(part):
    if part.startswith("getD"):
        return "get_or" + part[4:]
    if not part or not re.match(r"[a-z]", part):
        return part
    return re.sub(r"(?<=[a-z0-9])([A-Z])", lambda m: "_" + m.group(1).lower(), part)


def make(root):
    own = {c for c in os.listdir(os.path.join(root, "crates"))}
    declared, goals, outside, words, tokens = set(), set(), set(), set(), set()
    for p in antt(root):
        with open(p, encoding="utf-8") as f:
            text = f.read()
        specs = "/specs/" in p
        for line in text.splitlines():
            if line.lstrip().startswith("--"):
                continue
            tokens.update(TOKEN.findall(line))
            u = IMPORT.match(line)
            if u:
                path = u.group(1).split(".")
                if not (path[0] == "Rattle" and path[1] in own):
                    outside.update(n.split(" as ")[0].strip() for n in u.group(2).split(","))
                continue
            d = DECLARED.match(line)
            if not d or line.lstrip().split(" ")[0] in WORDS:
                continue
            names = d.group(1).split(" ")
            if names[0] in WORDS or names[0] in ("pub", "abbrev"):
                names = [n for n in names if n not in WORDS and n not in ("pub", "abbrev", "data", "record")]
            if re.search(r" : tie\.(Need|need|invariant|decreases)", line):
                goals.update(names)
                continue
            declared.update(names)
            if specs:
                words.update(names)
    outside = {n for n in outside if n}
    known = {snake(w) for w in words if "-" not in w} | {n for n in outside if "-" not in n and "◌" not in n}
    rows = {}
    for n in sorted(declared - goals - outside):
        if GOALS.match(n) or "◌" in n or not re.search(r"[A-Za-z]", n):
            continue
        parts = [snake(x) for x in n.split("-")]
        if any(x == "" for x in parts):
            continue
        if n.endswith("-spec"):
            new = "_".join(parts)
        else:
            new = parts[0]
            for a, b in zip(parts, parts[1:]):
                new += ("-" if a in known and b in known else "_") + b
        if new != n:
            rows[n] = new
    taken = (tokens - set(rows)) | outside
    used = set()
    for n in sorted(rows):
        if rows[n] in taken or rows[n] in used:
            print(f"clash: {n} -> {rows[n]}", file=sys.stderr)
            rows[n] += "_lem"
            if rows[n] in taken or rows[n] in used:
                print(f"clash again: {n} -> {rows[n]}", file=sys.stderr)
        used.add(rows[n])
    with open(TABLE, "w", encoding="utf-8") as f:
        for n in sorted(rows):
            f.write(f"{n}\t{rows[n]}\n")
    print(f"{len(rows)} names")


def turned(text, rows):
    return TOKEN.sub(lambda m: rows.get(m.group(0), m.group(0)), text)


def clauses(text, rows):
    """In Rattle source a name is turned only where it has a capital or a dash inside, which no name of Rust's has here."""
    return "\n".join(line if line.lstrip().startswith("//") else turned(line, rows) for line in text.split("\n"))


def modules(root):
    """The lemma folders of the model, and the paths that name them."""
    proofs = os.path.join(root, "crates", "model", "proofs")
    for old, new in MODULES.items():
        for end in ("", ".antt"):
            if os.path.exists(os.path.join(proofs, old + end)):
                os.rename(os.path.join(proofs, old + end), os.path.join(proofs, new + end))
    path = re.compile(r"\bRattle\.model\.proofs\.(%s)\b" % "|".join(MODULES))
    for p in antt(root):
        with open(p, encoding="utf-8") as f:
            old = f.read()
        text = path.sub(lambda m: "Rattle.model.proofs." + MODULES[m.group(1)], old)
        if p == os.path.join(proofs, "Lib.antt"):
            text = re.sub(r"^((?:pub )?mod )(\w+)$", lambda m: m.group(1) + MODULES.get(m.group(2), m.group(2)), text, flags=re.M)
        if text != old:
            with open(p, "w", encoding="utf-8") as f:
                f.write(text)


def apply(root):
    with open(TABLE, encoding="utf-8") as f:
        rows = dict(line.rstrip("\n").split("\t") for line in f)
    changed = 0
    for p in antt(root):
        with open(p, encoding="utf-8") as f:
            old = f.read()
        text = turned(old, rows)
        if text != old:
            changed += 1
            with open(p, "w", encoding="utf-8") as f:
                f.write(text)
    for p in sources(root):
        with open(p, encoding="utf-8") as f:
            old = f.read()
        text = clauses(old, rows)
        if text != old:
            changed += 1
            with open(p, "w", encoding="utf-8") as f:
                f.write(text)
    modules(root)
    print(f"{changed} files")


if __name__ == "__main__":
    if sys.argv[1:] == ["--make"]:
        make(os.getcwd())
    else:
        apply(os.getcwd())
