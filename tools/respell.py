#!/usr/bin/env python3
"""Brings the repository's own definitions, lemmas and fields to snake case: respell.py [--dry]

A name that a file of specs/, or a lemma file of proofs/, declares in lower camel case or with dashes gets underscores, everywhere below crates/:
in .antt files, in the clauses of .rt files and in edits. Names that a file imports from the library stay in that file. A prime becomes an apostrophe.
Prints names that would fall together, and then writes nothing.
"""
import os
import re
import sys

WORD = re.compile(r"[^\W\d][\w\-'′₀-₉]*")
DECLARED = re.compile(r"^\s*(?:(?:pattern|unfoldable|abbrev|pub)\s+)*(?:record\s+)?(?:pub\s+)?([^\W\d][\w\-'′₀-₉]*)\s*(?:\{[^}]*\}\s*)?(?:\([^)]*\)\s*)*:\s")
IMPORT = re.compile(r"^(?:ghost )?use ([\w.]+)\.\{([^}]*)\}", re.M)
CAMEL = re.compile(r"[a-z]\w*[A-Z]")
# What would fall together with a name of the library.
OTHER = {"takeAt": "take_lent"}


def crates():
    return sorted(c for c in os.listdir("crates") if os.path.isdir(f"crates/{c}/src"))


def files(*ends):
    for c in crates():
        for folder, dirs, names in os.walk(f"crates/{c}"):
            dirs[:] = [d for d in dirs if d != "out"]
            for n in names:
                if n.endswith(ends):
                    yield os.path.join(folder, n)


def snake(name):
    if name in OTHER:
        return OTHER[name]
    name = name.replace("′", "'")
    if "-" in name and any(p[:1].isupper() for p in name.split("-")):
        return name
    name = re.sub(r"(?<=[a-z0-9])([A-Z])", lambda m: "_" + m.group(1).lower(), name)
    return name.replace("-", "_")


def walks(path):
    return os.path.basename(path) in ("Proof.antt", "Answers.antt", "Invariants.antt")


def wanted():
    found = set()
    for p in files(".antt"):
        if walks(p):
            continue
        for line in open(p, encoding="utf-8"):
            m = DECLARED.match(line)
            if m and m.group(1)[0].islower():
                found.add(m.group(1))
    turn = {n: snake(n) for n in found}
    # A lemma that would have a definition's name ends in _lem.
    meant = {b for a, b in turn.items() if "-" not in a and a != b}
    for a, b in turn.items():
        if b in meant and ("-" in a or a == b):
            turn[a] = b + "_lem"
        elif "-" in a and b in found:
            turn[a] = b + "_lem"
    return {a: b for a, b in turn.items() if a != b}


def foreign(text, own):
    """Names that come from the library in this file."""
    out = set()
    for module, names in IMPORT.findall(text):
        parts = module.split(".")
        if parts[0] == "Rattle" and parts[1] in own:
            continue
        out |= {w for n in names.split(",") for w in n.split()}
    return out


def turned(path, text, names, own):
    stay = foreign(text, own)
    code = path.endswith(".rt")

    def word(m):
        w = m.group(0)
        if w in names and w not in stay and not (code and not CAMEL.match(w)):
            return names[w]
        return w.replace("′", "'")

    return "".join(part if k % 2 else WORD.sub(word, part) for k, part in enumerate(re.split(r'("[^"\n]*")', text)))


def main():
    own = set(crates())
    names = wanted()
    back, clash = {}, []
    for a, b in names.items():
        back.setdefault(b, []).append(a)
    texts = {p: open(p, encoding="utf-8").read() for p in files(".antt", ".rt", ".edit")}
    used = {p: set(WORD.findall(t)) for p, t in texts.items()}
    for b, olds in sorted(back.items()):
        if len(olds) > 1:
            clash.append((b, olds, "all"))
        for p, words in used.items():
            here = [a for a in olds if a in words]
            if here and b in foreign(texts[p], own):
                clash.append((b, here, p))
    for b, here, p in clash:
        print(f"{p}: {b}: {' '.join(here)}")
    print(f"{len(names)} names, {len(clash)} places where names meet")
    if "--dry" in sys.argv or clash:
        return
    for p, t in texts.items():
        new = turned(p, t, names, own)
        if new != t:
            open(p, "w", encoding="utf-8").write(new)


main()
