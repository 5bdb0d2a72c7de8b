#!/usr/bin/env python3
"""Turns proof files that tie a function's goals together, Proof.antt, into Answers.antt and Invariants.antt.

usage: answers.py NAMES CRATE..    NAMES is the folder that `rt names NAMES` wrote

A goal's name and each path into what is known there go by names.json. An answer that is only a search is left out, since the check finds it.
A file that walks the code by hand is left as it is. Prints what it could not turn; the check decides.
"""
import json
import os
import re
import sys

WORD = r"[^\W\d][\w\-'₀-₉]*"
PATH = re.compile(rf"(?<![\w.'\-])({WORD})((?:\.(?:{WORD}|\d+))*)")


def canon(name):
    name = re.sub(r"^overflow[-_]", "", name.replace("_", "-"))
    return re.sub(r"-(\d+)$", r"\1", name)


def bare(name):
    return canon(re.sub(r"\d+$", "", name))


class Names:
    def __init__(self, listed):
        self.needs = listed["needs"]
        self.asked = listed["asked_at"]
        self.settled = {canon(s) for s in listed["settled"]}
        self.places = {p[0]: (p, new, i) for i, (p, new) in enumerate(zip(listed["places"], listed["places_by_name"]))}
        self.clauses = listed["clauses"]
        self.typed = listed["typed"]
        self.loops = listed["loops"]
        self.changed = listed["changed"]
        self.args = {}
        for a, b in listed["args"]:
            a, b = a.split(), b.split()
            if a[0] == ".args":
                self.args[a[1][1:]] = b[1][1:]
        self.by_need = {}
        for k, (old, new) in enumerate(self.needs):
            self.by_need.setdefault(canon(old), k)

    def place(self, name):
        if name in self.places:
            return name
        for like in (canon, bare):
            for p in self.places:
                if like(p) == like(name):
                    return p
        return None

    def way(self, place, above):
        """How many steps lead back from a place to one above it."""
        n = 0
        while place != above:
            place = self.places[place][0][1]
            if place is None:
                return None
            n += 1
        return n

    def resolve(self, place, fields):
        """The place or the new path that a path of fields from a place leads to."""
        fields = list(fields)
        chain = [place]
        while self.places[chain[-1]][0][1]:
            chain.append(self.places[chain[-1]][0][1])
        back = 0
        while fields and fields[0] == "before":
            back += 1
            fields.pop(0)
        back = min(back, len(chain) - 1)
        if not fields:
            return chain[back], None
        first = fields[0]
        # The older chain may have had a step more or less: the nearest of that name is meant.
        for like in (canon, bare):
            near = [k for k, it in enumerate(chain) if self.places[it][0][2][0] and like(self.places[it][0][2][0]) == like(first)]
            if near:
                back = min(near, key=lambda k: abs(k - back))
                break
        place = chain[back]
        (p, new, at) = self.places[place]
        if p[2][0] and (canon(first) == canon(p[2][0]) or bare(first) == bare(p[2][0])):
            old, step = p[2]
            rest = fields[1:]
            if rest and re.match(r"(if|loop-test)", canon(old)) or step.startswith("if-") or step.endswith("-test"):
                if rest:
                    rest[0] = {"taken": "true", "left": "false"}.get(rest[0], rest[0])
            for a, b in p[4]:
                if rest and rest[0] == a:
                    rest[0] = b
                    break
            if rest and rest[0] == "inv":
                rest[0] = "invariant"
            said = self.clauses[at]
            if rest and rest[0] == "ensures" and said and len(said["fields"]) == 1 and len(rest) == 1:
                rest.append(said["fields"][0])
            if rest and rest[0] == "given":
                for variable, known in self.typed[at]:
                    if canon(known) == canon(old):
                        return place, ["type_inv", variable, *rest[1:]]
            return place, [step, *rest]
        if fields[0] == "pre":
            fields[0] = "requires"
        if fields[0] in ("args", "ranges") and len(fields) > 1:
            fields[1] = self.args.get(fields[1], fields[1])
        return place, fields


def split(text):
    """The comment at the head, the use lines, and the blocks below."""
    lines = text.split("\n")
    head = []
    while lines and (lines[0].startswith("--") or not lines[0].strip()):
        head.append(lines.pop(0))
    uses = []
    while lines and (lines[0].startswith("use ") or not lines[0].strip()):
        line = lines.pop(0)
        if line.strip():
            uses.append(line)
    blocks, current = [], []
    for line in lines:
        if line and not line[0].isspace() and not line.startswith(")") and current and not current[-1].strip():
            blocks.append(current)
            current = []
        current.append(line)
    if current:
        blocks.append(current)
    return [h for h in head if h.strip()], uses, [strip(b) for b in blocks]


def strip(block):
    while block and not block[-1].strip():
        block.pop()
    return block


class Turner:
    def __init__(self, crate, function, names):
        self.crate, self.function, self.names = crate, function, names
        self.left, self.records, self.aliases = [], set(), {}

    def called(self, text, roots):
        """Turns a module's name for a place, applied to a record, into the way back from that record."""
        if not self.aliases:
            return text
        names = "|".join(map(re.escape, self.aliases))

        def turn(m):
            root, back = m.group(2), m.group(3).count(".before")
            if root not in roots:
                return m.group(0)
            place, path = self.names.resolve(roots[root][0], ["before"] * back)
            above = self.aliases[m.group(1)]
            n = self.names.way(place, above) if path is None else None
            return m.group(0) if n is None else root + ".before" * (back + n)

        return re.sub(rf"(?<![\w.\-'])({names}) ({WORD})((?:\.before)*)(?![\w.\-'])", turn, re.sub(rf"(?<![\w.\-'])\(({names}) ({WORD})((?:\.before)*)\)", lambda m: turn(re.match(rf"({names}) ({WORD})((?:\.before)*)$", m.group(0)[1:-1])), text))

    def paths(self, text, roots, goal, keep=None):
        """Turns the paths of a text. Roots are the names of places; `keep` is the variable that a place's record goes by."""

        def turn(m):
            root, fields = m.group(1), [f for f in m.group(2).split(".") if f]
            if root not in roots:
                return m.group(0)
            place, path = self.names.resolve(roots[root][0], fields)
            base = roots[root][1]
            if path is not None:
                return ".".join([base, *path])
            new = self.names.places[place][1]
            self.records.add(new)
            if goal:
                return f"(goal.at.{goal} c).{new}"
            if place == roots[base][0]:
                return base
            self.left.append(f"a record of {new} from one of {self.names.places[roots[base][0]][1]}")
            return f"?{new}"

        return re.sub(r"\.inv\b", ".invariant", PATH.sub(turn, text))

    def lets(self, text, roots):
        """Takes out each let that names a place, as `let f = c.before in`."""
        while True:
            text = self.called(text, roots)
            found = None
            for m in re.finditer(rf"let ({WORD}) = ({WORD})((?:\.{WORD})*) in[ ]*\n?[ ]*", text):
                if m.group(2) in roots:
                    place, path = self.names.resolve(roots[m.group(2)][0], [f for f in m.group(3).split(".") if f])
                    if path is None:
                        found = (m, place)
                        break
            if not found:
                return text
            m, place = found
            roots[m.group(1)] = (place, roots[m.group(2)][1])
            text = text[: m.start()] + text[m.end() :]

    def goal(self, block):
        head = re.match(rf"(?:pub )?({WORD}) : tie\.Need-({WORD})(.*)$", block[0])
        name, old = head.group(1), head.group(2)
        k = self.names.by_need.get(canon(old))
        if k is None:
            if canon(old) in self.names.settled:
                return None
            k = next((self.names.by_need[c] for c in self.also(old) if c in self.names.by_need), None)
        rest, unfolding = block[1:], []
        while rest and rest[0].startswith("unfolding"):
            unfolding.append(rest.pop(0))
        body = "\n".join(rest)
        m = re.match(rf"{re.escape(name)}((?: (?:{WORD}|_|\([^)]*\)))*) =\s?(.*)$", body, re.S)
        if not m:
            self.left.append(f"the answer {name}")
            return None
        arguments, answer = m.group(1).split(), m.group(2)
        if answer.strip() == "search rules" and not unfolding:
            return None
        if k is None:
            self.left.append(f"the goal {old} of {name}")
            return None
        new = self.names.needs[k][1]
        arguments = [a for a in arguments if a != "κs"]
        roots = {arguments[0]: (self.names.asked[k][0], arguments[0])} if arguments else {}
        answer = self.lets(answer, roots)
        answer = self.paths(answer, roots, new)
        return "\n".join([f"pub {new} : goal.{new}", *unfolding, f"{new} {' '.join(arguments)} = {answer}" if not answer.startswith("\n") else f"{new} {' '.join(arguments)} ={answer}"])

    def also(self, old):
        c = canon(old)
        return [c.replace("slice-write", "bounds"), c.replace("same-length", "shape-of")]

    def helper(self, block):
        """A definition or a module beside the goals, over no place or over one place's record."""
        text = "\n".join(block)
        roots = {}
        for m in re.finditer(rf"\(({WORD}) : tie\.({WORD})((?: {WORD})*)\)", text):
            place = self.names.place(m.group(2))
            if place is None:
                self.left.append(f"the record {m.group(2)}")
                continue
            roots[m.group(1)] = (place, m.group(1))
        def typed(m):
            place = self.names.place(m.group(2))
            if place is None:
                return m.group(0)
            new = self.names.places[place][1]
            self.records.add(new)
            return f"({m.group(1)} : {new})"
        text = re.sub(rf"\(({WORD}) : tie\.({WORD})((?: {WORD})*)\)", typed, text)
        # A name for a place inside a module.
        for m in list(re.finditer(rf"\n  abbrev ({WORD}) : tie\.({WORD})(?: {WORD})*\n  \1 = ({WORD})((?:\.before)*)(?=\n|$)", text)):
            if m.group(3) in roots:
                place, path = self.names.resolve(roots[m.group(3)][0], [f for f in m.group(4).split(".") if f])
                if path is None:
                    roots[m.group(1)] = (place, roots[m.group(3)][1])
                    self.aliases[m.group(1)] = place
                    text = text.replace(m.group(0), "", 1)
        if not roots:
            return text
        text = self.lets(text, roots)
        lines = []
        for line in text.split("\n"):
            if line.startswith("module ") or re.match(rf"(?:abbrev |pub )*{WORD} : \(", line) and "->" not in line and ":" in line and "(" in line and any(f"({r} :" in line for r in roots):
                lines.append(line)
            else:
                lines.append(self.paths(line, roots, None))
        return "\n".join(lines)

    def invariant(self, block):
        m = re.match(rf"abbrev (?:pub )?((invariant|decreases)-({WORD})) : tie\.", block[0])
        if not m:
            return None
        kind, old = m.group(2), m.group(3)
        found = [(at, loop) for at, loop in enumerate(self.names.loops) if canon(loop[0][0]) == canon(old)]
        if not found:
            self.left.append(f"the loop {old}")
            return None
        at, ((_, new), variables) = found[0]
        changed = self.names.changed[at]
        rest, unfolding = block[1:], []
        while rest and rest[0].startswith("unfolding"):
            unfolding.append(rest.pop(0))
        body = "\n".join(rest)
        m = re.match(rf"{re.escape(m.group(1))}((?: (?:{WORD}|_))*) =\s?(.*)$", body, re.S)
        if not m:
            self.left.append(f"the {kind} of {old}")
            return None
        bound, text = m.group(1).split(), m.group(2)
        moving = [v for v, c in zip(variables, changed) if c]
        wanted = [("l." if not c else "l.initial.") + v for v, c in zip(variables, changed)] + ["l." + v for v in moving]
        if len(bound) != len(wanted):
            self.left.append(f"{kind} of {old}: {len(bound)} names for {len(wanted)}: {' '.join(bound)} for {' '.join(wanted)}")
        names = dict(zip(bound, wanted))
        text = PATH.sub(lambda k: names.get(k.group(1), k.group(1)) + k.group(2), text)
        return "\n".join([f"abbrev pub {kind}-{new} : goal.{kind}-{new}", *unfolding, f"{kind}-{new} l =" + (" " if not text.startswith("\n") else "") + text])


def imports(uses, text):
    """The use lines whose names stand in the text."""
    words = set(re.findall(rf"{WORD}|[^\s\w()\[\]{{}},;.]+", text))
    out = []
    for line in uses:
        m = re.match(r"use ([\w.]+)\.\{(.*)\}$", line)
        if not m:
            out.append(line)
            continue
        names = [n.strip() for n in m.group(2).split(",")]
        stay = [n for n in names if "◌" in n or not n[0].isalpha() or n in ("rules", "arith") or n.split(" as ")[-1] in words]
        if stay:
            out.append(f"use {m.group(1)}.{{{', '.join(stay)}}}")
    return out


def turn(crate, function, folder, listed):
    path = f"{folder}/Proof.antt"
    text = open(path, encoding="utf-8").read()
    head, uses, blocks = split(text)
    t = Turner(crate, function, Names(listed))
    module = "Rattle." + crate + ".proofs." + function.replace("/", ".")
    uses = [u for u in uses if ".Statement.{statement}" not in u and not u.endswith(" as tie")]
    answers, invariants, helpers = [], [], []
    for block in blocks:
        if block[0].startswith("-- ----"):
            block = strip(block[1:])
            while block and not block[0].strip():
                block = block[1:]
            if not block:
                continue
        while block and block[0].startswith("--"):
            helpers_comment, block = block[0], block[1:]
        if not block:
            continue
        if re.match(rf"(?:pub )?{WORD} : \{{M : Type 1\}} → statement", block[0]):
            continue
        if re.match(rf"(?:pub )?{WORD} : tie\.Need-", block[0]):
            done = t.goal(block)
            if done:
                answers.append(done)
        elif re.match(r"abbrev (?:pub )?(invariant|decreases)-", block[0]):
            done = t.invariant(block)
            if done:
                invariants.append(done)
        else:
            helpers.append(t.helper(block))
    if answers:
        body = "\n\n".join(helpers + answers)
        lines = head + imports(uses, body) + [f"use {module}.Goals as goal"]
        if t.records:
            lines.append(f"use {module}.Goals.{{{', '.join(sorted(t.records))}}}")
        open(f"{folder}/Answers.antt", "w", encoding="utf-8").write("\n".join(lines) + "\n\n" + body + "\n")
    if invariants:
        body = "\n\n".join(invariants)
        lines = head + imports(uses, body) + [f"use {module}.Given as goal"]
        open(f"{folder}/Invariants.antt", "w", encoding="utf-8").write("\n".join(lines) + "\n\n" + body + "\n")
    os.remove(path)
    if not os.listdir(folder):
        os.rmdir(folder)
    return t.left


def main(listed, crates):
    for crate in crates:
        names = json.load(open(f"{listed}/crates/{crate}/names.json", encoding="utf-8"))
        top = f"crates/{crate}/proofs"
        for folder, dirs, found in list(os.walk(top)):
            if "Proof.antt" not in found:
                continue
            function = os.path.relpath(folder, top)
            if "Tie as tie" not in open(f"{folder}/Proof.antt", encoding="utf-8").read():
                print(f"{crate}/{function}: a walk by hand")
                continue
            key = f"Rattle-{crate}-proofs.{function.replace('/', '.')}.Lts"
            if key not in names:
                print(f"{crate}/{function}: no names")
                continue
            for what in turn(crate, function, folder, names[key]):
                print(f"{crate}/{function}: {what}")


main(sys.argv[1], sys.argv[2:])
