#!/usr/bin/env python3
"""Turns proofs that walk a function's needs by hand, proofs/F/Proof.antt, into Invariants.antt and Answers.antt.

    rt check --generated FOLDER --old-names      in the crate's folder: lists each need's old name and new one
    python3 tools/answers.py CRATE FOLDER/names.json [FUNCTION..]

An answer that only says `search rules` goes. A file that it can't turn stays, and is named. OLD_PROOFS=FOLDER: the old files are read
from FOLDER/CRATE/proofs. KEEP=FILE: lines 'CRATE FUNCTION NEED' name answers that stay though they only say `search rules`.
"""
import json
import os
import re
import sys

NAME = r"[^\s(){}\[\],;.«»\"@]+"
PATH = re.compile(rf"(?<![^\s(){{}}\[\],;])({NAME})((?:\.{NAME})*)")


class Left(Exception):
    pass


def flat(name):
    return name.replace("-", "_")


def pieces(text):
    """The top-level arguments of an application."""
    out, depth, start = [], 0, None
    for i, ch in enumerate(text):
        if ch in "([{":
            if depth == 0 and start is None:
                start = i
            depth += 1
        elif ch in ")]}":
            depth -= 1
        elif ch.isspace() and depth == 0:
            if start is not None:
                out.append(text[start:i])
                start = None
        elif start is None:
            start = i
    if start is not None:
        out.append(text[start:])
    return out


class Proof:
    def __init__(self, text):
        self.uses, self.head, self.defs, self.order = [], [], {}, []
        lines = text.rstrip("\n").split("\n")
        i = 0
        while i < len(lines) and (lines[i].startswith("--") or not lines[i].strip() or lines[i].startswith("use ")):
            (self.uses if lines[i].startswith("use ") else self.head).append(lines[i])
            i += 1
        while i < len(lines):
            said = []
            while i < len(lines) and (not lines[i].strip() or lines[i].startswith("--")):
                if lines[i].strip():
                    said.append(lines[i])
                i += 1
            if i >= len(lines):
                break
            m = re.match(rf"(abbrev |unfoldable )?(pub )?({NAME})((?: \{{[^{{}}]*\}})*) :(.*)", lines[i])
            if not m:
                raise Left("can't read: " + lines[i][:60])
            name, body = m[3], [lines[i]]
            i += 1
            while i < len(lines) and not (re.match(rf"(abbrev |unfoldable )?(pub )?({NAME})((?: \{{[^{{}}]*\}})*) :( |$)", lines[i])) and not (lines[i].startswith("--")):
                body.append(lines[i])
                i += 1
            while body and not body[-1].strip():
                body.pop()
            self.defs[name] = (said, body)
            self.order.append(name)

    def split(self, name):
        """The type, the unfolding line's words, the parameters and the body of a definition of one clause."""
        said, lines = self.defs[name]
        k = next((j for j, l in enumerate(lines) if re.match(rf"{re.escape(name)}( |$)", l) and "=" in l or re.match(rf"{re.escape(name)}(?: {NAME})* =", l)), None)
        if k is None:
            raise Left("no clause of " + name)
        unfold = [w for l in lines[:k] if l.startswith("unfolding") for w in l.split()[1:]]
        type_ = " ".join(l for l in lines[:k] if not l.startswith("unfolding")).partition(" : ")[2]
        left, _, right = "\n".join(lines[k:]).partition("=")
        return type_, unfold, left.split()[1:], right.strip()


def clauses():
    """The names of the clauses of each function, by its crate and name: {(crate, function): {"requires": [..], "ensures": [..]}}."""
    found = {}
    for crate in sorted(os.listdir("crates")):
        for folder, dirs, files in os.walk(os.path.join("crates", crate, "src")):
            for name in sorted(files):
                with open(os.path.join(folder, name), encoding="utf-8") as f:
                    text = f.read()
                for m in re.finditer(r"\bfn (\w+)(.*?)^ *\{$", text, re.S | re.M):
                    kinds = {k: re.findall(rf"^ +{k} (\w+) \{{", m[2], re.M) for k in ("requires", "ensures")}
                    kinds["params"] = re.findall(r"(?:^|[(,])\s*(?:mut )?(\w+)(?=: |[,)])", m[2][: m[2].find(" requires") if " requires" in m[2] else None].split("->")[0])
                    kinds["muts"] = re.findall(r"(\w+): &mut ", m[2])
                    kinds["auto"] = re.findall(r"(\w+): &mut \[", m[2])
                    found[(crate, m[1])] = kinds
    return found


CLAUSES = clauses()


def named(crate, function, kind, words):
    """words, where the first is the number of a clause that has a name."""
    names = CLAUSES.get((crate, function), {}).get(kind, [])
    if words and words[0].isdigit() and int(words[0]) < len(names):
        return [names[int(words[0])]] + words[1:]
    return words


class Turn:
    def __init__(self, entry, crate, function):
        self.fields, self.steps, self.callees = {}, {}, {}
        self.own = (crate, function)
        self.params = CLAUSES.get(self.own, {}).get("params", [])
        for place, parent, (old, new), callee, renamed in entry["places"]:
            if callee:
                self.callees[flat(old)] = (callee.split("::")[0], callee.split("::")[-1])
        parents = {p[0]: p for p in entry["places"]}
        self.kept = {flat(step): f"c.type_inv.{variable}" for typed in entry["typed"] for variable, step in typed}
        for place, parent, (old, new), callee, renamed in entry["places"]:
            k, at = 0, parents.get(parent)
            while at and not at[3] and at[2][0] and not at[0].startswith(("Then", "Else", "In-", "At-")):
                k += not re.match(r"(slice|shared_slice)_known", at[2][0])
                at = parents.get(at[1])
            if old and not callee and at and at[3]:
                muts = CLAUSES.get((at[3].split("::")[0], at[3].split("::")[-1]), {}).get("muts", [])
                if k < len(muts):
                    self.kept[flat(old)] = f"c.{at[2][1]}.auto.{muts[k]}"
        for i, (place, parent, (old, new), callee, renamed) in enumerate(entry["places"]):
            arm = entry["arms"][i] if i < len(entry["arms"]) else None
            if old:
                self.steps.setdefault(flat(old), new)
                for a, b in renamed:
                    self.fields[(flat(old), a)] = b
            if arm:
                for field, step, path in arm[2]:
                    if path:
                        self.fields[(flat(step), ".".join(path))] = (arm[0], field)
                    else:
                        self.steps.setdefault(flat(step), arm[0])

    def of_path(self, words):
        """The new path below c of an old one, whose first word is a step."""
        words = [w for w in words if w != "before"]
        if not words:
            return "c"
        step, rest = flat(words[0]), words[1:]
        step = {"pre": "requires"}.get(step, step)
        if step not in self.steps and step.lower() in self.steps:
            step = step.lower()
        if step not in self.steps and re.sub(r"_lem(?=\d*$)", "", step) in self.steps:
            step = re.sub(r"_lem(?=\d*$)", "", step)
        if step not in self.steps and re.sub(r"\d+$", "", step) in self.steps:
            step = re.sub(r"\d+$", "", step)
        if step == "requires":
            return ".".join(["c", "requires"] + named(*self.own, "requires", rest))
        if step == "args" and rest and re.fullmatch(r"t\d+", rest[0]) and rest[0] not in self.params and int(rest[0][1:]) <= len(self.params):
            rest = [self.params[int(rest[0][1:]) - 1]] + rest[1:]
            return ".".join(["c", "args"] + rest)
        if step in ("args", "requires", "ranges", "type_inv", "well_formed", "utf8", "type-inv"):
            return ".".join(["c", step] + rest)
        for n in range(len(rest), 0, -1):
            key = (step, ".".join(rest[:n]))
            if key in self.fields:
                new = self.fields[key]
                if isinstance(new, tuple):
                    return ".".join(["c", *new] + rest[n:])
                return ".".join(["c", self.steps[step], new] + rest[n:])
        if step not in self.steps:
            raise Left("no step " + step)
        if rest == ["given"] and step in self.kept:
            return self.kept[step]
        if rest and rest[0] == "given":
            raise Left(f"no field {step}.{'.'.join(rest)}")
        if rest and rest[0] == "new" and step in self.callees:
            n = 1
            while n < len(rest) and rest[n] == "1":
                n += 1
            params = CLAUSES.get(self.callees[step], {}).get("params", [])
            if n < len(rest) and rest[n] == "0" and n - 1 < len(params):
                rest = ["new", params[n - 1]] + rest[n + 1 :]
        if rest and rest[0] == "auto" and step in self.callees:
            rest = rest[:1] + named(*self.callees[step], "auto", rest[1:])
        if rest and rest[0] == "ensures" and step in self.callees:
            rest = rest[:1] + named(*self.callees[step], "ensures", rest[1:])
        return ".".join(["c", self.steps[step]] + rest)

    def body(self, text, root="c"):
        alias = {root: []}
        lets = re.compile(rf"let ({NAME}) = ({NAME}(?:\.{NAME})*) in\s*")

        def cut(text):
            pos = 0
            while True:
                m = lets.search(text, pos)
                if not m:
                    return text
                head, *rest = m[2].split(".")
                if head in alias:
                    alias[m[1]] = alias[head] + rest
                    text = text[: m.start()] + text[m.end() :]
                    pos = m.start()
                else:
                    pos = m.end()

        # an alias may be bound more than once, with other values, in nested lets: then it is left
        text = cut(text)

        def one(m):
            head, rest = m[1], m[2].split(".")[1:]
            if head not in alias:
                return m[0]
            return self.of_path(alias[head] + rest)

        return PATH.sub(one, text)


def bound(params, loop, changed):
    """The new text of each parameter of an invariant."""
    names = loop[1]
    want = [f"l.initial.{n}" if c else f"l.{n}" for n, c in zip(names, changed)] + [f"l.{n}" for n, c in zip(names, changed) if c]
    if len(want) != len(params):
        raise Left(f"invariant has {len(params)} parameters, not {len(want)}")
    return dict(zip(params, want))


def put(text, by):
    return re.sub(rf"(?<![^\s(){{}}\[\],;])({NAME})", lambda m: by.get(m[1], m[1]), text)


def as_record(body, names):
    """A tuple as a record of clauses that have names."""
    lead, rest = "", body
    while True:
        m = re.match(r"let .*? in\s+(?=let |\()", rest, re.S)
        if not m:
            break
        lead, rest = lead + m[0], rest[m.end():]
    if len(names) < 2:
        return body
    if not rest.startswith("(") or not rest.endswith(")"):
        if re.match(r"(search|record|λ|grind|omega|elim)\b", rest):
            return body
        return lead + f"let h = {rest} in record {{" + " ".join(f"{n} = h.{i};" for i, n in enumerate(names)) + "}"
    parts, depth, start = [], 0, 1
    for i, ch in enumerate(rest):
        if ch in "([{":
            depth += 1
        elif ch in ")]}":
            depth -= 1
            if depth == 0 and i != len(rest) - 1:
                return body
        elif ch == "," and depth == 1:
            parts.append(rest[start:i].strip())
            start = i + 1
    last = rest[start:-1].strip()
    if last:
        parts.append(last)
    if len(parts) == 2 < len(names) and parts[1].startswith("("):
        inner = as_record(parts[1], names[1:])
        if inner != parts[1]:
            return lead + "record {" + f" {names[0]} = {parts[0]};" + inner[len("record {") :]
    if len(parts) != len(names):
        return body
    return lead + "record {" + " ".join(f"{n} = {p};" for n, p in zip(names, parts)) + "}"


OLD = os.environ.get("OLD_PROOFS")
KEEP = set()
if "KEEP" in os.environ:
    with open(os.environ["KEEP"], encoding="utf-8") as f:
        KEEP = {tuple(l.split()) for l in f}

SEARCH = re.compile(r"\(?search rules(?: depth \d+)?\)?$")


def turn(folder, crate, name, entry):
    path = os.path.join(OLD, os.path.relpath(folder, "crates"), "Proof.antt") if OLD else os.path.join(folder, "Proof.antt")
    proof = Proof(open(path, encoding="utf-8").read())
    module = f"Rattle.{crate}.proofs.{name}"
    spec = next((n for n in proof.order if re.search(r"statement M", proof.defs[n][1][0])), None)
    if spec is None:
        raise Left("no spec")
    _, unfold, _, right = proof.split(spec)
    m = re.match(r"tie\.close\s*(.*)$", right, re.S)
    if not m:
        raise Left("no tie.close")
    inner = m[1].strip()
    if inner.startswith("("):
        inner = inner[1:-1].strip()
    args = pieces(inner)
    if args[0] != "tie.spec":
        raise Left("no tie.spec")
    args = args[1:]
    short = name.split(".")[-1]
    turner = Turn(entry, crate, short)
    invariants, taken = [], {spec}
    uses = [u for u in proof.uses if ".Statement." not in u and not u.endswith(" as tie")]
    loops = entry["loops"]
    own = [a for a in args if re.match(r"(invariant|decreases)-", a)]
    for a in own:
        kind, old = a.split("-", 1)
        loop, changed = next(((l, ch) for l, ch in zip(loops, entry["changed"]) if flat(l[0][0]) == flat(old)), (None, None))
        if loop is None:
            raise Left("no loop " + old)
        said, _ = proof.defs[a]
        type_, unf, params, body = proof.split(a)
        new = f"{kind}-{loop[0][1]}"
        by = bound(params, loop, changed)
        invariants.append("\n".join(said + [f"abbrev pub {new} : goal.{new}"] + (["unfolding " + " ".join(unf)] if unf else []) + [f"{new} l = {put(body, by)}"]))
        taken.add(a)
    args = [a for a in args if a not in own]
    needs = [n for n in entry["needs"]]
    if len(args) != len(needs):
        raise Left(f"{len(args)} arguments and {len(needs)} needs: {[n[0] for n in needs]}")
    answers = []
    for arg, (old, new) in zip(args, needs):
        if arg.startswith("("):
            lam = re.match(r"\(λ ((?:\S+ )*?\S+)\.\s(.*)\)$", arg, re.S)
            if not lam:
                raise Left("argument " + arg[:40])
            params, body, unf, said = lam[1].split(), lam[2].strip(), unfold, []
        else:
            if arg not in proof.defs:
                raise Left("no " + arg)
            taken.add(arg)
            said, _ = proof.defs[arg]
            _, unf, params, body = proof.split(arg)
            if len(params) == 0:
                lam = re.match(r"λ ((?:\S+ )*?\S+)\.\s(.*)$", body, re.S)
                if not lam:
                    raise Left("no parameters " + arg)
                params, body = lam[1].split(), lam[2].strip()
        if new in entry["settled"]:
            continue
        if SEARCH.match(body) and (crate, name, new) not in KEEP and not (unf and re.match(r"(returns|.*-(init|preserved)$)", new)):
            continue
        body = turner.body(body, params[0])
        if new.startswith("returns"):
            body = as_record(body, CLAUSES.get((crate, short), {}).get("ensures", []))
        elif new.endswith("-requires") or re.search(r"-requires-", new):
            callee = next((c for s, c in turner.callees.items() if turner.steps[s] + "-requires" == new), None) or next((c for s, c in turner.callees.items() if re.match(re.escape(c[1]) + r"(-|$)", new.split("-requires")[0])), None)
            if callee:
                body = as_record(body, CLAUSES.get(callee, {}).get("requires", []))
        answers.append("\n".join(said + [f"pub {new} : goal.{new}"] + (["unfolding " + " ".join(unf)] if unf else []) + [f"{new} c = {body}"]))
    extra = ["\n".join(proof.defs[n][0] + proof.defs[n][1]) for n in proof.order if n not in taken]
    if any("tie." in e for e in extra):
        raise Left("a definition speaks of tie: " + ", ".join(n for n in proof.order if n not in taken))
    head = [l for l in proof.head if l.strip() and l != "-- Assumes nothing." and "meets its contract." not in l]
    meets = [l.split("meets its contract.")[1].strip() for l in proof.head if "meets its contract." in l and l.split("meets its contract.")[1].strip()]
    head = ["-- " + t for t in meets] + head
    if invariants:
        with open(os.path.join(folder, "Invariants.antt"), "w", encoding="utf-8") as f:
            f.write("\n".join(head + uses + [f"use {module}.Given as goal"]) + "\n\n" + "\n\n".join(invariants) + "\n")
        head = []
    if answers:
        with open(os.path.join(folder, "Answers.antt"), "w", encoding="utf-8") as f:
            f.write("\n".join(head + uses + [f"use {module}.Goals as goal"]) + "\n\n" + "\n\n".join(extra + answers) + "\n")
    elif extra:
        raise Left("only own definitions")
    if os.path.exists(os.path.join(folder, "Proof.antt")):
        os.remove(os.path.join(folder, "Proof.antt"))


def main(crate, names, *only):
    with open(names, encoding="utf-8") as f:
        entries = json.load(f)
    top = os.path.join("crates", crate, "proofs")
    for old, dirs, files in os.walk(os.path.join(OLD, crate, "proofs") if OLD else top):
        dirs.sort()
        if "Proof.antt" not in files:
            continue
        folder = os.path.join(top, os.path.relpath(old, os.path.join(OLD, crate, "proofs"))) if OLD else old
        name = os.path.relpath(folder, top).replace(os.sep, ".")
        if only and name not in only:
            continue
        entry = entries.get(f"Rattle-{crate}-proofs.{name}.Lts")
        try:
            if entry is None or "needs" not in entry:
                raise Left("nothing generated")
            turn(folder, crate, name, entry)
        except Left as why:
            print(f"left: {crate} {name}: {why}")


main(*sys.argv[1:])
