#!/usr/bin/env python3
"""Turns the proofs of functions of an older Rattle, proofs/F/Proof.antt over `Tie`, into Invariants.antt and Answers.antt.

usage: answers.py CRATE..        at the top of a checkout; each crate's own checks decide afterwards

It asks `rt check --generated DIR --old-names` for the old and the new name of each goal, step and loop. Answers that only say `search rules` go: the check finds them.
A Proof.antt that it turned is moved to port-proofs/CRATE of the folder for temporary files. What it could not turn is printed as a line that begins 'left:'.
"""
import json
import os
import re
import subprocess
import sys
import tempfile

# the kit's folder: `rt doc` prints a page of it
KIT = os.path.dirname(subprocess.run(["rt", "doc"], capture_output=True, text=True).stdout.strip())
NAME = r'[^\s(){}.;,@"«»]+'
ENDS = {"holds": "init", "less": "smaller", "again": "preserved"}


def read(path):
    with open(path, encoding="utf-8") as f:
        return f.read()


def norm(name):
    return name.replace("_", "-").lower()


def labels_of(root, path, kind="ensures"):
    """The labels of the clauses of a function, named by crate::module::function; [] where it has one clause or none."""
    parts = path.split("::")
    crate, mods, fn = parts[0], parts[1:-1], parts[-1]
    src = os.path.join(root, "crates", crate, "src")
    if not os.path.exists(src):
        src = os.path.join(KIT, "rattle", crate, "src")
    for cut in range(len(mods), -1, -1):
        for f in ([os.path.join(src, *mods[:cut]) + ".rt"] if cut else [os.path.join(src, "lib.rt"), os.path.join(src, "main.rt")]):
            if not os.path.exists(f):
                continue
            m = re.search(rf"(?m)^\s*(?:pub )?(?:unsafe )?(?:extern \"C\" )?fn {re.escape(fn)}\b", read(f))
            if m:
                body = read(f)[m.start():]
                head = re.split(r"(?m)^\s*\{\s*$", body, 1)[0]
                return re.findall(rf"(?m)^\s*{kind} (\w+) \{{", head)
    return []


def by_label(digits, lab):
    """Old digits of a row of clauses as the label and what is left."""
    n = len(lab)
    k = len(digits) - len(digits.lstrip("1"))
    if digits and (digits[k:k + 1] == "0" and k < n - 1):
        return "." + lab[k] + "".join("." + d for d in digits[k + 1:])
    if k >= n - 1:
        return "." + lab[n - 1] + "".join("." + d for d in digits[n - 1:])
    return None


def split_pair(t):
    """(a, b) at the top of a term, or None."""
    t = t.strip()
    if not (t.startswith("(") and t.endswith(")")):
        return None
    depth, cuts = 0, []
    for i, ch in enumerate(t):
        if ch in "([{":
            depth += 1
        elif ch in ")]}":
            depth -= 1
            if depth == 0 and i != len(t) - 1:
                return None
        elif ch == "," and depth == 1:
            cuts.append(i)
    if not cuts:
        return None
    at = [0] + cuts + [len(t) - 1]
    parts = [t[a + 1:b].strip() for a, b in zip(at, at[1:])]
    return parts if parts[-1] else parts[:-1]


def lets(t):
    """The `let .. in` lines at the head of a term, and the rest."""
    depth, cut = 0, 0
    if not t.lstrip().startswith("let "):
        return "", t
    for i, ch in enumerate(t):
        if ch in "([{":
            depth += 1
        elif ch in ")]}":
            depth -= 1
        elif depth == 0 and re.match(r"\sin\s", t[i:i + 4]):
            cut = i + 4
    # a `let` in the value of another one is in parentheses, or its end is the end of the row
    return t[:cut], t[cut:]


def as_record(body, labels):
    head, tail = lets(body)
    if head and split_pair(tail):
        rec = as_record(tail, labels)
        return rec and [(l, head + t if isinstance(t, str) else t) for l, t in rec]
    n = len(labels)
    parts, rest = [], body
    while len(parts) < n - 1:
        pair = split_pair(rest)
        if pair is None:
            break
        if len(pair) == n - len(parts):
            parts += pair
            rest = None
            break
        if len(pair) != 2:
            return None
        parts.append(pair[0])
        rest = pair[1]
    if rest is not None:
        parts.append(rest)
    if len(parts) == n:
        return list(zip(labels, parts))
    if len(parts) == 1 and re.match(r"(search|omega|grind|cc)\b", body.strip()):
        return [(l, body.strip()) for l in labels]
    if len(parts) == 1:
        paths = [".1" * k + ".0" for k in range(n - 1)] + [".1" * (n - 1)]
        return [(l, ("whole", body.strip(), p)) for l, p in zip(labels, paths)]
    return None


class Turn:
    def __init__(self, root, crate, names):
        self.root, self.crate, self.names = root, crate, names
        self.left = []

    def say(self, path, what):
        self.left.append(f"left: {self.crate}/{path}: {what}")

    def chain(self, it, place):
        """The steps from a place down to the start."""
        by = {p[0]: p for p in it["places"]}
        while place is not None and place in by:
            yield by[place]
            place = by[place][1]

    def paths(self, it, place, text, where):
        """Rewrites c.before..step.field paths of an answer at a place."""
        while True:
            m = re.search(r"let (" + NAME + r") = (c(?:\.before(?![\w-]))*) in\s*", text)
            if not m:
                break
            text = text[:m.start()] + re.sub(r"(?<![^\s(){};,])" + re.escape(m.group(1)) + r"(?![^\s(){}.;,])", m.group(2), text[m.end():])
        def one(m):
            befores = m.group(1).count(".before")
            fields = m.group(2)
            at = place
            by = {p[0]: p for p in it["places"]}
            for _ in range(befores):
                at = by[at][1] if at in by else None
                if at is None:
                    break
            first = re.match(r"\.(" + NAME + ")", fields)
            if not first:
                return m.group(0)
            f = first.group(1)
            rest = fields[first.end():]
            at_index = {p[0]: i for i, p in enumerate(it["places"])}
            for p in self.chain(it, at):
                arm = it["arms"][at_index[p[0]]] if at_index[p[0]] < len(it["arms"]) else None
                if not arm:
                    continue
                for nf, step, path in arm[2]:
                    tail = "".join("." + x for x in path)
                    if path and norm(step) == norm(f) and (rest == tail or rest.startswith(tail + ".")):
                        return f"c.{arm[0]}.{nf}" + rest[len(tail):]
            for p in self.chain(it, at):
                old, new = p[2]
                if norm(old) == norm(f) and f:
                    callee = p[3]
                    mn = re.match(r"\.(new|auto)((?:\.1)*)\.0", rest)
                    ms = it["params"].get(callee) if callee else None
                    if ms and mn and mn.group(2).count("1") < len(ms):
                        rest = f".{mn.group(1)}.{ms[mn.group(2).count('1')]}" + rest[mn.end():]
                    if callee and rest.startswith(".ensures") or callee and rest.startswith(".requires"):
                        kind = "ensures" if rest.startswith(".ensures") else "requires"
                        lab = labels_of(self.root, callee, kind)
                        if lab:
                            mm = re.match(r"\.(?:ensures|requires)((?:\.[01])*)(?![\w])", rest)
                            digits = mm.group(1).replace(".", "") if mm else ""
                            n = len(lab)
                            if n == 1 and mm and not rest[mm.end():].startswith("." + lab[0]):
                                rest = f".{kind}.{lab[0]}" + mm.group(1) + rest[mm.end():]
                                return "c." + new + rest
                            k = len(digits) - len(digits.lstrip("1"))
                            if digits and (digits[k:k + 1] == "0" and k < n - 1 or k >= n - 1):
                                use = min(k, n - 1)
                                more = digits[use + 1:] if k < n - 1 else digits[n - 1:]
                                rest = f".{kind}.{lab[use]}" + "".join("." + d for d in more) + rest[mm.end():]
                    return "c." + new + rest
            if befores and at != place:
                again = self.paths(it, place, "c" + fields, where)
                if again != "c" + fields:
                    return again
            return "c" + re.sub(r"^\.(well|type)-(formed|inv)", r".\1_\2", fields)
        text = re.sub(r"(?<![^\s(){};,])c((?:\.before(?![\w-]))*)((?:\." + NAME + ")*)", one, text)
        for m in list(re.finditer(r"let (" + NAME + r") = c\.(" + NAME + r") in", text)):
            callees = [p[3] for p in it["places"] if p[2][1] == m.group(2) and p[3]]
            for kind in ("ensures", "requires"):
                lab = labels_of(self.root, callees[0], kind) if callees else []
                if len(lab) >= 2:
                    text = re.sub(r"(?<![^\s(){};,])" + re.escape(m.group(1)) + r"\." + kind + r"((?:\.[01])+)", lambda q: m.group(1) + "." + kind + (by_label(q.group(1).replace(".", ""), lab) or q.group(1)), text)
            ms = (it["params"].get(callees[0]) if callees else None) or []
            text = re.sub(r"(?<![^\s(){};,])" + re.escape(m.group(1)) + r"\.(new|auto)((?:\.1)*)\.0", lambda q: f"{m.group(1)}.{q.group(1)}.{ms[q.group(2).count('1')]}" if q.group(2).count("1") < len(ms) else q.group(0), text)
        for m in list(re.finditer(r"let (" + NAME + r") = c\.(" + NAME + r")\.ensures in", text)):
            callees = [p[3] for p in it["places"] if p[2][1] == m.group(2) and p[3]]
            lab = labels_of(self.root, callees[0]) if callees else []
            if len(lab) < 2:
                continue
            text = re.sub(r"(?<![^\s(){};,])" + re.escape(m.group(1)) + r"((?:\.[01])+)", lambda q: m.group(1) + (by_label(q.group(1).replace(".", ""), lab) or q.group(1)), text)
        return text

    def turn(self, path):
        """path: proofs/.../Proof.antt below the crate."""
        full = os.path.join(self.root, "crates", self.crate, path)
        text = read(full)
        module = ".".join(path.split("/")[1:-1])
        it = self.names.get(f"Rattle-{self.crate}-proofs.{module}.Lts")
        if it is None or "Tie as tie" not in text:
            self.say(path, "no names" if it is None else "no tie")
            return None
        fn = "::".join([self.crate] + path.split("/")[1:-1])
        labels = labels_of(self.root, fn)
        blocks = re.split(r"\n\n+", text.strip("\n"))
        uses, inv, ans, helpers = [], [], [], []
        if blocks and all(l.startswith(("use ", "--", " ")) or not l for l in blocks[0].split("\n")):
            uses = blocks[0].split("\n")
            blocks = blocks[1:]
        needs = {}
        for (old, new), (op, np) in zip(it["needs"], it["asked_at"]):
            needs.setdefault(norm(old), (new, op))
        loops = {norm(l[0][0]): (l[0][1], l[1], ch) for l, ch in zip(it["loops"], it["changed"])}
        for b in blocks:
            lines = b.split("\n")
            comments = [l for l in lines if l.startswith("--")]
            lines = [l for l in lines if not l.startswith("--")]
            if not lines:
                continue
            b = "\n".join(lines)
            m = re.match(r"(abbrev )?(?:pub )?(" + NAME + r")\s*:\s*(.*)", lines[0])
            if not m:
                helpers.append(b)
                continue
            name = m.group(2)
            if "statement" in lines[0] and name.endswith(("-spec", "_spec")):
                continue
            sig = lines[0]
            k = 1
            while k < len(lines) and lines[k].startswith("   ") and not re.match(re.escape(name) + r"[ =]", lines[k]):
                sig += " " + lines[k].strip()
                k += 1
            unfold = []
            while k < len(lines) and lines[k].startswith("unfolding"):
                unfold.append(lines[k])
                k += 1
            need = re.search(r"tie\.(Need-|invariant-|decreases-)(" + NAME + ")", sig)
            if not need:
                at = None
                for q in re.findall(r"tie\.(" + NAME + ")", b):
                    for p, new in zip(it["places"], it["places_by_name"]):
                        if norm(p[0]) == norm(q):
                            at = at or p[0]
                            b = re.sub(r"tie\." + re.escape(q) + r"(?![^\s(){}.;,])", "goal." + new, b)
                helpers.append(self.paths(it, at, b, path) if at else b)
                continue
            body = "\n".join(lines[k:])
            mb = re.match(re.escape(name) + r"((?: [^\s=]+)*) =\s*", body)
            if not mb:
                self.say(path, f"the form of {name}")
                continue
            params = mb.group(1).split()
            term = body[mb.end():].strip()
            if need.group(1) == "Need-":
                key = norm(need.group(2))
                alt = norm(name)
                for a, bb in ENDS.items():
                    alt = re.sub(rf"-{a}(-\d+)?$", lambda q: f"-{bb}{q.group(1) or ''}", alt)
                got = needs.get(key) or needs.get(alt) or needs.get(re.sub(r"^overflow-", "", key)) or needs.get(norm(name))
                if term in ("search rules", "search needs") and not unfold:
                    continue
                if not got and (kind := re.match(r"(?:overflow-)?(add|sub|mul|cast|shl|shr)-", key)):
                    # by its turn among those of one kind that have other names
                    mine = [k for k in re.findall(r"tie\.Need-(" + NAME + ")", text) if re.match(rf"(?:overflow-)?{kind.group(1)}-", norm(k))]
                    theirs = [(old, new, pl[0]) for (old, new), pl in zip(it["needs"], it["asked_at"]) if re.match(rf"{kind.group(1)}-", norm(old))]
                    taken = {norm(k) for k in mine} | {re.sub("^overflow-", "", norm(k)) for k in mine}
                    lone = [k for k in mine if norm(k) not in needs and re.sub("^overflow-", "", norm(k)) not in needs]
                    free = [x for x in theirs if norm(x[0]) not in taken]
                    if need.group(2) in lone and len(lone) == len(free):
                        _, a, pl = free[lone.index(need.group(2))]
                        got = (a, pl)
                if not got:
                    self.say(path, f"goal {need.group(2)} ({name}) = {term[:100]}")
                    continue
                new, place = got
                c = params[0] if params else "c"
                if c != "c":
                    term = re.sub(r"(?<![^\s(){};,])" + re.escape(c) + r"(?=[.\s)])", "c", term)
                term = self.paths(it, place, term, path)
                term = re.sub(r"\n\s*", " ", term) if "where" not in term and "--" not in term else term
                lab = labels if new == "returns" or new.startswith("returns-") else None
                if lab is None and "-requires" in new:
                    step = new.split("-requires")[0]
                    for p in it["places"]:
                        if p[3] and norm(p[2][1]).startswith(norm(step)):
                            lab = labels_of(self.root, p[3], "requires")
                            break
                unf = "".join(u + "\n" for u in unfold)
                if lab and "where" not in term:
                    rec = as_record(term, lab)
                    if rec is None:
                        self.say(path, f"record of {new}: {term[:100]}")
                        continue
                    for l, t in rec:
                        if isinstance(t, tuple):
                            t = f"let whole = {t[1]} in whole{t[2]}"
                        elif t == "search rules" and not unfold:
                            continue
                        ans.append(f"pub {new}-clause-{l} : goal.{new}-clause-{l}\n{unf}{new}-clause-{l} c = {t}")
                else:
                    ans.append(f"pub {new} : goal.{new}\n{unf}{new} c = {term}")
            else:
                kind = need.group(1)[:-1]
                loop = loops.get(norm(need.group(2)))
                if not loop:
                    self.say(path, f"loop {need.group(2)}")
                    continue
                new, vs, changed = loop
                to, now = {}, sum(changed)
                middle = params[len(vs):len(params) - now]
                if len(params) < len(vs) + now or any(re.search(r"(?<![^\s(){};,])" + re.escape(x) + r"(?![^\s(){}.;,])", term) for x in middle):
                    self.say(path, f"parameters of {name}: {params} for {vs} {changed}")
                    continue
                for v, ch, x in zip(vs, changed, params):
                    to[x] = f"l.initial.{v}" if ch else f"l.{v}"
                for v, x in zip([v for v, ch in zip(vs, changed) if ch], params[len(params) - now:]):
                    to[x] = f"l.{v}"
                term = re.sub(r"(?<![^\s(){};,])" + NAME, lambda q: to.get(q.group(0), q.group(0)), term)
                unf = "".join(u + "\n" for u in unfold)
                inv.append(f"abbrev pub {kind}-{new} : goal.{kind}-{new}\n{unf}{kind}-{new} l = {term}")
        uses = [u for u in uses if not re.search(r"\.(Statement\.\{statement\}|Tie as tie|Reads as \S+|Lts as \S+)$", u)]
        def used(u, body):
            return u
        base = f"Rattle.{self.crate}.proofs.{module}"
        folder = os.path.dirname(full)

        def needed(body):
            """The use lines with only the names that a body has."""
            words = set(re.findall(r'[^\s(){}.;,@"«»]+', body))
            out = []
            for u in uses:
                m = re.match(r"(use \S+?\.)\{(.*)\}$", u)
                if not m:
                    out.append(u)
                    continue
                keep = []
                for n in m.group(2).split(","):
                    n = n.strip()
                    last = n.split(" as ")[-1]
                    mid = last.strip("◌").split("◌")
                    if last in words or "◌" in last and all(p in words or any(p in w for w in words) for p in mid if p):
                        keep.append(n)
                if keep:
                    out.append(m.group(1) + "{" + ", ".join(keep) + "}")
            return out
        helptext = "\n\n".join(helpers)
        if inv:
            body = "\n\n".join(inv)
            with open(os.path.join(folder, "Invariants.antt"), "w", encoding="utf-8") as f:
                f.write("\n".join(needed(body) + [f"use {base}.Given as goal"]) + "\n\n" + body + "\n")
        if ans:
            body = "\n\n".join(helpers + ans)
            with open(os.path.join(folder, "Answers.antt"), "w", encoding="utf-8") as f:
                f.write("\n".join(needed(body) + [f"use {base}.Goals as goal"]) + "\n\n" + body + "\n")
        elif helpers:
            self.say(path, "helpers without an answer")
        return full


def main():
    root = os.getcwd()
    for crate in sys.argv[1:]:
        where = os.path.join(root, "crates", crate)
        out = os.path.join(tempfile.gettempdir(), "port-names", crate)
        os.makedirs(out, exist_ok=True)
        files = []
        for folder, dirs, fs in os.walk(os.path.join(where, "proofs")):
            if "Proof.antt" in fs:
                files.append(os.path.relpath(os.path.join(folder, "Proof.antt"), where))
        if not files:
            continue
        said = subprocess.run(["rt", "check", "--generated", out, "--old-names"], cwd=where, capture_output=True, text=True)
        js = os.path.join(out, "names.json")
        if not os.path.exists(js):
            print(f"left: {crate}: no names.json: {(said.stdout + said.stderr)[-1500:]}")
            continue
        t = Turn(root, crate, json.load(open(js)))
        for f in sorted(files):
            full = t.turn(f)
            if full:
                to = os.path.join(tempfile.gettempdir(), "port-proofs", crate, f)
                os.makedirs(os.path.dirname(to), exist_ok=True)
                os.replace(full, to)
        print("\n".join(t.left))
        print(f"answers: {crate}: {len(files)} proofs")


if __name__ == "__main__":
    main()
