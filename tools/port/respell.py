#!/usr/bin/env python3
"""Spells the repository's own definitions, lemmas and fields in snake case, after the kit's port.py: `left-in` and `leftIn` are `left_in`.

usage: respell.py [--report] FOLDER      the top of a checkout in which port.py ran; --report writes nothing

Types and modules keep their capitals. A lemma whose name meets that of a definition gets `_lem`. Text in quotes stays. A name that a file imports from a library stays in that file.
Names of a function's own goals (proofs/../Proof.antt) are not touched. The table old to new goes to tools/port/names.tsv.
"""
import collections
import os
import re
import sys

DECLARED = re.compile(r'\s*((?:abbrev |unfoldable |pub )*)([^\s(){}.;,@"«»:λ]+) :( |$)')
WORD = re.compile(r'[^\s(){}\[\].;,@"«»|⟨⟩]+')
PLAIN = re.compile(r"[A-Za-z][A-Za-z0-9_'!?]*(?:-[A-Za-z0-9_'!?]+)*")


def snake(name):
    return re.sub(r"(?<=[a-z0-9])([A-Z])", lambda m: "_" + m.group(1).lower(), name).replace("-", "_")


def texts(root):
    for folder, dirs, files in os.walk(os.path.join(root, "crates")):
        dirs[:] = sorted(d for d in dirs if d != "out")
        for f in sorted(files):
            if f.endswith((".antt", ".rt")):
                yield os.path.join(folder, f)


def read(path):
    with open(path, encoding="utf-8") as f:
        return f.read()


def declared(root):
    """Names that the texts declare, each with its files, and apart from them the names of fields and constructors."""
    names, fields = collections.defaultdict(set), collections.defaultdict(set)
    for path in texts(root):
        if not path.endswith(".antt") or path.endswith("/Proof.antt"):
            continue
        inside = None
        for line in read(path).split("\n"):
            if not line.strip() or line.lstrip().startswith("--"):
                continue
            depth = len(line) - len(line.lstrip())
            if inside is not None and depth <= inside:
                inside = None
            if re.match(r"\s*(pub )?(record|data) \S+ .*where$", line):
                inside = depth
                continue
            if inside is not None and (several := re.match(r"\s*(?:pub )?(\S+(?: \S+)+) : ", line)) and not re.search(r"[(){}]", several.group(1)):
                for n in several.group(1).split():
                    fields[n].add(path)
            m = DECLARED.match(line)
            if m:
                (names if inside is None else fields)[m.group(2)].add(path)
    return names, fields


def functions(root):
    found = set()
    for path in texts(root):
        if path.endswith(".rt"):
            found.update(re.findall(r"\bfn (\w+)", read(path)))
    return found


def table(names, fields):
    """Old to new for names, old to new for fields, and the names that fall together."""
    groups = collections.defaultdict(set)
    for n in names:
        if not n[0].isupper():
            groups[snake(n)].add(n)
    to, met = {}, []
    for new, olds in sorted(groups.items()):
        if len(olds) > 1:
            met.append((new, sorted(olds)))
        # a definition keeps the plain name, then a name that has it already
        first = sorted(olds, key=lambda n: (not any("/specs/" in p for p in names[n]), n != new, n))[0]
        for n in olds:
            to[n] = new if n == first else new + "_lem"
    # a law of the operator ◌or_else◌
    if "or-else" in to:
        to["or-else"] = "or_else_lem"
    taken = collections.Counter(to.values())
    for n, c in taken.items():
        if c > 1:
            raise SystemExit(f"respell: {n} twice")
    of_fields = {n: snake(n) for n in fields if not n[0].isupper()}
    return {a: b for a, b in to.items() if a != b}, {a: b for a, b in of_fields.items() if a != b}, met


def libraries_names(text, own):
    """Names that a file imports from modules that are not the repository's."""
    found = set()
    for m in re.finditer(r"(?m)^(?:ghost )?use ([^\s;{]+?)\.?\{([^}]*)\}", text):
        module = m.group(1).split(".")
        if module[0] == "Rattle" and len(module) > 1 and module[1] in own:
            continue
        for it in m.group(2).split(","):
            words = it.split()
            found.update(words)
    return found


def turn(text, path, to, of_fields, own, called):
    rust = path.endswith(".rt")
    keep = libraries_names(text, own)
    proof = re.search(r"/(Proof|Answers|Invariants)\.antt$", path) is not None
    out = []
    for line in text.split("\n"):
        mark = "//" if rust else "--"
        at = None
        quoted = False
        for i, ch in enumerate(line):
            if ch == '"' and (i == 0 or line[i - 1] != "\\"):
                quoted = not quoted
            elif not quoted and line.startswith(mark, i) and (i == 0 or line[i - 1].isspace()):
                at = i
                break
        code, comment = (line, "") if at is None else (line[:at], line[at:])
        parts = re.split(r'("(?:[^"\\]|\\.)*")', code)
        for k in range(0, len(parts), 2):

            def word(m):
                w = m.group(0)
                if w in keep:
                    return w
                dotted = m.start() > 0 and m.string[m.start() - 1] == "." and (m.start() > 1 and not m.string[m.start() - 2].isspace())
                if dotted:
                    if w in of_fields and not (proof and w.replace("-", "_") in called):
                        return of_fields[w]
                    before = re.search(r"[\w.·]*\.$", m.string[: m.start()])
                    qualified = before and before.group(0)[0].isupper()
                    if rust or m.string[m.end():m.end() + 1] == ".":
                        return w
                    return to.get(w, w) if qualified or (w in to and not proof and w not in of_fields) else w
                if w in to and not (rust and to[w].endswith("_lem")):
                    return to[w]
                if w in of_fields:
                    return of_fields[w]
                # an operator by its middle
                if "◌" + w + "◌" in to:
                    return to["◌" + w + "◌"].strip("◌")
                return w

            parts[k] = WORD.sub(word, parts[k])
        comment = PLAIN.sub(lambda m: to.get(m.group(0), of_fields.get(m.group(0), m.group(0))) if "-" not in m.group(0) else m.group(0), comment)
        comment = re.sub(r"`([^`]*)`", lambda q: "`" + WORD.sub(lambda m: to.get(m.group(0), of_fields.get(m.group(0), m.group(0))), q.group(1)) + "`", comment)
        out.append("".join(parts) + comment)
    return "\n".join(out)


def main():
    report = "--report" in sys.argv
    root = [a for a in sys.argv[1:] if a != "--report"][0]
    own = set(os.listdir(os.path.join(root, "crates")))
    names, fields = declared(root)
    to, of_fields, met = table(names, fields)
    called = functions(root)
    for new, olds in met:
        print(f"met: {new}: {', '.join(olds)} ({', '.join(to.get(o, o) for o in olds)})")
    changed = 0
    for path in texts(root):
        text = read(path)
        new = turn(text, path, to, of_fields, own, called)
        words = set(WORD.findall(text))
        after = set(WORD.findall(new))
        for w in sorted(words):
            t = to.get(w)
            if t and t in words and t not in to and t in after and w not in after:
                print(f"look: {path}: {w} meets {t}")
        if new != text:
            changed += 1
            if not report:
                with open(path, "w", encoding="utf-8") as f:
                    f.write(new)
    print(f"respell: {len(to)} names, {len(of_fields)} fields, {changed} files")
    if not report:
        said = os.path.join(root, "tools/port/names.tsv")
        os.makedirs(os.path.dirname(said), exist_ok=True)
        before = dict(l.split("\t") for l in read(said).splitlines()) if os.path.exists(said) else {}
        with open(said, "w", encoding="utf-8") as f:
            for a, b in sorted({**before, **of_fields, **to}.items()):
                f.write(f"{a}\t{b}\n")


if __name__ == "__main__":
    main()
