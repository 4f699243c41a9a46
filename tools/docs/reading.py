#!/usr/bin/env python3
"""reading.py [--lines] [--write]: which definitions must be believed for which claim, as the table of docs/TREE.md.
--write puts it there, --lines says how many lines that are.
A definition is behind `Promise` where its name is reached from there, through definitions.
What open, feed and finish answer is not gone through (spec_session/specs/session/SessionCalls): the promise takes it as met.
Else it is behind contracts, where one of an exported function or the promise's other forms reach it; else behind contracts of private functions;
else it belongs to examples and other theorems.
Names are resolved by the `use` lines. A file stands where its first such definition does."""
import os
import re
import sys

sys.path.insert(0, os.path.dirname(os.path.dirname(os.path.abspath(__file__))))
import lib


TITLES = ('The promise', 'Contracts of exported functions', 'Contracts of private functions', 'Examples, other theorems')
MET = {('spec_session', 'session.SessionCalls', 'Answered'), ('spec_session', 'session.SessionCalls', 'OpenAnswered')}


def tokens(text):
    return re.findall(r'[^\s(){};,"]+', text)


def parts(name):
    """A name as it stands in a text: `or_else` for `◌or_else◌`."""
    return [p for p in name.split('◌') if p]


class Definitions:
    def __init__(self):
        self.parser, self.text, self.uses, self.names, self.order = lib.module('docs/landing-note'), {}, {}, {}, []
        with open(os.path.join(lib.root, 'crates.txt')) as f:
            self.crates = re.findall(r'^(\w+)(?= *(?:staticlib *)?(?::|$))', f.read(), re.M)
        files = [(c, f, p) for c in self.crates for f, p in self.files(c, 'specs', '.antt')]
        known = {}
        for crate, file, path in files:
            self.order.append((crate, file))
            known[crate, file] = self.read(crate, file, path)
        for crate, file, path in files:
            for name in {n for c, f, n in self.text if (c, f) == (crate, file)}:
                key = (crate, file, name)
                self.uses[key] = self.reached(self.text[key], known[crate, file], crate, file) - {key}

    def files(self, crate, kind, end):
        base = os.path.join(lib.root, 'crates', crate, kind)
        first = []
        if os.path.exists(os.path.join(base, 'Lib.antt')):
            with open(os.path.join(base, 'Lib.antt')) as f:
                first = [m + end for m in re.findall(r'^pub mod (\w+)', f.read(), re.M)]
        found = []
        for folder, _, names in os.walk(base):
            inner = os.path.relpath(folder, base).replace(os.sep, '.') + '.' if folder != base else ''
            found += [(inner + f[:-len(end)], os.path.join(folder, f)) for f in names if f.endswith(end) and f != 'Lib.antt']
        # in the order of Lib.antt, of a floor's folders too
        yield from sorted(found, key=lambda x: (next((i for i, m in enumerate(first) if m[:-len(end)] == x[0].split('.')[0]), len(first)), x))

    def read(self, crate, file, path):
        with open(path) as f:
            text = self.parser.plain(f.read(), r'(?<!\S)--')
        for name, _, item in self.parser.antt(text.split('\n')):
            name = name.replace(' (how it binds)', '')
            self.text[crate, file, name] = self.text.get((crate, file, name), '') + item + '\n'
            for other in [name] + (list(self.parser.fields(item)) if re.search(r'\bdata\b', item.split('\n')[0]) else []):
                self.names[crate, file, other] = name
        return self.parser.origins(text)

    def reached(self, text, known, crate, file):
        """The definitions that a text names, by the names that its file knows."""
        here = {}
        for (c, f, n), item in self.names.items():
            if (c, f) == (crate, file):
                for p in parts(n):
                    here[p] = (c, f, item)
        for n, path in known.items():
            m = re.fullmatch(r'Rattle\.(\w+)\.specs\.((?:[a-z]\w*\.)?[A-Z]\w*)\.(.+)', path)
            if m and (m[1], m[2], m[3]) in self.names:
                for p in parts(n):
                    here[p] = (m[1], m[2], self.names[m[1], m[2], m[3]])
        # a field stands behind its value without a blank: `kit.known` names `kit`
        found = {here[n] for t in tokens(text) for n in (t, t.split('.')[0]) if n in here}
        for t in tokens(text):
            for bit in t.split('.')[1:]:
                m = re.fullmatch(r'Rattle\.(\w+)\.specs\.((?:[a-z]\w*\.)?[A-Z]\w*)', known.get(t.split('.')[0], ''))
                if m and (m[1], m[2], bit) in self.names:
                    found.add((m[1], m[2], self.names[m[1], m[2], bit]))
        return found

    def closure(self, roots, without=()):
        found, left = set(), list(roots)
        while left:
            key = left.pop()
            if key not in found and key not in without:
                found.add(key)
                left += self.uses.get(key, ())
        return found

    def contracts(self):
        """What the contracts of exported functions name, and those of private ones."""
        exported, private = set(), set()
        for crate in self.crates:
            modules = {f: open(p).read() for f, p in self.files(crate, 'src', '.rt')}
            passed = {path.rpartition('::')[2] for path in self.parser.exports(modules.get('lib', ''))}
            for file, text in modules.items():
                text = self.parser.plain(text, '//')
                known = self.parser.origins(text)
                for kind, name, item in self.parser.rattle(text):
                    if kind == 'contracts':
                        out = name in passed or file == 'lib' and re.search(r'\bpub\b', item)
                        # a function and the definition of what it answers may have one name
                        item = re.sub(r'\bfn \w+', 'fn', item, count=1)
                        (exported if out else private).update(self.reached(item, known, crate, ''))
        return exported, private


def sorts():
    d = Definitions()
    exported, private = d.contracts()
    promise = {k for k in d.text if k[0] == 'promise' and k[1] in ('Promise', 'Stronger')}
    first = d.closure({('promise', 'Promise', 'Promise')}, MET)
    second = d.closure(exported | promise | {('promise', 'Promise', 'Promise')}) - first
    third = d.closure(private) - first - second
    return d, (first, second, third, set(d.text) - first - second - third)


def table():
    d, found = sorts()
    lines = ['| Crate, folder | ' + ' | '.join(TITLES) + ' |', '|---|---|---|---|---|']
    rows = {}
    for crate, file in d.order:
        k = next((k for k, keys in enumerate(found) if any(x[:2] == (crate, file) for x in keys)), None)
        if k is not None:
            folder, _, name = file.rpartition('.')
            rows.setdefault((crate, folder), [[], [], [], []])[k].append(name)
    for (crate, folder), cells in rows.items():
        lines.append(f'| {crate}{" " + folder if folder else ""} | ' + ' | '.join(', '.join(c) for c in cells) + ' |')
    lines.append('| all: lines of definitions | ' + ' | '.join(f'{count(d, keys):,}' for keys in found) + ' |')
    return '\n'.join(lines)


def count(d, keys):
    """Lines of definitions, without imports, comments and blank lines."""
    return sum(1 for k in keys for l in d.text[k].split('\n') if l.strip())


def main():
    lib.words('[--lines] [--write]', __doc__)
    if lib.chosen('--write'):
        path = os.path.join(lib.root, 'docs/TREE.md')
        with open(path) as f:
            text = f.read()
        with open(path, 'w') as f:
            f.write(re.sub(r'^\| Crate, folder \| The promise (?:.*\n)(?:\|.*\n)*', lambda m: table() + '\n', text, count=1, flags=re.M))
        return
    if not lib.chosen('--lines'):
        print(table())
        return
    d, found = sorts()
    for title, keys in zip(TITLES, found):
        print(f'{title}: {len(keys)} definitions, {count(d, keys)} lines')


if __name__ == '__main__':
    main()
