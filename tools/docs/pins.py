#!/usr/bin/env python3
"""pins.py [--write]: what holds each definition beside the code that equals it.
For each file of definitions behind the promise or behind an exported contract it lists the files of rows that compute with its definitions
(tools/docs/pairs says which files these are), or what else holds it (tools/docs/pins.txt: a theorem in other words, stored cases).
--write puts the table into docs/PROOFS.md between its two marks. Exit status 1 where a file is held by nothing."""
import os
import re
import sys

sys.dont_write_bytecode = True
sys.path.insert(0, os.path.dirname(os.path.dirname(os.path.abspath(__file__))))
import lib
import reading

BEGIN, END = '<!-- what holds each definition: tools/docs/pins.py --write -->', '<!-- end -->'


def rows_of():
    """For each file of definitions the files of rows that name one of its definitions, and those names."""
    pairs, found = lib.module('docs/pairs'), {}
    os.chdir(lib.root)
    for crate in pairs.crates():
        for module, path in pairs.proofs_of(crate).items():
            if pairs.ROWS.search(module):
                for c, file, names in re.findall(r'^use Rattle\.(\w+)\.specs\.((?:[a-z]\w*\.)?[A-Z]\w*)\.\{([^}]*)\}', pairs.read(path), re.M):
                    for name in names.split(','):
                        found.setdefault((c, file), {}).setdefault(f'{crate}/{module.replace(".", "/")}', set()).add(name.strip())
    return found


def others():
    found = {}
    with open(os.path.join(lib.root, 'tools/docs/pins.txt')) as f:
        for line in f:
            if ':' in line and not line.startswith('#'):
                key, text = line.strip().split(': ', 1)
                found[tuple(key.split('/', 1))] = text
    return found


def table():
    d, (first, second, _, _) = reading.sorts()
    rows, more, lines, bare = rows_of(), others(), ['| Definitions | Rows | Beside them |', '|---|---|---|'], []
    for c, file in d.order:
        mine = [k for k in first | second if k[:2] == (c, file)]
        if not mine:
            continue
        key = (c, file.replace('.', '/'))
        held = rows.get((c, file), {})
        if not held and key not in more:
            bare.append('/'.join(key))
        some = sorted(held, key=lambda f: (-len(held[f]), f))
        for most in (3, 2, 1):
            shown = ', '.join(some[:most]) + (f' and {len(some) - most} more' if len(some) > most else '')
            line = f'| {c}/{key[1]} | {shown} | {more.get(key, "")} |'
            if len(line) <= 160:
                break
        lines.append(line)
    return lines, bare


def main():
    lib.words('[--write]', __doc__)
    lines, bare = table()
    if '--write' in sys.argv:
        path = os.path.join(lib.root, 'docs/PROOFS.md')
        with open(path) as f:
            text = f.read()
        text = re.sub(re.escape(BEGIN) + r'.*?' + re.escape(END), lambda m: BEGIN + '\n' + '\n'.join(lines) + '\n' + END, text, flags=re.S)
        with open(path, 'w') as f:
            f.write(text)
    else:
        print('\n'.join(lines))
    for b in bare:
        print('held by nothing:', b, file=sys.stderr)
    sys.exit(1 if bare else 0)


if __name__ == '__main__':
    main()
