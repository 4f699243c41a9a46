"""The command over the stored folders of the programs."""
import json
import os
import re

import lib
from lib import KINDS
from models import cues as cues_model
from tests.command import as_refused, cut_of, holds, run


def stored(crate, gap):
    """Name, folder and stored answer of each case; `gap` bytes stand behind an answer."""
    data = os.path.join(lib.root, 'crates', crate, 'data')
    with open(os.path.join(data, 'cases.txt')) as f:
        names = f.read().split()
    with open(os.path.join(lib.root, 'crates', crate, 'stdout'), 'rb') as f:
        text, at = f.read(), 0
    for name, then in zip(names, names[1:] + [None]):
        head = name.encode() + b':\n'
        if text[at:at + len(head)] != head:
            lib.stop(f'{crate}: {name} is not where it should be')
        end = text.index(b'\n' + then.encode() + b':\n', at) + 1 if then else len(text)
        yield name, os.path.join(data, name), text[at + len(head):end - gap]
        at = end


def maps():
    cases, faults = 0, []
    for name, folder, want in stored('mapper_cases', 0):
        cut = cut_of(folder)
        if cut:
            cases, got = cases + 1, run('map', *cut)
            if not (as_refused(got, want) if want.startswith(b'refused ') else (got.returncode, got.stdout) == (0, want)):
                faults.append(f'map {name}: {got}')
    holds('map, stored folders', cases, faults)


def texts():
    cases, faults = 0, []
    for name, folder, want in stored('retime_cases', 1):
        cut, subs = cut_of(folder), [s for s in (os.path.join(folder, 'subs.' + k) for k in KINDS) if os.path.exists(s)]
        if not cut or not subs:
            continue
        cases, got, found = cases + 1, run('retime', *cut, '--subs', subs[0]), run('check', *cut, '--subs', subs[0])
        refused = re.fullmatch(rb'refused \d+\n?', want)
        if not (as_refused(got, want) if refused else (got.returncode, got.stdout) == (0, want)):
            faults.append(f'retime {name}: {got}')
        if found.returncode != (1 if refused else 0) or refused and want.strip() + b':' not in found.stdout:
            faults.append(f'check {name}: {found}')
    holds('retime and check, stored folders', cases, faults)


def pages():
    cases, faults = 0, []
    for name, folder, want in stored('why_cases', 1):
        cut = cut_of(folder)
        if not cut or want.startswith(b'refused '):
            continue
        for kind, start, stop, page in re.findall(rb'^(ass|srt|vtt) (\S+) (\S+)\n((?:  (?:kept|dropped).*\n)(?:    .*\n)*)', want, re.M):
            cases, got = cases + 1, run('why', *cut, '--kind', kind.decode(), start.decode(), stop.decode())
            if got.returncode or not got.stdout.endswith(page):
                faults.append(f'why {name} {kind} {start} {stop}: {got}')
    holds('why, stored pages', cases, faults)


def tables():
    """`cues` of every stored text that is retimed: lines, times and what passes as tools/models/cues.py reads them.
    As many captions have each fate as `retime` counts."""
    cases, faults = 0, []
    for name, folder, want in stored('retime_cases', 1):
        cut = cut_of(folder)
        for k, subs in enumerate(os.path.join(folder, 'subs.' + kind) for kind in KINDS):
            got = run('retime', *cut, '--subs', subs) if cut and os.path.exists(subs) else None
            if got is None or got.returncode:
                continue
            cases, told = cases + 1, [json.loads(line) for line in run('cues', *cut, '--subs', subs, '--json').stdout.splitlines()]
            with open(subs, 'rb') as f:
                number, rows, _ = cues_model.read(k, f.read())
            units = lambda seconds: None if seconds is None else round(seconds * (1000 if k else 100))
            read = [(line, *((None, None) if passed else (start, end))) for line, passed, start, end, _, _ in rows]
            counts = ', '.join(f'{sum(r["fate"] == fate for r in told)} {fate}' for fate in ('shifted', 'clipped', 'dropped', 'passed'))
            if number or [(r['line'], units(r['start']), units(r['end'])) for r in told] != read or not got.stderr.decode().rstrip().endswith(counts):
                faults.append(f'cues {name} {subs}: {told[:3]} {rows[:3]} {counts}')
    holds('cues beside its model, stored folders', cases, faults)
