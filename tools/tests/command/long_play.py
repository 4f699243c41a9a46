"""The play of three hours in each kind."""
import os
import time

import lib
from lib import KINDS
from tests.command import holds, run


def three_hours(folder):
    lib.run(lib.tool('data/three-hours', folder, '--expected'))
    at, faults = lambda name: os.path.join(folder, name), []
    cut = ['--sheet', at('sheet.bin'), '--list', at('trim.txt')]
    for kind in KINDS:
        begun = time.monotonic()
        got = run('retime', *cut, '--subs', at('subs.' + kind), '-o', at('out.' + kind), '--warnings', at('warned.' + kind))
        spent = time.monotonic() - begun
        read = lambda name: open(at(name), 'rb').read()
        told = read('told.' + kind).decode().split('\n')
        counts = '{} shifted, {} clipped, {} dropped, {} passed'.format(*told[0].split()[1:])
        warned = [(int(l.split()[1]), int(l.split()[2])) for l in told[1:] if l.startswith('warning ')]
        here = [(int(r.split('\t')[2]), int(r.split('\t')[1])) for r in read('warned.' + kind).decode().split('\n') if r]
        if got.returncode or read('out.' + kind) != read('expected.' + kind):
            faults.append(f'{kind}: another text, {got.stderr[-200:]}')
        if not got.stderr.decode().rstrip().endswith(counts):
            faults.append(f'{kind}: {got.stderr[-100:]}, not {counts}')
        if here != warned:
            faults.append(f'{kind}: {len(here)} warnings, {len(warned)} expected')
        print(f'  {kind}: {counts}, {len(warned)} warnings, {spent * 1000:.0f} ms with a fsync', flush=True)
    os.mkdir(at('all'))
    got = run('retime', *cut, '--subs', *(at('subs.' + k) for k in KINDS), '-o', at('all'))
    if got.returncode or any(open(at('all/subs.' + k), 'rb').read() != open(at('expected.' + k), 'rb').read() for k in KINDS):
        faults.append(f'three languages at once: {got.stderr[-200:]}')
    holds('the play of three hours', 4, faults)
