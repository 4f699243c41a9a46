"""Questions about the cut of the example play: the command beside models and beside the proved programs."""
import os
import re
import struct

import lib
from lib import KINDS
from models import delays as delays_model
from models import map_json as json_model
from models import starts as starts_model
from tests.command import as_refused, holds, play, run


def mapped(cut):
    """The timescale and the rows of a cut, as `bobbincrag map` and `mapper` print them."""
    first, *rows = cut.decode().splitlines()
    return int(first.split()[1]), [tuple(map(int, row.split())) for row in rows]


def census(cut, kind, length, span):
    """The three numbers that `census` says."""
    said = run('census', *cut, '--kind', kind, length, span).stdout.decode()
    return [int(n) for n in re.findall(r'(?:whole at|shortened at|vanishes at) (\d+)', said)]


def delay(cut, subs, units, budget):
    """What `delay` says: the delay, the loss, the tries, how far off, and how many captions."""
    said = run('delay', *cut, '--subs', subs, '--budget', budget).stdout.decode()
    found = re.match(r'Of (\d+) shifts tried, ([+-][\d.]+) s loses fewest: (\d+) of (\d+) captions\. No shift at all loses fewer than (\d+)\.', said)
    if not found:
        return said
    tried, best, loss, captions, least = found.groups()
    return [round(float(best) * units), int(loss), int(tried), int(loss) - int(least), int(captions)]


def times_in(subs, kind):
    """Start and end of each caption of the example play, by patterns of this tool's own."""
    with open(subs, encoding='utf-8-sig', newline='') as f:
        text = f.read()
    clock = r'(\d+:\d\d:\d\d\.\d\d),(\d+:\d\d:\d\d\.\d\d)' if kind == 0 else r'([\d:]+[.,]\d{3}) --> ([\d:]+[.,]\d{3})'
    return [tuple(lib.units_of(t, lib.UNITS[kind]) for t in pair) for pair in re.findall(clock, text)]


def questions():
    """`census` and `delay` beside their models."""
    faults = []
    for k, kind in enumerate(KINDS):
        (cut, subs), units = play(kind), lib.UNITS[k]
        timescale, rows = mapped(run('map', *cut).stdout)
        rows = [(r[2], r[4], r[5]) for r in rows]
        want, got = starts_model.by_starts(rows, timescale, units, 2 * units, 20 * units), census(cut, kind, '2', '20')
        if got != want:
            faults.append(f'census {kind}: {got} {want}')
        times = times_in(subs, k)
        best, loss = delays_model.by_tries(rows, timescale, units, times, 400)
        off = loss - sum(delays_model.unsavable(rows, timescale, units, *t) for t in times)
        want, got = [best, loss, 400, off, len(times)], delay(cut, subs, units, 400)
        if got != want:
            faults.append(f'delay {kind}: {got} {want}')
    holds('census and delay beside their models', 6, faults)


def by_programs(folder, k, subs, path):
    """Census, delay and JSON of a folder's cut by `mapper` and `replay`; the command has no part in it."""
    timescale, rows = mapped(lib.output([lib.built('mapper')], cwd=folder))
    x, units = json_model.flat(rows), lib.UNITS[k]
    with open(subs, 'rb') as f, open(os.path.join(folder, 'sheet.bin'), 'rb') as g:
        text, (frames, num, den) = f.read(), struct.unpack('<3I', g.read(20)[8:])
    read = [line.split() for line in lib.replayed(lib.replay(), [lib.case(16, 0, k, z=text)])[0].splitlines()[1:]]
    times = [int(t) for _, passed, start, end, _, _ in read if passed == b'0' for t in (start, end)]
    starts, best, written = lib.replayed(lib.replay(), [
        lib.case(11, timescale, k, 0, 0, x, starts_model.given(2 * units, 60 * units)),
        lib.case(12, timescale, k, 12001, 0, x, b'', delays_model.given(times)),
        lib.case(6, timescale, num, den, frames, x, path.encode())])
    numbers = lambda told: [int(n) for n in told.split()[1:]]
    return numbers(starts), numbers(best) + [len(times) // 2], written.split(b'\n', 1)[1][:-1]


def proved():
    """`census`, `delay` and `map --json` beside the proved programs."""
    faults, path = [], 'é.mp4'
    for k, kind in enumerate(KINDS):
        cut, subs = play(kind)
        want = by_programs(os.path.dirname(subs), k, subs, path)
        told = census(cut, kind, '2', '1:00'), delay(cut, subs, lib.UNITS[k], 12001), run('map', *cut, '--json', path).stdout
        faults += [f'{kind}: {a}, not {b}' for a, b in zip(told, want) if a != b]
    holds('census, delay and JSON beside `mapper` and `replay`', 9, faults)


def json_texts():
    """The JSON of the example's cut is read and written again by its model, with the sheet's numbers; a path that is too long is refused."""
    (cut, subs), faults = play('ass'), []
    got = run('map', *cut, '--json', 'é.mp4')
    number, *said = json_model.read(got.stdout)
    with open(os.path.join(os.path.dirname(subs), 'sheet.bin'), 'rb') as f:
        timescale, frames, num, den = struct.unpack('<4I', f.read(20)[4:])
    if number or said[:5] != [timescale, num, den, frames, 'é.mp4'.encode()] or not said[5]:
        faults.append(f'examples/play/ass: {got}')
    elif json_model.write(said[5], timescale, num, den, said[4], frames)[1] != got.stdout:
        faults.append('examples/play/ass: not as the cutter writes it')
    got = run('map', *cut, '--json', 'a' * 1025)
    if not as_refused(got, b'refused 16'):
        faults.append(f'a long path: {got}')
    holds('the JSON of a cut beside its model', 2, faults)
