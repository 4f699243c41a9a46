"""which maps ascend (request 2.12, op 10), and the order of captions behind the cut
All maps of at most three segments with starts to 3 and durations to 2 (112,945), COUNT others, bad ones among them, and those worked by hand.
Then the times written (op 5) for COUNT texts of twelve captions, of each kind.
Then the order itself, over pairs of kept captions of one text through maps that ascend: by the model for the small maps, by what is written for the texts.
Through maps that do not ascend the order must break somewhere. So must the end's where its premise is left out: else the captions show nothing."""
import itertools
import re
import struct

import lib
from compare.kinds import drawn
from models import places as model

WRITTEN = (rb'Dialogue: ?([\d:.]+),([\d:.]+),line (\d+)\n', rb'([\d:,]+) --> ([\d:,]+)\nline (\d+)\n', rb'([\d:.]+) --> ([\d:.]+)\nline (\d+)\n')
ALONE = 'the end would break: with the end\'s premise alone'
WITHOUT = 'the end would break: without its premise'
STARTS, ENDS = 'starts that break: map does not ascend', 'ends that break: map does not ascend'


def any_map(r):
    n = r.randrange(1, 8)
    if r.random() < 0.7:
        return drawn.upward(r, n, 60)
    rows = drawn.upward(r, n, 60) if r.random() < 0.5 else [(r.randrange(300), r.randrange(300), r.randrange(60)) for _ in range(n)]
    return drawn.with_row(r, rows, drawn.out_of_order)


def caption(r, most):
    start, length = r.randrange(most + 1), r.randrange(most // 3 + 2)
    return (start, start + length) if r.random() < 0.8 else (start, r.randrange(start + 1))


def ascends(rows):
    return b'ascends yes\n' if model.ascends(rows) else b'ascends no\n'


def other(r):
    """A map and its answer: larger numbers, and some that break a limit."""
    by = 2 ** r.choice((0, 20, 32, 41))
    rows = [(q * by, o * by, d * by) for q, o, d in any_map(r)]
    if r.random() < 0.9:
        return lib.case(10, x=lib.flat(rows)), ascends(rows)
    k, place = r.randrange(len(rows)), r.choice((0, 1, 2, 3, 4, 5, None))
    x = bytearray(lib.flat(rows))
    if place is None:
        return lib.case(10, x=bytes(x[:-8 * r.randrange(1, 6)])), b'refused 15\n'
    x[48 * k + 8 * place:48 * k + 8 * place + 8] = struct.pack('<Q', 2**60 + r.randrange(100))
    return lib.case(10, x=bytes(x)), b'refused 15\n'


def order(tally, rows, captions, kept):
    """Each pair of kept captions, in either order of the file and the same one twice."""
    up = model.ascends(rows)
    for (i, (s, e)), (j, (t, f)) in itertools.product(kept.items(), repeat=2):
        (start, stop), (start2, stop2) = captions[i], captions[j]
        if start > start2:
            tally.count(ALONE, up and stop <= stop2 and e > f)
        elif not up:
            tally.count(STARTS, s > t)
            tally.count(ENDS, stop <= stop2 and e > f)
        else:
            tally.expect('pairs in order', (rows, captions[i], captions[j]), (True, True), (s <= t, stop > stop2 or e <= f))
            tally.count('pairs in order: the first later in the file', i > j)
            tally.count('pairs in order: one reversed', start > stop or start2 > stop2)
            tally.count(WITHOUT, e > f)


def wanted(rows, timescale, units, captions):
    """The times written for those that are kept, by their numbers."""
    told = ((k, model.written(rows, timescale, units, *c)) for k, c in enumerate(captions))
    return {k: w for k, w in told if w}


def small(tally, r):
    maps = drawn.small_maps(4, 4, 3, 3)
    tally.hold('small maps', [(lib.case(10, x=lib.flat(rows)), ascends(rows)) for rows in maps])
    for rows in maps:
        if model.ascends(rows) or r.random() < 0.05:
            timescale, units = r.choice(((1000, 1000), (1500, 1000), (400, 1000), (100, 100), (30, 100)))
            captions = [caption(r, 7 * units // timescale + 1) for _ in range(14)]
            order(tally, rows, captions, wanted(rows, timescale, units, captions))


def texts(tally, r, count):
    made = []
    for _ in range(count):
        rows, kind = any_map(r), r.randrange(3)
        timescale = r.choice((1, 24, 90, 100, 999, 1000, 1001, 30000))
        made.append((rows, kind, timescale, [caption(r, 350 * lib.UNITS[kind] // timescale + 1) for _ in range(12)]))
    for (rows, kind, t, captions), told in zip(made, tally.asked([drawn.by_text(t, kind, rows, captions) for rows, kind, t, captions in made])):
        units = lib.UNITS[kind]
        found = re.findall(WRITTEN[kind], lib.text_of(told)) if told.startswith(b'retimed ') else []
        kept = {int(k): (lib.units_of(s.decode(), units), lib.units_of(e.decode(), units)) for s, e, k in found}
        tally.expect('texts', (rows, kind, t, captions), wanted(rows, t, units, captions), kept)
        tally.count('texts: captions written', len(kept))
        order(tally, rows, captions, kept)


def compare(tally, r, count):
    tally.hold('by hand', [(lib.case(10, x=x), told.encode() + b'\n') for _, x, told in model.CASES])
    small(tally, r)
    tally.hold('other maps', [other(r) for _ in range(count)])
    texts(tally, r, count)
    tally.must_see((ALONE, WITHOUT, STARTS, ENDS))
