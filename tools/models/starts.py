"""Request 2.13 by its words, in whole numbers: how many starts of a caption of a given length are shifted, clipped and dropped.
Two forms share the caption rule of document 01 and nothing else: start by start, and by runs of starts between which nothing can change.
Written from the request: nothing here comes from the proved code.
The cases at its end are worked out by hand; tools/data/replay stores them."""
import struct

from lib import UNITS, flat
from models import places
from models.limits import MOST_TICKS, MOST_TIMESCALE, bad_through

MOST = 36_000_000


def fate(rows, timescale, units, start, stop):
    """0 shifted, 1 clipped, 2 dropped. Rows: source, output, duration."""
    a, b = start * timescale // units, stop * timescale // units
    for source, _, duration in rows:
        if duration > 0 and source < b and a < source + duration:
            return 1 if a < source or source + duration < b else 0
    return 2


def by_starts(rows, timescale, units, length, count):
    """Every start by itself."""
    told = [0, 0, 0]
    for s in range(count):
        told[fate(rows, timescale, units, s, s + length)] += 1
    return told


def by_runs(rows, timescale, units, length, count):
    """The fate can change only where the tick of a start or of an end passes an edge of a segment.
    The least time of a tick is its time rounded up; a time to either side is taken too.
    Between two such starts the first, the middle and the last are tried, and must agree."""
    edges = {k for source, _, duration in rows for k in (source, source + 1, source + duration, source + duration + 1)}
    least = {-(-k * units // timescale) for k in edges}
    cuts = sorted({0, count} | {s for t in least for c in (t, t - length) for s in (c - 1, c, c + 1) if 0 < s < count})
    told = [0, 0, 0]
    for s, e in zip(cuts, cuts[1:]):
        found = {fate(rows, timescale, units, k, k + length) for k in (s, (s + e - 1) // 2, e - 1)}
        assert len(found) == 1, (rows, timescale, units, length, s, e)
        told[found.pop()] += e - s
    return told


def number(rows, timescale, kind, length, count):
    """15 for the timescale or the map, 28 for a map that request 2.12 does not admit, 16 for the kind, the length or the count.
    Rows is None where the bytes are no map."""
    if bad_through(rows, timescale):
        return 15
    if not places.ascends(rows):
        return 28
    return 16 if kind > 2 or length > MOST or count > MOST else 0


def told(rows, timescale, kind, length, count):
    """The answer to op 11; both forms are asked where there are few starts."""
    k = number(rows, timescale, kind, length, count)
    if k:
        return 'refused %d' % k
    runs = by_runs(rows, timescale, UNITS[kind], length, count)
    if count <= 2000:
        assert runs == by_starts(rows, timescale, UNITS[kind], length, count), (rows, timescale, kind, length, count)
    return 'census %d %d %d' % tuple(runs)


def given(length, count):
    """The bytes Y of a case."""
    return struct.pack('<2Q', length, count)


# ---- worked out by hand: what the case shows, map, timescale, kind, length, count, the answer to op 11
PLAY = flat([(0, 0, 3003), (6006, 3003, 4004)])
TURNED = flat([(20, 0, 5), (0, 5, 5)])
CASES = [
    ('document 01, 0.04 s: whole at 0 to 6 and 21 to 29, cut at 7 to 10, 17 to 20 and 30 to 33', PLAY, 30000, 0, 4, 40, 'census 16 12 12'),
    ('without length: kept at 1 to 10', PLAY, 30000, 0, 0, 12, 'census 10 0 2'),
    ('no start', PLAY, 30000, 0, 4, 0, 'census 0 0 0'),
    ('one start, at 0', PLAY, 30000, 0, 4, 1, 'census 1 0 0'),
    ('no segment', b'', 30000, 0, 4, 7, 'census 0 0 7'),
    ('a segment without length', flat([(2, 0, 0)]), 1000, 1, 4, 7, 'census 0 0 7'),
    ('one start meets two segments and is counted once', flat([(0, 0, 4), (6, 4, 3)]), 1000, 1, 6, 10, 'census 0 9 1'),
    ('no length between', flat([(0, 0, 4), (5, 4, 0), (6, 4, 3)]), 1000, 1, 6, 10, 'census 0 9 1'),
    ('WebVTT, a length beyond the segment: cut at 0 to 3', flat([(0, 0, 4)]), 1000, 2, 9, 10, 'census 0 4 6'),
    ('the largest length', PLAY, 30000, 0, MOST, 5, 'census 0 5 0'),
    ('one more', PLAY, 30000, 0, MOST + 1, 5, 'refused 16'),
    ('the largest count, one tick a second: 2.00 to 3.99 lie inside', flat([(1, 0, 3)]), 1, 0, 0, MOST, 'census 200 0 35999800'),
    ('one more, and the length', PLAY, 30000, 0, MOST, MOST + 1, 'refused 16'),
    ('kind 3', PLAY, 30000, 3, 4, 40, 'refused 16'),
    ('turned', TURNED, 1000, 1, 4, 40, 'refused 28'),
    ('28 before 16: kind, length and count', TURNED, 1000, 3, MOST + 1, 2 ** 64 - 1, 'refused 28'),
    ('15 before 28: no timescale', TURNED, 0, 1, 4, 40, 'refused 15'),
    ('15 before 28: the map', TURNED + flat([(2 ** 53, 0, 1)]), 1000, 1, 4, 40, 'refused 15'),
    ('15 before 16, and no start', PLAY, MOST_TIMESCALE + 1, 3, MOST + 1, 0, 'refused 15'),
    ('a segment to the last tick, the largest timescale', flat([(0, 0, MOST_TICKS)]), MOST_TIMESCALE, 0, 5, 3, 'census 3 0 0'),
]
