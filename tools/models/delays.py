"""Request 2.14 by its words, in whole numbers: the delay that loses the fewest captions.
Two forms share the caption rule of document 01 and nothing else: every delay tried for every caption,
and the losses of a caption by runs of delays between which its fate can't change.
Written from the request: nothing here comes from the proved code.
The cases at its end are worked out by hand; tools/data/replay stores them."""
import struct

from lib import UNITS, flat
from models.limits import MOST_TICKS, MOST_TIMESCALE, MOST_UNITS, bad_through

MOST_TRIES = 12_001
MOST_CAPTIONS = 4096


def delays(tries):
    """0, 1, -1, 2, -2 and so on."""
    found, d = [0], 1
    while len(found) < tries:
        found += [d, -d]
        d += 1
    return found[:tries]


def lost(rows, timescale, units, start, stop):
    """A caption moved to start and stop: below zero, clipped or dropped. Rows: source, output, duration."""
    if start < 0 or stop < 0:
        return True
    a, b = start * timescale // units, stop * timescale // units
    for source, _, duration in rows:
        if duration > 0 and source < b and a < source + duration:
            return a < source or source + duration < b
    return True


def by_tries(rows, timescale, units, captions, tries):
    """The best delay and its loss: each is tried, and a later one must be better."""
    best = None
    for d in delays(tries):
        loss = sum(lost(rows, timescale, units, s + d, e + d) for s, e in captions)
        if best is None or loss < best[1]:
            best = d, loss
    return best


def by_runs(rows, timescale, units, captions, tries):
    """The same from the losses of all delays, which are summed up caption by caption.
    A fate changes only where a moved time passes zero, or the least time of a tick at an edge of a segment."""
    reach = tries // 2
    step = [0] * (2 * reach + 2)
    edges = {k for source, _, duration in rows for k in (source, source + 1, source + duration, source + duration + 1)}
    least = {0} | {-(-k * units // timescale) for k in edges}
    for s, e in captions:
        cuts = sorted({-reach, reach + 1} | {d for t in least for x in (t - s, t - e) for d in (x - 1, x, x + 1) if -reach < d <= reach})
        for d, end in zip(cuts, cuts[1:]):
            if lost(rows, timescale, units, s + d, e + d):
                step[d + reach] += 1
                step[end + reach] -= 1
    losses, n = {}, 0
    for d in range(-reach, reach + 1):
        n += step[d + reach]
        losses[d] = n
    return min(((losses[d], k, d) for k, d in enumerate(delays(tries))))[::-2]


def unsavable(rows, timescale, units, start, stop):
    return stop > start and all((stop - start) * timescale // units > duration for _, _, duration in rows)


def number(rows, timescale, kind, places, budget):
    """15 for the timescale or the map, 29 for budget 0 or more than 4,096 captions, 16 for the kind, half a caption or a time.
    Rows is None where the bytes are no map."""
    if bad_through(rows, timescale):
        return 15
    if budget == 0 or len(places) // 2 > MOST_CAPTIONS:
        return 29
    return 16 if kind > 2 or len(places) % 2 or any(t > MOST_UNITS for t in places) else 0


def told(rows, timescale, kind, places, budget, tried_too=True):
    """The answer to op 12, for start and end of each caption in turn. Both forms are asked, or the second alone."""
    k = number(rows, timescale, kind, places, budget)
    if k:
        return 'refused %d' % k
    units, captions, tries = UNITS[kind], list(zip(places[::2], places[1::2])), min(budget, MOST_TRIES)
    delay, loss = by_runs(rows, timescale, units, captions, tries)
    if tried_too:
        assert (delay, loss) == by_tries(rows, timescale, units, captions, tries), (rows, timescale, kind, places, budget)
    return 'delay %d %d %d %d' % (delay, loss, tries, loss - sum(unsavable(rows, timescale, units, s, e) for s, e in captions))


def given(places):
    """The bytes Z of a case."""
    return struct.pack('<%dQ' % len(places), *places)


# ---- worked out by hand: what the case shows, map, timescale, kind, captions, budget, the answer to op 12
PLAY = flat([(0, 0, 3003), (6006, 3003, 4004)])
CASES = [
    ('document 01, 9 to 12: two earlier it lies in the first segment', PLAY, 30000, 0, [9, 12], 5, 'delay -2 0 5 0'),
    ('the same with three tries: none saves it, and the first stays', PLAY, 30000, 0, [9, 12], 3, 'delay 0 1 3 1'),
    ('the same with all tries', PLAY, 30000, 0, [9, 12], 12001, 'delay -2 0 12001 0'),
    ('a budget above all', PLAY, 30000, 0, [5, 8], 4294967295, 'delay 0 0 12001 0'),
    ('no caption', PLAY, 30000, 0, [], 1, 'delay 0 0 1 0'),
    ('one try', PLAY, 30000, 0, [12, 20], 1, 'delay 0 1 1 1'),
    ('later and earlier save as many: later comes first', flat([(0, 0, 3), (7, 3, 3)]), 1000, 1, [4, 6], 7, 'delay 3 0 7 0'),
    ('reversed, 4 to 3: two earlier it starts at 2 and ends at 1, both inside', flat([(0, 0, 3)]), 1000, 1, [4, 3], 12001, 'delay -2 0 12001 0'),
    ('exactly zero is not below: 4 to 6 becomes 0 to 2', flat([(0, 0, 2)]), 1000, 1, [4, 6], 12001, 'delay -4 0 12001 0'),
    ('no segment: 0 to 3 is counted, 3 to 3 and 5 to 4 are not', b'', 30000, 0, [0, 3, 3, 3, 5, 4], 3, 'delay 0 3 3 2'),
    ('a segment without length counts among all', flat([(0, 0, 0)]), 30000, 0, [0, 3], 3, 'delay 0 1 3 0'),
    ('as long as the segment: it can be saved', flat([(9000, 0, 4)]), 1000, 1, [0, 4], 12001, 'delay 0 1 12001 1'),
    ('one longer: it can not', flat([(9000, 0, 4)]), 1000, 1, [0, 5], 12001, 'delay 0 1 12001 0'),
    ('the last try, -6000', flat([(0, 0, 3)]), 1000, 1, [6000, 6003], 12001, 'delay -6000 0 12001 0'),
    ('one unit out of reach', flat([(0, 0, 3)]), 1000, 1, [6001, 6004], 12001, 'delay 0 1 12001 1'),
    ('the last but one, 6000', flat([(6000, 0, 3)]), 1000, 2, [0, 3], 12001, 'delay 6000 0 12001 0'),
    ('without it', flat([(6000, 0, 3)]), 1000, 2, [0, 3], 11999, 'delay 0 1 11999 1'),
    ('the map turns back', flat([(20, 0, 5), (0, 5, 5)]), 1000, 1, [4, 6, 24, 26], 3, 'delay -1 0 3 0'),
    ('the largest times', flat([(0, 0, MOST_TICKS)]), MOST_TIMESCALE, 0, [MOST_UNITS, MOST_UNITS], 12001, 'delay 0 1 12001 1'),
    ('a time above the limit', PLAY, 30000, 0, [5, MOST_UNITS + 1], 1, 'refused 16'),
    ('half a caption', PLAY, 30000, 0, [5, 6, 7], 1, 'refused 16'),
    ('kind 3', PLAY, 30000, 3, [5, 6], 1, 'refused 16'),
    ('no budget, before kind, half a caption and a time', PLAY, 30000, 3, [MOST_UNITS + 1], 0, 'refused 29'),
    ('4,097 captions', PLAY, 30000, 0, [5, 6] * 4097, 1, 'refused 29'),
    ('4,096 and a half', PLAY, 30000, 0, [5, 6] * 4096 + [5], 1, 'refused 16'),
    ('4,096', PLAY, 30000, 0, [9, 12] * 4096, 5, 'delay -2 0 5 0'),
    ('15 before 29: the timescale', PLAY, 0, 3, [5], 0, 'refused 15'),
    ('15 before 29: the map', PLAY[:40], 30000, 0, [5, 6], 0, 'refused 15'),
]
