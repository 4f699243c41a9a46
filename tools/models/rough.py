"""Request 2.11 by its plain words, in whole numbers: a start and an end known between two ticks each.
Written from the request and document 01 (the hit, the limits of a map). Nothing here comes from the proved code.
The cases at its end are worked out by hand; tools/data/replay stores them."""
import itertools
import struct

from lib import flat
from models.limits import bad


def kept(rows, a, b):
    """A segment of positive length ends after tick a and starts before tick b. Rows: source, output, duration."""
    return any(d > 0 and a < q + d and b > q for q, o, d in rows)


def told(choices):
    """The answer by the fates of all choices."""
    return 'rough unsure' if len(choices) == 2 else 'rough kept' if True in choices else 'rough dropped'


def judged(rows, starts, ends):
    """By trying every choice within two ranges."""
    return told({kept(rows, a, b) for a, b in itertools.product(starts, ends)})


def by_edges(rows, a1, a2, b1, b2):
    """By trying the bounds and every choice beside an edge, where alone a fate can change:
    whether a < q + d, between q + d - 1 and q + d; whether b > q, between q and q + 1."""
    starts = {a1, a2} | {x for q, o, d in rows for x in (q + d - 1, q + d) if a1 <= x <= a2}
    ends = {b1, b2} | {x for q, o, d in rows for x in (q, q + 1) if b1 <= x <= b2}
    return judged(rows, starts, ends)


def answer(rows, a1, a2, b1, b2):
    """The map first, then the bounds; every choice where they are few."""
    if bad(rows):
        return 'refused 15'
    if a1 > a2 or b1 > b2:
        return 'refused 16'
    if (a2 - a1 + 1) * (b2 - b1 + 1) <= 4096:
        return judged(rows, range(a1, a2 + 1), range(b1, b2 + 1))
    return by_edges(rows, a1, a2, b1, b2)


def bounds(*four):
    return struct.pack('<4Q', *four)


# ---- worked out by hand: what the case shows, the bytes of the map, the four bounds, the answer to op 9
MAP01 = flat([(0, 0, 3003), (6006, 3003, 4004)])
MOST = 2**64 - 1
CASES = [
    ('the latest start lies before the end of the first segment', MAP01, (0, 3002, 1, 9), 'rough kept'),
    ('a start of 3003 is on its end', MAP01, (0, 3003, 1, 9), 'rough unsure'),
    ('an end of 0 is on its start', MAP01, (0, 0, 0, 0), 'rough dropped'),
    ('an end of 1 is past it', MAP01, (0, 0, 0, 1), 'rough unsure'),
    ('between the two segments', MAP01, (3003, 6000, 3003, 6006), 'rough dropped'),
    ('the latest end is past the start of the second', MAP01, (3003, 6000, 3003, 6007), 'rough unsure'),
    ('kept by the first or by the second, but always kept', MAP01, (2000, 6500, 6007, 7000), 'rough kept'),
    ('the corners (low, low) and (high, high) are kept, the latest start with the earliest end is not', MAP01, (0, 7000, 5, 8000), 'rough unsure'),
    ('behind the last end', MAP01, (10010, MOST, 0, MOST), 'rough dropped'),
    ('one tick before the last end', MAP01, (10009, 10009, MOST, MOST), 'rough kept'),
    ('every start, every end', MAP01, (0, MOST, 0, MOST), 'rough unsure'),
    ('single ticks: 5 to 25 hundredths', MAP01, (1500, 1500, 7500, 7500), 'rough kept'),
    ('single ticks: 12 to 20 hundredths', MAP01, (3600, 3600, 6000, 6000), 'rough dropped'),
    ('single ticks, start after end inside a segment', MAP01, (2100, 2100, 1500, 1500), 'rough kept'),
    ('a lower bound above its upper bound', MAP01, (5, 4, 0, 9), 'refused 16'),
    ('the same of the end', MAP01, (0, 9, 5, 4), 'refused 16'),
    ('2^64 - 1 above 2^64 - 2', MAP01, (0, 0, MOST, MOST - 1), 'refused 16'),
    ('no segment', b'', (0, MOST, 0, MOST), 'rough dropped'),
    ('no length', flat([(5, 5, 0)]), (0, 9, 0, 9), 'rough dropped'),
    ('a segment up to 2^53', flat([(2**53 - 1, 0, 1)]), (2**53 - 1, 2**53 - 1, 2**53, MOST), 'rough kept'),
    ('the same, a start of 2^53', flat([(2**53 - 1, 0, 1)]), (2**53, 2**53, 2**53, MOST), 'rough dropped'),
    ('a map that ends past 2^53, bounds turned', flat([(2**53, 0, 1)]), (9, 0, 0, 0), 'refused 15'),
    ('seven numbers', MAP01 + bytes(8), (0, 0, 0, 1), 'refused 15'),
]
