"""Request 2.12 by its plain words, in whole numbers: which maps ascend, and what is written for a caption (document 01).
The maps at its end are worked out by hand; tools/data/replay stores them. Nothing here comes from the proved code."""
import struct

from lib import flat


def ascends(rows):
    """Of two segments of positive length, the earlier in the list ends at or before the start of the later, in source and output.
    Rows: source, output, duration."""
    long = [r for r in rows if r[2] > 0]
    return all(x[0] + x[2] <= y[0] and x[1] + x[2] <= y[1] for i, x in enumerate(long) for y in long[i + 1:])


def written(rows, timescale, units, start, stop):
    """The times written for a caption, or None where it is dropped.
    It is cut to the first segment of positive length that it meets, and moved, start down and end up."""
    a, b = start * timescale // units, stop * timescale // units
    for source, output, duration in rows:
        if duration > 0 and source < b and a < source + duration:
            s = output + max(a, source) - source
            e = output + min(b, source + duration) - source
            return s * units // timescale, -(-e * units // timescale)
    return None


# ---- worked out by hand: what the map shows, its bytes, the answer to op 10
CASES = [
    ('no segment', flat([]), 'ascends yes'),
    ('one', flat([(7, 3, 5)]), 'ascends yes'),
    ('document 01: source 0 to 3003 and 6006 to 10010, output 0 to 3003 and 3003 to 7007', flat([(0, 0, 3003), (6006, 3003, 4004)]), 'ascends yes'),
    ('touching: 5 to 15 and 15 to 20, output 0 to 10 and 10 to 15', flat([(5, 0, 10), (15, 10, 5)]), 'ascends yes'),
    ('a gap in the output: 0 to 10 and 12 to 17', flat([(5, 0, 10), (20, 12, 5)]), 'ascends yes'),
    ('source 5 to 15 and 14 to 19', flat([(5, 0, 10), (14, 10, 5)]), 'ascends no'),
    ('output 0 to 10 and 9 to 14', flat([(5, 0, 10), (15, 9, 5)]), 'ascends no'),
    ('the second before the first, in the source', flat([(20, 0, 5), (0, 5, 5)]), 'ascends no'),
    ('the second before the first, in the output', flat([(0, 5, 5), (20, 0, 5)]), 'ascends no'),
    ('no length: before, inside and behind', flat([(90, 90, 0), (5, 0, 10), (7, 7, 0), (15, 10, 5), (0, 0, 0)]), 'ascends yes'),
    ('no length between 5 to 15 and 14 to 19', flat([(5, 0, 10), (0, 0, 0), (14, 10, 5)]), 'ascends no'),
    ('the third overlaps the first, 0 to 30 and 20 to 21', flat([(0, 0, 30), (30, 30, 5), (20, 35, 1)]), 'ascends no'),
    ('large: up to 2^52 - 1, then one tick', flat([(1, 0, 2**52 - 2), (2**52 - 1, 2**52 - 2, 1)]), 'ascends yes'),
    ('large, one tick too early', flat([(1, 0, 2**52 - 2), (2**52 - 2, 2**52 - 2, 1)]), 'ascends no'),
    ('seven numbers', flat([(7, 3, 5)]) + bytes(8), 'refused 15'),
    ('a source end past every limit', flat([(2**60, 0, 1)]), 'refused 15'),
    ('the sum passes 64 bits', flat([(2**64 - 1, 0, 2)]), 'refused 15'),
    ('a frame number of 33 bits', struct.pack('<6Q', 2**32, 1, 0, 1, 0, 5), 'refused 15'),
]
