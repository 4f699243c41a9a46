"""what becomes of a caption, and why (request 2.8, op 8)
All maps of at most three segments with source starts to 2 and durations to 2, all captions of times to 5,
through timescales with 1, 1.5 and 0.5 ticks a unit (88,560 cases).
COUNT others with larger numbers, bad maps, kinds, times and places, times beside the edges and limits; and those worked by hand.
Then the fate: COUNT captions, of each kind, are fed as texts of their own (op 5), and the fate that each has must be the one told."""
import struct

import lib
from compare.kinds import drawn
from compare.tally import counts
from models import why as model


def asked(x, timescale, kind, start, stop, places):
    return lib.case(8, timescale, kind, places, x=x, y=struct.pack('<2Q', start, stop))


def wanted(rows, *rest):
    return asked(lib.flat(rows), *rest), model.answer(rows, *rest).encode() + b'\n'


def small():
    maps = drawn.small_maps(3, 1, 3, 3)
    return [wanted(rows, t, 1, s, e, len(rows)) for rows in maps for t in (1000, 1500, 500) for s in range(6) for e in range(6)]


def a_time(r, rows, timescale, units):
    """Units, often beside an edge of the map or a limit."""
    edges = [x for q, _, d in rows for x in (q, q + d)] or [0]
    near = r.choice(edges) * units // max(timescale, 1)
    limit = r.choice((0, 2**36 - 1, 2**36, 2**36 + 1, 2**64 - 1))
    return max(0, r.choice((r.randrange(300), near, near + r.randrange(-2, 3), near + r.randrange(-2, 3), limit)))


def other(r):
    rows, kind, timescale = drawn.scattered(r), drawn.kind(r), drawn.timescale(r)
    units = drawn.units(kind)
    start = a_time(r, rows, timescale, units)
    stop = r.choice((a_time(r, rows, timescale, units), start + r.randrange(40)))
    if rows and r.random() < 0.04:
        rows = drawn.with_row(r, rows, drawn.at_limit)
    places = max(0, len(rows) + r.choice((0, 0, 0, 1, 3, -1)))
    return wanted(rows, timescale, kind, min(start, 2**64 - 1), min(stop, 2**64 - 1), places)


def fed(r):
    """A map, timescale, kind and the times of a caption."""
    rows, kind, timescale = drawn.scattered(r), r.randrange(3), r.choice((1, 24, 100, 999, 1000, 30000, 10**9))
    return rows, timescale, kind, [min(a_time(r, rows, timescale, lib.UNITS[kind]), drawn.LATEST[kind]) for _ in range(2)]


def fates(tally, r, count):
    made = [fed(r) for _ in range(count)]
    there = tally.asked([drawn.by_text(t, kind, rows, [times]) for rows, t, kind, times in made])
    here = tally.asked([asked(lib.flat(rows), t, kind, *times, len(rows)) for rows, t, kind, times in made])
    for one, retimed, told in zip(made, there, here):
        found = [fate for fate, n in counts(retimed).items() for _ in range(n)]
        fate = found[0] if len(found) == 1 else 'no caption'
        tally.expect('fates', one, [b'why', fate.encode()], told.split()[:2])
        tally.count('fates: ' + fate)


def compare(tally, r, count):
    tally.hold('small maps', small())
    tally.hold('others', [other(r) for _ in range(count)])
    tally.hold('by hand', [(asked(*rest), want.encode() + b'\n') for _, *rest, want in model.CASES])
    fates(tally, r, count)
