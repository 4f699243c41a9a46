"""how many starts of a caption are shifted, clipped and dropped (request 2.13, op 11)
All maps of at most two segments with starts to 3 and durations to 2 (2,353), with captions of 0 to 5 units at 12 starts and three timescales (42,354 cases).
COUNT others with larger numbers, of every kind, limits and refusals among them; and those worked by hand.
Counts up to 2,000 are tried start by start, the others by runs of starts. The model compares the two forms where it has both."""
import lib
from compare.kinds import drawn
from models import starts as model


def small():
    """Every small map, length and timescale."""
    for rows in drawn.small_maps(4, 4, 3, 2):
        for length in range(6):
            for timescale in (1000, 1500, 400):
                yield rows, timescale, 1, length, 12


def spoilt(q, o, d):
    return drawn.out_of_order(q, o, d) + drawn.at_limit(q, o, d)


def length_and_count(r, end):
    """A length and a number of starts; `end` is where the map ends, in units."""
    draw = r.random()
    if draw < 0.85:
        return r.randrange(min(end, r.choice((5, 20, 200))) + 2), r.randrange(min(end, 150) + 10)
    if draw < 0.95:
        return r.randrange(min(end, model.MOST) + 1), r.choice((model.MOST, model.MOST - 1, r.randrange(min(end, model.MOST) + 1)))
    limits = (0, 1, model.MOST, model.MOST + 1, 2 ** 64 - 1)
    return r.choice(limits), r.choice((7, *limits))


def other(r):
    kind, timescale = drawn.kind(r), drawn.timescale(r)
    units = drawn.units(kind)
    tick = max(1, timescale // units)
    n = r.choice((0, 1, 1, 2, 3, 5, 8)) if r.random() < 0.98 else r.randrange(30, 120)
    rows = drawn.upward(r, n, r.choice((3, 20, 20 * tick, 20 * tick + r.randrange(tick))))
    if rows and r.random() < 0.12:
        rows = drawn.with_row(r, rows, spoilt)
    end = min(max((q + d for q, _, d in rows), default=0), 2 ** 53) * units // max(timescale, 1) + 3
    return rows, timescale, kind, *length_and_count(r, end)


def asked(tally, rows, timescale, kind, length, count):
    """A case and its answer; what is counted is told apart by how it was counted."""
    want = model.told(rows, timescale, kind, length, count)
    if want.startswith('census'):
        tally.count('counted: start by start', count <= 2000)
        tally.count('counted: 36,000,000 starts', count == model.MOST)
        tally.count('counted: with all three fates', '0' not in want.split()[1:])
    return lib.case(11, timescale, kind, 0, 0, lib.flat(rows), model.given(length, count)), want.encode() + b'\n'


def compare(tally, r, count):
    stored = [(lib.case(11, t, kind, 0, 0, x, model.given(length, n)), want.encode() + b'\n') for _, x, t, kind, length, n, want in model.CASES]
    tally.hold('by hand', stored)
    tally.hold('small maps', [asked(tally, *one) for one in small()])
    tally.hold('others', [asked(tally, *other(r)) for _ in range(count)])
