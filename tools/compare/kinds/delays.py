"""the delay that loses the fewest captions (request 2.14, op 12)
All maps of at most two segments with starts to 3 and durations to 2 under one caption out of 16 (37,648 cases, budget 9).
COUNT others with budgets to 60, of every kind, with maps that ascend or not, limits and refusals among them; and those worked by hand.
MORE with budgets of thousands (a tenth of COUNT). In all of them every delay is tried for every caption, and the model's second form must agree."""
import lib
from compare.kinds import drawn
from models import delays as model

MORE = None
LIMITS = (0, model.MOST_UNITS, model.MOST_UNITS - 6000, model.MOST_UNITS + 1)


def small():
    """Every small map, with captions in turn."""
    captions = [[s, e] for s in range(4) for e in range(4)]
    for rows in drawn.small_maps(4, 4, 3, 2):
        for k, caption in enumerate(captions):
            yield rows, (1000, 1500, 400)[k % 3], 1, caption, 9


def any_map(r, most):
    """Segments that ascend, or any."""
    if r.random() < 0.5:
        return [(r.randrange(8 * most), r.randrange(8 * most), r.choice((0, 1, r.randrange(1, most)))) for _ in range(r.randrange(9))]
    rows = drawn.upward(r, r.randrange(9), most)
    if r.random() < 0.2:
        r.shuffle(rows)
    return rows


def beside(r, source, _, duration, units, timescale, reach):
    """A caption that may fit into a segment, some units off."""
    low, long = source * units // timescale, duration * units // timescale
    s = max(0, low + r.randrange(long + 1) + r.randrange(-reach, reach))
    return s, s + r.randrange(long + 2)


def captions(r, rows, units, timescale, end, large):
    """Start and end of each in turn; seldom half a caption more."""
    places = []
    for _ in range(r.choice((1, 1, 2, 3)) if large else r.choice((0, 1, 2, 3, 5))):
        s = r.randrange(end) if r.random() < 0.97 else r.choice(LIMITS)
        e = s + r.randrange(r.choice((2, 20, end // 4 + 2))) if r.random() < 0.85 else r.randrange(s + 1)
        if rows and r.random() < 0.6:
            s, e = beside(r, *r.choice(rows), units, max(timescale, 1), 3000 if large else 20)
        places += [s, e]
    places = [min(t, model.MOST_UNITS + 1) for t in places]
    return places + [r.randrange(end)] if r.random() < 0.02 else places


def other(r, large):
    kind, timescale = drawn.kind(r), drawn.timescale(r)
    units = drawn.units(kind)
    tick = max(1, timescale // units)
    most = r.choice((4, 30, 30 * tick + r.randrange(tick))) * (r.choice((1, 20, 100)) if large else 1)
    rows = any_map(r, most)
    end = max((q + d for q, _, d in rows), default=0) * units // max(timescale, 1) + 10
    if rows and r.random() < 0.03:
        rows = drawn.with_row(r, rows, drawn.at_limit)
    places = captions(r, rows, units, timescale, end, large)
    few = r.choice((r.randrange(60), r.randrange(1, 60), r.randrange(1, 10)))
    budget = r.choice((12001, 12000, 11999, 12002, 2 ** 32 - 1, r.randrange(2000, 12001))) if large else few
    return rows, timescale, kind, places, budget


def asked(tally, rows, timescale, kind, places, budget):
    """A case and its answer; what is answered is told apart."""
    want = model.told(rows, timescale, kind, places, budget)
    if want.startswith('delay'):
        delay, loss, tried, off = map(int, want.split()[1:])
        tally.count('answered: more than 1,000 tries', tried > 1000)
        tally.count('answered: another delay than 0', delay != 0)
        tally.count('answered: a delay below 0', delay < 0)
        tally.count('answered: captions that no delay saves', off < loss)
    return lib.case(12, timescale, kind, budget, 0, lib.flat(rows), b'', model.given(places)), want.encode() + b'\n'


def compare(tally, r, count, large=MORE):
    stored = [(lib.case(12, t, kind, budget, 0, x, b'', model.given(places)), want.encode() + b'\n') for _, x, t, kind, places, budget, want in model.CASES]
    tally.hold('by hand', stored)
    tally.hold('small maps', [asked(tally, *one) for one in small()])
    tally.hold('others', [asked(tally, *other(r, False)) for _ in range(count)])
    tally.hold('large budgets', [asked(tally, *other(r, True)) for _ in range(count // 10 if large is None else large)])
