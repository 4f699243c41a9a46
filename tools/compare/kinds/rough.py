"""what is sure of a caption whose times are known only roughly (request 2.11, op 9)
All maps of at most two segments with source starts to 2 and durations to 2, with all four bounds to 5, turned ones among them (117,936 cases).
COUNT others with larger numbers, bad maps, bounds beside the edges, limits and 2^64 - 1; and those worked by hand.
The model tries each choice of start and end, or those beside an edge; where it has both ways, they must agree.
Then single ticks: COUNT captions are fed as texts of their own (op 5), and whether each is kept must be the answer for its two ticks."""
import itertools

import lib
from compare.kinds import drawn
from compare.tally import counts
from models import rough as model


def asked(rows, four):
    return lib.case(9, x=lib.flat(rows), y=model.bounds(*four)), model.answer(rows, *four).encode() + b'\n'


def a_bound(r, rows):
    """A tick, often beside an edge of the map or a limit."""
    edges = [x for q, _, d in rows for x in (q, q + d)] or [0]
    return r.choice((r.randrange(240), r.choice(edges) + r.randrange(-2, 3), r.choice(edges), r.choice((0, 2**53, 2**63, 2**64 - 2, 2**64 - 1)))) % 2**64


def other(r):
    rows = drawn.scattered(r)
    low, end = a_bound(r, rows), a_bound(r, rows)
    wide = lambda x: r.choice((x, min(x + r.randrange(30), 2**64 - 1), max(x, a_bound(r, rows)), 2**64 - 1, max(x - 1, 0)))
    if rows and r.random() < 0.05:
        rows = drawn.with_row(r, rows, drawn.at_limit)
    return rows, (low, wide(low), end, wide(end))


def fed(r):
    """A map, a caption as a text, and the ticks of its times."""
    rows, kind, timescale = drawn.scattered(r), r.randrange(3), r.choice((1, 24, 100, 999, 1000, 30000, 10**9))
    most = min(260 * lib.UNITS[kind] // timescale + 2, 10**9)
    by = max([q + d for q, _, d in rows] + [1]) // 240 + 1
    times = [min(r.randrange(most) * by, drawn.LATEST[kind]) for _ in range(2)]
    return rows, drawn.by_text(timescale, kind, rows, [times]), [t * timescale // lib.UNITS[kind] for t in times]


def single_ticks(tally, r, count):
    made = [fed(r) for _ in range(count)]
    there = tally.asked([text for _, text, _ in made])
    here = tally.asked([asked(rows, (a, a, b, b))[0] for rows, _, (a, b) in made])
    for (rows, text, ticks), retimed, told in zip(made, there, here):
        fates = counts(retimed)
        if sum(fates.values()) != 1:
            tally.differ('texts', text, 'one caption', retimed)
        want = b'rough kept\n' if fates['shifted'] + fates['clipped'] else b'rough dropped\n'
        tally.expect('single ticks', (rows, ticks), want, told)


def compare(tally, r, count):
    small = [(rows, four) for rows in drawn.small_maps(3, 1, 3, 2) for four in itertools.product(range(6), repeat=4)]
    for what, made in (('small maps', small), ('others', [other(r) for _ in range(count)])):
        tally.hold(what, [asked(*one) for one in made])
        for rows, four in made:
            want, again = model.answer(rows, *four), model.by_edges(rows, *four)
            if not want.startswith('refused') and want != again:
                tally.differ('the two ways of the model', (rows, four), want, again)
    tally.hold('by hand', [(lib.case(9, x=x, y=model.bounds(*four)), want.encode() + b'\n') for _, x, four, want in model.CASES])
    single_ticks(tally, r, count)
