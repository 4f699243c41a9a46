"""Maps, times and texts for the kinds: all small ones, and random ones with limits and faults among them.
A map is a list of segments (source, output, duration)."""
import itertools

import lib

UPWARD_STILL = 0.2


def small_maps(starts, outputs, durations, most):
    """All maps of at most so many segments, each number below its bound."""
    one = list(itertools.product(range(starts), range(outputs), range(durations)))
    return [list(rows) for n in range(most + 1) for rows in itertools.product(one, repeat=n)]


def scattered(r, most=40):
    """Segments in any order, small numbers or large ones."""
    n, by = r.randrange(9), r.choice((1, 1, 1, 2**20, 2**44))
    return [(r.randrange(5 * most) * by, r.randrange(5 * most) * by, r.choice((0, 1, r.randrange(most), r.randrange(most))) * by) for _ in range(n)]


def upward(r, n, most):
    """A map that ascends: touching or with gaps, segments without length among the others."""
    rows, source, output = [], 0, 0
    for _ in range(n):
        if r.random() < UPWARD_STILL:
            rows.append((r.randrange(most * n), r.randrange(most * n), 0))
            continue
        q, o, d = source + r.choice((0, 0, 1, r.randrange(most))), output + r.choice((0, 0, 0, 1, r.randrange(most))), r.randrange(1, most)
        rows.append((q, o, d))
        source, output = q + d, o + d
    return rows


def with_row(r, rows, choices):
    """The map with one segment replaced; `choices` are given the old one."""
    k = r.randrange(len(rows))
    return rows[:k] + [r.choice(choices(*rows[k]))] + rows[k + 1:]


def out_of_order(q, o, d):
    return (max(q - 1, 0), o, d), (q, max(o - 1, 0), d), (q, o, d + 1), (o, q, d)


def at_limit(q, o, d):
    """Segments beside 2^53, on either side of it."""
    return (2**53, 0, 0), (2**53, 0, 1), (0, 2**53 - 5, 5), (0, 2**53 - 5, 6), (2**64 - 1, 0, 2), (0, 0, 2**53), (q, 2**53 - d, d), (2**53 - d, o, d)


def kind(r):
    return r.randrange(3) if r.random() < 0.97 else r.choice((3, 2**32 - 1))


def timescale(r):
    good = (1, 3, 24, 90, 100, 999, 1000, 1001, 30000, 90000, 10**6, 10**9)
    return r.choice(good) if r.random() < 0.98 else r.choice((0, 10**9 + 1))


def units(kind):
    return lib.UNITS[min(kind, 2)]


def text(kind, captions):
    """A text of captions by start and end, with the words `line 0`, `line 1` and so on."""
    if kind == 0:
        return ('[Events]\nFormat: Start, End, Text\n' + ''.join(f'Dialogue: {lib.span(0, *c)},line {k}\n' for k, c in enumerate(captions))).encode()
    return ('WEBVTT\n\n' * (kind - 1) + ''.join(f'{lib.span(kind, *c)}\nline {k}\n\n' for k, c in enumerate(captions))).encode()


def by_text(timescale, kind, rows, captions):
    """A case of op 5: captions retimed through a map."""
    return lib.case(5, timescale, kind, 0, 0, lib.flat(rows), b'', text(kind, captions))


# an SRT end of 100 hours or more is cut to 12 bytes
LATEST = (35 * 10**8, 359_999_999, 35 * 10**8)
