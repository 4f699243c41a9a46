"""Request 2.8 by its plain words, in whole numbers: what becomes of a caption and why; and the page that `why` prints.
Written from the request and document 01 (the hit, the cut, times as text, the limits of a map). Nothing here comes from the proved code.
tools/data/why and tools/data/replay store cases with its answers."""
import re

import lib
from lib import KINDS, UNITS, flat
from models.limits import MOST_SEGMENTS, MOST_TICKS, MOST_TIMESCALE, MOST_UNITS, bad


def causes(q, d, a, b):
    """Why a segment is not met by the ticks a to b: all that apply. None: it is met.
    1: no length; 2: it ends at or before the start; 3: it starts at or after the end."""
    return [k for k, fails in ((1, d == 0), (2, q + d <= a), (3, q >= b)) if fails]


def hit(rows, a, b):
    """Document 01: the first segment with duration > 0, start < its end and end > its start."""
    return next((i for i, (q, o, d) in enumerate(rows) if d > 0 and a < q + d and b > q), None)


def why(rows, timescale, kind, start, stop, places):
    """The number, the fate, the place, the ticks cut off at each end, and the causes or None. Rows: source, output, duration."""
    if not 1 <= timescale <= MOST_TIMESCALE or bad(rows):
        return 15, None, 0, 0, 0, None
    if kind not in (0, 1, 2) or max(start, stop) > MOST_UNITS or places < len(rows):
        return 16, None, 0, 0, 0, None
    a, b = (t * timescale // UNITS[kind] for t in (start, stop))
    i = hit(rows, a, b)
    if i is None:
        return 0, 'dropped', 0, 0, 0, [min(causes(q, d, a, b)) for q, o, d in rows]
    q, o, d = rows[i]
    before, behind = max(q - a, 0), max(b - (q + d), 0)
    return 0, 'clipped' if before or behind else 'shifted', i, before, behind, None


def answer(rows, timescale, kind, start, stop, places):
    """The answer to op 8: each lent place holds 7 before."""
    number, fate, place, before, behind, told = why(rows, timescale, kind, start, stop, places)
    lent = [7] * places
    if told is not None:
        lent[:len(told)] = told
    head = f'refused {number}' if number else f'why {fate} {place} {before} {behind}'
    return head + '\nplaces' + ''.join(f' {k}' for k in lent)


# ---- the page of `why`
def time_text(kind, units, mark):
    return lib.ass_time(units) if kind == 0 else lib.srt_time(units, mark)


def read_time(kind, text):
    """A time in units and its mark, or None: document 01, and 02 for a point in SRT (2.2) and for WebVTT (2.5)."""
    text = text.strip(lib.WHITE_SPACE)
    form = (r'(\+?\d+):(\+?\d+):(\+?\d+)(\.)(\+?\d+)', r'(\+?\d+):(\+?\d+):(\+?\d+)([,.])(\+?\d+)', r'(?:(\d\d+):)?(\d\d):(\d\d)(\.)(\d\d\d)')[kind]
    m = re.fullmatch(form, text, re.ASCII)
    if not m:
        return None
    h, minutes, s, f = (int(m[k] or 0) for k in (1, 2, 3, 5))
    if h > 9999 or minutes > 59 or s > 59 or f >= UNITS[kind]:
        return None
    return ((h * 60 + minutes) * 60 + s) * UNITS[kind] + f, m[4]


def sentence(line, rows, timescale):
    """The lines below a question."""
    word, _, rest = line.partition(' ')
    if word not in KINDS:
        return "  can't be read: it begins with none of `ass`, `srt` and `vtt`\n"
    kind = KINDS.index(word)
    first, _, second = rest.strip(lib.WHITE_SPACE).partition(' ')
    start, stop = read_time(kind, first), read_time(kind, second)
    if not start or not stop:
        return "  can't be read: behind the kind stand a start and an end, as in the captions\n"
    units, mark = UNITS[kind], start[1]
    text = lambda n: time_text(kind, n, mark)
    up = lambda ticks: text(-(-ticks * units // timescale)) if ticks <= MOST_TICKS else 'more than 2^53 ticks'

    def segment(i):
        q, o, d = rows[i]
        span = lambda x: f'{text(x * units // timescale)} to {up(x + d)}'
        return f'segment {i + 1} of {len(rows)} ({span(q)} of the recording, {span(o)} of the cut)'

    _, fate, place, before, behind, told = why(rows, timescale, kind, start[0], stop[0], MOST_SEGMENTS)
    if fate != 'dropped':
        cut = ''.join(f', at its {end} {n} ticks ({up(n)}) cut off' for end, n in (('start', before), ('end', behind)) if n)
        return f'  kept in {segment(place)}{cut}\n'
    words = {1: 'has no length', 2: "ends at or before the caption's start", 3: "starts at or after the caption's end"}
    return '  dropped: it meets no kept segment\n' + ''.join(f'    {segment(i)} {words[k]}\n' for i, k in enumerate(told))


def page(times, rows, timescale):
    """The page of a text of questions, in bytes; rows is the map, outward."""
    out = b''
    for line in re.findall(rb'[^\n]*\n|[^\n]+$', times):
        line = line.decode('utf-8', 'surrogateescape').strip(lib.WHITE_SPACE)
        if line:
            out += (line + '\n' + sentence(line, rows, timescale)).encode('utf-8', 'surrogateescape')
    return out


# ---- worked out by hand: what the case shows, the map, T, kind, start, end, places lent, the answer to op 8
ROWS01 = [(0, 0, 3003), (6006, 3003, 4004)]
MAP01 = flat(ROWS01)
CASES = [
    ('5-25: the end is past the first segment by 7500 - 3003', MAP01, 30000, 0, 5, 25, 2, 'why clipped 0 0 4497\nplaces 7 7'),
    ('12-20: ticks 3600 to 6000, the first segment has ended, the second not begun', MAP01, 30000, 0, 12, 20, 2, 'why dropped 0 0 0\nplaces 2 3'),
    ('21-25', MAP01, 30000, 0, 21, 25, 3, 'why shifted 1 0 0\nplaces 7 7 7'),
    ('20-21: 6000 is 6 ticks before the second', MAP01, 30000, 0, 20, 21, 2, 'why clipped 1 6 0\nplaces 7 7'),
    ('0-0: the first starts at its end', MAP01, 30000, 0, 0, 0, 4, 'why dropped 0 0 0\nplaces 3 3 7 7'),
    ('5-5 inside', MAP01, 30000, 0, 5, 5, 2, 'why shifted 0 0 0\nplaces 7 7'),
    ('7-5, turned, inside', MAP01, 30000, 0, 7, 5, 2, 'why shifted 0 0 0\nplaces 7 7'),
    ('the same in SRT', MAP01, 30000, 1, 120, 200, 2, 'why dropped 0 0 0\nplaces 2 3'),
    ('the same in WebVTT', MAP01, 30000, 2, 200, 210, 2, 'why clipped 1 6 0\nplaces 7 7'),
    ('both ends', flat([(100, 0, 10)]), 1000, 1, 90, 125, 1, 'why clipped 0 10 15\nplaces 7'),
    ('no length comes before the other causes', flat([(0, 0, 0), (5, 5, 0), (900, 5, 0)]), 1000, 1, 5, 9, 3, 'why dropped 0 0 0\nplaces 1 1 1'),
    ('2 before 3: 50-20, a segment 30 to 40', flat([(30, 0, 10)]), 1000, 1, 50, 20, 1, 'why dropped 0 0 0\nplaces 2'),
    ('ends at the start', flat([(10, 0, 10)]), 1000, 1, 20, 30, 1, 'why dropped 0 0 0\nplaces 2'),
    ('starts at the end', flat([(10, 0, 10)]), 1000, 1, 5, 10, 1, 'why dropped 0 0 0\nplaces 3'),
    ('no segment and no place', b'', 30000, 0, 5, 9, 0, 'why dropped 0 0 0\nplaces'),
    ('the second of two that are met', flat([(50, 0, 10), (0, 10, 100)]), 1000, 1, 20, 30, 2, 'why shifted 1 0 0\nplaces 7 7'),
    ('2^36 units at a timescale of 10^9 are far past 2^53 ticks', flat([(0, 0, 2**53)]), 10**9, 0, 2**36, 2**36, 1, 'why dropped 0 0 0\nplaces 2'),
    ('cut by more than 2^53 ticks', flat([(0, 0, 1)]), 10**9, 0, 0, 2**36, 1, 'why clipped 0 0 687194767359999999\nplaces 7'),
    ('too few places, though it would be kept', MAP01, 30000, 0, 21, 25, 1, 'refused 16\nplaces 7'),
    ('too few places for a dropped one', MAP01, 30000, 0, 12, 20, 1, 'refused 16\nplaces 7'),
    ('2^36 + 1 units', MAP01, 30000, 0, 2**36 + 1, 0, 2, 'refused 16\nplaces 7 7'),
    ('the end 2^36 + 1 units', MAP01, 30000, 0, 0, 2**36 + 1, 2, 'refused 16\nplaces 7 7'),
    ('no such kind', MAP01, 30000, 3, 0, 5, 2, 'refused 16\nplaces 7 7'),
    ('T 0 comes before all else', MAP01, 0, 3, 2**36 + 1, 0, 0, 'refused 15\nplaces'),
    ('T above 10^9', MAP01, 10**9 + 1, 0, 0, 5, 2, 'refused 15\nplaces 7 7'),
    ('seven numbers', MAP01 + bytes(8), 30000, 3, 0, 5, 0, 'refused 15\nplaces'),
    ('a map that ends past 2^53', flat([(2**53, 0, 1)]), 30000, 0, 0, 5, 1, 'refused 15\nplaces 7'),
]
