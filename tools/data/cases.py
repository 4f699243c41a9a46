#!/usr/bin/env python3
"""cases.py SEED COUNT OPS > stream: writes a stream of cases for the oracle and for `replay`.
OPS is a string of op numbers, as 12345: each case draws one of them. Cases are structured, near every boundary, and damaged."""
import os
import random
import struct
import sys

sys.path.insert(0, os.path.dirname(os.path.dirname(os.path.abspath(__file__))))
import lib
from models import vtt as vtt_model
from lib import as_bytes, case, place, seal

# how many of the trim lists are blank (02, 2.4)
BLANK = 0.05

# how many of the sheets have a thousand frames or more
LARGE = 0.03

WHITE = [' ', '\t', '\u3000', '\u00a0', '\u2003', '\u0085', '\u1680', '\u205f', '\r', '\u2029']


# ---- sheets
def decode_order(r, n):
    """How n frames are stored: the style, and the decode index of each."""
    decode = list(range(n))
    style = 3 if r.random() < 0.05 else r.choice([0, 1, 2, 4, 5, 6, 7])
    if style == 1:  # frames of a group out of order
        for i in range(0, n - 3, 4):
            decode[i + 1:i + 4] = r.sample(decode[i + 1:i + 4], 3)
    elif style == 2:
        r.shuffle(decode)
    elif style == 3:  # any index below n, so that most are repeated (25)
        decode = [r.randrange(n) for _ in range(n)]
    elif style == 6:  # turned round
        decode.reverse()
    elif style == 7:  # every other stretch changes places with the one as far from the end
        size = r.choice([1, 2, 7, 64])
        for i in range(size, n // 2 - size, 2 * size):
            decode[i:i + size], decode[n - i - size:n - i] = decode[n - i - size:n - i], decode[i:i + size]
    return style, decode


def sheet_words(r, n=None):
    if n is None:
        n = r.choice([1, 2, 3, 10, 10, 12, 62, 63, 64, 126, 127, r.randint(1, 40), r.randint(1, 200)])
        if r.random() < LARGE:  # past the places where sums are kept, at every 1,024th sample
            n = r.choice([1023, 1024, 1025, 2047, 2048, 2049, 3072, r.randint(1000, 5400), r.randint(1000, 5400)])
    long = r.random() < 0.33
    blocks = 1 + -(-n // (42 if long else 63))
    w = [0] * (128 * blocks)
    w[1] = r.choice([1, 2, 1000, 24000, 30000, 90000, 1000000, r.randint(1, 1000000)])
    w[5] = int(long)
    if long and r.random() < 0.5:
        w[1] = r.choice([1000000000, 999999999, 1000001, r.randint(1, 1000000000)])
    w[2], w[3], w[4] = n, r.choice([24000, 30000, r.getrandbits(32)]), r.choice([1001, r.getrandbits(32)])
    style, decode = decode_order(r, n)
    gap = r.choice([1, 2, 3, 3, 5, 8, 15])
    kind = r.randrange(6)
    only = r.choice([n, 0, n - 1, r.randrange(n)])  # kind 5: one sync frame, or none
    lasting = durations(r, n, w[1]) if long else [1001 if style < 2 else r.choice([0, 1, 1001, 1001, 3003, r.randint(0, 5000), r.getrandbits(32)]) for _ in range(n)]
    for i in range(n):
        at = place(i, long)
        sync = (i % gap == 0) if kind < 3 else i == only if kind == 5 else r.random() < (0.3 if kind == 3 else 0.03)
        w[at] = decode[i] | (1 << 31 if sync else 0)
        w[at + 1] = lasting[i] & 0xFFFFFFFF
        if long:
            w[at + 2] = lasting[i] >> 32
    for b in range(blocks):
        seal(w, b)
    return w


def durations(r, n, t):
    """Durations of n samples in the second layout: of 32 bits or of more, at times close to 2^53 together (26 above)."""
    if r.random() < 0.4:
        return [r.choice([0, 1, 1001, 3003, r.getrandbits(32)]) for _ in range(n)]
    d = [r.choice([0, 1, 1001, (1 << 32) - 1, 1 << 32, (1 << 32) + 1, t, t * r.randint(1, 600)]) for _ in range(n)]
    if r.random() < 0.5:  # all together, or two samples that ranges may share, near 2^53
        i = r.randrange(n)
        d[i] = max(0, (1 << 53) - sum(d) + d[i] + r.choice([0, 0, -1, 1, -5, 5, -(1 << 51)]))
    if r.random() < 0.2:
        d[r.randrange(n)] = r.choice([1 << 52, (1 << 52) - 100, 1 << 53, (1 << 64) - 1])
    return d


def at_record(w, i):
    """Where the record of frame i stands in a sheet's words."""
    return place(i, w[5] == 1)


def work_lent(r, n):
    """Word c of a map or a text: the work bytes lent to the sheet's check, 0 being 131,072."""
    need = -(-n // 8)
    return 0 if r.random() < 0.85 else r.choice([max(need - 1, 0), max(need - 1, 0), need, need + 1, 1, 131072, 131073, 0xFFFFFFFF])


def spoilt_head(r, w, how):
    """A word of the first block, sealed again."""
    if how == 4:
        w[1] = r.choice([0, 1000000, 1000001, 1000000000, 1000000001, 0xFFFFFFFF])
        seal(w, 0)
    if how == 5:
        n = w[2]
        w[2] = r.choice([0, max(n - 1, 0), n + 1, n + 63, 1048576, 1048577, 0xFFFFFFFF])
        seal(w, 0)
    if how == 6:
        w[r.choice([5, 5, 6, 126, r.randint(5, 126)])] = r.choice([0, 1, 2, 1 << 31, r.getrandbits(32)])
        seal(w, 0)


def spoilt_record(r, w, how, count):
    """A word of a record, or of any block."""
    if how == 7 and count > 1:  # a decode index
        at = at_record(w, r.randrange(w[2]))
        w[at] = (w[at] & (1 << 31)) | r.choice([w[2], w[2] - 1, w[2] + 1, 0x7FFFFFFF])
        seal(w, at // 128)
    if how == 8:  # past n, or anywhere
        at = r.randrange(len(w))
        w[at] = r.choice([0, 1, r.getrandbits(32)])
        if at % 128 not in (0, 127):
            seal(w, at // 128)
    if how == 10 and w[2] > 1:  # an index named twice, at times with a fault in a later block
        i, j = r.sample(range(w[2]), 2)
        i, j = at_record(w, i), at_record(w, j)
        w[i] = w[i] & (1 << 31) | w[j] & 0x7FFFFFFF
        seal(w, i // 128)
        if r.random() < 0.2:
            at = 128 * (count - 1) + r.choice([1, 2, 125, 127])
            w[at] = r.getrandbits(32)
            if at % 128 != 127 and r.random() < 0.5:
                seal(w, count - 1)
    if how == 9 and count > 1:  # two faults: the order decides
        w[129] = w[2]
        seal(w, 1)
        w[r.choice([1, 5, 127, 128, 255])] = r.getrandbits(32)


def sheet(r, damaged=0.5, n=None):
    w = sheet_words(r, n)
    if r.random() >= damaged:
        return as_bytes(w)
    how = r.randrange(11)
    count = len(w) // 128
    if how == 0:
        return as_bytes(w)[:r.choice([0, 1, 511, 512, len(w) * 4 - 1, r.randrange(len(w) * 4)])]
    if how == 1:
        return as_bytes(w) + bytes(r.choice([1, 511, 512, 1024]))
    if how == 2:  # a bit, with no new check
        w[r.randrange(len(w))] ^= 1 << r.randrange(32)
        return as_bytes(w)
    if how == 3:  # a number, sealed again by hand
        b = r.randrange(count)
        seal(w, b)
        w[128 * b] = r.choice([0, b + 1, r.getrandbits(32)])
        w[128 * b + 127] = sum(w[128 * b:128 * b + 127]) & 0xFFFFFFFF
        return as_bytes(w)
    spoilt_head(r, w, how)
    spoilt_record(r, w, how, count)
    return as_bytes(w)


# ---- trim lists
def number(r, v):
    s = str(v)
    if r.random() < 0.06:
        s = '+' + s
    if r.random() < 0.06:
        s = '0' * r.randint(1, 12) + s
    if r.random() < 0.15:
        s = r.choice(WHITE) * r.randint(0, 2) + s + r.choice(WHITE) * r.randint(0, 2)
    return s


def blank_list(r):
    if r.random() < 0.02:  # 65,537 are too many (7)
        return b' ' * r.choice([65535, 65536, 65537])
    s = ''.join(r.choice(lib.WHITE_SPACE) for _ in range(r.choice([0, 0, 1, 1, 2, 3, r.randint(1, 40)])))
    if r.random() < 0.05:  # full to the last byte, or past it
        s = '\u3000' * r.choice([21845, 21846]) + r.choice(['', ' '])
    return s.encode()


def damaged_list(r, s, sep, top):
    """A list with a fault, or one beside it; `top`: the last frame that it may name."""
    how = r.randrange(12)
    if how == 0:
        return r.choice(['', ' ', '\n\u3000', '++', '+']).encode()
    if how == 1 and s:
        i = r.randrange(len(s))
        return (s[:i] + r.choice(['', ',', '+', '++', '(', ')', 'x', ' ', '-', '９']) + s[i + r.randint(0, 1):]).encode()
    if how == 2:
        return s.replace('Trim', r.choice(['trim', 'Trim ', ' Trim', 'TRIM']), 1).encode()
    if how == 3:
        return (s + sep + 'Trim(%d,%d)' % (r.randint(0, top), r.randint(0, top))).encode()
    if how == 4:
        return (s + sep + 'Trim(%d,%d)' % (max(0, top - 1), r.choice([4294967294, 4294967295, 4294967296, 10 ** 30]))).encode()
    if how == 5:
        b = bytearray(s.encode())
        if b:
            b[r.randrange(len(b))] = r.choice([0x80, 0xFF, 0xC0, 0xED])
        return bytes(b)
    if how == 6 and r.random() < 0.05:
        m = r.choice([1023, 1024, 1025, 1026])
        return '++'.join('Trim(%d,%d)' % (2 * i, 2 * i) for i in range(m)).encode() + r.choice([b'', b'', b'++x', b'++'])
    if how == 7 and r.random() < 0.02:
        return s.encode() + b' ' * (r.choice([65535, 65536, 65537]) - len(s.encode()))
    if how == 8:
        return (s + r.choice(['++', '+', ' ++ ', '+++'])).encode()
    if how == 9:
        return ('Trim(%s,%s)' % (r.choice(['', '+', '-1', '1 2', '٣', '0x1', '1']), r.choice(['', '+', '5', '++1', '1,', ',1']))).encode()
    if how == 10:
        a = r.randint(0, top)
        return ('Trim(%d,%d)' % (a, max(0, a + r.choice([-1, 0, 1])))).encode()
    a, b = r.randint(0, top), r.randint(0, top)
    return ('Trim(%d,%d)++Trim(%d,%d)' % (a, b, b + r.choice([-1, 0, 1]) if b else 0, b + 5)).encode()


def trim_list(r, n=None, damaged=0.4):
    if r.random() < BLANK:
        return blank_list(r)
    k = r.choice([1, 1, 2, 2, 3, 4, 6, r.randint(1, 12)])
    if n is not None and n > 1000:
        k = r.choice([k, r.randint(1, 60)])
    top = n if n is not None else r.choice([20, 1000, 4294967295])
    # mostly ascending ranges inside the sheet, so that maps are built too
    cuts = sorted(r.sample(range(top + 2), min(2 * k, top + 2)))
    tokens = []
    for i in range(0, len(cuts) - 1, 2):
        a, b = cuts[i], cuts[i + 1] - (1 if r.random() < 0.8 else 0)
        if r.random() < 0.1 and i:
            a = cuts[i - 1] if r.random() < 0.5 else a
        tokens.append('Trim(%s,%s)' % (number(r, a), number(r, b)))
    sep = [' ++ ', '++', ' ++\n', '\t++ '][r.randrange(4)]
    s = (r.choice(WHITE) if r.random() < 0.1 else '') + sep.join(tokens) + ('\n' if r.random() < 0.2 else '')
    if r.random() >= damaged:
        return s.encode()
    return damaged_list(r, s, sep, top)


# ---- conversions
def conversion(r):
    way = r.randrange(3)
    t = r.choice([1, 2, 24, 1000, 24000, 30000, 90000, 999999, 1000000, 999999999, 1000000000, r.randint(1, 1000000), r.randint(1, 1000000000)])
    if r.random() < 0.02:
        t = r.choice([0, 1000000001, 0xFFFFFFFF])
    u = r.choice([100, 1000]) if r.random() < 0.97 else r.choice([0, 1, 99, 101, 999, 1001])
    limit = 1 << 36 if way == 0 else 1 << 53
    v = r.choice([r.randint(0, 5000), r.randint(0, 1 << 30), r.randint(0, limit), r.randint(0, limit), limit - r.randint(0, 3)])
    if r.random() < 0.04:
        v = r.choice([limit + r.randint(1, 3), r.getrandbits(64)])
    if r.random() < 0.3:  # around a whole second
        v = max(0, min(v - v % max(t, 1) + r.randint(-2, 2), (1 << 64) - 1))
    return case(4, t, u, way, x=struct.pack('<Q', v))


# ---- caption texts
TAGS = [r'{\move(1,2,3,4)}', r'{\t(0,5,\fs1)}', r'{\fad(1,2)}', r'{\fade(255,0,0,1,2,3,4)}', r'{\k20}', r'{\kf20}', r'{\K20}', r'{\mov(}', r'\fa',
        r'\t', r'\\k', '\\', r'{\pos(1,2)}', r'\fade', r'\move (']
WORDS = ['Hello', 'a', '本編', 'é', '字幕、テスト', '😀', ',', ', ', '-->', ' --> ', '0:00:01.00', '00:00:01,000', 'x' * 40, '\ufeff', '\r', '[Events]', '\u3000', '']
TIMESCALES = [1, 2, 24, 100, 999, 1000, 1001, 24000, 30000, 30000, 30000, 60000, 90000, 1000000, 999999999, 1000000000]
MOST = {100: 9999 * 360000 + 359999, 1000: 9999 * 3600000 + 3599999}


def white(r, most=2):
    return ''.join(r.choice(WHITE[:9]) for _ in range(r.randint(0, most)))


def words(r):
    parts = [r.choice(WORDS) if r.random() < 0.7 else r.choice(TAGS) for _ in range(r.choice([0, 1, 1, 2, 3]))]
    return ''.join(parts)


def units(r, u, t, edges, span):
    """A time in units: near an edge of the map, or anywhere in its span."""
    if edges and r.random() < 0.7:
        v = r.choice(edges) * u // t + r.choice([-1, 0, 0, 0, 1, 1, 2])
    else:
        v = r.randint(0, span * u // t + 2)
    if r.random() < 0.01:
        v = MOST[u] - r.randint(0, 3)
    return max(0, min(v, MOST[u]))


def time_text(r, u, v, plain=0.85, points=0):
    """A time as text; points: how often an SRT time has a point."""
    h, m, s, f = v // (3600 * u), v // (60 * u) % 60, v // u % 60, v % u
    mark, digits = ('.', 2) if u == 100 else ('.' if points and r.random() < points else ',', 3)
    if r.random() < plain:
        return '%0*d:%02d:%02d%s%0*d' % (1 if u == 100 else 2, h, m, s, mark, digits, f)
    how = r.randrange(8)
    if how == 0:
        return '%d:%d:%d%s%d' % (h, m, s, mark, f)
    if how == 1:
        parts = [('+' if r.random() < 0.5 else '') + '0' * r.randint(0, 3) + str(x) for x in (h, m, s, f)]
        return '%s:%s:%s%s%s' % (parts[0], parts[1], parts[2], mark, parts[3])
    if how == 2:
        return white(r) + '%d:%02d:%02d%s%0*d' % (h, m, s, mark, digits, f) + white(r)
    if how == 3:
        bad = [h, m, s, f]
        bad[r.randrange(4)] = r.choice([59, 60, 61, 99, 100, 999, 1000, 9999, 10000, 10 ** 25])
        return '%d:%02d:%02d%s%0*d' % (bad[0], bad[1], bad[2], mark, digits, bad[3])
    text = '%0*d:%02d:%02d%s%0*d' % (1 if u == 100 else 2, h, m, s, mark, digits, f)
    i = r.randrange(len(text))
    if how == 4:
        return text[:i] + text[i + 1:]
    if how == 5:
        return text[:i] + r.choice(['+', '-', ' ', ':', '.', ',', '1', '0', '９', '\u3000', 'x', '']) + text[i:]
    if how == 6:
        return text[:i] + r.choice(['+', '-', ' ', ':', '.', ',', '1', '٣', 'x']) + text[i + 1:]
    return r.choice(['', '+', ':', '::', '0:0:0', '0:0' + mark + '0', '0:0:0' + mark, '1:2:3:4' + mark + '5', '0:00:00' + mark + '1 2'])


def pair(r, u, t, edges, span):
    a, b = units(r, u, t, edges, span), units(r, u, t, edges, span)
    if r.random() < 0.4:
        b = min(a + r.randint(0, r.choice([2, 20, 3 * u])), MOST[u])
    if a > b and r.random() < 0.9:
        a, b = b, a
    return a, b


def how_many(r):
    return r.randint(100, 600) if r.random() < 0.005 else r.choice([0, 1, 2, 3, 5, 8, 12, r.randint(0, 40)])


def ass_text(r, t, edges, span, plain):
    ends = r.choice([['\n'], ['\n'], ['\r\n'], ['\n', '\r\n'], ['\n', '\r\n', '\r\r\n']])
    lines, columns = [], ['Start', 'End', 'Text']
    if r.random() < 0.9:
        lines += ['[Script Info]', 'Title: x', ''] if r.random() < 0.2 else []
        columns = r.choice([['Layer', 'Start', 'End', 'Style', 'Text'], ['Start', 'End', 'Text'], ['Text', 'End', 'Start'], ['Marked', 'Start', 'End', 'Style', 'Name', 'MarginL', 'MarginR', 'MarginV', 'Effect', 'Text']])
        lines += ['[Events]', 'Format: ' + ', '.join(columns)]
    if r.random() < 0.02:  # hundreds of `Format:` lines
        lines += ['Format:' + r.choice([',', ', ', ' ,']).join(r.choices(['Layer', 'Start', 'End', 'Style', 'Text', ''], k=r.randint(1, 12))) for _ in range(r.randint(50, 300))]
        lines.append('Format: ' + ', '.join(columns))
    for _ in range(how_many(r)):
        p = r.random()
        if p < 0.04:
            lines.append(r.choice(['[Events]', ' [Events]\t', '[events]', '[]', '[', ']', '[Events', '[Events ]', '[Events]x', '\u3000[Events]\u00a0', '[V4+ Styles]', '[[Events]]', 'Events', '[Ev,ents]']))
        elif p < 0.10:
            columns = r.choice([['Start', 'End', 'Text'], ['End', 'Start'], ['Start'], ['Layer', 'End', 'Text'], ['Start', 'Start', 'End', 'End', 'Text'], ['start', 'end', 'Text'], [''], ['', 'Start', '', 'End', ''],
                                ['Text', 'Start', 'End'], ['A', 'Start', 'End', 'B', 'C', 'D', 'E', 'F', 'G', 'Text'], ['Start', 'End'], ['Start ing', 'End', 'Start']])
            sep = r.choice([',', ', ', ' ,\t', ',\u3000'])
            lines.append(r.choice(['Format:', 'Format: ', 'Format:', 'Format:\t', ' Format:', 'format:', 'Format :']) + sep.join(white(r, 1) + c if r.random() < 0.2 else c for c in columns) + r.choice(['', '', ' ']))
        elif p < 0.18:
            lines.append(r.choice(['', ' ', '; comment', 'Dialogue', 'dialogue: 0,1,2', ' Dialogue: 0,0:00:00.00,0:00:01.00,x', 'Picture: 0,0:00:00.00,0:00:01.00,x', 'Dialogue:', 'Comment:', words(r), words(r)]))
        else:
            a, b = pair(r, 100, t, edges, span)
            fields = []
            for c in columns:
                if c.strip() == 'Start':
                    fields.append(time_text(r, 100, a, plain))
                elif c.strip() == 'End':
                    fields.append(time_text(r, 100, b, plain))
                else:
                    fields.append(words(r).replace(',', ';'))
            if r.random() < (0.01 if columns[-1].strip() in ('Start', 'End') else 0.5):
                fields[-1] += words(r)
            if r.random() < 0.03 and fields:
                fields = fields[:r.randint(0, len(fields))]
            lines.append(r.choice(['Dialogue:', 'Dialogue:', 'Dialogue:', 'Comment:']) + r.choice([' ', ' ', '', '  ']) + ','.join(fields))
    out = ''.join(l + r.choice(ends) for l in lines)
    return out


def srt_text(r, t, edges, span, plain):
    ends = r.choice([['\n'], ['\n'], ['\r\n'], ['\n', '\r\n'], ['\n', '\r\n', '\r\r\n']])
    points = r.choice([0, 0.3, 1])
    out = ''
    blank = r.choice([[''], [''], ['', '', ' ', '\t', '\u3000', '\r', '\u00a0 ', '\u2003']])
    if r.random() < 0.1:
        out += r.choice(blank) + r.choice(ends)
    for k in range(how_many(r)):
        a, b = pair(r, 1000, t, edges, span)
        lines = [str(k + 1)] if r.random() < 0.95 else []
        arrow = r.choice([' --> '] * 5 + ['-->', ' -->', '--> ', '\t-->\u3000']) if r.random() < 0.99 + 0.01 * plain else r.choice([' ->', ' ---> ', '-- >', ' --> --> '])
        after = r.choice([''] * 12 + [' X1:1 X2:2', ' ', '日', '6', '\u3000', ' 日本', '\u0301', ' --> 1'])
        if r.random() < 0.97:
            lines.append(time_text(r, 1000, a, plain, points) + arrow + time_text(r, 1000, b, plain, points) + after)
        for _ in range(r.choice([0, 1, 1, 2, 3])):
            w = words(r)
            if w.strip() or r.random() < 0.1:
                lines.append(w)
        if r.random() < 0.01:
            r.shuffle(lines)
        out += ''.join(l + r.choice(ends) for l in lines)
        for _ in range(r.choice([0, 2, 3]) if r.random() < 0.1 else 1):
            out += r.choice(blank) + r.choice(ends)
    return out


HEADS = ['WEBVTT'] * 6 + ['WEBVTT - A play', 'WEBVTT\ttab', 'WEBVTT ', 'WEBVTT 00:00.000 --> 00:01.000', 'WEBVTT 日本', 'WEBVTT \r']
NO_HEADS = ['WEBVTTX', 'webvtt', 'WEBVTT\r', 'WEBVTT\rx', 'WEBVT', '', ' WEBVTT', 'WEBVTT\u00a0x', 'WEBVTT:', '\ufeffWEBVTT', 'NOTE', 'WEBVTT\u3000']
BESIDE = ['NOTE x', 'NOTE\nseveral\nlines', 'STYLE\n::cue { color: red }', 'REGION\nid:fred width:40% lines:3', '7', 'bare text', ' ', '\t', '\r', '<1>', 'NOTE <1 -> 2>']
SETTINGS = [''] * 8 + [' align:start position:10%,line-left size:35%', '\tline:0', ' ', '\t ', ' region:fred <1>', '\u00a0', '\u3000 vertical:rl', '\r', ' \r', ' --> 1', '\u00a0x', 'x', '<2>']
SPOKEN = ['<00:00:18.500>', '<1', '<3 you', '<b>4</b>', '< 3', '<\u0663', 'a<', '&lt;5', '<v Roger Bingham>', '<c.loud>x</c>', '<<9', '5<', '<a1>', '-', '']


def vtt_time(r, v, plain):
    h, m, s, f = v // 3600000, v // 60000 % 60, v // 1000 % 60, v % 1000
    text = '%02d:%02d:%02d.%03d' % (h, m, s, f)
    if h == 0 and r.random() < 0.5:
        text = text[3:]
    if r.random() < plain:
        return text
    how = r.randrange(9)
    if how == 0:
        return '%d:%02d:%02d.%03d' % (h, m, s, f)
    if how == 1:
        return '0' * r.randint(0, 9) + '%02d:%02d:%02d.%03d' % (h, m, s, f)
    if how == 2:
        return white(r) + text + white(r)
    if how == 3:
        bad = [h, m, s, f]
        bad[r.randrange(4)] = r.choice([0, 59, 60, 61, 99, 100, 999, 1000, 9999, 10000, 10 ** 25])
        return '%02d:%02d:%02d.%03d' % tuple(bad)
    i = r.randrange(len(text))
    if how == 4:
        return text[:i] + text[i + 1:]
    if how == 5:
        return text[:i] + r.choice(['+', '-', ' ', '\t', ':', '.', ',', '1', '0', '９', '\u3000', 'x']) + text[i:]
    if how == 6:
        return text[:i] + r.choice(['+', '-', ' ', ':', '.', ',', '1', '٣', 'x']) + text[i + 1:]
    if how == 7:
        return text.replace('.', ',')
    return r.choice(['', '+', ':', '::', '00:00', '00:00.', '00.000', ':00:00.000', '00:00:00:00.000', '1:2.3', '00:00.00 0', '000:00:00.000'])


def vtt_text(r, t, edges, span, plain):
    ends = r.choice([['\n'], ['\n'], ['\r\n'], ['\n', '\r\n'], ['\n', '\r\n', '\r\r\n']])
    lines = [r.choice(HEADS if r.random() < 0.96 else NO_HEADS)]
    if r.random() < 0.1:
        lines += r.choice(['Kind: captions\nLanguage: ja', 'x', ' ']).split('\n')
    if r.random() < 0.9:
        lines.append('')
    for k in range(how_many(r)):
        if r.random() < 0.12:
            lines += r.choice(BESIDE).split('\n')
        if r.random() < 0.5:
            lines += [r.choice(['1 - Title', 'transcription-line', str(k + 1), '<1>'])] * r.choice([1, 1, 2])
        if r.random() < 0.97:
            a, b = pair(r, 1000, t, edges, span)
            arrow = r.choice([' --> '] * 6 + ['-->', ' -->', '--> ', '\t-->\u3000']) if r.random() < 0.99 + 0.01 * plain else r.choice([' ->', ' ---> ', '-- >', ' --> --> '])
            after = r.choice(SETTINGS[:12] if r.random() < 0.97 + 0.03 * plain else SETTINGS)
            lines.append(vtt_time(r, a, plain) + arrow + vtt_time(r, b, plain) + after)
        for _ in range(r.choice([0, 1, 1, 2, 3])):
            lines.append((r.choice(SPOKEN) if r.random() < 0.4 else '') + words(r) or r.choice(['x', ' ', '']))
        lines += [''] * (r.choice([0, 2, 3]) if r.random() < 0.1 else 1)
    return ''.join(l + r.choice(ends) for l in lines)


def long_text(r, kind, text):
    """A line, or a block of SRT or WebVTT, near 4,096 bytes."""
    if kind == 0 or r.random() < 0.5:
        lines = text.splitlines(keepends=True) or ['']
        i = 0 if kind == 2 and r.random() < 0.3 else r.randrange(len(lines))
        body = lines[i].rstrip('\r\n')
        end = lines[i][len(body):]
        size = r.choice([4095, 4096, 4097, 4098]) - len((body + end).encode())
        pad = r.choice(['a', '日', ' ', '\\k']) if size > 0 else ''
        n = size // len(pad.encode()) if pad else 0
        lines[i] = body + pad * n + 'b' * (size - n * len(pad.encode()) if pad else 0) + end
        return ''.join(lines)
    size = r.choice([4094, 4095, 4096, 4097, 4098])
    block = '1\n00:00:00,050 --> 00:00:09,060\n'.replace(',', ',,.'[kind])
    while len(block) < size:
        n = min(size - len(block), r.choice([2, 50, 1000, 3000]))
        block += 'c' * (n - 1) + '\n'
    cut = r.choice([0, len(text)]) if kind == 1 else len(text)
    return text[:cut] + ('\n' if cut else '') + block + r.choice(['\n', '', '\r\n', ' \n']) + text[cut:]


def damaged_text(r, b):
    how = r.randrange(6)
    b = bytearray(b)
    i = r.randrange(len(b) + 1)
    if how == 0 and b:
        b[i % len(b)] = r.choice([0x80, 0xff, 0xc3, 0xe3, 0xed, 0xf4, 0xc0, 0])
    elif how == 1:
        b[i:i] = r.choice([b'\n', b'\r', b'\r\n', b'\n\n', b'-->', b',', b':', b'[Events]\n', b'Format: Start\n', b'\xef\xbb\xbf', b'\xe3\x80\x80', b'\xef\xbb', b'\xc2\x85'])
    elif how == 2:
        del b[i:i + r.choice([1, 1, 2, 5, 40])]
    elif how == 3 and b:
        b[i % len(b)] = r.choice(b'0123456789:.,->\n\r []')
    elif how == 4:
        del b[i:]
    else:
        j = r.randrange(len(b) + 1)
        b[i:i] = b[min(i, j):max(i, j)][:200]
    return bytes(b)


def caption_text(r, kind, t, edges, span):
    """A text of the kind, for a map with these edges, in ticks, and this span."""
    plain = r.choice([1.0, 1.0, 1.0, 0.99, 0.97, 0.8])
    text = (ass_text, srt_text, vtt_text)[kind](r, t, edges, span, plain)
    if r.random() < 0.03:
        text = long_text(r, kind, text)
    if r.random() < 0.3 and text.endswith('\n'):
        text = text[:-1] if r.random() < 0.7 else text.rstrip('\r\n')
    b = text.encode()
    if r.random() < 0.15:
        b = b'\xef\xbb\xbf' + b
    if r.random() < 0.02:
        b = r.choice([b'', b'\xef\xbb\xbf', b'\xef\xbb', b'\xef', b'\n', b'\r', b'\r\n', b'\xef\xbb\xbf\n', b'\xef\xbb\xbf\xef\xbb\xbf'] + ([b'WEBVTT', b'\xef\xbb\xbfWEBVTT', b'WEBVTT\r'] if kind == 2 else []))
    while r.random() < 0.1:
        b = damaged_text(r, b)
    return b


def plan(r):
    """How the text is cut: 0 pieces of 1,024, else pieces of 1 to 1 + plan % 1,024 bytes."""
    return r.choice([0, 1024, 1025, 2, 5, 15, 63, 200, r.randint(1, 1023), r.getrandbits(32)])


def given_map(r, t):
    """Numbers of a map in ticks, its edges and its span."""
    span = r.choice([1, 1, 10, 60, 3600, 9999 * 3600]) * t
    n = r.choice([0, 1, 1, 2, 2, 3, 3, 5, 8, 30])
    cuts = sorted(r.randint(0, span) for _ in range(2 * n))
    if r.random() < 0.3:
        for i in range(2, len(cuts), 2):  # touching
            if r.random() < 0.4:
                cuts[i] = cuts[i - 1]
    rows, at, frame = [], 0, 0
    for i in range(n):
        a, b = cuts[2 * i], cuts[2 * i + 1]
        if r.random() < 0.15:
            b = a
        if r.random() < 0.02:
            a, b = r.randint(0, span), r.randint(0, span)
            a, b = min(a, b), max(a, b)
        k = r.randint(0, 1000)
        rows.append([frame, frame + k, a, k, at, b - a])
        frame += k + r.randint(0, 100)
        at += b - a
    if rows and r.random() < 0.1:
        r.shuffle(rows)
    if rows and r.random() < 0.05:
        k = r.randrange(len(rows))
        rows[k][r.choice([0, 1, 2, 3, 4, 5])] = r.choice([0, 1, 4294967295, 4294967296, (1 << 53) - 1, 1 << 53, (1 << 53) + 1, (1 << 64) - 1])
    if rows and r.random() < 0.05:  # output far behind
        o = max(0, (1 << 53) - at - r.choice([0, 0, 1, 5, 1000]))
        for row in rows:
            row[4] = min(row[4] + o, (1 << 64) - 1)
    edges = [x for row in rows for x in (row[2], row[2] + row[5])]
    return [x for row in rows for x in row], edges, span


def through_given(r, kind):
    t = r.choice(TIMESCALES + [r.randint(1, 1000000000)])
    numbers, edges, span = given_map(r, t)
    x = struct.pack('<%dQ' % len(numbers), *numbers)
    if r.random() < 0.005:
        x = x[:r.randrange(len(x) + 1)]
    a = t if r.random() < 0.998 else r.choice([0, 1000000001, 0xFFFFFFFF])
    return case(5, a, kind if r.random() < 0.998 else 3, 0, plan(r), x, b'', caption_text(r, kind, t, edges, span))


def fitting_list(r, n, gap):
    """A list whose ranges begin and end at sync frames, or near them, of a sheet with a sync frame each `gap` frames."""
    marks = sorted(r.sample(range(0, n + gap, gap), min(2 * r.choice([1, 1, 2, 3, 5, 30]), n // gap + 1) // 2 * 2))
    tokens = []
    for a, e in zip(marks[::2], marks[1::2]):
        if r.random() < 0.2:
            a, e = a + r.randint(0, gap - 1), max(a + 1, e - r.randint(0, gap - 1))
        tokens.append('Trim(%s,%s)' % (number(r, a), number(r, max(a, e - 1))))
    return r.choice([' ++ ', '++', '\n++ ']).join(tokens).encode()


def through_made(r, kind):
    if r.random() < 0.2:
        w, gap = sheet_words(r), 0
    else:
        n, gap = r.randint(1, 150), r.choice([1, 1, 2, 3, 5])
        w = sheet_words(r, n)
        for i in range(n):
            w[at_record(w, i)] = i | (1 << 31 if i % gap == 0 else 0)
        for b in range(len(w) // 128):
            seal(w, b)
    n, t = w[2], w[1]
    sums = [0]
    for i in range(n):
        at = at_record(w, i)
        sums.append(sums[-1] + w[at + 1] + (w[at + 2] << 32 if w[5] == 1 else 0))
    x = as_bytes(w) if r.random() < 0.98 else sheet(r, 1.0)
    return case(3, r.randrange(2) if r.random() < 0.995 else 2, kind, work_lent(r, n) if r.random() < 0.1 else 0, plan(r), x, fitting_list(r, n, gap) if gap else trim_list(r, n, 0.03),
                caption_text(r, kind, t, sums, sums[-1]))


# ---- the number of a text by document 01 alone, where the oracle says nothing
SPACE = lib.WHITE_SPACE


def bad_with(text, u, last):
    parts, rest = [], text.strip(SPACE)
    for mark in (':', ':', last):
        if mark not in rest:
            return True
        part, rest = rest.split(mark, 1)
        parts.append(part)
    for part, most in zip(parts + [rest], (9999, 59, 59, u - 1)):
        digits = part[1:] if part.startswith('+') else part
        if not digits or any(c not in '0123456789' for c in digits) or int(digits) > most:
            return True
    return False


def time_bad(text, u):
    """A time reads with a point in ASS, in SRT with a comma or with a point."""
    return all(bad_with(text, u, mark) for mark in ('.' if u == 100 else ',.'))


def bare(line):
    return line[:-2] if line.endswith('\r\n') else line[:-1] if line.endswith('\n') else line


def ass_bad(line, state):
    """22 of an ASS line; state: whether in Events, and the columns."""
    line = bare(line)
    inner = line.strip(SPACE)
    if len(inner.encode()) >= 2 and inner[0] == '[' and inner[-1] == ']':
        state[0] = inner[1:-1] == 'Events'
    elif state[0] and line.startswith('Format:'):
        state[1] = [c.strip(SPACE) for c in line[7:].split(',')]
    elif state[0] and line.startswith(('Dialogue:', 'Comment:')) and 'Start' in state[1] and 'End' in state[1]:
        fields = line.split(':', 1)[1].split(',', len(state[1]) - 1)
        if len(fields) == len(state[1]):
            return any(time_bad(fields[state[1].index(c)], 100) for c in ('Start', 'End'))
    return False


def block_times(block):
    """The texts of an SRT block's times: none, or two."""
    for line in map(bare, block):
        if '-->' in line:
            left, right = line.split('-->', 1)
            right = right.lstrip(SPACE)
            try:
                end = right.encode()[:12].decode() if len(right.encode()) >= 12 else right
            except UnicodeDecodeError:
                end = right
            return [left, end]
    return []


def block_bad(block):
    """22 of an SRT block."""
    return any(time_bad(t, 1000) for t in block_times(block))


def pointed(case):
    """Whether a case is an SRT text with a time that reads with a point."""
    op, _, kind, _, _, x, y, _ = struct.unpack('<8I', case[:32])
    if op not in (3, 5) or kind != 1:
        return False
    block = []
    for line in case[32 + x + y:].decode(errors='replace').removeprefix('\ufeff').split('\n') + ['']:
        if line.strip(SPACE):
            block.append(line)
        else:
            if any(not bad_with(t, 1000, '.') for t in block_times(block)):
                return True
            block = []
    return False


def text_number(kind, text):
    """19 to 22 of a text, or 0, in document 01's order; for WebVTT, 24 too, by its model."""
    if kind == 2:
        return vtt_model.retime_vtt(text, 1, [])[0]
    lines = text.split(b'\n')
    lines = [l + b'\n' for l in lines[:-1]] + ([lines[-1]] if lines[-1] else [])
    state, block = [False, []], []
    if text == b'\xef\xbb\xbf':
        return 0
    for k, line in enumerate(lines):
        if len(line) > 4096:
            return 19
        if k == 0 and line.startswith(b'\xef\xbb\xbf'):
            line = line[3:]
        try:
            line = line.decode()
        except UnicodeDecodeError:
            return 20
        if kind == 0:
            if ass_bad(line, state):
                return 22
        elif not line.strip(SPACE):
            if block_bad(block):
                return 22
            block = []
        else:
            block.append(line)
            if sum(len(l.encode()) for l in block) > 4096:
                return 21
    return 22 if block_bad(block) else 0


def number_of(case):
    """The number of a case of op 3 whose map is made, or of op 5."""
    op, a, b, _, _, n, m, l = struct.unpack('<8I', case[:32])
    if op == 5:
        w = struct.unpack('<%dQ' % (n // 8), case[32:32 + n // 8 * 8])
        rows = [w[i:i + 6] for i in range(0, len(w), 6)]
        if not 1 <= a <= 1000000000 or len(w) % 6 or len(rows) > 1024:
            return 15
        if any(max(x[0], x[1], x[3]) > 0xFFFFFFFF or x[2] + x[5] > 1 << 53 or x[4] + x[5] > 1 << 53 for x in rows):
            return 15
        if b > 2:
            return 16
    return text_number(b, case[32 + n + m:])


def one(r, op, kind=None):
    """A case of the op; texts are of the kind, or ASS or SRT."""
    if op in (3, 5) and kind is None:
        kind = r.randrange(2)
    if op == 1:
        return case(1, x=trim_list(r))
    if op == 2:
        w = sheet_words(r)
        if r.random() < 0.15:
            x, n = sheet(r, 1.0), 20
        else:
            x, n = as_bytes(w), w[2]
        return case(2, 0 if r.random() < 0.5 else 1 if r.random() < 0.96 else r.choice([2, 0xFFFFFFFF]), c=work_lent(r, n), x=x, y=trim_list(r, n, 0.15))
    if op == 3:
        return through_made(r, kind)
    if op == 4:
        return conversion(r)
    if op == 5:
        return through_given(r, kind)
    raise SystemExit('no cases for op %d' % op)


def main():
    seed, count, ops = lib.words('SEED COUNT OPS', __doc__)
    r = random.Random(seed)
    for _ in range(count):
        sys.stdout.buffer.write(one(r, int(r.choice(ops))))


if __name__ == '__main__':
    main()
