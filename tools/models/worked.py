"""Cases of lists, sheets, maps and texts with answers worked out by hand, for the stored sample of `replay`.
Each is where a rule of document 01 or 02 changes by one step: one word, one byte, one test earlier. tools/data/replay stores them."""
import struct

import lib

FLAT = struct.pack('<12Q', 0, 3, 0, 3, 0, 3003, 6, 10, 6006, 4, 3003, 4004)


def sheet(records, timescale=1, rate=(30000, 1001), long=False, also=()):
    """A sheet of (decode, sync, duration); `also`: words set in it before the sums are."""
    w = lib.sheet(len(records), timescale, lambda i: records[i][1], lambda i: records[i][0], lambda i: records[i][2], rate, long)
    for at, v in also:
        w[at] = v
        lib.seal(w, at // 128)
    return lib.as_bytes(w)


def rows(*m):
    return b''.join(struct.pack('<6Q', *x) for x in m)


def listed(text, number):
    return lib.case(1, x=text), b'refused %d\n' % number


def built(sheet_, told, text=b'', direction=0, lent=0):
    return lib.case(2, direction, 0, lent, 0, sheet_, text), told if isinstance(told, bytes) else b'refused %d\n' % told


def retimed(kind, text, told, flat=FLAT, timescale=30000):
    """told: a number, or the four counts, the warnings and the output."""
    if isinstance(told, int):
        return lib.case(5, timescale, kind, x=flat, z=text), b'refused %d\n' % told
    counts, warnings, out = told
    return lib.case(5, timescale, kind, x=flat, z=text), (b'retimed %d %d %d %d\n' % counts + b''.join(b'warning %d %d\n' % w for w in warnings) + b'output %d\n' % len(out) + out + b'\n')


def events(line, kind=b'[Events]', columns=b'Start,End'):
    return kind + b'\nFormat:' + columns + b'\nDialogue:' + line + b'\n'


def block(start, end, more=b''):
    return b'1\n' + start + b' --> ' + end + b'\n' + more


def cue(end, start=b'00:00.210', arrow=b' --> '):
    return b'WEBVTT\n\n' + start + arrow + end + b'\n'


ONE = [(0, 1, 1)]
SHIFTED, CLIPPED = (1, 0, 0, 0), (0, 1, 0, 0)
PINS = [
    # ---- lists: 5 before 6; a minus sign; no number before too many tokens
    listed(b'Trim(0,2)++Trim(1,4294967295)', 5), listed(b'Trim(-0,1)', 3), listed(b'Trim(0,-1)', 3), listed(b'Trim(x,0)++' * 1024 + b'Trim(0,0)', 3),
    # ---- sheets: single words, and 16 behind 14
    built(sheet(ONE, also=[(126, 1)]), 13), built(sheet(ONE, also=[(6, 1)]), 13), built(sheet(ONE, rate=(0, 0)), b'timescale 1\n0 1 0 1 0 1\n'), built(sheet([(2 ** 30, 1, 1)]), 14),
    built(sheet(ONE, also=[(132, 1)]), 14), built(sheet(ONE, long=True, also=[(134, 1)]), 14), built(sheet(ONE, 1000001), 13), built(sheet(ONE, 1000000001, long=True), 13),
    built(sheet([(i, 1, 1) for i in range(8)] + [(9, 0, 1)], ), 14, lent=1), built(sheet([(0, 1, 1)] * 9)[:512], 11, lent=1), built(sheet([(0, 0, 1)] * 9), 16, lent=1),
    built(sheet([(0, 1, 2 ** 53), (0, 0, 1)], long=True), 25), built(sheet([(i, 1, 2 ** 52) for i in range(9)], long=True), 16, lent=1),
    # ---- maps: 8 for all pairs first; 10 of an earlier range before 9 of a later; the longest
    built(sheet([(2, 1, 1), (1, 0, 1), (0, 0, 1)]), 8, b'Trim(0,0)++Trim(1,1)'), built(sheet([(2, 1, 1), (0, 0, 1), (1, 1, 1)]), 10, b'Trim(0,1)++Trim(3,3)', 1),
    built(sheet([(0, 1, 2 ** 53)], long=True), b'timescale 1\n0 1 0 1 0 9007199254740992\n'),
    retimed(1, block(b'00:00:00,000', b'00:00:01,000'), ((0, 0, 1, 0), [], b''), rows((0, 0, 2 ** 53 - 5, 0, 0, 5)), 1000),
    retimed(1, block(b'00:00:00,000', b'00:00:01,000'), 15, rows((0, 0, 2 ** 53 - 5, 0, 0, 6)), 1000), retimed(1, b'', 15, rows((2 ** 32, 0, 0, 0, 0, 0)), 1000),
    # ---- ASS: the section's name is not trimmed; 1 before 2; a comma is no mark; `\K` is no tag
    *[retimed(0, events(b'0:00:00.21,0:00:00.25', s), ((0, 0, 0, 0), [], events(b'0:00:00.21,0:00:00.25', s))) for s in (b'[ Events]', b'[Events ]', b'[ Events ]', b'[[Events]]')],
    *[retimed(0, events(b'a', columns=c), ((0, 0, 0, 1), [(1, 3)], events(b'a', columns=c))) for c in (b'Start,X,Text', b'X,End,Text')],
    retimed(0, events(b'0:00:00,21,0:00:00.25'), 22), retimed(0, events(b',0:00:00,21,0:00:00.25', columns=b'S,Start,End'), 22),
    retimed(0, events(b'0:00:00.20,0:00:00.22,{\\K5}x', columns=b'Start,End,Text'), (CLIPPED, [], events(b'0:00:00.10,0:00:00.12,{\\K5}x', columns=b'Start,End,Text'))),
    retimed(0, b'Format:Start,End\n[Events]\nDialogue:0:00:00.20,0:00:00.22\n', ((0, 0, 0, 1), [(1, 3)], b'Format:Start,End\n[Events]\nDialogue:0:00:00.20,0:00:00.22\n')),
    # ---- SRT: no warning 5; lost parts by the times as read; signs, White_Space, UTF-8
    retimed(1, block(b'00:00:00,210', b'00:00:00,250', b'I <3 you\n'), (SHIFTED, [], block(b'00:00:00,109', b'00:00:00,150', b'I <3 you\n'))),
    retimed(1, block(b'00:00:00,000', b'00:00:02,000'), (CLIPPED, [(4, 2)], block(b'00:00:00,000', b'00:00:00,500')), rows((0, 0, 1000, 0, 0, 500), (0, 0, 200, 0, 500, 100)), 1000),
    retimed(1, block(b'00:00:00,000', b'00:00:01,000'), (CLIPPED, [(4, 2)], block(b'00:00:00,000', b'00:00:00,100')), rows((0, 0, 500, 0, 0, 100), (0, 0, 0, 0, 100, 0), (0, 0, 700, 0, 100, 5)), 1000),
    retimed(1, block(b'00:00:00,500', b'00:00:07,500'), (CLIPPED, [], block(b'00:00:00,000', b'00:00:01,000')), rows((0, 0, 500, 0, 0, 1000), (0, 0, 100, 0, 1000, 400)), 1000),
    retimed(1, block(b'00:00:0-0,000', b'00:00:01,000'), 22), retimed(1, block('\u200b00:00:00,000'.encode(), b'00:00:01,000'), 22), retimed(1, block(b'00:00:00,000', b'0:0:0,1000'), 22),
    retimed(1, block(b'+0:0:+0.+5', b'00:00:00,050'), (SHIFTED, [], block(b'00:00:00.005', b'00:00:00,050'))), retimed(1, block(b'00:00:00,000', b'00:00:00,050', b'\xed\xa0\x80\n'), 20),
    # ---- WebVTT: where the end time stops; widths
    retimed(2, cue(b'00:00.250\x0cx'), 22), retimed(2, cue(b'00:00.250 a\tb'), (SHIFTED, [], cue(b'00:00:00.150 a\tb', b'00:00:00.109'))), retimed(2, cue(b'00:00.250\ta b'), (SHIFTED, [], cue(b'00:00:00.150\ta b', b'00:00:00.109'))),
    retimed(2, cue(b'00:00.250', arrow=b' -->\xe3\x80\x80 '), (SHIFTED, [], cue(b'00:00:00.150', b'00:00:00.109'))), retimed(2, cue(b'00:00.250 --> x'), (SHIFTED, [], cue(b'00:00:00.150 --> x', b'00:00:00.109'))),
    retimed(2, cue(b'00:01.250', b'00:1.210'), 22), retimed(2, cue(b'00:00.250', b'00:00.2100'), 22),
]
