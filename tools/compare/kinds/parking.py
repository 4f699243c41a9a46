"""sessions that are parked and taken up (request 2.10, ops 13 to 15)
COUNT texts of each kind, in pieces of 1,024 bytes and of varying sizes. The session that the text leaves, a prefix of it or its finish, as 18 blocks (op 15).
The text retimed with a parking after every k-th call, k from 1 to 4, with mark 2 and with mark 1 (op 13), which must be what it is without (op 5).
What it is without: for WebVTT what its model says, for the others what the oracle says, where ORACLE names its build script.
COUNT rows of blocks with words changed, cut or lengthened, and those worked by hand (op 14).
Then every single bit of the blocks of MORE sessions (3) changed, which must be 27.
The same with the sums made anew must be 27, 17, or the session that the model names."""
import os
import struct

import lib
from data import cases
from models import parking as model
from models import vtt

MORE = 3
EDGES = (0, 1, 2, 3, 18, 19, 20, 21, 22, 23, 24, 25, 100, 4095, 4096, 4097, 8191, 8192, 8193, 8567, 8568, 8569,
         10**9, 10**9 + 1, 2**30, 2**30 + 1, 2**31, 2**32 - 1)


# ---- texts
def bad_map(x):
    rows = vtt.rows_in(x)
    return len(x) % 48 != 0 or len(rows) > 1024 or any(max(w[0], w[1], w[3]) > 0xFFFFFFFF or max(w[2], w[4]) + w[5] > 2**53 for w in rows)


def text_case(r, kind):
    """Timescale, pieces, map and text of a case of op 5 that open does not refuse."""
    while True:
        head, x, _, text = lib.parts(cases.one(r, 5, kind))
        _, t, of_kind, _, plan = struct.unpack('<5I', head[:20])
        if of_kind == kind and 1 <= t <= 10**9 and not bad_map(x):
            return t, plan, x, text


def blocks_case(r, kind):
    """Op 15: a text, a prefix or with a finish, a session that a fault has ended too."""
    t, plan, x, text = text_case(r, kind)
    if r.random() < 0.5:
        text = text[:r.randrange(len(text) + 1)]
    finished = r.random() < 0.3
    s = model.after(kind, t, vtt.rows_in(x), text, plan, finished)
    refused = s.outcome and r.random() < 0.2
    want = b'refused %d\n' % s.outcome if refused else model.output(model.parked(s))
    return s, (lib.case(15, t, kind, finished + (0 if refused else 2), plan, x, b'', text), want)


def without(tally, kind, plain):
    """Texts without parkings, by another source than the program."""
    if kind == 2:
        tally.hold('texts without parkings, the WebVTT model', [(c, vtt.told(c, None, 0)) for c in plain])
    elif os.environ.get('ORACLE'):
        told = lib.told_by(lib.oracle(), plain)[0]
        tally.hold('texts without parkings, the Rust', [(c, w) for c, w in zip(plain, told) if not w.startswith(b'outside')], 'Rust')


def texts(tally, r, count):
    """Sessions that texts leave, and texts with parkings; the sessions."""
    sessions = []
    for kind, name in enumerate(lib.KINDS):
        made = [blocks_case(r, kind) for _ in range(count)]
        sessions += [s for s, _ in made]
        tally.hold(f'sessions parked, {name}', [m for _, m in made])
        given = [text_case(r, kind) for _ in range(count)]
        plain = [lib.case(5, t, kind, 0, plan, x, b'', text) for t, plan, x, text in given]
        without(tally, kind, plain)
        want = tally.asked(plain)
        for mark in (2, 1):
            parked = [lib.case(13, t, kind, r.randint(1, 4), plan, x, bytes([mark]), text) for t, plan, x, text in given]
            tally.hold(f'texts with parkings, mark {mark}, {name}', list(zip(parked, want)), 'same text without parkings')
    return sessions


# ---- blocks
def taken(blocks):
    """A case of op 14 and its answer."""
    return lib.case(14, x=blocks), model.told(blocks)


def damaged(r, s):
    """The blocks of a session, a word or some changed and the sums made anew, or cut or lengthened."""
    b = model.parked(s, r.choice((1, 2)))
    how = r.random()
    if how < 0.05:
        return r.choice((b[:-1], b + b'\0', b[:r.randrange(len(b))], b + b[:512], b[512:], b''))
    if how < 0.10:
        i = r.randrange(len(b))
        return b[:i] + bytes([r.randrange(256)]) + b[i + 1:]
    out = bytearray(b)
    for _ in range(r.choice((1, 1, 1, 2, 3))):
        if r.random() < 0.7:
            near = struct.unpack_from('<I', out, 4 * r.randint(1, 17))[0] + r.choice((-1, 0, 1))
            struct.pack_into('<I', out, 4 * r.randint(1, 17), r.choice(EDGES) if r.random() < 0.7 else near & 0xFFFFFFFF)
        else:
            k = r.choice((0, max(0, s.held_length - 1), s.held_length, s.held_length + 1, r.randrange(8568)))
            out[512 * (1 + k // 504) + 4 + k % 504] = r.choice((0, 10, 10, 13, 32, 65, 0x80, 0xFF))
    return model.sealed(out)


def bits(tally, b):
    """Every bit of the blocks, then with the sums made anew."""
    for k in range(18):
        made, again = [], []
        words = struct.unpack_from('<128I', b, 512 * k)
        for i in range(4096):
            at, bit = 512 * k + i // 8, 1 << i % 8
            other = b[:at] + bytes([b[at] ^ bit]) + b[at + 1:]
            made.append((lib.case(14, x=other), b'refused 27\n'))
            if 4 <= i // 8 < 508:
                w = struct.unpack_from('<I', other, at - at % 4)[0]
                total = (words[127] + w - words[at % 512 // 4]) & 0xFFFFFFFF
                again.append(taken(other[:512 * k + 508] + struct.pack('<I', total) + other[512 * k + 512:]))
        tally.hold('bits changed', made)
        tally.hold('bits changed, the sums made anew', again)


def chosen(r, sessions, count):
    """Sessions with held bytes of each kind that holds any, then ended ones, then others."""
    r.shuffle(sessions)
    sessions.sort(key=lambda s: -min(s.held_length, 200))
    first = [next((s for s in sessions if s.kind == kind and not s.ended), None) for kind in (1, 0, 2)]
    first.insert(2, next((s for s in sessions if s.ended and s.outcome), None))
    return ([s for s in first if s] + sessions)[:count]


def compare(tally, r, count, many=MORE):
    model.by_hand()
    sessions = texts(tally, r, count)
    tally.hold('blocks by hand', [taken(b) for b, _ in model.BLOCKS + model.EDGES])
    tally.hold('blocks changed', [taken(damaged(r, r.choice(sessions))) for _ in range(count)])
    for s in chosen(r, sessions, many):
        bits(tally, model.parked(s, r.choice((1, 2))))
