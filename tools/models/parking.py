"""Request 2.10 by brute force, from its words and those of document 01 (and of 2.2 and 2.5 for what a text says).
What a text leaves in a session, its 18 blocks, and what bytes are taken up as.
A session is read from the whole text so far, never from an earlier session. Nothing here comes from the proved code.
The cases at its end are worked out by hand; tools/data/replay stores some of its answers."""
import dataclasses
import struct

import lib
from lib import UNITS
from models import vtt as vtt_model
from models.vtt import BOM, SPACE, bare, lines_of

OUTCOMES = (0, 19, 20, 21, 22, 24)
SIZE = 9216


@dataclasses.dataclass(frozen=True)
class Session:
    """Words 2 to 16 of block 0 in their order, then the held bytes. By itself what a refused open returns."""
    kind: int = 0
    timescale: int = 1
    ended: int = 1
    outcome: int = 0
    taken: int = 0
    lines: int = 0
    shifted: int = 0
    clipped: int = 0
    dropped: int = 0
    passed: int = 0
    events: int = 0
    columns: int = 0
    start: int = 0
    end: int = 0
    held_length: int = 0
    held: bytes = b''


NONE = Session()


# ---- what a text says: captions as (start, end) in units, or None where one passes
class Fault(Exception):
    pass


def number(text, most):
    """An optional `+` and digits, at most `most`; else None."""
    digits = text[1:] if text[:1] == '+' else text
    if not digits or any(c not in '0123456789' for c in digits) or int(digits) > most:
        return None
    return int(digits)


def time(text, kind):
    if kind == 2:
        found = vtt_model.time(text)
    else:
        parts = text.strip(SPACE).split(':')
        marks = [c for c in parts[-1] if c in ('.' if kind == 0 else '.,')]
        last = parts[-1].split(marks[0]) if len(marks) == 1 else []
        if len(parts) != 3 or len(last) != 2:
            raise Fault(22)
        h, m, s, f = number(parts[0], 9999), number(parts[1], 59), number(last[0], 59), number(last[1], UNITS[kind] - 1)
        found = None if None in (h, m, s, f) else ((h * 60 + m) * 60 + s) * UNITS[kind] + f
    if found is None:
        raise Fault(22)
    return found


def timing(line, kind):
    """Start and end of a timing line of SRT or WebVTT."""
    left, right = line.split('-->', 1)
    right = right.lstrip(SPACE)
    if kind == 2:
        right = right.split(' ')[0].split('\t')[0]
    else:
        try:
            right = right.encode()[:12].decode()
        except UnicodeDecodeError:
            pass
    return time(left, kind), time(right, kind)


def fate(start, end, timescale, units, rows):
    """0 shifted, 1 clipped, 2 dropped."""
    a, b = start * timescale // units, end * timescale // units
    for _, _, source, _, _, duration in rows:
        if duration > 0 and a < source + duration and b > source:
            return 0 if source <= a and b <= source + duration else 1
    return 2


class Reader:
    """A text read from its start. counts: shifted, clipped, dropped, passed."""

    def __init__(self, kind, timescale, rows):
        self.kind, self.timescale, self.rows = kind, timescale, rows
        self.events, self.columns, self.start, self.end, self.counts, self.block, self.lines = 0, 0, 0, 0, [0] * 4, [], 0

    def caption(self, start, end):
        self.counts[fate(start, end, self.timescale, UNITS[self.kind], self.rows)] += 1

    def ass(self, line):
        words = line.strip(SPACE)
        if len(words) > 1 and words[0] == '[' and words[-1] == ']':
            self.events = int(words == '[Events]')
        elif self.events and line.startswith('Format:'):
            names = [c.strip(SPACE) for c in line[7:].split(',')]
            self.columns = len(names)
            self.start, self.end = (names.index(n) + 1 if n in names else 0 for n in ('Start', 'End'))
        elif self.events and line.startswith(('Dialogue:', 'Comment:')):
            fields = line.split(':', 1)[1].split(',', max(self.columns - 1, 0))
            if not self.start or not self.end or len(fields) < self.columns:
                self.counts[3] += 1
            else:
                self.caption(time(fields[self.start - 1], 0), time(fields[self.end - 1], 0))

    def close(self):
        lines = [bare(l).decode() for l in self.block]
        found = [l for l in lines if '-->' in l]
        if found:
            self.caption(*timing(found[0], self.kind))
        self.block = []

    def line(self, line):
        try:
            words = bare(line).decode()
        except UnicodeDecodeError:
            raise Fault(20)
        if self.kind == 0:
            self.ass(words)
        elif self.kind == 2 and self.lines == 0:
            if words != 'WEBVTT' and words[:7] not in ('WEBVTT ', 'WEBVTT\t'):
                raise Fault(24)
        elif words.strip(SPACE) if self.kind == 1 else words:
            self.block.append(line)
            if len(b''.join(self.block)) > 4096:
                raise Fault(21)
        else:
            self.close()

    def read(self, text, finished):
        """The rest that no LF has ended, which is held; a fault is raised."""
        mark = BOM if text.startswith(BOM) else b''
        for line, ended in lines_of(text[len(mark):]):
            whole = line if self.lines else mark + line
            if len(whole) > 4096:
                raise Fault(19)
            if not ended and not finished:
                return whole
            self.line(line)
            self.lines += 1
        if not finished:
            return b'' if self.lines else mark
        if self.kind == 2 and self.lines == 0:
            raise Fault(24)
        if self.kind:
            self.close()
        return b''


def read(kind, timescale, rows, text, finished=False):
    """The session after a text, its fault being its outcome; taken is the text's length."""
    r, outcome, rest = Reader(kind, timescale, rows), 0, b''
    try:
        rest = r.read(text, finished)
    except Fault as f:
        outcome = f.args[0]
    if outcome or finished:
        return Session(kind, timescale, 1, outcome, len(text), 0, *r.counts)
    held = b''.join(r.block) + rest
    return Session(kind, timescale, 0, 0, len(text), r.lines, *r.counts, r.events, r.columns, r.start, r.end, len(held), held)


def pieces(size, plan):
    """Where the pieces of a text end, as word d of a case cuts it."""
    at, draw = 0, plan
    while at < size:
        draw = (draw * 1103515245 + 12345) % 2**31
        at = min(size, at + (1 + draw // 65536 % (1 + plan % 1024) if plan else 1024))
        yield at


def after(kind, timescale, rows, text, plan=0, finished=False):
    """The session after the pieces of a text, up to one with a fault, and a finish."""
    whole = read(kind, timescale, rows, text)
    if whole.outcome:
        return next(s for s in (read(kind, timescale, rows, text[:k]) for k in pieces(len(text), plan)) if s.outcome)
    return read(kind, timescale, rows, text, True) if finished else whole


# ---- 18 blocks
def sealed(body):
    """Numbers and sums put on 9,216 bytes."""
    out = bytearray(body)
    for k in range(18):
        struct.pack_into('<I', out, 512 * k, k)
        struct.pack_into('<I', out, 512 * k + 508, sum(struct.unpack_from('<127I', out, 512 * k)) & 0xFFFFFFFF)
    return bytes(out)


def parked(s, mark=2):
    """The blocks of a session."""
    words = list(dataclasses.astuple(s)[:15])
    if s.ended:
        words[5] = words[10] = words[11] = words[12] = words[13] = words[14] = 0
    body = bytearray(SIZE)
    struct.pack_into('<16I', body, 4, mark, *words)
    for k, byte in enumerate(b'' if s.ended else s.held):
        body[512 * (1 + k // 504) + 4 + k % 504] = byte
    return sealed(body)


def unsound(b):
    """27"""
    if len(b) != SIZE:
        return True
    blocks = [struct.unpack_from('<128I', b, 512 * k) for k in range(18)]
    if any(w[0] != k or w[127] != sum(w[:127]) & 0xFFFFFFFF for k, w in enumerate(blocks)):
        return True
    w = blocks[0]
    if w[1] not in (1, 2) or w[4] not in (0, 1) or w[5] not in OUTCOMES or any(w[17:127]):
        return True
    if w[4] and (w[7] or any(w[12:17])) or w[12] not in (0, 1):
        return True
    room = b''.join(b[512 * k + 4:512 * k + 508] for k in range(1, 18))
    return any(room[0 if w[4] else w[16]:])


def foreign(s):
    """17"""
    if s.kind > 2 or not 1 <= s.timescale <= 10**9 or s.taken > 2**30:
        return True
    if max(s.shifted, s.clipped, s.dropped, s.passed, s.lines, s.held_length) > s.taken:
        return True
    if s.columns > 4096 or max(s.start, s.end) > s.columns or s.held_length > 8192:
        return True
    lines = s.held.split(b'\n')
    rest = lines.pop()
    if s.kind == 0 and (lines or len(rest) > 4096) or len(rest) > 4096 or sum(len(l) + 1 for l in lines) > 4096:
        return True
    for l in lines:
        try:
            words = bare(l + b'\n').decode()
        except UnicodeDecodeError:
            return True
        if not (words.strip(SPACE) if s.kind == 1 else words):
            return True
    return s.outcome not in OUTCOMES or (not s.ended and s.outcome != 0) or len(lines) > s.lines


def take_up(b):
    """The number, and the session."""
    if unsound(b):
        return 27, NONE
    w = struct.unpack_from('<17I', b, 0)
    room = b''.join(b[512 * k + 4:512 * k + 508] for k in range(1, 18))
    s = Session(*w[2:], room[:w[16]])
    return (17, NONE) if foreign(s) else (0, s)


# ---- answers in the form of `replay`
def told(b):
    """Op 14."""
    n, s = take_up(b)
    if n:
        return b'refused %d\n' % n
    return b'taken %s\nheld %d\n' % (' '.join(map(str, dataclasses.astuple(s)[:15])).encode(), len(s.held)) + s.held + b'\n'


def output(b):
    """Op 15."""
    return b'output %d\n' % len(b) + b + b'\n'


# ---- worked out by hand
HEAD = b'[Events]\nFormat: Start, End, Text\n'
LINE = b'Dialogue: 0:00:00.21,0:00:00.25,c\n'
T01, MAP01 = vtt_model.T01, vtt_model.MAP01
# kind, text, finished, and the session: taken, lines, counts, events, columns, start, end, held; or the outcome in the place of all behind the counts
TEXTS = [
    (0, b'', False, (0, 0, (0, 0, 0, 0), 0, 0, 0, 0, b'')),
    (0, HEAD + LINE + b'Dial', False, (72, 3, (1, 0, 0, 0), 1, 3, 1, 2, b'Dial')),
    (0, BOM + b'[Ev', False, (6, 0, (0, 0, 0, 0), 0, 0, 0, 0, BOM + b'[Ev')),
    (0, b'[Events]\r\nFormat: Text,End\n[x]\n', False, (31, 3, (0, 0, 0, 0), 0, 2, 0, 2, b'')),
    (0, HEAD + b'Dialogue: 1\nComment: 0:00:00.05,0:00:00.25,\n', False, (78, 4, (0, 1, 0, 1), 1, 3, 1, 2, b'')),
    (0, HEAD + b'Dialogue: 0:60:00.00,0:00:00.25,c\n' + LINE, False, (102, 22, (0, 0, 0, 0))),
    (0, HEAD + LINE, True, (68, 0, (1, 0, 0, 0))),
    (1, b'1\n00:00:00,210 --> 00:00:00,250\nab\r', False, (35, 2, (0, 0, 0, 0), 0, 0, 0, 0, b'1\n00:00:00,210 --> 00:00:00,250\nab\r')),
    (1, b'1\n00:00:00,210 --> 00:00:00.250\nab\n\n7\n', False, (38, 5, (1, 0, 0, 0), 0, 0, 0, 0, b'7\n')),
    (1, BOM + b'1\n2', False, (6, 1, (0, 0, 0, 0), 0, 0, 0, 0, b'1\n2')),
    (1, b'1\n00:00:00,120 --> 00:00:00,200\n', True, (32, 0, (0, 0, 1, 0))),
    (1, b'x --> y\n \n', False, (10, 22, (0, 0, 0, 0))),
    (2, b'WEBVTT\n\n00:00.050 --> 00:00.250\n \n', False, (34, 4, (0, 0, 0, 0), 0, 0, 0, 0, b'00:00.050 --> 00:00.250\n \n')),
    (2, b'WEBVTX\n', False, (7, 24, (0, 0, 0, 0))),
    (2, BOM, True, (3, 24, (0, 0, 0, 0))),
]


def worked(kind, text, finished, want):
    if len(want) == 3:
        return Session(kind, T01, 1, want[1], want[0], 0, *want[2])
    taken, lines, counts, events, columns, start, end, held = want
    return Session(kind, T01, 0, 0, taken, lines, *counts, events, columns, start, end, len(held), held)


def with_word(b, i, v):
    b = bytearray(b)
    struct.pack_into('<I', b, 4 * i, v)
    return sealed(b)


LIVE = parked(Session(1, 30000, 0, 0, 100, 3))
DEAD = parked(Session(0, 1, 1, 20, 7))
LFS = b'a\nb\n'
# bytes and the number of taking them up
BLOCKS = [(LIVE, 0), (DEAD, 0), (LIVE[:-1], 27), (LIVE + b'\0', 27), (b'', 27)] + [(with_word(LIVE, i, v), n) for i, v, n in (
    (1, 0, 27), (1, 3, 27), (1, 1, 0), (2, 3, 17), (3, 0, 17), (3, 10**9, 0), (3, 10**9 + 1, 17), (4, 2, 27), (5, 18, 27), (5, 19, 17), (5, 23, 27), (5, 24, 17), (6, 2**30, 0), (6, 2**30 + 1, 17),
    (7, 101, 17), (8, 100, 0), (8, 101, 17), (12, 1, 0), (12, 2, 27), (13, 4096, 0), (13, 4097, 17), (14, 1, 17), (16, 1, 0), (16, 101, 17), (16, 8568, 17), (16, 8569, 17), (16, 2**32 - 1, 17),
    (17, 1, 27), (126, 1 << 31, 27), (129, 65, 27), (128 * 18 - 2, 1 << 31, 27))] + [(with_word(DEAD, i, 1), 27) for i in (7, 12, 13, 14, 15, 16, 129)] + [
    (parked(Session(1, 1, 0, 0, 9, 1, held_length=4, held=LFS)), 17), (parked(Session(1, 1, 0, 0, 9, 2, held_length=4, held=LFS)), 0), (parked(Session(0, 1, 0, 0, 9, 2, held_length=4, held=LFS)), 17),
    (with_word(with_word(LIVE, 2, 7), 17, 1), 27), (LIVE[:508] + b'\0' + LIVE[509:], 27), (parked(Session(2, 1, 0, 0, 9, 1, held_length=2, held=b' \n')), 0), (parked(Session(1, 1, 0, 0, 9, 1, held_length=2, held=b' \n')), 17)]


# every word of its own value; held bytes over many blocks; each rule of 27 by the least change of a session that is taken up
ALL = Session(0, 30000, 0, 0, 5000, 40, 11, 12, 13, 14, 1, 9, 2, 3)
OVER = Session(1, 30000, 1, 20, 5000, 0, 11, 12, 13, 14)
LONG = bytes(33 + i % 90 for i in range(4096))
BODY = b''.join(bytes(97 + (i + j) % 26 for j in range(127)) + b'\n' for i in range(32))


def holding(held, **more):
    return parked(dataclasses.replace(Session(1, 30000, 0, 0, 9000, 40), held_length=len(held), held=held, **more))


def with_byte(b, at, v, summed=True):
    """A byte changed, and the sum of its block with it, but no block's number."""
    b, block = bytearray(b), at // 512 * 512
    b[at] = v
    if summed:
        struct.pack_into('<I', b, block + 508, sum(struct.unpack_from('<127I', b, block)) % 2**32)
    return bytes(b)


EDGES = [(parked(ALL), 0), (parked(ALL, 1), 0), (with_word(parked(ALL), 1, 3), 27), (with_word(parked(ALL), 1, 2**32 - 1), 27), (parked(OVER), 0)]
EDGES += [(holding(LONG, kind=0), 0), (holding(LONG + b'x', kind=0), 17), (holding(BODY + LONG), 0), (holding(BODY + LONG + b'x'), 17), (holding(BODY, lines=31), 17), (holding(b'\xff\n'), 17), (holding(b'\xff'), 0)]
EDGES += [(with_word(parked(OVER), i, v), 27) for i, v in ((4, 2), (5, 23), (7, 1), (12, 1), (13, 1), (14, 1), (15, 1), (16, 1), (17, 1), (129, 1))] + [(with_word(parked(ALL), 12, 2), 27), (with_word(parked(ALL), 5, 20), 17)]
EDGES += [(with_byte(holding(b'ab'), 518, 1), 27), (with_byte(parked(ALL), 9211, 1), 27), (with_byte(parked(ALL), 508, parked(ALL)[508] ^ 1, False), 27), (with_byte(parked(ALL), 9212, parked(ALL)[9212] ^ 1, False), 27)]
EDGES += [(with_byte(parked(ALL), 512, 2), 27), (with_byte(parked(ALL), 8704, 18), 27), (with_byte(parked(ALL), 1, 1), 27)]


def with_parkings(case, every, mark):
    """A case of op 5 as op 13."""
    head, x, _, text = lib.parts(case)
    t, kind, _, plan = struct.unpack('<4I', head[4:20])
    return lib.case(13, t, kind, every, plan, x, bytes([mark]), text)


def stored(sample):
    """Cases and answers for the stored sample of `replay`.
    Some of its texts with parkings, whose answers stay, some sessions parked and some blocks taken up."""
    texts = [(c, w) for c, w in sample if c[0] == 5]
    flat = struct.pack('<12Q', *(x for row in MAP01 for x in row))
    left = [TEXTS[k] for k in (1, 2, 5, 8, 10, 12)]
    return ([(with_parkings(c, 1 + k % 4, 1 + k // 4 % 2), w) for k, (c, w) in enumerate(texts[::6])]
            + [(lib.case(15, T01, kind, 2 + finished, 0, flat, b'', text), output(parked(worked(kind, text, finished, want)))) for kind, text, finished, want in left]
            + [(lib.case(14, x=b), told(b)) for b, _ in BLOCKS[1:3] + BLOCKS[5:45:4] + BLOCKS[-7:-3] + EDGES])


def by_hand():
    """Ends the tool where the model answers otherwise than was worked out by hand."""
    for kind, text, finished, want in TEXTS:
        got, hand = after(kind, T01, MAP01, text, 0, finished), worked(kind, text, finished, want)
        both = take_up(parked(got, 1)) == take_up(parked(got)) == (0, got) and parked(got)[4] == 2
        if got != hand or not both:
            lib.stop(f'the model of parking: {text}: {got}, not {hand}')
    for k, (b, n) in enumerate(BLOCKS + EDGES):
        if take_up(b)[0] != n:
            lib.stop(f'the model of parking: row {k} of blocks is {take_up(b)[0]}, not {n}')
    b = parked(Session(0, 1, 0, 0, 600, 0, held_length=505, held=b'A' * 505))
    if not b[516] == b[512 + 507] == b[1024 + 4] == 65 or b[1024 + 5] != 0:
        lib.stop('the model of parking: 505 held bytes do not stand where they should')
