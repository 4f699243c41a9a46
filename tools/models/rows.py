"""The captions of a whole text as rows of numbers, read by brute force from the words of document 01 and of requests 2.2 and 2.5.
For each caption its line, 0 or the warning with which it passes, start and end in units, and where its words stand (byte and length).
With a fault the captions before its line or block, its number and its line: in 19, 20 and ASS's 22 the line itself,
in 21 the block's first line, in 22 of SRT and WebVTT the timing line, in 24 line 1.
Nothing here comes from the proved code. The cases at its end are worked out by hand; tools/data/replay stores them."""
import random

import lib

BOM = b'\xef\xbb\xbf'
DIGITS = set(b'0123456789')
SPACE = lib.WHITE_SPACE
MOST_LINE = MOST_BLOCK = 4096


# ---- lines: where each begins, and its bytes with the terminator
def lines_of(text, at):
    lines = []
    while at < len(text):
        end = text.find(b'\n', at) + 1 or len(text)
        lines.append((at, text[at:end]))
        at = end
    return lines


def bare(line):
    """Without LF or CR LF; a CR that no LF follows is text."""
    if not line.endswith(b'\n'):
        return line
    return line[:-2] if line.endswith(b'\r\n') else line[:-1]


def trimmed(text):
    return text.decode().strip(SPACE).encode()


def line_fault(mark, line):
    """19 with the bytes of a BOM before it, then 20."""
    if mark + len(line) > MOST_LINE:
        return 19
    try:
        line.decode('utf-8')
    except UnicodeDecodeError:
        return 20
    return 0


# ---- times
def number(text, most, sign=True, width=None):
    digits = text[1:] if sign and text[:1] == b'+' else text
    if not digits or not set(digits) <= DIGITS or width is not None and len(digits) != width:
        return None
    return int(digits) if int(digits) <= most else None


def in_units(units, *parts):
    if None in parts:
        return None
    h, m, s, f = parts
    return ((h * 60 + m) * 60 + s) * units + f


def time(kind, text):
    """Units, or None: `h:m:s.f` in ASS, `h:m:s,f` or `h:m:s.f` in SRT, `mm:ss.ttt` or `hh:mm:ss.ttt` in WebVTT."""
    parts = trimmed(text).split(b':')
    if kind == 2:
        if len(parts) not in (2, 3):
            return None
        hours = parts.pop(0) if len(parts) == 3 else b'00'
        seconds, point, f = parts[1].partition(b'.')
        if not point or len(hours) < 2:
            return None
        return in_units(1000, number(hours, 9999, False), number(parts[0], 59, False, 2), number(seconds, 59, False, 2), number(f, 999, False, 3))
    if len(parts) < 3:
        return None
    last, units = b':'.join(parts[2:]), 1000 if kind else 100
    mark = b',' if kind == 1 and b',' in last else b'.'
    seconds, found, f = last.partition(mark)
    if not found:
        return None
    return in_units(units, number(parts[0], 9999), number(parts[1], 59), number(seconds, 59), number(f, units - 1))


# ---- ASS
def ass_rows(lines, mark):
    events, columns, rows = False, (0, 0, 0), []
    for n, (at, line) in enumerate(lines, 1):
        fault = line_fault(mark if n == 1 else 0, line)
        if fault:
            return fault, n, rows
        text = bare(line)
        section = trimmed(text)
        if len(section) >= 2 and section[:1] == b'[' and section[-1:] == b']':
            events = section == b'[Events]'
            continue
        if not events:
            continue
        if text.startswith(b'Format:'):
            names = [trimmed(name) for name in text[7:].split(b',')]
            columns = (len(names), *(names.index(name) + 1 if name in names else 0 for name in (b'Start', b'End')))
            continue
        word = next((w for w in (b'Dialogue:', b'Comment:') if text.startswith(w)), None)
        if word is None:
            continue
        many, start, stop = columns
        if not start or not stop:
            rows.append((n, 1, 0, 0, at, len(text)))
            continue
        fields = text[len(word):].split(b',', many - 1)
        if len(fields) < many:
            rows.append((n, 2, 0, 0, at, len(text)))
            continue
        s, e = time(0, fields[start - 1]), time(0, fields[stop - 1])
        if s is None or e is None:
            return 22, n, rows
        size = 0 if many in (start, stop) else len(fields[-1])
        rows.append((n, 0, s, e, at + len(text) - size, size))
    return 0, 0, rows


# ---- SRT, WebVTT
def end_text(kind, behind):
    """The end time behind the arrow and its White_Space."""
    r = behind.decode().lstrip(SPACE).encode()
    if kind == 2:
        cut = [k for k in range(len(r)) if r[k] in b' \t']
        return r[:cut[0]] if cut else r
    splits = len(r) > 12 and r[12] & 0xc0 == 0x80
    return r if len(r) < 12 or splits else r[:12]


def block_row(kind, block):
    """The fault and its line, and the row of a block with a timing line."""
    for n, at, line in block:
        if b'-->' in bare(line):
            left, _, behind = bare(line).partition(b'-->')
            s, e = time(kind, left), time(kind, end_text(kind, behind))
            if s is None or e is None:
                return 22, n, []
            words = at + len(line)
            return 0, 0, [(n, 0, s, e, words, block[-1][1] + len(block[-1][2]) - words)]
    return 0, 0, []


def block_rows(kind, lines, mark):
    rows, block, first = [], [], 1
    if kind == 2:
        fault = 24 if not lines else line_fault(mark, lines[0][1])
        if not fault:
            head = bare(lines[0][1])
            fault = 0 if head == b'WEBVTT' or head[:7] in (b'WEBVTT ', b'WEBVTT\t') else 24
        if fault:
            return fault, 1, rows
        first = 2
    for n, (at, line) in enumerate(lines, 1):
        if n < first:
            continue
        fault = line_fault(mark if n == 1 else 0, line)
        if fault:
            return fault, n, rows
        if bare(line) == b'' if kind == 2 else trimmed(line) == b'':
            fault, where, row = block_row(kind, block)
            if fault:
                return fault, where, rows
            rows, block = rows + row, []
            continue
        if sum(len(l) for _, _, l in block) + len(line) > MOST_BLOCK:
            return 21, block[0][0] if block else n, rows
        block.append((n, at, line))
    fault, where, row = block_row(kind, block)
    return fault, where, rows + row


def read(kind, text):
    """Number, line of the fault, rows."""
    mark = 3 if text.startswith(BOM) else 0
    lines = lines_of(text, mark)
    return ass_rows(lines, mark) if kind == 0 else block_rows(kind, lines, mark)


def told(kind, text, lent):
    """The answer to op 16."""
    fault, line, rows = read(kind, text) if kind <= 2 else (16, 0, [])
    if kind > 2 or 6 * len(rows) > (lent or 98304):
        return b'refused 16\n'
    out = b'cues %d %d\n' % (len(rows), line) + b''.join(b'%d %d %d %d %d %d\n' % row for row in rows)
    return out + (b'fault %d\n' % fault if fault else b'')


# ---- worked out by hand: what the case shows, kind, text, places lent (0: as many as needed), the answer to op 16
ASS = b'[Events]\nFormat: Start, End, Text\n'
TWO = b'Dialogue:0:00:00.21,0:00:00.25,c\nComment: 0:00:01.00,0:00:02.00,a, b\n'
SRT = b'1\n00:00:01,500 --> 00:00:02.000\nHi\nyou\n\n2\n00:00:03,000 --> 00:00:04,000\n'
VTT = b'WEBVTT\n\nid\n00:01.500 --> 01:00:02.000 align:left\nHi\n\n'
LONG = b'y' * 4095 + b'\n'
CASES = [
    ('ASS: the last field keeps its commas', 0, ASS + TWO, 0, 'cues 2 0\n3 0 21 25 65 1\n4 0 100 200 98 4\n'),
    ('places lent exactly', 0, ASS + TWO, 12, 'cues 2 0\n3 0 21 25 65 1\n4 0 100 200 98 4\n'),
    ('one place too few', 0, ASS + TWO, 11, 'refused 16\n'),
    ('no caption needs no place: one is lent', 0, ASS, 1, 'cues 0 0\n'),
    ('no columns: warning 1, and the whole line', 0, b'[Events]\r\nDialogue: x\r\n', 0, 'cues 1 0\n2 1 0 0 10 11\n'),
    ('two fields of three: warning 2', 0, ASS + b'Dialogue:0:00:00.21,0:00:00.25', 0, 'cues 1 0\n3 2 0 0 34 30\n'),
    ('End is the last column: no words', 0, b'[Events]\nFormat:Start,End\nDialogue:0:00:00.21,0:00:00.25\n', 0, 'cues 1 0\n3 0 21 25 56 0\n'),
    ('a BOM counts in the places', 0, BOM + ASS + TWO, 0, 'cues 2 0\n3 0 21 25 68 1\n4 0 100 200 101 4\n'),
    ('ASS: 22 on its line, with the caption before it', 0, ASS + TWO[:33] + b'Dialogue:0:60:00.00,0:00:00.25,c\n' + TWO, 0, 'cues 1 4\n3 0 21 25 65 1\nfault 22\n'),
    ('outside Events nothing is a caption', 0, b'Dialogue: x\n', 0, 'cues 0 0\n'),
    ('4,096 bytes in a line', 0, LONG, 0, 'cues 0 0\n'),
    ('4,097: 19', 0, b'x\n' + b'y' + LONG, 0, 'cues 0 2\nfault 19\n'),
    ('4,096 with the BOM before them: 19', 0, BOM + LONG, 0, 'cues 0 1\nfault 19\n'),
    ('20', 0, b'x\n\xff\n', 0, 'cues 0 2\nfault 20\n'),
    ('SRT: the words are the lines below; none below the second', 1, SRT, 0, 'cues 2 0\n2 0 1500 2000 32 7\n7 0 3000 4000 72 0\n'),
    ('SRT: the block without an end', 1, SRT[:-1], 12, 'cues 2 0\n2 0 1500 2000 32 7\n7 0 3000 4000 71 0\n'),
    ('SRT: one place too few', 1, SRT, 11, 'refused 16\n'),
    ('SRT: 22 on the timing line, once a blank line or the end closes the block', 1, b'\n1\n00:00:01,500 --> soon\nHi\n\n', 0, 'cues 0 3\nfault 22\n'),
    ('SRT: 20 before the block is closed', 1, b'1\n00:00:01,500 --> soon\n\xff\n\n', 0, 'cues 0 3\nfault 20\n'),
    ('SRT: 21 on the first line of the block', 1, b'\n\nab\n' + LONG[3:] + b'c\n', 0, 'cues 0 3\nfault 21\n'),
    ('SRT: 4,096 bytes in a block', 1, b'\n\nab\n' + LONG[3:], 0, 'cues 0 0\n'),
    ('SRT: a block without an arrow is no caption', 1, b'1\n\n2', 0, 'cues 0 0\n'),
    ('SRT: no text', 1, b'', 1, 'cues 0 0\n'),
    ('WebVTT: settings are no words', 2, VTT, 0, 'cues 1 0\n4 0 1500 3602000 49 3\n'),
    ('WebVTT: 24 on line 1', 2, b'WEBVTTX\n\n', 0, 'cues 0 1\nfault 24\n'),
    ('WebVTT: no text is 24', 2, b'', 0, 'cues 0 1\nfault 24\n'),
    ('WebVTT: a BOM alone is 24', 2, BOM, 0, 'cues 0 1\nfault 24\n'),
    ('WebVTT: 20 before 24', 2, b'\xff\n', 0, 'cues 0 1\nfault 20\n'),
    ('WebVTT: a line with a space is not blank', 2, VTT[:-1] + b' \n\n', 0, 'cues 1 0\n4 0 1500 3602000 49 5\n'),
    ('WebVTT: the block behind the first line', 2, b'WEBVTT\n' + LONG[2:] + b'abc\n', 0, 'cues 0 2\nfault 21\n'),
    ('WebVTT: 22, with the caption before it', 2, VTT + b'00:60.000 --> 00:00:02.000\nx', 0, 'cues 1 7\n4 0 1500 3602000 49 3\nfault 22\n'),
    ('kind 2 is the last', 3, b'WEBVTT\n', 0, 'refused 16\n'),
]


# ---- random texts
def some_time(r, kind):
    h, m, s, f = r.randrange(3), r.randrange(60), r.randrange(60), r.randrange(1000)
    text = (b'%d:%02d:%02d.%02d' % (h, m, s, f // 10), b'%02d:%02d:%02d%s%03d' % (h, m, s, r.choice((b',', b'.')), f), b'%02d:%02d.%03d' % (m, s, f))[kind]
    if kind == 2 and r.random() < .5:
        text = b'%02d:' % h + text
    return text if r.random() > .04 else r.choice((b'soon', b'', b'1:60:00.00', text + b'0', b' ' + text, b'+' + text, b'9999:59:59.99', b'10000:00:00.00'))


def some_words(r):
    return b'\xff' if r.random() < .02 else r.choice((b'Hi', b'caf\xc3\xa9', b'a, b', b'x-->', b'{\\i1}y', b' ', b'\xe3\x80\x80', b'', b'1'))


def some_text(r, kind):
    end = lambda: r.choice((b'\n', b'\n', b'\r\n'))
    text = b'' if r.random() > .2 else BOM
    if kind == 0:
        text += b'[Events]' + end()
        for _ in range(r.randrange(1, 7)):
            q = r.random()
            if q < .25:
                text += b'Format:' + r.choice((b' Layer, Start, End, Text', b'Start,End', b'End, Start, Text', b'Start,Text,End', b'Text', b' Start , End ,Text')) + end()
            elif q < .8:
                row = r.choice(([b'0'], [])) + [some_time(r, 0), some_time(r, 0)] + r.choice(([some_words(r)], []))
                text += r.choice((b'Dialogue:', b'Comment:')) + b','.join(row) + end()
            else:
                text += r.choice((b'[Other]', b' [Events] ', b'[Events]', some_words(r))) + end()
    else:
        if kind == 2:
            text += r.choice((b'WEBVTT', b'WEBVTT', b'WEBVTT', b'WEBVTT x', b'WEBVTT\tx', b'WEBVTTx')) + end()
        for _ in range(r.randrange(1, 6)):
            if r.random() < .5:
                text += b'%d' % r.randrange(9) + end()
            if r.random() < .9:
                text += some_time(r, kind) + r.choice((b' --> ', b'-->', b'  -->\t')) + some_time(r, kind) + r.choice((b'', b'', b' align:left', b' x')) + end()
            for _ in range(r.randrange(3)):
                text += some_words(r) + end()
            text += r.choice((b'\n', b'\r\n', b'\n\n', b' \n', b''))
    if r.random() < .3:
        text = text.rstrip(b'\r\n')
    if r.random() < .03:
        text += b'y' * r.choice((4080, 4090, 4100))
    if kind and r.random() < .05:
        text += b''.join(b'y' * 700 + end() for _ in range(r.randrange(7)))
    return text


def holds(kind, text):
    """The line of a fault is the least n from 1 on such that the first n lines alone have it.
    With 21 it is the first of the lines before, none of them blank. Rows rise."""
    fault, line, rows = read(kind, text)
    mark = 3 if text.startswith(BOM) else 0
    lines = lines_of(text, mark)
    if not fault:
        return line == 0
    least = next(n for n in range(1, len(lines) + 2) if read(kind, text[:mark] + b''.join(l for _, l in lines[:n]))[0] == fault)
    if fault == 21:
        blank = lambda l: bare(l) == b'' if kind == 2 else trimmed(l) == b''
        before = lines[line - 2][1] if line > 1 else b''
        opens = line == (2 if kind == 2 else 1) or blank(before)
        return line <= least and opens and not any(blank(l) for _, l in lines[line - 1:least])
    return least == line and all(a[0] < b[0] for a, b in zip(rows, rows[1:]))


def stored():
    """Cases of op 16 and their answers, the model's: those worked out by hand, and twenty random texts of each kind."""
    r, cases = random.Random(16), [(kind, text, lent, want.encode()) for _, kind, text, lent, want in CASES]
    for kind in (0, 1, 2):
        for _ in range(20):
            text = some_text(r, kind)
            cases.append((kind, text, 0, told(kind, text, 0)))
    return [(lib.case(16, 0, kind, lent, z=text), want) for kind, text, lent, want in cases]


def by_hand():
    """Ends the tool where the model answers otherwise than was worked out by hand."""
    for what, kind, text, lent, want in CASES:
        if told(kind, text, lent) != want.encode():
            lib.stop('%s: %r, not %r' % (what, told(kind, text, lent), want))
