"""The captions of a whole text, read from the words of document 01 and of requests 2.2 and 2.5.
For each its line, its times and where its words stand, and the first fault with its line. Nothing here comes from the proved code.
The texts at its end are worked out by hand; tools/data/cues stores them with others."""
import re

import lib

ASS, SRT, VTT = 0, 1, 2
BOM = b'\xef\xbb\xbf'
MOST_LINE = MOST_BLOCK = 4096


class Fault(Exception):
    """A number of document 01 and the line that it is told with."""


# ---- lines: they end in LF or CR LF; a lone CR is text
def lines_of(text):
    """(number, byte at which it begins, bytes with terminator) of each line behind a BOM."""
    at, found = len(BOM) if text.startswith(BOM) else 0, []
    while at < len(text):
        end = text.find(b'\n', at) + 1 or len(text)
        found.append((len(found) + 1, at, text[at:end]))
        at = end
    return found


def bare(line):
    return re.sub(rb'\r?\n\Z', b'', line)


def trimmed(text):
    return text.decode().strip(lib.WHITE_SPACE)


def checked(text, number, line):
    """19, then 20. A line is counted with its terminator and the BOM before it."""
    mark = len(BOM) if number == 1 and text.startswith(BOM) else 0
    if mark + len(line) > MOST_LINE:
        raise Fault(19, number)
    try:
        line.decode()
    except UnicodeDecodeError:
        raise Fault(20, number)


# ---- times in units, or None
def time(kind, text):
    a_second = 100 if kind == ASS else 1000
    if kind == VTT:
        form = r'(?:([0-9]{2,}):)?([0-9]{2}):([0-9]{2})[.]([0-9]{3})'
    else:
        form = r'[+]?([0-9]+):[+]?([0-9]+):[+]?([0-9]+)' + ('[.]' if kind == ASS else '[.,]') + r'[+]?([0-9]+)'
    m = re.fullmatch(form, trimmed(text))
    if not m:
        return None
    h, m, s, f = (int(part or 0) for part in m.groups())
    if h > 9999 or m > 59 or s > 59 or f >= a_second:
        return None
    return ((h * 60 + m) * 60 + s) * a_second + f


# ---- ASS
def read_ass(text, rows):
    events, columns = False, []
    for number, at, line in lines_of(text):
        checked(text, number, line)
        said = bare(line)
        name = trimmed(said)
        if len(name.encode()) >= 2 and name.startswith('[') and name.endswith(']'):
            events = name[1:-1] == 'Events'
        elif events and said.startswith(b'Format:'):
            columns = [trimmed(c) for c in said[len(b'Format:'):].split(b',')]
        elif events and said.startswith((b'Dialogue:', b'Comment:')):
            rows.append(ass_caption(columns, number, at, said))


def ass_caption(columns, number, at, said):
    passed = lambda warning: (number, warning, 0, 0, at, len(said))
    if 'Start' not in columns or 'End' not in columns:
        return passed(1)
    fields = said.split(b':', 1)[1].split(b',', len(columns) - 1)
    if len(fields) < len(columns):
        return passed(2)
    places = [columns.index('Start'), columns.index('End')]
    start, end = (time(ASS, fields[k]) for k in places)
    if start is None or end is None:
        raise Fault(22, number)
    # the last field, unless it is a time itself
    size = 0 if len(columns) - 1 in places else len(fields[-1])
    return (number, 0, start, end, at + len(said) - size, size)


# ---- SRT and WebVTT: a block is the non-blank lines, then the blank ones
def read_blocks(kind, text, lines, rows):
    block = []
    for number, at, line in lines:
        checked(text, number, line)
        blank = not bare(line) if kind == VTT else not trimmed(line)
        if blank:
            close(kind, block, rows)
            block = []
            continue
        block.append((number, at, line))
        if sum(len(l) for _, _, l in block) > MOST_BLOCK:
            raise Fault(21, block[0][0])
    close(kind, block, rows)


def close(kind, block, rows):
    """The caption of a block: its first line with an arrow has the times, and the lines below it are the words."""
    for k, (number, at, line) in enumerate(block):
        before, arrow, behind = bare(line).partition(b'-->')
        if arrow:
            start, end = time(kind, before), time(kind, end_text(kind, behind))
            if start is None or end is None:
                raise Fault(22, number)
            rows.append((number, 0, start, end, at + len(line), sum(len(l) for _, _, l in block[k + 1:])))
            return


def end_text(kind, behind):
    text = behind.decode().lstrip(lib.WHITE_SPACE).encode()
    if kind == VTT:
        return re.split(rb'[ \t]', text)[0]
    try:
        return text[:12] if len(text) >= 12 and text[:12].decode() is not None else text
    except UnicodeDecodeError:
        return text


# ---- a text
def read(kind, text):
    """The number, the rows, and the line of the fault, 0 where there is none."""
    rows = []
    try:
        if kind == ASS:
            read_ass(text, rows)
        elif kind == SRT:
            read_blocks(kind, text, lines_of(text), rows)
        else:
            read_vtt(text, rows)
    except Fault as fault:
        return fault.args[0], rows, fault.args[1]
    return 0, rows, 0


def read_vtt(text, rows):
    lines = lines_of(text)
    if not lines:
        raise Fault(24, 1)
    number, _, line = lines[0]
    checked(text, number, line)
    if not re.fullmatch(rb'WEBVTT(?:[ \t].*)?', bare(line), re.S):
        raise Fault(24, 1)
    read_blocks(VTT, text, lines[1:], rows)


def answer(kind, text, places=0):
    """The answer to a case of op 16: so many places are lent, 0 standing for as many as are needed."""
    number, rows, line = read(kind, text) if kind in (ASS, SRT, VTT) else (0, [], 0)
    if kind > VTT or places and places < 6 * len(rows):
        return 'refused 16\n'
    told = [f'cues {len(rows)} {line}', *(' '.join(map(str, row)) for row in rows)]
    return '\n'.join(told + [f'fault {number}'] * (number != 0)) + '\n'


# ---- worked by hand
HEAD = b'[Events]\nFormat: Start, End, Text\n'
WORKED = [
    # document 01's captions through its small map, and the two times of its table
    (ASS, HEAD + b'Dialogue: 0:00:00.05,0:00:00.25,a\n', 0, [(3, 0, 5, 25, 66, 1)], 0),
    (ASS, HEAD + b'Dialogue: 0:00:00.12,0:00:00.20,a\nDialogue: 0:00:00.21,0:00:00.25,c', 0, [(3, 0, 12, 20, 66, 1), (4, 0, 21, 25, 100, 1)], 0),
    (ASS, HEAD + b'Dialogue: 0:00:00.07,0:00:00.05,\r\n', 0, [(3, 0, 7, 5, 66, 0)], 0),
    (ASS, HEAD + b'Dialogue: 0:60:00.00,0:00:00.05,a\n', 22, [], 3),
    (ASS, HEAD + b'Comment:0:59:59.99,0:59:59.99,a,b\n', 0, [(3, 0, 359999, 359999, 64, 3)], 0),
    (SRT, b'1\n00:00:00,000 --> 100:00:00,456\nx\n', 0, [(2, 0, 0, 360000045, 33, 2)], 0),
    # what passes; columns stay until the next Format line, the section not
    (ASS, b'[Events]\nDialogue: 1,2\n', 0, [(2, 1, 0, 0, 9, 13)], 0),
    (ASS, HEAD + b'Dialogue: 0:00:00.05\r\n[x]\nDialogue: 1\n[Events]\nDialogue:0:0:1.5,0:0:2.0,a,b\n', 0, [(3, 2, 0, 0, 34, 20), (7, 0, 105, 200, 106, 3)], 0),
    (ASS, b'\xef\xbb\xbf [Events] \nFormat: Text, Start,End\nDialogue:w,0:0:1.0,0:0:2.0\n', 0, [(3, 0, 100, 200, 64, 0)], 0),
    # lines and blocks
    (SRT, b'1\n0:0:1,0-->0:0:2.0     x\na\r\n \n\n2\n0:0:3,0 --> 0:0:4,0\n', 0, [(2, 0, 1000, 2000, 26, 3), (7, 0, 3000, 4000, 54, 0)], 0),
    (SRT, b'a\n\nb --> c\n\n', 22, [], 3),
    (SRT, b'0:0:1,0-->0:0:2,0\nx\xff\n', 20, [], 2),
    (SRT, b'0:0:1,0-->0:0:2,0\n\n' + b'y' * 4097, 19, [(1, 0, 1000, 2000, 18, 0)], 3),
    (SRT, b'\n' + b'y\n' * 2049, 21, [], 2),
    (VTT, b'WEBVTT x\nid\n00:01.000 --> 00:02.000 line:0\nI <3\n\n', 0, [(3, 0, 1000, 2000, 43, 5)], 0),
    (VTT, b'WEBVTT\n \n00:01.000 --> 00:02.000\n', 0, [(3, 0, 1000, 2000, 33, 0)], 0),
    (VTT, b'', 24, [], 1),
    (VTT, b'WEBVTT2', 24, [], 1),
]


# ---- random texts
SPACES = [''] * 40 + [' '] * 40 + ['\t', '\u3000', '\xa0', ' \x85', '\x1c', '\u200b', '\r', '  ']
ENDS = ['\n', '\n', '\n', '\r\n', '\r\r\n']


def some_time(r, kind):
    units = r.randrange(4 * (100 if kind == ASS else 1000)) if r.random() < .8 else r.randrange(36 * 10 ** (8 if kind == ASS else 9))
    part = units % (100 if kind == ASS else 1000)
    seconds = units // (100 if kind == ASS else 1000)
    h, m, s = seconds // 3600, seconds // 60 % 60, seconds % 60
    width = 2 if kind == ASS else 3
    mark = '.' if kind != SRT or r.random() < .4 else ','
    hours = f'{h:02}:' if h or r.random() < .6 else ''
    if kind == VTT:
        texts = [f'{hours}{m:02}:{s:02}.{part:03}', f'00{h:02}:{m:02}:{s:02}.{part:03}']
    else:
        texts = [f'{h}:{m:02}:{s:02}{mark}{part:0{width}}', f'{h:02}:{m:02}:{s:02}{mark}{part:0{width}}', f'+{h}:+{m}:+{s}{mark}+{part}', f'0{h}:{m}:{s}{mark}{part}']
    if r.random() < .03:
        texts = ['', '+', ':', '0:60:00.00', '00:00:60,000', '10000:00:00.00', '0:00:01', '00:00:01,5.0', '0:0:0.1000', '0:0:0.100', '0:00.100', 'x', '00:00:00:00.100', '9' * 25 + ':00:00.00', '0:00:00.+', '00:00.1000',
                 '0 :0:0.0', '\uff10:0:0.0', '00:00:00;000', '9999:59:59.999', '9999:59:59.99']
    return r.choice(SPACES) + r.choice(texts) + r.choice(SPACES)


def some_ass(r):
    heads = ['[Events]', '[Events]', ' [Events]\u3000', '[events]', '[Events', '[]', '[', '[V4+ Styles]', '[Events]x', '[ Events]', '[\u3000]']
    formats = ['Format: Start, End, Text', 'Format:Layer,Start , End,Style,Text', 'Format: End,Text,Start', 'Format: Start, Text', 'Format:', 'Format: Start,Start,End', 'Format: End, Start', ' Format: Start, End', 'Format: Start,End,Text,Start',
               'Format: Text,\u3000Start\xa0,End,,', 'Format:Start', 'Format: start, end']
    lines = ['[Events]', 'Format: Start, End, Text'] * r.randrange(2)
    for _ in range(r.randrange(14)):
        a, b = some_time(r, ASS), some_time(r, ASS)
        lines.append(r.choice([r.choice(heads), r.choice(formats), f'Comment:{a},{b},a, b', f'Dialogue: 0,{a},{b},Default,{{\\fad(1,2)}}x\\Ny, z', f'Dialogue:{a},{b}', f'Dialogue: {a},{b},word, word', f'Dialogue:{b},w,{a}',
                               f'Dialogue: {a},{b},', f'Dialogue:w,{a},{b},,', r.choice(['', ' ', 'Style: x', ' Dialogue: 1,2,3', '; comment', '\ufeffDialogue: 1,2,3', 'Dialogue: 0:0:1.0', 'dialogue: 1,2,3', 'Dialogue', 'Comment:', '[Events]\r'])]))
    return ''.join(line + r.choice(ENDS) for line in lines)


def some_blocks(r, kind):
    text = ''
    for k in range(r.randrange(8)):
        if r.random() < .5:
            text += r.choice([str(k), 'id', 'NOTE x', 'STYLE']) + r.choice(ENDS)
        if r.random() < .9:
            tails = ['', '', '', '', ' align:start', '  X1:1 X2:2', '\tline:0', '6', '\xe9', '\xa0x', ' --> 1', '\u3000\u3000']
            text += f'{some_time(r, kind)}-->{some_time(r, kind)}{r.choice(tails)}' + r.choice(ENDS)
        for _ in range(r.randrange(3)):
            text += r.choice(['<i>word</i>', 'a --> b', '<00:00:01.000>x', '\u4eca\u591c', 'I <3 you', ' x', '-->', '--', '> -']) + r.choice(ENDS)
        text += r.choice(['\n', '\n', '\n\n', '\r\n', ' \n', '\t\r\n', '\u3000\n', '\r\r\n', '\x1c\n', ''])
    return text


def some_text(r, kind):
    text = some_ass(r) if kind == ASS else some_blocks(r, kind)
    if kind == VTT:
        text = r.choice(['WEBVTT\n\n'] * 60 + ['WEBVTT\n', 'WEBVTT - x\r\n\r\n', 'WEBVTT\ta --> b\n', 'WEBVTT\n\r\n', 'WEBVTT\r', 'WEBVTT2\n', 'webvtt\n', '', '\n', 'WEBVTT\u3000\n']) + text
    text = text.encode()
    if r.random() < .2:
        text = BOM + text
    if r.random() < .2:
        text = text[:-1]
    # around the limits of a line and of a block
    if r.random() < .03:
        at = r.randrange(len(text) + 1)
        size = r.choice([4000, 4090, 4091, 4092, 4093, 4094, 4095, 4096, 4097, 8192])
        fill = r.choice([b'y', b' ', b'y\n', b'\xe4\xbb\x8a', b'yyyyyyy\r\n'])
        text = text[:at] + (fill * size)[:size] + text[at:]
    if text and r.random() < .04:
        at = r.randrange(len(text))
        text = text[:at] + bytes([r.choice([0xff, 0xc0, 0x80, 0xed, 0xf4, 0xe4, 0])]) + text[at + r.randrange(2):]
    return text


PARTS = [b'\n', b'\n', b'\n\n', b'\r\n', b'\r', b'-->', b' --> ', b' ', b':', b'0', b'00:00:01,000', b'00:01.000', b'0:00:01.00', b',', b'.', b'\xff', b'\xe3\x80\x80', b'\xe3\x80', BOM, b'[Events]\n', b'Format:Start,End\n', b'Dialogue:', b'Comment:',
         b'WEBVTT', b'<', b'{', b'+']


def any_text(r, kind):
    """Parts of captions in any order."""
    head = b'WEBVTT\n\n' if kind == VTT and r.random() < .7 else b'[Events]\nFormat:Start,End,Text\n' if kind == ASS and r.random() < .5 else b''
    return head + b''.join(r.choice(PARTS) for _ in range(r.randrange(25)))


def random_text(r, kind):
    return some_text(r, kind) if r.random() < .85 else any_text(r, kind)


def by_hand():
    """Ends the tool where the model answers otherwise than was worked out by hand."""
    for kind, text, *want in WORKED:
        if list(read(kind, text)) != want:
            lib.stop(f'{kind} {text!r}: {read(kind, text)}, and {want} was worked out by hand')
