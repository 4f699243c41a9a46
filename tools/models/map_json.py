"""Request 2.1 in Python, written from document 02: the JSON of a segment map, written and read.
Two readers: one reads any RFC 8259 text to a tree and then compares the tree with the request; the other takes the tree from Python's own json.
A map is a list of six-tuples, bytes are bytes."""
import json
import re
import struct

MOST_T, MOST_TICKS, MOST_SEGMENTS, MOST_PATH = 10 ** 9, 2 ** 53, 1024, 1024
SHORT, WORD = 2 ** 32 - 1, 2 ** 64 - 1
TOP = ['video_timescale', 'frame_rate_num', 'frame_rate_den', 'input', 'total_frames', 'segments']
SEGMENT = [('source_start_frame', SHORT), ('source_end_frame', SHORT), ('source_start_dts', WORD), ('frame_count', SHORT), ('output_start', WORD), ('duration', WORD)]


class Wrong(Exception):
    pass


class Number(str):
    """A number as it stands."""


# ---- a tree: str, Number, True, False, None, a list, or a tuple of pairs (an object)
class Tree:
    SHORT = {'"': '"', '\\': '\\', '/': '/', 'b': '\b', 'f': '\f', 'n': '\n', 'r': '\r', 't': '\t'}

    def __init__(self, text):
        self.s, self.i = text, 0

    def space(self):
        while self.s[self.i:self.i + 1] in (' ', '\t', '\n', '\r') and self.i < len(self.s):
            self.i += 1

    def take(self, c):
        if self.s[self.i:self.i + 1] != c:
            raise Wrong
        self.i += 1

    def unit(self):
        h = self.s[self.i:self.i + 4]
        if len(h) != 4 or any(c not in '0123456789abcdefABCDEF' for c in h):
            raise Wrong
        self.i += 4
        return int(h, 16)

    def string(self):
        self.take('"')
        found = []
        while True:
            c = self.s[self.i:self.i + 1]
            self.i += 1
            if c == '' or c < ' ':
                raise Wrong
            if c == '"':
                return ''.join(found)
            if c != '\\':
                found.append(c)
                continue
            e = self.s[self.i:self.i + 1]
            self.i += 1
            if e != 'u':
                if e not in self.SHORT:
                    raise Wrong
                found.append(self.SHORT[e])
                continue
            u = self.unit()
            if 0xD800 <= u < 0xDC00 and self.s[self.i:self.i + 2] == '\\u':
                self.i += 2
                v = self.unit()
                if not 0xDC00 <= v < 0xE000:
                    raise Wrong
                u = 0x10000 + 1024 * (u - 0xD800) + v - 0xDC00
            if 0xD800 <= u < 0xE000:
                raise Wrong
            found.append(chr(u))

    def digits(self):
        a = self.i
        while self.s[self.i:self.i + 1] in tuple('0123456789'):
            self.i += 1
        if self.i == a:
            raise Wrong

    def number(self):
        a = self.i
        if self.s[self.i:self.i + 1] == '-':
            self.i += 1
        if self.s[self.i:self.i + 1] == '0':
            self.i += 1
        else:
            self.digits()
        if self.s[self.i:self.i + 1] == '.':
            self.i += 1
            self.digits()
        if self.s[self.i:self.i + 1] in ('e', 'E'):
            self.i += 1
            if self.s[self.i:self.i + 1] in ('+', '-'):
                self.i += 1
            self.digits()
        return Number(self.s[a:self.i])

    def row(self, close, item):
        found = []
        self.space()
        if self.s[self.i:self.i + 1] == close:
            self.i += 1
            return found
        while True:
            self.space()
            found.append(item())
            self.space()
            if self.s[self.i:self.i + 1] == close:
                self.i += 1
                return found
            self.take(',')

    def pair(self, room):
        name = self.string()
        self.space()
        self.take(':')
        self.space()
        return name, self.value(room)

    def value(self, room):
        """A value; more than `room` arrays and objects one in the other can't be part of a map's text."""
        c = self.s[self.i:self.i + 1]
        if c == '"':
            return self.string()
        if c in ('[', '{'):
            if room == 0:
                raise Wrong
            self.i += 1
            return self.row(']', lambda: self.value(room - 1)) if c == '[' else tuple(self.row('}', lambda: self.pair(room - 1)))
        for word, v in (('true', True), ('false', False), ('null', None)):
            if self.s.startswith(word, self.i):
                self.i += len(word)
                return v
        return self.number()

    def whole(self):
        self.space()
        v = self.value(11)
        self.space()
        if self.i != len(self.s):
            raise Wrong
        return v


def own_tree(text):
    return Tree(text).whole()


def no(_):
    raise Wrong


def json_tree(text):
    """The tree by Python's json, which takes lone surrogates and some words more."""
    try:
        v = json.JSONDecoder(parse_int=Number, parse_float=Number, parse_constant=no, object_pairs_hook=tuple).decode(text)
    except (ValueError, RecursionError):
        raise Wrong
    seen = [v]
    while seen:
        x = seen.pop()
        if isinstance(x, Number):
            continue
        if isinstance(x, str):
            if any(0xD800 <= ord(c) < 0xE000 for c in x):
                raise Wrong
        elif isinstance(x, list):
            seen.extend(x)
        elif isinstance(x, tuple):
            for n, w in x:
                seen += [n, w]
    return v


def depth(v):
    if isinstance(v, list):
        return 1 + max([depth(x) for x in v], default=0)
    return 1 + max([depth(x) for _, x in v], default=0) if isinstance(v, tuple) else 0


# ---- the request
def plain(v, most):
    if not isinstance(v, Number) or not all('0' <= c <= '9' for c in v) or len(v) > 1 and v[0] == '0' or int(v) > most:
        raise Wrong
    return int(v)


def fields(v, names):
    if not isinstance(v, tuple):
        raise Wrong
    found = {}
    for n, x in v:
        if n in names:
            if n in found:
                raise Wrong
            found[n] = x
        elif depth(x) > 8:
            raise Wrong
    if len(found) != len(names):
        raise Wrong
    return found


def map_bad(m):
    return len(m) > MOST_SEGMENTS or any(q + d > MOST_TICKS or o + d > MOST_TICKS or max(a, b, k) > SHORT for a, b, q, k, o, d in m)


def read(text, tree=own_tree):
    """(0, T, num, den, frames, path, map), or (23,) or (15,)."""
    try:
        top = fields(tree(text.decode()), TOP)
        T, num, den, frames = (plain(top[n], SHORT) for n in ('video_timescale', 'frame_rate_num', 'frame_rate_den', 'total_frames'))
        path, rows = top['input'], top['segments']
        if isinstance(path, Number) or not isinstance(path, str) or not isinstance(rows, list) or len(path.encode()) > MOST_PATH:
            raise Wrong
        m = []
        for row in rows:
            f = fields(row, [n for n, _ in SEGMENT])
            m.append(tuple(plain(f[n], most) for n, most in SEGMENT))
    except (Wrong, UnicodeDecodeError):
        return (23,)
    return (15,) if not 1 <= T <= MOST_T or map_bad(m) else (0, T, num, den, frames, path.encode(), m)


def flat(m):
    """The bytes of a map."""
    return struct.pack('<%dQ' % (6 * len(m)), *[v for x in m for v in x])


def told(r):
    """The answer of `replay`'s op 7."""
    if r[0]:
        return b'refused %d\n' % r[0]
    _, T, num, den, frames, path, m = r
    return b'map %d %d %d %d\npath %d\n' % (T, num, den, frames, len(path)) + path + b'\n' + b''.join(b'%d %d %d %d %d %d\n' % x for x in m)


def write(m, T, num, den, path, frames):
    """The number and the text."""
    if not 1 <= T <= MOST_T or map_bad(m):
        return 15, b''
    if len(path) > MOST_PATH:
        return 16, b''
    try:
        said = path.decode()
    except UnicodeDecodeError:
        return 20, b''
    pairs = lambda names, v, pad: ',\n'.join('%s"%s": %s' % (pad, n, x) for n, x in zip(names, v))
    rows = ['    {\n' + pairs([n for n, _ in SEGMENT], x, ' ' * 6) + '\n    }' for x in m]
    rows = '[\n' + ',\n'.join(rows) + '\n  ]' if m else '[]'
    quoted = json.dumps(said, ensure_ascii=False)
    return 0, ('{\n' + pairs(TOP, [T, num, den, quoted, frames, rows], '  ') + '\n}\n').encode()


# ---- chosen texts, worked out from the request: what is tried, the text, our number, and whether the Rust's `from_json` takes it
ROW = '{"source_start_frame":1,"source_end_frame":2,"source_start_dts":3,"frame_count":4,"output_start":5,"duration":6}'


def one(ts='1', num='2', den='3', path='"a"', frames='4', rows='[]', more='', before='', after=''):
    said = '{"video_timescale":%s,"frame_rate_num":%s,"frame_rate_den":%s,"input":%s,"total_frames":%s,"segments":%s%s}' % (ts, num, den, path, frames, rows, more)
    return (before + said + after).encode()


def rows(n, more=''):
    return '[' + ','.join([ROW] * n) + more + ']'


def row(old, new):
    return one(rows='[' + ROW.replace(old, new) + ']')


def in_row(more):
    return one(rows='[' + ROW[:-1] + more + '}]')


def deep(n, open='[', close=']', last=''):
    return ',"x":' + open * n + last + close * n


def chosen():
    same = lambda number, *texts: [(t, number, number == 0) for t in texts]
    objects = lambda n: ',"x":' + '{"a":' * (n - 1) + '{}' + '}' * (n - 1)
    takes = same(0, one(), one(after=' \t\r\n'), one().replace(b':', b' :\t').replace(b',', b',\r\n ') + b' \n\t\r', one(num='0'), one(num='4294967295'), one(ts='1000000000'), one(rows=rows(1)), one(rows='[ ]'), one(rows=rows(1024)),
                 b'{"segments":[],"total_frames":4,"input":"a","frame_rate_den":3,"frame_rate_num":2,"video_timescale":1}')
    takes += same(0, one().replace(b'"input"', b'"\\u0069nput"'), one(more=',"x":1,"x":2'), one(more=',"":1'), one(more=',"version":2', rows='[' + ROW[:-1] + ',"note":{"a":[1,2]}}]'), one(more=',"Input":1'), one(more=deep(8)), one(more=objects(8)),
                  in_row(deep(8)), in_row(objects(8)), one(more=',"a":true,"b":false,"c":null,"d":-0,"e":1.5e+3,"f":-12.0E-7,"g":1E999'), one(more=',"a":123456789012345678901234567890'), one(more=',"a":{ },"b":[ ]'))
    takes += same(0, one(path='"\\uD83D\\ude00"'), one(path='"\\u0000\\"\\\\\\/\\b\\f\\n\\r\\t"'), one(path='"a\x7fb"'), one(path='"é/"'), one(path='""'), one(path='"' + 'a' * 1024 + '"'), one(path='"' + '\\u0061' * 1024 + '"'), one(path='"' + '\\u00e9' * 512 + '"'),
                  row('"duration":6', '"duration":9007199254740986'), row('"source_end_frame":2', '"source_end_frame":4294967295'))
    fields = same(23, one(more=',"input":"a"'), one(more=',"inp\\u0075t":"a"'), in_row(',"duration":6'), in_row(',"d\\u0075ration":6'), one().replace(b'"total_frames":4,', b''), row('duration', 'durationx'), one(rows='[{}]'), b'{}')
    whole = same(23, one(after='x'), one(after='{}'), one(after='/* */'), one(after='\x0c'), one(more=','), one(rows=rows(1, ',')), one(rows=rows(1)[:-1]), one(before='\ufeff'), one(before='\x0c'), one(before='\xa0'), b'', b' \n', b'null', b'[]', b'1', b'"a"', b'[' + one() + b']',
                 one().replace(b'"input":', b'"input" '), b'{"video_timescale":1,"x', one()[:-1], one().replace(b'"input"', b'input'))
    values = same(23, one(ts='1e0'), one(ts='1.0'), *[one(num=n) for n in ('1e0', '1.0', '-0', '-1', '+1', '01', '00', '4294967296', '18446744073709551618', '"2"', 'null', '', '[]', '1x')], one(path='null'), one(path='1'), one(path="'a'"), one(rows='{}'), one(rows='null'), one(rows='[1]'), one(rows='[[]]'),
                  row('"duration":6', '"duration":18446744073709551616'), row('"source_end_frame":2', '"source_end_frame":4294967296'), *[one(more=',"a":' + v) for v in ('01', '1.', '.5', '-', 'NaN', '1e', 'tru', '"', "'a'", '[1,]', '{"a":1,}', '{"a"}', '{1:2}')])
    strings = same(23, *[one(path='"%s"' % t) for t in ('\\ud800', '\\udc00', '\\ud800a', '\\ud800\\n', '\\ud800\\ud800', '\\udc00\\ud800', '\\u12', '\\u12g4', '\\x41', '\\U0041', 'a\tb', 'a\x00b', 'a\x1fb')], one(more=',"\\ud800":1'), one().replace(b'"a"', b'"\xff"'), one(more=',"x":"?"').replace(b'?', b'\xc0\x80'),
                   one().replace(b'"a"', b'"\xed\xa0\x80"'))
    here = [(t, 23, True) for t in (one(more=deep(9)), one(more=objects(9)), in_row(deep(9)), in_row(objects(9)), one(more=',"x":"\\ud800"'), one(more=',"x":["\\udc00"]'), b'[1,2,3,"a",4,[]]', one(rows='[[1,2,3,4,5,6]]'), one(path='"' + 'a' * 1025 + '"'), one(path='"' + '\\u00e9' * 512 + 'a"'))]
    limits = [(t, 15, True) for t in (one(ts='0'), one(ts='1000000001'), one(ts='4294967295'), one(rows=rows(1025)), row('"duration":6', '"duration":9007199254740988'), row('"duration":6', '"duration":18446744073709551615'), row('"output_start":5', '"output_start":9007199254740987'))]
    behind = same(23, one(rows=rows(1025)) + b'x', one(rows=rows(1025, ',1')), one(rows=rows(1025, ',{}')), one(ts='0', num='01'))
    return takes + fields + whole + values + strings + here + limits + behind + edges()


def edges():
    """Each field at the end of its width and of the map's limits; surrogates first and last, and what stands beside them; bytes that are no white space."""
    asked = lambda name, v: re.sub(b'"%s":[0-9]+' % name.encode(), b'"%s":%d' % (name.encode(), v), one(rows=rows(1)))
    said = lambda number, t: (t, number, number != 23)
    short = ('video_timescale', 'frame_rate_num', 'frame_rate_den', 'total_frames', 'source_start_frame', 'source_end_frame', 'frame_count')
    found = [said(23, asked(n, SHORT + 1)) for n in short] + [said(15 if n == 'video_timescale' else 0, asked(n, SHORT)) for n in short]
    for n in ('source_start_dts', 'output_start', 'duration'):
        found += [said(23, asked(n, 2 ** 64)), said(15, asked(n, 2 ** 64 - 1)), said(15, asked(n, 2 ** 53)), said(0, asked(n, 2 ** 32))]
    for n in ('source_start_dts', 'output_start'):
        found += [said(0, asked(n, 2 ** 53 - 6)), said(15, asked(n, 2 ** 53 - 5))]
    found += [said(n, one(path='"%s"' % t)) for t, n in (('\\udbff', 23), ('\\udfff', 23), ('\\ud800\\ue000', 23), ('\\ud800\\udbff', 23), ('\\ud7ff', 0), ('\\ue000', 0), ('\\udbff\\udfff', 0), ('\\ud800\\udc00', 0),
                                                         ('\\udbff\\udc00', 0))]
    return found + [said(23, t) for t in (one(before='\x0b'), one(after='\0'), one(after='\x0b'), one().replace(b',"s', b',\x0b"s'))]


CHOSEN = chosen()

# ---- chosen maps to write: T, frame rate, frame count, path, map
WRITTEN = [
    (30000, 30000, 1001, 10, b'in.mp4', [(0, 3, 0, 3, 0, 3003), (6, 10, 6006, 4, 3003, 4004)]),
    (1, 0, 0, 0, b'', []),
    (10 ** 9, SHORT, SHORT, SHORT, 'é/\\"\x7f\u2028😀'.encode() + bytes(range(32)), [(SHORT, SHORT, 2 ** 52, SHORT, 2 ** 52, 2 ** 52)]),
    (1, 1, 1, 1, b'a' * 1024, []),
    (1, 1, 1, 1, b'a' * 1025, []),
    (1, 1, 1, 1, b'\xff' * 1025, []),
    (0, 1, 1, 1, b'a' * 1025, []),
    (1, 1, 1, 1, b'\xed\xa0\x80', []),
    (1, 1, 1, 1, b'\xff', [(0, 0, 2 ** 53, 0, 0, 1)]),
    (0, 1, 1, 1, b'\xff', []),
    (10 ** 9 + 1, 1, 1, 1, b'', []),
    (1, 1, 1, 1, b'', [(0, 0, 2 ** 53, 0, 2 ** 53, 0), (0, 0, 0, 0, 0, 2 ** 53)]),
    (1, 1, 1, 1, b'', [(2 ** 32, 0, 0, 0, 0, 0)]),
    (1, 1, 1, 1, b'', [(0, 1, 0, 1, 0, 1)] * 1024),
    (1, 1, 1, 1, b'', [(0, 1, 0, 1, 0, 1)] * 1025),
]


def told_text(m, T, num, den, path, frames):
    """The answer of `replay`'s op 6."""
    number, text = write(m, T, num, den, path, frames)
    return b'refused %d\n' % number if number else b'output %d\n' % len(text) + text + b'\n'
