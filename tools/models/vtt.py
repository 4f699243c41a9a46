"""WebVTT captions (kind 2) read by brute force from the words of requests 2.5 and 2.7 and of document 01, since the Rust has no WebVTT.
Nothing here comes from the proved code. The cases at its end are worked out by hand.
Stored cases of kind 2 have its answers."""
import struct
from fractions import Fraction
from math import ceil, floor

import lib

U = 1000
BOM = b'\xef\xbb\xbf'
DIGITS = '0123456789'
SPACE = lib.WHITE_SPACE


# ---- lines
def lines_of(text):
    """Each line with its terminator, and whether LF ended it."""
    lines, at = [], 0
    for k, b in enumerate(text):
        if b == 10:
            lines.append((text[at:k + 1], True))
            at = k + 1
    return lines + ([(text[at:], False)] if at < len(text) else [])


def bare(line):
    """A line without LF or CR LF; a CR that no LF follows is text."""
    if not line.endswith(b'\n'):
        return line
    return line[:-2] if line.endswith(b'\r\n') else line[:-1]


# ---- times
def time(text):
    """Units, or None: hours of two digits or more, which may be missing, two and two digits, a point and three."""
    parts = text.strip(SPACE).split(':')
    if len(parts) == 2:
        parts.insert(0, '00')
    if len(parts) != 3 or parts[2].count('.') != 1:
        return None
    hours, minutes, (seconds, thousandths) = parts[0], parts[1], parts[2].split('.')
    if any(c not in DIGITS for c in hours + minutes + seconds + thousandths):
        return None
    if len(hours) < 2 or [len(minutes), len(seconds), len(thousandths)] != [2, 2, 3]:
        return None
    h, m, s, f = int(hours), int(minutes), int(seconds), int(thousandths)
    return None if h > 9999 or m > 59 or s > 59 else ((h * 60 + m) * 60 + s) * U + f


def written(units):
    return lib.srt_time(units, '.').encode()


# ---- one caption
def moved(start, end, t, rows):
    """Written start and end, whether a time was cut, whether a part was lost (warning 4); None for a dropped one."""
    a, b = floor(Fraction(start * t, U)), floor(Fraction(end * t, U))
    for k, (_, _, source, _, output, length) in enumerate(rows):
        if length > 0 and a < source + length and b > source:
            first, last = max(a, source), min(b, source + length)
            later = [x for x in rows[k + 1:] if x[5] > 0 and x[2] < b and x[2] + x[5] > a]
            shift = output - source
            return floor(Fraction((first + shift) * U, t)), ceil(Fraction((last + shift) * U, t)), (first, last) != (a, b), last < b and later != []
    return None


def block_told(block, first, t, rows):
    """What a block becomes: bytes, warnings, and the place of its count (0 shifted, 1 clipped, 2 dropped) or None; None for 22."""
    timing = [k for k, line in enumerate(block) if b'-->' in bare(line)]
    if not timing:
        return b''.join(block), [], None
    k = timing[0]
    line = block[k]
    left, right = bare(line).decode().split('-->', 1)
    right = right.lstrip(SPACE)
    stop = 0
    while stop < len(right) and right[stop] not in ' \t':
        stop += 1
    start, end = time(left), time(right[:stop])
    if start is None or end is None:
        return None
    to = moved(start, end, t, rows)
    if to is None:
        return b'', [], 2
    new = written(to[0]) + b' --> ' + written(to[1]) + right[stop:].encode() + line[len(bare(line)):]
    inner = any(bare(l)[i:i + 1] == b'<' and bare(l)[i + 1:i + 2].isdigit() for l in block[k + 1:] for i in range(len(bare(l))))
    warnings = [(4, first + k)] * to[3] + [(5, first + k)] * inner
    return b''.join(block[:k]) + new + b''.join(block[k + 1:]), warnings, int(to[2])


# ---- a whole text
class Reader:
    """What was written and told of a text so far. rows: six numbers a segment."""

    def __init__(self, t, rows):
        self.t, self.rows, self.out, self.warnings, self.counts, self.block = t, rows, b'', [], [0, 0, 0, 0], []

    def closed(self, next_line):
        """The end of a block; False where a time can't be read."""
        told = block_told(self.block, next_line - len(self.block), self.t, self.rows)
        if told is None:
            return False
        self.out, self.block = self.out + told[0], []
        self.warnings.extend(told[1])
        if told[2] is not None:
            self.counts[told[2]] += 1
        return True

    def line(self, n, line, words):
        """A line behind the first: its number, or 0."""
        if words:
            self.block.append(line)
            return 21 if len(b''.join(self.block)) > 4096 else 0
        if not self.closed(n):
            return 22
        self.out += line
        return 0

    def read(self, text, finished):
        """The number of a text."""
        mark = BOM if text.startswith(BOM) else b''
        lines = lines_of(text[len(mark):])
        for n, (line, ended) in enumerate(lines, 1):
            if len(line) + (len(mark) if n == 1 else 0) > 4096:
                return 19
            if not ended and not finished:
                return 0
            try:
                words = bare(line).decode()
            except UnicodeDecodeError:
                return 20
            if n == 1 and words != 'WEBVTT' and words[:7] not in ('WEBVTT ', 'WEBVTT\t'):
                return 24
            if n == 1:
                self.out += mark + line
                continue
            number = self.line(n, line, words)
            if number:
                return number
        if finished and not lines:
            return 24
        return 0 if not finished or self.closed(len(lines) + 1) else 22


def retime_vtt(text, t, rows, finished=True):
    """The plain reader: number, output, warnings, and the counts shifted, clipped, dropped and passed.
    Not finished, a rest behind the last LF is only tested for 19, and an open block is left out."""
    reader = Reader(t, rows)
    n = reader.read(text, finished)
    return n, reader.out, reader.warnings, tuple(reader.counts)


# ---- answers in the form of `replay`
def rows_in(x):
    """The segments of a given map."""
    w = struct.unpack('<%dQ' % (len(x) // 8), x[:len(x) // 8 * 8])
    return [w[i:i + 6] for i in range(0, len(w), 6)]


def answer_of(text, t, rows):
    """The answer to a text through given segments."""
    number, out, warnings, counts = retime_vtt(text, t, rows)
    if number:
        return b'refused %d\n' % number
    return b'retimed %d %d %d %d\n' % counts + b''.join(b'warning %d %d\n' % w for w in warnings) + b'output %d\n' % len(out) + out + b'\n'


def map_case(case):
    """The case of op 2 that asks for the map of a case of op 3, a blank list as Trim(0,n-1)."""
    head, x, y, _ = lib.parts(case)
    return lib.asked(lib.case(2, struct.unpack('<I', head[4:8])[0], c=struct.unpack('<I', head[12:16])[0], x=x, y=y))


def told(case, made, number):
    """The answer to a case of kind 2. made: the oracle's answer to `map_case`, for op 3; number: what op 5 is refused by, or 0."""
    head, x, _, text = lib.parts(case)
    if head[0] == 5:
        return b'refused %d\n' % number if number else answer_of(text, struct.unpack('<I', head[4:8])[0], rows_in(x))
    return through(made, text)


def through(made, text):
    """The same through a map as the oracle prints it: `timescale T` and a line of six numbers a segment, or `refused N`."""
    lines = made.split(b'\n')
    if not lines[0].startswith(b'timescale'):
        return lines[0] + b'\n'
    return answer_of(text, int(lines[0].split()[1]), [tuple(map(int, l.split())) for l in lines[1:] if l])


# ---- cases: document 01's map (T 30000; in milliseconds 0 to 100.1 and 200.2 to 333.67 are kept). Each: name, text, number, out, warnings, counts.
T01 = 30000
MAP01 = [(0, 3, 0, 3, 0, 3003), (6, 10, 6006, 4, 3003, 4004)]
H = b"WEBVTT\n\n"
IN = b"00:00.210 --> 00:00.250"           # shifted
OUT = b"00:00:00.109 --> 00:00:00.150"
CLIP = b"00:00.050 --> 00:00.250"         # clipped, warning 4
CLIPPED = b"00:00:00.050 --> 00:00:00.101"
GONE = b"00:00.120 --> 00:00.200"         # dropped
NONE = (0, 0, 0, 0)
ONE = (1, 0, 0, 0)
NBSP = "\u00a0".encode()
CASES = [
    # the first line
    ("empty text", b"", 24, b"", [], NONE),
    ("BOM alone", BOM, 24, b"", [], NONE),
    ("part of a BOM is a last line", b"\xef\xbb", 20, b"", [], NONE),
    ("header alone, no terminator", b"WEBVTT", 0, b"WEBVTT", [], NONE),
    ("BOM and header", BOM + b"WEBVTT\r\n", 0, BOM + b"WEBVTT\r\n", [], NONE),
    ("header goes on with a tab and an arrow", b"WEBVTT\t00:60.000 --> x\n", 0, b"WEBVTT\t00:60.000 --> x\n", [], NONE),
    ("header goes on with a space", b"WEBVTT - A play\n\n" + IN + b"\n", 0, b"WEBVTT - A play\n\n" + OUT + b"\n", [], ONE),
    ("header goes on with another byte", b"WEBVTT-\n\n", 24, b"", [], NONE),
    ("lone CR behind the word is text", b"WEBVTT\rx\n", 24, b"", [], NONE),
    ("CR at the end of the text is no terminator", b"WEBVTT\r", 24, b"", [], NONE),
    ("CR CR LF: the first CR is text", b"WEBVTT\r\r\n", 24, b"", [], NONE),
    ("small letters", b"webvtt\n", 24, b"", [], NONE),
    ("empty first line", b"\nWEBVTT\n", 24, b"", [], NONE),
    ("BOM is not written back with 24", BOM + b"WEBVT\n", 24, b"", [], NONE),
    ("two BOMs", BOM + BOM + b"WEBVTT\n", 24, b"", [], NONE),
    ("20 before 24", b"x\xff\n", 20, b"", [], NONE),
    ("19 before 20 and 24", b"\xff" * 4096 + b"\n", 19, b"", [], NONE),
    ("header of 4,096 bytes with its LF", b"WEBVTT " + b"x" * 4088 + b"\n", 0, b"WEBVTT " + b"x" * 4088 + b"\n", [], NONE),
    ("header of 4,094 bytes behind a BOM", BOM + b"WEBVTT " + b"x" * 4086 + b"\n", 19, b"", [], NONE),
    ("no blank line behind the header", b"WEBVTT\n" + IN + b"\n", 0, b"WEBVTT\n" + OUT + b"\n", [], ONE),
    # blank lines
    ("a line of a space is not blank", H + IN + b"\na\n \n00:99.000 --> b\n", 0, H + OUT + b"\na\n \n00:99.000 --> b\n", [], ONE),
    ("CR LF is blank, CR CR LF is not", H + IN + b"\r\n\r\r\n\r\nb\r\n", 0, H + OUT + b"\r\n\r\r\n\r\nb\r\n", [], ONE),
    ("a last CR is a line of a block", H + b"\r", 0, H + b"\r", [], NONE),
    ("dropped keeps the blank lines", H + b"id\n" + GONE + b"\nx\n\n\nz", 0, H + b"\n\nz", [], (0, 0, 1, 0)),
    # times
    ("no hours, hours of two and of six digits", H + b"00:00.210 --> 00:00:00.250\n\n000000:00:00.210 --> 00:00.250", 0, H + OUT + b"\n\n" + OUT, [], (2, 0, 0, 0)),
    ("hours of one digit", H + b"0:00:00.210 --> 00:00.250\n", 22, H, [], NONE),
    ("plus sign", H + b"+0:00.210 --> 00:00.250\n", 22, H, [], NONE),
    ("comma", H + b"00:00,210 --> 00:00.250\n", 22, H, [], NONE),
    ("fraction of two digits", H + b"00:00.21 --> 00:00.250\n", 22, H, [], NONE),
    ("fraction of four digits", H + b"00:00.2100 --> 00:00.250\n", 22, H, [], NONE),
    ("minutes of one digit", H + b"0:00.210 --> 00:00.250\n", 22, H, [], NONE),
    ("minutes above 59", H + b"60:00.000 --> 60:00.250\n", 22, H, [], NONE),
    ("seconds above 59", H + b"00:60.000 --> 00:60.250\n", 22, H, [], NONE),
    ("hours 9,999 are read", H + b"9999:59:59.999 --> 9999:59:59.999\n", 0, H, [], (0, 0, 1, 0)),
    ("hours 10,000", H + b"10000:00:00.000 --> 10000:00:00.000\n", 22, H, [], NONE),
    ("three colons", H + b"00:00:00:00.210 --> 00:00.250\n", 22, H, [], NONE),
    ("no end", H + b"00:00.210 -->\n", 22, H, [], NONE),
    ("trimmed by White_Space", H + NBSP + b"00:00.210" + NBSP + b"-->" + "\u3000".encode() + b"00:00.250" + NBSP + b" a\n", 0, H + OUT + b" a\n", [], ONE),
    # the timing line
    ("settings are kept with their space", H + IN + b" align:start position:10%\nx\n", 0, H + OUT + b" align:start position:10%\nx\n", [], ONE),
    ("settings behind a tab", H + IN + b"\t line:0 \r\n", 0, H + OUT + b"\t line:0 \r\n", [], ONE),
    ("end stops at a space or tab only", H + IN + NBSP + b"align:start\n", 22, H, [], NONE),
    ("CR behind the end belongs to it and is trimmed", H + IN + b"\r\r\nx\n", 0, H + OUT + b"\r\nx\n", [], ONE),
    ("CR behind a space is kept", H + IN + b" \r\r\nx\n", 0, H + OUT + b" \r\r\nx\n", [], ONE),
    ("no spaces about the arrow", H + b"00:00.210-->00:00.250\n", 0, H + OUT + b"\n", [], ONE),
    ("an identifier with an arrow is the timing line", H + b"a --> b\n" + IN + b"\n", 22, H, [], NONE),
    ("a second arrow below stays", H + IN + b"\na --> b\n", 0, H + OUT + b"\na --> b\n", [], ONE),
    ("NOTE, STYLE, REGION and bare identifiers stay, uncounted", H + b"NOTE x\n\nSTYLE\n::cue { color: red }\n\nREGION\nid:a\n\n7\n\n" + IN + b"\n", 0,
     H + b"NOTE x\n\nSTYLE\n::cue { color: red }\n\nREGION\nid:a\n\n7\n\n" + OUT + b"\n", [], ONE),
    # warnings
    ("4 then 5, at the timing line", H + b"id\n" + CLIP + b"\n<00:00:00.060>a<00:00:00.070>b\n", 0, H + b"id\n" + CLIPPED + b"\n<00:00:00.060>a<00:00:00.070>b\n", [(4, 4), (5, 4)], (0, 1, 0, 0)),
    ("5 for a shifted cue", H + IN + b"\nI <3 you\n", 0, H + OUT + b"\nI <3 you\n", [(5, 3)], ONE),
    ("no 5 for a dropped cue", H + GONE + b"\n<1\n", 0, H, [], (0, 0, 1, 0)),
    ("no 5 on or above the timing line", H + b"<1\n" + IN + b" <2\n< 3<b>4\n", 0, H + b"<1\n" + OUT + b" <2\n< 3<b>4\n", [], ONE),
    ("no 5 over a line's end", H + IN + b"\na<\n1\n", 0, H + OUT + b"\na<\n1\n", [], ONE),
    ("no 5 for a digit that is not ASCII", H + IN + "\n<\u0663\n".encode(), 0, H + OUT + "\n<\u0663\n".encode(), [], ONE),
    ("5 in the second line below, none in another block", H + IN + b"\na\n<<9\n\n<1\n", 0, H + OUT + b"\na\n<<9\n\n<1\n", [(5, 3)], ONE),
    # faults behind the first line
    ("22 leaves its block out and keeps those before", BOM + H + IN + b"\n\n" + CLIP + b"\n\nx\n00:00.2 --> 00:01.000\ny\n\nz", 22, BOM + H + OUT + b"\n\n" + CLIPPED + b"\n\n", [(4, 5)], (1, 1, 0, 0)),
    ("20 in a block leaves the block out", H + IN + b"\n\xff\n", 20, H, [], NONE),
    ("20 of the blank line's follower", H + IN + b"\n\n\xff\n", 20, H + OUT + b"\n\n", [], ONE),
    ("19 in a block comes before its 22", H + b"x --> y\n" + b"z" * 4097 + b"\n", 19, H, [], NONE),
    ("21", H + b"00:00.210 --> 00:00.250\n" + b"z" * 4071 + b"\n" + b"y\n", 21, H, [], NONE),
    ("a block of 4,096 bytes", H + IN + b"\n" + b"z" * 4071 + b"\n\n", 0, H + OUT + b"\n" + b"z" * 4071 + b"\n\n", [], ONE),
]
UNFINISHED = [
    ("nothing yet", b"", 0, b"", [], NONE),
    ("BOM alone", BOM, 0, b"", [], NONE),
    ("a rest that is no header is not refused before its LF", b"XYZ", 0, b"", [], NONE),
    ("nor one that is not UTF-8", b"\xff", 0, b"", [], NONE),
    ("a rest of 4,097 bytes", b"x" * 4097, 19, b"", [], NONE),
    ("a rest of 4,094 bytes behind a BOM", BOM + b"x" * 4094, 19, b"", [], NONE),
    ("an open block is left out", BOM + H + IN + b"\n", 0, BOM + H, [], NONE),
]


def by_hand():
    """Ends the tool where the model answers otherwise than was worked out by hand."""
    for finished, rows in ((True, CASES), (False, UNFINISHED)):
        for name, text, *worked in rows:
            got = retime_vtt(text, T01, MAP01, finished)
            if got != tuple(worked):
                lib.stop(f'the model of WebVTT: {name}: {got}')
