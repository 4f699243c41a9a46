"""Random JSON texts of segment maps: in any form that request 2.1 takes, and damaged."""
from models import map_json as model

NAMES = model.TOP + [n for n, _ in model.SEGMENT] + ['x', '', 'é', 'Input', 'segment']
POINTS = [0, 1, 8, 9, 10, 12, 13, 31, 32, 34, 47, 92, 127, 128, 0xE9, 0x7FF, 0x800, 0xD7FF, 0xE000, 0xFFFF, 0x10000, 0x10FFFF, 65, 97]


def edge(r, most):
    return r.choice([v for v in (0, 1, 9, 10, 99, 100, most - 1, most, r.randrange(most + 1), r.randrange(1000)) if 0 <= v <= most])


def some_map(r, most=6):
    found = []
    for _ in range(r.choice([0, 1, 1, 2, 3, r.randrange(most)])):
        d = edge(r, model.MOST_TICKS)
        q, o = edge(r, model.MOST_TICKS - d), edge(r, model.MOST_TICKS - d)
        x = [edge(r, model.SHORT), edge(r, model.SHORT), q, edge(r, model.SHORT), o, d]
        if r.random() < 0.02:
            x[r.choice([2, 4, 5])] = r.choice([2 ** 53, 2 ** 53 + 1, 2 ** 64 - 1])
        found.append(tuple(x))
    return found


def some_path(r):
    if r.random() < 0.02:
        return 'a' * r.choice([1023, 1024, 1025]) + r.choice(['', 'é'])
    return ''.join(chr(r.choice(POINTS)) for _ in range(r.randrange(12)))


def spaces(r):
    return ''.join(r.choice(' \t\n\r') for _ in range(r.randrange(3))) if r.random() < 0.3 else ''


def said(r, s):
    """A string, with escapes here and there."""
    found = []
    for c in s:
        u = ord(c)
        short = {'"': '\\"', '\\': '\\\\', '/': '\\/', '\b': '\\b', '\f': '\\f', '\n': '\\n', '\r': '\\r', '\t': '\\t'}.get(c)
        units = [u] if u < 0x10000 else [0xD800 + (u - 0x10000) // 1024, 0xDC00 + (u - 0x10000) % 1024]
        long = ''.join(r.choice(['\\u%04x', '\\u%04X']) % k for k in units)
        ways = [w for w in (short, long) if w] + ([] if u < 32 or c in '"\\' else [c] * 12)
        found.append(r.choice(ways))
    return '"' + ''.join(found) + '"'


def number(r, v):
    if r.random() < 0.01:
        return r.choice(['0%d', '-%d', '+%d', '%d.0', '%de0', '"%d"', '%d5', ' %d', '-0', '%d.', '1e%d']) .replace('%d', str(v))
    return str(v)


def scalar(r):
    return r.choice(['0', '-0', '1.5', '-1e9', '1E+2', 'true', 'false', 'null', said(r, some_path(r)), '12345678901234567890123', '01', '.5', '1.', 'NaN', '"\\ud800"', '-'] if r.random() < 0.2
                    else ['0', '-0', '1.5', '-1e9', '1E+2', 'true', 'false', 'null', said(r, 'é/')])


def value(r, deep):
    if deep == 0 or r.random() < 0.3:
        return scalar(r)
    if r.random() < 0.5:
        return '[' + spaces(r) + ','.join(spaces(r) + value(r, deep - 1) + spaces(r) for _ in range(r.randrange(3))) + ']'
    return '{' + ','.join(spaces(r) + said(r, r.choice(NAMES)) + spaces(r) + ':' + spaces(r) + value(r, deep - 1) + spaces(r) for _ in range(r.randrange(3))) + spaces(r) + '}'


def chain(r, n):
    """Exactly n arrays or objects one inside the other."""
    pairs = [r.choice([('[', ']'), ('{"a":', '}')]) for _ in range(n)]
    return ''.join(o for o, _ in pairs) + '1' + ''.join(c for _, c in reversed(pairs))


def members(r, pairs):
    if r.random() < 0.15:
        for _ in range(r.randrange(1, 3)):
            pairs.append((r.choice(['x', '', 'é', 'Input', 'inputs']), chain(r, r.choice([1, 7, 8, 9])) if r.random() < 0.4 else value(r, r.choice([1, 2, 3]))))
    if r.random() < 0.03:
        pairs.append(r.choice(pairs))
    if r.random() < 0.03:
        pairs.pop(r.randrange(len(pairs)))
    if r.random() < 0.5:
        r.shuffle(pairs)
    return '{' + ','.join(spaces(r) + said(r, n) + spaces(r) + ':' + spaces(r) + v + spaces(r) for n, v in pairs) + '}'


def text(r):
    m = some_map(r)
    T = r.choice([1, 30000, 90000, 10 ** 9, 10 ** 9 if r.random() < 0.9 else r.choice([0, 10 ** 9 + 1, 2 ** 32 - 1])])
    if r.random() < 0.3:
        made = model.write(m, T, edge(r, model.SHORT), edge(r, model.SHORT), some_path(r).encode(), edge(r, model.SHORT))[1] or b'{}'
    else:
        rows = '[' + ','.join(spaces(r) + members(r, [(n, number(r, v)) for (n, _), v in zip(model.SEGMENT, x)]) + spaces(r) for x in m) + ']'
        top = [('video_timescale', number(r, T)), ('frame_rate_num', number(r, edge(r, model.SHORT))), ('frame_rate_den', number(r, edge(r, model.SHORT))), ('input', said(r, some_path(r))),
               ('total_frames', number(r, edge(r, model.SHORT))), ('segments', rows)]
        made = (spaces(r) + members(r, top) + spaces(r)).encode()
    return damaged(r, made) if r.random() < 0.35 else made


def damaged(r, s):
    for _ in range(r.choice([1, 1, 2])):
        i = r.randrange(len(s) + 1)
        s = r.choice([lambda: s[:i] + bytes([r.randrange(256)]) + s[i + 1:], lambda: s[:i] + s[i + 1:], lambda: s[:i] + bytes([r.choice(b'{}[],:"\\0123456789 \n\tue.-+')]) + s[i:], lambda: s[:i],
                      lambda: s[:i] + s[max(0, i - r.randrange(20)):], lambda: s + r.choice([b' ', b'\n', b'x', b'{}', b'\0', b'\xef\xbb\xbf']), lambda: b'\xef\xbb\xbf' + s])()
    return s
