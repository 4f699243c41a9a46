"""A stream of cases, and a program's answers to it.
A case is a head of eight 32-bit words (op a b c d lenX lenY lenZ), then the bytes X, Y, Z."""
import struct
import sys
import tempfile
import subprocess

from .arguments import stop
from .programs import output, run


def case(op, a=0, b=0, c=0, d=0, x=b'', y=b'', z=b''):
    return struct.pack('<8I', op, a, b, c, d, len(x), len(y), len(z)) + x + y + z


def parts(case):
    """The head and the bytes X, Y, Z."""
    n, m, k = struct.unpack('<3I', case[20:32])
    return case[:32], case[32:32 + n], case[32 + n:32 + n + m], case[32 + n + m:32 + n + m + k]


def cases_in(stream):
    """The cases of a stream."""
    found, at = [], 0
    while at < len(stream):
        size = 32 + sum(struct.unpack_from('<3I', stream, at + 20))
        found.append(stream[at:at + size])
        at += size
    return found


def whole(case):
    """The same case in pieces of 1,024 bytes."""
    return case[:16] + bytes(4) + case[20:]


def flat(rows):
    """The bytes of a map given by source, output and duration of each segment.
    Six numbers a segment; those that no caption looks at tell its place."""
    return b''.join(struct.pack('<6Q', k, k + 1, q, 1, o, d) for k, (q, o, d) in enumerate(rows))


# ---- answers
def each_answer(program, out, count):
    """The answers in a program's output, one for each case."""
    found, at = [], 0
    for k in range(count):
        mark = b'case %d\n' % k
        if not out.startswith(mark, at):
            stop('%s: no answer to case %d of %d' % (program[0], k, count))
        start = end = at + len(mark)
        if out.startswith((b'retimed ', b'output ', b'taken '), start):
            # a text may hold anything, so its length says where it ends
            mark = b'\nheld ' if out.startswith(b'taken ', start) else b'\noutput '
            i = out.index(mark, start - 1) + len(mark)
            j = out.index(b'\n', i)
            end = j + 1 + int(out[i:j])
        i = out.find(b'\ncase %d\n' % (k + 1), end - 1)
        at = i + 1 if i >= 0 else len(out)
        found.append(out[start:at])
    return found


def from_file(ask, program, stream):
    """What a program is asked with the stream in a file."""
    with tempfile.NamedTemporaryFile() as f:
        f.write(b''.join(stream))
        f.flush()
        f.seek(0)
        return ask(program, stdin=f)


def replayed(program, stream):
    """A program's answers to a list of cases."""
    return each_answer(program, from_file(output, program, stream), len(stream))


def answers(program, **how):
    """The oracle's output, and the captions whose warning 4 depends on the rule (document 01's or request 2.7's).
    The oracle tells these in a line on standard error; other lines there are passed on."""
    done, differ = run(program, stdout=subprocess.PIPE, stderr=subprocess.PIPE, **how), 0
    for line in done.stderr.splitlines(keepends=True):
        if line.startswith(b'warning 4 differs: '):
            differ += int(line.split()[3])
        else:
            sys.stderr.buffer.write(line)
    return done.stdout, differ


def told_by(oracle, stream):
    """The oracle's answers to a list of cases, and the captions whose warning 4 depends on the rule."""
    out, depend = from_file(answers, oracle, stream)
    return each_answer(oracle, out, len(stream)), depend


def answer(program, one):
    """The oracle's answer to one case, without the line `case 0`."""
    return answers(program, input=one)[0].split(b'\n', 1)[1]


def text_of(told):
    """The bytes of the retimed text in an answer `retimed ..`."""
    at = told.index(b'\noutput ') + 1
    size, rest = told[at:].split(b'\n', 1)
    return rest[:int(size.split()[1])]
