"""What a comparison counts, and the smallest case that differs."""
import collections
import struct

import lib

AT_ONCE = 10000
FATES = ('shifted', 'clipped', 'dropped', 'passed')


def in_a_word(told):
    """An answer in a word or two, for the table."""
    first, *more = told.split(b'\n', 1)[0].decode().split()
    return f'{first} {more[0]}' if more and (first == 'refused' or more[0].isalpha()) else first


def counts(told):
    """How many captions of a retimed text have each fate."""
    return dict(zip(FATES, map(int, told.split(b'\n', 1)[0].split()[1:5])))


def count_captions(seen, name, told):
    """Adds the fates and the warnings of a retimed text."""
    for fate, n in counts(told).items():
        seen[name + fate] += n
    for line in told.split(b'\noutput ', 1)[0].split(b'\n')[1:]:
        seen[name + 'warning ' + line.split()[1].decode()] += 1


def numbers(part):
    """Bytes as the numbers of 64 bits that they are, where they are."""
    return list(struct.unpack('<%dQ' % (len(part) // 8), part)) if part and len(part) % 8 == 0 else part[:3000]


def shown(case):
    """A case as it can be read: its op and words, the map or text X, then Y and Z."""
    if not isinstance(case, bytes) or len(case) < 32:
        return repr(case)[:3000]
    head, x, y, z = lib.parts(case)
    op, *given = struct.unpack('<5I', head[:20])
    return f'op {op} {given}\n  X {x[:3000] if op == 7 else numbers(x)}\n  Y {y[:3000] if op == 3 else numbers(y)}\n  Z {z[:3000]}'


def size(case):
    return len(case if isinstance(case, bytes) else repr(case))


class Tally:
    """Cases that were compared, by name; `asked` gives the answers to a list of cases."""

    def __init__(self, asked):
        self.asked, self.seen, self.wrong, self.smallest = asked, collections.Counter(), 0, None

    def count(self, what, many=1):
        self.seen[what] += int(many)

    def expect(self, what, case, want, got, by='model'):
        """One case; it is shown where what is told is not what is wanted."""
        self.seen[what] += 1
        if want != got:
            self.differ(what, case, want, got, by)

    def differ(self, what, case, want, got, by='model'):
        self.wrong += 1
        if self.smallest is None or size(case) < size(self.smallest[1]):
            self.smallest = (what, case, want, got, by)

    def hold(self, what, made, by='model'):
        """Cases, each with the answer that is wanted."""
        for at in range(0, len(made), AT_ONCE):
            part = made[at:at + AT_ONCE]
            for (case, want), got in zip(part, self.asked([case for case, _ in part])):
                self.expect(what, case, want, got, by)
                self.count(f'{what}: {in_a_word(want)}')

    def must_see(self, names):
        """Ends the tool where one of these was never seen: the cases then show nothing."""
        silent = [name for name in names if not self.seen[name]]
        if silent:
            lib.stop('nothing seen: ' + '; '.join(silent))

    def told(self):
        """Prints the counts, and the smallest case that differs."""
        for name in sorted(self.seen):
            print('%9d %s' % (self.seen[name], name))
        cases = sum(n for name, n in self.seen.items() if ': ' not in name)
        print(f'{cases} cases, {self.wrong} differences')
        if self.smallest:
            what, case, want, got, by = self.smallest
            print(f'the smallest that differs: {what}, {shown(case)}\n  by the {by}: {want}\n  here: {got}')
