"""`retime --delay` beside captions that were moved before."""
import os
import re
import tempfile

from lib import KINDS
from tests.command import holds, play, run


def moved(text, kind, thousandths):
    """A text whose times are all later by so much, by this tool's own arithmetic."""
    units = 100 if kind == 'ass' else 1000
    clock = r'\d+:\d\d:\d\d\.\d\d(?=,)' if kind == 'ass' else r'(?:\d+:)?\d\d:\d\d[.,]\d{3}(?= -->)|(?<=--> )(?:\d+:)?\d\d:\d\d[.,]\d{3}'

    def later(found):
        h, m, s, f = map(int, re.split('[:.,]', found.group() if found.group().count(':') == 2 else '0:' + found.group()))
        n = ((h * 60 + m) * 60 + s) * units + f + thousandths * units // 1000
        mark, s = found.group()[-3 if kind == 'ass' else -4], n // units
        hours, part = (s // 3600, f'{n % units:02}') if kind == 'ass' else (f'{s // 3600:02}', f'{n % units:03}')
        return f'{hours}:{s // 60 % 60:02}:{s % 60:02}{mark}{part}'

    return '\n'.join(re.sub(clock, later, line) if kind != 'ass' or line.startswith(('Dialogue:', 'Comment:')) else line for line in text.split('\n'))


def delays():
    """`retime --delay` on the example play beside the play whose captions were moved before."""
    faults = []
    with tempfile.TemporaryDirectory() as folder:
        for kind in KINDS:
            cut, subs = play(kind)
            with open(subs, encoding='utf-8', newline='') as f:
                text = f.read()
            for delay in (10, 500, 5550, 20000):
                there = os.path.join(folder, 'moved.' + kind)
                with open(there, 'w', encoding='utf-8', newline='') as f:
                    f.write(moved(text, kind, delay))
                want, got = run('retime', *cut, '--subs', there), run('retime', *cut, '--subs', subs, '--delay', f'+{delay / 1000}')
                counts = [r.stderr.decode().splitlines()[-1].split(': ')[-1] for r in (want, got)]
                if want.returncode or got.returncode or want.stdout != got.stdout or counts[0] != counts[1]:
                    faults.append(f'{kind}, {delay}: {counts}')
    holds('captions delayed, beside captions that were moved', 12, faults)
