"""tools/install into a folder."""
import os
import shutil
import subprocess
import tempfile

import lib

PLAIN = ('lib/libretimer.a', 'lib/pkgconfig/retimer.pc', 'include/retimer.h', 'share/man/man1/bobbincrag.1', 'share/bash-completion/completions/bobbincrag',
         *('share/doc/bobbincrag/' + page for page in ('NOTICE', 'GUIDE.md', 'SHEET.md', 'NUMBERS.md')))
FILES = {'bin/bobbincrag': 0o755, **{f: 0o644 for f in PLAIN}}
CHAIN = os.path.join(lib.root, 'tools/compare/chain.c')


def play(kind):
    """Sheet, list, captions and what is expected of them."""
    return [os.path.join(lib.root, 'examples/play', kind, f) for f in ('sheet.bin', 'trim.txt', 'subs.' + kind, 'expected')]


def files(prefix):
    """Each file is there with its rights; installing twice is no fault."""
    for _ in range(2):
        got = subprocess.run(lib.tool('install', prefix), capture_output=True, text=True)
        if got.returncode or got.stdout.splitlines() != [os.path.join(prefix, f) for f in FILES]:
            return f'status {got.returncode}: {got.stdout}{got.stderr}'
    paths = (os.path.join(at, f) for at, _, names in os.walk(prefix) for f in names)
    there = {os.path.relpath(path, prefix): os.stat(path).st_mode & 0o777 for path in paths}
    return '' if there == FILES else f'{there}'


def command(prefix):
    """The installed command retimes the examples."""
    for kind in lib.KINDS:
        sheet, trims, subs, expected = play(kind)
        words = ['retime', '--sheet', sheet, '--list', trims, '--subs', subs]
        got = subprocess.run([os.path.join(prefix, 'bin/bobbincrag'), *words], capture_output=True)
        with open(expected, 'rb') as f:
            if got.returncode or got.stdout != f.read():
                return f'examples/play/{kind} by the installed command: status {got.returncode}, {got.stderr.decode()}'
    return ''


def library(prefix):
    """A C program compiles and links with header and library, by pkg-config too where that is installed; it ends the tool where it fails."""
    if not shutil.which('cc'):
        return ''
    program = os.path.join(prefix, 'chain')
    ways = [f'-I "{prefix}/include" -L "{prefix}/lib" -lretimer']
    if shutil.which('pkg-config'):
        env = {**os.environ, 'PKG_CONFIG_PATH': os.path.join(prefix, 'lib/pkgconfig')}
        ways.append(lib.output(['pkg-config', '--cflags', '--libs', 'retimer'], text=True, env=env).strip())
    for flags in ways:
        lib.run(['sh', '-c', f'cc -std=c99 "$0" {flags} -o "$1"', CHAIN, program])
        for number, kind in enumerate(lib.KINDS):
            lib.run([program, str(number), *play(kind), '1000'], stdout=subprocess.DEVNULL)
    return ''


def pages(prefix):
    """The page is a page, the completions are bash."""
    if shutil.which('bash'):
        lib.run(['bash', '-n', os.path.join(prefix, 'share/bash-completion/completions/bobbincrag')])
    with open(os.path.join(prefix, 'share/man/man1/bobbincrag.1')) as f:
        return '' if f.read().startswith('.TH BOBBINCRAG 1') else 'the manual page is none'


def no_folder(folder):
    """A folder that can't be made is a sentence with status 1, and nothing is left beside."""
    at = os.path.join(folder, 'a file')
    with open(at, 'w'):
        got = subprocess.run(lib.tool('install', at), capture_output=True, text=True)
    if (got.returncode, got.stdout, got.stderr) != (1, '', f'tools/install: cannot write {at}/bin/bobbincrag\n'):
        return f'a file in the place of the folder: status {got.returncode}, {got.stdout}{got.stderr}'
    return '' if sorted(os.listdir(folder)) == ['a file', 'a house'] else f'left beside: {os.listdir(folder)}'


def installed():
    with tempfile.TemporaryDirectory() as folder:
        prefix = os.path.join(folder, 'a house')
        return files(prefix) or command(prefix) or library(prefix) or pages(prefix) or no_folder(folder)
