"""What README.md, docs/GUIDE.md and docs/SHEET.md show behind `$ ..` is what the line prints."""
import os
import re
import shutil
import subprocess
import tempfile

import lib

PAGES = ('README.md', 'docs/GUIDE.md', 'docs/SHEET.md')


def lines(page):
    """The lines `    $ ..` of a page in its order, each with the indented lines behind it, up to the next `$` or a blank line.
    Without those of the section about films where ffmpeg is not installed."""
    with open(os.path.join(lib.root, page), encoding='utf-8') as f:
        text = f.read()
    if not (shutil.which('ffmpeg') and shutil.which('ffprobe')):
        text = re.sub(r'^## From a film.*?(?=^## )', '', text, flags=re.M | re.S)
    found = re.findall(r'^    \$ (.*)\n((?:    (?!\$ ).*\n)*)', text, re.M)
    return [(line, ''.join(l[4:] + '\n' for l in text.splitlines())) for line, text in found]


def shown():
    """Standard output and standard error together, as on a terminal.
    The lines of a page run one after the other in a folder that has links to the repository's folders, so that what they write does not stay here.
    `bobbincrag` is the built command."""
    lib.run(lib.tool('bobbincrag', '--build'), stdout=subprocess.DEVNULL)
    env = {**os.environ, 'PATH': os.path.dirname(lib.COMMAND) + ':' + os.environ['PATH']}
    count = 0
    for page in PAGES:
        with tempfile.TemporaryDirectory() as folder:
            os.mkdir(os.path.join(folder, 'target'))
            for name in ('examples', 'crates', 'docs', 'tools'):
                os.symlink(os.path.join(lib.root, name), os.path.join(folder, name))
            for line, text in lines(page):
                got = subprocess.run(['sh', '-c', line], cwd=folder, env=env, stdout=subprocess.PIPE, stderr=subprocess.STDOUT)
                told = got.stdout.decode().replace('\r\n', '\n')
                if told != text:
                    return f'{page}: {line}\n{told}'
                count += 'bobbincrag' in line
    return '' if count else 'none is shown'
