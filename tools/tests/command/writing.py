"""Writes that fail: a disk that is full, a folder of someone else's."""
import os
import shutil
import subprocess
import tempfile

import lib
from tests.command import holds, run


def kept_whole(folder, *words, **how):
    """A write that fails: status 1, a sentence, the old file as it was, and nothing left beside it."""
    out = os.path.join(folder, 'out.ass')
    got = run('retime', *words, '-o', out, **how)
    with open(out, 'rb') as f:
        if got.returncode == 1 and got.stderr.startswith(b'cannot write ') and f.read() == b'old' and os.listdir(folder) == ['out.ass']:
            return []
    return [f'{words}: {got}, {os.listdir(folder)}']


def disks():
    if os.geteuid():
        return print('a full disk, a folder of someone else\'s: skipped, not run as root', flush=True)
    play = os.path.join(lib.root, 'examples/play/ass')
    with tempfile.TemporaryDirectory() as base:
        os.chmod(base, 0o755)
        cut = ['--sheet', os.path.join(base, 'sheet.bin'), '--list', os.path.join(base, 'trim.txt'), '--subs', os.path.join(base, 'subs.ass')]
        for name in ('sheet.bin', 'trim.txt', 'subs.ass'):
            shutil.copyfile(os.path.join(play, name), os.path.join(base, name))
        small, theirs = os.path.join(base, 'small'), os.path.join(base, 'theirs')
        for folder in (small, theirs):
            os.mkdir(folder)
        faults = []
        mounted = subprocess.run(['mount', '-t', 'tmpfs', '-o', 'size=4k,mode=755', 'tmpfs', small], capture_output=True).returncode == 0
        try:
            for folder in (small, theirs):
                with open(os.path.join(folder, 'out.ass'), 'wb') as f:
                    f.write(b'old')
            if mounted:
                faults += kept_whole(small, *cut)
            else:
                print('a full disk: skipped, no disk can be made here', flush=True)
            mine = os.path.join(base, 'bobbincrag')
            shutil.copyfile(lib.COMMAND, mine)
            os.chmod(mine, 0o755)
            faults += kept_whole(theirs, *cut, executable=mine, user=65534, group=65534, extra_groups=[])
        finally:
            if mounted:
                subprocess.run(['umount', small])
    holds('a full disk, a folder of someone else\'s', 1 + mounted, faults)
