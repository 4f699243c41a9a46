"""Parts of tools/test-command, and what they share: the command's runs, the options for a cut, what is wrong so far."""
import os
import re
import subprocess

import lib

wrong = []


def run(*words, **how):
    return subprocess.run([lib.COMMAND, *map(str, words)], capture_output=True, **how)


def holds(what, cases, faults):
    print(f'{what}: {cases} cases, {len(faults)} differ', flush=True)
    for fault in faults[:5]:
        print(f'  {fault}')
    wrong.extend(faults)


def cut_of(folder):
    """The options for a folder's cut; a missing list is left out. None without a sheet, or with one that the small programs alone refuse."""
    sheet, trims = os.path.join(folder, 'sheet.bin'), os.path.join(folder, 'trim.txt')
    if not os.path.exists(sheet) or os.path.getsize(sheet) > 65536:
        return None
    return ['--sheet', sheet] + (['--list', trims] if os.path.exists(trims) else [])


def play(kind):
    """The options for the cut of the example play, and its captions of a kind."""
    folder = os.path.join(lib.root, 'examples/play', kind)
    return cut_of(folder), os.path.join(folder, 'subs.' + kind)


def as_refused(got, want):
    """Whether an answer is the stored refusal."""
    number = want.split()[1].decode()
    return got.returncode == 1 and not got.stdout and re.search(f'^refused {number}: '.encode(), got.stderr, re.M) is not None
