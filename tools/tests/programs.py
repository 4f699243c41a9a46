"""The proved programs `retime` and `why`, run in folders that have their files."""
import os
import shutil
import tempfile

import lib


def told(program, folder):
    """What a program prints in a folder; another status than 0 ends the tool."""
    return lib.output([lib.built(program)], cwd=folder)


def read(path):
    with open(os.path.join(lib.root, path), 'rb') as f:
        return f.read()


def retime():
    """The examples' captions, a refusal, and a folder without captions."""
    for kind in lib.KINDS:
        if told('retime', os.path.join(lib.root, 'examples/play', kind)) != read(f'examples/play/{kind}/expected'):
            return f'examples/play/{kind} is not `expected`'
    with tempfile.TemporaryDirectory() as folder:
        shutil.copy(os.path.join(lib.root, 'examples/play/ass/sheet.bin'), folder)
        for trims, want in ((b'Trim(5,1)', b'refused 4\n'), (b'Trim(1,5)', b'')):
            with open(os.path.join(folder, 'trim.txt'), 'wb') as f:
                f.write(trims)
            if told('retime', folder) != want:
                return f'{trims.decode()}: {told("retime", folder)}'
    return ''


def why():
    """The stored page of `why`, and a refusal."""
    for folder, want in (('crates/why/data', read('crates/why/stdout')), ('crates/why_cases/data/bad_list', b'refused 4\n')):
        if told('why', os.path.join(lib.root, folder)) != want:
            return f'{folder} does not give its page'
    return ''
