"""tools/bobbincrag in a checkout where nothing is built, with an `rt` and a `cargo` that only write down their calls."""
import os
import re
import shutil
import subprocess
import tempfile

import lib

FOLDERS = ('tools/lib', 'crates/base/src', 'crates/c_api_c', 'bindings/rust/src/bin/bobbincrag', 'bin')
FILES = ('tools/bobbincrag', 'tools/lib/build.sh', 'crates.txt', 'bindings/rust/Cargo.toml', 'bindings/rust/src/bin/bobbincrag/commands.rs',
         'crates/base/src/lib.rt')
PROGRAM = 'target/bindings/release/bobbincrag'
FAKES = {
    'rt': 'for k in $(seq 23); do echo "library x$k: modules loaded=1 checked=1"; echo "logic=proved functions=$k"; done; '
          'mkdir -p out; echo x >out/libc_api_c.a',
    'cargo': f'mkdir -p $(dirname {PROGRAM}); printf "#!/bin/sh\\necho ran \\$*\\n" >{PROGRAM}; chmod +x {PROGRAM}',
}


class Checkout:
    """A folder with the files that tools/bobbincrag reads."""

    def __init__(self, folder):
        self.folder = folder
        for name in FOLDERS:
            os.makedirs(self.at(name))
        for name in FILES:
            shutil.copy(os.path.join(lib.root, name), self.at(name))
        for name, does in FAKES.items():
            with open(self.at('bin', name), 'w') as f:
                f.write(f'#!/bin/sh\necho {name} >>{self.at("calls")}\n{does}\n')
            os.chmod(self.at('bin', name), 0o755)

    def at(self, *names):
        return os.path.join(self.folder, *names)

    def asked(self, *words):
        """Status, standard output, standard error, and the calls of `rt` and `cargo`."""
        open(self.at('calls'), 'w').close()
        env = {**os.environ, 'PATH': self.at('bin') + ':/usr/bin:/bin'}
        got = subprocess.run([self.at('tools/bobbincrag'), *words], capture_output=True, text=True, env=env, cwd=self.folder)
        with open(self.at('calls')) as f:
            return got.returncode, got.stdout, got.stderr, f.read().split()


def unbuilt(here):
    """Help and version prove nothing."""
    for words in (['--help'], ['help', 'retime'], ['retime', '--help'], ['--version']):
        status, out, _, calls = got = here.asked(*words)
        if status or calls or 'not built yet' not in out:
            return f'{words}, where nothing is built: {got}'
        if '--help' in words and '\n  retime       retime captions through a cut\n' not in out:
            return f'{words}: {out}'
    return ''


def first_call(here):
    """The first call counts crates; it is not repeated."""
    status, out, err, calls = got = here.asked('map', 'x')
    counts = re.findall(r'^tools/bobbincrag: (\d+) of (\d+) crates proved, \d+ s$', err, re.M)
    if status or out != 'ran map x\n' or calls != ['rt', 'cargo'] or 'minutes' not in err:
        return f'the first call: {got}'
    if [int(n) for n, _ in counts] != [10, 20] or int(counts[0][1]) < 40:
        return f'the count of crates: {err}'
    return 'a second call builds again' if here.asked('map')[3] or here.asked('--version')[1] != 'ran --version\n' else ''


def changes(here):
    """A file that was touched is not proved again; one that was changed is."""
    source = here.at('crates/base/src/lib.rt')
    os.utime(source, (os.stat(source).st_mtime + 1e5,) * 2)
    if here.asked('map')[3]:
        return 'a file that was touched is proved again'
    with open(source, 'a') as f:
        f.write('\n')
    return '' if here.asked('map')[3] == ['rt', 'cargo'] else 'a file that was changed is not proved again'


def first_contact():
    with tempfile.TemporaryDirectory() as folder:
        here = Checkout(folder)
        return unbuilt(here) or first_call(here) or changes(here)
