"""Programs that a tool runs: proved ones, which are built first, the oracle, and C programs over the library."""
import functools
import importlib.machinery
import importlib.util
import os
import subprocess
import sys

from .arguments import root, said, stop

# requests of document 02 that have landed, as the oracle's program takes them
LANDED = ['2.7', '2.2', '2.4', '2.6', '2.9', '2.5', '2.1']
LIBRARY = os.path.join(root, 'target/staticlib/libc_api.a')
COMMAND = os.path.join(root, 'target/bindings/release/bobbincrag')
CHECKED = ['-Wall', '-Wextra', '-Wpedantic', '-Werror', '-fsanitize=address,undefined', '-fno-sanitize-recover=undefined']


def run(command, **how):
    """A program's run, its output where asked for; another status than 0 ends the tool with a line."""
    try:
        done = subprocess.run(command, **how)
    except OSError as e:
        stop(f'{command[0]}: {e.strerror}')
    if done.returncode:
        if done.stderr:
            sys.stderr.buffer.write(done.stderr)
        stop(f'{" ".join(command)}: exit status {done.returncode}')
    return done


def output(command, **how):
    return run(command, stdout=subprocess.PIPE, **how).stdout


def tool(name, *words):
    """A tool as a command."""
    return [os.path.join(root, 'tools', name), *map(str, words)]


def module(name):
    """A tool whose file has no ending, as a module."""
    loader = importlib.machinery.SourceFileLoader(os.path.basename(name).replace('-', '_'), os.path.join(root, 'tools', name))
    found = importlib.util.module_from_spec(importlib.util.spec_from_loader(loader.name, loader))
    sys.dont_write_bytecode = True
    loader.exec_module(found)
    return found


@functools.cache
def built(program):
    """The path of a proved program; what is missing is proved and built. `rt run` then also runs it, in its crate's folder on an empty input."""
    folder = os.path.join(root, 'crates', program)
    path = os.path.join(folder, 'out', program)
    if not os.path.exists(path):
        said(f'rt run in crates/{program} (proves and builds what is missing)')
    run(['rt', 'run'], cwd=folder, stdin=subprocess.DEVNULL, stdout=subprocess.DEVNULL, stderr=subprocess.DEVNULL)
    return path


def replay():
    """The program that answers cases, or the one that REPLAY names in its place."""
    return [os.environ.get('REPLAY') or built('replay')]


def oracle():
    """The oracle's program as a command. ORACLE names its build script."""
    if not os.environ.get('ORACLE'):
        stop('ORACLE must name the build script of the oracle', 2)
    path = output([os.environ['ORACLE'], os.path.join(root, 'target/oracle')], text=True).split()[-1]
    return [path, *LANDED]


def static_library():
    """The path of the static library; it is not built here."""
    if not os.path.exists(LIBRARY):
        stop('target/staticlib/libc_api.a is not there: tools/bindings builds it', 2)
    return LIBRARY


def compiled(program, sources, *flags):
    """The path of a C99 program over the static library, with sanitizers."""
    path = os.path.join(root, 'target', program)
    include = '-I' + os.path.join(root, 'include')
    run(['cc', '-std=c99', '-g', *CHECKED, *flags, include, *sources, static_library(), '-o', path])
    return path


def c_answers():
    """The program that answers cases by the C functions (bindings/rust/examples/answers.rs)."""
    where = os.path.join(root, 'target/bindings')
    run(['cargo', 'build', '-q', '--release', '--offline', '--example', 'answers', '--target-dir', where], cwd=os.path.join(root, 'bindings/rust'))
    return [os.path.join(where, 'release/examples/answers')]
