"""The answers of every tool to words that it does not know."""
import os
import subprocess

import lib


def executables():
    """The tools that can be run, by their paths below tools/."""
    base = os.path.join(lib.root, 'tools')
    found = (os.path.relpath(os.path.join(at, f), base) for at, _, files in os.walk(base) for f in files)
    return sorted(f for f in found if os.access(os.path.join(base, f), os.X_OK))


def usages():
    """No tool answers words that it does not know by a traceback."""
    for name in executables():
        got = subprocess.run(lib.tool(name, '--no-such-word'), capture_output=True, text=True)
        if got.returncode != 2 or not got.stderr.startswith('usage: tools/' + name):
            return f'tools/{name}: {got.stderr.strip()[-200:]}'
    return ''
