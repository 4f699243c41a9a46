"""the captions of whole texts by the C function `retimer_cues`
COUNT random texts of each kind, and those worked by hand: the number, the line of the fault, and of each caption its line, what it passes with,
its times and where its words stand. Some calls are lent exactly as many places as are needed, or one fewer, which is refused.
REPLAY names a program that answers op 16 in the place of the C function."""
import functools
import os

import lib
from models import cues as model


def answering():
    """What answers a list of cases: the C functions, or the program that REPLAY names."""
    if os.environ.get('REPLAY'):
        return functools.partial(lib.replayed, lib.replay())
    return functools.partial(by_functions, lib.c_answers())


def by_functions(program, stream):
    """The answers of the C functions; `end` stands behind each."""
    found = lib.output(program, input=b''.join(stream)).split(b'end\n')[:-1]
    if len(found) != len(stream):
        lib.stop(f'{len(found)} answers to {len(stream)} cases')
    return found


def one(r, kind):
    """A case and its answer; places are mostly told as 0, which stands for enough."""
    text = model.random_text(r, kind)
    count = len(model.read(kind, text)[1])
    lent = r.choice((0, 0, 0, 0, 6 * count, max(1, 6 * count - 1)))
    return lib.case(16, 0, kind, lent, 0, b'', b'', text), model.answer(kind, text, lent).encode()


def compare(tally, r, count):
    model.by_hand()
    tally.hold('by hand', [(lib.case(16, 0, kind, 0, 0, b'', b'', text), model.answer(kind, text).encode()) for kind, text, *_ in model.WORKED])
    for kind, name in enumerate(lib.KINDS):
        made = [one(r, kind) for _ in range(count)]
        tally.hold(name, made)
        for _, want in made:
            tally.count(f'{name}: captions', want.startswith(b'cues ') and int(want.split()[1]))
