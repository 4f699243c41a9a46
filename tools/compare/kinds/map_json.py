"""maps as JSON (request 2.1, ops 6 and 7)
COUNT texts: the chosen ones of the model, maps in any form that the request takes, and damaged ones; and a fifth as many maps with paths.
Each text is read (op 7), by two models too: a reader of its own, and Python's json. They must agree. Each map is written (op 6).
Where ORACLE names the oracle's build script the Rust is asked too. What is accepted here `from_json` must accept with the same values.
What is written must be the text of `to_json`."""
import os

import lib
from compare.kinds import json_texts
from models import map_json as model

AT_ONCE = 20000


def by_rust(oracle, stream):
    """The Rust's answers, or none."""
    return lib.told_by(oracle, stream)[0] if oracle else [None] * len(stream)


def read(tally, oracle, texts):
    """Texts read, by the program, the two models and the Rust."""
    stream = [lib.case(7, x=s) for s in texts]
    takes = {s: taken for s, _, taken in model.CHOSEN}
    for s, told, rust in zip(texts, tally.asked(stream), by_rust(oracle, stream)):
        want, again = model.read(s), model.read(s, model.json_tree)
        tally.count('read: ' + ('accepted' if want[0] == 0 else f'refused {want[0]}'))
        tally.count('read: accepted by the Rust', bool(rust and rust.startswith(b'map')))
        tally.expect('read', s, model.told(want), told)
        if want != again:
            tally.differ('read by Python\'s json', s, want, again)
        if rust is not None and (told.startswith(b'map') and told != rust or s in takes and takes[s] != rust.startswith(b'map')):
            tally.differ('read by the Rust', s, rust, told, 'Rust')


def map_case(r):
    """A map to write, with its answer."""
    m, path = json_texts.some_map(r), json_texts.some_path(r).encode()
    timescale, (num, den, frames) = json_texts.edge(r, model.MOST_T), (json_texts.edge(r, model.SHORT) for _ in range(3))
    if r.random() < 0.02:
        path = r.choice([b'\xff', path + b'\xc3', b'a' * 1025, b'\xff' * 1025])
    return written(timescale, num, den, frames, path, m)


def written(timescale, num, den, frames, path, m):
    return lib.case(6, timescale, num, den, frames, x=model.flat(m), y=path), model.told_text(m, timescale, num, den, path, frames)


def write(tally, oracle, made):
    """Maps written, by the program, the model and the Rust."""
    tally.hold('written', made)
    for (case, want), rust in zip(made, by_rust(oracle, [case for case, _ in made])):
        if rust not in (None, b'outside\n', want):
            tally.differ('written by the Rust', case, rust, want, 'Rust')


def compare(tally, r, count):
    for s, n, _ in model.CHOSEN:
        if model.read(s)[0] != n or model.read(s, model.json_tree)[0] != n:
            lib.stop(f'the model answers otherwise than {n} to {s[:200]!r}')
    oracle = lib.oracle() if os.environ.get('ORACLE') else None
    read(tally, oracle, [s for s, _, _ in model.CHOSEN])
    write(tally, oracle, [written(*one) for one in model.WRITTEN])
    for at in range(0, count, AT_ONCE):
        many = min(AT_ONCE, count - at)
        read(tally, oracle, [json_texts.text(r) for _ in range(many)])
        write(tally, oracle, [map_case(r) for _ in range(many // 5)])
