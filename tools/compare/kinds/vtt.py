"""WebVTT texts (request 2.5), which the Rust has not
COUNT texts of kind 2 through given maps (op 5). With 35 for MORE half of them go through the map of a sheet and a list, which the oracle gives (op 3).
Each text is fed in pieces of 1,024 bytes, in pieces of varying sizes and byte by byte; then with a finish after prefixes of it:
all of them where it has at most 48 bytes, else four."""
import struct

import lib
from compare.tally import count_captions
from data import cases
from models import vtt as model

AT_ONCE = 5000
MORE = 5


def with_text(case, text):
    head, x, y, _ = lib.parts(case)
    return head[:28] + struct.pack('<I', len(text)) + x + y + text


def with_plan(case, plan):
    return case[:16] + struct.pack('<I', plan) + case[20:]


def prefixes(r, case):
    text = lib.parts(case)[3]
    ends = range(len(text)) if len(text) <= 48 else [r.randrange(len(text)) for _ in range(4)]
    return [with_text(case, text[:k]) for k in ends]


def maps_of(oracle, stream):
    """What op 3's maps are by the oracle: its answers to op 2."""
    made = [k for k, c in enumerate(stream) if c[0] == 3]
    return dict(zip(made, lib.told_by(oracle, [model.map_case(stream[k]) for k in made])[0])) if made else {}


def some(tally, r, oracle, ops, count):
    stream = [cases.one(r, r.choice(ops), 2) for _ in range(count)]
    made = maps_of(oracle, stream)
    wanted = lambda k, case: model.told(case, made.get(k), cases.number_of(case))
    want = [wanted(k, c) for k, c in enumerate(stream)]
    for told in want:
        if told.startswith(b'retimed'):
            count_captions(tally.seen, 'captions: ', told)
    tally.hold('in pieces of 1,024 bytes', list(zip([with_plan(c, 0) for c in stream], want)))
    tally.hold('in pieces of varying sizes', list(zip(stream, want)))
    tally.hold('byte by byte', list(zip([with_plan(c, 1024) for c in stream], want)))
    tally.hold('a finish after a prefix', [(p, wanted(k, p)) for k, c in enumerate(stream) for p in prefixes(r, c)])


def compare(tally, r, count, ops=MORE):
    ops = [int(c) for c in str(ops)]
    if not set(ops) <= {3, 5}:
        lib.stop('MORE has the ops 3 and 5 alone', 2)
    model.by_hand()
    oracle = lib.oracle() if 3 in ops else None
    for at in range(0, count, AT_ONCE):
        some(tally, r, oracle, ops, min(AT_ONCE, count - at))
