"""the captions of whole texts as rows (`replay`, op 16)
The texts worked by hand, and COUNT random texts of each kind, good and bad.
Each with as many places as it needs, exactly as many, or one too few."""
import lib
from models import rows as model


def one(r, kind):
    """A case and its answer."""
    text = model.some_text(r, kind)
    need = 6 * len(model.read(kind, text)[2])
    lent = r.choice((0, 0, max(1, need), max(1, need - 1)))
    return lib.case(16, 0, kind, lent, z=text), model.told(kind, text, lent)


def compare(tally, r, count):
    model.by_hand()
    tally.hold('by hand', [(lib.case(16, 0, kind, lent, z=text), want.encode()) for _, kind, text, lent, want in model.CASES])
    for kind, name in enumerate(lib.KINDS):
        made = [one(r, kind) for _ in range(count)]
        tally.hold(name, made)
        for case, want in made:
            tally.count(f'{name}: captions', want.startswith(b'cues ') and int(want.split()[1]))
            last = want.split(b'\n')[-2]
            if last.startswith(b'fault'):
                tally.count(f'{name}: {last.decode()}')
            # what stands beside a row: the bytes at its place, and the least lines that have the fault
            if not model.holds(kind, lib.parts(case)[3]):
                tally.differ('what stands beside a row', case, 'as the text has it', want)
