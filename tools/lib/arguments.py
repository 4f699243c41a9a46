"""The words behind a tool's name, and the lines in which a tool speaks."""
import os
import sys

root = os.path.dirname(os.path.dirname(os.path.dirname(os.path.realpath(__file__))))
name = os.path.relpath(os.path.realpath(sys.argv[0]), os.path.join(root, 'tools'))
NUMBERS = ('SEED', 'COUNT', 'MORE', 'LISTS', 'SHEETS', 'CONVERSIONS', 'SECONDS')


def said(text):
    print(f'tools/{name}: {text}', file=sys.stderr, flush=True)


def stop(text, status=1):
    said(text)
    sys.exit(status)


def usage(form):
    print(f'usage: tools/{name} {form}'.rstrip(), file=sys.stderr)
    sys.exit(2)


def fits(kind, word):
    """Whether a word may stand in a place of the form."""
    if kind == 'OPS':
        return word.isdecimal() and set(word) <= set('12345')
    return kind not in NUMBERS or word.isdecimal()


def words(form, doc):
    """The words by a form as `SEED COUNT [OPS] [--install]`: numbers as numbers, options left out (see `chosen`).
    --help prints the tool's own text. Words that do not fit print the usage line."""
    if sys.argv[1:] in (['--help'], ['-h']):
        print(doc.strip())
        sys.exit(0)
    options = [w.strip('[]') for w in form.split() if w.startswith('[--')]
    given = [w for w in sys.argv[1:] if w not in options]
    places = [w for w in form.split() if not w.startswith('[--')]
    kinds = [w.strip('[]') for w in places]
    least = sum(1 for w in places if not w.startswith('[') and not w.endswith(']'))
    if not least <= len(given) <= len(kinds) or any(w.startswith('-') for w in given):
        usage(form)
    if not all(fits(kind, word) for kind, word in zip(kinds, given)):
        usage(form)
    return [int(word) if kind in NUMBERS else word for kind, word in zip(kinds, given)]


def chosen(option):
    return option in sys.argv[1:]
