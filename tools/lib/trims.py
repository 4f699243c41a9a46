"""Trim lists: blank ones, and what the oracle is asked in their place."""
import struct

from .stream import case, parts

WHITE_SPACE = ''.join(chr(c) for c in (*range(9, 14), 32, 0x85, 0xa0, 0x1680, *range(0x2000, 0x200b), 0x2028, 0x2029, 0x202f, 0x205f, 0x3000))


def blank(list):
    """Whether a trim list of at most 65,536 bytes is White_Space alone; it then keeps the whole play (02, 2.4)."""
    try:
        return len(list) <= 65536 and not list.decode().strip(WHITE_SPACE)
    except UnicodeDecodeError:
        return False


def whole_play(sheet):
    """The list that keeps the same as a blank one: Trim(0,n-1), n being what a sheet says."""
    return b'Trim(0,%d)' % max(0, int.from_bytes(sheet[8:12], 'little') - 1)


def asked(one):
    """The case to ask the oracle in the place of this one.
    The Rust refuses a blank list, so it is asked for the whole play (ops 2 and 3)."""
    head, x, y, z = parts(one)
    op, a, b, c, d = struct.unpack('<5I', head[:20])
    return case(op, a, b, c, d, x, whole_play(x), z) if op in (2, 3) and blank(y) else one
