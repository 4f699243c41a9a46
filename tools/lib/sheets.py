"""Frame sheets (docs/SHEET.md): words, 128 to a block."""
import struct


def seal(words, block):
    words[128 * block] = block
    words[128 * block + 127] = sum(words[128 * block:128 * block + 127]) & 0xFFFFFFFF


def place(frame, long=False):
    """Where the words of a frame's record stand: two, or three in the second layout."""
    return 128 * (1 + frame // 42) + 1 + 3 * (frame % 42) if long else 128 * (1 + frame // 63) + 1 + 2 * (frame % 63)


def sheet(n, timescale=30000, sync=lambda i: i in (0, 3, 6), decode=lambda i: i, duration=lambda i: 1001, rate=(30000, 1001), long=False):
    w = [0] * (128 * (1 + -(-n // (42 if long else 63))))
    w[1], w[2], w[3], w[4] = timescale, n, *rate
    w[5] = int(long)
    for i in range(n):
        at, d = place(i, long), duration(i)
        w[at] = decode(i) | (1 << 31 if sync(i) else 0)
        w[at + 1] = d & 0xFFFFFFFF
        if long:
            w[at + 2] = d >> 32
    for b in range(len(w) // 128):
        seal(w, b)
    return w


def as_bytes(words):
    return struct.pack('<%dI' % len(words), *words)
