"""Limits of document 01 that several models test. A map is a list of segments (source, output, duration)."""
MOST_TICKS = 2**53
MOST_TIMESCALE = 10**9
MOST_UNITS = 2**36
MOST_SEGMENTS = 1024


def bad(rows):
    """Whether a map is none: too many segments, or one that ends past the most ticks."""
    return len(rows) > MOST_SEGMENTS or any(q + d > MOST_TICKS or o + d > MOST_TICKS for q, o, d in rows)


def bad_through(rows, timescale):
    """The same, or a timescale out of range. Rows is None where the bytes are no map."""
    return not 1 <= timescale <= MOST_TIMESCALE or rows is None or bad(rows)
