"""Times as text, in units of 1/100 s (ASS) and 1/1000 s (SRT, WebVTT)."""
KINDS = ('ass', 'srt', 'vtt')
UNITS = (100, 1000, 1000)


def ass_time(units):
    return '%d:%02d:%02d.%02d' % (units // 360000, units // 6000 % 60, units // 100 % 60, units % 100)


def srt_time(units, mark=','):
    return '%02d:%02d:%02d%s%03d' % (units // 3600000, units // 60000 % 60, units // 1000 % 60, mark, units % 1000)


def span(kind, start, end):
    """Start and end as they stand in a caption of a kind."""
    if kind == 0:
        return f'{ass_time(start)},{ass_time(end)}'
    mark = ',.'[kind - 1]
    return f'{srt_time(start, mark)} --> {srt_time(end, mark)}'


def units_of(time, units):
    """Hours, minutes, seconds and a part of a second, in units; hours may be left out."""
    *hours, m, s, part = (int(n) for n in time.replace(',', '.').replace('.', ':').split(':'))
    return ((sum(hours) * 60 + m) * 60 + s) * units + part
