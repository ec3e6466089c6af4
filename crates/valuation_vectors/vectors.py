#!/usr/bin/env python3
"""Writes `stdout`: the rows of request 6 as they were worked out by hand, and of each batch that is short the row of its last line, worked
from 01's section "The reading" and 02's abbreviations alone, apart from the crates. What is drawn, of policies and of knowledge, is drawn as
the program does it."""
import os
from collections import namedtuple

UNKNOWN, TRUE, FALSE = 0, 1, 2
RANK = {FALSE: 0, UNKNOWN: 1, TRUE: 2}
CODE = {rank: code for code, rank in RANK.items()}
Line = namedtuple('Line', 'kind first second lower upper')

# in words: false f, unknown u, true t. e is whether a minute is a time point (quiet f, open u), b the operand:
#   minute   0 1 2 3 4 5 6 7 8 9
#   e        t t f u t u t f t t
#   b        t f t t t f u f t f
#   e and b  t f f u t f u f t f   once and eventually are the or of these in the interval, none before minute 0, u from minute 10 on
#   e -> b   t f t t t u u t t f   historically and always are the and of these, so too
BY_HAND = """\
and: ttt fff uuu, tfu tfu tfu: tfu fff ufu
implies: ttt fff uuu, tfu tfu tfu: tfu ttt tuu
once from 0 to 0: tffutfuftf
once from 1 to 2: fttfuttuut
once from 2 to 2: fftffutfuf
once from 3 to 1023: fffttttttt
historically from 0 to 0: tftttuuttf
historically from 1 to 2: ttffttuuut
historically from 2 to 2: tttftttuut
historically from 3 to 1023: ttttffffff
eventually from 0 to 0: tffutfuftf
eventually from 1 to 2: futtuuttuu
eventually from 2 to 2: futfuftfuu
eventually from 3 to 1023: ttttttuuuu
always from 0 to 0: tftttuuttf
always from 1 to 2: fttuuutffu
always from 2 to 2: tttuuttfuu
always from 3 to 1023: fffffffuuu
"""


def by_hand():
    """Each name, and its row in codes."""
    for line in BY_HAND.splitlines():
        name, *_, row = line.split(': ')
        yield f'{name}: ' + row.replace(' ', '').translate(str.maketrans('utf', '012'))


# ---- the reading


def negation(x):
    return CODE[2 - RANK[x]]


def disjunction(values):
    return CODE[max([RANK[x] for x in values], default=0)]


def conjunction(values):
    return negation(disjunction([negation(x) for x in values]))


def at(row, t):
    """From the end on everything is unknown."""
    return row[t] if t < len(row) else UNKNOWN


def keeps(e, a, minutes):
    return conjunction([disjunction([negation(at(e, s)), at(a, s)]) for s in minutes])


def since(e, a, b, lower, upper, t):
    return disjunction([conjunction([at(e, j), at(b, j), keeps(e, a, range(j + 1, t + 1))]) for j in range(max(t - upper, 0), t - lower + 1)])


def until(e, a, b, lower, upper, t):
    """From the end on e and b are unknown, and what is kept only falls: the first minute there says what they all say."""
    last = min(t + upper, max(t + lower, len(e)))
    return disjunction([conjunction([at(e, j), at(b, j), keeps(e, a, range(t, j))]) for j in range(t + lower, last + 1)])


def row_of(line, e, facts, rows):
    """A line's row of those of the lines before it."""
    minutes = range(len(e))
    if line.kind == 0:
        return [TRUE for _ in minutes]
    if line.kind == 1:
        return [UNKNOWN if not known >> line.first & 1 else TRUE if values >> line.first & 1 else FALSE for known, values in facts]
    a, b = rows[line.first], rows[line.second]
    no, yes = [negation(x) for x in a], [TRUE for _ in minutes]
    bounds = line.lower, line.upper
    if line.kind == 2:
        return no
    if line.kind == 3:
        return [disjunction([a[t], b[t]]) for t in minutes]
    if line.kind == 4:
        return [since(e, a, b, *bounds, t) for t in minutes]
    if line.kind == 5:
        return [until(e, a, b, *bounds, t) for t in minutes]
    if line.kind == 6:
        return [negation(disjunction([negation(a[t]), negation(b[t])])) for t in minutes]
    if line.kind == 7:
        return [disjunction([negation(a[t]), b[t]]) for t in minutes]
    if line.kind == 8:
        return [since(e, yes, a, *bounds, t) for t in minutes]
    if line.kind == 9:
        return [negation(since(e, yes, no, *bounds, t)) for t in minutes]
    if line.kind == 10:
        return [until(e, yes, a, *bounds, t) for t in minutes]
    return [negation(until(e, yes, no, *bounds, t)) for t in minutes]


# ---- what is drawn


def step(x):
    return (x * 1103515245 + 12345) % 2 ** 31


def pick(x, n):
    return x // 65536 % n


def bound(x, minutes):
    choice = pick(x, 6)
    return [0, 1, minutes - 1, 1023][choice] if choice < 4 else pick(step(x), minutes)


def line_of(x, k, minutes):
    n = pick(x, 16)
    kind = 1 if k < 4 else n if n < 12 else 4 + n % 2
    a = step(x)
    b = step(a)
    c = step(b)
    d = step(c)
    return Line(kind, pick(a, k or 1), pick(b, k or 1), *sorted([bound(c, minutes), bound(d, minutes)]))


def points_of(seed, minutes):
    points, x = [], seed
    for _ in range(minutes):
        x = step(x)
        points.append((pick(x, 5) + 1) // 2)
    return points


def facts_of(seed, minutes):
    words, x = [], seed
    for _ in range(2 * minutes):
        high = step(x)
        x = step(high)
        words.append(high // 32768 * 65536 + x // 32768)
    return list(zip(words[::2], words[1::2]))


def last_row(seed, minutes):
    """The last of a batch's 20 lines, and its row."""
    e, facts, rows, x = points_of(seed, minutes), facts_of(seed + 1, minutes), [], seed + 2
    for k in range(20):
        x = step(x)
        line = line_of(x, k, minutes)
        rows.append(row_of(line, e, facts, rows))
    return ' {} {} {} {} {}: '.format(*line) + ''.join(map(str, rows[-1]))


def main():
    lines = list(by_hand())
    for number in range(60):
        minutes = {8: 1023, 9: 1024}.get(number % 10, number % 10 * 7 + 1)
        if minutes < 40:
            lines.append(last_row(number * 7919 + 1, minutes))
        lines.append(f'batch {number} minutes {minutes} rows 20 differences 0')
    lines.append('rows 1200 differences 0')
    here = os.path.dirname(os.path.abspath(__file__))
    with open(f'{here}/stdout', 'w') as out:
        out.writelines(line + '\n' for line in lines)


main()
