#!/usr/bin/env python3
"""Writes the vectors to `stdin`, and to `stdout` what a checker made from 01 and 02 alone, apart from the crate, says of them.

The checker knows no gaps and no neighbours: it tests every pair of places, and asks of a slip whether some shift has its counts. Its searches
do not walk: they take the last and the first of all known places, and count the places from the one to the other."""
import os
import random

NONE = 65535
lines = []


def runs(sizes, numbers):
    marks, stations, minutes = sizes
    return [numbers[s * (minutes + 1):(s + 1) * (minutes + 1)] for s in range(stations)]


def sound(sizes, numbers, facts):
    """01: every first count is 0, any two known counts of one station at places a < b satisfy 0 <= later - earlier <= b - a, no value bit is 1
    where its mark isn't known, and no mark beyond the card is known."""
    marks, stations, minutes = sizes
    for run in runs(sizes, numbers):
        if run[0] != 0:
            return False
        known = [(p, v) for p, v in enumerate(run) if v != NONE]
        if any(not 0 <= w - v <= b - a for a, v in known for b, w in known if a < b):
            return False
    return all(values & ~named == 0 and named >> marks == 0 for named, values in zip(facts[0::2], facts[1::2]))


def pairs(run, t):
    """Each known count before minute t with each at or after it, and their places. Place p is minute p - 1, so that before minute t are the
    places 0 to t."""
    known = [(p, v) for p, v in enumerate(run) if v != NONE]
    return [(early, late) for early in known if early[0] <= t for late in known if t < late[0]]


def busy(run, t):
    """02, request 4: known counts at some a < t and b >= t that differ by exactly b - a."""
    return any(w - v == b - a for (a, v), (b, w) in pairs(run, t))


def quiet(run, t):
    """01: equal known counts at some a < t and some b >= t."""
    return any(v == w for (a, v), (b, w) in pairs(run, t))


def row(sizes, numbers):
    """Known busy if some station is, known quiet if every station is, else open, for each minute: 1, 2, 0."""
    marks, stations, minutes = sizes

    def code(t):
        if any(busy(run, t) for run in runs(sizes, numbers)):
            return '1'
        return '2' if all(quiet(run, t) for run in runs(sizes, numbers)) else '0'

    return ''.join(code(t) for t in range(minutes))


def spans(run, value):
    """The first and the last place of known counts with the same value."""
    span = {}
    for p, v in enumerate(run):
        if v != NONE:
            span.setdefault(value(p, v), [p, p])[1] = p
    return span.values()


def quick_row(sizes, numbers):
    """The same for a long run, by the first and last place of each count, and of each count less its place: counts that differ by as much as their
    places have the same."""
    marks, stations, minutes = sizes
    full = [spans(run, lambda p, v: v - p) for run in runs(sizes, numbers)]
    level = [spans(run, lambda p, v: v) for run in runs(sizes, numbers)]

    def code(t):
        if any(a <= t < b for span in full for a, b in span):
            return '1'
        return '2' if all(any(a <= t < b for a, b in span) for span in level) else '0'

    return ''.join(code(t) for t in range(minutes))


def decoded(sizes, slip):
    """The slip's fields, by 01; None where it is turned away. Here slips only go wrong by their ranges."""
    marks, stations, minutes = sizes
    bits, at, found = slip[0], 1, {}
    for bit, (name, n) in enumerate([('station', 1), ('minute', 2), ('count', 2), ('map', 4)]):
        found[name] = 0
        if bits >> bit & 1:
            found[name] = int.from_bytes(bytes(slip[at:at + n]), 'little')
            at += n
    named = [k for k in range(32) if found['map'] >> k & 1]
    packed = int.from_bytes(bytes(slip[at:]), 'little')
    values = sum(1 << k for j, k in enumerate(named) if packed >> j & 1)
    alive = bool(bits & 16)
    if found['station'] >= stations or found['minute'] >= minutes + alive or found['map'] >> marks or (not alive and found['count'] < 1):
        return None
    return alive, found['station'], found['minute'], found['count'], found['map'], values


def possible(run):
    """Some shift has these counts: each minute adds one observation or none."""
    counts = {0}
    for place, known in enumerate(run):
        if place:
            counts |= {c + 1 for c in counts}
        if known != NONE:
            counts &= {known}
    return bool(counts)


def offered(sizes, numbers, facts, slip):
    """01: clash where no shift fits record and slip; else all that the slip fixes is made known."""
    marks, stations, minutes = sizes
    read = decoded(sizes, slip)
    if read is None:
        return 'refused 8'
    alive, station, t, s, named, values = read
    fixed = [(t, s)] if alive else [(t + 1, s), (t, s - 1)]
    numbers, facts = list(numbers), list(facts)
    for p, v in fixed:
        i = station * (minutes + 1) + p
        # a shift of at most 1,024 minutes has no count of 65535
        if v > minutes + 1 or numbers[i] not in (NONE, v):
            return 'conflict'
        numbers[i] = v
    if not alive:
        if any(named >> k & 1 and facts[2 * t] >> k & 1 and (facts[2 * t + 1] ^ values) >> k & 1 for k in range(32)):
            return 'conflict'
        facts[2 * t] |= named
        facts[2 * t + 1] |= values
    if not all(possible(run) for run in runs(sizes, numbers)):
        return 'conflict'
    return 'stored' + ''.join(f' {n}' for n in numbers) + ' /' + ''.join(f' {f}' for f in facts)


def found(run, t):
    """02: whether the minute is quiet or busy by the run, the nearest known count before it, the nearest at or after it, and how many places stand
    from the one to the other, both counted, or to the run's end if there is none. Where none is known before, which no sound record has, the places
    are counted from the run's start."""
    before = [p for p in range(t + 1) if run[p] != NONE]
    after = [p for p in range(t + 1, len(run)) if run[p] != NONE]
    first, last = max(before, default=0), min(after, default=len(run) - 1)
    read = [p for p in range(len(run)) if first <= p <= last]
    answer = 'quiet' if quiet(run, t) else 'busy' if busy(run, t) else 'open'
    return f'{answer} {first} {last if after else "-"} {len(read)}'


def about(text):
    lines.append(('# ' + text, '# ' + text))


def written(data):
    """The bytes as a line has them."""
    while data[-1] == 0:
        data.pop()
    return ' '.join(f'{b:02X}' for b in data)


def vector(sizes, numbers, facts, slip, told=row):
    marks, stations, minutes = sizes
    assert len(numbers) == stations * (minutes + 1) and len(facts) == 2 * minutes and stations <= 2
    data = [marks, stations, minutes % 256, minutes // 256, len(slip), *slip]
    for n in numbers:
        data += n.to_bytes(2, 'little')
    for f in facts:
        data += f.to_bytes(4, 'little')
    if not sound(sizes, numbers, facts):
        answer = 'corrupt'
    else:
        assert told(sizes, numbers) == quick_row(sizes, numbers)
        answer = f'sound {told(sizes, numbers)} {offered(sizes, numbers, facts, slip)}'
    lines.append((written(data), answer))
    return answer


def searches(run, minutes, worked=None):
    """A search from each of the minutes; the answers worked by hand, where there are some, are what the checker says. Counts do not fall, nor do they
    rise by more than one a place: of such runs the crate promises the answers."""
    counts = [(p, v) for p, v in enumerate(run) if v != NONE]
    assert all(0 <= w - v <= b - a for (a, v), (b, w) in zip(counts, counts[1:]))
    assert 1 <= len(run) <= 1025 and all(0 <= t < len(run) for t in minutes)
    answers = [found(run, t) for t in minutes]
    assert worked is None or answers == worked
    for t, answer in zip(minutes, answers):
        data = [*t.to_bytes(2, 'little'), *len(run).to_bytes(2, 'little')]
        for n in run:
            data += n.to_bytes(2, 'little')
        lines.append(('?' + written(data), answer))


def known(sizes, numbers, facts, slip):
    """What is known after the slip."""
    answer = vector(sizes, numbers, facts, slip)
    before, _, after = answer.partition(' / ')
    if 'stored' not in before:
        return numbers, facts
    return [int(x) for x in before.split('stored ')[1].split()], [int(x) for x in after.split()]


def observation(station, minute, count, named=0, values=0):
    found = [(station, 1), (minute, 2), (count, 2), (named, 4)]
    slip = [sum(1 << bit for bit, (v, n) in enumerate(found) if v)]
    for v, n in found:
        slip += v.to_bytes(n, 'little') if v else b''
    marks = [k for k in range(32) if named >> k & 1]
    packed = sum(1 << j for j, k in enumerate(marks) if values >> k & 1)
    return slip + list(packed.to_bytes((len(marks) + 7) // 8, 'little'))


def alive(station, minute, count):
    slip = observation(station, minute, count)
    return [slip[0] | 16] + slip[1:]


def fresh(sizes):
    marks, stations, minutes = sizes
    return ([0] + [NONE] * minutes) * stations, [0] * (2 * minutes)


K = (1, 1, 4)
A = [0x0C, 1, 0, 1, 0, 0, 0, 0]
B = [0x0E, 2, 0, 2, 0, 1, 0, 0, 0, 1]
D = [0x06, 3, 0, 3, 0]
TEN = [0x10]

about('the small shift: A, B, D one after another, and D again')
k = fresh(K)
for slip in [A, B, D, D]:
    k = known(K, *k, slip)
about('B, A; then an alive slip at minute 4 with count 2')
k = fresh(K)
for slip in [B, A, [0x16, 4, 0, 2, 0]]:
    k = known(K, *k, slip)
about('an alive slip of the start, and 04 02 00')
for slip in [TEN, [0x04, 2, 0]]:
    vector(K, *fresh(K), slip)
about('after A: 12 01 00, and A with last byte 01; after A, B an alive slip at minute 5 and an observation at minute 4')
k = known(K, *fresh(K), A)
for slip in [[0x12, 1, 0], A[:-1] + [1]]:
    vector(K, *k, slip)
k = known(K, *k, B)
for slip in [[0x16, 5, 0, 2, 0], [0x06, 4, 0, 3, 0]]:
    vector(K, *k, slip)

about('damaged: the first number 1; a step of 2 in one minute; a later number below an earlier one; too far in a gap')
for numbers in [[1, 1, 1, 1, 1], [0, 0, 2, 2, 2], [0, 1, 0, NONE, NONE], [0, 1, NONE, 0, NONE], [0, NONE, NONE, NONE, 5], [NONE] * 5]:
    vector(K, numbers, [0] * 8, TEN)
about('damaged: a value without its mark; a mark past the card; fine next to each')
for facts in [[0, 1] + [0] * 6, [2, 0] + [0] * 6, [1, 3] + [0] * 6, [0] * 6 + [0, 1 << 31], [1, 1] + [0] * 6, [1, 0] * 4]:
    vector(K, fresh(K)[0], facts, TEN)
W = (32, 2, 3)
about('32 marks: the highest one known, with and without its value, and a value without it')
for facts in [[1 << 31, 1 << 31, 0, 0, 0, 0], [1 << 31, 0, 0, 0, 0, 0], [1 << 30, 1 << 31, 0, 0, 0, 0]]:
    vector(W, fresh(W)[0], facts, TEN)
about('damaged: the second station only')
vector(W, [0, 1, 1, 1, 1, 1, 1, 1], [0] * 6, TEN)
vector(W, [0, 1, 1, 1, 0, 1, 3, 3], [0] * 6, TEN)

G = (1, 1, 7)
about('gaps: none, one step, level, wide, narrow, and open at the end')
for numbers in [[0, NONE, NONE, NONE, NONE, NONE, NONE, NONE], [0, 1, 2, 2, 2, 3, 3, 4], [0, NONE, NONE, 0, NONE, NONE, 3, NONE],
                [0, NONE, 2, NONE, NONE, 2, 3, 3], [0, NONE, 1, 1, NONE, NONE, NONE, 1], [0, NONE, NONE, NONE, NONE, NONE, NONE, 7],
                [0, 0, NONE, 1, 2, NONE, 2, NONE]]:
    for slip in [TEN, observation(0, 3, 1), observation(0, 2, 2, 1, 1), alive(0, 7, 3), alive(0, 3, 0)]:
        vector(G, numbers, [0] * 14, slip)
about('two stations: busy if one is, quiet only if both are')
T = (1, 2, 4)
for first in [[0, 1, NONE, NONE, 1], [0, 0, 0, 0, 0], [0, NONE, NONE, NONE, NONE]]:
    for second in [[0, 0, NONE, 0, 1], [0, 1, 1, NONE, 1]]:
        for slip in [observation(1, 1, 1), observation(0, 3, 2), alive(1, 4, 0)]:
            vector(T, first + second, [0] * 8, slip)
about('a mixer lost two slips at minutes 0 and 1, then reported count 3 at minute 2, and what is then known; an alive slip at minute 3 instead')
X = (1, 1, 3)
for slip in [observation(0, 2, 3), alive(0, 3, 3)]:
    k = known(X, *fresh(X), slip)
    vector(X, *k, TEN)
about('slips into a full gap: each minute of it has an observation')
for slip in [observation(0, 1, 2), observation(0, 1, 1), alive(0, 2, 2), alive(0, 2, 1)]:
    vector(X, [0, NONE, NONE, 3], [0] * 6, slip)
about('full gaps: at the start of the run, within it, and at its end; and with one observation less')
for numbers in [[0, NONE, NONE, 3, 3, NONE, NONE, NONE], [0, NONE, NONE, 2, 3, NONE, NONE, NONE], [0, 0, NONE, NONE, 3, NONE, NONE, 3],
                [0, 0, NONE, NONE, 2, NONE, NONE, 2], [0, 0, 0, 0, NONE, NONE, NONE, 4], [0, 0, 0, 0, NONE, NONE, NONE, 3],
                [0, NONE, NONE, NONE, NONE, NONE, NONE, 6]]:
    vector(G, numbers, [0] * 14, TEN)
about('full gaps: of one minute, one after another, and by turns with level and open ones')
for numbers in [[0, 1, 1, 2, 3, 3, 3, 4], [0, 1, NONE, 3, NONE, NONE, 6, 7], [0, NONE, 2, NONE, 2, NONE, 4, 4], [0, NONE, 2, NONE, 3, NONE, 5, NONE]]:
    vector(G, numbers, [0] * 14, TEN)
about('two stations: a full gap of one beside a level gap, an open one and other full ones of the other')
for second in [[0, NONE, NONE, NONE, 0], [0, NONE, NONE, NONE, NONE], [0, NONE, NONE, 2, 2], [0, 0, 0, NONE, 2], [0, 0, NONE, 2, NONE]]:
    for numbers in [[0, NONE, 2, 2, 2] + second, second + [0, NONE, 2, NONE, 2]]:
        vector(T, numbers, [0] * 8, TEN)

about('the count 65535, and the largest that fits the place')
for slip in [observation(0, 3, 65535), alive(0, 4, 65535), observation(0, 3, 4), observation(0, 3, 5), alive(0, 4, 4), alive(0, 4, 5)]:
    vector(K, *fresh(K), slip)

about('facts: named again alike, named again otherwise, others named, and a mark past the card')
F = (8, 1, 2)
for slip in [observation(0, 0, 1, 0x07, 0x05), observation(0, 0, 1, 0x07, 0x04), observation(0, 0, 1, 0xF0, 0xA0), observation(0, 1, 1, 0x0F, 0x0F), observation(0, 0, 1, 0x100, 0)]:
    vector(F, [0, NONE, NONE], [0x0F, 0x05, 0, 0], slip)

about('random knowledge and slips')
rng = random.Random(1)
for _ in range(120):
    sizes = (rng.randint(1, 32), rng.randint(1, 2), rng.randint(1, 6))
    marks, stations, minutes = sizes
    numbers = []
    for _ in range(stations):
        n, run = 0, [0]
        for _ in range(minutes):
            n += rng.random() < 0.5
            run.append(n)
        keep = rng.random()
        numbers += [0] + [v if rng.random() < keep else NONE for v in run[1:]]
    facts = []
    for _ in range(minutes):
        named = rng.getrandbits(32) & rng.getrandbits(32) & ((1 << marks) - 1)
        facts += [named, named & rng.getrandbits(32)]
    if rng.random() < 0.1:
        numbers[rng.randrange(len(numbers))] = rng.randint(0, minutes + 1)
    if rng.random() < 0.1:
        facts[rng.randrange(len(facts))] |= 1 << rng.randrange(32)
    station, t = rng.randrange(stations), rng.randrange(minutes)
    named = rng.getrandbits(32) & rng.getrandbits(32) & ((1 << marks) - 1)
    values = named & (facts[2 * t + 1] if rng.random() < 0.7 else rng.getrandbits(32))
    if rng.random() < 0.7:
        slip = observation(station, t, rng.randint(1, t + 2), named, values)
    else:
        slip = alive(station, rng.randint(0, minutes), rng.randint(0, minutes + 1))
    vector(sizes, numbers, facts, slip)

about('1,024 minutes')
L = (1, 1, 1024)
n, run = 0, [0]
for _ in range(1024):
    n += rng.random() < 0.4
    run.append(n)
run = [0] + [v if rng.random() < 0.6 else NONE for v in run[1:]]
vector(L, run, [0] * 2048, alive(0, 1024, 1025), quick_row)
about('1,024 minutes, all busy: the count 1024 at the end, and none known between')
vector(L, [0] + [NONE] * 1023 + [1024], [0] * 2048, alive(0, 1024, 1025), quick_row)

about('searches outwards: every minute of a run with gaps, and of one with a gap at its end')
searches([0, 1, NONE, NONE, 1, 2, NONE, 3], range(7),
         ['busy 0 1 2', 'quiet 1 4 4', 'quiet 1 4 4', 'quiet 1 4 4', 'busy 4 5 2', 'open 5 7 3', 'open 5 7 3'])
searches([0, NONE, 1, NONE, NONE], range(4), ['open 0 2 3', 'open 0 2 3', 'open 2 - 3', 'open 2 - 3'])
about('the count at minute t - 1 stands at place t: the minute whose own count is known, and the next one')
searches([0, NONE, NONE, 0, NONE, NONE, 1], [2, 3], ['quiet 0 3 4', 'open 3 6 4'])
searches([0, NONE, NONE, 2, NONE, NONE, 2], [2, 3], ['open 0 3 4', 'quiet 3 6 4'])
about('minute 0, and the last minute')
for run in [[0, 0, NONE, NONE], [0, 1, NONE, NONE], [0, NONE, NONE, 0], [0, NONE, NONE, 3], [0, NONE, 1, 1], [0, NONE, 1, 2], [0, NONE, 1, NONE], [0, 0], [0, 1]]:
    searches(run, [0, len(run) - 2])
about('none known at or after the minute: read to the end of the run')
searches([0, NONE, 1, NONE, NONE, NONE, NONE], [2, 3, 5], ['open 2 - 5'] * 3)
searches([0, 1, 1, NONE], [2], ['open 2 - 2'])
about('all counts known: two places each')
searches([0, 0, 1, 2, 2, 3], range(5), ['quiet 0 1 2', 'busy 1 2 2', 'busy 2 3 2', 'quiet 3 4 2', 'busy 4 5 2'])
about('only the first count known: the whole run')
searches([0] + [NONE] * 6, range(6), ['open 0 - 7'] * 6)
about('equal counts on both sides, with more of them farther out')
searches([0, 0, NONE, 0, NONE, NONE, 0, 0], range(7),
         ['quiet 0 1 2', 'quiet 1 3 3', 'quiet 1 3 3', 'quiet 3 6 4', 'quiet 3 6 4', 'quiet 3 6 4', 'quiet 6 7 2'])
about('counts that differ, by one and by more, with equal ones on either side by themselves')
searches([0, 0, NONE, NONE, 1, 1], [1, 2, 3], ['open 1 4 4'] * 3)
searches([0, 1, 1, NONE, NONE, NONE, 4, 4, 4], [2, 4, 5], ['open 2 6 5'] * 3)
about('full gaps: the mixer, at the start of the run, within it and at its end, and across known places')
searches([0, NONE, 2, 3], range(3), ['busy 0 2 3', 'busy 0 2 3', 'busy 2 3 2'])
searches([0, NONE, NONE, 3, 3], range(4), ['busy 0 3 4', 'busy 0 3 4', 'busy 0 3 4', 'quiet 3 4 2'])
searches([0, 0, NONE, 2, NONE], range(4), ['quiet 0 1 2', 'busy 1 3 3', 'busy 1 3 3', 'open 3 - 2'])
searches([0, 1, 1, NONE, NONE, 4], range(5), ['busy 0 1 2', 'quiet 1 2 2', 'busy 2 5 4', 'busy 2 5 4', 'busy 2 5 4'])
searches([0, 1, NONE, 3, 4], range(4), ['busy 0 1 2', 'busy 1 3 3', 'busy 1 3 3', 'busy 3 4 2'])
about('one observation less: at the start of the run, within it and at its end')
searches([0, NONE, NONE, 2, 2], range(3), ['open 0 3 4'] * 3)
searches([0, 1, NONE, NONE, 3, 4], [1, 2, 3], ['open 1 4 4'] * 3)
searches([0, 1, 2, NONE, NONE, 4], [2, 3, 4], ['open 2 5 4'] * 3)
about('counts that look like an unknown one in one byte, or nearly')
for high in [255, 65280, 65534]:
    searches([NONE, high, NONE, high], [0, 1, 2], ['open 0 1 2', 'quiet 1 3 3', 'quiet 1 3 3'])
searches([NONE, 65532, NONE, 65534], [0, 1, 2], ['open 0 1 2', 'busy 1 3 3', 'busy 1 3 3'])
about('65535 is no count: none is known at or after the minute, though a full run has 65535 at the next place, at the last, or right after it')
for high in [65534, 65533, 65532]:
    searches([high, NONE, NONE], [0, 1], ['open 0 - 3', 'open 0 - 3'])
about('the first count not known: read to the start of the run; and no count at all')
searches([NONE, NONE, 0, NONE, 0, 1], range(5), ['open 0 2 3', 'open 0 2 3', 'quiet 2 4 3', 'quiet 2 4 3', 'busy 4 5 2'])
searches([NONE] * 5, [0, 2, 3], ['open 0 - 5'] * 3)
about('a run of one place, and the minute after the last')
searches([0], [0], ['open 0 - 1'])
searches([NONE], [0], ['open 0 - 1'])
searches([0, NONE, 0, 0], [3], ['open 3 - 1'])
searches([0, NONE, 0, NONE, NONE], [4], ['open 2 - 3'])

rng = random.Random(2)


def rising(places, keep, often=0.3):
    """Counts of some shift, known at the places that `keep` answers for."""
    run = [0]
    while len(run) < places:
        run.append(run[-1] + (rng.random() < often))
    return [v if keep(p) else NONE for p, v in enumerate(run)]


about('random runs')
for _ in range(40):
    places, share = rng.randint(2, 14), rng.random()
    run = rising(places, lambda p: p == 0 or rng.random() < share)
    searches(run, [rng.randrange(places - 1)])
about('random runs whose first count may be unknown')
for _ in range(10):
    places, share = rng.randint(2, 14), rng.random()
    searches(rising(places, lambda p: rng.random() < share), [rng.randrange(places)])
about('runs that report in bunches, eight minutes of every 60')
for minute in [3, 30, 63]:
    searches(rising(68, lambda p: p % 60 < 8, 0.05), [minute])
searches(rising(600, lambda p: p % 60 < 8, 0.01), [380])
about('1,024 minutes: all known, a gap in it, none known at first, and only the first known')
searches([0] * 1025, [0, 511, 1023, 1024])
searches([0] + [NONE] * 40 + [0] * 984, [20, 40, 41])
searches([NONE] * 30 + [0] * 995, [15])
searches([0] + [NONE] * 1024, [700], ['open 0 - 1025'])
about('random runs with many observations')
for _ in range(25):
    places, share = rng.randint(2, 14), rng.random()
    searches(rising(places, lambda p: rng.random() < share, 0.85), [rng.randrange(places)])

folder = os.path.dirname(os.path.abspath(__file__))
for name, column in (('stdin', 0), ('stdout', 1)):
    with open(os.path.join(folder, name), 'w') as out:
        out.writelines(line[column] + '\n' for line in lines)
