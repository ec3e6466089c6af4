#!/usr/bin/env python3
"""Writes the vectors to `stdin`, and to `stdout` what a reader made from 01's section "The slip" and 02's request 1 alone,
apart from the crate, says of them."""
import os
import random

K = (1, 1, 4)
WIDE = (32, 16, 1024)
lines = []


class Cut(Exception):
    pass


def first(sizes, data):
    """What the first slip says, or why it is turned away, and how many bytes are handed back, in words."""
    at = 0

    def take(n):
        nonlocal at
        if at + n > len(data):
            raise Cut
        at += n
        return data[at - n:at]

    try:
        bits = take(1)[0]
        found, bad = {}, bits > 31
        for bit, (name, n) in enumerate([('station', 1), ('minute', 2), ('count', 2), ('map', 4)]):
            found[name] = int.from_bytes(take(n), 'little') if bits >> bit & 1 else 0
            bad = bad or bool(bits >> bit & 1 and found[name] == 0)
        named = [k for k in range(32) if found['map'] >> k & 1]
        packed = ''.join(f'{b:08b}'[::-1] for b in take((len(named) + 7) // 8))
    except Cut:
        return f'refused 7 at {len(data)} left 0'
    return f'{told(sizes, bits, found, named, packed, bad)} left {len(data) - at}'


def told(sizes, bits, found, named, packed, bad):
    """What a slip says that has all its bytes."""
    marks, stations, minutes = sizes
    bad = bad or '1' in packed[len(named):] or any(k >= marks for k in named) or found['station'] >= stations
    who = f"{found['station']} {found['minute']} {found['count']}"
    if bits & 16:
        if bad or named or found['minute'] > minutes:
            return 'refused 8 at 0'
        return f'alive {who}'
    if bad or found['count'] < 1 or found['minute'] >= minutes:
        return 'refused 8 at 0'
    values = sum(1 << k for k, value in zip(named, packed) if value == '1')
    return f"observation {who} {found['map']} {values}"


def about(text):
    lines.append(('# ' + text, ''))


def vector(sizes, data):
    marks, stations, minutes = sizes
    text = ' '.join(f'{b:02X}' for b in [marks, stations, minutes % 256, minutes // 256, *data])
    lines.append((text, ': ' + first(sizes, bytes(data))))


def write(station=None, minute=None, count=None, named=None, values=None, alive=False, more=0):
    """A slip with the fields that are given, written even if they are 0."""
    out, bits = [], 16 * alive + more
    for bit, (field, n) in enumerate([(station, 1), (minute, 2), (count, 2), (named, 4)]):
        if field is not None:
            bits += 1 << bit
            out += field.to_bytes(n, 'little')
    if named:
        out += values.to_bytes((named.bit_count() + 7) // 8, 'little')
    return [bits, *out]


SMALL = [bytes.fromhex(text) for text in [
    '0C 01 00 01 00 00 00 00', '0E 02 00 02 00 01 00 00 00 01', '06 03 00 03 00', '10', '00', '', '04 02 00', '12 01 00',
    '0C 01 00 01 00 00 00 01', '16 04 00 02 00', '16 05 00 02 00', '06 04 00 03 00', '0E 03 00 01 00 01 00 00 00 00',
    '0E 02 00 01 00 01 00 00 00 00', '16 04 00 01 00']]
A, B, D, TEN, ZERO = SMALL[:5]


def packets():
    """02: several slips end to end."""
    rng = random.Random(2)
    about('two slips of the small shift end to end')
    for one in SMALL[:5] + [SMALL[6]]:
        for two in SMALL[:5] + [SMALL[6]]:
            vector(K, one + two)
    about('three of them')
    for three in [A + B + D, B + A + D, D + B + A, TEN + A + B, TEN * 3, A + ZERO + B, ZERO + A + B, ZERO * 3]:
        vector(K, three)
    about('a bad slip and A: a bit past bit 4, a written 0, a spare bit, past the card, no count, an alive slip with a mark')
    for more in [32, 64, 128]:
        vector(K, bytes(write(count=1, named=1, values=1, more=more)) + A)
    for bad in [write(station=0, count=1), write(minute=0, count=1), write(count=0), write(count=1, named=0),
                write(count=1, named=1, values=2), write(count=1, named=2, values=1), write(station=1, count=1),
                write(minute=4, count=1), write(minute=5, alive=True), write(minute=1), write(named=1, values=0, alive=True)]:
        vector(K, bytes(bad) + A)
    about('A and a cut B; an alive slip and a bad one, and a cut A')
    for n in range(1, len(B)):
        vector(K, A + B[:n])
    for n in range(1, len(A)):
        vector(K, TEN + A[:n])
        vector(K, ZERO + A[:n])
    about('a cut mark map and cut values, also of a slip that is bad')
    for bits in [0x08, 0x0C, 0x0F, 0x18, 0xE8, 0xFF]:
        for n in range(8):
            vector(WIDE, bytes([bits]) + bytes(n))
            vector(WIDE, bytes([bits]) + b'\xFF' * n)
    about('an alive slip and 15 bytes')
    for tail in [b'\x00', b'\x10', b'\xFF']:
        vector(K, TEN + tail * 15)
    about('the longest slip and 1 to 50 bytes')
    longest = bytes(write(15, 1023, 65535, 2 ** 32 - 1, 0x12345678))
    for n in [1, 13, 14, 15, 50]:
        vector(WIDE, longest + (longest * 4)[:n])
    about('64 bytes alike')
    for data in [b'\x10', b'\x00', b'\x04', b'\x08', b'\x0F', b'\x1F', b'\xFF']:
        vector(WIDE, data * 64)
    about('random slips end to end, some with a byte changed')
    for _ in range(100):
        sizes = (rng.randint(1, 32), rng.randint(1, 16), rng.randint(1, 1024))
        data = bytearray(b''.join(bytes(some(rng, sizes)) for _ in range(rng.randint(1, 4))))
        if rng.random() < 0.5:
            data[rng.randrange(min(14, len(data)))] = rng.randrange(256)
        vector(sizes, data[:rng.choice([len(data), len(data), rng.randint(0, len(data))])])


def some(rng, sizes):
    """A random slip, of the card as a rule."""
    marks, stations, minutes = sizes
    alive = rng.random() < 0.3
    named = 0 if alive or rng.random() < 0.3 else rng.getrandbits(32) & ((1 << marks) - 1)
    return write(rng.randrange(stations) or None, rng.randrange(minutes) or None, rng.randint(1, 9), named or None,
                 rng.getrandbits(named.bit_count()) if named else None, alive)


def main():
    about('the slips of the small shift, under K')
    for data in SMALL:
        vector(K, data)
    about('each of them cut at every length')
    for data in SMALL:
        for n in range(len(data)):
            vector(K, data[:n])
    about('each of them with a byte after it')
    for data in SMALL[:5] + SMALL[6:]:
        vector(K, data + b'\x00')
        vector(K, data + b'\xFF')
    about('bits 5, 6 and 7, also where it is cut')
    for more in [32, 64, 128, 224]:
        vector(K, write(count=1, named=1, values=1, more=more))
        vector(K, write(count=1, named=1, values=1, more=more)[:7])
        vector(K, write(alive=True, more=more))
    about('a written 0 in each field')
    for alive in [False, True]:
        vector(K, write(station=0, count=1, alive=alive))
        vector(K, write(minute=0, count=1, alive=alive))
        vector(K, write(count=0, alive=alive))
        vector(K, write(count=1, named=0, alive=alive))
    for n in [1, 8, 9, 16, 17, 31, 32]:
        about(f'{n} named marks: spare bits 0, then not 0, then a value byte less and more')
        random.seed(n)
        scattered = sum(1 << k for k in random.sample(range(32), n))
        size = (n + 7) // 8
        for named in [2 ** n - 1, 2 ** 32 - 2 ** (32 - n), scattered]:
            for values in [2 ** n - 1, random.randrange(2 ** n), random.randrange(2 ** n)]:
                vector(WIDE, write(3, 200, 150, named, values))
            if n < 8 * size:
                vector(WIDE, write(3, 200, 150, named, 2 ** n))
                vector(WIDE, write(3, 200, 150, named, 2 ** (8 * size - 1)))
            vector(WIDE, write(3, 200, 150, named, 1)[:-1])
            vector(WIDE, write(3, 200, 150, named, 1) + [0])
    about('marks that the card has, and the first that it does not')
    for marks in [1, 2, 7, 8, 9, 31]:
        vector((marks, 1, 4), write(count=1, named=1 << marks - 1, values=1))
        vector((marks, 1, 4), write(count=1, named=1 << marks, values=1))
        vector((marks, 1, 4), write(count=1, named=2 ** marks + 2 ** (marks - 1), values=3))
    for marks in [32, 33, 64, 255]:
        vector((marks, 1, 4), write(count=1, named=2 ** 31, values=1))
    vector((0, 1, 4), write(count=1))
    vector((0, 1, 4), write(count=1, named=1, values=1))
    about('the last station and the first past it')
    for stations in [1, 2, 16]:
        vector((1, stations, 4), write(station=stations - 1 or None, count=1))
        vector((1, stations, 4), write(station=stations, count=1))
        vector((1, stations, 4), write(station=255, count=1, alive=True))
    vector((1, 0, 4), write(count=1))
    about('an observation at minute M - 1 and at M; an alive slip at M - 1, M and M + 1')
    for minutes in [1, 4, 1024]:
        vector((1, 1, minutes), write(minute=minutes - 1 or None, count=1))
        vector((1, 1, minutes), write(minute=minutes, count=1))
        vector((1, 1, minutes), write(minute=minutes - 1 or None, alive=True))
        vector((1, 1, minutes), write(minute=minutes, alive=True))
        vector((1, 1, minutes), write(minute=minutes + 1, alive=True))
    about('an alive slip with marks')
    vector(K, write(named=1, values=0, alive=True))
    vector(K, write(minute=1, count=1, named=1, values=1, alive=True))
    about('counts 0, 1, 256 and 65,535')
    for alive in [False, True]:
        for count in [None, 1, 256, 65535]:
            vector(K, write(minute=1, count=count, alive=alive))
    about('every field written')
    vector(WIDE, write(15, 1023, 65535, 2 ** 32 - 1, 0x12345678))
    vector(WIDE, write(15, 1024, 65535, alive=True))
    packets()
    here = os.path.dirname(os.path.abspath(__file__))
    with open(f'{here}/stdin', 'w') as out:
        out.writelines(text + '\n' for text, _ in lines)
    with open(f'{here}/stdout', 'w') as out:
        out.writelines(text + answer + '\n' for text, answer in lines)


main()
