#!/usr/bin/env python3
"""Writes the vectors to `stdin`, and to `stdout` what writers made from 01's sections "The card" and "The slip" and 02's requests 3 and 6
alone, apart from the crates, answer to them."""
import os
import random
from collections import namedtuple

Line = namedtuple('Line', 'kind first second lower upper rule', defaults=[0] * 6)
Slip = namedtuple('Slip', 'station alive minute count named values', defaults=[0] * 6)
# request 6: 6 and, 7 implies, "first, second"; 8 once, 9 historically, 10 eventually, 11 always, "first, lower, upper"
ALLOWED = {0: (), 1: ('first',), 2: ('first',), 3: ('first', 'second'), 4: ('first', 'second', 'lower', 'upper'),
           5: ('first', 'second', 'lower', 'upper'), 6: ('first', 'second'), 7: ('first', 'second'),
           **{kind: ('first', 'lower', 'upper') for kind in [8, 9, 10, 11]}}
OPERANDS = {kind: () if kind < 2 else tuple(name for name in names if name in ('first', 'second')) for kind, names in ALLOWED.items()}
lines = []


class Refused(Exception):
    """A number and a place."""


def with_map(fields, more):
    """A bit map and the fields that are not 0."""
    bits = more + sum(1 << bit for bit, (value, _) in enumerate(fields) if value)
    return bytes([bits]) + b''.join(value.to_bytes(n, 'little') for value, n in fields if value)


def good_line(marks, i, line):
    """Does line i keep the rules of its kind."""
    if line.kind not in ALLOWED:
        return False
    others = {'first', 'second', 'lower', 'upper'} - set(ALLOWED[line.kind])
    if any(getattr(line, name) for name in others):
        return False
    if line.kind == 1 and line.first >= marks:
        return False
    return all(getattr(line, name) < i for name in OPERANDS[line.kind]) and line.lower <= line.upper <= 1023


def write_card(marks, stations, minutes, count, given):
    if not (1 <= marks <= 32 and 1 <= stations <= 16 and 1 <= minutes <= 1024 and 1 <= count <= 64):
        raise Refused(2, 0)
    held = (given + [Line()] * 64)[:count]
    if not all(good_line(marks, i, line) for i, line in enumerate(held)):
        raise Refused(3, 0)
    if not 1 <= sum(line.rule != 0 for line in held) <= 8:
        raise Refused(4, 0)
    text = bytes([marks, stations, minutes % 256, minutes // 256, count])
    for line in held:
        text += with_map([(line.kind, 1), (line.first, 1), (line.second, 1), (line.lower, 2), (line.upper, 2)], 32 if line.rule else 0)
    return text


def read_card(data):
    """How many marks, stations and minutes a card has."""
    if len(data) < 5:
        raise Refused(1, len(data))
    marks, stations, minutes, count = data[0], data[1], data[2] + 256 * data[3], data[4]
    for place, number, most in [(0, marks, 32), (1, stations, 16), (2, minutes, 1024), (4, count, 64)]:
        if not 1 <= number <= most:
            raise Refused(2, place)
    at, rules = 5, 0
    for i in range(count):
        start = at
        bits = data[at] if at < len(data) else 0
        at += 1
        fields, bad = [], bits > 63
        for bit, n in enumerate([1, 1, 1, 2, 2]):
            value = 0
            if bits >> bit & 1:
                value = int.from_bytes(data[at:at + n], 'little')
                at += n
                bad = bad or value == 0
            fields.append(value)
        if at > len(data):
            raise Refused(1, len(data))
        if bad or not good_line(marks, i, Line(*fields)):
            raise Refused(3, start)
        rules += bits >> 5 & 1
    if at < len(data):
        raise Refused(1, at)
    if not 1 <= rules <= 8:
        raise Refused(4, 0)
    return marks, stations, minutes


def write_slip(card, slip):
    marks, stations, minutes = read_card(card)
    named = [k for k in range(32) if slip.named >> k & 1]
    if slip.station >= stations or slip.count > 65535:
        raise Refused(8, 0)
    if slip.alive:
        if slip.minute > minutes or slip.named or slip.values:
            raise Refused(8, 0)
    elif slip.minute >= minutes or slip.count < 1 or any(k >= marks for k in named) or slip.values & ~slip.named:
        raise Refused(8, 0)
    text = with_map([(slip.station, 1), (slip.minute, 2), (slip.count, 2), (slip.named, 4)], 16 if slip.alive else 0)
    values = sum((slip.values >> k & 1) << j for j, k in enumerate(named))
    return text + values.to_bytes((len(named) + 7) // 8, 'little')


def answer(room, write, *given):
    """What is answered, and what the lent buffer of so many bytes EE holds then, in words."""
    try:
        text = write(*given)
        if len(text) > room:
            raise Refused(11, 0)
        word = f'wrote {len(text)}'
    except Refused as refusal:
        text, word = b'', 'refused {} at {}'.format(*refusal.args)
    lent = text + b'\xEE' * (room - len(text))
    return f'{word} {lent.hex().upper()}'.rstrip()


def about(text):
    lines.append(('# ' + text, ''))


def low_first(*fields):
    data = b''.join(value.to_bytes(n, 'little') for value, n in fields)
    return data.hex(' ').upper()


def card_vector(room, marks, stations, minutes, given, count=None):
    if count is None:
        count = len(given)
    fields = [(0, 1)] + [(n, 2) for n in [room, marks, stations, minutes, count] + [n for line in given for n in line]]
    lines.append((low_first(*fields), ': ' + answer(room, write_card, marks, stations, minutes, count, given)))


def slip_vector(room, card, slip):
    widths = [2, 1, 2, 4, 4, 4]
    text = low_first((1, 1), (room, 2), *zip(slip, widths), *((byte, 1) for byte in card))
    said = answer(room, write_slip, card, slip)
    if slip.count < 65536 and not (slip.alive and (slip.named or slip.values)):
        said += ' event ' + said
    lines.append((text, ': ' + said))


def card_of(marks, stations, minutes):
    """The shortest card with these numbers."""
    return write_card(marks, stations, minutes, 1, [Line(rule=1)])


K = bytes.fromhex('01 01 04 00 03 00 01 01 35 04 01 02 00')
K_LINES = [Line(), Line(1), Line(4, 0, 1, 0, 2, 1)]
WIDE = card_of(32, 16, 1024)
# the slips of 01's small shift that fit K, and what they fix
SMALL = [('0C 01 00 01 00 00 00 00', Slip(0, 0, 0, 1, 1, 0)), ('0E 02 00 02 00 01 00 00 00 01', Slip(0, 0, 2, 2, 1, 1)),
         ('06 03 00 03 00', Slip(0, 0, 3, 3)), ('10', Slip(0, 1)), ('04 02 00', Slip(0, 0, 0, 2)), ('12 01 00', Slip(0, 1, 1)),
         ('0C 01 00 01 00 00 00 01', Slip(0, 0, 0, 1, 1, 1)), ('16 04 00 02 00', Slip(0, 1, 4, 2))]


def small_shift():
    about('card K with every room to 2 bytes too many, and with its last line an until')
    assert write_card(1, 1, 4, 3, K_LINES) == K
    for room in range(len(K) + 3):
        card_vector(room, 1, 1, 4, K_LINES)
    until = K_LINES[:2] + [Line(5, 0, 1, 0, 1, 1)]
    assert write_card(1, 1, 4, 3, until) == K[:8] + bytes.fromhex('35 05 01 01 00')
    for room in [len(K) - 1, len(K), 20]:
        card_vector(room, 1, 1, 4, until)
    for text, slip in SMALL:
        data = bytes.fromhex(text)
        about(f'{text} under K, with every room to 2 bytes too many')
        assert write_slip(K, slip) == data
        for room in range(len(data) + 3):
            slip_vector(room, K, slip)
    about('the ones that are not of K: no count, minute 5 of an alive slip, minute 4 of an observation')
    for slip in [Slip(), Slip(0, 1, 5, 2), Slip(0, 0, 4, 3)]:
        slip_vector(12, K, slip)


EVERY = [Line(), Line(1, 2), Line(2, 1), Line(3, 2, 1), Line(4, 1, 3, 1, 1023, 1), Line(5, 4, 2, 258, 772, 1), Line(0, rule=1),
         Line(1, 0, rule=1), Line(2, 0, rule=1), Line(3, 0, 0, rule=1), Line(4, rule=1), Line(5, 0, 0, 0, 256, 1)]
# a line of each kind, those of request 6 among them, and the card's bytes, a group for the heading and for each line
TWELVE = [Line(), Line(1, 1), Line(2, 1), Line(3, 1, 2), Line(4, 1, 2, 1, 258, 1), Line(5, 3, 4, 256, 1023), Line(6, 1, 2), Line(7, 2, 1),
          Line(8, 3, 0, 0, 258), Line(9, 4, 0, 1, 1023), Line(10, 5, 0, 256, 256), Line(11, 10, 0, 2, 3)]
TWELVE_TEXT = bytes.fromhex('02 03 02 01 0C  00  03 01 01  03 02 01  07 03 01 02  3F 04 01 02 01 00 02 01  1F 05 03 04 00 01 FF 03'
                            '07 06 01 02  07 07 02 01  13 08 03 02 01  1B 09 04 01 00 FF 03  1B 0A 05 00 01 00 01  1B 0B 0A 02 00 03 00')


def good_cards():
    about('every kind and every field')
    size = len(write_card(3, 2, 300, len(EVERY), EVERY))
    for room in [0, size - 1, size, size + 1]:
        card_vector(room, 3, 2, 300, EVERY)
    about('twelve kinds')
    assert write_card(2, 3, 258, 12, TWELVE) == TWELVE_TEXT
    card_vector(66, 2, 3, 258, TWELVE)
    about('a since and an until with each choice of fields that are not 0')
    for kind in [4, 5]:
        chosen = [Line(), Line()] + [Line(kind, first, second, lower, upper) for first in [0, 1] for second in [0, 1]
                                     for lower, upper in [(0, 0), (0, 1), (0, 1023), (7, 7), (255, 256), (1023, 1023)]]
        chosen[-1] = chosen[-1]._replace(rule=1)
        card_vector(200, 1, 1, 4, chosen)
    about('the longest card')
    longest = [Line(1, 1), Line(4, 0, 0, 1, 2)] + [Line(5, 1, 1, 1, 1023, i < 8) for i in range(62)]
    assert len(write_card(2, 1, 4, 64, longest)) == 510
    for room in [509, 510]:
        card_vector(room, 2, 1, 4, longest)
    about('lines past the count: kinds, fields and rules that would not do')
    rest = [Line(65535, 65535, 65535, 65535, 65535, 65535), Line(4, 9, 9, 9, 8, 1)]
    card_vector(20, 1, 1, 4, K_LINES + rest, 3)
    card_vector(20, 1, 1, 4, K_LINES + rest, 4)
    card_vector(20, 1, 1, 4, K_LINES + rest, 2)
    card_vector(20, 1, 1, 4, [Line(rule=1)] + rest, 1)
    card_vector(20, 1, 1, 4, [Line()] + rest, 1)
    card_vector(20, 1, 1, 4, [Line(rule=1)] * 9, 8)
    about('0 to 9 rules, the first or the last lines')
    for n in range(10):
        card_vector(15, 1, 1, 4, [Line(rule=1)] * n, 10)
    for n in [1, 8]:
        card_vector(15, 1, 1, 4, [Line()] * (10 - n) + [Line(rule=1)] * n)
    about('a bad rule count and no room')
    card_vector(0, 1, 1, 4, [Line()])
    card_vector(0, 1, 1, 4, [Line(rule=1)] * 9)


def headings():
    base = dict(marks=1, stations=1, minutes=4, count=1)
    for name, most in [('marks', 32), ('stations', 16), ('minutes', 1024), ('count', 64)]:
        about(f'{name} 0, 1, the most, one more, and more')
        for n in [0, 1, most, most + 1, 255, 256, 257, 65535]:
            card_vector(70, given=[Line(rule=1)], **dict(base, **{name: n}))
        card_vector(0, given=[Line(rule=1)], **dict(base, **{name: 0}))
        card_vector(0, given=[Line()], **dict(base, **{name: most + 1}))
    about('every heading number at its most, and out of range')
    card_vector(70, 32, 16, 1024, [Line(rule=1)], 64)
    card_vector(70, 33, 17, 1025, [Line(rule=1)], 65)
    card_vector(70, 0, 0, 0, [Line(rule=1)], 0)


# a line that would stand as line 2 of a card with 2 marks, and breaks one rule
BROKEN = [
    ('an unknown kind', [Line(12), Line(255), Line(256), Line(260, 0, 1, 1, 2), Line(65535)]),
    ('true with a field', [Line(0, 1), Line(0, 0, 1), Line(0, 0, 0, 1, 1), Line(0, 0, 0, 0, 1)]),
    ('a mark with a field', [Line(1, 1, 1), Line(1, 0, 0, 1, 1), Line(1, 0, 0, 0, 1)]),
    ('not with a field', [Line(2, 1, 1), Line(2, 1, 0, 1, 1), Line(2, 1, 0, 0, 1)]),
    ('or with a field', [Line(3, 1, 1, 1, 1), Line(3, 1, 1, 0, 1)]),
    ('a mark beyond the card', [Line(1, 2), Line(1, 256), Line(1, 65535)]),
    ('an operand that is no earlier line', [Line(2, 2), Line(2, 256), Line(3, 2), Line(3, 1, 2), Line(3, 0, 256), Line(4, 2), Line(4, 1, 2),
                                           Line(5, 3, 0), Line(5, 0, 65535)]),
    ('lower above upper', [Line(4, 1, 1, 1, 0), Line(4, 0, 0, 1023, 1022), Line(5, 0, 1, 256, 255)]),
    ('upper above 1,023', [Line(4, 1, 1, 0, 1024), Line(5, 1, 1, 1024, 1024), Line(5, 0, 0, 65535, 65535)]),
]

# the same of the kinds of request 6, as the line after so many
NEWER_BROKEN = [
    ('and or implies with a field', 1, [Line(6, 0, 0, 1, 1), Line(7, 0, 0, 0, 1)]),
    ('once, historically, eventually or always with a second', 2, [Line(8, 0, 1), Line(9, 1, 1, 0, 1), Line(10, 1, 1), Line(11, 1, 1, 1, 1)]),
    ('an operand of and, implies, once or always that is no earlier line', 1, [Line(6, 1), Line(7, 0, 1), Line(8, 1), Line(11, 256)]),
    ('historically with lower above upper, always with upper above 1,023', 1, [Line(9, 0, 0, 2, 1), Line(11, 0, 0, 0, 1024)]),
]


def broken_lines():
    for words, broken in BROKEN:
        about(f'{words}; the first with no rule beside it, with no marks, with no room')
        for line in broken:
            card_vector(22, 2, 1, 4, [Line(), Line(1), line._replace(rule=1)])
        card_vector(22, 2, 1, 4, [Line(), Line(1), broken[0]])
        card_vector(22, 0, 1, 4, [Line(), Line(1), broken[0]._replace(rule=1)])
        card_vector(0, 2, 1, 4, [Line(), Line(1), broken[0]._replace(rule=1)])
    for words, before, broken in NEWER_BROKEN:
        about(words)
        for line in broken:
            card_vector(22, 1, 1, 4, [Line()] * before + [line._replace(rule=1)])
    about('a bad line beside 9 rules; before the last; first')
    card_vector(22, 1, 1, 4, [Line(rule=1)] * 9 + [Line(12)])
    card_vector(22, 1, 1, 4, [Line(), Line(12), Line(rule=1)])
    for line in [Line(1, 1, rule=1), Line(2, rule=1), Line(3, rule=1), Line(4, rule=1), Line(5, rule=1)]:
        card_vector(22, 1, 1, 4, [line])


def cards_of_slips():
    about('a card that is refused: cut, a byte more, bad headings, bad lines, no rule, 9 rules')
    refused = [K[:n] for n in range(len(K))] + [K + b'\x00', K + K]
    refused += [K[:at] + bytes([byte]) + K[at + 1:] for at, byte in
                [(0, 0), (0, 33), (1, 0), (1, 17), (2, 0), (3, 5), (4, 0), (4, 65), (5, 64), (6, 129), (7, 0), (7, 12), (8, 117), (8, 21),
                 (8, 61), (9, 3), (10, 2), (11, 0), (12, 4)]]
    refused += [bytes([0, 1, 4, 0, 1]), bytes([1, 1, 1, 4, 1, 32])]
    refused += [bytes([1, 1, 4, 0, 9] + [32] * 9), bytes([1, 1, 4, 0, 1, 0]), bytes([1, 1, 4, 0, 1, 0, 0])]
    for card in refused:
        slip_vector(10, card, Slip(0, 0, 0, 1, 1, 1))
    about('a card with every kind and field and 8 rules, and one of 64 lines')
    slip_vector(10, write_card(3, 2, 300, len(EVERY), EVERY), Slip(1, 0, 299, 1, 4, 4))
    slip_vector(10, write_card(1, 1, 4, 64, [Line(rule=1)]), Slip(0, 0, 3, 1))
    about('a card of twelve kinds')
    slip_vector(10, TWELVE_TEXT, Slip(2, 0, 257, 1, 2, 2))
    about('such a card, a slip that is bad, and no room; then a good card; then good both')
    for card in [b'', K[:12], K + b'\x00', b'\x00' + K[1:], K[:8] + b'\x75' + K[9:], K[:8] + b'\x15' + K[9:], K]:
        slip_vector(0, card, Slip(1, 0, 9, 0, 2, 1))
    slip_vector(0, K, Slip(0, 0, 0, 1))


def slips():
    about('the last station and the first past it, and more')
    for stations in [1, 2, 16]:
        for station in [stations - 1, stations, 255, 256, 65535]:
            slip_vector(8, card_of(1, stations, 4), Slip(station, stations % 2, 1, 1))
    about('counts 0, 1, 255, 256, 65,535 and more')
    for count in [0, 1, 255, 256, 65535, 65536, 65537, 2 ** 32 - 1]:
        for alive in [0, 1]:
            slip_vector(6, K, Slip(0, alive, 1, count))
    about('minutes M - 1, M, M + 1 and 65,535')
    for minutes in [1, 4, 1024]:
        for minute in [minutes - 1, minutes, minutes + 1, 65535]:
            for alive in [0, 1]:
                slip_vector(6, card_of(1, 1, minutes), Slip(0, alive, minute, 1))
    about('marks that the card has, and the first that it does not')
    for marks in [1, 2, 8, 9, 31]:
        for named in [1 << marks - 1, 1 << marks, 3 << marks - 1, 2 ** marks - 1]:
            slip_vector(12, card_of(marks, 1, 4), Slip(0, 0, 1, 1, named, named))
    slip_vector(12, card_of(31, 1, 4), Slip(0, 0, 1, 1, 2 ** 32 - 1, 0))
    about('values inside and outside the named marks')
    for named, values in [(0, 1), (0, 2 ** 31), (1, 2), (1, 3), (2, 1), (2, 2), (2 ** 31, 2 ** 31), (2 ** 31, 1), (2 ** 31, 2 ** 30),
                          (5, 2), (5, 4), (5, 7), (2 ** 32 - 2, 1), (2 ** 32 - 2, 2 ** 32 - 2)]:
        slip_vector(12, WIDE, Slip(0, 0, 1, 1, named, values))
    about('an alive slip with marks, with values, with both')
    for named, values in [(1, 0), (0, 1), (1, 1), (2 ** 31, 0), (0, 2 ** 31), (2 ** 32 - 1, 2 ** 32 - 1)]:
        slip_vector(12, WIDE, Slip(0, 1, 1, 1, named, values))
    about('every field, and a bad slip with no room')
    for room in [0, 13, 14, 15, 520]:
        slip_vector(room, WIDE, Slip(15, 0, 1023, 65535, 2 ** 32 - 1, 0x12345678))
    for room in [0, 5, 6, 7]:
        slip_vector(room, WIDE, Slip(15, 1, 1024, 65535))
    for slip in [Slip(16, 0, 0, 1), Slip(0, 0, 1024, 1), Slip(0, 0, 0, 65536), Slip(), Slip(0, 1, 1025), Slip(0, 1, 0, 0, 1, 1)]:
        slip_vector(0, WIDE, slip)


def named_marks():
    for n in [1, 8, 9, 16, 17, 31, 32]:
        about(f'{n} named marks')
        rng = random.Random(n)
        scattered = sum(1 << k for k in rng.sample(range(32), n))
        for named in [2 ** n - 1, 2 ** 32 - 2 ** (32 - n), scattered]:
            slip_vector(14, WIDE, Slip(3, 0, 200, 150, named, named))
            slip_vector(15, WIDE, Slip(3, 0, 200, 150, named, named & rng.getrandbits(32)))
        size = 10 + (n + 7) // 8
        for room in [size - 1, size]:
            slip_vector(room, WIDE, Slip(3, 0, 200, 150, scattered, scattered & rng.getrandbits(32)))
        slip_vector(14, WIDE, Slip(3, 0, 200, 150, scattered, rng.getrandbits(32)))


def some_line(rng, marks, i):
    """A random line that keeps the rules of its kind."""
    kind = rng.choice([0, 1] if i == 0 else range(12))
    first = {0: 0, 1: rng.randrange(marks)}.get(kind, rng.randrange(i or 1))
    second = rng.randrange(i or 1) if 'second' in ALLOWED[kind] else 0
    lower, upper = (sorted(rng.choice([0, 1, 2, 255, 256, 1023, rng.randrange(1024)]) for _ in range(2)) if 'upper' in ALLOWED[kind]
                    else (0, 0))
    return Line(kind, first, second, lower, upper, int(rng.random() < 0.5))


def some_number(rng):
    return rng.choice([0, 1, 2, 12, 255, 256, 1023, 1024, 65535, rng.randrange(65536)])


def at_random():
    rng = random.Random(3)
    about('random cards, half of them with a number changed')
    for _ in range(20):
        marks, stations, minutes, count = rng.randint(1, 32), rng.randint(1, 16), rng.randint(1, 1024), rng.randint(1, 6)
        given = [some_line(rng, marks, i) for i in range(count)]
        if rng.random() < 0.5:
            i = rng.randrange(count)
            given[i] = given[i]._replace(**{rng.choice(['kind', 'first', 'second', 'lower', 'upper']): some_number(rng)})
        card_vector(rng.choice([20, 40, 60, 80]), marks, stations, minutes, given)
    about('random slips, half of them with a number changed')
    for _ in range(40):
        marks, stations, minutes = rng.randint(1, 32), rng.randint(1, 16), rng.randint(1, 1024)
        alive = int(rng.random() < 0.3)
        named = 0 if alive else rng.getrandbits(marks) & rng.getrandbits(32)
        slip = Slip(rng.randrange(stations), alive, rng.randrange(minutes), rng.randint(1, 400), named, named & rng.getrandbits(32))
        if rng.random() < 0.5:
            slip = slip._replace(**{rng.choice(['station', 'minute', 'count', 'named', 'values']): some_number(rng)})
        slip_vector(rng.choice([5, 8, 10, 12, 14, 16]), card_of(marks, stations, minutes), slip)


def main():
    small_shift()
    good_cards()
    headings()
    broken_lines()
    cards_of_slips()
    slips()
    named_marks()
    at_random()
    here = os.path.dirname(os.path.abspath(__file__))
    with open(f'{here}/stdin', 'w') as out:
        out.writelines(text + '\n' for text, _ in lines)
        assert out.tell() <= 65536
    with open(f'{here}/stdout', 'w') as out:
        out.writelines(text + answer + '\n' for text, answer in lines)


main()
