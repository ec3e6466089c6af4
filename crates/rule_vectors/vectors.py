#!/usr/bin/env python3
"""Writes the vectors to `stdin`, and to `stdout` what a reader made from 02's requests 3 and 7 and 01's section "The card" alone, apart from
the crates, answers to them; and to the file `stdout` of compile_rule the card of that program's text."""
import os
import random

WORDS = {'or': 3, 'and': 6, 'since': 4, 'until': 5}
lines = []


class Refused(Exception):
    """A number and a place."""


class Stuck(Exception):
    """No text of the grammar goes on with what is at this place."""


class Reader:
    """Goes through a text as far as some text of the grammar does, and notes on its way every place of 14 and the line of each term."""

    def __init__(self, marks, text):
        self.marks, self.text, self.at = marks, text, 0
        self.opened = self.terms = 0
        self.too_much, self.card = [], []

    def here(self):
        return self.text[self.at:self.at + 1]

    def word(self, word):
        for byte in word:
            if self.here() != bytes([byte]):
                raise Stuck(self.at)
            self.at += 1

    def number(self, most):
        """A number in decimal, without leading zeros; most is the highest of its range."""
        start = self.at
        if not self.here().isdigit():
            raise Stuck(start)
        self.at += 1
        while self.text[start:start + 1] != b'0' and self.here().isdigit():
            self.at += 1
        value = int(self.text[start:self.at])
        if value > most:
            self.too_much.append(start)
        return value

    def line(self, *fields):
        self.card.append(fields)
        return len(self.card) - 1

    def term(self):
        """A term; gives the number of its line."""
        self.terms += 1
        if self.terms == 65:
            self.too_much.append(self.at)
        first = self.here()
        if first == b't':
            self.word(b'true')
            return self.line(0, 0, 0, 0, 0)
        if first == b'm':
            self.word(b'm')
            return self.line(1, self.number(self.marks - 1), 0, 0, 0)
        if first == b'n':
            self.word(b'not ')
            return self.line(2, self.term(), 0, 0, 0)
        if first == b'(':
            return self.group()
        raise Stuck(self.at)

    def interval(self):
        start = self.at
        self.word(b'[')
        lower = self.number(1023)
        self.word(b',')
        upper = self.number(1023)
        self.word(b']')
        if lower > upper:
            self.too_much.append(start)
        return lower, upper

    def group(self):
        if self.opened >= 32:
            self.too_much.append(self.at)
        self.opened += 1
        self.word(b'(')
        first = self.term()
        self.word(b' ')
        joint = next((word for word in WORDS if word.encode()[:1] == self.here()), None)
        if joint is None:
            raise Stuck(self.at)
        self.word(joint.encode())
        bounds = self.interval() if joint in ('since', 'until') else (0, 0)
        self.word(b' ')
        second = self.term()
        self.word(b')')
        self.opened -= 1
        return self.line(WORDS[joint], first, second, *bounds)


def with_map(fields, more):
    """A bit map and the fields that are not 0."""
    bits = more + sum(1 << bit for bit, (value, _) in enumerate(fields) if value)
    return bytes([bits]) + b''.join(value.to_bytes(n, 'little') for value, n in fields if value)


def card_of(marks, stations, minutes, text):
    """The card of a text."""
    if not (1 <= marks <= 32 and 1 <= stations <= 16 and 1 <= minutes <= 1024):
        raise Refused(2, 0)
    reader, stuck = Reader(marks, text), None
    try:
        reader.term()
        if reader.at < len(text):
            raise Stuck(reader.at)
    except Stuck as place:
        stuck = place.args[0]
    refusals = [(place, -14) for place in reader.too_much] + [(stuck, -13)] * (stuck is not None)
    if refusals:
        place, number = min(refusals)
        raise Refused(-number, place)
    card = bytes([marks, stations, minutes % 256, minutes // 256, len(reader.card)])
    for i, (kind, first, second, lower, upper) in enumerate(reader.card):
        card += with_map([(kind, 1), (first, 1), (second, 1), (lower, 2), (upper, 2)], 32 if i + 1 == len(reader.card) else 0)
    return card


def answer(room, *given):
    try:
        card = card_of(*given)
        if len(card) > room:
            raise Refused(11, 0)
        return f'wrote {len(card)} {card.hex().upper()} kept'
    except Refused as refusal:
        return 'refused {} at {} kept'.format(*refusal.args)


def about(text):
    lines.append((b'# ' + text.encode(), b''))


def vector(text, marks=4, stations=2, minutes=480, room=520):
    text = text.encode()
    assert b'\n' not in text and 0 <= room <= 520
    given = f'{marks} {stations} {minutes} {room} '.encode() + text
    lines.append((given, b': ' + answer(room, marks, stations, minutes, text).encode()))


def vectors(*texts, **sizes):
    for text in texts:
        vector(text, **sizes)


def worked():
    about('worked examples')
    vectors('(m1 since[5,1023] not true)', '((m3 or true) until[0,2] not m1)', '', 'm09', 'm99', 'm9x', '(m99', '(m1 since[5,3',
            '(m1 since[5,3]', '(m1 since[5,03]', '(m1 since[2000,3] m2)', '(m1 since[2000,3', '(m1 since[2000,3000] m2)',
            '(m1 since[5,3] m9)', '(m9 since[5,3] m2)', f'(m1 since[{"9" * 30},{"9" * 29}8] m2)', '(m1 or m2)', '(m1 or m2) ',
            '(m1  or m2)', '(m1 or m2 or m3)', '(m1 since[0,1]m2)', '(m1 since [0,1] m2)', 'not not (m1 and true)', 'nottrue',
            '(' * 32, '(' * 33, '(' * 32 + 'x', 'not ' * 63 + 'true', 'not ' * 64 + 'x', 'not ' * 63 + 'not')


def terms():
    about('each kind of term, and the order of lines')
    vectors('true', 'm0', 'm3', 'not true', 'not m0', '(m0 or m1)', '(m0 and m1)', '(m0 since[0,0] m1)', '(m0 until[0,0] m1)',
            '(true since[0,240] m0)', '(true until[1,1023] m3)', '((m0 or m1) and (m2 or m3))', '(not (m0 and m1) until[3,3] not not m2)',
            '(not m1 or (true since[0,240] m0))', '(m0 or m0)', '(((m0 or m1) or m2) or m3)', '(m0 or (m1 or (m2 or m3)))')
    about('a text that is broken off at each of its bytes')
    text = '(not m1 since[10,23] (true until[0,9] m2))'
    vectors(*[text[:n] for n in range(len(text) + 1)])


def unreadable():
    about('no term')
    vectors(' ', 'x', 'M1', 'True', 'tru', 'trux', 'truee', 'true ', 'no', 'not', 'not ', 'not  m1', 'notm1', 'not not', 'n m1', 'm', 'mx', 'm ',
            '()', '(', ')', 'm1)', '(m1)', '(m1', '(m1 ', '1', '[0,1]', '\t', 'm1\t', 'm1\r', 'größer')
    about('spaces that do not belong there, or are missing')
    vectors(' m1', 'm1 ', 'm 1', '( m1 or m2)', '(m1 or m2 )', '(m1or m2)', '(m1 orm2)', '(m1  or m2)', '(m1 or  m2)', '(m1 and  m2)',
            '(m1 since [0,1] m2)', '(m1 since[ 0,1] m2)', '(m1 since[0 ,1] m2)', '(m1 since[0, 1] m2)', '(m1 since[0,1 ] m2)',
            '(m1 since[0,1]  m2)', '(m1 since[0,1]m2)', '(m1 since m2)', '(true or(m1 or m2))')
    about('words between two terms')
    vectors('(m1 xor m2)', '(m1 o m2)', '(m1 orr m2)', '(m1 an m2)', '(m1 andm2)', '(m1 sinc[0,1] m2)', '(m1 sincee[0,1] m2)',
            '(m1 untill[0,1] m2)', '(m1 implies m2)', '(m1 once m2)', '(m1 or m2 or m3)', '(m1 and m2 and m3)', '(m1 or m2))', '((m1 or m2)',
            '(m1 or m2) or m3')
    about('numbers')
    vectors('m00', 'm01', 'm0x', 'm1x', 'm-1', '(m1 since[] m2)', '(m1 since[,1] m2)', '(m1 since[0] m2)', '(m1 since[0,] m2)',
            '(m1 since[00,1] m2)', '(m1 since[01,1] m2)', '(m1 since[0,01] m2)', '(m1 since[0,1,2] m2)', '(m1 since[0;1] m2)',
            '(m1 since[0,1) m2)', '(m1 until[0x,1] m2)', '(m1 until[0,1x] m2)', '(m1 until[+1,2] m2)')


def marks():
    about('marks at their range, and past it')
    for marks in [1, 2, 10, 31, 32]:
        vectors(f'm{marks - 1}', f'm{marks}', f'(m0 or m{marks})', marks=marks)
    vectors('m31', 'm32', 'm310', 'm310 ', 'm' + '3' * 30, 'not m100', '(m99 or m98)', '(m3 or m99) ', 'm4x', 'm40', 'm40x', 'm04', 'x m9')


def bounds():
    about('bounds at their range, and past it')
    for interval in ['[0,1023]', '[1023,1023]', '[0,1024]', '[1024,1024]', '[1023,1022]', '[1024,0]', '[1,0]', '[1024,1023]', '[10230,20000]',
                     '[0,10230', '[10230', '[1024x', '[0,1024x', '[1024,', '[0,9', f'[{"1" * 30},{"1" * 30}]', f'[{"1" * 30},{"1" * 29}2]',
                     f'[{"1" * 30},{"1" * 29}0]', f'[0,{"7" * 30}]', f'[{"7" * 30}', f'[{"7" * 30},{"8" * 31}]', '[18446744073709551616,0]',
                     '[0,18446744073709551616]', '[18446744073709551617,18446744073709551616]', '[4294967296,4294967297]',
                     '[4294967297,4294967296]', '[65536,0]', '[65537,65536]']:
        vectors(f'(m1 since{interval} m2)')
    vectors('(m1 until[1,0] m2)', '(m1 until[1,0]m2)', '(m1 until[1,0', '(m1 until[5,04] m2)', '(m1 until[2000,1]', '(m1 until[2000,1')


def ladder(n):
    """n brackets, each in the first term of the one around it."""
    return '(' * n + 'm0' + ' or m1)' * n


def balanced(n):
    """A text of n leaves, as flat as can be."""
    return 'm0' if n == 1 else f'({balanced(n // 2)} and {balanced(n - n // 2)})'


def most_bytes(n):
    """A text of n leaves, all in intervals with two bytes a bound."""
    return 'm3' if n == 1 else f'({most_bytes(n // 2)} since[256,1023] {most_bytes(n - n // 2)})'


def limits():
    about('brackets nested to 32, and one more')
    vectors(ladder(31), ladder(32), '(' * 31 + 'm0' + ' or m1)' * 30, '(' * 32 + '(m0', '(' * 32 + 'm0' + ' or (m1', '(m0 or ' * 32 + 'm1' + ')' * 32)
    vectors('(m0 or ' * 32 + '(m1 or m2)', '(m0 or ' * 32 + 'not (m1', '(' * 32 + ')', '(' * 33 + 'x', '(' * 40, 'not ' * 3 + '(' * 33,
            '(m0 or m9' + '(' * 33, '(' * 32 + 'm9 or (')
    about('64 terms, and one more')
    vectors('not ' * 62 + 'true', 'not ' * 63 + 'true', 'not ' * 64 + 'true', 'not ' * 64, 'not ' * 64 + '(', 'not ' * 63 + 'x', 'not ' * 63,
            'not ' * 64 + '5', 'not ' * 64 + 'm9', 'not ' * 64 + ' ')
    flat = balanced(32)
    vectors(flat, 'not ' + flat, 'not not ' + flat, balanced(33), balanced(40), f'({flat} or m1)', f'({flat} or x)', f'({flat} or ',
            f'({flat} or', 'not ' * 32 + ladder(16), 'not ' * 31 + ladder(16))
    nested = '(' * 32
    vectors('not ' * 31 + nested + 'm0', 'not ' * 32 + nested, 'not ' * 32 + nested + '(', 'not ' * 32 + nested + 'x')


def ties():
    about('the earliest byte wins, and 14 at a tie')
    vectors('(m9 or m9)', '(m1 or m9) x', '(m1 x m9)', '(m9 x m1)', '(m1 since[5,3] m9', '(m1 since[5,3]x', '(m1 since[5,3x',
            '(m1 since[2000,3]', '(m1 since[2000,3x', '(m1 since[2000,x', '(m1 since[2000x', 'm9' + ' ' * 3, '((m1 since[9,1] m2) or m9)',
            '((m1 or m9) since[9,1] m2)', 'not ' * 64 + 'm99', '(' * 33 + 'm99')


def sizes():
    about('2 before 13 and 14')
    for text in ['m0', 'x', 'm9']:
        for given in [(0, 2, 480), (33, 2, 480), (4, 0, 480), (4, 17, 480), (4, 2, 0), (4, 2, 1025), (0, 0, 0), (65540, 2, 480), (256, 256, 65536)]:
            vector(text, *given)
    for given in [(1, 1, 1), (32, 16, 1024), (1, 16, 256), (32, 1, 255)]:
        vector('m0', *given)
    about('11 last')
    for text in ['m0', '(m1 since[0,9] m2)']:
        length = len(card_of(4, 2, 480, text.encode()))
        for room in [0, 1, length - 1, length, length + 1]:
            vector(text, room=room)
    most = 'not ' + most_bytes(32)
    length = len(card_of(4, 2, 480, most.encode()))
    vector(most, room=length - 1)
    vector(most, room=length)
    vectors('x', 'm9', '(m1 since[5,3] m2)', '', room=0)
    vector('m0', marks=0, room=0)


def some_term(rng, depth):
    if depth == 0 or rng.random() < 0.2:
        return rng.choice(['true', 'm0', 'm1', 'm2', 'm3'])
    if rng.random() < 0.3:
        return 'not ' + some_term(rng, depth - 1)
    lower = rng.choice([0, 1, 7, 255, 256, 1000])
    joint = rng.choice(['or', 'and', f'since[{lower},{lower + rng.choice([0, 5, 23])}]', f'until[{lower},{lower + 1}]'])
    return f'({some_term(rng, depth - 1)} {joint} {some_term(rng, depth - 1)})'


def at_random():
    rng = random.Random(7)
    about('random texts, two in three with a byte changed, put in or left out')
    for i in range(45):
        text = some_term(rng, 3)
        at = rng.randrange(len(text))
        byte = rng.choice('()[], 0159mntorsu')
        vector([text, text[:at] + byte + text[at + i % 2:], text[:at] + text[at + 1:]][i % 3])


def main():
    for part in [worked, terms, unreadable, marks, bounds, limits, ties, sizes, at_random]:
        part()
    here = os.path.dirname(os.path.abspath(__file__))
    with open(f'{here}/stdin', 'wb') as out:
        out.writelines(text + b'\n' for text, _ in lines)
        assert out.tell() <= 65536
    with open(f'{here}/stdout', 'wb') as out:
        out.writelines(text + answer + b'\n' for text, answer in lines)
    program = f'{here}/../compile_rule'
    with open(f'{program}/args') as args, open(f'{program}/stdin', 'rb') as text, open(f'{program}/stdout', 'wb') as out:
        out.write(card_of(*[int(line) for line in args], text.read().rstrip(b'\r\n')))


main()
