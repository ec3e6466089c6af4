#!/usr/bin/env python3
"""Writes the vectors to `stdin`, and to `stdout` the reaches that a reader made from 01's sections "The card" and "Reasons to turn a call away"
and 02's requests 6 and 8 alone, apart from the crates, finds in them."""
import os
import random
from collections import namedtuple

Line = namedtuple('Line', 'kind first second lower upper rule', defaults=[0] * 6)
WIDTHS = [('kind', 1), ('first', 1), ('second', 1), ('lower', 2), ('upper', 2)]
TRUE, MARK, NOT, OR, SINCE, UNTIL, AND, IMPLIES, ONCE, HISTORICALLY, EVENTUALLY, ALWAYS = range(12)
# how many operands a kind has, which kinds have lower and upper, and which look ahead
OPERANDS = {TRUE: 0, MARK: 0, NOT: 1, OR: 2, SINCE: 2, UNTIL: 2, AND: 2, IMPLIES: 2, ONCE: 1, HISTORICALLY: 1, EVENTUALLY: 1, ALWAYS: 1}
TIMED = {SINCE, UNTIL, ONCE, HISTORICALLY, EVENTUALLY, ALWAYS}
AHEAD = {UNTIL, EVENTUALLY, ALWAYS}
lines = []


class Refused(Exception):
    """A number and a place."""


class Reader:
    """Goes through a card from its start."""

    def __init__(self, card):
        self.card, self.at = card, 0

    def number(self, width):
        """The next number, of so many bytes."""
        if self.at + width > len(self.card):
            raise Refused(1, len(self.card))
        self.at += width
        return int.from_bytes(self.card[self.at - width:self.at], 'little')

    def heading(self):
        """How many marks and how many lines there are."""
        given = [(place, self.number(width), most) for place, width, most in [(0, 1, 32), (1, 1, 16), (2, 2, 1024), (4, 1, 64)]]
        for place, number, most in given:
            if not 1 <= number <= most:
                raise Refused(2, place)
        return given[0][1], given[3][1]

    def line(self, marks, i):
        start, bits = self.at, self.number(1)
        written = {name: self.number(width) for bit, (name, width) in enumerate(WIDTHS) if bits >> bit & 1}
        line = Line(rule=bits >> 5 & 1, **written)
        if bits >> 6 or 0 in written.values() or not keeps_rules(line, marks, i):
            raise Refused(3, start)
        return line


def keeps_rules(line, marks, i):
    """Does line i keep the rules of its kind; a field that is not written is 0."""
    if line.kind not in OPERANDS:
        return False
    operands = OPERANDS[line.kind]
    past_first = marks if line.kind == MARK else i if operands > 0 else 1
    past_second = i if operands > 1 else 1
    most = 1023 if line.kind in TIMED else 0
    return line.first < past_first and line.second < past_second and line.lower <= line.upper <= most


def read_card(card):
    reader = Reader(card)
    marks, count = reader.heading()
    found = [reader.line(marks, i) for i in range(count)]
    if reader.at < len(card):
        raise Refused(1, reader.at)
    if not 1 <= sum(line.rule for line in found) <= 8:
        raise Refused(4, 0)
    return found


def line_reaches(given):
    """Request 8: "0 for true and marks, the larger of its operands' reaches for others, plus upper for until, eventually and always"."""
    found = []
    for line in given:
        operands = [line.first, line.second][:OPERANDS[line.kind]]
        found.append(max([found[k] for k in operands], default=0) + (line.upper if line.kind in AHEAD else 0))
    return found


def rule_reaches(card, room):
    """1 to 4 of the card, and then 11 where a lent buffer has fewer places than there are rules."""
    given = read_card(card)
    found = [far for line, far in zip(given, line_reaches(given)) if line.rule]
    if len(found) > room:
        raise Refused(11, 0)
    return found


def answer(room, card):
    try:
        found = rule_reaches(card, room)
        return ' '.join(['wrote', str(len(found)), *map(str, found), 'kept'])
    except Refused as refusal:
        return 'refused {} at {} kept'.format(*refusal.args)


def about(text):
    lines.append(('# ' + text, ''))


def vector(card, room=12):
    assert 0 <= room <= 12 and len(card) <= 512
    lines.append((f'{room} {card.hex(" ").upper()}', ' ' + answer(room, card)))


def line_bytes(line):
    """A line with only its fields that are not 0, whether it keeps the rules or not."""
    bits = 32 * line.rule + sum(1 << bit for bit, (name, _) in enumerate(WIDTHS) if getattr(line, name))
    return bytes([bits]) + b''.join(getattr(line, name).to_bytes(width, 'little') for name, width in WIDTHS if getattr(line, name))


def card_of(given, marks=4, stations=1, minutes=4, count=None):
    count = len(given) if count is None else count
    return bytes([marks, stations, minutes % 256, minutes // 256, count]) + b''.join(map(line_bytes, given))


def rule(line):
    return line._replace(rule=1)


def vectors(*cards):
    """A vector for each card, given by its lines, of which the last is made a rule."""
    for given in cards:
        vector(card_of(given[:-1] + [rule(given[-1])]))


K = bytes.fromhex('01 01 04 00 03 00 01 01 35 04 01 02 00')
K_UNTIL = K[:8] + bytes.fromhex('35 05 01 01 00')
# lines that reach 0, 5 and 9
THREE = [Line(MARK), Line(EVENTUALLY, 0, upper=5), Line(ALWAYS, 0, upper=9)]
# eight lines whose reaches go up and down: 0, 40, 0, 3, 43, 3, 3, 1000
EIGHT = [Line(), Line(ALWAYS, 0, upper=40), Line(MARK, 1), Line(UNTIL, 0, 2, 0, 3), Line(EVENTUALLY, 1, upper=3), Line(NOT, 3),
         Line(SINCE, 3, 5, 0, 9), Line(EVENTUALLY, 0, upper=1000)]
# the lines of the longest card
LONGEST = [Line(MARK, 1), Line(UNTIL, 0, 0, 1023, 1023)] + [Line(UNTIL, i, i, 1023, 1023) for i in range(1, 63)]


def with_rules(places, given=EIGHT):
    return card_of([line._replace(rule=int(i in places)) for i, line in enumerate(given)])


def kinds():
    about("the small shift's card, and with its last line an until")
    for card, far in [(K, 0), (K_UNTIL, 1)]:
        assert rule_reaches(card, 1) == [far]
        vector(card)
    about('each kind alone, over a mark')
    vectors([Line()], [Line(MARK)], [Line(MARK, 3)])
    for kind in range(2, 12):
        bounds = (3, 7) if kind in TIMED else (0, 0)
        vectors([Line(MARK), Line(kind, 0, 0, *bounds)])
    about('each kind with two operands, that reach 0, 5 and 9: the larger counts, on either side')
    for kind in [OR, SINCE, UNTIL, AND, IMPLIES]:
        bounds = (3, 7) if kind in TIMED else (0, 0)
        vectors(*[THREE + [Line(kind, first, second, *bounds)] for first, second in [(1, 2), (2, 1), (0, 1), (1, 0)]])
    about('each kind with one operand, that reaches 5 or 9')
    for kind in [NOT, ONCE, HISTORICALLY, EVENTUALLY, ALWAYS]:
        bounds = (3, 7) if kind in TIMED else (0, 0)
        vectors(*[THREE + [Line(kind, first, 0, *bounds)] for first in [1, 2]])
    about('a true and a mark behind lines that reach far')
    vectors(THREE + [Line()], THREE + [Line(MARK, 2)])


def intervals():
    about('since, once and historically add nothing, however large their intervals are')
    for lower, upper in [(0, 1023), (256, 256)]:
        vectors(*[THREE + [line._replace(lower=lower, upper=upper)] for line in
                  [Line(SINCE, 0, 0), Line(SINCE, 1, 2), Line(ONCE, 0), Line(ONCE, 2), Line(HISTORICALLY, 0), Line(HISTORICALLY, 1)]])
    about('until, eventually and always add upper, whatever lower is')
    for lower, upper in [(0, 0), (0, 1), (1, 1), (255, 256), (0, 1023), (1023, 1023)]:
        vectors(*[THREE + [line._replace(lower=lower, upper=upper)] for line in [Line(UNTIL, 1, 0), Line(EVENTUALLY, 1), Line(ALWAYS, 1)]])


def tower(kinds, uppers):
    """A line over the one before it for each kind and upper, with the mark as its other operand where it has two."""
    given = [Line(MARK)]
    for kind, upper in zip(kinds, uppers):
        given.append(Line(kind, len(given) - 1, 0, 0, upper))
    return given


def turned(given):
    """The same with the operands of each until swapped."""
    return [line._replace(first=line.second, second=line.first) if line.kind == UNTIL else line for line in given]


def nested():
    about('untils in untils, in the first operand and in the second; in both')
    for uppers in [(1, 2), (1, 2, 4), (1000, 20, 3, 1023), (0, 7, 0), (1, 2, 4, 8, 16, 32, 64, 128, 256, 512)]:
        given = tower([UNTIL] * len(uppers), uppers)
        assert line_reaches(given)[-1] == sum(uppers)
        vectors(given, turned(given))
    both = [Line(MARK), Line(UNTIL, 0, 0, 0, 3), Line(UNTIL, 0, 0, 2, 5), Line(UNTIL, 1, 2, 0, 10), Line(UNTIL, 2, 1, 0, 9)]
    vectors(both, both + [Line(UNTIL, 3, 4, 1, 100)], both + [Line(UNTIL, 4, 3, 1, 100)], both + [Line(OR, 4, 3), Line(UNTIL, 5, 5, 1, 100)])
    about('kinds that look ahead between kinds that do not')
    uppers = (3, 1000, 40, 1000, 500)
    vectors(*[tower(kinds, uppers) for kinds in [(ALWAYS, ONCE, EVENTUALLY, SINCE, UNTIL), (SINCE, ALWAYS, HISTORICALLY, EVENTUALLY, ONCE),
                                                 (UNTIL, HISTORICALLY, ALWAYS, ONCE, SINCE)]])
    vectors([Line(MARK), Line(EVENTUALLY, 0, upper=5), Line(NOT, 1), Line(ALWAYS, 2, upper=6), Line(IMPLIES, 3, 1), Line(NOT, 4)])


def farthest():
    about('the farthest reach: 63 lines over a mark, each 1,023 ahead; and one line less')
    full = [1023] * 63
    assert line_reaches(tower([ALWAYS] * 63, full))[63] == 64449
    vectors(tower([ALWAYS] * 63, full), tower([EVENTUALLY] * 62, full))
    about('the same of untils in the longest card, each both operands of the next; and of 8 rules')
    assert len(with_rules([63], LONGEST)) == 510
    vectors(LONGEST)
    vector(with_rules([0, 1, 31, 32, 33, 60, 62, 63], LONGEST), room=8)
    about('64 lines that do not look ahead')
    vectors(tower([NOT, OR, AND, IMPLIES] * 15 + [NOT] * 3, [0] * 63))


def rules():
    about('1 to 8 rules, the first lines or the last')
    assert line_reaches(EIGHT) == [0, 40, 0, 3, 43, 3, 3, 1000]
    for n in range(1, 9):
        vector(with_rules(range(n)), room=8)
        vector(with_rules(range(8 - n, 8)), room=8)
    about('rules in any place')
    for places in [[3], [1, 7], [0, 4, 5], [2, 3, 7], [1, 4, 5, 6], [0, 2, 3, 5, 7], [0, 1, 3, 4, 6, 7]]:
        vector(with_rules(places))
    about('a rule that is the operand of others; equal rules; a rule that no other line has to do with')
    vector(with_rules(range(8), tower([ALWAYS, UNTIL] * 4, [1, 10, 100, 1000] * 2)))
    vector(with_rules([1, 2, 3], THREE + [Line(UNTIL, 1, 2, 0, 7)]))
    vector(with_rules([1, 2, 3], [Line()] + [Line(ALWAYS, 0, upper=8)] * 3))
    vector(with_rules([0, 3], [Line(MARK, 3)] + THREE))


def buffers():
    about('buffers of every length about the number of rules')
    for n, rooms in [(1, range(3)), (2, range(4)), (4, range(2, 7)), (8, range(6, 13))]:
        for room in rooms:
            vector(with_rules(range(8 - n, 8)), room=room)


def cuts():
    about('a card that is broken off at each of its bytes')
    card = with_rules([1], [Line(MARK, 1), Line(UNTIL, 0, 0, 1, 2)])
    for n in range(len(card) + 1):
        vector(card[:n])
    about('fewer lines than the heading says')
    for count in [2, 64]:
        vector(card_of([rule(Line())], count=count))
    about('bytes that follow')
    for more in [b'\x00', b'\x20', b'\xFF', K]:
        vector(K + more)
    vector(card_of([rule(Line()), Line()], count=1))
    vector(with_rules([63], LONGEST) + bytes(2))


def headings():
    about('each number of the heading at its most, one more, the highest, and 0; 64 lines are above')
    for name, most, highest in [('marks', 32, 255), ('stations', 16, 255), ('minutes', 1024, 65535), ('count', 64, 255)]:
        for number in [most, most + 1, highest, 0][name == 'count':]:
            vector(card_of([rule(Line())], **{name: number}))
    about('two bad numbers; bad numbers and nothing else; a heading that is cut too')
    vector(card_of([rule(Line())], marks=33, minutes=0))
    vector(card_of([rule(Line())], stations=17, count=0))
    vector(card_of([rule(Line())], minutes=1280, count=65))
    vector(bytes([0, 0, 0, 0, 0]))
    vector(bytes([1, 1, 0, 0, 1]))
    vector(bytes([0, 1, 4, 0]))


# lines that break a rule, as line 2 of a card with 4 marks
BROKEN = [
    ('a kind that there is not', [Line(12), Line(12, 1, 1, 1, 2), Line(255)]),
    ('true with a field', [Line(TRUE, 1), Line(TRUE, 0, 1), Line(TRUE, 0, 0, 1, 1), Line(TRUE, 0, 0, 0, 1)]),
    ('a mark with a field, and one beyond the card', [Line(MARK, 1, 1), Line(MARK, 1, 0, 0, 1), Line(MARK, 4), Line(MARK, 255)]),
    ('not, or, and, implies with a field', [Line(NOT, 1, 1), Line(NOT, 1, 0, 0, 1), Line(OR, 1, 1, 1, 1), Line(AND, 1, 1, 0, 1),
                                            Line(IMPLIES, 1, 1, 0, 1)]),
    ('once, historically, eventually, always with a second', [Line(kind, 1, 1, 0, 1) for kind in (ONCE, HISTORICALLY, EVENTUALLY, ALWAYS)]),
    ('an operand that is no earlier line', [Line(NOT, 2), Line(OR, 0, 2), Line(SINCE, 3, 0, 0, 1), Line(UNTIL, 0, 2, 0, 1), Line(AND, 2, 0),
                                            Line(IMPLIES, 0, 255), Line(ONCE, 2), Line(HISTORICALLY, 2), Line(EVENTUALLY, 2, 0, 0, 1),
                                            Line(ALWAYS, 255)]),
    ('lower above upper', [Line(SINCE, 1, 0, 1, 0), Line(UNTIL, 1, 0, 1023, 1022), Line(ONCE, 1, 0, 1, 0), Line(HISTORICALLY, 1, 0, 256, 255),
                           Line(EVENTUALLY, 1, 0, 1, 0), Line(ALWAYS, 1, 0, 1023, 1022)]),
    ('upper above 1,023', [Line(SINCE, 1, 0, 0, 1024), Line(UNTIL, 1, 0, 0, 1024), Line(ONCE, 1, 0, 0, 65535), Line(HISTORICALLY, 1, 0, 0, 1024),
                           Line(EVENTUALLY, 1, 0, 0, 1024), Line(ALWAYS, 1, 0, 0, 65535)]),
]


def bad_lines():
    before = [Line(), Line(MARK, 1)]
    for words, broken in BROKEN:
        about(words)
        vectors(*[before + [line] for line in broken])
    about('bits 6 and 7, and a field that is written as 0')
    head = card_of(before, count=3)
    for text in ['60', 'A0', 'E0', '21 00', '23 01 00', '27 03 01 00', '3F 04 01 01 00 00 01 00', '37 05 01 01 00 00']:
        vector(head + bytes.fromhex(text))
    about('the first line that is bad')
    vector(card_of([Line(NOT), rule(Line())]))
    vector(card_of([Line(), Line(NOT, 1), Line(NOT, 9), rule(Line())]))


def counts():
    about('no rule; 9 rules; all 64')
    vector(card_of([Line()]))
    vector(card_of(EIGHT))
    vector(card_of([rule(Line())] * 9))
    vector(card_of([rule(Line())] * 64))


def order():
    about('a bad line that is cut too; a bad line and then a cut; and then bytes that follow, and no rule')
    for text in ['02 01 04 00 01 EC 01', '02 01 04 00 02 41 02', '02 01 04 00 02 01 0C 21', '02 01 04 00 01 01 0C 00', '02 01 04 00 01 01 0C',
                 '02 01 04 00 01 00 00', '02 01 04 00 01 20 20', '02 01 04 00 01 00']:
        vector(bytes.fromhex(text))
    about('1 to 4 before 11')
    refused = [b'', K[:4], K[:12], K + b'\x00', b'\x00' + K[1:], K[:4] + b'\x41' + K[5:], K[:8] + b'\x75' + K[9:], K[:9] + b'\x0C' + K[10:],
               K[:8] + b'\x15' + K[9:], card_of([rule(Line())] * 9)]
    for card in refused:
        vector(card, room=0)
    vector(refused[-1], room=8)
    vector(K, room=0)


def some_line(rng, i):
    """A random line that keeps the rules of its kind."""
    kind = rng.choice([TRUE, MARK] if i == 0 else range(12))
    if kind in (TRUE, MARK):
        return Line(kind, rng.randrange(4) if kind == MARK else 0)
    first, second = rng.randrange(i // 2, i), rng.randrange(i) if OPERANDS[kind] > 1 else 0
    if kind not in TIMED:
        return Line(kind, first, second)
    return Line(kind, first, second, *sorted(rng.choice([0, 1, 2, 30, 255, 256, 1023, rng.randrange(1024)]) for _ in range(2)))


def at_random():
    rng = random.Random(8)
    about('random cards; each of the last twelve has a byte changed, or is cut')
    for n in range(36):
        count = rng.randint(1, 20)
        rules = set(rng.sample(range(count), rng.randint(1, min(count, 8))))
        card = with_rules(rules, [some_line(rng, i) for i in range(count)])
        if n >= 24:
            at = rng.randrange(5, len(card))
            card = card[:at] + bytes([rng.choice([0, 1, 4, 12, 32, 64, 255])]) + card[at + 1:] if n % 3 else card[:at]
        vector(card, room=rng.choice([4, 8, 12]))


def main():
    for part in [kinds, intervals, nested, farthest, rules, buffers, cuts, headings, bad_lines, counts, order, at_random]:
        part()
    here = os.path.dirname(os.path.abspath(__file__))
    with open(f'{here}/stdin', 'w') as out:
        out.writelines(text + '\n' for text, _ in lines)
        assert out.tell() <= 65536
    with open(f'{here}/stdout', 'w') as out:
        out.writelines(text + said + '\n' for text, said in lines)


main()
