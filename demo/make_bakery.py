#!/usr/bin/env python3
"""Writes the demo's input, bakery.bin, to standard output. It is written from docs/FORMAT.md alone."""
import struct
import sys

TRUE, PROPOSITION, NOT, OR, SINCE, UNTIL, AND, IMPLIES, ONCE, HISTORICALLY, EVENTUALLY, ALWAYS = range(12)


def fields(flags, *parts):
    """A map byte, and after it each field that is not 0; bit k of the map is the k-th field's."""
    present = [(bit, form, value) for bit, (form, value) in enumerate(parts) if value]
    heading = sum(1 << bit for bit, _, _ in present) | flags
    return bytes([heading]) + b"".join(struct.pack("<" + form, value) for _, form, value in present)


def subformula(kind, first=0, second=0, lower=0, upper=0, rule=False):
    return fields(rule << 5, ("B", kind), ("B", first), ("B", second), ("H", lower), ("H", upper))


def told(component, minute, number, values):
    """What a component saw: the value of each proposition that is told, by its number."""
    known = sum(1 << k for k in values)
    bits = sum(values[k] << place for place, k in enumerate(sorted(values)))
    start = fields(0, ("B", component), ("H", minute), ("H", number), ("I", known))
    return start + bits.to_bytes((len(values) + 7) // 8, "little")


def observation(component, minute, number, **values):
    """What a component saw, by the propositions' names."""
    return told(component, minute, number, {NAMES.index(name): value for name, value in values.items()})


def alive(component, minute, number):
    return fields(1 << 4, ("B", component), ("H", minute), ("H", number))


NAMES = ["cleaned", "nut_free", "filled", "chilled"]
MIXER, CHILLER = 0, 1
MINUTES = 480

SUBFORMULAS = [
    subformula(PROPOSITION, NAMES.index("cleaned")),
    subformula(PROPOSITION, NAMES.index("nut_free")),
    subformula(PROPOSITION, NAMES.index("filled")),
    subformula(PROPOSITION, NAMES.index("chilled")),
    subformula(ONCE, 0, upper=240),
    subformula(IMPLIES, 1, 4, rule=True),
    subformula(EVENTUALLY, 3, upper=90),
    subformula(IMPLIES, 2, 6, rule=True),
]


def saw(component, minute, number, what):
    """An observation that tells all four propositions: one is true."""
    return observation(component, minute, number, **{name: name == what for name in NAMES})


MESSAGES = [
    saw(MIXER, 200, 2, "nut_free"),
    saw(MIXER, 10, 1, "cleaned"),
    saw(CHILLER, 60, 1, "filled"),
    saw(CHILLER, 130, 2, "chilled"),
    saw(CHILLER, 300, 3, "filled"),
    saw(MIXER, 320, 3, "nut_free"),
    saw(CHILLER, 420, 4, "chilled"),
    alive(CHILLER, 480, 4),
    alive(MIXER, 480, 3),
    observation(MIXER, 400, 3, nut_free=True),
]


def policy():
    heading = struct.pack("<BBHB", len(NAMES), 2, MINUTES, len(SUBFORMULAS))
    return heading + b"".join(SUBFORMULAS)


def framed(policy, messages):
    """The printing program's input."""
    return struct.pack("<H", len(policy)) + policy + b"".join(bytes([len(message)]) + message for message in messages)


if __name__ == "__main__":
    sys.stdout.buffer.write(framed(policy(), MESSAGES))
