#!/usr/bin/env python3
"""frame.py POLICY: writes the printing program's input to standard output, from a policy's file and from messages that are typed.

A line of standard input is a message: "station 0 minute 10 count 1 m0 not m1" for what a station saw (m0 true, m1 not), and
"station 0 minute 480 count 3 alive" for an alive slip."""
import sys

sys.dont_write_bytecode = True

from make_bakery import alive, framed, told


def message(line):
    words = line.split()
    if words[0:6:2] != ["station", "minute", "count"]:
        raise ValueError(line)
    station, minute, count = [int(word) for word in words[1:6:2]]
    if words[6:] == ["alive"]:
        return alive(station, minute, count)
    values = {int(word[1:]): before != "not" for before, word in zip(words[5:], words[6:]) if word != "not"}
    return told(station, minute, count, values)


if __name__ == "__main__":
    if len(sys.argv) != 2:
        sys.exit(__doc__)
    with open(sys.argv[1], "rb") as policy:
        sys.stdout.buffer.write(framed(policy.read(), [message(line) for line in sys.stdin]))
