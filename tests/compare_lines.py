#!/usr/bin/env python3
"""Holds operation lines as C reads and writes them to the model of the rules.

    python3 tests/compare_lines.py PROGRAM [--emulator COMMAND] [--all]

PROGRAM is made from tests/entries.c. Written: operations of every unimodular code, bytes that are none, buffers that fit exactly, lack a byte or
have more. Read: what was written, every short text over the twelve bytes that rules speak of, alone and behind good beginnings, damaged lines, and
lengths about 64. A sample is taken of these; --all takes them all. What is random has a fixed seed. Prints 'N passed, M failed'.
"""

import sys
from itertools import product

from entries import Noise, answer_of, comparison, packed

import model

SEED = 29
ALPHABET = b" +-/,xyz0126"
BEGINNINGS = [b"x,y,z", b"x,y,z+", b"-x+1/2,y", b"x+y-z+1", b"x,y+11/", b"x,-z+1/4"]
WRITTEN, DAMAGED, SHORT = 12, 4, 15     # in the sample: each so-manieth code, and one in so many damaged lines and short texts
UNIMODULAR = [number for number in range(19683) if abs(model.determinant(model.rotation_of(number))) == 1]


def operation_number(operation):
    rotation, translation = operation
    return model.code(rotation) * 1728 + translation[0] * 144 + translation[1] * 12 + translation[2]


def read(calls, line):
    calls.call("line_operation", line, gives=answer_of(model.outcome(model.read_line, line), operation_number))


def write(calls, operation, noise, everywhere=False):
    """One operation written with room to spare, and where asked into buffers of every length up to its own and beyond."""
    said = model.outcome(model.written_line, operation)
    if isinstance(said, tuple):
        calls.call("operation_line", operation, noise.bytes(noise.below(40)), gives=packed(*said))
        calls.call("operation_line", operation, None, gives=packed(*said))
        return
    lengths = range(len(said) + 4) if everywhere else (len(said) - 1, len(said), 64)
    for length in lengths:
        lent = noise.bytes(length)
        if length < len(said):
            calls.call("operation_line", operation, lent, gives=packed(20))
        else:
            calls.call("operation_line", operation, lent, gives=len(said), leaves=[said + lent[len(said):]])
    read(calls, said)


def operations(calls, noise, step):
    for number in UNIMODULAR[::step]:
        for _ in range(3):
            write(calls, number.to_bytes(2, "big") + bytes(noise.below(12) for _ in range(3)), noise)
    for row in range(3):
        for k in range(12):
            triple = [0, 0, 0]
            triple[row] = k
            write(calls, b"\x40\x64" + bytes(triple), noise, everywhere=True)


def no_operations(calls, noise, step):
    for length in (0, 1, 4, 6, 10):
        write(calls, bytes(length), noise)
    for number in (0, 1, 9841, 19682, 19683, 19684, 32768, 65535):
        write(calls, number.to_bytes(2, "big") + bytes(3), noise)
    for place in range(2, 5):
        for value in (11, 12, 13, 255):
            operation = bytearray(b"\x40\x64\x00\x00\x00")
            operation[place] = value
            write(calls, bytes(operation), noise)
    for number in range(0, 19683, step):
        write(calls, number.to_bytes(2, "big") + bytes(noise.below(13) for _ in range(3)), noise)


def texts(calls, noise, one_in):
    """Every text of up to five bytes over the alphabet, and of up to four behind each beginning."""
    for beginning, most in [(b"", 5)] + [(each, 4) for each in BEGINNINGS]:
        for length in range(most + 1):
            for rest in product(ALPHABET, repeat=length):
                if length < 3 or not noise.below(one_in):
                    read(calls, beginning + bytes(rest))


def any_line(noise):
    """A well spelt line with spaces, terms in any order and signs where they may be left out."""
    parts = []
    for _ in range(3):
        bodies = [letter for letter in ("x", "y", "z") if noise.below(2)] or ["xyz"[noise.below(3)]]
        if noise.below(2):
            q = (2, 3, 4, 6, 12)[noise.below(5)]
            bodies.append("%d/%d" % (1 + noise.below(q - 1), q))
        terms = []
        while bodies:
            gap = lambda: " " * (noise.below(4) == 0)
            sign = "-" if noise.below(2) else "" if not terms and noise.below(2) else "+"
            terms.append(gap() + sign + gap() + bodies.pop(noise.below(len(bodies))) + gap())
        parts.append("".join(terms))
    return ",".join(parts).encode()


def damaged(noise, line):
    """The line with one byte changed, left out, put in, doubled, or cut off."""
    at, other = noise.below(len(line)), bytes([(ALPHABET + b"34579;X\t")[noise.below(20)]])
    return (line[:at] + other + line[at + 1:], line[:at] + line[at + 1:], line[:at] + other + line[at:], line[:at] + line[at:at + 1] + line[at:],
            line[:at])[noise.below(5)]


def lines(calls, noise, count):
    for _ in range(count):
        line = any_line(noise)
        read(calls, line)
        read(calls, damaged(noise, line))
        read(calls, damaged(noise, damaged(noise, line) or b"x"))


def lengths(calls, noise):
    for length in range(62, 68):
        for line in (b"x,y,z", b"-x,-y+1/2,z", b"x,y,z+", b"x,y", b"x,,z"):
            read(calls, line.ljust(length))
            read(calls, line.rjust(length))
        read(calls, b"x" * length)
        read(calls, noise.bytes(length))
    for line in (b"", None):
        calls.call("line_operation", line, gives=packed(41, 0))
    for value in range(256):
        read(calls, bytes([value]))
        read(calls, b"x,y,z" + bytes([value]))


def main():
    calls, options = comparison(__doc__, ["--all"])
    noise = Noise(SEED)
    whole = options.all
    operations(calls, noise, 1 if whole else WRITTEN)
    no_operations(calls, noise, 1 if whole else 7)
    texts(calls, noise, 1 if whole else SHORT)
    lines(calls, noise, 50000 if whole else 50000 // DAMAGED // 4)
    lengths(calls, noise)
    return calls.end()


if __name__ == "__main__":
    sys.exit(main())
