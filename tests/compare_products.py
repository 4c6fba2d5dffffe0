#!/usr/bin/env python3
"""Holds the port's product of operations, whatever their bytes, and of operations as numbers, whatever their bits, to integers.

    python3 tests/compare_products.py PORT [--all] [--emulator COMMAND]

PORT is the program made from tests/products.c. A digit d is the entry d - 1, whatever d is; a product is (RS, Ru + t modulo 12), or none where an entry of RS
is outside -1..1. A number has a row in each 21 bits: three digits of two bits, five bits apart, then four bits of twelfths; its highest bit is the flag. Without
--all 20,000 products of each kind are made, with it a million. Prints how many were inside, and 'N passed, M failed'.
"""

import argparse
import functools
import itertools
import random
import struct
import subprocess
import sys

GATE, ALL = 20000, 1000000
BATCH = 100000
ZERO = [1] * 9
OUTSIDE = 2 ** 62


def product(f, g):
    """The product of two operations of twelve bytes, as integers have it, or None."""
    r = [digit - 1 for digit in f[:9]]
    s = [digit - 1 for digit in g[:9]]
    u, t = g[9:], f[9:]
    entries = [r[i] * s[j] + r[i + 1] * s[j + 3] + r[i + 2] * s[j + 6] for i in (0, 3, 6) for j in (0, 1, 2)]
    if not all(-1 <= entry <= 1 for entry in entries):
        return None
    moved = [(r[i] * u[0] + r[i + 1] * u[1] + r[i + 2] * u[2] + t[k]) % 12 for k, i in enumerate((0, 3, 6))]
    return bytes([entry + 1 for entry in entries] + moved)


def some(chance, count, bound):
    return [chance.randrange(bound) for _ in range(count)]


def turn(chance):
    """A rotation of a cube, as digits: its product with another is inside."""
    digits = list(ZERO)
    for row, column in enumerate(chance.sample(range(3), 3)):
        digits[3 * row + column] = chance.choice((0, 2))
    return digits


def pairs(chance):
    """Kinds of pairs in turn. A right factor without a rotation keeps the product inside, so that the left one may have any bytes."""
    while True:
        yield some(chance, 24, 256)
        yield some(chance, 12, 256) + ZERO + some(chance, 3, 256)
        yield some(chance, 9, 3) + some(chance, 3, 12) + some(chance, 9, 3) + some(chance, 3, 12)
        yield turn(chance) + some(chance, 3, 12) + turn(chance) + some(chance, 3, 12)
        yield turn(chance) + some(chance, 3, 256) + turn(chance) + some(chance, 3, 256)
        # sums on both sides of 512
        yield some(chance, 9, 16) + some(chance, 3, 256) + ZERO + some(chance, 3, 14)


def number(operation, flag):
    rows = sum((operation[3 * i] | operation[3 * i + 1] << 5 | operation[3 * i + 2] << 10 | operation[9 + i] << 15) << 21 * i for i in range(3))
    return rows | flag << 63


def said_by(n):
    """The operation and the flag that a number says."""
    return [n >> 21 * i + 5 * j & 3 for i in range(3) for j in range(3)] + [n >> 21 * i + 15 & 15 for i in range(3)], n >> 63


def pairs_of_numbers(chance):
    flag = functools.partial(chance.randrange, 2)
    while True:
        yield chance.randrange(2 ** 64), chance.randrange(2 ** 64)
        yield chance.randrange(2 ** 64), number(ZERO + some(chance, 3, 16), flag())
        yield number(some(chance, 9, 4) + some(chance, 3, 16), flag()), number(turn(chance) + some(chance, 3, 16), flag())
        yield tuple(number(some(chance, 9, 3) + some(chance, 3, 12), flag()) for _ in range(2))
        yield tuple(number(turn(chance) + some(chance, 3, 12), flag()) for _ in range(2))


def answers(command, batch):
    said = subprocess.run(command, input=b"".join(map(bytes, batch)), stdout=subprocess.PIPE, check=True).stdout
    assert len(said) == 13 * len(batch)
    for place in range(0, len(said), 13):
        yield said[place + 1:place + 13] if said[place] else None


def main():
    parser = argparse.ArgumentParser()
    parser.add_argument("port")
    parser.add_argument("--all", action="store_true")
    parser.add_argument("--emulator", default="")
    given = parser.parse_args()
    command = given.emulator.split() + [given.port]
    passed = failed = inside = 0
    made = itertools.islice(pairs(random.Random(12)), ALL if given.all else GATE)
    while batch := list(itertools.islice(made, BATCH)):
        for pair, said in zip(batch, answers(command, batch)):
            right = product(pair[:12], pair[12:])
            inside += right is not None
            if said == right:
                passed += 1
            else:
                failed += 1
                if failed < 10:
                    print("%s: %s, and integers say %s" % (bytes(pair).hex(), said and said.hex(), right and right.hex()))
    made = itertools.islice(pairs_of_numbers(random.Random(21)), ALL if given.all else GATE)
    while batch := list(itertools.islice(made, BATCH)):
        told = subprocess.run(command + ["numbers"], input=b"".join(struct.pack("<QQ", *pair) for pair in batch), stdout=subprocess.PIPE, check=True).stdout
        for (f, g), (n,) in zip(batch, struct.iter_unpack("<Q", told), strict=True):
            (left, one), (right, other) = said_by(f), said_by(g)
            operation = product(left, right)
            wanted = OUTSIDE if operation is None else number(operation, one ^ other)
            inside += operation is not None
            passed += n == wanted
            failed += n != wanted
            if n != wanted and failed < 10:
                print("%016x %016x: %016x, and integers say %016x" % (f, g, n, wanted))
    print("%d inside" % inside)
    print("%d passed, %d failed" % (passed, failed))
    return failed != 0


if __name__ == "__main__":
    sys.exit(main())
