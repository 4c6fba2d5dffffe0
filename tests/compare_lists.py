#!/usr/bin/env python3
"""Holds the check of another program's lists to the model of the rules: the recorded groups in any order with any translations, and each damaged.

    python3 tests/compare_lists.py PROGRAM [--emulator COMMAND]

PROGRAM is made from tests/entries.c. The lists come from the records in oracle/recorded/symbols.txt, their entries shuffled and moved by vectors of
the lattice; the verdicts on them are the model's. What is random has a fixed seed. Prints 'N passed, M failed'.
"""

import sys

from entries import MOST_BYTES, Noise, answer_of, comparison, packed, recorded

import model

SEED = 12
ENTRY, MISSING = 65536, 131072
CODE_OUT = (model.MOST_CODE + 1).to_bytes(2, "big")
# What is worked out by hand: the list and the answer.
BY_HAND = [
    (b"P 1", "4064000000", 0), (b"P 1", "", MISSING + 16484), (b"P 1", "40640000004064000000", ENTRY + 1),
    (b"P 1", "4064060000", ENTRY), (b"I 1", "4064060606", 0), (b"I 1", "40640000004064060606", ENTRY + 1),
    (b"-P 1", "4064000000", MISSING + 0x0C7E), (b"-P 1", "0C7E000000", MISSING + 16484), (b"-P 1", "40640000000C7E000000", 0),
    (b"-P 1", "0C7E0C00004064000000", packed(44, 0)), (b"-P 1", "40640600004CE3000000", packed(44, 1)), (b"-P 1", "40640600004CE2000000", ENTRY),
    (b"P 1", "40640000", packed(43)), (b"P 1a", "4064000000", packed(14)), (b"P 2aa", "00", packed(17, 4)), (b"", "40", packed(3)),
]


def number_of(said):
    """What is said of a list, as C has it."""
    return {"yes": 0, "entry": ENTRY, "missing": MISSING}[said[0]] + sum(said[1:])


def item(operation):
    rotation, triple = operation
    return model.code(rotation).to_bytes(2, "big") + bytes(triple)


def moved(operation, vector):
    rotation, triple = operation
    return rotation, model.mod_cell(model.plus(triple, vector))


def other_writing(letter, operations, noise):
    """The same operations modulo the lattice in another order, each with another translation of its class where there is one."""
    written = [moved(operation, noise.chance.choice(model.POINTS[letter])) for operation in operations]
    noise.chance.shuffle(written)
    return written


def off_lattice(letter, noise):
    while True:
        vector = tuple(noise.below(12) for _ in range(3))
        if vector not in model.POINTS[letter]:
            return vector


def damaged(letter, operations, noise):
    """The list with one thing wrong, or two, and some that are still right."""
    count = len(operations)
    items = [item(operation) for operation in operations]
    at, to = noise.below(count), noise.below(count)
    foreign = (tuple(noise.chance.choice((-1, 0, 1)) for _ in range(9)), (0, 0, 0))
    yield items
    yield items[:at] + items[at + 1:]
    yield items[:at][:to] + items[at + 1:]
    yield items[:at + 1] + [item(moved(operations[at], noise.chance.choice(model.POINTS[letter])))] + items[at + 1:]
    yield [item(moved(operations[to], noise.chance.choice(model.POINTS[letter]))) if i == at else each for i, each in enumerate(items)]
    yield [item(moved(operations[at], off_lattice(letter, noise))) if i == at else each for i, each in enumerate(items)]
    yield [item(moved(operation, noise.chance.choice(model.POINTS[letter]))) for operation in operations]
    yield [item(foreign) if i == at else each for i, each in enumerate(items)]
    yield [CODE_OUT + each[2:] if i == at else each for i, each in enumerate(items)]
    yield [each[:2 + to % 3] + b"\x0c" + each[3 + to % 3:] if i == at else each for i, each in enumerate(items)]
    yield [item(foreign)] + items[:at] + [b"\xff" * 5] + items[at + 1:]
    yield items[:at] + [items[at][:-1 - to % 4]] + items[at + 1:]
    yield items + [noise.bytes(1 + to % 4)]
    yield items + [items[to]] * (49 - count)
    yield []


def main():
    calls, _ = comparison(__doc__)
    noise = Noise(SEED)
    for text, data, gives in BY_HAND:
        calls.call("symbol_check", text, bytes.fromhex(data), gives=gives)
        assert answer_of(model.outcome(model.check_list, text, bytes.fromhex(data)), number_of) == gives
    for word, number, place, *record in recorded("symbols.txt"):
        text = model.text_of_hex(word)
        if number != "0":
            refusal = packed(int(number), int(place))
            for data in (b"", noise.bytes(5), noise.bytes(noise.below(250))):
                calls.call("symbol_check", text, data, gives=refusal)
            continue
        letter, operations = model.read_record(bytes.fromhex(record[0]))
        for items in damaged(letter, other_writing(letter, operations, noise), noise):
            data = b"".join(items)
            said = model.outcome(model.compare_list, letter, operations, data)
            calls.call("symbol_check", text, data or None, gives=answer_of(said, number_of))
    for length in (239, 240, 241, 245, 480, MOST_BYTES):
        data = bytes.fromhex("4064000000") * (length // 5) + bytes(length % 5)
        said = model.outcome(model.check_list, b"P 1", data)
        calls.call("symbol_check", b"P 1", data, gives=answer_of(said, number_of))
    return calls.end()


if __name__ == "__main__":
    sys.exit(main())
