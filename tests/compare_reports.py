#!/usr/bin/env python3
"""Holds the reports of two records to the model of the rules, and takes each to its first record, which must yield the second.

    python3 tests/compare_reports.py PROGRAM [--emulator COMMAND]

PROGRAM is made from tests/entries.c. The records are those of oracle/recorded/symbols.txt and of groups near them: their subgroups, and the same group seen
from another origin. What is random has a fixed seed. Prints 'N passed, M failed'.
"""

import sys
from functools import lru_cache

from entries import Noise, comparison, packed, recorded

import model

SEED = 9
PAIRED = 60         # records of which every two are compared
NEIGHBOURS = 2500   # records near them, compared both ways
ENTRY = 9
# What is worked out by hand: two symbols and the report of their records in hex.
BY_HAND = [
    (b"-P 1", b"P 1", "010C7E000000000000"), (b"P 1", b"-P 1", "020C7E000000000000"), (b"P 2", b"P 21", "030C80000000000006"),
    (b"P 21", b"P 2", "030C80000006000000"), (b"P 2", b"P 2", ""), (b"P 1", b"I 1", "5049"), (b"H 3", b"P 3", "4850"),
    (b"P 2", b"-P 1", "020C7E000000000000" "010C80000000000000"), (b"I 2", b"I 2b", "030C80000000000600"), (b"I 2", b"I 2n", ""),
    # A layer and a space group with the same motions differ in their letters; two layers as two space groups do.
    (b"p 1", b"P 1", "7050"), (b"P 1", b"p 1", "5070"), (b"p 1", b"c 1", "7063"), (b"c 2", b"C 2", "6343"), (b"-p 1", b"p 1", "010C7E000000000000"),
]


def written(lent, report):
    return report + lent[len(report):]


@lru_cache(maxsize=None)
def group(record):
    return model.read_record(record)


def record_of(text):
    return model.record(*(model.group_of_layer if text.lstrip(b"-")[:1] in b"pc" else model.group_of_symbol)(text))


def taken(report, record):
    """The record that a report makes of its first one: what an entry speaks of goes, and what kinds 2 and 3 bring comes."""
    items = {record[i:i + 2]: record[i + 2:i + 5] for i in range(0, len(record) - 5, 5)}
    for entry in (report[i:i + ENTRY] for i in range(0, len(report), ENTRY)):
        kind, code, first, second = entry[0], entry[1:3], entry[3:6], entry[6:]
        assert items.pop(code, None) == (None if kind == 2 else first)
        if kind != 1:
            items[code] = second
    body = b"".join(code + items[code] for code in sorted(items))
    return body + record[-5:-3] + bytes([len(items)]) + (len(body) + 5).to_bytes(2, "big")


def compared(calls, first, second, noise, everywhere=False):
    """Two records, with bytes before them now and then; where a byte is lacking nothing is written."""
    report = model.report_of(*group(first), *group(second))
    if first[-5] == second[-5]:
        assert taken(report, first) == second
    else:
        assert report == bytes([first[-5], second[-5]])
    before, others = noise.bytes(noise.below(4)), noise.bytes(noise.below(4))
    lent = noise.bytes(len(report) + noise.below(9))
    calls.call("record_compare", before + first, others + second, lent, gives=len(report), leaves=[others + second, written(lent, report)])
    if everywhere:
        for room in range(len(report) + 2):
            lent = noise.bytes(room)
            fits = room >= len(report)
            calls.call("record_compare", first, second, lent, gives=len(report) if fits else packed(20),
                       leaves=[second, written(lent, report) if fits else lent])
        calls.call("record_compare", first, second, None, gives=packed(20) if report else 0, leaves=[second, b""])
    elif report and noise.below(3) == 0:
        calls.call("record_compare", first, second, lent[:len(report) - 1], gives=packed(20))


def generated(letter, operations, some):
    """The operations of a group that some of them generate."""
    found, new = {(model.IDENTITY, model.NO_TRANSLATION)}, list(some)
    while new:
        operation = new.pop()
        if operation not in found:
            found.add(operation)
            new += [model.class_of(letter, model.product(operation, other)) for other in some]
    return sorted(found)


def from_origin(letter, operations, vector):
    """The same group seen from an origin moved by a vector."""
    return [(rotation, model.mod_cell(model.plus(triple, model.plus(vector, [-x for x in model.apply(rotation, vector)])))) for rotation, triple in operations]


def neighbour(record, noise):
    """A record near one: of a subgroup, of the same group from another origin, or both."""
    letter, operations = group(record)
    way = noise.below(3)
    if way != 1:
        operations = generated(letter, operations, noise.chance.sample(operations, min(len(operations), 1 + noise.below(2))))
    if way != 0:
        operations = from_origin(letter, operations, tuple(noise.chance.choice((0, 1, 3, 6)) for _ in range(3)))
    return model.record(letter, operations)


def damaged(record, noise):
    """The record with one thing wrong: each of 30 to 35, and any byte changed."""
    trailer = record[-5:]
    yield record[-9:]
    yield record[:-4] + b"\x03" + record[-3:]
    yield model.moved_record(record)
    yield record[:-5] + b"S" + trailer[1:]
    yield record[:-3] + bytes([49]) + record[-2:]
    yield b"\xff" + record[1:]
    yield trailer.join((b"\x0c\x7e\x00\x00\x00", b""))[:5] + trailer[:2] + b"\x01\x00\x0a"
    place = noise.below(len(record))
    yield record[:place] + bytes([record[place] ^ 1 << noise.below(8)]) + record[place + 1:]


def refused(calls, first, second, noise):
    """Buffers that may hold no record: the first's number, then the second's with 30 more, then the room."""
    lent = noise.bytes(noise.below(30))
    after = bytearray(lent)
    said = model.outcome(model.compare_records, first, second, after)
    gives = packed(*said) if isinstance(said, tuple) else said
    calls.call("record_compare", first, second, lent, gives=gives, leaves=[second, bytes(after)])


def main():
    calls, _ = comparison(__doc__)
    noise = Noise(SEED)
    for first, second, report in BY_HAND:
        assert model.report_of(*group(record_of(first)), *group(record_of(second))).hex() == report.lower()
        compared(calls, record_of(first), record_of(second), noise, everywhere=True)
    records = list(dict.fromkeys(bytes.fromhex(words[3]) for words in recorded("symbols.txt") if words[1] == "0"))
    paired = noise.chance.sample(records, PAIRED)
    for first in paired:
        for second in paired:
            compared(calls, first, second, noise)
    for _ in range(NEIGHBOURS):
        record = noise.chance.choice(records)
        other = neighbour(record, noise)
        compared(calls, record, other, noise)
        compared(calls, other, record, noise)
    for text in (b"P 1", b"-P 1", b"P 31", b"I 4bw", b"R 3 2=", b"F 2 -2d", b"-p 1", b"c 2"):
        record = record_of(text)
        for bad in damaged(record, noise):
            for other in (record, record_of(b"-P 1"), bad, b"", record[:7]):
                refused(calls, bad, other, noise)
                refused(calls, other, bad, noise)
    calls.call("record_compare", None, None, None, gives=packed(30))
    calls.call("record_compare", record_of(b"P 1"), None, None, gives=packed(60))
    return calls.end()


if __name__ == "__main__":
    sys.exit(main())
