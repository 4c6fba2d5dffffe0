#!/usr/bin/env python3
"""Holds records of editions 1 and 3 to the model of the rules: moved there and back, read, copied, damaged, in buffers that lack a byte.

    python3 tests/compare_editions.py PROGRAM [--emulator COMMAND] [--whole]

PROGRAM is made from tests/entries.c. The records are those of the recorded symbols (oracle/recorded/symbols.txt, damaged.txt), the verdicts on damaged
ones are the model's. With --whole every record, damaged buffer and group is taken, else one of twenty. What is random has a fixed seed.
Prints 'N passed, M failed'.
"""

import sys

from compare_records import write_everywhere, written
from entries import BEYOND, Noise, answer_of, comparison, packed, recorded, sets

import cases
import model

SEED = 33
DAMAGED_COUNT = 30000
SHARE = 20
FIRST = bytes.fromhex("0C7E0000004064000000500102000F")
THIRD = bytes.fromhex("0054528001B2A300500302000D")
SHORTEST = bytes.fromhex("01B2A3005003010009")


def known_records(share):
    """The records of the recorded symbols, each once, by a text."""
    found = {}
    for word, number, _, *record in recorded("symbols.txt") + recorded("damaged.txt"):
        if number == "0":
            found.setdefault(bytes.fromhex(record[0]), model.text_of_hex(word))
    return dict(list(found.items())[::share])


def moved_there_and_back(calls, record, noise):
    """From either side, with and without bytes in front: the other edition's record, and what both say."""
    other = model.moved_record(record)
    assert model.moved_record(other) == record
    for source, target in ((record, other), (other, record)):
        for front in (b"", noise.bytes(1 + noise.below(20))):
            buffer = front + source
            write_everywhere(calls, "record_move", buffer, target, noise)
            write_everywhere(calls, "record_copy", buffer, source, noise)
            calls.call("record_edition", buffer, gives=source[-4])
            calls.call("record_order", buffer, gives=record[-3])
            calls.call("record_letter", buffer, gives=record[-5])
    return other


def asked_alike(calls, text, record, other):
    """Subgroups and normalizers from both records, against the model's of the table."""
    table = model.table_of_record(record)
    subgroups = model.subgroups(table)
    for source in (record, other):
        calls.call("record_identity", source, gives=table.identity)
        calls.call("record_subgroups", source, bytes(8 * len(subgroups)), gives=len(subgroups), leaves=[sets(subgroups)])
        calls.call("record_normalizer", source, subgroups[-1], gives=model.normalizer(table, subgroups[-1]))


def judged(calls, buffer, noise):
    """The model's verdict on a buffer that may hold no record."""
    said = model.outcome(model.read_record, buffer)
    accepted = not isinstance(said[0], int)
    calls.call("record_edition", buffer, gives=answer_of(said, lambda _: model.record_edition(buffer)))
    calls.call("record_order", buffer, gives=answer_of(said, lambda group: len(group[1])))
    start = noise.below(7)
    lent = noise.bytes(start + 250)
    for entry, record in (("record_move", model.moved_record), ("record_copy", model.copied_record)):
        left = written(lent, start, record(buffer)) if accepted else lent
        calls.call(entry, buffer, lent, start, gives=answer_of(said, lambda group: len(group[1])), leaves=[left])
        calls.call(entry, buffer, lent, BEYOND[noise.below(5)], gives=answer_of(said, lambda _: packed(20)))


def third_trailer(letter, count):
    return bytes([letter, 3, count]) + (4 * count + 5).to_bytes(2, "big")


def damaged(noise, record, other):
    """An edition 3 record with one thing changed, or none."""
    items, letter = [record[i:i + 4] for i in range(0, len(record) - 5, 4)], record[-5]
    some, at = noise.below(len(items)), noise.below(len(record))
    number = int.from_bytes(items[some], "big")
    kind = noise.below(12)
    together = lambda parts: b"".join(parts) + third_trailer(letter, len(parts))
    if kind == 0:
        return noise.bytes(noise.below(8)) + record
    if kind == 1:
        return record[at:]
    if kind == 2:
        return record[:at] + bytes([noise.below(256)]) + record[at + 1:]
    if kind == 3:
        return b"".join(items) + third_trailer(b"PABCIRFHpc"[noise.below(10)], len(items))
    if kind == 4:
        return record[:-4] + bytes([(0, 1, 2, 3)[noise.below(4)], (0, len(items), len(items) + 1, 49)[noise.below(4)]]) + record[-2:]
    if kind == 5:
        return record[:-2] + (len(record) + (-1, 1, 256, len(items))[noise.below(4)]).to_bytes(2, "big")
    if kind == 6:
        return together(items[:some] + items[some + 1:])
    if kind == 7:
        return together(items[some:some + 1] + items[:some] + items[some + 1:])
    if kind == 8:
        changed = number + (-1, 1, 12, 144, 1728, 34012224)[noise.below(6)]
        return together(items[:some] + [changed.to_bytes(4, "big")] + items[some + 1:])
    if kind == 9:
        return together(sorted(items + [(number // 1728 * 1728 + noise.below(1728)).to_bytes(4, "big")])[:48])
    if kind == 10:
        return other + record[-5:]
    return together([item for item in items if noise.below(2) or item == SHORTEST[:4]])


def main():
    calls, options = comparison(__doc__, ("--whole",))
    share = 1 if options.whole else SHARE
    noise = Noise(SEED)
    lent = noise.bytes(15)
    calls.call("record_move", FIRST, lent, 0, gives=2, leaves=[written(lent, 0, THIRD)])
    calls.call("record_move", THIRD, lent, 0, gives=2, leaves=[FIRST])
    calls.call("record_order", SHORTEST, gives=1)
    for entry in ("record_move", "record_edition"):
        calls.call(entry, None, *((None, 0) if entry == "record_move" else ()), gives=packed(30))
    for edition in range(256):
        judged(calls, SHORTEST[:-4] + bytes([edition]) + SHORTEST[-3:], noise)
        judged(calls, bytes(4) + bytes([80, edition, 1, 0, 9]), noise)
        judged(calls, bytes([80, edition, 0, 0, 5]), noise)
    others = []
    for record, text in known_records(share).items():
        other = moved_there_and_back(calls, record, noise)
        others.append(other)
        if record[-3] <= 24 or options.whole:
            asked_alike(calls, text, record, other)
    for word, _, _ in recorded("records.txt")[::share]:
        judged(calls, model.text_of_hex(word), noise)
    for _ in range(DAMAGED_COUNT // share):
        judged(calls, damaged(noise, others[noise.below(len(others))], others[noise.below(len(others))]), noise)
    return calls.end()


if __name__ == "__main__":
    sys.exit(main())
