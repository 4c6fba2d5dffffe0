#!/usr/bin/env python3
"""Holds what C is told of magnetic symbols and records to the Rust's `MagneticHallSymbol` and to the model of the rules.

    python3 tests/compare_magnetic_entries.py PROGRAM [--emulator COMMAND] [--whole]

PROGRAM is made from tests/entries.c. The Rust's own 1,651 magnetic symbols have its recorded lists; texts worked out by hand, every sign and matrix under
shifts, and random and damaged symbols have the model's answers. Records are written from a text where they fit exactly and where a byte is lacking, read and
copied; symbols said in other words have one record exactly if they have one set of flagged motions; damaged records have the model's verdict. Without --whole
a share is taken that the gate has time for. What is random has a fixed seed. Prints 'N passed, M failed'.
"""

import itertools
import sys

import compare_rewordings
from compare_magnetic import BY_HAND
from compare_records import write_at_every_start, write_everywhere, written
from entries import BEYOND, Noise, answer_of, comparison, packed, recorded

import cases
import model

SEED = 41
SHIFTS = 100
RANDOM_SYMBOLS = 20000
DAMAGED_RECORDS = 30000
SHARE = 12
MOST_RECORD = 6 * 96 + 5
FIRST = bytes.fromhex("4064000000004064060000015002020011")
IDENTITY = bytes.fromhex("406400000000")
EDITION = 2
ITEM = 6
# Groups of at most this order are changed in every item; a triple is moved by each of these.
SMALL = 8
MOVES = ((6, 0, 0), (6, 6, 0), (0, 0, 6), (8, 4, 4))
MAGNETIC = compare_rewordings.Family(model.read_magnetic, model.group_of_magnetic, model.generated_pairs)
# Symbols whose records are written at every start, and damaged byte by byte: every letter, with grey groups, antitranslations and neither.
PICKED = [
    b"P 1'", b"P 1a'", b"-P 1 1c'", b"-P 2'", b"A 2 -2 1'", b"B 2y'", b"-C 2yc 1c'", b"I 4bw'", b"R 3' 2=", b"-R 3 2=c 1'", b"F 2 -2d'", b"H 3'",
    b"P 4nw 2abw'", b"-I 4bd 2c'", b"-P 4 2 3 1'", b"P 31", b"P 4'", b"P 2 2'", b"P 2a 2n'",
]


# Symbols ------------------------------------------------------------------------------------------------------------

def refused(calls, text, refusal):
    calls.call("magnetic_order", text, gives=refusal)
    calls.call("magnetic_letter", text, gives=refusal)
    for index in (0, 95, BEYOND[-1]):
        calls.call("magnetic_operation", text, index, gives=refusal)
    calls.call("magnetic_record", text, b"lent", 1, gives=refusal)
    calls.call("magnetic_record", text, None, 0, gives=refusal)


def accepted(calls, text, letter, numbers, indices):
    """Order, letter, and the numbers of the operations at some indices; 28 from the order on."""
    calls.call("magnetic_order", text, gives=len(numbers))
    calls.call("magnetic_letter", text, gives=ord(letter))
    for index in indices:
        calls.call("magnetic_operation", text, index, gives=numbers[index])
    for index in (len(numbers), len(numbers) + 1) + BEYOND:
        calls.call("magnetic_operation", text, index, gives=packed(28))


def by_model(calls, text, noise):
    """A text as the model answers it, its record with it; answers what the model says."""
    said = model.outcome(model.group_of_magnetic, text)
    if isinstance(said[0], int):
        refused(calls, text, packed(*said))
    else:
        letter, operations = said
        accepted(calls, text, letter, [model.flagged_number(*operation) for operation in operations], range(len(operations)))
        write_everywhere(calls, "magnetic_record", text, model.magnetic_record(letter, operations), noise)
    return said


def own_texts():
    return [model.text_of_hex(word) for word, *_ in recorded("magnetic.txt")]


def own_symbols(calls, share):
    """The Rust's own symbols: all are asked for order and letter, a share for every operation, the others for the last one."""
    for place, (word, letter, order, *numbers) in enumerate(recorded("magnetic.txt")):
        numbers = list(map(int, numbers))
        assert len(numbers) == int(order)
        accepted(calls, model.text_of_hex(word), letter, numbers, range(len(numbers)) if place % share == 0 else (len(numbers) - 1,))


def unprimed(calls, share, noise):
    """Plain symbols through these entries: a text without a `'` has the plain list with flags 0, or the plain refusal."""
    for word, number, place, *_ in recorded("symbols.txt")[::share]:
        text = model.text_of_hex(word)
        said = by_model(calls, text, noise)
        if b"'" not in text:
            plain = model.outcome(model.group_of_symbol, text)
            same = said == plain if isinstance(plain[0], int) else said == (plain[0], [operation + (0,) for operation in plain[1]])
            calls.judge(same, lambda: (repr(text), str(said), str(plain)))


# Records ------------------------------------------------------------------------------------------------------------

def read_back(calls, record, noise):
    """A record that a symbol gave: read with and without bytes before it, copied, and refused by every entry of other editions."""
    for before in (b"", noise.bytes(1 + noise.below(20))):
        buffer = before + record
        calls.call("magnetic_record_order", buffer, gives=record[-3])
        calls.call("magnetic_record_letter", buffer, gives=record[-5])
        write_everywhere(calls, "magnetic_record_copy", buffer, record, noise)
    unknown_edition(calls, record)


def unknown_edition(calls, record):
    """What ends with a magnetic record is refused 31 by the entries on plain records, whatever is lent to them."""
    for entry in ("order", "letter", "identity", "edition"):
        calls.call("record_" + entry, record, gives=packed(31))
    for entry in ("copy", "move"):
        calls.call("record_" + entry, record, b"lent", 1, gives=packed(31))
    calls.call("record_subgroups", record, b"lent", gives=packed(31))
    calls.call("record_compare", record, record, b"lent", gives=packed(31))


def own_records(calls, share, noise):
    """The records of the Rust's own symbols, made of its lists; answers them."""
    found = []
    for word, letter, _, *numbers in recorded("magnetic.txt")[::share]:
        record = model.magnetic_record(letter, [operation_of(int(number)) for number in numbers])
        write_everywhere(calls, "magnetic_record", model.text_of_hex(word), record, noise)
        read_back(calls, record, noise)
        found.append(record)
    return found


def operation_of(number):
    flag_and_code, place = divmod(number, 1728)
    flag, code = divmod(flag_and_code, 3 ** 9)
    return model.rotation_of(code), (place // 144, place // 12 % 12, place % 12), flag


def judged(calls, buffer, noise):
    """The model's verdict on a buffer that may hold no record."""
    said = model.outcome(model.read_magnetic_record, buffer)
    count = answer_of(said, lambda group: len(group[1]))
    calls.call("magnetic_record_order", buffer, gives=count)
    calls.call("magnetic_record_letter", buffer, gives=answer_of(said, lambda group: ord(group[0])))
    start, more = noise.below(7), noise.below(7)
    lent = noise.bytes(start + len(buffer) + more)
    left = lent if isinstance(said[0], int) else written(lent, start, model.copied_magnetic_record(buffer))
    calls.call("magnetic_record_copy", buffer, lent, start, gives=count, leaves=[left])
    no_room = answer_of(said, lambda _: packed(20))
    calls.call("magnetic_record_copy", buffer, noise.bytes(10), 0, gives=no_room)
    calls.call("magnetic_record_copy", buffer, lent[:BEYOND[0]], BEYOND[noise.below(5)], gives=no_room)
    calls.call("magnetic_record_copy", buffer, None, 0, gives=no_room)


def other_editions(calls, share, noise):
    """Records of editions 1 and 3 are refused 31, and every edition but 2 with them."""
    for word, number, _, *record in recorded("symbols.txt")[::share]:
        if number == "0":
            first = bytes.fromhex(record[0])
            for buffer in (first, model.moved_record(first)):
                calls.call("magnetic_record_order", buffer, gives=packed(31 if len(buffer) > 9 else 30))
                calls.call("magnetic_record_copy", buffer, buffer, 0, gives=packed(31 if len(buffer) > 9 else 30))
    for edition in range(256):
        judged(calls, FIRST[:-4] + bytes([edition]) + FIRST[-3:], noise)
        judged(calls, bytes(5) + bytes([80, edition, 0, 0, 5]), noise)
        judged(calls, bytes(4) + bytes([80, edition, 1, 0, 11]), noise)
    for length in range(len(FIRST)):
        judged(calls, FIRST[length:], noise)
        judged(calls, bytes(length), noise)


# Damaged records ----------------------------------------------------------------------------------------------------

def items_of(record):
    return [record[i:i + ITEM] for i in range(0, len(record) - 5, ITEM)]


def put_together(letter, items):
    return b"".join(items) + bytes([letter, EDITION, len(items)]) + (ITEM * len(items) + 5).to_bytes(2, "big")


def by_pair(item):
    """Items ascend by code, then by flag."""
    return item[:2], item[5]


def with_flags(items, choose):
    """The items with other flags, in order and each pair once."""
    changed = {by_pair(item[:5] + bytes([choose(item)])): item[:5] + bytes([choose(item)]) for item in items}
    return [changed[pair] for pair in sorted(changed)]


def damaged_items(kind, items, other, noise):
    """Items with one thing changed: taken out, doubled, moved, from another group, their flags and triples changed."""
    some = noise.below(len(items))
    item = items[some]
    if kind == 0:
        return items[:some] + items[some + 1:]
    if kind == 1:
        return items[:some + 1] + items[some:]
    if kind == 2:
        return items[some:some + 1] + items[:some] + items[some + 1:]
    if kind == 3:
        return sorted(set(items + [other[noise.below(len(other))]]), key=by_pair)
    if kind == 4:
        return items[:some] + [item[:5] + bytes([(1 - item[5], 2, 3, 255, noise.below(256))[noise.below(5)]])] + items[some + 1:]
    if kind == 5:
        return with_flags(items, lambda each: 0)
    if kind == 6:
        return with_flags(items, lambda each: 1 - each[5])
    if kind == 7:
        half = noise.below(2)
        return [each for each in items if each[5] == half] or items
    if kind == 8:
        point = ((6, 6, 0), (0, 6, 6), (8, 4, 4), (8, 4, 0), (0, 0, 6), (1, 0, 0), (12, 0, 0))[noise.below(7)]
        moved = model.plus(item[2:5], point) if noise.below(4) == 0 else model.mod_cell(model.plus(item[2:5], point))
        return items[:some] + [item[:2] + bytes(moved) + item[5:]] + items[some + 1:]
    if kind == 9:
        kept = noise.below(len(items))
        return [each for place, each in enumerate(items) if place <= kept or each == IDENTITY]
    if kind == 10:
        return [each for each in items if noise.below(2) or each == IDENTITY]
    return sorted(items, key=lambda each: (each[5], each[:2]))


ITEM_KINDS = 12


def damaged(noise, record, other):
    """A record with one thing changed, or none; `other` is a second record to take from."""
    items, letter, at = items_of(record), record[-5], noise.below(len(record))
    kind = noise.below(ITEM_KINDS + 7)
    if kind < ITEM_KINDS:
        return put_together(letter, damaged_items(kind, items, items_of(other), noise)[:98])
    if kind == ITEM_KINDS:
        return noise.bytes(noise.below(8)) + record
    if kind == ITEM_KINDS + 1:
        return record[at:]
    if kind == ITEM_KINDS + 2:
        return record[:at] + bytes([noise.below(256)]) + record[at + 1:]
    if kind == ITEM_KINDS + 3:
        return put_together(b"PABCIRFHpcx"[noise.below(11)], items)
    if kind == ITEM_KINDS + 4:
        return record[:-4] + bytes([noise.below(4), (0, len(items), len(items) + 1, 96, 97)[noise.below(5)]]) + record[-2:]
    if kind == ITEM_KINDS + 5:
        return record[:-2] + (len(record) + (-1, 1, 256, len(items))[noise.below(4)]).to_bytes(2, "big")
    return other + record[-5:]


def strangers():
    """Items that a group cannot hold, with and without the flag; and more than 96."""
    for code in (0, 1, 3 ** 8, 3 ** 9 - 1, 3 ** 9, 65535, 16483, 16485, model.code((0, 0, 0) * 3), model.code((1, 1, 0, 0, 1, 0, 0, 0, 1)),
                 model.code((1, -1, 0, 1, 1, 0, 0, 0, 1)), model.code((0, -1, 0, 1, -1, 0, 0, 0, 1))):
        for letter, flag in ((letter, flag) for letter in b"PAIRFH" for flag in (0, 1, 2)):
            item = code.to_bytes(2, "big") + bytes(3) + bytes([flag])
            yield put_together(letter, sorted([IDENTITY, item], key=by_pair))
            yield put_together(letter, [item])
    for count in (95, 96, 97, 98, 255):
        yield put_together(ord("P"), [(300 + k // 2).to_bytes(2, "big") + bytes(3) + bytes([k % 2]) for k in range(count)])


def changed(record, noise):
    """Each byte, or a sample of them, changed to its neighbours, to the ends of a byte's range and to others."""
    for place in range(len(record)) if len(record) <= 65 else sorted(noise.chance.sample(range(len(record)), 60)):
        byte = record[place]
        for other in sorted({byte + 1 & 255, byte - 1 & 255, byte ^ 128, 0, 1, 2, 6, 11, 12, 255} - {byte}):
            yield record[:place] + bytes([other]) + record[place + 1:]


def other_trailers(record):
    """Other letters, editions, counts and lengths behind the same items."""
    body, letter, count = record[:-5], record[-5], record[-3]
    for other in b"PABCIRFHSTpchx\x00\xff":
        yield body + bytes([other]) + record[-4:]
    for edition in (0, 1, 3, 255):
        yield body + bytes([letter, edition]) + record[-3:]
    for other in (0, count - 1, count + 1, 48, 49, 96, 97, 255):
        for length in (len(record), ITEM * other + 5):
            yield body + bytes([letter, EDITION, other]) + length.to_bytes(2, "big")
    for length in (5 * count + 5, 4 * count + 5, len(record) - 1, len(record) + 1, len(record) + 256, 0, 65535):
        yield body + bytes([letter, EDITION, count]) + length.to_bytes(2, "big")


def one_item_changed(record):
    """Each item of a record with the other flag, with its triple moved, left out."""
    items, letter = items_of(record), record[-5]
    for place, item in enumerate(items):
        rest = items[:place] + items[place + 1:]
        triples = [item[2:5]] + [bytes(model.mod_cell(model.plus(item[2:5], point))) for point in MOVES]
        for triple, flag in itertools.product(triples, (0, 1)):
            yield put_together(letter, sorted(rest + [item[:2] + triple + bytes([flag])], key=by_pair))
        yield put_together(letter, rest)


def damaged_buffers(known, share, noise):
    yield from strangers()
    for text in PICKED:
        record = model.magnetic_record(*model.group_of_magnetic(text))
        yield from list(changed(record, noise))[::share]
        yield from other_trailers(record)
        if record[-3] <= SMALL:
            yield from one_item_changed(record)
    for _ in range(DAMAGED_RECORDS // share):
        yield damaged(noise, known[noise.below(len(known))], known[noise.below(len(known))])


# Rewordings ---------------------------------------------------------------------------------------------------------

def other_flag(letter, generators, operations, shift, noise, family):
    """A time reversal more or less on one token: often another set of flagged motions, sometimes not."""
    some = noise.below(len(generators))
    rotation, translation, flag = generators[some]
    return compare_rewordings.symbol_of(letter, generators[:some] + [(rotation, translation, 1 - flag)] + generators[some + 1:], shift, noise)


def rewordings(calls, share, noise):
    said = compare_rewordings.worded(own_texts()[::share], noise, MAGNETIC, compare_rewordings.OTHER + (other_flag,))
    compare_rewordings.records_say_sets(calls, "magnetic_record", bytes(MOST_RECORD), said)


def main():
    calls, options = comparison(__doc__, ("--whole",))
    share = 1 if options.whole else SHARE
    noise = Noise(SEED)
    lent = noise.bytes(len(FIRST))
    calls.call("magnetic_record", b"P 1a'", lent, 0, gives=2, leaves=[FIRST])
    calls.call("magnetic_record_copy", FIRST, lent, 0, gives=2, leaves=[FIRST])
    calls.call("magnetic_order", None, gives=packed(3))
    calls.call("magnetic_operation", None, 0, gives=packed(3))
    for entry, more in (("order", ()), ("letter", ()), ("copy", (None, 0))):
        calls.call("magnetic_record_" + entry, None, *more, gives=packed(30))
    own_symbols(calls, share)
    unprimed(calls, share, noise)
    shifted = cases.shifted_magnetic_symbols(SHIFTS, SEED)[::share]
    for text in list(BY_HAND) + shifted + cases.magnetic_symbols(own_texts(), RANDOM_SYMBOLS // share, SEED):
        by_model(calls, text, noise)
    known = own_records(calls, share, noise)
    for text in PICKED:
        record = model.magnetic_record(*model.group_of_magnetic(text))
        write_at_every_start(calls, "magnetic_record", text, record, noise)
        write_at_every_start(calls, "magnetic_record_copy", record, record, noise)
    other_editions(calls, share, noise)
    for buffer in dict.fromkeys(damaged_buffers(known, share, noise)):
        judged(calls, buffer, noise)
    rewordings(calls, share, noise)
    return calls.end()


if __name__ == "__main__":
    sys.exit(main())
