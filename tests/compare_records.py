#!/usr/bin/env python3
"""Holds records as C writes, reads and copies them to the model of the rules: whole, damaged, in buffers of every length.

    python3 tests/compare_records.py PROGRAM [--emulator COMMAND]

PROGRAM is made from tests/entries.c. The records of the recorded symbols stand in oracle/recorded/symbols.txt and damaged.txt, the
verdicts on damaged ones are the model's. What is random has a fixed seed. Prints 'N passed, M failed'.
"""

import sys

from entries import BEYOND, MOST_BYTES, Noise, WHOLE_NUMBER, answer_of, comparison, packed, recorded

import cases
import model

SEED = 17
FIRST = bytes.fromhex("0C7E0000004064000000500102000F")
IDENTITY_CODE = b"\x40\x64"
# Records that are damaged byte by byte; each letter, and orders from 1 to 48.
DAMAGED = [
    b"P 1", b"-P 1", b"-P 1 (1 2 3)", b"P 31", b"P 2ac 2ab", b"A 2 -2", b"B 2y", b"-C 2yc", b"I 4bw", b"R 3 2=", b"-R 3 2=c",
    b"F 2 -2d", b"-P 6c", b"P 4nw 2abw", b"-I 4bd 2c", b"-F 2uv 2vw 3", b"-P 4 2 3", b"-F 4ud 2vw 3",
]
WHOLLY = 60     # bytes up to which a record is damaged in every byte; of longer ones a sample of this many


def written(lent, start, record):
    return lent[:start] + record + lent[start + len(record):]


def write_everywhere(calls, entry, source, record, noise):
    """What is written from a source: where it fits exactly, at a stated start, and where a byte is lacking."""
    count = record[-3]
    start, more = 1 + noise.below(9), noise.below(9)
    exact, lent = noise.bytes(len(record)), noise.bytes(start + len(record) + more)
    calls.call(entry, source, exact, 0, gives=count, leaves=[record])
    calls.call(entry, source, lent, start, gives=count, leaves=[written(lent, start, record)])
    calls.call(entry, source, noise.bytes(len(record) - 1), 0, gives=packed(20))
    calls.call(entry, source, noise.bytes(start + len(record) - 1), start, gives=packed(20))


def write_at_every_start(calls, entry, source, record, noise):
    """Every start up to and past the buffer's end, and starts that would come round to a good one."""
    count, more = record[-3], 3
    lent = noise.bytes(len(record) + more)
    for start in range(more + 1):
        calls.call(entry, source, lent, start, gives=count, leaves=[written(lent, start, record)])
    for start in list(range(more + 1, len(lent) + 3)) + list(BEYOND) + [WHOLE_NUMBER - len(record), 2 ** 32 + 1]:
        calls.call(entry, source, lent, start, gives=packed(20))
    for start in (0, 1, BEYOND[-1]):
        calls.call(entry, source, None, start, gives=packed(20))
        calls.call(entry, source, b"", start, gives=packed(20))


def symbols(calls, noise):
    """The records of all recorded symbols; answers them, each once, by a text."""
    found = {}
    for word, number, place, *record in recorded("symbols.txt") + recorded("damaged.txt"):
        text = model.text_of_hex(word)
        if number == "0":
            record = bytes.fromhex(record[0])
            assert record[-3] == int(place)
            write_everywhere(calls, "symbol_record", text, record, noise)
            found.setdefault(record, text)
        else:
            refusal = packed(int(number), int(place))
            calls.call("symbol_record", text, noise.bytes(noise.below(260)), noise.below(4), gives=refusal)
            calls.call("symbol_record", text, None, 0, gives=refusal)
            calls.call("symbol_record", text, noise.bytes(4), BEYOND[noise.below(5)], gives=refusal)
    return found


def read_back(calls, record, noise):
    """A record that a symbol gave: read with and without bytes before it, and copied."""
    identity = record[:-5:5], record[1:-5:5]
    index = list(zip(*identity)).index(tuple(IDENTITY_CODE))
    for before in (b"", noise.bytes(1 + noise.below(20))):
        buffer = before + record
        calls.call("record_order", buffer, gives=record[-3])
        calls.call("record_letter", buffer, gives=record[-5])
        calls.call("record_identity", buffer, gives=index)
        write_everywhere(calls, "record_copy", buffer, record, noise)


def judged(calls, buffer, noise):
    """A buffer that may hold no record: the model's verdict on it, by every entry that only reads or copies it; answers that verdict."""
    said = model.outcome(model.read_record, buffer)
    calls.call("record_order", buffer, gives=answer_of(said, lambda group: len(group[1])))
    calls.call("record_letter", buffer, gives=answer_of(said, lambda group: ord(group[0])))
    calls.call("record_identity", buffer, gives=answer_of(said, lambda group: group[1].index(
        (model.IDENTITY, model.NO_TRANSLATION))))
    start, more = noise.below(7), noise.below(7)
    lent = noise.bytes(start + len(buffer) + more)
    copied = lent if isinstance(said[0], int) else written(lent, start, model.copied_record(buffer))
    calls.call("record_copy", buffer, lent, start, gives=answer_of(said, lambda group: len(group[1])), leaves=[copied])
    no_room = answer_of(said, lambda _: packed(20))
    calls.call("record_copy", buffer, noise.bytes(5), 0, gives=no_room)
    calls.call("record_copy", buffer, lent, BEYOND[noise.below(5)], gives=no_room)
    calls.call("record_copy", buffer, None, 0, gives=no_room)
    return said


def changed(record, noise):
    """Each byte, or a sample, changed to its neighbours, to the ends of a byte's range and to others."""
    places = range(len(record)) if len(record) <= WHOLLY else sorted(noise.chance.sample(range(len(record)), WHOLLY))
    for place in places:
        byte = record[place]
        for other in {byte + 1 & 255, byte - 1 & 255, byte ^ 128, 0, 6, 11, 12, 255, noise.below(256)} - {byte}:
            yield record[:place] + bytes([other]) + record[place + 1:]


def cut(record):
    for length in list(range(0, min(len(record), 32))) + list(range(32, len(record), 5)):
        yield record[length:]
        yield record[:length]


def rearranged(record, noise):
    """Items swapped, dropped, doubled, turned round; also with the count and the length of before."""
    items, letter = cases.items_of(record), record[-5]
    for place in range(len(items)) if len(items) < 12 else noise.chance.sample(range(len(items)), 12):
        dropped = items[:place] + items[place + 1:]
        doubled = items[:place + 1] + items[place:]
        other = noise.below(len(items))
        swapped = list(items)
        swapped[place], swapped[other] = swapped[other], swapped[place]
        for some in (dropped, doubled, swapped):
            yield cases.put_together(letter, some)
            yield b"".join(some) + record[-5:]
    yield cases.put_together(letter, items[::-1])
    yield cases.put_together(letter, [item for item in items if item[:2] == IDENTITY_CODE])
    yield cases.put_together(letter, [item for item in items if noise.below(2) or item[:2] == IDENTITY_CODE])


def moved(record, noise):
    """Translations that are another of their class, of another class, and beyond the cell."""
    items, letter = cases.items_of(record), record[-5]
    points = [point for letters in "RF" for point in model.POINTS[letters]] + [(12, 0, 0), (0, 12, 0), (0, 0, 12), (1, 0, 0), (0, 0, 6)]
    for place in range(len(items)) if len(items) < 8 else noise.chance.sample(range(len(items)), 8):
        code, triple = items[place][:2], items[place][2:]
        for point in points:
            for sum_of in (model.plus(triple, point), model.mod_cell(model.plus(triple, point))):
                item = code + bytes(sum_of)
                yield cases.put_together(letter, items[:place] + [item] + items[place + 1:])


def other_trailers(record):
    """Other letters, editions, counts and lengths after the same items, one at a time and two at once."""
    items, letter, count = cases.items_of(record), record[-5], record[-3]
    body = b"".join(items)
    for other in b"PABCIRFHSTpchx\x00\xff":
        yield cases.put_together(other, items)
        yield body + bytes([other, 2, count]) + record[-2:]
    for edition in (0, 2, 3, 255):
        yield body + bytes([letter, edition, count]) + record[-2:]
        yield body + bytes([letter, edition, 0]) + record[-2:]
    for other in (0, count - 1, count + 1, 48, 49, 50, 255):
        for length in (len(record), 5 * other + 5, len(record) + 1, 0, 65535, (5 * count + 5) * 256 & 65535):
            yield body + bytes([letter, 1, other & 255]) + (length & 65535).to_bytes(2, "big")


def strangers():
    """Items that a group cannot hold: rotations of determinant 0 and 2, without the lattice kept, codes out of range."""
    first, last = IDENTITY_CODE + bytes(3), bytes(2) + bytes(3)
    for code in (0, 1, 3 ** 8, 3 ** 9 - 1, 3 ** 9, 65535, 16483, 16485, model.code((0, 0, 0) * 3), model.code((1, 1, 0, 0, 1, 0, 0, 0, 1)),
                 model.code((1, -1, 0, 1, 1, 0, 0, 0, 1)), model.code((0, -1, 0, 1, -1, 0, 0, 0, 1))):
        for letter in b"PAIRF":
            item = code.to_bytes(2, "big") + bytes(3)
            yield cases.put_together(letter, sorted([first, item]))
            yield cases.put_together(letter, [item])
            yield cases.put_together(letter, sorted([first, item, last]))
    yield cases.put_together(ord("P"), [first] * 49)
    yield cases.put_together(ord("P"), [(300 + k).to_bytes(2, "big") + bytes(3) for k in range(48)])


def damaged_buffers(noise):
    yield from (bytes(length) for length in range(0, 24))
    yield from strangers()
    for text in DAMAGED:
        record = model.record(*model.group_of_symbol(text))
        yield from changed(record, noise)
        yield from cut(record)
        yield from rearranged(record, noise)
        yield from moved(record, noise)
        yield from other_trailers(record)
        yield from (record + noise.bytes(more) for more in (1, 4, 5, 10))


def main():
    calls, _ = comparison(__doc__)
    noise = Noise(SEED)
    lent = noise.bytes(15)
    calls.call("symbol_record", b"-P 1", lent, 0, gives=2, leaves=[FIRST])
    calls.call("record_copy", FIRST, lent, 0, gives=2, leaves=[FIRST])
    long = noise.bytes(MOST_BYTES - len(FIRST))
    calls.call("record_copy", long + FIRST, long, 5000, gives=2, leaves=[written(long, 5000, FIRST)])
    calls.call("symbol_record", b"-P 1" + long, long, 0, gives=packed(1, 80))
    calls.call("record_order", None, gives=packed(30))
    calls.call("record_copy", None, None, 0, gives=packed(30))
    records = symbols(calls, noise)
    for record in records:
        read_back(calls, record, noise)
    for text in DAMAGED:
        record = model.record(*model.group_of_symbol(text))
        write_at_every_start(calls, "symbol_record", text, record, noise)
        write_at_every_start(calls, "record_copy", record, record, noise)
    for buffer in dict.fromkeys(damaged_buffers(noise)):
        judged(calls, buffer, noise)
    for word, number, place in recorded("records.txt"):
        value = int(place) if number == "0" else packed(int(number), int(place))
        calls.call("record_order", model.text_of_hex(word), gives=value)
    return calls.end()


if __name__ == "__main__":
    sys.exit(main())
