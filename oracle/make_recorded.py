#!/usr/bin/env python3
"""Writes the recorded answers: what the Rust original says, and what the model of the rules says, in plain lines.

    python3 oracle/make_recorded.py HARNESS OUT_FOLDER

The README describes the files. Nothing here is random but by fixed seeds, so a second run writes the same bytes.
"""

import os
import sys

import cases
import model
from compare import ask, database, double_of, hex_of, read_list, triple_cell

DAMAGED_COUNT = 6000
DAMAGED_SEED = 2
RECORD_COUNT = 2500
TRIPLE_CELL_RECORD_COUNT = 300
RECORD_SEED = 3
TYPES_A_LINE = 81


def verdict(text):
    """The model's word on a symbol: number and place, or 0, the count and the record in hex."""
    said = model.outcome(model.group_of_symbol, text)
    if isinstance(said[0], int):
        return "%s %d %d" % (hex_of(text), *said)
    letter, operations = said
    return "%s 0 %d %s" % (hex_of(text), len(operations), model.record(letter, operations).hex())


def record_verdict(buffer):
    """The model's word on a buffer given to the record's reader: number and place, or 0 and the count."""
    said = model.outcome(model.read_record, buffer)
    return "%s %d %d" % ((hex_of(buffer),) + (said if isinstance(said[0], int) else (0, len(said[1]))))


def accepted_records(texts):
    said = (model.outcome(model.group_of_symbol, text) for text in texts)
    return [model.record(*found) for found in said if not isinstance(found[0], int)]


def record_buffers(texts):
    """Damaged records of the letters that the Rust has, then of H."""
    known = cases.damaged_records(accepted_records(text for text in texts if not triple_cell(text)), RECORD_COUNT, RECORD_SEED)
    return known + cases.damaged_records(accepted_records(filter(triple_cell, texts)), TRIPLE_CELL_RECORD_COUNT, RECORD_SEED)


def answers(harness, command, texts):
    """The original's answer to a command for each symbol, after the symbol."""
    found = ask(harness, ["%s %s" % (command, hex_of(text)) for text in texts])
    return ["%s %s" % (hex_of(text), answer) for text, answer in zip(texts, found)]


def rotation_types(harness):
    """A character for each of the 19,683 codes: the type's digit, or a point where the original panics."""
    codes = range(model.MOST_CODE + 1)
    found = ask(harness, ["type " + " ".join(map(str, model.rotation_of(code))) for code in codes])
    characters = "".join("." if answer.startswith("panic") else answer for answer in found)
    assert len(characters) == len(codes)
    return [characters[i:i + TYPES_A_LINE] for i in range(0, len(characters), TYPES_A_LINE)]


# Tables -----------------------------------------------------------------------------------------------------------

def symbol_tables(harness):
    """(name, order, entries) for symbols: the original's own list, multiplied out modulo the centred lattice."""
    found = []
    texts = [text.encode() for text in cases.SYMBOLS_WITH_TABLES]
    for text, answer in zip(texts, ask(harness, ["operations " + hex_of(text) for text in texts])):
        letter = text.decode().lstrip("-")[0]
        operations = [(rotation, model.twelfths([double_of(part) for part in bits]))
                      for rotation, bits in read_list(answer.split(" "))]
        rows = model.table_of_operations(letter, operations).rows
        found.append(("symbol " + text.decode(), len(rows), cases.flat(rows)))
    return found


def all_tables(harness):
    groups = [(name, len(rows), cases.flat(rows)) for name, rows in cases.group_tables()]
    return groups + symbol_tables(harness) + cases.other_tables()


class Words:
    """The words of an answer, taken one after another."""

    def __init__(self, answer):
        self.words = iter(answer.split(" "))

    def take(self, count=1):
        return [next(self.words) for _ in range(count)]

    def expect(self, word):
        assert self.take() == [word]

    def counted(self, width=1):
        """A count, then that many items of some words each."""
        count = int(self.take()[0])
        return count, self.take(count * width)


def table_question(command, order, entries, *more):
    return " ".join(map(str, (command, order, *entries, *more)))


def table_lines(harness, name, order, entries):
    """One table's lines: T, M and R, and for a group what the original knows of it."""
    said = model.outcome(model.table_of_bytes, order, entries)
    number = said[0] if isinstance(said, tuple) else 0
    answer, = ask(harness, [table_question("table", order, entries)])
    assert answer == "none" or answer.startswith("identity")
    lines = ["# " + name, table_question("T", order, [len(entries)] + list(entries)),
             "M %d" % number, "R %d" % (answer != "none")]
    if number == 0:
        lines += group_lines(harness, order, entries, Words(answer))
    return lines + ["E"]


def group_lines(harness, order, entries, words):
    words.expect("identity")
    lines = ["I " + words.take()[0]]
    words.expect("subgroups")
    count, sets = words.counted()
    lines.append(" ".join(["S", str(count)] + sets))
    words.expect("classes")
    class_count = int(words.take()[0])
    lines.append("C %d" % class_count)
    representatives = []
    shown = []
    for _ in range(class_count):
        words.expect("class")
        representatives.append(words.take()[0])
        shown.append(class_lines(representatives[-1], words))
    assert list(words.words) == []
    questions = [table_question("set", order, entries, int(each, 16)) for each in representatives]
    for each, answer in zip(shown, ask(harness, questions)):
        found = Words(answer)
        found.expect("conjugates")
        lines += each
        images = found.take(order)
        if len(set(images)) > 1:
            lines.append(" ".join(["X"] + images))
    return lines


def class_lines(representative, words):
    """H, K, N and P lines of one class."""
    words.expect("conjugates")
    count, pairs = words.counted(2)
    lines = ["H " + representative, " ".join(["K", str(count)] + pairs)]
    words.expect("normalizer")
    size = bin(int(representative, 16)).count("1")
    actions = [words.take(1 + size) for _ in range(int(words.take()[0]))]
    lines.append("N %x" % model.set_of(int(action[0]) for action in actions))
    return lines + [" ".join(["P"] + action) for action in actions]


def tables(harness):
    return [line for each in all_tables(harness) for line in table_lines(harness, *each)]


def write_lines(folder, name, lines):
    with open(os.path.join(folder, name), "w", newline="\n") as file:
        file.writelines(line + "\n" for line in lines)


def main(arguments):
    if len(arguments) != 2:
        print(__doc__, file=sys.stderr)
        return 2
    harness, folder = arguments
    known = database(harness)
    texts = known + [text for text in cases.extra_symbols() if text not in known]
    write_lines(folder, "symbols.txt", map(verdict, texts))
    write_lines(folder, "damaged.txt", map(verdict, cases.damaged_symbols(known, DAMAGED_COUNT, DAMAGED_SEED)))
    write_lines(folder, "records.txt", map(record_verdict, record_buffers(texts)))
    write_lines(folder, "generators.txt", answers(harness, "generators", texts))
    write_lines(folder, "operations.txt", answers(harness, "operations", texts))
    write_lines(folder, "rotation_types.txt", rotation_types(harness))
    write_lines(folder, "tables.txt", tables(harness))
    return 0


if __name__ == "__main__":
    sys.exit(main(sys.argv[1:]))
