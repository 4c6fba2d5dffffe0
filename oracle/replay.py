#!/usr/bin/env python3
"""Replays the recorded answers against the model of the rules; needs no Rust, and shows how each file is read.

    python3 oracle/replay.py

Prints one line a file, and exits with status 1 if a line disagrees.
"""

import os
import sys

import model
from compare import exact, read_generators, read_list, double_of, triple_cell

RECORDED = os.path.join(os.path.dirname(os.path.abspath(__file__)), "recorded")
TYPE_FOLDS = (1, 2, 3, 4, 6, -1, -2, -3, -4, -6)


def lines_of(name):
    with open(os.path.join(RECORDED, name)) as file:
        return [line.rstrip("\n").split(" ") for line in file]


def symbol_agrees(hexed, number, place, *record):
    """HEX NUMBER PLACE, or HEX 0 COUNT RECORD."""
    said = model.outcome(model.group_of_symbol, model.text_of_hex(hexed))
    if isinstance(said[0], int):
        return said == (int(number), int(place))
    return (0, len(said[1]), [model.record(*said).hex()]) == (int(number), int(place), list(record))


def record_agrees(hexed, number, place):
    """HEX NUMBER PLACE, or HEX 0 COUNT."""
    said = model.outcome(model.read_record, model.text_of_hex(hexed))
    expected = said if isinstance(said[0], int) else (0, len(said[1]))
    return expected == (int(number), int(place))


def operations_agree(hexed, *answer):
    """Where the rules accept, the Rust has the same list, and its doubles are the twelfths'; of the triple cell it knows nothing."""
    text = model.text_of_hex(hexed)
    said = model.outcome(model.group_of_symbol, text)
    if answer == ("none",):
        return isinstance(said[0], int) or triple_cell(text)
    return isinstance(said[0], int) or read_list(answer) == exact(said[1])


def generators_agree(hexed, *answer):
    """Where the rules read the text, the Rust has the same generators, rounded to twelfths; of the triple cell it knows nothing."""
    text = model.text_of_hex(hexed)
    said = model.outcome(model.read_symbol, text)
    if isinstance(said[0], int):
        return True
    if answer == ("none",):
        return triple_cell(text)
    letter, points, found = read_generators(" ".join(answer))
    rounded = [(rotation, tuple(round(12 * double_of(part)) % 12 for part in parts)) for rotation, parts in found]
    return (letter, rounded) == said and points == len(model.POINTS[letter])


def layer_agrees(hexed, letter, *answer):
    """The letter in small, and the list."""
    said = model.group_of_layer(model.text_of_hex(hexed))
    return (letter.lower(), read_list(answer)) == (said[0], exact(said[1]))


def magnetic_agrees(hexed, letter, order, *numbers):
    """The letter, the order, and the number of each operation with its flag."""
    said = model.group_of_magnetic(model.text_of_hex(hexed))
    return (letter, [int(number) for number in numbers]) == (said[0], [model.flagged_number(*each) for each in said[1]]) and int(order) == len(said[1])


def type_agrees(code, character):
    said = model.outcome(model.rotation_type, model.rotation_of(code))
    return said == ((15, 0) if character == "." else TYPE_FOLDS[int(character)])


def tables_of(lines):
    """Each table's lines, from its `#` to its `E`."""
    table = []
    for line in lines:
        table.append(line)
        if line[0] == "E":
            yield table
            table = []


def numbers(words, base=10):
    return [int(word, base) for word in words]


def expected_lines(order, entries):
    """The lines that a table must have after T and R, in the model's words."""
    table = model.table_of_bytes(order, entries)
    yield ["I", table.identity]
    found = model.subgroups(table)
    yield ["S", len(found)] + found
    representatives = model.classes(table)
    yield ["C", len(representatives)]
    for each in representatives:
        conjugates = model.conjugates(table, each)
        yield ["H", each]
        yield ["K", len(conjugates)] + [word for pair in conjugates for word in pair]
        normalizer = model.normalizer(table, each)
        yield ["N", normalizer]
        for element in model.members(normalizer):
            yield ["P", element] + model.positions(table, each, element)
        if len(conjugates) > 1:
            yield ["X"] + [model.conjugate_set(table, each, element) for element in range(order)]


def read_line(kind, *words):
    """A recorded line with its numbers read: sets are in hex, all else in decimal."""
    if kind == "S":
        return ["S"] + numbers(words[:1]) + numbers(words[1:], 16)
    if kind == "K":
        pairs = zip(numbers(words[1::2], 16), numbers(words[2::2]))
        return ["K"] + numbers(words[:1]) + [word for pair in pairs for word in pair]
    return [kind] + numbers(words, 16 if kind in "HNX" else 10)


def table_agrees(_name, table, verdict, _rust, *rest):
    order, count, *entries = numbers(table[1:])
    number = int(verdict[1])
    if number:
        return model.outcome(model.table_of_bytes, order, entries) == (number, 0) and rest == (["E"],)
    return count == len(entries) and [read_line(*line) for line in rest[:-1]] == list(expected_lines(order, entries))


def main():
    types = "".join(line[0] for line in lines_of("rotation_types.txt"))
    replayed = [
        ("symbols.txt", [symbol_agrees(*line) for line in lines_of("symbols.txt")]),
        ("damaged.txt", [symbol_agrees(*line) for line in lines_of("damaged.txt")]),
        ("records.txt", [record_agrees(*line) for line in lines_of("records.txt")]),
        ("generators.txt", [generators_agree(*line) for line in lines_of("generators.txt")]),
        ("operations.txt", [operations_agree(*line) for line in lines_of("operations.txt")]),
        ("layers.txt", [layer_agrees(*line) for line in lines_of("layers.txt")]),
        ("magnetic.txt", [magnetic_agrees(*line) for line in lines_of("magnetic.txt")]),
        ("rotation_types.txt", [type_agrees(*each) for each in enumerate(types)]),
        ("tables.txt", [table_agrees(*table) for table in tables_of(lines_of("tables.txt"))]),
    ]
    for name, agreed in replayed:
        print("%s: %d agree, %d do not" % (name, sum(agreed), len(agreed) - sum(agreed)))
    return 0 if all(all(agreed) for _, agreed in replayed) else 1


if __name__ == "__main__":
    sys.exit(main())
