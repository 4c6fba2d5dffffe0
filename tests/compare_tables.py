#!/usr/bin/env python3
"""Holds what C is told of groups to the recorded answers of the Rust: subgroups, classes, conjugates, normalizers, permutations.

    python3 tests/compare_tables.py PROGRAM [--emulator COMMAND] [--all]

PROGRAM is made from tests/entries.c. oracle/recorded/tables.txt is replayed by tables, and where a table is a symbol's also by its text
and by its record; of each group a sample of the subgroups and permutations is asked for, with --all every one. Damaged tables are held
to the model of the rules. What is random has a fixed seed. Prints 'N passed, M failed'.
"""

import itertools
import sys
from typing import NamedTuple, Optional

import groups
from entries import BEYOND, MOST_BYTES, Noise, comparison, filled, packed, recorded, sets
from groups import Source

import cases
import model

SEED = 19
DAMAGED_CELLS = 40
CUBIC = b"-P 4 2 3"
NOT_ASSOCIATIVE = bytes([0, 1, 2, 1, 0, 1, 2, 2, 0])


class Sample(NamedTuple):
    """How many subgroups of a group, permutations and conjugates of a subgroup are asked for; None for all."""
    subgroups: Optional[int]
    permutations: Optional[int]
    conjugates: Optional[int]


FEW = Sample(2, 1, 4)
ALL = Sample(None, None, None)


def tables_of(lines):
    """Each table of such lines as are recorded: its lines by their first word, those of its classes in a list."""
    found = []
    for kind, *words in lines:
        if kind == "#":
            found.append({"name": " ".join(words), "classes": []})
        elif kind == "H":
            found[-1]["classes"].append({"H": int(words[0], 16), "P": []})
        elif kind in "KNX":
            found[-1]["classes"][-1][kind] = words
        elif kind == "P":
            found[-1]["classes"][-1]["P"].append(list(map(int, words)))
        else:
            found[-1][kind] = words
    return found


def numbers(words):
    return [int(word, 16) for word in words]


def some_of(items, count, noise):
    items = list(items)
    return items if count is None or len(items) <= count else noise.chance.sample(items, count)


def replay_class(calls, sample, source, table, found, noise):
    """What is recorded of a class's representative."""
    subgroup = found["H"]
    pairs = list(zip(numbers(found["K"][1::2]), map(int, found["K"][2::2])))
    normalizer = int(found["N"][0], 16)
    groups.one_subgroup(source, calls, table, subgroup, pairs, normalizer, noise)
    for element, *positions in some_of(found["P"], sample.permutations, noise):
        groups.one_permutation(source, calls, subgroup, element, positions, noise)
    images = numbers(found.get("X", ())) or [subgroup] * table.order
    for element in some_of(range(table.order), sample.conjugates, noise):
        source.call(calls, "conjugate", subgroup, element, gives=images[element])


def replay_group(calls, sample, source, found, noise):
    order = int(found["T"][0])
    entries = list(map(int, found["T"][2:]))
    table = groups.known_table([entries[order * g:order * g + order] for g in range(order)])
    assert table.identity == int(found["I"][0])
    subgroups = numbers(found["S"][1:])
    representatives = [each["H"] for each in found["classes"]]
    groups.whole_group(source, calls, table, subgroups, representatives, noise)
    groups.refused_sets(source, calls, table, subgroups, noise)
    for each in some_of(found["classes"], sample.subgroups, noise):
        replay_class(calls, sample, source, table, each, noise)
    return table, subgroups


def record_source(text):
    """A symbol's record, and for each operation in list order its place in the record."""
    letter, operations = model.group_of_symbol(text)
    codes = [code for code, _ in model.record_operations(letter, operations)]
    return Source("record", model.record(letter, operations)), [codes.index(model.code(r)) for r, _ in operations]


def moved_rows(rows, places):
    """The table of a group whose element g is called places[g]."""
    found = [[0] * len(rows) for _ in rows]
    for g, h in itertools.product(range(len(rows)), repeat=2):
        found[places[g]][places[h]] = places[rows[g][h]]
    return found


def moved(number, places):
    return model.set_of(places[i] for i in model.members(number))


def replay_record(calls, sample, text, table, subgroups, noise):
    """The group of a symbol once more, under the labels of its record: the same subgroups, in the order of their new numbers."""
    source, places = record_source(text)
    again = groups.known_table(moved_rows(table.rows, places))
    listed = sorted((moved(each, places) for each in subgroups), key=model.list_key)
    representatives = [each for each in listed
                       if each == min((other for other, _ in model.conjugates(again, each)), key=model.list_key)]
    groups.whole_group(source, calls, again, listed, representatives, noise)
    groups.refused_sets(source, calls, again, listed, noise)
    by_model(calls, sample, source, again, listed, noise)


def by_model(calls, sample, source, table, subgroups, noise):
    """A sample of subgroups, representatives or not, with the model's answers."""
    for subgroup in some_of(subgroups, sample.subgroups, noise):
        normalizer = model.normalizer(table, subgroup)
        groups.one_subgroup(source, calls, table, subgroup, model.conjugates(table, subgroup), normalizer, noise)
        for element in some_of(model.members(normalizer), sample.permutations, noise):
            groups.one_permutation(source, calls, subgroup, element, model.positions(table, subgroup, element), noise)
        for element in some_of(range(table.order), sample.conjugates, noise):
            source.call(calls, "conjugate", subgroup, element, gives=model.conjugate_set(table, subgroup, element))


def replay(calls, sample, tables, noise):
    for found in tables:
        order, entries = int(found["T"][0]), bytes(map(int, found["T"][2:]))
        source = Source("table", order, entries)
        if found["M"] != ["0"]:
            groups.refused_group(source, calls, packed(int(found["M"][0])), noise)
            continue
        table, subgroups = replay_group(calls, sample, source, found, noise)
        by_model(calls, sample, source, table, subgroups, noise)
        if found["name"].startswith("symbol "):
            text = found["name"].removeprefix("symbol ").encode()
            replay_group(calls, sample, Source("symbol", text), found, noise)
            replay_record(calls, sample, text, table, subgroups, noise)


# Refusals -----------------------------------------------------------------------------------------------------------

def refused_sources(calls, noise):
    """Symbols and records that name no group, each refusal 1 to 14 and 30 to 35."""
    seen = set()
    for word, number, place, *_ in recorded("symbols.txt"):
        if number != "0" and (number, place) not in seen:
            seen.add((number, place))
            groups.refused_group(Source("symbol", model.text_of_hex(word)), calls, packed(int(number), int(place)), noise)
    for word, number, place in recorded("records.txt"):
        if number != "0" and (number, len(word) % 7) not in seen:
            seen.add((number, len(word) % 7))
            groups.refused_group(Source("record", model.text_of_hex(word)), calls, packed(int(number), int(place)), noise)
    groups.refused_group(Source("symbol", None), calls, packed(3), noise)
    groups.refused_group(Source("record", None), calls, packed(30), noise)


def refused_orders(calls, noise):
    """Orders that are none, and that would be small ones in fewer bits; tables that have not their bytes."""
    two = bytes([0, 1, 1, 0])
    for order in (0, 49, 50, 64) + BEYOND + tuple(2 + each for each in BEYOND[:-1]):
        for table in (two, None, bytes(49 * 49)):
            groups.refused_group(Source("table", order, table), calls, packed(21), noise)
    for order, table in ((1, None), (2, None), (48, b""), (2, two[:3]), (2, two + b"\0"), (1, two), (4, two), (1, b"\1"), (2, b"\0\1\1\2"),
                         (48, bytes(48 * 48 - 1)), (48, bytes(48 * 48 + 1)), (48, bytes(48 * 48 - 1) + b"\x30")):
        groups.refused_group(Source("table", order, table), calls, packed(22), noise)


# Damaged tables -----------------------------------------------------------------------------------------------------

def changed_cells(rows, noise):
    order = len(rows)
    cells = list(itertools.product(range(order), repeat=2))
    for g, h in cells if order < 5 else noise.chance.sample(cells, min(len(cells), DAMAGED_CELLS)):
        for image in range(order) if order < 5 else {noise.below(order), rows[g][h - 1], (rows[g][h] + 1) % order}:
            yield cases.altered(rows, (g, h, image))


def swapped_cells(rows, noise):
    order = len(rows)
    for _ in range(DAMAGED_CELLS if order > 1 else 0):
        g, h, i, j = (noise.below(order) for _ in range(4))
        yield cases.altered(rows, (g, h, rows[i][j]), (i, j, rows[g][h]))
        yield cases.altered(rows, (g, h, rows[g][j]), (g, j, rows[g][h]))


def turned_squares(rows, noise):
    """Two rows and two columns that hold two elements crosswise, exchanged: each row and column still holds each element once."""
    order = len(rows)
    for g, i in itertools.combinations(range(order), 2):
        for h, j in itertools.combinations(range(order), 2):
            if rows[g][h] == rows[i][j] and rows[g][j] == rows[i][h] and noise.below(1 + order * order // 16) == 0:
                yield cases.altered(rows, (g, h, rows[g][j]), (i, j, rows[g][j]), (g, j, rows[g][h]), (i, h, rows[g][h]))


def rearranged(rows, noise):
    """Rows in another order, columns in another order, both in the same one, and the table turned over."""
    order = len(rows)
    shuffled = list(range(order))
    for _ in range(4):
        noise.chance.shuffle(shuffled)
        yield [rows[g] for g in shuffled]
        yield [[row[h] for h in shuffled] for row in rows]
        yield [[rows[g][h] for h in shuffled] for g in shuffled]
    yield [list(column) for column in zip(*rows)]
    yield rows[1:] + rows[:1]
    yield rows[::-1]


def small_tables():
    """Every table of order 1 to 3."""
    for order in range(1, 4):
        for entries in itertools.product(range(order), repeat=order * order):
            yield order, bytes(entries)


def damaged_tables(noise):
    bases = [cases.cyclic(n) for n in (1, 2, 3, 4, 5, 6, 12, 48)] + [cases.direct(*[cases.cyclic(2)] * k) for k in (2, 3, 4)]
    bases += [cases.dihedral(3), cases.dihedral(4), cases.dicyclic(2), cases.symmetric(4), cases.alternating(4)]
    bases += [cases.relabelled(rows, seed) for seed, rows in enumerate(bases) if 2 < len(rows) < 48]
    for rows in bases:
        order = len(rows)
        for table in itertools.chain(changed_cells(rows, noise), swapped_cells(rows, noise), turned_squares(rows, noise),
                                     rearranged(rows, noise)):
            yield order, bytes(cases.flat(table))
        whole = bytes(cases.flat(rows))
        for image in (order, order + 1, 128, 255):
            place = noise.below(len(whole))
            yield order, whole[:place] + bytes([image]) + whole[place + 1:]
        yield from ((order, whole[1:]), (order, whole + whole[:1]), (order + 1, whole), (order - 1, whole))


def judged(calls, order, entries):
    """The model's verdict on a table, asked of the port; answers the refusal's number, or 0."""
    said = model.outcome(model.table_of_bytes, order, entries)
    refusal = packed(*said) if isinstance(said, tuple) else None
    calls.call("table_order", order, entries, gives=order if refusal is None else refusal)
    calls.call("table_identity", order, entries, gives=said.identity if refusal is None else refusal)
    return 0 if refusal is None else said[0]


def by_hand(calls, tables, noise):
    """Figures that are known without a program."""
    calls.call("table_order", 3, NOT_ASSOCIATIVE, gives=packed(25))
    cubic = next(found for found in tables if found["name"] == "symbol " + CUBIC.decode())
    subgroups, representatives = numbers(cubic["S"][1:]), [each["H"] for each in cubic["classes"]]
    for entry, count, listed in (("symbol_subgroups", 98, subgroups), ("symbol_classes", 33, representatives)):
        for more in (0, MOST_BYTES - 8 * count):
            lent = noise.bytes(8 * count + more)
            calls.call(entry, CUBIC, lent, gives=count, leaves=[filled(lent, sets(listed))])


def main():
    calls, options = comparison(__doc__, flags=("--all",))
    noise = Noise(SEED)
    tables = tables_of(recorded("tables.txt"))
    by_hand(calls, tables, noise)
    refused_orders(calls, noise)
    refused_sources(calls, noise)
    for order, entries in itertools.chain(small_tables(), damaged_tables(noise)):
        judged(calls, order, entries)
    replay(calls, ALL if options.all else FEW, tables, noise)
    return calls.end()


if __name__ == "__main__":
    sys.exit(main())
