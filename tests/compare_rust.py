#!/usr/bin/env python3
"""The longer comparison: the C entries beside the Rust where it can answer, and beside the model of the rules for the rest.

    python3 tests/compare_rust.py PROGRAM HARNESS [--emulator COMMAND]

PROGRAM is made from tests/entries.c, HARNESS by oracle/build.sh; tests/compare_rust.sh makes both and runs this.

- Symbols: the database, the picked ones, every sign and matrix under every shift, and random and damaged ones. An accepted symbol has
  the Rust's operations in the Rust's order, each double the bits of its twelfth; refusals, letters and records are the model's. Where the rules
  refuse, what the Rust says is nothing that docs/DIFFERENCES.md does not list.
- Magnetic symbols: the database, every sign and matrix with and without time reversal under shifts, and random and damaged ones. An accepted symbol has
  the Rust's operations with the Rust's flags in its order; refusals and records are the model's. Damaged magnetic records have the model's verdict.
- Records: damaged ones, by the model: the verdict, the bytes that a copy writes and those that it does not.
- Tables: of symbols in list order and in record order, made from the Rust's own lists, and all groups of order up to 48 under fresh
  labels: subgroups, classes, conjugates, normalizers and permutations are the Rust's. Small and damaged tables, and orders at and beyond
  the bounds: the verdict is the model's, the Rust makes a group of a table exactly where the rules see an identity and inverses, and what is a
  group after all has the Rust's subgroups.
- Whatever is refused leaves every lent list as it was.

What is random has fixed seeds. Prints a line for each kind and at the end 'N compared, M differences'.
"""

import argparse
import itertools
import sys

import compare_magnetic_entries
import compare_records
import compare_symbols
import compare_tables
import groups
from entries import Comparison, Noise, packed
from groups import Source

import cases
import compare
import make_recorded
import model

SEED = 31
RANDOM_SYMBOLS = 60000
DAMAGED_RECORDS = 30000
MAGNETIC_SHIFTS = 100
RELABELLINGS = 2
BATCH = 5000
MOST_RECORD = 245
SAMPLE = compare_tables.Sample(4, 2, 6)
FEW = compare_tables.Sample(1, 1, 2)
MOST_LENT = 40


def batches(items):
    items = iter(items)
    while batch := list(itertools.islice(items, BATCH)):
        yield batch


def unwritten(calls, source, refusal, noise):
    """A source that names no group: one entry on whole groups and one on subgroups, with lists that must stay as they are."""
    lent, other = noise.bytes(noise.below(MOST_LENT)), noise.bytes(noise.below(MOST_LENT))
    source.call(calls, noise.chance.choice(("subgroups", "classes")), lent, gives=refusal)
    number, element = noise.below(2 ** 48), noise.below(64)
    if noise.below(2):
        source.call(calls, "conjugates", number, lent, other, gives=refusal)
    else:
        source.call(calls, "permutation", number, element, other, gives=refusal)


# Symbols ------------------------------------------------------------------------------------------------------------

def symbol_texts(database):
    yield from database
    yield from cases.extra_symbols()
    yield from cases.shifted_symbols()
    yield from cases.damaged_symbols(database, RANDOM_SYMBOLS, SEED)


def one_symbol(calls, text, said, answer, generators, noise):
    lent = noise.bytes(MOST_RECORD + 9)
    if isinstance(said[0], int):
        compare_symbols.refused(calls, text, packed(*said))
        calls.call("symbol_record", text, lent, noise.below(9), gives=packed(*said))
        unwritten(calls, Source("symbol", text), packed(*said), noise)
        kind, listed = compare.sort_symbol(text, said, answer, generators)
        calls.judge(listed, lambda: (repr(text), "the Rust: " + answer[:80], kind + ", which is listed"))
        return
    letter, operations = said
    try:
        listed = operations if compare.triple_cell(text) else compare_symbols.rust_operations(answer.split(" "))
    except (ValueError, model.Refusal):
        calls.judge(False, lambda: (repr(text), "the Rust: " + answer[:80], "a list of %d operations in twelfths" % len(operations)))
        return
    compare_symbols.accepted(calls, text, letter, listed)
    record, start = model.record(letter, operations), noise.below(9)
    calls.call("symbol_record", text, lent, start, gives=len(operations),
               leaves=[compare_records.written(lent, start, record)])
    calls.call("symbol_record", text, lent[:start + len(record) - 1], start, gives=packed(20))


def symbols(calls, harness, noise):
    """Answers how many symbols were asked, and the records of those that are accepted."""
    asked, records = 0, {}
    for texts in batches(symbol_texts(compare.database(harness))):
        answers = (compare.ask(harness, [command + compare.hex_of(text) for text in texts]) for command in ("operations ", "generators "))
        for text, answer, generators in zip(texts, *answers):
            said = model.outcome(model.group_of_symbol, text)
            one_symbol(calls, text, said, answer, generators, noise)
            if not isinstance(said[0], int):
                records.setdefault(model.record(*said))
        asked += len(texts)
    return asked, list(records)


# Records ------------------------------------------------------------------------------------------------------------

def records(calls, known, noise):
    """Damaged records, most of them of few operations: the model takes its time over many."""
    small = [record for record in known if record[-3] <= 12]
    buffers = cases.damaged_records(small, DAMAGED_RECORDS, SEED)
    buffers += cases.damaged_records(known, DAMAGED_RECORDS // 10, SEED + 1)
    for buffer in buffers:
        said = compare_records.judged(calls, buffer, noise)
        if isinstance(said[0], int):
            unwritten(calls, Source("record", buffer), packed(*said), noise)
    return len(buffers)


# Magnetic symbols and records -----------------------------------------------------------------------------------------

def rust_flagged(answer):
    """The Rust's letter and its list in twelfths, or None where it has no list."""
    letter, *words = answer.split(" ")
    if letter not in compare.RUST_LETTERS:
        return None
    return letter, [(rotation, model.twelfths([compare.double_of(part) for part in parts]), flag) for rotation, parts, flag in compare.read_flagged(words)]


def magnetic_symbols(calls, harness, noise):
    """Answers how many symbols were asked, and the records of those that are accepted."""
    own = compare_magnetic_entries.own_texts()
    asked, records = 0, {}
    for texts in batches(itertools.chain(own, cases.shifted_magnetic_symbols(MAGNETIC_SHIFTS, SEED), cases.magnetic_symbols(own, RANDOM_SYMBOLS, SEED))):
        for text, answer in zip(texts, compare.ask(harness, ["magnetic " + compare.hex_of(text) for text in texts])):
            said = compare_magnetic_entries.by_model(calls, text, noise)
            if not isinstance(said[0], int):
                records.setdefault(model.magnetic_record(*said))
                calls.judge(compare.triple_cell(text) or rust_flagged(answer) == said, lambda: (repr(text), "the Rust: " + answer[:80], str(said)[:80]))
        asked += len(texts)
    return asked, list(records)


def magnetic_records(calls, known, noise):
    for _ in range(DAMAGED_RECORDS):
        buffer = compare_magnetic_entries.damaged(noise, noise.chance.choice(known), noise.chance.choice(known))
        compare_magnetic_entries.judged(calls, buffer, noise)
    return DAMAGED_RECORDS


# Tables -------------------------------------------------------------------------------------------------------------

def rust_tables(harness, name, order, entries):
    lines = make_recorded.table_lines(harness, name, order, entries)
    return compare_tables.tables_of(line.split(" ") for line in lines)[0]


def symbol_tables(calls, harness, noise):
    """The database's groups by their texts and by their records."""
    known = {}
    texts = compare.database(harness)
    for text, answer in zip(texts, compare.ask(harness, ["operations " + compare.hex_of(text) for text in texts])):
        letter = text.decode().lstrip("-")[0]
        operations = compare_symbols.rust_operations(answer.split(" "))
        rows = model.table_of_operations(letter, operations).rows
        source, places = compare_tables.record_source(text)
        for by, table in ((Source("symbol", text), rows), (source, compare_tables.moved_rows(rows, places))):
            entries = tuple(cases.flat(table))
            if entries not in known:
                known[entries] = rust_tables(harness, "", len(rows), entries)
            compare_tables.replay_group(calls, SAMPLE, by, known[entries], noise)
    return 2 * len(texts)


def relabelled_tables(calls, harness, noise):
    asked = 0
    for rows, _, _ in groups.gap_groups():
        for _ in range(RELABELLINGS):
            table = cases.relabelled(rows, noise.below(2 ** 32))
            entries = cases.flat(table)
            found = rust_tables(harness, "", len(rows), entries)
            compare_tables.replay_group(calls, SAMPLE, groups.table_source(table), found, noise)
            asked += 1
    return asked


def damaged_tables(calls, harness, noise):
    compare_tables.refused_orders(calls, noise)
    asked = 0
    for tables in batches(itertools.chain(compare_tables.small_tables(), compare_tables.damaged_tables(noise))):
        questions = [make_recorded.table_question("table", order, entries) for order, entries in tables]
        for (order, entries), answer in zip(tables, compare.ask(harness, questions)):
            number, source = compare_tables.judged(calls, order, entries), Source("table", order, entries)
            if number:
                unwritten(calls, source, packed(number), noise)
            else:
                compare_tables.replay_group(calls, FEW, source, rust_tables(harness, "", order, entries), noise)
            # The Rust is given rows, not an order: it can be asked only about tables that have their bytes.
            if 1 <= order <= model.MOST_OPERATIONS and len(entries) == order * order:
                calls.judge((answer == "none") == (21 <= number <= 24),
                            lambda: ("table %d %s" % (order, entries.hex()), "the Rust: " + answer[:80], "refused %d" % number))
        asked += len(tables)
    return asked


def main():
    parser = argparse.ArgumentParser(description=__doc__, formatter_class=argparse.RawDescriptionHelpFormatter)
    parser.add_argument("program")
    parser.add_argument("harness")
    parser.add_argument("--emulator", default="")
    options = parser.parse_args()
    calls, noise = Comparison(options.emulator.split() + [options.program]), Noise(SEED)

    asked, known = symbols(calls, options.harness, noise)
    print("%d symbols" % asked, flush=True)
    print("%d damaged records" % records(calls, known, noise), flush=True)
    asked, known = magnetic_symbols(calls, options.harness, noise)
    print("%d magnetic symbols" % asked, flush=True)
    print("%d damaged magnetic records" % magnetic_records(calls, known, noise), flush=True)
    print("%d tables of symbols and records" % symbol_tables(calls, options.harness, noise), flush=True)
    print("%d tables of groups of order up to 48" % relabelled_tables(calls, options.harness, noise), flush=True)
    print("%d small and damaged tables" % damaged_tables(calls, options.harness, noise), flush=True)
    return calls.end("%d compared, %d differences")


if __name__ == "__main__":
    sys.exit(main())
