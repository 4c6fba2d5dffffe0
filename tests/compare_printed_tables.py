#!/usr/bin/env python3
"""Holds the tables of symbols and records that the port prints to those that the Rust was given.

    python3 tests/compare_printed_tables.py PROGRAM [--harness HARNESS] [--emulator COMMAND]

PROGRAM is made from tests/tables.c. The table of each symbol of oracle/recorded/tables.txt must be the recorded one, cell by cell: so the
Rust's recorded answers are those for the port's own tables. The tables of records of at most 12 operations must be the model's. With a harness
the Rust is asked about each printed table, and must answer as the model does. Prints 'N passed, M failed'.
"""

import argparse
import os
import subprocess
import sys

sys.path.insert(0, os.path.join(os.path.dirname(os.path.abspath(__file__)), "..", "oracle"))

import cases
import compare
import model

RECORDED = os.path.join(os.path.dirname(os.path.abspath(cases.__file__)), "recorded")
MOST_OPERATIONS = 12


def shown(order, entries):
    return " ".join(map(str, [order, *entries]))


def recorded_symbols():
    """Each symbol of the recorded tables with the table that the Rust was given."""
    name = None
    for line in open(os.path.join(RECORDED, "tables.txt")):
        words = line.rstrip("\n").split(" ")
        if words[0] == "#":
            name = line.rstrip("\n")[len("# symbol "):].encode() if words[1] == "symbol" else None
        elif words[0] == "T" and name is not None:
            yield name, shown(int(words[1]), map(int, words[3:]))


def recorded_records():
    """The records of the recorded symbols with their tables by the model."""
    known = set()
    for line in open(os.path.join(RECORDED, "symbols.txt")):
        text = model.text_of_hex(line.split(" ")[0])
        found = model.outcome(model.group_of_symbol, text)
        if isinstance(found[0], int) or len(found[1]) > MOST_OPERATIONS:
            continue
        record = bytes(model.record(*found))
        if record not in known:
            known.add(record)
            rows = model.table_of_record(record).rows
            yield record, shown(len(rows), cases.flat(rows))


def main(arguments):
    parser = argparse.ArgumentParser()
    parser.add_argument("program")
    parser.add_argument("--harness")
    parser.add_argument("--emulator", default="")
    options = parser.parse_args(arguments)
    asked = [(b"s", text, table) for text, table in recorded_symbols()]
    asked += [(b"r", record, table) for record, table in recorded_records()]
    data = b"".join(kind + bytes([len(given)]) + given for kind, given, _ in asked)
    lines = subprocess.run(options.emulator.split() + [options.program], input=data, capture_output=True, check=True).stdout.decode().splitlines()
    passed = failed = 0
    for (kind, given, table), line in zip(asked, lines, strict=True):
        if line == table:
            passed += 1
        else:
            failed += 1
            print("%s %r: the port prints %s, expected %s" % (kind.decode(), given, line[:80], table[:80]))
    if options.harness:
        printed = sorted(set(lines))
        answers = compare.ask(options.harness, ["table " + line for line in printed])
        for line, answer in zip(printed, answers, strict=True):
            order, *entries = map(int, line.split(" "))
            if answer != model.answer_table(model.table_of_bytes(order, entries)):
                failed += 1
                print("table %s: the Rust answers %s" % (line[:60], answer[:60]))
        print("%d printed tables given to the Rust" % len(printed))
    print("%d passed, %d failed" % (passed, failed))
    return failed != 0


if __name__ == "__main__":
    sys.exit(main(sys.argv[1:]))
