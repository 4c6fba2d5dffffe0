#!/usr/bin/env python3
"""Holds what C is told of a symbol to the recorded answers: refusals, order, identity, letter, and each operation in list order.

    python3 tests/compare_symbols.py PROGRAM [--emulator COMMAND]

PROGRAM is made from tests/entries.c. Refusals, letters and counts are those of the model of the rules, operations those of the Rust; of
the damaged symbols, which the Rust was not recorded for, operations are the model's. Prints 'N passed, M failed'.
"""

import sys

from entries import BEYOND, comparison, packed, recorded

import compare
import model


def operation_number(rotation, translation):
    x, y, z = translation
    return model.code(rotation) * 1728 + x * 144 + y * 12 + z


def rust_operations(words):
    """The Rust's list; the model's way back from doubles refuses one that is no twelfth."""
    return [(rotation, model.twelfths([compare.double_of(part) for part in parts]))
            for rotation, parts in compare.read_list(words)]


def refused(calls, text, refusal):
    for entry in ("symbol_order", "symbol_identity", "symbol_letter"):
        calls.call(entry, text, gives=refusal)
    for index in (0, 47, BEYOND[-1]):
        calls.call("symbol_operation", text, index, gives=refusal)


def accepted(calls, text, letter, operations):
    calls.call("symbol_order", text, gives=len(operations))
    calls.call("symbol_identity", text, gives=0)
    calls.call("symbol_letter", text, gives=ord(letter))
    for index, operation in enumerate(operations):
        calls.call("symbol_operation", text, index, gives=operation_number(*operation))
    for index in (len(operations), len(operations) + 1) + BEYOND:
        calls.call("symbol_operation", text, index, gives=packed(28))


def main():
    calls, _ = comparison(__doc__)
    calls.call("symbol_order", None, gives=packed(3))
    calls.call("symbol_operation", None, 0, gives=packed(3))
    for (word, number, place, *record), (same, *answer) in zip(recorded("symbols.txt"), recorded("operations.txt")):
        assert word == same
        text = model.text_of_hex(word)
        if number == "0":
            listed = model.group_of_symbol(text)[1] if compare.triple_cell(text) else rust_operations(answer)
            accepted(calls, text, chr(bytes.fromhex(record[0])[-5]), listed)
        else:
            refused(calls, text, packed(int(number), int(place)))
    for word, number, place, *_ in recorded("damaged.txt"):
        text = model.text_of_hex(word)
        if number == "0":
            accepted(calls, text, *model.group_of_symbol(text))
        else:
            refused(calls, text, packed(int(number), int(place)))
    return calls.end()


if __name__ == "__main__":
    sys.exit(main())
