#!/usr/bin/env python3
"""Holds what C is told of a layer symbol to the Rust's `LayerHallSymbol` and to the model of the rules.

    python3 tests/compare_layers.py PROGRAM [--emulator COMMAND] [--harness HARNESS]

PROGRAM is made from tests/entries.c. The Rust's own 116 layer symbols have its recorded lists; random symbols, damaged ones, and plain symbols with any
first token have the model's answers; records with small letters, whole and damaged, have the model's verdict. HARNESS is made by oracle/build.sh: with it 60,000 more random symbols are asked; where one is accepted the list is the
Rust's, and where 19 is answered the Rust has a list, since it never checks the layer rules. Prints 'N passed, M failed'.
"""

import argparse
import itertools
import sys

from compare_records import judged, read_back, write_everywhere
from compare_symbols import operation_number, rust_operations
from entries import BEYOND, Comparison, Noise, packed, recorded

import cases
import compare
import model

SEED = 19
RANDOM_SYMBOLS = 3000
DAMAGED_SYMBOLS = 3000
LONG_RUN = 60000
BATCH = 5000
NO_LAYER = 19
DAMAGES = 30
PLAIN_SYMBOLS = 300
FIRST_TOKENS = (b"p", b"c", b"-p", b"-c", b"P", b"C", b"-P", b"h", b"a", b"pp", b"p-", b"--p", b"-", b"-pc", b"p(", b"\xff", b"-\xff", b"\x7fp", b"p'", b"?")


def refused(calls, text, refusal):
    calls.call("layer_order", text, gives=refusal)
    calls.call("layer_letter", text, gives=refusal)
    for index in (0, 47, BEYOND[-1]):
        calls.call("layer_operation", text, index, gives=refusal)
    calls.call("layer_record", text, b"lent", 1, gives=refusal)


def accepted(calls, text, letter, operations):
    calls.call("layer_order", text, gives=len(operations))
    calls.call("layer_letter", text, gives=ord(letter))
    for index, operation in enumerate(operations):
        calls.call("layer_operation", text, index, gives=operation_number(*operation))
    for index in (len(operations), len(operations) + 1) + BEYOND:
        calls.call("layer_operation", text, index, gives=packed(28))


def by_model(calls, text):
    said = model.outcome(model.group_of_layer, text)
    if isinstance(said[0], int):
        refused(calls, text, packed(*said))
    else:
        accepted(calls, text, *said)
    return said


def by_rust(calls, text, answer):
    """A list that is answered must be the Rust's, and 19 is said only of a symbol that the Rust has a list for."""
    letter, *words = answer.split(" ")
    said = by_model(calls, text)
    listed = letter in ("P", "C")
    if not isinstance(said[0], int):
        same = listed and (letter.lower(), [(rotation, model.mod_cell(parts)) for rotation, parts in rust_operations(words)]) == said
        calls.judge(same, lambda: (text.decode(), str(said), answer))
    elif said[0] == NO_LAYER:
        calls.judge(listed, lambda: (text.decode(), str(said), answer))


def records(calls, noise):
    """The records of the Rust's own symbols: written, read back and copied, moved there and back; and the same bytes damaged, under every letter of a
    lattice and of layers, by the model's verdict."""
    for word, letter, *words in recorded("layers.txt"):
        text = model.text_of_hex(word)
        record = model.record(letter.lower(), rust_operations(words))
        write_everywhere(calls, "layer_record", text, record, noise)
        read_back(calls, record, noise)
        write_everywhere(calls, "record_move", record, model.moved_record(record), noise)
        write_everywhere(calls, "record_move", model.moved_record(record), record, noise)
        for other in "PABCIRFHpchap":
            judged(calls, record[:-5] + other.encode() + record[-4:], noise)
        for _ in range(DAMAGES):
            at = noise.below(len(record))
            judged(calls, record[:at] + bytes([noise.below(256)]) + record[at + 1:], noise)
    plain = [model.text_of_hex(word) for word, number, *_ in recorded("symbols.txt") if number == "0" and model.text_of_hex(word).strip()[:1] in (b"P", b"C")]
    for text in plain[:PLAIN_SYMBOLS]:
        record = model.record(*model.group_of_symbol(text))
        judged(calls, record[:-5] + record[-5:-4].lower() + record[-4:], noise)


def texts():
    """Random layer symbols, damaged ones, and symbols of the rules with other first tokens."""
    yield from cases.layer_symbols(RANDOM_SYMBOLS, SEED)
    yield from cases.damaged_symbols(list(cases.layer_symbols(RANDOM_SYMBOLS, SEED + 1)), DAMAGED_SYMBOLS, SEED)
    rest = (b"", b" ", b" 1", b" 2", b" 21", b" -2c", b" 2aa", b" 3*", b" 4 6", b" 1c", b" 2 (0 0 3)", b" 1 (0 0 1)", b" 1\x80", b" 2'", b"\t2x\n(0 0 3)")
    for before, token, after in itertools.product((b"", b" ", b"\t \n"), FIRST_TOKENS, rest):
        yield before + token + after
    yield from (b"p 1".ljust(80), b"p 1".ljust(81), b"p" + b" 1" * 8, b"p" + b" 1" * 9, b" " * 80, b" " * 81, b"", b" " * 79 + b"p", b" " * 78 + b"-p")


def main():
    parser = argparse.ArgumentParser(description=__doc__, formatter_class=argparse.RawDescriptionHelpFormatter)
    parser.add_argument("program")
    parser.add_argument("--emulator", default="")
    parser.add_argument("--harness", default="")
    options = parser.parse_args()
    calls = Comparison(options.emulator.split() + [options.program])
    calls.call("layer_order", None, gives=packed(3))
    for word, letter, *words in recorded("layers.txt"):
        accepted(calls, model.text_of_hex(word), letter.lower(), rust_operations(words))
    for text in texts():
        by_model(calls, text)
    records(calls, Noise(SEED))
    if options.harness:
        waiting = cases.layer_symbols(LONG_RUN, SEED + 2)
        while batch := list(itertools.islice(waiting, BATCH)):
            for text, answer in zip(batch, compare.ask(options.harness, ["layer " + compare.hex_of(text) for text in batch])):
                by_rust(calls, text, answer)
    return calls.end()


if __name__ == "__main__":
    sys.exit(main())
