#!/usr/bin/env python3
"""Holds the groups of layer symbols to the layer database of spglib, which lists operations (Debian: python3-spglib).

    /usr/bin/python3 tests/compare_layer_programs.py PROGRAM [--emulator COMMAND]

PROGRAM is made from tests/entries.c. spglib lists the operations of its 116 settings of layer groups by number, in the order in which the Rust lists its 116
layer symbols; each list, with the centring points added, must be the set of motions that C answers for the symbol. Prints 'N passed, M failed', or says that
spglib is not there.
"""

import sys

from entries import ask, comparison, recorded

import model

MOST_MOTIONS = 192
CELL = 12


def database(number):
    """The motions of a setting of spglib's layer database, in twelfths: these have the numbers −1 to −116 there."""
    rotations = numpy.zeros((MOST_MOTIONS, 3, 3), dtype="intc")
    translations = numpy.zeros((MOST_MOTIONS, 3), dtype="double")
    count = _spglib.symmetry_from_database(rotations, translations, -number)
    return {(tuple(int(entry) for row in rotation for entry in row), tuple(round(CELL * part) % CELL for part in translation))
            for rotation, translation in zip(rotations[:count], translations[:count])}


def operation_of(value):
    """The rotation and the translation that the number of an operation says."""
    return model.rotation_of(value // CELL ** 3), (value // CELL ** 2 % CELL, value // CELL % CELL, value % CELL)


def answered(command, text):
    """The set of motions modulo whole cells, by the entries for C."""
    order, letter = (int(line, 16) for line in ask(command, [("layer_order", (text,)), ("layer_letter", (text,))]))
    values = [int(line, 16) for line in ask(command, [("layer_operation", (text, index)) for index in range(order)])]
    return {(rotation, model.mod_cell(model.plus(translation, point)))
            for rotation, translation in map(operation_of, values) for point in model.POINTS[chr(letter).upper()]}


def main():
    calls, _ = comparison(__doc__)
    for number, (word, *_) in enumerate(recorded("layers.txt"), 1):
        text = model.text_of_hex(word)
        ours, theirs = answered(calls.command, text), database(number)
        calls.judge(ours == theirs, lambda: (text.decode(), str(sorted(ours - theirs)), str(sorted(theirs - ours))))
    return calls.end()


if __name__ == "__main__":
    try:
        import numpy
        from spglib import _spglib
    except ImportError:
        sys.exit("spglib is not there: nothing was compared")
    sys.exit(main())
