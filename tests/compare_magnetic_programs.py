#!/usr/bin/env python3
"""Holds the groups of magnetic symbols to the magnetic database of spglib, which lists operations (Debian: python3-spglib).

    /usr/bin/python3 tests/compare_magnetic_programs.py PROGRAM [--emulator COMMAND]

PROGRAM is made from tests/entries.c. spglib lists the operations of the 1,651 types of magnetic groups by UNI number, as the Rust lists its magnetic symbols;
each list must be the set of flagged motions that C answers for the symbol, with the centring points added. Where the Rust's symbol has another origin than
spglib's first setting of the type, it is the list of another of its settings. Prints how many were found in which, then 'N passed, M failed'; or says that
spglib is not there.
"""

import sys
from collections import Counter

from entries import ask, comparison, recorded

import model

SETTINGS = 530
CELL = 12
FIRST_SETTING = 0
# Motions without time reversal of a type with antitranslations are the group of the first type of its number. spglib 2.0.2 keeps that rule in 514 such types
# and breaks it in these three, 37.184 to 37.186, where it has a time reversal on the turn.
SLIPS, WITHOUT_REVERSAL = (282, 283, 284), 278


def database(number, setting=FIRST_SETTING):
    """The flagged motions that spglib lists for a UNI number in one of its settings, in twelfths."""
    found = spglib.get_magnetic_symmetry_from_database(number, setting)
    return {(tuple(int(entry) for row in rotation for entry in row), tuple(round(CELL * part) % CELL for part in translation), int(flag))
            for rotation, translation, flag in zip(found["rotations"], found["translations"], found["time_reversals"])}


def settings_by_type():
    """The settings of each type of space group, by its number."""
    found = {}
    for setting in range(1, SETTINGS + 1):
        found.setdefault(spglib.get_spacegroup_type(setting)["number"], []).append(setting)
    return found


def motions(letter, operations):
    return {(rotation, model.mod_cell(model.plus(translation, point)), flag) for rotation, translation, flag in operations for point in model.POINTS[letter]}


def operation_of(value):
    flag_and_code, triple = divmod(value, CELL ** 3)
    flag, code = divmod(flag_and_code, 3 ** 9)
    return model.rotation_of(code), (triple // CELL ** 2, triple // CELL % CELL, triple % CELL), flag


def answered(command, texts):
    """The set of flagged motions of each text, by the entries for C."""
    asked = ask(command, [("magnetic_" + entry, (text,)) for text in texts for entry in ("order", "letter")])
    known = [(text, int(order, 16), chr(int(letter, 16))) for text, order, letter in zip(texts, asked[::2], asked[1::2])]
    values = iter(ask(command, [("magnetic_operation", (text, index)) for text, order, _ in known for index in range(order)]))
    return [motions(letter, [operation_of(int(next(values), 16)) for _ in range(order)]) for _, order, letter in known]


def unreversed(motions_found):
    return {motion for motion in motions_found if motion[-1] == 0}


def slipped(number, ours, theirs):
    """Whether the two differ in flags alone, and spglib breaks its rule where the Rust's symbol keeps it."""
    plain = database(WITHOUT_REVERSAL)
    return number in SLIPS and {motion[:2] for motion in ours} == {motion[:2] for motion in theirs} and unreversed(ours) == plain != unreversed(theirs)


def main():
    calls, _ = comparison(__doc__)
    settings = settings_by_type()
    texts = [model.text_of_hex(word) for word, *_ in recorded("magnetic.txt")]
    tally = Counter()
    for number, (text, ours) in enumerate(zip(texts, answered(calls.command, texts)), 1):
        theirs = database(number)
        kind = "the first setting"
        if ours != theirs:
            others = settings[spglib.get_magnetic_spacegroup_type(number)["number"]]
            kind = "another setting" if any(ours == database(number, setting) for setting in others) else "no setting"
        if kind == "no setting" and slipped(number, ours, theirs):
            kind = "no setting: a slip of spglib's"
        tally[kind] += 1
        calls.judge(kind != "no setting", lambda: ("%d %s" % (number, text.decode()), str(sorted(ours - theirs)), str(sorted(theirs - ours))))
    for kind, count in sorted(tally.items()):
        print("%5d in %s" % (count, kind))
    return calls.end()


if __name__ == "__main__":
    try:
        import spglib
    except ImportError:
        sys.exit("spglib is not there: nothing was compared")
    sys.exit(main())
