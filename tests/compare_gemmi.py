#!/usr/bin/env python3
"""Holds the groups of the recorded symbols to gemmi, a program that reads Hall symbols by itself (Debian: python3-gemmi).

    /usr/bin/python3 tests/compare_gemmi.py

Gemmi writes the marks ^ and = as ' and ", and does not see what refusals 12 and 14 are given for; it is asked only about symbols that the
rules accept, and its group must be the model's, which the gate holds the port to. Known differences, counted apart: a mark without a letter,
which gemmi takes about z whatever stands before it; a second token of fold 3, 4 or 6 without an axis, and whitespace other than one space, which
gemmi does not read. Prints 'N passed, M failed'.
"""

import os
import re
import sys

import gemmi

sys.path.insert(0, os.path.join(os.path.dirname(os.path.abspath(__file__)), "..", "oracle"))

import model

RECORDED = os.path.join(os.path.dirname(os.path.abspath(model.__file__)), "recorded", "symbols.txt")


LONE_MARK = re.compile(rb" -?[2346][\^=](?![xyz*])")
SECOND_WITHOUT_AXIS = re.compile(rb"-?[PABCIRFH] \S+ -?[346](?![\^=xyz*])")
OTHER_SPACE = re.compile(rb"[\t-\r]|  |\( | \)|^ | $")


def known_difference(text):
    return any(form.search(text) for form in (LONE_MARK, SECOND_WITHOUT_AXIS, OTHER_SPACE))


def by_model(text):
    letter, operations = model.group_of_symbol(text)
    return {(rotation, model.mod_cell(model.plus(translation, point)))
            for rotation, translation in operations for point in model.POINTS[letter]}


def by_gemmi(text):
    group = gemmi.symops_from_hall(text.decode().replace("^", "'").replace("=", '"'))
    step = gemmi.Op.DEN
    found = set()
    for operation in group:
        rotation = tuple(entry // step for row in operation.rot for entry in row)
        found.add((rotation, tuple(part * 12 // step % 12 for part in operation.tran)))
    return found


def main():
    passed = failed = known = 0
    for line in open(RECORDED):
        word, number, _ = line.split(" ", 2)
        if number != "0":
            continue
        text = model.text_of_hex(word)
        try:
            found = by_gemmi(text)
        except RuntimeError as error:
            found = str(error)
        if found == by_model(text):
            passed += 1
        elif known_difference(text):
            known += 1
        else:
            failed += 1
            print("%r: gemmi says %s" % (text, found))
    print("%d known differences" % known)
    print("%d passed, %d failed" % (passed, failed))
    return failed != 0


if __name__ == "__main__":
    sys.exit(main())
