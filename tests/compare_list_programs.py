#!/usr/bin/env python3
"""Gives the operation lists of gemmi and of cctbx to the check of lists (Debian: python3-gemmi, python3-cctbx): each must pass, and damaged must not.

    /usr/bin/python3 tests/compare_list_programs.py PROGRAM [--emulator COMMAND]

PROGRAM is made from tests/entries.c. Asked about: the 530 database symbols, which stand first in oracle/recorded/symbols.txt. The two programs have
their own order and their own translations; each list is given as they have it, one operation of each rotation. The damaged ones are those of
compare_lists.py, against the model. Prints 'N passed, M failed'.
"""

import sys

import gemmi
from cctbx import sgtbx

from entries import Noise, answer_of, comparison, recorded

import compare_lists
import model

SEED = 530
DATABASE = 530


def by_gemmi(text):
    step = gemmi.Op.DEN
    return [(tuple(entry // step for row in operation.rot for entry in row), tuple(part * 12 // step % 12 for part in operation.tran))
            for operation in gemmi.symops_from_hall(other_marks(text)).sym_ops]


def other_marks(text):
    return text.replace("^", "'").replace("=", '"')


def by_cctbx(text):
    """One operation of each rotation, the last that the program lists of it."""
    found = {}
    for operation in sgtbx.space_group(other_marks(text)):
        rotation, translation = operation.r(), operation.t()
        assert rotation.den() == 1
        found[tuple(rotation.num())] = tuple(part * 12 // translation.den() % 12 for part in translation.num())
    return list(found.items())


def main():
    calls, _ = comparison(__doc__)
    noise = Noise(SEED)
    for word, *_ in recorded("symbols.txt")[:DATABASE]:
        text = model.text_of_hex(word).decode()
        letter, operations = model.group_of_symbol(text.encode())
        for program in (by_gemmi, by_cctbx):
            listed = program(text)
            calls.call("symbol_check", text.encode(), b"".join(map(compare_lists.item, listed)), gives=0)
            for items in compare_lists.damaged(letter, listed, noise):
                data = b"".join(items)
                said = model.outcome(model.compare_list, letter, operations, data)
                calls.call("symbol_check", text.encode(), data, gives=answer_of(said, compare_lists.number_of))
    return calls.end()


if __name__ == "__main__":
    sys.exit(main())
