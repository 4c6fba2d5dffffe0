#!/usr/bin/env python3
"""Holds operation lines to gemmi and to cctbx, which read and write them by themselves (Debian: python3-gemmi, python3-cctbx).

    /usr/bin/python3 tests/compare_line_programs.py PROGRAM [--emulator COMMAND]

PROGRAM is made from tests/entries.c. For every unimodular code with some translations: the line that is written is gemmi's triplet and cctbx's
as_xyz, and both read it as the operation it was written for. Well spelt lines with spaces, terms in any order and fractions in any terms are read by
all three alike. Both take spellings that the rules refuse, so nothing is asked of these. Prints 'N passed, M failed'.
"""

import sys

import gemmi
from cctbx import sgtbx

from compare_lines import UNIMODULAR, any_line, operation_number
from entries import Noise, ask, comparison

import model

SEED, TRANSLATIONS, READ = 31, 4, 20000


def by_gemmi(line):
    op = gemmi.parse_triplet(line).wrap()
    return tuple(entry // op.DEN for row in op.rot for entry in row), tuple(t * 12 // op.DEN for t in op.tran)


def by_cctbx(line):
    op = sgtbx.rt_mx(line, r_den=1, t_den=12).mod_positive()
    return op.r().num(), op.t().num()


def written_by_gemmi(rotation, translation):
    op = gemmi.Op()
    op.rot = [[entry * op.DEN for entry in rotation[3 * i:3 * i + 3]] for i in range(3)]
    op.tran = [t * op.DEN // 12 for t in translation]
    return op.triplet()


def written_by_cctbx(rotation, translation):
    return sgtbx.rt_mx(sgtbx.rot_mx(rotation, 1), sgtbx.tr_vec(translation, 12)).as_xyz()


def main():
    calls, _ = comparison(__doc__)
    noise = Noise(SEED)
    operations = [(model.rotation_of(number), tuple(noise.below(12) for _ in range(3))) for number in UNIMODULAR for _ in range(TRANSLATIONS)]
    answers = ask(calls.command, [("operation_line", (model.five_bytes(*operation), bytes(64))) for operation in operations])
    for operation, answer in zip(operations, answers):
        length, lent = answer.split(" ")
        line = bytes.fromhex(lent)[:int(length, 16)].decode()
        for name, said, expected in (
                ("gemmi writes", written_by_gemmi(*operation), line), ("cctbx writes", written_by_cctbx(*operation), line),
                ("gemmi reads", by_gemmi(line), operation), ("cctbx reads", by_cctbx(line), operation)):
            calls.judge(said == expected, lambda: (line, "%s %s" % (name, said), expected))
    lines = [line for line in (any_line(noise) for _ in range(READ)) if len(line) <= 64 and isinstance(model.outcome(model.read_line, line)[0], tuple)]
    for line, answer in zip(lines, ask(calls.command, [("line_operation", (line,)) for line in lines])):
        for name, said in (("gemmi reads", by_gemmi(line.decode())), ("cctbx reads", by_cctbx(line.decode()))):
            calls.judge(operation_number(said) == int(answer, 16), lambda: (line.decode(), "%s %s" % (name, said), answer))
    return calls.end()


if __name__ == "__main__":
    sys.exit(main())
