#!/usr/bin/env python3
"""Holds the groups of symbols with the letter H to gemmi and to cctbx, which read Hall symbols by themselves (Debian: python3-gemmi, python3-cctbx).

    /usr/bin/python3 tests/compare_triple_cell.py [RANDOM_COUNT]

The Rust has no H, so these stand in for it. Asked about: every sign of the lattice, every one and two N tokens over the twenty matrices and both
signs, and random symbols. A symbol that the rules accept must give the model's set of motions, which the gate holds the port to, in both
programs. A symbol that they refuse with 12 to 14 must give cctbx an error, or a lattice of translations other than the three points of H; of random
symbols that is not asked, since cctbx takes minutes over some that are no group. Both programs write the marks ^ and = as ' and ", and cctbx a screw's digit
before the axis. They take a mark or a fold without an axis otherwise than the rules, so every token here names its axis, as 2x or 2^z. Prints how many
symbols were accepted, refused and not asked, then 'N passed, M failed'.
"""

import os
import random
import re
import sys
from itertools import product

import gemmi
from cctbx import sgtbx

sys.path.insert(0, os.path.join(os.path.dirname(os.path.abspath(__file__)), "..", "oracle"))

import model

RANDOM_SEED = 7
POINTS = {(0, 0, 0), (8, 4, 0), (4, 8, 0)}
TURNS = ["1"] + [fold + mark + axis for fold, mark, axis in model.MATRICES if fold != "1"]
TOKENS = [sign + turn for turn in TURNS for sign in ("", "-")]


def regular_symbols():
    for count in (1, 2):
        for words in product(("H", "-H"), *[TOKENS] * count):
            yield " ".join(words)


def random_symbols(count):
    chance = random.Random(RANDOM_SEED)
    kept = ["1", "2z", "2^z", "2=z", "3z", "6z", "2x", "2y"]
    for _ in range(count):
        words = [chance.choice(("H", "-H"))]
        for _ in range(chance.choice((1, 2, 2, 3, 4))):
            turn = chance.choice(kept if chance.random() < 0.8 else TURNS)
            digit = chance.choice("12345") if turn in ("2z", "3z", "6z") and chance.random() < 0.3 else ""
            letters = "".join(chance.choice("abcnuvwd") for _ in range(chance.choice((0, 0, 1, 2))))
            words.append(chance.choice(("", "-")) + turn + digit + letters)
        if chance.random() < 0.4:
            words.append("(%d %d %d)" % tuple(chance.randrange(12) for _ in range(3)))
        yield " ".join(words)


def by_model(text):
    letter, operations = model.group_of_symbol(text.encode())
    return {(rotation, model.mod_cell(model.plus(translation, point))) for rotation, translation in operations for point in model.POINTS[letter]}


def other_marks(text):
    return text.replace("^", "'").replace("=", '"')


def by_gemmi(text):
    step = gemmi.Op.DEN
    return {(tuple(entry // step for row in operation.rot for entry in row), tuple(part * 12 // step % 12 for part in operation.tran))
            for operation in gemmi.symops_from_hall(other_marks(text))}


def by_cctbx(text):
    found = set()
    for operation in sgtbx.space_group(re.sub("z([1-5])", r"\1z", other_marks(text))):
        rotation, translation = operation.r(), operation.t()
        assert rotation.den() == 1
        found.add((tuple(rotation.num()), tuple(part * 12 // translation.den() % 12 for part in translation.num())))
    return found


def answer_of(program, text):
    try:
        return program(text)
    except (RuntimeError, ValueError) as error:
        return str(error)


def agrees(text, ask_refused):
    """What the rules say of a text, and whether the others say so too; None if they were not asked."""
    refusal = model.outcome(model.group_of_symbol, text.encode())[0]
    if not isinstance(refusal, int):
        expected = by_model(text)
        return 0, answer_of(by_gemmi, text) == expected and answer_of(by_cctbx, text) == expected
    if refusal in (12, 13, 14):
        if not ask_refused:
            return refusal, None
        found = answer_of(by_cctbx, text)
        return refusal, isinstance(found, str) or {t for r, t in found if r == model.IDENTITY} != POINTS
    return refusal, None


def main(arguments):
    tally, passed, failed = {}, 0, 0
    regular = [(text, True) for text in regular_symbols()]
    for text, ask_refused in regular + [(text, False) for text in random_symbols(int(arguments[0]) if arguments else 2000)]:
        refusal, right = agrees(text, ask_refused)
        tally[refusal] = tally.get(refusal, 0) + 1
        passed += right is True
        if right is False:
            failed += 1
            print("%r: %s" % (text, "accepted, and another program has another group" if refusal == 0 else "refused %d" % refusal))
    for refusal, count in sorted(tally.items()):
        print("%d %s" % (count, "accepted" if refusal == 0 else "refused %d" % refusal))
    print("%d not asked" % (sum(tally.values()) - passed - failed))
    print("%d passed, %d failed" % (passed, failed))
    return failed != 0


if __name__ == "__main__":
    sys.exit(main(sys.argv[1:]))
