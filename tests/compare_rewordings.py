#!/usr/bin/env python3
"""Two symbols have one record exactly if they have one set of motions: database symbols said in other words, and nearly so.

    python3 tests/compare_rewordings.py PROGRAM [--emulator COMMAND]

PROGRAM is made from tests/entries.c. Each of the 530 database symbols is reworded: generators in another order and with their axes
spelt out, products of them as further generators, quite other generators of the same group, translations and shifts moved by vectors
of the lattice, shifts at random, and a translation changed. Whether two symbols have one set of motions is the model's word: all
generated motions modulo whole cells. What is random has a fixed seed. Prints 'N passed, M failed', a symbol or a pair counting one.
"""

import sys
from collections import namedtuple

from entries import Noise, ask, comparison, recorded

import model

SEED = 29
DATABASE = 530
RECORD_BYTES = 245
EACH_WAY = 2
TRANSLATION_LETTERS = "abcnuvwd"


# A family of symbols: letter and generators of a text, letter and operations, and what generators must make as many of as there are operations. An operation
# is a rotation and a translation, in a magnetic symbol with a flag behind them.
Family = namedtuple("Family", "read group generated")
PLAIN = Family(model.read_symbol, model.group_of_symbol, model.generated_rotations)


def motions(text, family):
    """The set of motions of a symbol, each modulo whole cells; None if the symbol is refused."""
    said = model.outcome(family.group, text)
    if isinstance(said[0], int):
        return None
    letter, operations = said
    return frozenset((rotation, model.mod_cell(model.plus(translation, point)), *flag)
                     for rotation, translation, *flag in operations for point in model.POINTS[letter])


# Operations as tokens -----------------------------------------------------------------------------------------------

TOKENS = {}
for (fold, mark, axis), matrix in model.MATRICES.items():
    spelt = fold + mark + ("" if fold == "1" else axis)
    TOKENS[matrix] = spelt
    TOKENS[tuple(-entry for entry in matrix)] = "-" + spelt


def letters_for(triple, noise):
    """Translation letters, each once, that add up to a triple of multiples of three, in any order; None for other triples."""
    if any(part % 3 for part in triple):
        return None
    run = ""
    for part, (half, quarter) in zip(triple, ("au", "bv", "cw")):
        run += {0: "", 3: quarter, 6: half, 9: half + quarter}[part]
    if noise.below(4) == 0 and not set(run) & set("abc"):
        run += "abcn"
    return "".join(noise.chance.sample(run, len(run)))


def digit_for(token, triple, noise):
    """A digit along z and the triple that is left to the letters, where the token may have one."""
    fold = int(token.lstrip("-")[0])
    steps = [step for step in range(1, fold) if (triple[2] - 12 * step // fold) % 3 == 0]
    if not token.endswith("z") or "^" in token or "=" in token or not steps or (triple[2] % 3 == 0 and noise.below(2)):
        return "", triple
    step = noise.chance.choice(steps)
    return str(step), (triple[0], triple[1], (triple[2] - 12 * step // fold) % 12)


def token_for(operation, shift, letter, noise):
    """An operation as an N token under a shift, its translation moved by a vector of the lattice; None if it cannot be written."""
    rotation, translation, *flag = operation
    if rotation not in TOKENS:
        return None
    back = model.plus(model.apply(rotation, shift), tuple(-part for part in shift))
    points = model.POINTS[letter]
    for point in noise.chance.sample(points, len(points)):
        triple = model.mod_cell(model.plus(model.plus(translation, back), point))
        digit, rest = digit_for(TOKENS[rotation], triple, noise)
        letters = letters_for(rest, noise)
        if letters is not None:
            return TOKENS[rotation] + digit + letters + ("'" if flag == [1] else "")
    return None


def symbol_of(letter, operations, shift, noise):
    """A symbol with these generators under a shift; None if one cannot be written, or the whole is too long."""
    tokens = [token_for(operation, shift, letter, noise) for operation in operations]
    if None in tokens or not 1 <= len(tokens) <= model.MOST_N_TOKENS:
        return None
    text = " ".join([letter] + tokens + (["(%d %d %d)" % shift] if shift != (0, 0, 0) or noise.below(2) else []))
    return text.encode() if len(text) <= model.MOST_BYTES else None


# Rewordings ---------------------------------------------------------------------------------------------------------

def shift_of(text):
    found = text.partition(b"(")[2]
    return tuple(map(int, found.rstrip(b") ").split())) if found else (0, 0, 0)


def reordered(letter, generators, operations, shift, noise, family):
    return symbol_of(letter, noise.chance.sample(generators, len(generators)), shift, noise)


def with_products(letter, generators, operations, shift, noise, family):
    more = [noise.chance.choice(operations) for _ in range(noise.below(model.MOST_N_TOKENS + 1 - len(generators)))]
    return symbol_of(letter, noise.chance.sample(generators + more, len(generators + more)), shift, noise)


def other_generators(letter, generators, operations, shift, noise, family):
    """Operations of the group drawn until they generate as many."""
    drawn = []
    writable = [operation for operation in operations if operation[0] in TOKENS]
    while len(drawn) < model.MOST_N_TOKENS:
        drawn.append(noise.chance.choice(writable))
        if len(family.generated(drawn)) == len(operations):
            return symbol_of(letter, drawn, shift, noise)
    return None


def shifted_by_lattice(letter, generators, operations, shift, noise, family):
    point = noise.chance.choice(model.POINTS[letter])
    moved = model.mod_cell(model.plus(shift, point))
    return symbol_of(letter, generators, moved, noise)


def shifted_at_random(letter, generators, operations, shift, noise, family):
    """The same tokens under another shift: often another set of motions, sometimes not."""
    other = tuple(noise.chance.choice((0, 0, 3, 6, 6, 9, 4)) for _ in range(3))
    text = symbol_of(letter, generators, shift, noise)
    return text and text.partition(b" (")[0] + b" (%d %d %d)" % other


def changed(letter, generators, operations, shift, noise, family):
    """One translation letter more: often refused, often another set of motions."""
    text = symbol_of(letter, generators, shift, noise)
    if text is None:
        return None
    words = text.split(b" ")
    place = 1 + noise.below(len(generators))
    token = words[place].rstrip(b"'")
    words[place] = token + noise.chance.choice(TRANSLATION_LETTERS).encode() + words[place][len(token):]
    return b" ".join(words)


SAME = (reordered, with_products, other_generators, shifted_by_lattice)
OTHER = (shifted_at_random, changed)


def worded(texts, noise, family, other):
    """The symbols and their rewordings that are accepted, each with its set of motions; those of `SAME` must not change it, those of `other` may."""
    found = {}
    for text in texts:
        letter, generators = family.read(text)
        operations = family.group(text)[1]
        found[text] = motions(text, family)
        for way in (SAME + other) * EACH_WAY:
            again = way(letter, generators, operations, shift_of(text), noise, family)
            if again is not None and again not in found:
                found[again] = motions(again, family)
                assert way in other or found[again] == found[text], (text, again)
    return {text: each for text, each in found.items() if each is not None}


def records_say_sets(calls, entry, lent, said):
    """By an entry that writes a record into what is lent: one set of motions has one answer, and two sets have two."""
    answers = dict(zip(said, ask(calls.command, [(entry, (text, lent, 0)) for text in said])))
    by_motions, by_answer = {}, {}
    for text, each in said.items():
        first, same = by_motions.setdefault(each, text), by_answer.setdefault(answers[text], text)
        calls.judge(answers[text] == answers[first], lambda: (repr(text), answers[text], "that of %r" % first))
        calls.judge(said[same] == each, lambda: (repr(text), "the answer of %r" % same, "another"))
    print("%d symbols, %d sets of motions" % (len(said), len(by_motions)))


def main():
    calls, _ = comparison(__doc__)
    texts = [model.text_of_hex(word) for word, *_ in recorded("symbols.txt")[:DATABASE]]
    records_say_sets(calls, "symbol_record", bytes(RECORD_BYTES), worded(texts, Noise(SEED), PLAIN, OTHER))
    return calls.end()


if __name__ == "__main__":
    sys.exit(main())
