#!/usr/bin/env python3
"""The model of magnetic symbols beside the Rust's `MagneticHallSymbol`, and the answers to record.

    python3 oracle/compare_magnetic.py HARNESS [COUNT [SEED]]     compare
    python3 oracle/compare_magnetic.py HARNESS record             the lines of recorded/magnetic.txt: the original's own symbols

The symbols are the original's own 1,651, those picked below, every sign and matrix with and without time reversal under 100 shifts, and COUNT random and
damaged ones (100,000 unless given) fixed by SEED. Where the model accepts, the Rust must give the same list with the same flags; a difference that
docs/DIFFERENCES.md does not list is printed, and the exit status is then 1.
"""

import re
import subprocess
import sys
from collections import Counter

import cases
import compare
import model
from compare import RUST_LETTERS, ask, double_of, hex_of, read_flagged

RANDOM = 100000
SEED = 14
SHIFTS = 100

PICKED = [
    b"P 1a'", b"P 1'", b"P 1 1c'", b"-P 1'", b"P -1'", b"-P 4 2 3 1'", b"-F 4 2 3 1'", b"-I 4bd 2c 3 1'", b"P 3'", b"P 6'", b"P 3* 2'", b"P 31'", b"P 41'",
    b"P 4w'", b"P 61 2' (0 0 -1)", b"-P 2ab' 2ac' (1 2 3)", b"C 1a' 1b'", b"R 3' 2='", b"-R 3 2=c'", b"H 3'", b"-H 3' 2", b"P 2 2' 3", b"P 4' 2 3'",
    b"P 2^'", b"P 2=x'", b"P 2'a", b"P 2''", b"P 2a'b'", b"P 2'1", b"P 21''", b"P 2'q", b"P '", b"P -'", b"P ''", b"P' 1", b"-P' 1", b"P'", b"'P 1",
    b"P 1 '", b"P 2 (0 0 1')", b"P 2 (0 0 1)'", b"P 2' (0 0 1", b"P (0 0 0)'", b"P 2'(0 0 0)", b"P 1x'", b"P 22'", b"P 2aa'", b"P 2x1'", b"P 3* 2^'",
    b"P 3*' 2^", b"P' 2'", b"P2'", b"p 1'", b"R 2'", b"-R 2'", b"A 4'", b"R 3 2x'", b"P 4 6'", b"P 4' 6", b"P 3' 2x", b"P 1a", b"P 1a' 1b'", b"P 1' 1a'",
    b"P 2w'", b"P 3w'", b"P 4a' 2u", b"P 1'".ljust(80), b"P 1'".ljust(81), b"P" + b" 1'" * 8, b"P" + b" 1'" * 9, b"P\xc2\xa01'", b"P 1\xc3\xa9'",
    b"P 1'\xff", b"",
]


def database(harness):
    found = subprocess.run([harness, "magnetics"], stdout=subprocess.PIPE, check=True).stdout.decode().split()
    return [model.text_of_hex(word) for word in found]


def exact(operations):
    return [(rotation, tuple(map(model.bits, model.doubles(translation))), flag) for rotation, translation, flag in operations]


# Where the model refuses and the original answers a list: what must hold of the text for the difference to be a listed one ----

def unchecked_list(text, found):
    """The breadth-first list of the generators as they are read, without the checks behind 12 to 14."""
    return found == exact(model.listed_flagged(model.read_magnetic(text)[1]))


def misplaced_reversal(text, _):
    """An N token with more than one `'`, or with one that is not last."""
    return any(re.search("'.", word) for word in compare.n_words(text))


ACCEPTED_THOUGH = {
    **{number: listed for number, listed in compare.ACCEPTED_THOUGH.items() if number not in (12, 14)},
    8: misplaced_reversal, 12: unchecked_list, 14: unchecked_list,
}


def sort_symbol(text, said, answer, generators):
    """What the model's word and the original's two answers are: (kind, whether it is listed)."""
    words = answer.split(" ")
    refused = isinstance(said[0], int)
    if words[0] not in RUST_LETTERS:
        return compare.sort_symbol(text, said, answer, plain_generators(generators) if words[0] == "endless" else generators)
    if not refused:
        return ("same list", True) if (words[0], read_flagged(words[1:])) == (said[0], exact(said[1])) else ("lists differ", False)
    listed = said[0] in ACCEPTED_THOUGH and bool(ACCEPTED_THOUGH[said[0]](text, read_flagged(words[1:])))
    return "refused %d, the Rust answers" % said[0], listed


def plain_generators(answer):
    """An answer to `magnetic_generators` without the flags, as `generators` has it."""
    letter, points, *words = answer.split(" ")
    return " ".join([letter, points, words[0]] + [word for place, word in enumerate(words[1:]) if place % 13 < 12])


def sort_generators(text, answer):
    """For a symbol that is read: what `new` answers beside the model's generators, rounded to twelfths."""
    said = model.outcome(model.read_magnetic, text)
    if isinstance(said[0], int):
        return None
    if answer == "none":
        return "generators: refused by the Rust only", compare.triple_cell(text)
    letter, points, *words = answer.split(" ")
    rounded = [(rotation, tuple(round(12 * double_of(part)) % 12 for part in parts), flag) for rotation, parts, flag in read_flagged(words)]
    same = (letter, int(points), rounded) == (said[0], len(model.POINTS[said[0]]), said[1])
    return "generators: equal when rounded to twelfths" if same else "generators differ", same


def sort_translations(text, said):
    """For a symbol that is accepted or refused 14: whether a product without rotation and flag has its translation outside L, by brute force."""
    if isinstance(said[0], int) and said[0] != 14:
        return None
    letter, generators = model.read_magnetic(text)
    start = model.FLAGGED_IDENTITY
    seen, waiting = {start}, [start]
    for motion in waiting:
        for generator in generators:
            rotation, translation, flag = model.flagged_product(motion, generator)
            image = rotation, model.mod_cell(translation), flag
            if image not in seen:
                seen.add(image)
                waiting.append(image)
    pure = {translation for rotation, translation, flag in seen if (rotation, flag) == (model.IDENTITY, 0)}
    same = (pure <= set(model.POINTS[letter])) == (said[0] != 14)
    return "refusal 14 by brute force: " + ("same" if same else "differs"), same


def compare_symbols(harness, texts):
    tally, unlisted = Counter(), []
    answers = [ask(harness, [command + hex_of(text) for text in texts]) for command in ("magnetic ", "magnetic_generators ")]
    for text, answer, generators in zip(texts, *answers):
        said = model.outcome(model.group_of_magnetic, text)
        for sorted_as in (sort_symbol(text, said, answer, generators), sort_generators(text, generators), sort_translations(text, said)):
            if sorted_as is not None:
                kind, listed = sorted_as
                tally[kind] += 1
                if not listed:
                    unlisted.append((text, kind, said[:2], answer[:80]))
    return tally, unlisted


def recorded_line(text, answer):
    """A symbol, its letter, its order and the number of each operation; every double must be a twelfth's."""
    letter, *words = answer.split(" ")
    numbers = [model.flagged_number(rotation, model.twelfths([double_of(part) for part in parts]), flag) for rotation, parts, flag in read_flagged(words)]
    return " ".join(map(str, [hex_of(text), letter, len(numbers)] + numbers))


def main(words):
    if not 1 <= len(words) <= 3:
        print(__doc__, file=sys.stderr)
        return 2
    harness = words[0]
    own = database(harness)
    if words[1:] == ["record"]:
        for text, answer in zip(own, ask(harness, ["magnetic " + hex_of(text) for text in own])):
            print(recorded_line(text, answer))
        return 0
    count = int(words[1]) if len(words) > 1 else RANDOM
    seed = int(words[2]) if len(words) > 2 else SEED
    unlisted = []
    for title, texts in (("the Rust's own symbols", own), ("picked", PICKED), ("shifted", cases.shifted_magnetic_symbols(SHIFTS, seed)),
                         ("random and damaged", cases.magnetic_symbols(own, count, seed))):
        tally, found = compare_symbols(harness, texts)
        compare.show("%s: %d symbols" % (title, len(texts)), tally)
        unlisted += found
    for each in unlisted[:50]:
        print("unlisted:", *each)
    print("%d unlisted" % len(unlisted))
    return 1 if unlisted else 0


if __name__ == "__main__":
    sys.exit(main(sys.argv[1:]))
