#!/usr/bin/env python3
"""Holds the port's reading of magnetic texts to the rules, token by token, and to cases worked out by hand.

    python3 tests/compare_magnetic.py PORT [--all] [--emulator COMMAND]

PORT is the program made from tests/magnetic.c. An N token whose only `'` is its last byte, behind other bytes, has time reversal, and is
read as the token without it; nothing else changes. The model says that token by token, and makes no copy of the text. Without --all a
sample of the texts is taken that the gate has time for. Prints 'N passed, M failed'.
"""

import argparse
import itertools
import os
import random
import subprocess
import sys

sys.path.insert(0, os.path.join(os.path.dirname(os.path.abspath(__file__)), "..", "oracle"))

import model

IDENTITY, HALF_TURN, INVERSION = 16484, 3200, 3198

# Cases worked out by hand: letter, and each generator's flag, rotation code and translation; or number and place.
BY_HAND = {
    b"P 1a'": "0 P 1 1 %d 6 0 0" % IDENTITY,
    b"P 1'": "0 P 1 1 %d 0 0 0" % IDENTITY,
    b"P 1 1c'": "0 P 2 0 %d 0 0 0 1 %d 0 0 6" % (IDENTITY, IDENTITY),
    b"-P 2'": "0 P 2 0 %d 0 0 0 1 %d 0 0 0" % (INVERSION, HALF_TURN),
    b"-P 2 (0 0 1)": "0 P 2 0 %d 0 0 2 0 %d 0 0 0" % (INVERSION, HALF_TURN),
    b"P' 2": "4 0", b"P 2'a": "8 2", b"P 2''": "8 2", b"P 2'q": "5 4", b"P '": "5 2", b"P -'": "5 3", b"P 2 '": "5 4",
    b"P 2 (0 0 1')": "9 4", b"P 2' (0 0 1)": "0 P 1 1 %d 0 0 0" % HALF_TURN, b"P 2aa'": "17 4", b"P 1x'": "6 2", b"P 22'": "7 3",
    b"P (0 0 0)'": "10 2", b"P": "10 1", b"": "3 0", b"p 2'": "4 0",
    b"P" + b" 1'" * 9: "11 26", b"P 2'" + b" " * 77: "1 80",
}

WORDS = [b"P", b"-P", b"H", b"P'", b"'", b"1", b"2", b"1'", b"2'", b"-1'", b"2a'", b"2'a", b"2''", b"-'", b"3*'", b"2^'", b"4w'", b"31'", b"(0 0 1)", b"(0 0 1)'", b"2q'", b"2aa'"]
ALPHABET = b"-123a'^x( "


FOLDS = [b"1", b"2x", b"2y", b"2z", b"2^x", b"2=z", b"3z", b"3*", b"4x", b"4z", b"6y", b"6z"]


def good_text(chosen):
    """A text that the rules accept, some of its N tokens with time reversal."""
    words = [chosen.choice([b"", b"-"]) + bytes([chosen.choice(b"PABCIRFH")])]
    for _ in range(chosen.randrange(1, 9)):
        run = bytes(chosen.sample(list(b"abcnuvwd"), chosen.randrange(0, 3)))
        words.append(chosen.choice([b"", b"-"]) + chosen.choice(FOLDS) + run + chosen.choice([b"", b"'"]))
    shift = chosen.choice([b"", b" (0 0 1)", b" ( -3 11 6 ) "])
    return chosen.choice([b" ", b"\t  "]).join(words) + shift


def said_by_rules(text):
    found = model.outcome(model.read_magnetic, text)
    if isinstance(found[0], int):
        return "%d %d" % found
    letter, generators = found
    words = ["0", letter, str(len(generators))]
    for rotation, translation, flag in generators:
        words += [str(flag), str(model.code(rotation))] + [str(k) for k in translation]
    return " ".join(words)


def texts(every):
    chosen = random.Random(14)
    for length in range(1, 4 if every else 3):
        for words in itertools.product(WORDS, repeat=length):
            yield b"P " + b" ".join(words)
            yield b" ".join(words)
    for _ in range(100000 if every else 20000):
        yield bytes(chosen.choice(ALPHABET) for _ in range(chosen.randrange(1, 14)))
        yield b"P " + bytes(chosen.choice(ALPHABET) for _ in range(chosen.randrange(1, 12)))
        yield b" ".join(chosen.choice(WORDS) for _ in range(chosen.randrange(1, 20)))[:90]
    for _ in range(20000 if every else 5000):
        yield good_text(chosen)
    for byte in range(256):
        yield b"P 2'" + bytes([byte]) + b"2'"


def main(arguments):
    parser = argparse.ArgumentParser()
    parser.add_argument("port")
    parser.add_argument("--all", action="store_true")
    parser.add_argument("--emulator", default="")
    options = parser.parse_args(arguments)
    asked = list(BY_HAND) + [text for text in texts(options.all) if len(text) < 256]
    data = b"".join(bytes([len(text)]) + text for text in asked)
    said = subprocess.run(options.emulator.split() + [options.port], input=data, capture_output=True, check=True).stdout.decode("latin-1").splitlines()
    passed = failed = 0
    for text, port_said in zip(asked, said, strict=True):
        for right in [said_by_rules(text)] + ([BY_HAND[text]] if text in BY_HAND else []):
            if port_said == right:
                passed += 1
            else:
                failed += 1
                print("%r: the port says %s, and right is %s" % (text, port_said, right))
    print("%d passed, %d failed" % (passed, failed))
    return failed != 0


if __name__ == "__main__":
    sys.exit(main(sys.argv[1:]))
