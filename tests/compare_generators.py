#!/usr/bin/env python3
"""Holds the port's reading of texts to the model of the rules, and to the Rust where a harness is given.

    python3 tests/compare_generators.py PORT [--all] [--harness HARNESS] [--emulator COMMAND]

PORT is the program made from tests/generators.c. Without --all a sample of the texts is taken that the gate has time for; with it
every N token of up to four bytes stands first, after each of eight other tokens, and after two, and every word of up to four
signs and digits is a shift's number. Prints 'N passed, M failed'.
"""

import argparse
import itertools
import os
import subprocess
import sys

sys.path.insert(0, os.path.join(os.path.dirname(os.path.abspath(__file__)), "..", "oracle"))

import cases
import compare
import model

ALPHABET = b"-12346^=xyz*abcnuvwd'5("
BEFORE = [b"", b"1 ", b"2 ", b"2x ", b"2^x ", b"3 ", b"3* ", b"4 ", b"6 ", b"2 2 ", b"3 2 "]
SAMPLE_STEP = 61
BATCH = 200000
SHIFT_BYTES = b"-+0123456789"
SHIFT_STEP = 7


def tokens(longest):
    for length in range(1, longest + 1):
        for letters in itertools.product(ALPHABET, repeat=length):
            yield bytes(letters)


def token_texts(step):
    for number, (before, token) in enumerate(itertools.product(BEFORE, tokens(4))):
        if number % step == 0 or len(token) < 3:
            yield b"P " + before + token


def shift_texts(step):
    """Every word of up to four signs and digits as a shift's last number; behind a `-` none is left out."""
    number = 0
    for length in range(1, 5):
        for letters in itertools.product(SHIFT_BYTES, repeat=length):
            number += 1
            if number % step == 0 or length < 3 or letters[0] == ord("-"):
                yield b"P 2 (0 0 " + bytes(letters) + b")"


def length_texts():
    """Good and bad symbols filled up with spaces, and long runs, to every length around the limit."""
    for length in range(70, 91):
        for text in (b"P 2", b"-P 1 (0 0 1)", b"P 2q", b"", b"P"):
            yield text + b" " * (length - len(text))
            yield b" " * (length - len(text)) + text
        yield b"P 2" + b"a" * (length - 3)
        yield b"P" + b" 1" * ((length - 1) // 2)


def recorded_texts():
    folder = os.path.join(os.path.dirname(cases.__file__), "recorded")
    for name in ("symbols.txt", "damaged.txt"):
        for line in open(os.path.join(folder, name)):
            yield model.text_of_hex(line.split(" ", 1)[0])


def said_by_model(text):
    found = model.outcome(model.read_symbol, text)
    if isinstance(found[0], int):
        return "%d %d" % found
    letter, generators = found
    words = ["0", letter, str(len(generators))]
    for rotation, translation in generators:
        words += [str(model.code(rotation))] + [str(k) for k in translation]
    return " ".join(words)


def said_by_port(port, texts):
    data = b"".join(bytes([len(text)]) + text for text in texts)
    out = subprocess.run(port, input=data, capture_output=True, check=True).stdout.decode("latin-1")
    return out.splitlines()


def differs_from_rust(harness, texts):
    """Of texts that the rules accept, those whose generators the Rust has otherwise, rounded to twelfths modulo 12."""
    answers = compare.ask(harness, ["generators " + compare.hex_of(text) for text in texts])
    return [text for text, answer in zip(texts, answers, strict=True) if not compare.sort_generators(text, answer)[1]]


def main(arguments):
    parser = argparse.ArgumentParser()
    parser.add_argument("port")
    parser.add_argument("--all", action="store_true")
    parser.add_argument("--harness")
    parser.add_argument("--emulator", default="")
    options = parser.parse_args(arguments)
    port = options.emulator.split() + [options.port]
    texts = itertools.chain(
        recorded_texts(), length_texts(), shift_texts(1 if options.all else SHIFT_STEP),
        (text for text in token_texts(1 if options.all else SAMPLE_STEP)))
    passed = failed = compared = 0
    while batch := [text for text in itertools.islice(texts, BATCH) if len(text) < 256]:
        accepted = []
        for text, port_said in zip(batch, said_by_port(port, batch), strict=True):
            model_said = said_by_model(text)
            if port_said.startswith("0 "):
                accepted.append(text)
            if port_said == model_said:
                passed += 1
            else:
                failed += 1
                print("%r: the port says %s, the model %s" % (text, port_said, model_said))
        if options.harness:
            for text in differs_from_rust(options.harness, accepted):
                failed += 1
                print("%r: the Rust has other generators" % text)
            compared += len(accepted)
    if options.harness:
        print("%d accepted texts compared with the Rust" % compared)
    print("%d passed, %d failed" % (passed, failed))
    return failed != 0


if __name__ == "__main__":
    sys.exit(main(sys.argv[1:]))
