#!/usr/bin/env python3
"""Holds the port's groups to the recorded answers of the Rust and to the model of the rules, and to the Rust itself where a harness is given.

    python3 tests/compare_operations.py PORT [--random COUNT] [--harness HARNESS [--shifted] [--beside COUNT]] [--emulator COMMAND]

PORT is the program made from tests/operations.c. Every recorded symbol must be refused as the model refuses it, or have the operations
of oracle/recorded/operations.txt, in their order and with the bits of their doubles. With --random that many random and damaged symbols
are asked too, and those that the port accepts are compared with the Rust's own lists; with --shifted so are all 69,120 symbols of one N
token, every sign and matrix under every shift, and with --beside the accepted ones of that many more random symbols. Prints 'N passed, M failed'.
"""

import argparse
import os
import subprocess
import sys

sys.path.insert(0, os.path.join(os.path.dirname(os.path.abspath(__file__)), "..", "oracle"))

import cases
import compare
import model

RECORDED = os.path.join(os.path.dirname(os.path.abspath(cases.__file__)), "recorded")
RANDOM_SEED = 11
BESIDE_SEED = 23


def lines(name):
    return [line.rstrip("\n").split(" ", 1) for line in open(os.path.join(RECORDED, name))]


def said_by_port(port, texts):
    data = b"".join(bytes([len(text)]) + text for text in texts)
    return subprocess.run(port, input=data, capture_output=True, check=True).stdout.decode().splitlines()


def shown(words):
    """A list of operations as tests/operations.c writes it, from the harness's words."""
    operations = compare.read_list(words)
    parts = ["0", str(len(operations))]
    for rotation, bits in operations:
        parts += [str(model.code(rotation))] + ["%016x" % part for part in bits]
    return " ".join(parts)


def said_by_model(text):
    found = model.outcome(model.group_of_symbol, text)
    if isinstance(found[0], int):
        return "%d %d" % found
    parts = ["0", str(len(found[1]))]
    for rotation, translation in found[1]:
        parts += [str(model.code(rotation))] + ["%016x" % model.bits(part) for part in model.doubles(translation)]
    return " ".join(parts)


def recorded():
    """Each recorded symbol with what must come out: the model's refusal, or the Rust's list; the model's list where the Rust has no such letter."""
    expected = {}
    for (word, verdict), (same, answer) in zip(lines("symbols.txt"), lines("operations.txt"), strict=True):
        assert word == same
        number, rest = verdict.split(" ", 1)
        text = model.text_of_hex(word)
        if number == "0":
            expected[text] = said_by_model(text) if compare.triple_cell(text) else shown(answer.split(" "))
        else:
            expected[text] = verdict
    for word, verdict in lines("damaged.txt"):
        text = model.text_of_hex(word)
        expected[text] = said_by_model(text) if verdict.startswith("0 ") else verdict
    return expected


def main(arguments):
    parser = argparse.ArgumentParser()
    parser.add_argument("port")
    parser.add_argument("--random", type=int, default=0)
    parser.add_argument("--harness")
    parser.add_argument("--shifted", action="store_true")
    parser.add_argument("--beside", type=int, default=0)
    parser.add_argument("--emulator", default="")
    options = parser.parse_args(arguments)
    port = options.emulator.split() + [options.port]
    expected = {text: said for text, said in recorded().items() if len(text) < 256}
    database = [model.text_of_hex(word) for word, _ in lines("symbols.txt")[:530]]
    if options.random:
        for text in cases.damaged_symbols(database, options.random, RANDOM_SEED):
            if len(text) < 256:
                expected.setdefault(text, said_by_model(text))
    texts = list(expected)
    passed = failed = 0
    accepted = []
    for text, said in zip(texts, said_by_port(port, texts), strict=True):
        if said.startswith("0 "):
            accepted.append((text, said))
        if said == expected[text]:
            passed += 1
        else:
            failed += 1
            print("%r: the port says %s, expected %s" % (text, said[:80], expected[text][:80]))
    more = list(cases.shifted_symbols()) if options.shifted else []
    more += [text for text in cases.damaged_symbols(database, options.beside, BESIDE_SEED) if len(text) < 256]
    accepted += [(text, said) for text, said in zip(more, said_by_port(port, more), strict=True) if said.startswith("0 ")]
    accepted = [(text, said) for text, said in accepted if not compare.triple_cell(text)]
    if options.harness:
        answers = compare.ask(options.harness, ["operations " + compare.hex_of(text) for text, _ in accepted])
        for (text, said), answer in zip(accepted, answers, strict=True):
            if shown(answer.split(" ")) != said:
                failed += 1
                print("%r: the Rust has another list" % text)
        print("%d accepted symbols compared with the Rust" % len(accepted))
    print("%d passed, %d failed" % (passed, failed))
    return failed != 0


if __name__ == "__main__":
    sys.exit(main(sys.argv[1:]))
