#!/usr/bin/env python3
"""The model of layer symbols beside the Rust's `LayerHallSymbol`, and the answers to record.

    python3 oracle/compare_layers.py HARNESS [COUNT]     compare, on the original's own symbols and COUNT random ones
    python3 oracle/compare_layers.py HARNESS record      the lines of recorded/layers.txt: the original's own symbols

Where the model accepts, the Rust must give the same list. Where the model says 19, the Rust must answer, since it never checks the layer rules;
where it says anything else, the Rust may do as it likes with a text that it does not check, and what it does is counted.
"""

import collections
import subprocess
import sys

import cases
import model
from compare import ask, double_of, hex_of, read_list

RANDOM = 60000
SEED = 12
OTHER_LIST = "another list"
NO_LIST = "19, and the Rust has no list"


def database(harness):
    found = subprocess.run([harness, "layers"], stdout=subprocess.PIPE, check=True).stdout.decode().split()
    return [model.text_of_hex(word) for word in found]


def listed(answer):
    """The Rust's letter and list in twelfths; None where it has none or where a translation is no twelfth."""
    letter, *words = answer.split(" ")
    if letter not in ("P", "C"):
        return None
    return letter.lower(), [(rotation, tuple(round(12 * double_of(part)) % 12 for part in parts)) for rotation, parts in read_list(words)]


def sort(text, answer):
    said = model.outcome(model.group_of_layer, text)
    found = listed(answer)
    if not isinstance(said[0], int):
        return "the same list" if found == said else OTHER_LIST
    if said[0] == 19 and found is None:
        return NO_LIST
    return "%d, and the Rust %s" % (said[0], "answers" if found is not None else answer.split(" ")[0])


def main(words):
    harness = words[0]
    own = database(harness)
    if words[1:] == ["record"]:
        for text, answer in zip(own, ask(harness, ["layer " + hex_of(text) for text in own])):
            print(hex_of(text), answer)
        return 0
    many = int(words[1]) if len(words) > 1 else RANDOM
    wrong = 0
    for title, texts in (("the Rust's own symbols", own), ("random symbols", list(cases.layer_symbols(many, SEED)))):
        tally = collections.Counter(sort(text, answer) for text, answer in zip(texts, ask(harness, ["layer " + hex_of(text) for text in texts])))
        print("%s: %d" % (title, len(texts)))
        for what, count in sorted(tally.items()):
            print("  %6d %s" % (count, what))
            wrong += count if what in (OTHER_LIST, NO_LIST) else 0
    print("%d differences" % wrong)
    return wrong != 0


if __name__ == "__main__":
    sys.exit(main(sys.argv[1:]))
