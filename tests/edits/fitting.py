#!/usr/bin/env python3
"""Says whether each must-fail edit, of the gate and of tests/edits, still fits the file that it edits: an old text stands there once, and the new one differs.
A line that is no part of that has a `#` before it.

Nothing is proved here: this keeps the edits for which the gate has no time from going stale unseen. The last line is 'N passed, M failed'.
"""
import glob
import os
import sys


class Unfit(Exception):
    """Why an edit does not fit."""


def edited(crate, edit):
    """The files of a crate's folder that an edit changes, with the texts that it makes of them."""
    texts, name, old, pairs = {}, None, None, 0
    with open(edit) as lines:
        for line in lines.read().split("\n"):
            if line.startswith("file: "):
                name = line[len("file: "):]
                path = os.path.join(crate, name)
                if not name.startswith(("src/", "specs/", "proofs/")) or not os.path.exists(path):
                    raise Unfit(f"there is no {path}")
                texts.setdefault(name, open(path).read())
            elif line.startswith("old: "):
                old = line[len("old: "):]
            elif line.startswith("new:"):
                new = line[len("new:"):].removeprefix(" ")
                if old is None or name is None:
                    raise Unfit("a new text without an old one or a file")
                if texts[name].count(old) != 1:
                    raise Unfit(f"its old text stands {texts[name].count(old)} times in {name}: {old}")
                if old == new:
                    raise Unfit(f"it changes nothing in {name}")
                texts[name] = texts[name].replace(old, new)
                old, pairs = None, pairs + 1
            elif line.strip() and not line.startswith("#"):
                raise Unfit(f"`rt` does not read this line, and it has no `#`: {line}")
    if not pairs:
        raise Unfit("it has no pair of old and new")
    return texts


def main():
    os.chdir(os.path.join(os.path.dirname(os.path.abspath(__file__)), "..", ".."))
    edits = [(path.split(os.sep)[1], path) for path in glob.glob("crates/*/must-fail/*.edit")]
    edits += [(path.split(os.sep)[2], path) for path in glob.glob("tests/edits/*/*.edit")]
    failed = 0
    for crate, path in sorted(edits):
        try:
            edited(os.path.join("crates", crate), path)
        except Unfit as wrong:
            failed += 1
            print(f"{path}: {wrong}")
    print(f"{len(edits) - failed} passed, {failed} failed")
    return 1 if failed or not edits else 0


if __name__ == "__main__":
    sys.exit(main())
