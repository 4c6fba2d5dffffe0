#!/usr/bin/env python3
"""Puts the model of the rules beside the Rust original, symbol by symbol, and sorts every difference.

    python3 oracle/compare.py HARNESS [COUNT [SEED]]

The symbols are the original's database, those of cases.py, every matrix under every shift, two under every shift with signs,
and COUNT damaged ones (20,000 unless given) fixed by SEED (1 unless given); the tables of groups in cases.py follow. A difference that
docs/DIFFERENCES.md does not list is printed, and the exit status is then 1.
"""

import re
import subprocess
import sys
from collections import Counter

import cases
import model

# The letters that the Rust knows.
RUST_LETTERS = "PABCIRF"
UNICODE_SPACE = re.compile("[\x85\xa0\u1680\u2000-\u200a\u2028\u2029\u202f\u205f\u3000]")


def ask(harness, lines):
    """The harness's answer lines for these input lines."""
    done = subprocess.run([harness], input="".join(line + "\n" for line in lines), text=True, check=True,
                          stdout=subprocess.PIPE)
    answers = done.stdout.splitlines()
    assert len(answers) == len(lines)
    return answers


def database(harness):
    done = subprocess.run([harness, "database"], text=True, check=True, stdout=subprocess.PIPE)
    return [bytes.fromhex(line) for line in done.stdout.split()]


def hex_of(text):
    return text.hex() or "-"


def read_list(words):
    """Operations as the harness writes them: rotation and the bits of three doubles."""
    count, rest = int(words[0]), words[1:]
    assert len(rest) == 12 * count
    items = [rest[i:i + 12] for i in range(0, len(rest), 12)]
    return [(tuple(map(int, item[:9])), tuple(int(word, 16) for word in item[9:])) for item in items]


def read_flagged(words):
    """Magnetic operations as the harness writes them: rotation, the bits of three doubles, and the flag."""
    count, rest = int(words[0]), words[1:]
    assert len(rest) == 13 * count
    items = [rest[i:i + 13] for i in range(0, len(rest), 13)]
    return [(tuple(map(int, item[:9])), tuple(int(word, 16) for word in item[9:12]), int(item[12])) for item in items]


def exact(operations):
    return [(rotation, tuple(map(model.bits, model.doubles(translation)))) for rotation, translation in operations]


def read_generators(answer):
    """Letter, number of centring points and generators, of an answer to `generators`."""
    letter, points, *words = answer.split(" ")
    return letter, int(points), read_list(words)


def finite(generators):
    """Whether generators make finitely many rotations: a finite group of whole 3x3 matrices has at most 48."""
    seen = {model.IDENTITY}
    waiting = [model.IDENTITY]
    for rotation in waiting:
        for generator, _ in generators:
            image = model.rotation_product(rotation, generator)
            if image not in seen:
                if len(seen) == model.MOST_OPERATIONS:
                    return False
                seen.add(image)
                waiting.append(image)
    return True


# Where the rules refuse and the original answers a list: what must hold of the text for the difference to be a listed one ----

RUST_NUMBER = re.compile(r"[+-]?(inf|infinity|nan|(\d+\.?\d*|\.\d+)(e[+-]?\d+)?)", re.IGNORECASE)


def words_read(text):
    """The words that the original reads: Unicode whitespace parts them, and nothing counts after the lattice letter."""
    words = UNICODE_SPACE.sub(" ", text.decode()).split()
    return [re.match("-?.", words[0]).group()] + words[1:]


def n_words(text):
    """The words before the first that starts with a bracket."""
    words = words_read(text)[1:]
    return words[:next((i for i, word in enumerate(words) if word.startswith("(")), len(words))]


def shift_words(text):
    """What is left of the shift's words when the original has taken off one bracket each."""
    words = words_read(text)[1 + len(n_words(text)):]
    trimmed = [word[1:] if word[0] == "(" else word[:-1] if word[-1] == ")" else word for word in words]
    return [word for word in trimmed if word]


def lone_mark_after_diagonal(text):
    """A second N token 2 with the mark ^ and no letter, after a first one 3*."""
    words = n_words(text)
    return len(words) > 1 and re.match(r"-?3\*", words[0]) and re.match(r"-?2\^(?![xyz*])", words[1])


def unchecked_list(text, found):
    """The breadth-first list of the generators as the rules read them, without the checks behind 12 to 14."""
    return found == exact(model.listed_operations(model.read_symbol(text)[1]))


ACCEPTED_THOUGH = {
    1: lambda text, found: len(text) > 80,
    2: lambda text, found: " ".join(words_read(text)).isascii(),
    4: lambda text, found: re.match(rb"\s*-?[PABCIRF][^\s]", text),
    6: lambda text, found: lone_mark_after_diagonal(text),
    7: lambda text, found: any(re.search("[1-6]", word.lstrip("-")[1:]) for word in n_words(text)),
    9: lambda text, found: len(shift_words(text)) == 3 and all(map(RUST_NUMBER.fullmatch, shift_words(text))),
    10: lambda text, found: not n_words(text),
    11: lambda text, found: len(n_words(text)) > 8,
    12: unchecked_list,
    14: unchecked_list,
    17: lambda text, found: any(re.search(r"([abcnuvwd]).*\1", word) for word in n_words(text)),
}

# Lines of data/hall_symbol.rs where input can make the original panic; build.sh checks that the file is that file.
PANIC_LINES = {
    338: "the text has no token",
    375: "the first token is a lone -",
    395: "a token of the shift has a character of several bytes",
    407: "the shift's first number is none",
    408: "the shift's second number is none",
    409: "the shift's third number is none",
    430: "an N token is a lone -",
    435: "an N token is one character of several bytes",
    445: "an N token is one character of several bytes and a mark",
    523: "characters are left over in an N token",
}


def triple_cell(text):
    """The letter H, which is commented out in the Rust: it answers None."""
    return text.split()[:1] in ([b"H"], [b"-H"])


def sort_symbol(text, said, answer, generators):
    """What the model's word and the original's two answers are: (kind, whether it is listed)."""
    words = answer.split(" ")
    refused = isinstance(said[0], int)
    number = said[0] if refused else 0
    if words[0] == "utf8":
        return "refused %d, no UTF-8" % number, number in (1, 2)
    if words[0] == "none":
        return ("both refuse", True) if refused else ("refused by the Rust only", triple_cell(text))
    if words[0] == "panic":
        place = "%s:%s" % tuple(words[1:])
        listed = refused and words[1] == "hall_symbol.rs" and int(words[2]) in PANIC_LINES
        return "refused %d, the Rust panics at %s" % (number, place), listed
    if words[0] == "endless":
        return "refused %d, the Rust never ends" % number, refused and not finite(read_generators(generators)[2])
    found = read_list(words)
    if refused:
        listed = number in ACCEPTED_THOUGH and bool(ACCEPTED_THOUGH[number](text, found))
        return "refused %d, the Rust answers" % number, listed
    return ("same list", True) if found == exact(said[1]) else ("lists differ", False)


def sort_generators(text, answer):
    """For a symbol that the rules read: what `new` answers beside the model's generators."""
    said = model.outcome(model.read_symbol, text)
    if isinstance(said[0], int):
        return None
    letter, generators = said
    if answer == "none":
        return "generators: refused by the Rust only", triple_cell(text)
    found_letter, points, found = read_generators(answer)
    rounded = [(rotation, tuple(round(12 * double_of(part)) % 12 for part in parts)) for rotation, parts in found]
    if (found_letter, points, rounded) != (letter, len(model.POINTS[letter]), generators):
        return "generators differ", False
    if found == exact(generators):
        return "generators: same bits", True
    if text.split()[0].startswith(b"-") and found[1:] == exact(generators)[1:]:
        return "generators: same bits, but for the unreduced inversion", True
    return "generators: equal when rounded to twelfths", True


def double_of(bits):
    return model.struct.unpack(">d", bits.to_bytes(8, "big"))[0]


def pure_translations(generators):
    """The translations modulo the cell of all generated motions with identity rotation, by brute force."""
    start = (model.IDENTITY, model.NO_TRANSLATION)
    seen = {start}
    waiting = [start]
    for motion in waiting:
        for generator in generators:
            rotation, translation = model.product(motion, generator)
            image = rotation, model.mod_cell(translation)
            if image not in seen:
                seen.add(image)
                waiting.append(image)
    return {translation for rotation, translation in seen if rotation == model.IDENTITY}


def sort_translations(text, said):
    """For a symbol that is accepted or refused 14: whether the words of R3.5 give the same decision."""
    if isinstance(said[0], int) and said[0] != 14:
        return None
    letter, generators = model.read_symbol(text)
    inside = pure_translations(generators) <= set(model.POINTS[letter])
    return ("refusal 14 by brute force: same", True) if inside == (said[0] != 14) else ("refusal 14: differs", False)


def compare_symbols(harness, texts):
    tally, unlisted = Counter(), []
    operations = ask(harness, ["operations " + hex_of(text) for text in texts])
    generators = ask(harness, ["generators " + hex_of(text) for text in texts])
    for text, answer, generator_answer in zip(texts, operations, generators):
        said = model.outcome(model.group_of_symbol, text)
        for sorted_as in (sort_symbol(text, said, answer, generator_answer), sort_generators(text, generator_answer),
                          sort_translations(text, said)):
            if sorted_as is not None:
                kind, listed = sorted_as
                tally[kind] += 1
                if not listed:
                    unlisted.append((text, kind, said[:2], answer[:80]))
    return tally, unlisted


def compare_group_tables(harness, tables):
    """Everything that the original says of a group's table beside what the model says."""
    tally, unlisted = Counter(), []
    questions = ["table %d %s" % (len(rows), " ".join(map(str, cases.flat(rows)))) for _, rows in tables]
    for (name, rows), answer in zip(tables, ask(harness, questions)):
        same = model.answer_table(model.Table(rows)) == answer
        tally["same" if same else "other"] += 1
        if not same:
            unlisted.append((name, "tables differ"))
    return tally, unlisted


def compare_from_operations(harness, texts):
    """The original's `from_operations` beside its `from_table` on the table modulo L, by centring letter."""
    tally = Counter()
    own = ask(harness, ["from_operations %s 1e-5" % hex_of(text) for text in texts])
    tables = [model.table_of_symbol(text) for text in texts]
    given = ask(harness, ["table %d %s" % (table.order, " ".join(map(str, cases.flat(table.rows)))) for table in tables])
    for text, from_operations, from_table in zip(texts, own, given):
        letter = text.decode().lstrip("-")[0]
        kind = "error" if from_operations.startswith("error") else "same" if from_operations == from_table else "other"
        tally[letter, kind] += 1
    return tally


def show(title, tally):
    print(title)
    for kind, count in sorted(tally.items(), key=lambda item: str(item[0])):
        print("  %6d  %s" % (count, kind if isinstance(kind, str) else " ".join(kind)))


def main(arguments):
    if not 1 <= len(arguments) <= 3:
        print(__doc__, file=sys.stderr)
        return 2
    harness = arguments[0]
    count = int(arguments[1]) if len(arguments) > 1 else 20000
    seed = int(arguments[2]) if len(arguments) > 2 else 1
    known = database(harness)
    unlisted = []
    for title, texts in (("database", known), ("cases", cases.extra_symbols()), ("shifted", cases.shifted_symbols()),
                         ("signed shifts", cases.signed_shifts()),
                         ("damaged", cases.damaged_symbols(known, count, seed))):
        tally, found = compare_symbols(harness, texts)
        show("%s: %d symbols" % (title, len(texts)), tally)
        unlisted += found
    groups = cases.group_tables()
    tally, found = compare_group_tables(harness, groups)
    show("tables of groups: %d" % len(groups), tally)
    unlisted += found
    tally = compare_from_operations(harness, known)
    show("database: from_operations beside from_table", tally)
    for each in unlisted[:50]:
        print("unlisted:", *each)
    print("%d unlisted" % len(unlisted))
    return 1 if unlisted or any(kind == "other" for _, kind in tally) else 0


if __name__ == "__main__":
    sys.exit(main(sys.argv[1:]))
