#!/usr/bin/env python3
"""The rules of docs/RULES.md as a plain program.

It is written from their text alone: it shares no line with the Rust original and none with the port, and it is kept as the
independent judge of what is accepted, what is refused with which number and place, and what each answer holds.
All arithmetic is in whole numbers; a translation is a triple of twelfths. Speed is no aim.

    python3 oracle/model.py test        run the examples of the rules
    python3 oracle/model.py answers     one answer line for each input line (see `answer_line`)
    python3 oracle/model.py program     what the port's program writes for the bytes on standard input

A section below says which section of the rules it states, by its name.
"""

import re
import struct
import sys
from fractions import Fraction
from functools import lru_cache
from itertools import product as pairs


class Refusal(Exception):
    """A refusal: its number and its place, and for number 16 also the component that is off the grid."""

    def __init__(self, number, place, component=None):
        super().__init__("refused %d %d" % (number, place))
        self.number = number
        self.place = place
        self.component = component


# From text to generators ------------------------------------------------------------------------------------------

MOST_BYTES = 80
MOST_N_TOKENS = 8
WHITESPACE = bytes([9, 10, 11, 12, 13, 32])
PRINTED = range(32, 127)
LETTERS = "PABCIRFH"

N_TOKEN = re.compile(rb"(-?)([12346])([\^=]?)([xyz*]?)([1-6abcnuvwd']*)")
N_TOKEN_START = re.compile(rb"-?|(-?)([12346])([\^=]?)([xyz*]?)([1-6abcnuvwd']*)")
SHIFT_NUMBER = re.compile(rb"0|-?([1-9]|10|11)")

IDENTITY = (1, 0, 0, 0, 1, 0, 0, 0, 1)
INVERSION = (-1, 0, 0, 0, -1, 0, 0, 0, -1)
NO_TRANSLATION = (0, 0, 0)

# The twenty matrices, by fold, mark and axis letter; the identity is that of fold 1, which takes neither.
MATRICES = {
    ("1", "", "z"): IDENTITY,
    ("2", "", "x"): (1, 0, 0, 0, -1, 0, 0, 0, -1),
    ("2", "", "y"): (-1, 0, 0, 0, 1, 0, 0, 0, -1),
    ("2", "", "z"): (-1, 0, 0, 0, -1, 0, 0, 0, 1),
    ("3", "", "x"): (1, 0, 0, 0, 0, -1, 0, 1, -1),
    ("3", "", "y"): (-1, 0, 1, 0, 1, 0, -1, 0, 0),
    ("3", "", "z"): (0, -1, 0, 1, -1, 0, 0, 0, 1),
    ("4", "", "x"): (1, 0, 0, 0, 0, -1, 0, 1, 0),
    ("4", "", "y"): (0, 0, 1, 0, 1, 0, -1, 0, 0),
    ("4", "", "z"): (0, -1, 0, 1, 0, 0, 0, 0, 1),
    ("6", "", "x"): (1, 0, 0, 0, 1, -1, 0, 1, 0),
    ("6", "", "y"): (0, 0, 1, 0, 1, 0, -1, 0, 1),
    ("6", "", "z"): (1, -1, 0, 1, 0, 0, 0, 0, 1),
    ("2", "^", "x"): (-1, 0, 0, 0, 0, -1, 0, -1, 0),
    ("2", "=", "x"): (-1, 0, 0, 0, 0, 1, 0, 1, 0),
    ("2", "^", "y"): (0, 0, -1, 0, -1, 0, -1, 0, 0),
    ("2", "=", "y"): (0, 0, 1, 0, -1, 0, 1, 0, 0),
    ("2", "^", "z"): (0, -1, 0, -1, 0, 0, 0, 0, -1),
    ("2", "=", "z"): (0, 1, 0, 1, 0, 0, 0, 0, -1),
    ("3", "", "*"): (0, 0, 1, 1, 0, 0, 0, 1, 0),
}

TRANSLATIONS = {
    "a": (6, 0, 0), "b": (0, 6, 0), "c": (0, 0, 6), "n": (6, 6, 6),
    "u": (3, 0, 0), "v": (0, 3, 0), "w": (0, 0, 3), "d": (3, 3, 3),
}


def apply(rotation, vector):
    return tuple(sum(rotation[3 * i + j] * vector[j] for j in range(3)) for i in range(3))


def plus(v, w):
    return tuple(a + b for a, b in zip(v, w))


def mod_cell(vector):
    return tuple(part % 12 for part in vector)


def tokens_of(text):
    """Each token with the offset of its first byte."""
    return [(found.start(), found.group()) for found in re.finditer(rb"[^\t-\r ]+", text)]


def read_symbol(text, letters=LETTERS):
    """Letter and generators of a symbol's bytes; refusals 1 to 11 and 17."""
    letter, inverted, read, shift = read_parts(text, letters, read_n_token)
    inversion = [(INVERSION, NO_TRANSLATION)] if inverted else []
    return letter, [shifted(*operation, shift) for operation in inversion + [token[:2] for token in read]]


def read_parts(text, letters, read_token):
    """The letter, whether the inversion is there, what `read_token` says of each N token, and the shift; refusals 1 to 11 and 17."""
    if len(text) > MOST_BYTES:
        raise Refusal(1, MOST_BYTES)
    for place, byte in enumerate(text):
        if byte not in WHITESPACE and byte not in PRINTED:
            raise Refusal(2, place)
    tokens = tokens_of(text)
    if not tokens:
        raise Refusal(3, 0)
    place, token = tokens[0]
    lattice = re.fullmatch(rb"(-?)([%s])" % letters.encode(), token)
    if lattice is None:
        raise Refusal(4, place)
    inverted, letter = lattice.group(1) == b"-", lattice.group(2).decode()

    read = []
    shift = NO_TRANSLATION
    for place, token in tokens[1:]:
        if token.startswith(b"("):
            if not read:
                raise Refusal(10, place)
            shift = read_shift(text, place)
            break
        if len(read) == MOST_N_TOKENS:
            raise Refusal(11, place)
        read.append(read_token(token, place, read))
    if not read:
        raise Refusal(10, len(text))
    return letter, inverted, read, shift


def shifted(rotation, translation, shift):
    """The operation moved by a shift v of the origin: t becomes t + v - Rv, so that the inversion's becomes 2v."""
    moved = plus(plus(translation, shift), tuple(-part for part in apply(rotation, shift)))
    return rotation, mod_cell(moved)


def read_shift(text, place):
    """The three numbers of the shift whose `(` stands at `place`; refusal 9."""
    inside, closed, after = text[place + 1:].partition(b")")
    numbers = inside.split()
    if not closed or after.strip() or len(numbers) != 3:
        raise Refusal(9, place)
    if not all(SHIFT_NUMBER.fullmatch(number) for number in numbers):
        raise Refusal(9, place)
    return tuple(int(number) for number in numbers)


def spelt_token(token, place):
    """The parts of an N token; refusal 5."""
    spelt = N_TOKEN.fullmatch(token)
    if spelt is None:
        good = [length for length in range(len(token) + 1) if N_TOKEN_START.fullmatch(token[:length])]
        raise Refusal(5, place + max(good))
    return spelt


def read_n_token(token, place, before):
    """Rotation, translation, fold and axis of one N token, given those before it; refusals 5, 8, 6, 7 and 17.

    By R8.8 the place of 5 is the first byte that no N token has after the bytes before it, or the token's end where it
    breaks off, and the place of 7 is the digit's; 6 and 8 are told of the token's start.
    By R2.7 a letter that occurs twice is refused 17, after 7, at the first byte that repeats an earlier one."""
    spelt = spelt_token(token, place)
    minus, fold, mark, letter, run = (part.decode() for part in spelt.groups())
    if "'" in run:
        raise Refusal(8, place)
    axis = settled_axis(fold, mark, letter, before)
    if axis is None or (fold,) + axis not in MATRICES:
        raise Refusal(6, place)
    rotation = MATRICES[(fold,) + axis]
    if minus:
        rotation = tuple(-entry for entry in rotation)

    translation = NO_TRANSLATION
    for position, character in enumerate(run):
        if character.isdigit():
            digit = int(character)
            if position != 0 or axis != ("", "z") or not 1 <= digit < int(fold):
                raise Refusal(7, place + spelt.start(5) + position)
            translation = plus(translation, (0, 0, 12 * digit // int(fold)))
        else:
            translation = plus(translation, TRANSLATIONS[character])
    for position, character in enumerate(run):
        if character in TRANSLATIONS and character in run[:position]:
            raise Refusal(17, place + spelt.start(5) + position)
    return rotation, translation, fold, axis


def settled_axis(fold, mark, letter, before):
    """Mark and letter of the axis, or None where the rules settle none."""
    if fold == "1":
        return ("", "z") if not mark and not letter else None
    if letter:
        return mark, letter
    position = len(before)
    fold_before, axis_before = (before[-1][2], before[-1][3]) if before else (None, None)
    if mark:
        if axis_before in (("", "x"), ("", "y"), ("", "z")):
            return mark, axis_before[1]
        if position == 0:
            return mark, "z"
        if position == 1 and fold_before == "2":
            return mark, "x"
        return None
    if position == 0:
        return "", "z"
    if position == 1 and fold_before in ("2", "4"):
        return "", "x"
    if position == 1 and fold_before in ("3", "6"):
        return "^", "z"
    if position == 2 and fold == "3":
        return "", "*"
    return None


# From generators to a group ---------------------------------------------------------------------------------------

POINTS = {
    "P": [(0, 0, 0)],
    "A": [(0, 0, 0), (0, 6, 6)],
    "B": [(0, 0, 0), (6, 0, 6)],
    "C": [(0, 0, 0), (6, 6, 0)],
    "I": [(0, 0, 0), (6, 6, 6)],
    "R": [(0, 0, 0), (8, 4, 4), (4, 8, 8)],
    "F": [(0, 0, 0), (0, 6, 6), (6, 0, 6), (6, 6, 0)],
    "H": [(0, 0, 0), (8, 4, 0), (4, 8, 0)],
}
# The letters of layers, R14.1, have the lattices of their capitals.
LAYER_LETTERS = "pc"
POINTS.update((letter, POINTS[letter.upper()]) for letter in LAYER_LETTERS)
MOST_OPERATIONS = 48


def smallest(letter, translation):
    """The smallest triple 0 to 11 in the translation's class modulo L."""
    return min(mod_cell(plus(translation, point)) for point in POINTS[letter])


def keeps_lattice(letter, rotation):
    return {mod_cell(apply(rotation, point)) for point in POINTS[letter]} == set(POINTS[letter])


def rotation_product(r, s):
    return tuple(sum(r[3 * i + k] * s[3 * k + j] for k in range(3)) for i in range(3) for j in range(3))


def product(left, right):
    (r, t), (s, u) = left, right
    return rotation_product(r, s), plus(apply(r, u), t)


def generated_rotations(generators):
    """All generated rotations; refusal 13."""
    found = [IDENTITY]
    for rotation in found:
        for generator, _ in generators:
            image = rotation_product(rotation, generator)
            if image not in found:
                if len(found) == MOST_OPERATIONS or any(abs(entry) > 1 for entry in image):
                    raise Refusal(13, 0)
                found.append(image)
    return found


def check_translations(letter, generators):
    """No generated rotation has two translations modulo L; refusal 14."""
    of_rotation = {IDENTITY: NO_TRANSLATION}
    waiting = [(IDENTITY, NO_TRANSLATION)]
    while waiting:
        motion = waiting.pop()
        for generator in generators:
            rotation, translation = product(motion, generator)
            translation = smallest(letter, translation)
            if rotation not in of_rotation:
                of_rotation[rotation] = translation
                waiting.append((rotation, translation))
            elif of_rotation[rotation] != translation:
                raise Refusal(14, 0)


def listed_operations(generators):
    """Breadth first from the identity; the first translation reached stays."""
    found = [(IDENTITY, NO_TRANSLATION)]
    rotations = {IDENTITY}
    for operation in found:
        for generator in generators:
            rotation, translation = product(operation, generator)
            if rotation not in rotations:
                rotations.add(rotation)
                found.append((rotation, mod_cell(translation)))
    return found


def group_of_generators(letter, generators):
    """Operations in list order; refusals 12 to 14."""
    for index, (rotation, _) in enumerate(generators):
        if not keeps_lattice(letter, rotation):
            raise Refusal(12, index)
    generated_rotations(generators)
    check_translations(letter, generators)
    return listed_operations(generators)


def group_of_symbol(text):
    """Letter and operations in list order; refusals 1 to 14."""
    letter, generators = read_symbol(text)
    return letter, group_of_generators(letter, generators)


# Layer groups, R14 -------------------------------------------------------------------------------------------

def of_layer(operation):
    """Whether the entries xz, yz, zx and zy are 0, and z does not move where the entry zz is 1."""
    (xx, xy, xz, yx, yy, yz, zx, zy, zz), translation = operation
    return (xz, yz, zx, zy) == (0, 0, 0, 0) and (zz != 1 or translation[2] == 0)


def group_of_layer(text):
    """The small letter and operations in list order; refusals 1 to 14 and 19. The lattice is that of the capital letter."""
    letter, generators = read_symbol(text, LAYER_LETTERS)
    operations = group_of_generators(letter.upper(), generators)
    for index, operation in enumerate(operations):
        if not of_layer(operation):
            raise Refusal(19, index)
    return letter, operations


# Magnetic symbols, R15 ----------------------------------------------------------------------------------------------

# A flagged operation is a rotation, a translation and a flag: 1 with time reversal, 0 without.
MOST_FLAGGED = 96
FLAGGED_IDENTITY = (IDENTITY, NO_TRANSLATION, 0)


def read_magnetic_token(token, place, before):
    """As `read_n_token`, and the flag last: 1 if the token ends with its only `'`. 8 is more than one, or one that is not last."""
    spelt_token(token, place)
    if token.count(b"'") > 1 or b"'" in token[:-1]:
        raise Refusal(8, place)
    return read_n_token(token.rstrip(b"'"), place, before) + (token.count(b"'"),)


def read_magnetic(text):
    """Letter and flagged generators of a symbol's bytes, the inversion without a flag; refusals 1 to 11 and 17."""
    letter, inverted, read, shift = read_parts(text, LETTERS, read_magnetic_token)
    inversion = [(INVERSION, NO_TRANSLATION, 0)] if inverted else []
    tokens = [(rotation, translation, flag) for rotation, translation, _, _, flag in read]
    return letter, [shifted(rotation, translation, shift) + (flag,) for rotation, translation, flag in inversion + tokens]


def flagged_product(left, right):
    """Flags combine by exclusive or."""
    return product(left[:2], right[:2]) + (left[2] ^ right[2],)


def generated_pairs(generators):
    """All generated pairs of rotation and flag; refusal 13."""
    found, waiting = {(IDENTITY, 0)}, [(IDENTITY, 0)]
    for rotation, flag in waiting:
        for generator, _, other in generators:
            pair = rotation_product(rotation, generator), flag ^ other
            if pair not in found:
                if len(found) == MOST_FLAGGED or any(abs(entry) > 1 for entry in pair[0]):
                    raise Refusal(13, 0)
                found.add(pair)
                waiting.append(pair)
    return found


def check_flagged_translations(letter, generators):
    """No generated pair of rotation and flag has two translations modulo L; refusal 14."""
    of_pair = {(IDENTITY, 0): NO_TRANSLATION}
    waiting = [FLAGGED_IDENTITY]
    for motion in waiting:
        for generator in generators:
            rotation, translation, flag = flagged_product(motion, generator)
            translation = smallest(letter, translation)
            if (rotation, flag) not in of_pair:
                of_pair[rotation, flag] = translation
                waiting.append((rotation, translation, flag))
            elif of_pair[rotation, flag] != translation:
                raise Refusal(14, 0)


def listed_flagged(generators):
    """Breadth first from the identity; the first translation reached stays, one for each pair of rotation and flag."""
    found = {(IDENTITY, 0): NO_TRANSLATION}
    waiting = [FLAGGED_IDENTITY]
    for operation in waiting:
        for generator in generators:
            rotation, translation, flag = flagged_product(operation, generator)
            if (rotation, flag) not in found:
                found[rotation, flag] = mod_cell(translation)
                waiting.append((rotation, mod_cell(translation), flag))
    return waiting


def flagged_number(rotation, translation, flag):
    """A flagged operation as one number: the flag before the code, the code before x, y and z."""
    x, y, z = translation
    return (flag * 3 ** 9 + code(rotation)) * 1728 + x * 144 + y * 12 + z


def group_of_magnetic(text):
    """Letter and flagged operations in list order; refusals 1 to 14 and 17."""
    letter, generators = read_magnetic(text)
    for index, (rotation, _, _) in enumerate(generators):
        if not keeps_lattice(letter, rotation):
            raise Refusal(12, index)
    generated_pairs(generators)
    check_flagged_translations(letter, generators)
    return letter, listed_flagged(generators)


TYPES = {
    (3, 1): 1, (-1, 1): 2, (0, 1): 3, (1, 1): 4, (2, 1): 6,
    (-3, -1): -1, (1, -1): -2, (0, -1): -3, (-1, -1): -4, (-2, -1): -6,
}


def determinant(m):
    return (m[0] * (m[4] * m[8] - m[5] * m[7])
            - m[1] * (m[3] * m[8] - m[5] * m[6])
            + m[2] * (m[3] * m[7] - m[4] * m[6]))


def rotation_type(entries):
    """The fold, negative for a rotoinversion; refusal 15."""
    if any(abs(entry) > 1 for entry in entries):
        raise Refusal(15, 0)
    pair = (entries[0] + entries[4] + entries[8], determinant(entries))
    if pair not in TYPES:
        raise Refusal(15, 0)
    return TYPES[pair]


def bits(double):
    return struct.unpack(">Q", struct.pack(">d", double))[0]


def doubles(translation):
    return tuple(k / 12 for k in translation)


def twelfths(three_doubles):
    """The way back from doubles; refusal 16."""
    grid = {bits(k / 12): k for k in range(12)}
    for place, component in enumerate(three_doubles):
        if bits(component) not in grid:
            raise Refusal(16, place, component)
    return tuple(grid[bits(component)] for component in three_doubles)


# Group record -----------------------------------------------------------------------------------------------------

ITEM = 5
# How many bytes an operation takes, by edition.
WIDTH = {1: ITEM, 3: 4}
TRAILER = 5
MOST_CODE = 3 ** 9 - 1


def code(rotation):
    return sum((entry + 1) * 3 ** (8 - i) for i, entry in enumerate(rotation))


def rotation_of(number):
    return tuple(number // 3 ** (8 - i) % 3 - 1 for i in range(9))


def record_operations(letter, operations):
    """Operations as the record holds them: ascending codes, smallest triples."""
    return sorted((code(rotation), smallest(letter, translation)) for rotation, translation in operations)


def item_of(number, triple, edition):
    x, y, z = triple
    if edition == 1:
        return number.to_bytes(2, "big") + bytes(triple)
    return (number * 1728 + x * 144 + y * 12 + z).to_bytes(4, "big")


def read_item(item, edition):
    """The code, and x y z."""
    if edition == 1:
        return struct.unpack(">HBBB", item)
    number, = struct.unpack(">I", item)
    return number // 1728, number // 144 % 12, number // 12 % 12, number % 12


def record(letter, operations, edition=1):
    items = record_operations(letter, operations)
    body = b"".join(item_of(number, triple, edition) for number, triple in items)
    length = WIDTH[edition] * len(items) + TRAILER
    return body + letter.encode() + bytes([edition, len(items)]) + length.to_bytes(2, "big")


def write_record(letter, operations, buffer, start, edition=1):
    """Puts the record into a lent bytearray and answers the count; refusal 20."""
    written = record(letter, operations, edition)
    if start > len(buffer) or len(buffer) - start < len(written):
        raise Refusal(20, 0)
    buffer[start:start + len(written)] = written
    return len(operations)


def read_editions(buffer, editions, layers=True):
    """Letter, operations and edition of the record that ends where the buffer ends; refusals 30 to 35. `layers` says whether small letters are known."""
    if len(buffer) < min(WIDTH[edition] for edition in editions) + TRAILER:
        raise Refusal(30, 0)
    letter, edition, count, length = struct.unpack(">BBBH", buffer[-TRAILER:])
    if edition not in editions:
        raise Refusal(31, 0)
    letter = chr(letter)
    if letter not in LETTERS + (LAYER_LETTERS if layers else ""):
        raise Refusal(32, 0)
    if not 1 <= count <= MOST_OPERATIONS or length != WIDTH[edition] * count + TRAILER or length > len(buffer):
        raise Refusal(33, 0)
    body = buffer[len(buffer) - length:len(buffer) - TRAILER]
    items = [read_item(body[i:i + WIDTH[edition]], edition) for i in range(0, len(body), WIDTH[edition])]
    for number, *triple in items:
        if number > MOST_CODE or max(triple) > 11 or tuple(triple) != smallest(letter, triple):
            raise Refusal(34, 0)
    if any(this[0] >= following[0] for this, following in zip(items, items[1:])):
        raise Refusal(34, 0)
    operations = [(rotation_of(number), tuple(triple)) for number, *triple in items]
    if not allowed(letter, operations) or (letter in LAYER_LETTERS and not all(map(of_layer, operations))):
        raise Refusal(35, 0)
    return letter, operations, edition


def read_record(buffer):
    """Letter and operations of a record of edition 1 or 3."""
    return read_editions(buffer, (1, 3))[:2]


def read_first_record(buffer):
    """What is read where edition 1 alone is known."""
    return read_editions(buffer, (1,))[:2]


def read_old_record(buffer):
    """What old software reads: edition 1 alone, and capital letters alone."""
    return read_editions(buffer, (1,), False)[:2]


def record_edition(buffer):
    return read_editions(buffer, (1, 3))[2]


def copied_record(buffer):
    """The record that a buffer ends with, in its own edition."""
    return record(*read_editions(buffer, (1, 3)))


def moved_record(buffer):
    """The same in the other edition."""
    letter, operations, edition = read_editions(buffer, (1, 3))
    return record(letter, operations, 4 - edition)


def allowed(letter, operations):
    held = set(operations)
    return (all(determinant(rotation) in (1, -1) and keeps_lattice(letter, rotation) for rotation, _ in operations)
            and (IDENTITY, NO_TRANSLATION) in held
            and all(class_of(letter, product(left, right)) in held for left, right in pairs(operations, repeat=2)))


def class_of(letter, operation):
    rotation, translation = operation
    return rotation, smallest(letter, translation)


# Magnetic records, R15.7 to R15.11 ----------------------------------------------------------------------------------

MAGNETIC_EDITION = 2
MAGNETIC_ITEM = 6
LEAST_MAGNETIC = 10


def magnetic_record(letter, operations):
    """Six bytes an operation, the flag last, by code and then by flag; each triple is the smallest of its class."""
    items = sorted((code(rotation), flag, smallest(letter, translation)) for rotation, translation, flag in operations)
    body = b"".join(number.to_bytes(2, "big") + bytes(triple) + bytes([flag]) for number, flag, triple in items)
    length = MAGNETIC_ITEM * len(items) + TRAILER
    return body + letter.encode() + bytes([MAGNETIC_EDITION, len(items)]) + length.to_bytes(2, "big")


def write_magnetic_record(letter, operations, buffer, start):
    """Puts the record into a lent bytearray and answers the count; refusal 20."""
    written = magnetic_record(letter, operations)
    if start > len(buffer) or len(buffer) - start < len(written):
        raise Refusal(20, 0)
    buffer[start:start + len(written)] = written
    return len(operations)


def read_magnetic_record(buffer):
    """Letter and flagged operations of the record of edition 2 that ends where the buffer ends; refusals 30 to 35."""
    if len(buffer) < LEAST_MAGNETIC:
        raise Refusal(30, 0)
    letter, edition, count, length = struct.unpack(">BBBH", buffer[-TRAILER:])
    if edition != MAGNETIC_EDITION:
        raise Refusal(31, 0)
    letter = chr(letter)
    if letter not in LETTERS:
        raise Refusal(32, 0)
    if not 1 <= count <= MOST_FLAGGED or length != MAGNETIC_ITEM * count + TRAILER or length > len(buffer):
        raise Refusal(33, 0)
    body = buffer[len(buffer) - length:len(buffer) - TRAILER]
    items = list(struct.iter_unpack(">HBBBB", body))
    for number, x, y, z, flag in items:
        if number > MOST_CODE or max(x, y, z) > 11 or (x, y, z) != smallest(letter, (x, y, z)) or flag > 1:
            raise Refusal(34, 0)
    order = [(number, flag) for number, _, _, _, flag in items]
    if any(this >= following for this, following in zip(order, order[1:])):
        raise Refusal(34, 0)
    operations = [(rotation_of(number), (x, y, z), flag) for number, x, y, z, flag in items]
    if not flagged_allowed(letter, operations):
        raise Refusal(35, 0)
    return letter, operations


def flagged_allowed(letter, operations):
    """Determinants of 1 or -1, L kept, the identity with (0,0,0) and without a flag, every product there modulo L with its flag."""
    held = set(operations)
    if not all(determinant(rotation) in (1, -1) and keeps_lattice(letter, rotation) for rotation, _, _ in operations):
        return False
    if FLAGGED_IDENTITY not in held:
        return False
    for left, right in pairs(operations, repeat=2):
        rotation, translation, flag = flagged_product(left, right)
        if (rotation, smallest(letter, translation), flag) not in held:
            return False
    return True


def copied_magnetic_record(buffer):
    """The record that a buffer ends with."""
    return magnetic_record(*read_magnetic_record(buffer))


# Lines from structure files, R10 ------------------------------------------------------------------------------------

MOST_LINE = 64
TERM = rb"(?:[xyz]|1/2|[12]/3|[1-3]/4|[1-5]/6|(?:[1-9]|10|11)/12)"
PART = re.compile(rb" *[+-]? *" + TERM + rb"(?: *[+-] *" + TERM + rb")* *")
SIGNED_TERM = re.compile(rb"([+-]?) *(" + TERM + rb")")
# Behind a beginning of a line one of these makes it whole, if anything does: a term's missing end or a term, and the missing parts.
MISSING_ENDS = (b"", b"x", b"y", b"z", b"1/2", b"/12", b"12", b"2")
MISSING_PARTS = (b"", b",x", b",x,x")


def terms_of_part(part):
    """The terms of one part, each a sign and a letter or a fraction, or None if the part is misspelt."""
    if not PART.fullmatch(part):
        return None
    terms = [(-1 if sign == b"-" else 1, body) for sign, body in SIGNED_TERM.findall(part)]
    kinds = [body if body.isalpha() else b"fraction" for _, body in terms]
    return terms if len(set(kinds)) == len(kinds) else None


def terms_of_line(line):
    """The terms of the three parts, or None if the line is misspelt; its length does not matter here."""
    parts = [terms_of_part(part) for part in line.split(b",")]
    return parts if len(parts) == 3 and None not in parts else None


@lru_cache(maxsize=None)
def begins_line(text):
    """Whether a line begins with these bytes."""
    return any(terms_of_line(text + end + parts) for end in MISSING_ENDS for parts in MISSING_PARTS)


def read_line(line):
    """The operation of a line; refusals 40 to 42."""
    if len(line) > MOST_LINE:
        raise Refusal(40, 0)
    parts = terms_of_line(line)
    if parts is None:
        raise Refusal(41, next((at for at in range(len(line)) if not begins_line(line[:at + 1])), len(line)))
    rotation = tuple(sum(sign for sign, body in terms if body == letter) for terms in parts for letter in (b"x", b"y", b"z"))
    fractions = [[(sign, body.split(b"/")) for sign, body in terms if b"/" in body] for terms in parts]
    translation = tuple(sum(sign * 12 * int(p) // int(q) for sign, (p, q) in some) % 12 for some in fractions)
    if abs(determinant(rotation)) != 1:
        raise Refusal(42, 0)
    return rotation, translation


def written_part(row, twelfths_of_edge):
    terms = "".join(("+" if entry > 0 else "-") + letter for entry, letter in zip(row, "xyz") if entry)
    fraction = Fraction(twelfths_of_edge, 12)
    return (terms + ("+%d/%d" % (fraction.numerator, fraction.denominator) if fraction else "")).removeprefix("+")


def five_bytes(rotation, translation):
    return code(rotation).to_bytes(2, "big") + bytes(translation)


def written_line(operation):
    """The line of an operation's five bytes; refusals 34 and 42."""
    if len(operation) != 5 or int.from_bytes(operation[:2], "big") > 19682 or max(operation[2:]) > 11:
        raise Refusal(34, 0)
    rotation = rotation_of(int.from_bytes(operation[:2], "big"))
    if abs(determinant(rotation)) != 1:
        raise Refusal(42, 0)
    return ",".join(written_part(rotation[3 * i:3 * i + 3], operation[2 + i]) for i in range(3)).encode()


def write_line(operation, buffer):
    """Writes the line at the start of the buffer and answers its length; refusals 34, 42, 20."""
    line = written_line(operation)
    if len(buffer) < len(line):
        raise Refusal(20, 0)
    buffer[:len(line)] = line
    return len(line)


# Lists of another program, R11 -------------------------------------------------------------------------------------

MOST_LIST = ITEM * MOST_OPERATIONS


def list_entries(data):
    """The operations of a list, code and triple each, as they are written; refusals 43 and 44."""
    if len(data) % ITEM or len(data) > MOST_LIST:
        raise Refusal(43, 0)
    entries = [struct.unpack(">HBBB", data[i:i + ITEM]) for i in range(0, len(data), ITEM)]
    for index, (number, *triple) in enumerate(entries):
        if number > MOST_CODE or max(triple) > 11:
            raise Refusal(44, index)
    return [(rotation_of(number), tuple(triple)) for number, *triple in entries]


def compare_list(letter, operations, data):
    """What is said of a list: yes, the first entry that is foreign or repeated, or the lowest missing code."""
    entries = [class_of(letter, operation) for operation in list_entries(data)]
    group = {class_of(letter, operation) for operation in operations}
    for index, entry in enumerate(entries):
        if entry not in group or entry in entries[:index]:
            return "entry", index
    missing = [code(rotation) for rotation, _ in group.difference(entries)]
    return ("missing", min(missing)) if missing else ("yes",)


def check_list(text, data):
    """The symbol's own refusals go first."""
    letter, operations = group_of_symbol(text)
    return compare_list(letter, operations, data)


# Two records compared, R13 ------------------------------------------------------------------------------------------

FIRST_ONLY, SECOND_ONLY, IN_BOTH = 1, 2, 3
SECOND_RECORD = 30


def report_of(letter, operations, other_letter, other_operations):
    """What differs between two groups: their letters, or nine bytes for each rotation that differs, in code order."""
    if letter != other_letter:
        return (letter + other_letter).encode()
    first, second = dict(operations), dict(other_operations)
    report = b""
    for rotation in sorted(first.keys() | second.keys(), key=code):
        ours, theirs = first.get(rotation), second.get(rotation)
        if theirs is None:
            kind = FIRST_ONLY
        elif ours is None:
            kind = SECOND_ONLY
        elif smallest(letter, ours) != smallest(letter, theirs):
            kind = IN_BOTH
        else:
            continue
        report += bytes([kind]) + code(rotation).to_bytes(2, "big") + bytes(ours or NO_TRANSLATION) + bytes(theirs or NO_TRANSLATION)
    return report


def read_pair(first, second):
    """Letter and operations of each of two records; refusals 30 to 35 for the first, then 60 to 65 for the second."""
    letter, operations = read_first_record(first)
    try:
        return letter, operations, *read_first_record(second)
    except Refusal as refusal:
        raise Refusal(refusal.number + SECOND_RECORD, refusal.place) from None


def compare_records(first, second, buffer):
    """Puts the report at the start of a lent bytearray and answers its length; 20 comes last."""
    report = report_of(*read_pair(first, second))
    if len(report) > len(buffer):
        raise Refusal(20, 0)
    buffer[:len(report)] = report
    return len(report)


# Tables and subgroups ---------------------------------------------------------------------------------------------

class Table:
    """A group's table: `rows[g][h]` is gh. Built only by the three functions that follow."""

    def __init__(self, rows):
        self.rows = rows
        self.order = len(rows)
        elements = range(self.order)
        self.identity = next((e for e in elements if all(rows[e][g] == g == rows[g][e] for g in elements)), None)
        if self.identity is None:
            raise Refusal(23, 0)
        self.inverses = [next((h for h in elements if rows[g][h] == self.identity == rows[h][g]), None)
                         for g in elements]
        if None in self.inverses:
            raise Refusal(24, 0)
        if any(rows[rows[f][g]][h] != rows[f][rows[g][h]] for f, g, h in pairs(elements, repeat=3)):
            raise Refusal(25, 0)


def table_of_bytes(order, entries):
    """Refusals 21 to 25."""
    if not 1 <= order <= MOST_OPERATIONS:
        raise Refusal(21, 0)
    if len(entries) != order * order or any(entry >= order for entry in entries):
        raise Refusal(22, 0)
    return Table([list(entries[order * g:order * g + order]) for g in range(order)])


def table_of_operations(letter, operations):
    classes = [class_of(letter, operation) for operation in operations]
    return Table([[classes.index(class_of(letter, product(left, right))) for right in operations]
                  for left in operations])


def table_of_symbol(text):
    return table_of_operations(*group_of_symbol(text))


def table_of_record(buffer):
    return table_of_operations(*read_record(buffer))


def members(number):
    return [i for i in range(number.bit_length()) if number >> i & 1]


def set_of(elements):
    number = 0
    for element in elements:
        number |= 1 << element
    return number


def list_key(number):
    """Sorts sets as the list has them: more members first, then the one with the lowest element of difference."""
    elements = members(number)
    return -len(elements), elements


def is_subgroup(table, number):
    if number >> table.order or not number >> table.identity & 1:
        return False
    inside = members(number)
    return (all(number >> table.rows[g][h] & 1 for g, h in pairs(inside, repeat=2))
            and all(number >> table.inverses[g] & 1 for g in inside))


def generated_set(table, number):
    """The smallest subgroup that holds a set; in a finite group products alone reach the inverses."""
    number |= 1 << table.identity
    inside = members(number)
    for left in inside:
        for right in inside:
            for image in (table.rows[left][right], table.rows[right][left]):
                if not number >> image & 1:
                    number |= 1 << image
                    inside.append(image)
    return number


def subgroups(table):
    """All subgroups in list order: each arises from a smaller one and one more element."""
    found = {generated_set(table, 0)}
    waiting = list(found)
    for subgroup in waiting:
        for element in range(table.order):
            if not subgroup >> element & 1:
                larger = generated_set(table, subgroup | 1 << element)
                if larger not in found:
                    found.add(larger)
                    waiting.append(larger)
    return sorted(found, key=list_key)


def check_subgroup(table, number):
    if not is_subgroup(table, number):
        raise Refusal(27, 0)


def check_element(table, element):
    if element >= table.order:
        raise Refusal(28, 0)


def conjugate_element(table, g, h):
    """g⁻¹hg."""
    return table.rows[table.rows[table.inverses[g]][h]][g]


def conjugate_set(table, number, g):
    return set_of(conjugate_element(table, g, h) for h in members(number))


def conjugate(table, number, element):
    """Refusals 27 and 28."""
    check_subgroup(table, number)
    check_element(table, element)
    return conjugate_set(table, number, element)


def conjugates(table, number):
    """Pairs of a conjugate and its conjugator; refusal 27."""
    check_subgroup(table, number)
    smallest_conjugator = {}
    for g in range(table.order):
        smallest_conjugator.setdefault(conjugate_set(table, number, g), g)
    del smallest_conjugator[number]
    others = sorted(smallest_conjugator, key=list_key)
    return [(number, table.identity)] + [(other, smallest_conjugator[other]) for other in others]


def normalizer(table, number):
    """Refusal 27."""
    check_subgroup(table, number)
    return set_of(g for g in range(table.order) if conjugate_set(table, number, g) == number)


def permutation(table, number, element):
    """Refusals 27 to 29."""
    check_subgroup(table, number)
    check_element(table, element)
    if not normalizer(table, number) >> element & 1:
        raise Refusal(29, 0)
    return positions(table, number, element)


def positions(table, number, element):
    inside = members(number)
    return [inside.index(conjugate_element(table, element, h)) for h in inside]


def classes(table):
    """The representatives, in list order."""
    representatives = []
    seen = set()
    for subgroup in subgroups(table):
        if subgroup not in seen:
            representatives.append(subgroup)
            seen.update(other for other, _ in conjugates(table, subgroup))
    return representatives


def fill(lent, *values):
    """Puts each list of values into its lent list; refusal 26 leaves every slot of every lent list 0."""
    if any(len(found) > len(slots) for slots, found in zip(lent, values)):
        for slots in lent:
            slots[:] = [0] * len(slots)
        raise Refusal(26, 0)
    for slots, found in zip(lent, values):
        slots[:len(found)] = found
    return len(values[0])


def fill_subgroups(table, sets):
    return fill([sets], subgroups(table))


def fill_classes(table, sets):
    return fill([sets], classes(table))


def fill_conjugates(table, number, sets, conjugators):
    found = conjugates(table, number)
    return fill([sets, conjugators], [each for each, _ in found], [g for _, g in found])


def fill_permutation(table, number, element, slots):
    return fill([slots], permutation(table, number, element))


# The program ------------------------------------------------------------------------------------------------------

def program_lines(data):
    lines = data.split(b"\n")
    return lines if lines[-1] else lines[:-1]


def program_answer(line):
    written = line[:MOST_BYTES] + b"\n"
    try:
        letter, operations = group_of_symbol(line)
    except Refusal as refusal:
        return written + b"%s\n" % str(refusal).encode()
    written += b"%s %d\n" % (letter.encode(), len(operations))
    for number, triple in record_operations(letter, operations):
        written += " ".join(map(str, rotation_of(number) + triple)).encode() + b"\n"
    return written


def program(data):
    return b"".join(map(program_answer, program_lines(data)))


# Catalogues -------------------------------------------------------------------------------------------------------

MOST_PIECE = 4096
STATE = 1 + MOST_BYTES
OVER, ENDED = MOST_BYTES + 1, MOST_BYTES + 2


def line_so_far(state):
    """The bytes of the line that goes on; a line of over 80 bytes has one more than the 80 that are kept, whatever it was."""
    return state[1:1 + state[0]] if state[0] <= MOST_BYTES else state[1:STATE] + b"?"


def keeping(state, line):
    """The state that keeps a line: its length, or 81, and its first 80 bytes; the bytes behind them as they were."""
    kept = line[:MOST_BYTES]
    return bytes([min(len(line), OVER)]) + kept + state[1 + len(kept):]


def line_answer(line, room):
    """What the writing of the line's record from the start of the room answers, and the room afterwards."""
    lent = bytearray(room)
    try:
        return write_record(*group_of_symbol(line), lent, 0), bytes(lent)
    except Refusal as refusal:
        return (refusal.number, refusal.place), bytes(room)


def catalogue_start(state):
    """A fresh start: the state; refusal 20."""
    if len(state) < STATE:
        raise Refusal(20, 0)
    return b"\0" + state[1:]


def catalogue_piece(state, piece, room):
    """The bytes taken, what is answered for a finished line (or None), the state and the room; refusals 20, 45, 46."""
    if len(state) < STATE:
        raise Refusal(20, 0)
    if len(piece) > MOST_PIECE:
        raise Refusal(45, 0)
    if state[0] >= ENDED:
        raise Refusal(46, 0)
    before, end, _ = piece.partition(b"\n")
    line = line_so_far(state) + before
    if not end:
        return len(piece), None, keeping(state, line), room
    said, left = line_answer(line, room)
    return len(before) + 1, said, keeping(state, b""), left


def catalogue_end(state, room):
    """What is answered for a last line (or None), the state and the room; refusals 20, 46."""
    if len(state) < STATE:
        raise Refusal(20, 0)
    if state[0] >= ENDED:
        raise Refusal(46, 0)
    said, left = line_answer(line_so_far(state), room) if line_so_far(state) else (None, room)
    return said, bytes([ENDED]) + state[1:], left


def catalogue(pieces, room):
    """The answers for a catalogue in pieces, each with the room that it leaves: a piece until it is taken whole, then the end."""
    state, answers = catalogue_start(bytes(STATE)), []
    for piece in pieces:
        taken = None
        while taken is None or piece:
            taken, said, state, left = catalogue_piece(state, piece, room)
            piece = piece[taken:]
            answers += [] if said is None else [(said, left)]
    said, state, left = catalogue_end(state, room)
    return answers + ([] if said is None else [(said, left)])


# Answers by lines -------------------------------------------------------------------------------------------------

def text_of_hex(word):
    return b"" if word == "-" else bytes.fromhex(word)


def answer_operations(letter, operations):
    shown = " ".join("%d %d %d %d" % ((code(rotation),) + translation) for rotation, translation in operations)
    return "%s %d %s" % (letter, len(operations), shown)


def answer_table(table):
    found = subgroups(table)
    words = ["identity", table.identity, "subgroups", len(found)] + ["%x" % each for each in found]
    representatives = classes(table)
    words += ["classes", len(representatives)]
    for subgroup in representatives:
        pairs_found = conjugates(table, subgroup)
        words += ["class", "%x" % subgroup, "conjugates", len(pairs_found)]
        for each, conjugator in pairs_found:
            words += ["%x" % each, conjugator]
        elements = members(normalizer(table, subgroup))
        words += ["normalizer", len(elements)]
        for element in elements:
            words += [element] + positions(table, subgroup, element)
    return " ".join(map(str, words))


def answer_line(line):
    """`symbol HEX` and `record HEX` (`-` for no byte): letter, count, and code x y z of each operation in order;
    `group HEX` (the symbol's record in hex); `table N ENTRIES`: as the harness answers `table`. A refusal is
    `refused NUMBER PLACE`."""
    command, *words = line.split()
    try:
        if command == "symbol":
            return answer_operations(*group_of_symbol(text_of_hex(words[0])))
        if command == "record":
            return answer_operations(*read_record(text_of_hex(words[0])))
        if command == "group":
            return record(*group_of_symbol(text_of_hex(words[0]))).hex()
        if command == "table":
            order, *entries = map(int, words)
            return answer_table(table_of_bytes(order, entries))
    except Refusal as refusal:
        return str(refusal)
    return "what"


# The examples of the rules -----------------------------------------------------------------------------------------------

def outcome(action, *arguments):
    """What an action answers, or its refusal as a pair of number and place."""
    try:
        return action(*arguments)
    except Refusal as refusal:
        return refusal.number, refusal.place


def count_of(text):
    answer = outcome(group_of_symbol, text)
    return answer if isinstance(answer[0], int) else len(answer[1])


def z_translations(text):
    return [translation[2] for _, translation in group_of_symbol(text)[1]]


def example_symbols():
    """(name, what the model says, what the rules say) for symbols that reach every rule."""
    cases = [
        (b"P 1", 1), (b"-P 1", 2), (b"P 1a", (14, 0)), (b"P 2w", (14, 0)), (b"P 2a1", (7, 4)), (b"P 2aa", (17, 4)), (b"P 2ab", 2), (b"P 1x", (6, 2)),
        (b"P 3* 2^", (6, 5)), (b"R 2", (12, 0)), (b"P 4 6", (13, 0)), (b"P", (10, 1)), (b"", (3, 0)),
        (b"P 4w", 4), (b"A 4", (12, 0)), (b"P 3 2x", (13, 0)), (b"P 2 (0 0 11)", 2), (b"P 2 (0 0 12)", (9, 4)),
        (b"P 2'", (8, 2)), (b"H 3", 3), (b"h 3", (4, 0)), (b"H 4", (12, 0)), (b"-P 2ac 2n", 8), (b"-F 4 2 3", 48), (b"-P 4 2 3", 48),
        (b"P" + b" 1" * 8, 1), (b"P" + b" 1" * 9, (11, 18)), (b"P 1".ljust(80), 1), (b"P 1".ljust(81), (1, 80)),
    ]
    found = [(text.decode(), count_of(text), expected) for text, expected in cases]
    inversion = group_of_symbol(b"-P 1 (0 0 1)")[1]
    found.append(("-P 1 (0 0 1), list", inversion, [(IDENTITY, (0, 0, 0)), (INVERSION, (0, 0, 2))]))
    found.append(("P 31, z", z_translations(b"P 31"), [0, 4, 8]))
    return found


# The record of P 1a'.
MAGNETIC_RECORD = bytes.fromhex("4064000000004064060000015002020011")


def magnetic_count(text):
    answer = outcome(group_of_magnetic, text)
    return answer if isinstance(answer[0], int) else len(answer[1])


def example_magnetics():
    """(name, what the model says, what R15 says) for magnetic symbols and records."""
    cases = [
        (b"P 1a'", 2), (b"P 1'", 2), (b"P 1 1c'", 2), (b"P 1", 1), (b"-P 1", 2), (b"P 1a", (14, 0)), (b"-P 4 2 3 1'", 96), (b"H 3'", 6), (b"-P 4 2 3", 48),
        (b"P 2'a", (8, 2)), (b"P 2''", (8, 2)), (b"P 2'q", (5, 4)), (b"P '", (5, 2)), (b"P -'", (5, 3)), (b"P' 1", (4, 0)), (b"p 1'", (4, 0)),
        (b"c 1", (4, 0)), (b"P 2aa'", (17, 4)), (b"P 1x'", (6, 2)), (b"P 22'", (7, 3)), (b"P 2 (0 0 1')", (9, 4)), (b"P (0 0 0)'", (10, 2)),
        (b"R 2'", (12, 0)), (b"-R 2'", (12, 1)), (b"P 4' 6", (13, 0)), (b"P 1a' 1b'", (14, 0)), (b"P 1' 1a'", (14, 0)), (b"P 3w'", (14, 0)),
        (b"P 2w'", (14, 0)), (b"C 1a' 1b'", 2), (b"P" + b" 1'" * 8, 2), (b"P" + b" 1'" * 9, (11, 26)), (b"P 1'".ljust(81), (1, 80)), (b"", (3, 0)),
        (b"P 1\xff'", (2, 3)),
    ]
    lent = bytearray(range(22))
    group = group_of_magnetic(b"P 1a'")
    first, second = MAGNETIC_RECORD[:6], MAGNETIC_RECORD[6:12]
    trailer = MAGNETIC_RECORD[12:]
    short = b"P\x02\x01\x00\x0b"
    refused = [
        ("nine bytes", MAGNETIC_RECORD[-9:], 30), ("ten bytes", MAGNETIC_RECORD[-10:], 33),
        ("edition 1", bytes.fromhex("4064000000500101000A"), 31), ("edition 3", b"0" + bytes.fromhex("01B2A3005003010009"), 31),
        ("the letter p", first + b"p" + short[1:], 32), ("a count of 0", first + b"P\x02\x00\x00\x05", 33), ("5n+5", first + b"P\x02\x01\x00\x0a", 33),
        ("a flag of 2", first[:5] + b"\x02" + short, 34), ("flags that descend", second + first + trailer, 34), ("a pair twice", first + first + trailer, 34),
        ("a triple not the smallest", b"\x40\x64\x0b\x0b\x0b\x00" + b"I" + short[1:], 34),
        ("the identity with the flag alone", first[:5] + b"\x01" + short, 35),
        ("a product's flag", bytes.fromhex("0C7E00000001") + first + bytes.fromhex("406400000001") + b"P\x02\x03\x00\x17", 35),
    ]
    return [("magnetic " + text.decode("latin-1"), magnetic_count(text), expected) for text, expected in cases] + [
        ("magnetic record, " + name, outcome(read_magnetic_record, buffer), (number, 0)) for name, buffer, number in refused] + [
        ("P 1a', list", group, ("P", [(IDENTITY, (0, 0, 0), 0), (IDENTITY, (6, 0, 0), 1)])),
        ("the inversion has no flag", group_of_magnetic(b"-P 2'")[1][1], (INVERSION, NO_TRANSLATION, 0)),
        ("H 3', flags", [flag for _, _, flag in group_of_magnetic(b"H 3'")[1]], [0, 1, 0, 1, 0, 1]),
        ("P 1a', numbers", [flagged_number(*operation) for operation in group[1]], [28484352, 34012224 + 28485216]),
        ("P 1a', record", magnetic_record(*group), MAGNETIC_RECORD),
        ("P 1a', record at 3", (write_magnetic_record(*group, lent, 3), bytes(lent)), (2, bytes(range(3)) + MAGNETIC_RECORD + bytes(range(20, 22)))),
        ("P 1a', no room", outcome(write_magnetic_record, *group, bytearray(19), 3), (20, 0)),
        ("P 1a', start beyond", outcome(write_magnetic_record, *group, bytearray(19), 20), (20, 0)),
        ("P 1a', read back", read_magnetic_record(b"any" + MAGNETIC_RECORD), group),
        ("P 1a', copied", copied_magnetic_record(b"any" + MAGNETIC_RECORD), MAGNETIC_RECORD),
        ("edition 2, read by plain entries", outcome(read_record, MAGNETIC_RECORD), (31, 0)),
        ("edition 2, read by old software", outcome(read_old_record, MAGNETIC_RECORD), (31, 0)),
        ("96 operations, read back", len(read_magnetic_record(magnetic_record(*group_of_magnetic(b"-P 4 2 3 1'")))[1]), 96),
    ]


# The record of -p 1: that of -P 1 under the small letter.
LAYER_RECORD = bytes.fromhex("0C7E0000004064000000700102000F")


def example_rest():
    """(name, what the model says, what the rules say) for the record, tables, program and the mistakes that are easily made."""
    cubic = table_of_symbol(b"-P 4 2 3")
    inverse_record = bytes.fromhex("0C7E0000004064000000500102000F")
    shorter_record = bytes.fromhex("0054528001B2A300500302000D")
    shortest_record = bytes.fromhex("01B2A3005003010009")
    identity_record = bytes.fromhex("4064000000500101000A")
    all_subgroups = subgroups(cubic)
    just_fits, one_short = [7] * 98, [7] * 97
    lent = bytearray(range(20))
    return [
        ("-P 1, record", record(*group_of_symbol(b"-P 1")), inverse_record),
        ("-P 1, record at 3", (write_record(*group_of_symbol(b"-P 1"), lent, 3), bytes(lent)),
         (2, bytes(range(3)) + inverse_record + bytes(range(18, 20)))),
        ("-P 1, no room", outcome(write_record, *group_of_symbol(b"-P 1"), bytearray(17), 3), (20, 0)),
        ("-P 1, start beyond", outcome(write_record, *group_of_symbol(b"-P 1"), bytearray(17), 18), (20, 0)),
        ("-P 1, read back", read_record(b"any" + inverse_record)[0], "P"),
        ("-P 1, edition 3", moved_record(inverse_record), shorter_record),
        ("-P 1, moved twice", moved_record(b"any" + shorter_record), inverse_record),
        ("P 1, edition 3", moved_record(record(*group_of_symbol(b"P 1"))), shortest_record),
        ("edition 3, read back", read_record(shorter_record), read_record(inverse_record)),
        ("edition 3, one code twice", outcome(read_record, bytes.fromhex("01B2A30001B2A301500302000D")), (34, 0)),
        ("edition 3, a number too large", outcome(read_record, (34012224).to_bytes(4, "big") + shortest_record[4:]), (34, 0)),
        ("edition 3, read by old software", outcome(read_first_record, shorter_record), (31, 0)),
        ("edition 3, nine bytes read by old software", outcome(read_first_record, shortest_record), (30, 0)),
        ("eight bytes", outcome(read_record, bytes(8)), (30, 0)),
        ("nine bytes", outcome(read_record, bytes(9)), (31, 0)),
        ("-p 1, record", record(*group_of_layer(b"-p 1")), LAYER_RECORD),
        ("-p 1, read back", read_record(b"any" + LAYER_RECORD)[0], "p"),
        ("-p 1, moved", read_record(moved_record(LAYER_RECORD))[0], "p"),
        ("-p 1, read by old software", outcome(read_old_record, LAYER_RECORD), (32, 0)),
        ("a screw under p", outcome(read_record, record("p", group_of_symbol(b"P 21")[1])), (35, 0)),
        ("nine bytes read by old software", outcome(read_first_record, bytes(9)), (30, 0)),
        ("edition", outcome(read_record, inverse_record[:-4] + b"\x02\x02\x00\x0f"), (31, 0)),
        ("letter", outcome(read_record, inverse_record[:-5] + b"S\x01\x02\x00\x0f"), (32, 0)),
        ("count", outcome(read_record, inverse_record[:-5] + b"P\x01\x00\x00\x05"), (33, 0)),
        ("length", outcome(read_record, inverse_record[:-5] + b"P\x01\x03\x00\x14"), (33, 0)),
        ("code order", outcome(read_record, inverse_record[5:10] + inverse_record[:5] + inverse_record[10:]), (34, 0)),
        ("no identity", outcome(read_record, inverse_record[:5] + b"P\x01\x01\x00\x0a"), (35, 0)),
        ("P 1, its list", check_list(b"P 1", bytes.fromhex("4064000000")), ("yes",)),
        ("P 1, an empty list", check_list(b"P 1", b""), ("missing", 16484)),
        ("P 1, an entry twice", check_list(b"P 1", bytes.fromhex("40640000004064000000")), ("entry", 1)),
        ("P 1, another translation", check_list(b"P 1", bytes.fromhex("4064060000")), ("entry", 0)),
        ("a list of four bytes", outcome(check_list, b"P 1", bytes(4)), (43, 0)),
        ("a list with a coordinate of 12", outcome(check_list, b"-P 1", bytes.fromhex("40640600000C7E00000C")), (44, 1)),
        ("-P 1 against P 1", report_of(*read_pair(inverse_record, identity_record)).hex(), "010c7e000000000000"),
        ("P 1 against -P 1", report_of(*read_pair(identity_record, inverse_record)).hex(), "020c7e000000000000"),
        ("P 2 against P 21", report_of(*group_of_symbol(b"P 2"), *group_of_symbol(b"P 21")).hex(), "030c80000000000006"),
        ("a record against itself", (compare_records(inverse_record, b"any" + inverse_record, bytearray(0))), 0),
        ("P 1 against I 1", report_of(*group_of_symbol(b"P 1"), *group_of_symbol(b"I 1")), b"PI"),
        ("no second record", outcome(compare_records, inverse_record, bytes(9), bytearray(0)), (60, 0)),
        ("no room for a report", outcome(compare_records, inverse_record, identity_record, bytearray(8)), (20, 0)),
        ("-P 4 2 3, subgroups", len(all_subgroups), 98),
        ("-P 4 2 3, classes", len(classes(cubic)), 33),
        ("98 slots", (fill_subgroups(cubic, just_fits), just_fits), (98, all_subgroups)),
        ("97 slots", (outcome(fill_subgroups, cubic, one_short), one_short), ((26, 0), [0] * 97)),
        ("not associative", outcome(table_of_bytes, 3, bytes([0, 1, 2, 1, 0, 1, 2, 2, 0])), (25, 0)),
        ("order 0", outcome(table_of_bytes, 0, b""), (21, 0)),
        ("order 49", outcome(table_of_bytes, 49, bytes(49 * 49)), (21, 0)),
        ("three bytes", outcome(table_of_bytes, 2, bytes([0, 1, 1])), (22, 0)),
        ("a byte of 2", outcome(table_of_bytes, 2, bytes([0, 1, 1, 2])), (22, 0)),
        ("no identity in a table", outcome(table_of_bytes, 2, bytes([0, 0, 0, 0])), (23, 0)),
        ("no inverse", outcome(table_of_bytes, 2, bytes([0, 1, 1, 1])), (24, 0)),
        ("not a subgroup", outcome(normalizer, cubic, 2), (27, 0)),
        ("element beyond", outcome(conjugate, cubic, 1 << cubic.identity, 48), (28, 0)),
        ("outside the normalizer", outside_normalizer(cubic), (29, 0)),
        ("type of the identity", rotation_type(IDENTITY), 1),
        ("type of the null matrix", outcome(rotation_type, (0,) * 9), (15, 0)),
        ("types answered", sum(isinstance(outcome(rotation_type, rotation_of(c)), int) for c in range(19683)), 6096),
        ("doubles there and back", twelfths(doubles((0, 4, 11))), (0, 4, 11)),
        ("off the grid", outcome(twelfths, (0.0, 0.3, 2.0)), (16, 1)),
        ("minus zero", outcome(twelfths, (0.0, 0.0, -0.0)), (16, 2)),
        ("program", program(b"-P 1\nP 1a\n"),
         b"-P 1\nP 2\n-1 0 0 0 -1 0 0 0 -1 0 0 0\n1 0 0 0 1 0 0 0 1 0 0 0\nP 1a\nrefused 14 0\n"),
        ("program, last line unended", program(b"P 1a"), b"P 1a\nrefused 14 0\n"),
        ("program, blank line", program(b"\n"), b"\nrefused 3 0\n"),
        ("program, no byte", program(b""), b""),
        ("program, 81 bytes", program(b"P" * 81), b"P" * 80 + b"\nrefused 1 80\n"),
        ("catalogue, cut", catalogue([b"-P", b"", b" 1\nP 1a", b"\n\nP 1"], bytes(15)),
         [(2, inverse_record), ((14, 0), bytes(15)), ((3, 0), bytes(15)), (1, bytes.fromhex("4064000000500101000A") + bytes(5))]),
        ("catalogue, a line of 81 bytes", [said for said, _ in catalogue([b"P" * 70, b"P" * 11 + b"\nP 1\n"], bytes(245))], [(1, 80), 1]),
        ("catalogue, no room", catalogue([b"-P 1\n"], bytes(14)), [((20, 0), bytes(14))]),
        ("catalogue, no byte", catalogue([b""], b""), []),
        ("a piece of 4,097 bytes, after the end", outcome(catalogue_piece, bytes([ENDED]) * STATE, bytes(4097), b""), (45, 0)),
        ("a piece after the end", outcome(catalogue_piece, bytes([255]) * STATE, b"", b""), (46, 0)),
        ("an end after the end", outcome(catalogue_end, bytes([ENDED]) * STATE, b""), (46, 0)),
        ("a state of 80 bytes", outcome(catalogue_piece, bytes(80), bytes(4097), b""), (20, 0)),
        ("C 1ab is plain C", count_of(b"C 1ab"), 1),
        ("I 1n is plain I", count_of(b"I 1n"), 1),
        ("F 1bc is plain F", count_of(b"F 1bc"), 1),
    ]


# Lines that are refused 41, with the place.
MISSPELT_LINES = [
    (b"", 0), (b"x,y", 3), (b"x,y,z,", 5), (b"x,,z", 2), (b"xx,y,z", 1), (b"x+x,y,z", 2), (b"x,y,z+1/ 2", 8), (b"x,y,z+1 1/12", 7),
    (b"x+1/2+1/3,y,z", 6), (b"x,y,z+0/2", 6), (b"x,y,z+1/5", 8), (b"x,y,z+7/6", 8), (b"x,y,z+12/12", 7), (b"x,y,z+3/", 8), (b"X,y,z", 0),
    (b"x,\ty,z", 2), (b"x y,y,z", 2), (b"1/2x,y,z", 3), (b"x+y+z+1/2+,y,z", 9), (b"x,y,z+5/1", 9), (b"x,y,z+", 6), (b"x,y,z+01/2", 6),
]


def example_lines():
    lent = bytearray(b"*" * 9)
    same = [(b" x , y , z ", b"x,y,z"), (b"-  x,y,z", b"-x,y,z"), (b"1/2+x,y,z", b"x+1/2,y,z"), (b"-1/4-z+y,x,z+2/4", b"y-z+3/4,x,z+1/2")]
    return [("misspelt %s" % line, outcome(read_line, line), (41, place)) for line, place in MISSPELT_LINES] + [
        ("%s read" % line, written_line(five_bytes(*read_line(line))), written) for line, written in same] + [
        ("-x,-y+1/2,z", read_line(b"-x,-y+1/2,z"), ((-1, 0, 0, 0, -1, 0, 0, 0, 1), (0, 6, 0))),
        ("64 bytes", outcome(read_line, b"x,y,z" + b" " * 59), (IDENTITY, NO_TRANSLATION)),
        ("65 bytes", outcome(read_line, b"x,y,z" + b" " * 60), (40, 0)),
        ("a row twice", outcome(read_line, b"x,x,z"), (42, 0)),
        ("no letter", outcome(read_line, b"x,y,1/2"), (42, 0)),
        ("four bytes", outcome(written_line, bytes(4)), (34, 0)),
        ("code 19683", outcome(written_line, b"\x4c\xe3\x00\x00\x00"), (34, 0)),
        ("a coordinate of 12", outcome(written_line, b"\x40\x64\x00\x0c\x00"), (34, 0)),
        ("code 0", outcome(written_line, bytes(5)), (42, 0)),
        ("no room for a line", outcome(write_line, b"\x40\x64\x00\x06\x00", bytearray(8)), (20, 0)),
        ("just room for a line", (write_line(b"\x40\x64\x00\x06\x00", lent), bytes(lent)), (9, b"x,y+1/2,z")),
    ]


def outside_normalizer(table):
    subgroup = next(each for each in subgroups(table) if normalizer(table, each) != (1 << table.order) - 1)
    element = next(g for g in range(table.order) if not normalizer(table, subgroup) >> g & 1)
    return outcome(permutation, table, subgroup, element)


def run_examples():
    examples = example_symbols() + example_rest() + example_lines() + example_magnetics()
    failed = [each for each in examples if each[1] != each[2]]
    for name, said, expected in failed:
        print("failed: %s: %s, not %s" % (name, said, expected))
    print("%d passed, %d failed" % (len(examples) - len(failed), len(failed)))
    return 1 if failed else 0


def main(arguments):
    if arguments == ["test"]:
        return run_examples()
    if arguments == ["program"]:
        sys.stdout.buffer.write(program(sys.stdin.buffer.read()))
        return 0
    if arguments == ["answers"]:
        for line in sys.stdin:
            print(answer_line(line), flush=True)
        return 0
    print(__doc__, file=sys.stderr)
    return 2


if __name__ == "__main__":
    sys.exit(main(sys.argv[1:]))
