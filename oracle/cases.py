"""The inputs that the recorded answers are made for: symbols, damaged symbols and tables.

Everything here is fixed: the same call gives the same list on every machine. The symbols are picked by hand or run
through by rule, so that each rule and each refusal of docs/RULES.md is met several times.
"""

import random
from itertools import permutations, product

# Symbols ----------------------------------------------------------------------------------------------------------

FOLDS = "12346"
MARKS = ("", "^", "=")
AXES = ("", "x", "y", "z", "*")
LETTERS = "PABCIRFH"

REFUSED_BY_HAND = {
    1: [b"P 1".ljust(81), b"P 2".ljust(200), b"x" * 81, b"\xff" * 81, b" " * 81, b"P" + b" 1" * 40,
        b"P 1" + b" " * 70 + b"(0 0 0) "],
    2: [b"\x00", b"P\x002", b"P 2\x7f", b"P 2\x1f2", b"P 2 \x08", b"\xffP 2", b"P 2\xc2\xa02", b"P\xe2\x80\x832",
        b"P 2\xc2\x852", b"P\xe3\x80\x802 2", b"H 3\x01", b"P \xc3\xa9", b"P \xc3\xa9^", b"P -\xc3\xa9=", b"P 2\xc3\xa9",
        b"P\xc3\xa9 2",
        b"P 2 (0 0 0\xc3\xa9)", b"P 2 (0 0 0)\xc2\xa0", b"P\x1c2", b"P 2 \xe2\x80\xa8", b"P\x80 2"],
    3: [b"", b" ", b"\t\n\x0b\x0c\r ", b" " * 80],
    4: [b"h 3", b"p 1", b"--P 1", b"-", b"PP 1", b"P2", b"P2 2", b"P1", b"R3", b"X 1", b"1 P", b"+P 1", b"P- 1",
        b"-P- 1", b"P( 1", b"(0 0 0)", b" Q 1", b"'P 1", b"-p 1", b"P(0 0 0) 1", b"-(0 0 0)", b"- P 1", b"P, 2",
        b"-P1 2", b"Pz 2", b"P* 3", b"P' 1", b"0 1", b"- 1", b"P) 1", b"-h 3", b"H3", b"HH 3", b"PQ"],
    5: [b"P 5", b"P 0", b"P 7", b"P x", b"P -", b"P --1", b"P 2xx", b"P 2^^", b"P 2x^", b"P 2^=z", b"P 27", b"P 20",
        b"P 2q", b"P 2-", b"P 2)", b"P 2(0 0 0)", b"P )", b"P 0 0 0)", b"P +2", b"P 2A", b"P 2ax", b"P 2a*", b"P .",
        b"P 2,2", b"P 2\"", b"P 2 q", b"P 2 2 2q", b"P 1 1 1 5", b"P 1xq", b"P 2a q", b"P 2'q", b"P 5'", b"P 2 - 2",
        b"P 2 ^", b"P 2 x", b"P a", b"P '", b"P 3 2_1", b"P 21Q", b"P 2-1", b"P -2-", b"P 9x", b"P 2\\"],
    6: [b"P 1x", b"P 1z", b"P 1^", b"P 1=", b"P 1*", b"P 1^z", b"P -1y", b"P 3* 2^", b"P 3* 2=", b"P 3* -2^",
        b"P -3* 2^", b"P 2*", b"P 4*", b"P 6*", b"P 3^", b"P 3=", b"P 4^", b"P 6=x", b"P 2^*", b"P 3^*", b"P 3=*",
        b"P 1 2", b"P 1 3", b"P 1 4", b"P 2 2 2", b"P 2 2 4", b"P 2 2 6", b"P 2 2 3 3", b"P 2 2 3 2", b"P 3* 2^ 2^",
        b"P 2 2^ 2^", b"P 2 2 3 2^", b"P 3* 3", b"P 3* 2^ 2", b"P 2^ 3^", b"P 2 3^x", b"P 1xa", b"P 1x1",
        b"P 3^1", b"P 3 3", b"P 6 4", b"P 3* 2x 2", b"P 3x 2^ 2^", b"P 4y 2= 2="],
    7: [b"P 2a1", b"P 22", b"P 21a1", b"P 211", b"P 26", b"P 11", b"P 16", b"P 33", b"P 34", b"P 44", b"P 45",
        b"P 66", b"P 2x1", b"P 2y1", b"P 3x1", b"P 4y3", b"P 6x1", b"P 3*1", b"P 2^1", b"P 2=1", b"P 2^z1", b"P 2 21",
        b"P 2 2 31", b"P 3 21", b"P 2ab1", b"P 41c2", b"P 4c1", b"P 4112", b"-P 61a5", b"P 1a1", b"P 2z2", b"P 2a1b"],
    8: [b"P 2'", b"P 1'", b"P 2a'", b"P 2'a", b"P 2''", b"P 1x'", b"P 21'", b"P 2 2'", b"P 2x'", b"P 3^'",
        b"P 2'1", b"P -1'", b"P 4 2 3'", b"P 2^'", b"P 2' q", b"P 2' (0 0 0)"],
    9: [b"P 2 (0 0 12)", b"P 2 (0 0 0", b"P 2 (0 0)", b"P 2 ()", b"P 2 (", b"P 2 ( )", b"P 2 (0 0 0 0)",
        b"P 2 (0 0 0) 2", b"P 2 (0 0 0)2", b"P 2 (0 0 0))", b"P 2 (0 0 0) )", b"P 2 ((0 0 0)", b"P 2 (0 (0 0)",
        b"P 2 (+1 0 0)", b"P 2 (01 0 0)", b"P 2 (00 0 0)", b"P 2 (1.5 0 0)", b"P 2 (1e1 0 0)",
        b"P 2 (1/4 0 0)", b"P 2 (0,0,0)", b"P 2 (0 0 x)", b"P 2 (x 0 0)", b"P 2 (0 x 0)", b"P 2 (inf 0 0)",
        b"P 2 (nan 0 0)", b"P 2 (0 0 -0)", b"P 2 (0) 0 0", b"P 2 (0 0) 0", b"P 2 (0 0) 0)", b"P 2 (0 0 ) 0",
        b"P 2 (0) (0) (0)", b"P 2 (0 (0 (0", b"P 2 (0 0 6) (0 0 0)", b"P 2 (0 0 6)(0 0 0)", b"P 2 (12 12 12)",
        b"P 2 (0 0 100)", b"P 2 (0 0 1a)", b"P 2 (0.0 0 0)", b"P 2 (6. 0 0)", b"P 2 (.5 0 0)", b"P 2 (a b c)",
        b"-P 1 (-12 0 0)", b"-P 1 (0 0 -13)", b"P 2 (0 0 -01)", b"P 2 (0 0 -00)", b"P 2 (0 0 --1)", b"P 2 (0 0 -)", b"P 2 (0 0 - 1)",
        b"P 2 (0 0 -+1)", b"P 2 (0 0 +-1)", b"P 2 (0 0 1-)", b"P 2 (0 0 -1-1)", b"P 2 (-1-1-1)", b"P 2 (0 0 -1.)", b"-P 1 (0 0 24)",
        b"P 4 (1e30 0 0)", b"P 2 (0 0 0)'", b"P 2 (0 0 0)x"],
    10: [b"P", b"-P", b" P ", b"P\t", b"F", b"P (0 0 0)", b"-P (0 0 1)", b"P (", b"P (x", b"-R", b"H", b"P ()",
         b"I (0 0 12)", b"-P (0 0 0", b"  -A  "],
    11: [b"P" + b" 1" * 9, b"P" + b" 1" * 8 + b" q", b"P 2 2 3 1 1 1 1 1 1", b"P" + b" 1" * 9 + b" (0 0 0)",
         b"-P 4 2 3 1 1 1 1 1 -1", b"P" + b" 1" * 8 + b" 2'"],
    12: [b"R 2", b"A 4", b"B 4", b"C 3", b"A 3*", b"C 4x", b"R 4", b"R -2", b"I 3", b"F 3", b"F 6", b"I 6", b"A 6",
         b"R 3x", b"-R 2", b"C 2 2 3", b"A 2 4y", b"-A 1 4z", b"B 2^x", b"C 2^x", b"A 2^", b"R 2^ 2", b"R 3 2x", b"I 3x",
         b"F 6y", b"A 4 6", b"R 6", b"R 3*", b"R 3 2^", b"R 2^z", b"R 3 -2^", b"-R 3 2^", b"-R 3 2 (4 8 8)", b"C 6 2", b"H 4", b"H 2^x", b"H 3*",
         b"H 6 2x", b"-H 4 2"],
    13: [b"P 4 6", b"P 3 2x", b"P 3 4x", b"P 6 2x", b"P 3 3x", b"P 3x 3y", b"P 4 3", b"P 6 2y", b"P 3y 2z", b"P 6 4x",
         b"-P 4 6", b"P 3 2 3", b"P 6 3*", b"P 4 3x", b"P 2 6x 3", b"P 3z 3*", b"P 6x 6y 6z", b"P 3z 3x 2^z",
         b"P 6y 2^x", b"P 1a 4z 6z", b"P 2w 3x"],
    14: [b"P 1a", b"P 1n", b"P 1abc", b"P 2w", b"P 4a 2u", b"-P 2u", b"-P 2uv", b"-P 2vu", b"F 2d", b"P -1 1c", b"P 2 2a 2y",
         b"P 2x 2xa", b"A 1a", b"C 1a", b"I 1a", b"F 1a", b"P 3w", b"P 62w", b"P 2 2 3a", b"R 1c", b"H 1c", b"H 3c",
         b"P 2d", b"P 1w", b"P 3n", b"P 41 2 1a", b"P 4w 2u", b"-P 4w", b"P 3* 2xa", b"A 1u"],
}

ACCEPTED_BY_HAND = [
    # whitespace of every kind, in every place
    b" P 1", b"P 1 ", b"P\t1", b"P\n1", b"P\x0b1", b"P\x0c1", b"P\r1", b"\t\n\x0b\x0c\r -P \t 2ac\r\n2n ",
    b"P 2  (  0   0  1  )  ", b"P 2\t(0\n0\x0b1)\x0c", b"P 2 (\r0 0 1\r)", b"P 1 \n",
    # shifts
    b"P 2 (0 0 0)", b"P 2 (0 0 11)", b"P 2 (11 0 0)", b"P 2 (11 11 11)", b"P 2 ( 1 2 3 )", b"P 2 ( 1 2 3)",
    b"P 2 (1 2 3 )", b"-P 1 (0 0 1)", b"-P 1 (0 0 6)", b"-P 1 (0 0 7)", b"-P 1 (11 10 9)", b"-P 1 (5 6 7)",
    b"P 2 (-1 0 0)", b"P 2 (0 -11 0)", b"P 2 (0 0 -6)", b"P 2 (-1 -2 -3)", b"P 2 ( -11 -11 -11 )", b"-P 1 (0 0 -1)", b"-P 1 (-5 -6 -7)",
    b"P 61 2 (0 0 -1)", b"P 61 2 (0 0 -11)", b"-R 3 2= (-8 4 -4)", b"-I 4bd 2c 3 (-1 2 -3)",
    b"P 61 2 (0 0 11)", b"P 61 2 (0 0 1)", b"P 31 2 (0 0 4)", b"P 3 (1 2 3)", b"P 3 (7 0 0)", b"P 6 (1 0 0)",
    b"P 4 (3 5 7)", b"-P 4 2 3 (1 1 1)", b"-F 4 2 3 (3 3 3)", b"P 3* (1 2 4)", b"P 2^ (1 4 0)", b"P 2= (1 4 5)",
    b"P -4 (2 0 1)", b"R 3 (1 1 1)", b"-R 3 2= (4 8 8)", b"-I 4bd 2c 3 (1 2 3)", b"P 6x (0 5 1)", b"P 6y (7 0 2)",
    b"P 4x (0 10 0)", b"P 3y (1 0 10)", b"P -6 (1 2 10)", b"P 2x (11 10 0)", b"P 3x (0 10 11)", b"P -3u (2 5 0)",
    # a sum of translations, repeats, order
    b"P 2a", b"P 2b", b"P 2c", b"P 2n", b"P 4w", b"P 2cc", b"P 2aa", b"P 2ab", b"P 2ba", b"P 4ww", b"P 4uu", b"P 4vvw",
    b"P 2ww", b"P 2uu", b"P 2dd", b"P 2dddw", b"P 4dw", b"P 4udv", b"P 2uvc", b"P 2u 2", b"P 3a", b"P 6a", b"P 4u",
    b"P 4d", b"C 2uv",
    b"I 4d", b"F 2dw", b"P 21", b"P 21a", b"P 21ab", b"P 31", b"P 32", b"P 41", b"P 42", b"P 43", b"P 61",
    b"P 62", b"P 63", b"P 64", b"P 65", b"P 21c", b"P 41www", b"P 63c", b"P 2z1", b"P 4z3b", b"-P 63", b"P -41",
    b"P -42c", b"P 1aa", b"P 1nn", b"P 1uuuu", b"P 1dddd", b"P 1abcn", b"P -1a", b"P -1uvw", b"C 1ab", b"I 1n",
    b"F 1bc", b"A 1bc", b"B 1ac", b"-C 1ab", b"R 1", b"F 1ab",
    # groups that other symbols give too
    b"P 2 2x", b"P 2x 2", b"P 2x 2y", b"P 2y 2x", b"P 2 2y", b"P 2x 2y 2z", b"P 4 4", b"P 43", b"P 2 2 3*", b"P 2 3*",
    b"P 3* 2", b"P 3* 2z", b"P 3* 2x", b"P 2y 3*", b"P 4 3*", b"P 3* 4z", b"P 4z 4x", b"P 4x 4y", b"P 4 2= 3*",
    b"P 4 2 3 -1", b"-P 4 4x", b"P -4 2 3 -1", b"P 6 -1", b"P -6 -1", b"P 3 -1", b"P -3", b"P 3 2z", b"P 6 2^",
    b"P 6 2=", b"P -3 2=", b"-P 3 2=", b"P 2^ 2=", b"P 2= 2^z", b"P 4 2^", b"P 2z 2^", b"P 2z 2=", b"P 4 2= 2y",
    b"P 2x 2^", b"P 2y 2^", b"P 2x 2=", b"P 4x 2^", b"P 4y 2=", b"P 3x 2^", b"P 3x 2=", b"P 3y 2^", b"P 6x 2=",
    b"P 2 2^ 3", b"P 2^ 2^", b"P 2^ 2=", b"P 2= 2=", b"P 2^x 2^", b"P 1 2^", b"P 1 2=", b"P 1 1 3", b"P 2 1 3",
    b"P 2 2 1", b"P 1 2z", b"P 1 2x 2^", b"P -1 2^", b"P 1 1 1 2^", b"P 2 2 1 2^", b"P 2 2x 3", b"P 2 2 -3",
    b"P -2 2 3", b"P 2 -2 3", b"P -2 -2", b"P -4 2", b"P -4 -2", b"P 3 -2", b"P 6 -2", b"P -6 2", b"P -6 -2",
    b"P -3 -2=", b"P -2 2", b"P 2 2 3", b"P 3* 2=x", b"P 3* 2^y", b"P 1", b"-P 1", b"P -1", b"-P -1",
    b"-F 4 2 3", b"-P 4 2 3", b"-I 4 2 3", b"-P 2ac 2n", b"-F 4ud 2vw 3", b"I 2 2 3", b"F 4d 2 3",
    # centring letters with rotations that keep their lattice
    b"A 2", b"A 2x", b"A 4x", b"A 2^x", b"B 2y", b"B 4y", b"B 2=y", b"C 4", b"C 2^", b"C 2=", b"C 2 2", b"I 4",
    b"I 4x", b"I 3*", b"I 2^", b"F 4x", b"F 3*", b"F 2^x", b"R 3", b"-R 3", b"R 3 2=", b"R 2=z", b"R 3 -2=", b"-R 3 2=",
    b"R 31", b"R 32", b"A 2 2", b"B 2 2", b"-A 2", b"-B 4y", b"-C 4 2", b"-I 4 2", b"-F 2 2", b"-R 1", b"C 41", b"I 41",
    b"F 21", b"A 21", b"C 2c", b"I 2c", b"I 2b", b"A 2a",
    b"H 3", b"-H 3", b"H 2", b"H 6", b"-H 6 2", b"H 31", b"H 32 2", b"H 61 2 (0 0 5)", b"-H 3 2=c", b"H 3 (8 4 0)", b"-H 1 (2 4 0)",
    # eight N tokens, and eighty bytes
    b"P" + b" 1" * 8, b"P" + b" 1" * 8 + b" (1 2 3)", b"-P 4 2 3 1 1 1 1 -1", b"P 2x 2x 2x 2x 2x 2x 2x 2x",
    b"P 1".ljust(80), b"P 1".rjust(80), b"P 2" + b" " * 70 + b"(0 0 1)", b"P 1" + b"a" * 76 + b" ",
    b"P 2" + b"abcnuvwd" * 8 + b"bc",
]


def all_single_tokens():
    """Every sign, fold, mark and axis as the only N token."""
    return ["P %s%s%s%s" % each for each in product(("", "-"), FOLDS, MARKS, AXES)]


def all_second_tokens():
    """What a second token without a letter becomes after each kind of first token."""
    first = ("1", "-1", "2", "-2", "2x", "2y", "2^", "2=x", "3", "3x", "3*", "4", "4y", "6", "-6", "6x")
    second = ("1", "2", "2^", "2=", "-2", "3", "4", "6")
    return ["P %s %s" % each for each in product(first, second)]


def all_third_tokens():
    first_two = ("2 2", "4 2", "3 2", "2 2^", "1 1", "2x 2y")
    third = ("1", "2", "2^", "2=", "3", "-3", "3^", "4", "6", "3*")
    return ["P %s %s" % each for each in product(first_two, third)]


def all_digits():
    """Every digit on every fold along z."""
    return ["P %s%s" % each for each in product(FOLDS, "123456")]


def all_translation_letters():
    """Every translation letter on each fold and centring letter that its place may matter for."""
    on_folds = ["P %s%s" % each for each in product(("1", "2", "2x", "3", "4", "-4", "6"), "abcnuvwd")]
    return on_folds + ["%s 2%s" % each for each in product("ABCIF", "abcnuvwd")]


def all_letters():
    return ["%s%s %s" % each for each in product(("", "-"), LETTERS, ("1", "2", "2^", "3", "3*", "4", "6"))]


def signed_matrices():
    """An N token for every sign and matrix."""
    axes = ["1"] + [fold + axis for fold in "2346" for axis in "xyz"] + ["3*"]
    axes += ["2" + mark + axis for mark in "^=" for axis in "xyz"]
    return [(sign + token).encode() for token in axes for sign in ("", "-")]


def shifted_symbols():
    """Every sign and matrix under every shift."""
    return [b"P %s (%d %d %d)" % ((token,) + shift) for token in signed_matrices() for shift in product(range(12), repeat=3)]


def signed_shifts():
    """Two symbols under every shift of numbers from -11 to 11."""
    return [b"%s (%d %d %d)" % ((symbol,) + shift)
            for symbol in (b"P 61 2", b"-P 2ab") for shift in product(range(-11, 12), repeat=3)]


def extra_symbols():
    """All symbols beyond the original's database, each once."""
    texts = [text for number in sorted(REFUSED_BY_HAND) for text in REFUSED_BY_HAND[number]]
    texts += ACCEPTED_BY_HAND
    for family in (all_single_tokens, all_second_tokens, all_third_tokens, all_digits, all_translation_letters,
                   all_letters):
        texts += [text.encode() for text in family()]
    return list(dict.fromkeys(texts))


# Damaged symbols --------------------------------------------------------------------------------------------------

SPACES = (b" ", b" ", b" ", b" ", b"  ", b"\t", b"\n", b"\x0b")
ODD_PIECES = (b"\xc2\xa0", b"\xe2\x80\x83", b"\xc3\xa9", b"\xff", b"\x00", b"\x7f", b"'", b"(", b")", b"-", b"^", b"=",
              b"*", b" ", b"  ", b"\t", b"x", b"y", b"z", b"1", b"2", b"3", b"6", b"0", b"5", b"12", b"a", b"n", b"w",
              b"q", b"P", b"R", b"H", b" 1", b" 2^", b" 3", b" (0 0 1)", b".5", b"e1", b"+", b"(", b" )")


def random_n_token(chance):
    fold = chance.choice("1223346")
    mark = chance.choice(("", "", "", "^", "=")) if fold == "2" or chance.random() < 0.05 else ""
    axis = chance.choice(("", "", "", "x", "y", "z", "*" if fold == "3" else "z"))
    if fold == "1" and chance.random() < 0.95:
        mark = axis = ""
    digit = chance.choice("12345") if chance.random() < 0.15 else ""
    letters = "".join(chance.choice("abcnuvwd") for _ in range(chance.choice((0, 0, 0, 1, 1, 2))))
    return chance.choice(("", "", "-")) + fold + mark + axis + digit + letters


def random_symbol(chance):
    count = chance.choice((1, 1, 2, 2, 2, 3, 3, 4, 8, 9)) if chance.random() < 0.3 else chance.choice((1, 2, 3))
    tokens = [chance.choice(("", "-")) + chance.choice("PPPABCIRF")]
    tokens += [random_n_token(chance) for _ in range(count)]
    text = tokens[0].encode()
    for token in tokens[1:]:
        text += chance.choice(SPACES) + token.encode()
    if chance.random() < 0.3:
        text += b" (%d %d %d)" % tuple(chance.randrange(12) for _ in range(3))
    return text


def damaged(chance, text):
    """One to three small edits."""
    for _ in range(chance.choice((1, 1, 2, 3))):
        at = chance.randrange(len(text) + 1)
        kind = chance.randrange(4)
        if kind == 0:
            text = text[:at] + text[at + 1:]
        elif kind == 1:
            text = text[:at] + chance.choice(ODD_PIECES) + text[at:]
        elif kind == 2:
            text = text[:at] + chance.choice(ODD_PIECES) + text[at + 1:]
        else:
            other = chance.randrange(len(text) + 1)
            low, high = min(at, other), max(at, other)
            text = text[:high] + text[low:high] + text[high:]
    return text


def damaged_symbols(database, count, seed):
    """Random symbols, and random or database symbols with edits; `seed` fixes them."""
    chance = random.Random(seed)
    texts = []
    while len(texts) < count:
        text = random_symbol(chance) if chance.random() < 0.7 else chance.choice(database)
        texts.append(damaged(chance, text) if chance.random() < 0.6 else text)
    return texts


LAYER_FOLDS = ("1", "2", "3", "4", "6", "-1", "-2", "-3", "-4", "-6")
LAYER_AXES = ("", "", "", "x", "y", "z", "*", "^", "=")
LAYER_MOVES = ("", "", "", "a", "b", "c", "n", "u", "v", "w", "d", "1", "ab")
LAYER_SHIFTS = ("", "", "", " (0 0 3)", " (0 0 1)", " (1 0 0)", " (3 3 0)", " (2 4 6)")


def random_layer_symbol(chance):
    tokens = [chance.choice(LAYER_FOLDS) + chance.choice(LAYER_AXES) + chance.choice(LAYER_MOVES) for _ in range(chance.choice((1, 1, 2, 2, 3)))]
    return (chance.choice(("p", "c", "-p", "-c")) + " " + " ".join(tokens) + chance.choice(LAYER_SHIFTS)).encode()


def layer_symbols(count, seed):
    chance = random.Random(seed)
    return (random_layer_symbol(chance) for _ in range(count))


# Magnetic symbols -------------------------------------------------------------------------------------------------

def shifted_magnetic_symbols(count, seed):
    """Every sign and matrix with and without time reversal, under shifts that `seed` fixes."""
    chance = random.Random(seed)
    shifts = chance.sample(list(product(range(-11, 12), repeat=3)), count)
    return [b"P %s%s (%d %d %d)" % ((token, reversal) + shift) for token in signed_matrices() for reversal in (b"", b"'") for shift in shifts]


def random_magnetic_symbol(chance):
    """A random symbol, each of its N tokens perhaps with time reversal, sometimes with a grey or an antitranslating token at its end."""
    text, opened, shift = random_symbol(chance).partition(b" (")
    words = text.split(b" ")
    words[1:] = [word + b"'" if word and chance.random() < 0.4 else word for word in words[1:]]
    if chance.random() < 0.3:
        words.append(chance.choice((b"1'", b"1a'", b"1b'", b"1c'", b"1n'", b"1ab'", b"-1'")))
    return b" ".join(words) + opened + shift


def magnetic_symbols(database, count, seed):
    """Random magnetic symbols, and random or database ones with edits, some of them with one `'` more; `seed` fixes them."""
    chance = random.Random(seed)
    texts = []
    while len(texts) < count:
        text = random_magnetic_symbol(chance) if chance.random() < 0.7 else chance.choice(database)
        if chance.random() < 0.4:
            text = damaged(chance, text)
        if chance.random() < 0.2:
            at = chance.randrange(len(text) + 1)
            text = text[:at] + b"'" + text[at:]
        texts.append(text)
    return texts


# Damaged records --------------------------------------------------------------------------------------------------

def trailer(letter, count):
    return bytes([letter, 1, count]) + (5 * count + 5).to_bytes(2, "big")


def items_of(record):
    return [record[i:i + 5] for i in range(0, len(record) - 5, 5)]


def put_together(letter, items):
    return b"".join(items) + trailer(letter, len(items))


def random_bytes(chance, most):
    return bytes(chance.randrange(256) for _ in range(chance.randrange(most + 1)))


def damaged_record(chance, record, other):
    """A record with one thing changed, or none; `other` is a second record to take from."""
    items, letter = items_of(record), record[-5]
    some = chance.randrange(len(items))
    at = chance.randrange(len(record))
    kind = chance.randrange(12)
    if kind == 0:
        return random_bytes(chance, 7) + record
    if kind == 1:
        return record[at:]
    if kind == 2:
        return record[:at] + bytes([chance.randrange(256)]) + record[at + 1:]
    if kind == 3:
        return record[:at] + bytes([(record[at] + chance.choice((1, 255))) % 256]) + record[at + 1:]
    if kind == 4:
        return put_together(chance.choice(b"PABCIRFHpc"), items)
    if kind == 5:
        return record[:-4] + bytes([chance.choice((1, 1, 0, 2, 3)), chance.choice((0, len(items), len(items) + 1, 49))]) \
            + (5 * chance.choice((len(items), len(items) - 1)) + 5).to_bytes(2, "big")
    if kind == 6:
        return put_together(letter, items[:some] + items[some + 1:])
    if kind == 7:
        return put_together(letter, items[some:some + 1] + items[:some] + items[some + 1:])
    if kind == 8:
        return put_together(letter, sorted(set(items + [chance.choice(items_of(other))]))[:48])
    if kind == 9:
        moved = items[some][:2] + bytes(chance.randrange(13) for _ in range(3))
        return put_together(letter, items[:some] + [moved] + items[some + 1:])
    if kind == 10:
        kept = [item for item in items if chance.random() < 0.5 or item[:2] == b"\x40\x64"]
        return put_together(letter, kept)
    return random_bytes(chance, 12) + record[len(record) - chance.choice((0, 5, 9, 10, 15)):]


def damaged_records(records, count, seed):
    """Records with and without damage; `seed` fixes them."""
    chance = random.Random(seed)
    return [damaged_record(chance, chance.choice(records), chance.choice(records)) for _ in range(count)]


# Tables -----------------------------------------------------------------------------------------------------------

def table_of(elements, times):
    """The table of a list of elements under a product."""
    index = {element: i for i, element in enumerate(elements)}
    return [[index[times(g, h)] for h in elements] for g in elements]


def generated(generators, times, identity):
    """The elements that generators reach, breadth first from the identity."""
    found = {identity: None}
    waiting = [identity]
    for element in waiting:
        for generator in generators:
            image = times(element, generator)
            if image not in found:
                found[image] = None
                waiting.append(image)
    return waiting


def cyclic(n):
    return table_of(range(n), lambda g, h: (g + h) % n)


def direct(*tables):
    elements = list(product(*(range(len(table)) for table in tables)))
    return table_of(elements, lambda g, h: tuple(table[a][b] for table, a, b in zip(tables, g, h)))


def semidirect(m, k, r):
    """The cyclic group of order m, acted upon by that of order k: its generator multiplies by r."""
    def times(g, h):
        return (g[0] + pow(r, g[1], m) * h[0]) % m, (g[1] + h[1]) % k
    return table_of([(a, b) for b in range(k) for a in range(m)], times)


def dihedral(n):
    return semidirect(n, 2, n - 1)


def dicyclic(n):
    """Order 4n: a of order 2n, b with b² = aⁿ and b⁻¹ab = a⁻¹."""
    def times(g, h):
        a = g[0] + (-h[0] if g[1] else h[0]) + (n if g[1] and h[1] else 0)
        return a % (2 * n), (g[1] + h[1]) % 2
    return table_of([(a, b) for b in range(2) for a in range(2 * n)], times)


def even(permutation):
    return sum(a > b for i, b in enumerate(permutation) for a in permutation[:i]) % 2 == 0


def of_permutations(elements):
    return table_of(list(elements), lambda g, h: tuple(g[i] for i in h))


def symmetric(n):
    return of_permutations(permutations(range(n)))


def alternating(n):
    return of_permutations(filter(even, permutations(range(n))))


def of_matrices(size, modulus, generators):
    def times(g, h):
        return tuple(sum(g[size * i + k] * h[size * k + j] for k in range(size)) % modulus
                     for i in range(size) for j in range(size))
    identity = tuple(int(i == j) for i in range(size) for j in range(size))
    return table_of(generated(generators, times, identity), times)


def binary_octahedral():
    """The double cover of the rotations of the cube, as unit quaternions with parts in half whole numbers times 1 or √2.

    A part (p, q) is (p + q√2) / 2.
    """
    def part(a, b):
        whole, root = a[0] * b[0] + 2 * a[1] * b[1], a[0] * b[1] + a[1] * b[0]
        return whole, root

    def combined(g, h, signs):
        whole = root = 0
        for i, j, sign in signs:
            p, q = part(g[i], h[j])
            whole, root = whole + sign * p, root + sign * q
        return whole // 2, root // 2

    def times(g, h):
        return (combined(g, h, ((0, 0, 1), (1, 1, -1), (2, 2, -1), (3, 3, -1))),
                combined(g, h, ((0, 1, 1), (1, 0, 1), (2, 3, 1), (3, 2, -1))),
                combined(g, h, ((0, 2, 1), (2, 0, 1), (3, 1, 1), (1, 3, -1))),
                combined(g, h, ((0, 3, 1), (3, 0, 1), (1, 2, 1), (2, 1, -1))))
    one = ((2, 0), (0, 0), (0, 0), (0, 0))
    third = ((1, 0), (1, 0), (1, 0), (1, 0))
    eighth = ((0, 1), (0, 1), (0, 0), (0, 0))
    return table_of(generated([third, eighth], times, one), times)


def inverted_pairs():
    """C3 x C3 with an element that inverts everything: order 18."""
    def times(g, h):
        sign = -1 if g[2] else 1
        return (g[0] + sign * h[0]) % 3, (g[1] + sign * h[1]) % 3, (g[2] + h[2]) % 2
    return table_of(list(product(range(3), range(3), range(2))), times)


def four_by_three():
    """The elementary group of order 16 as two planes over the field of four, turned by its element of order 3."""
    def turned(v, k):
        for _ in range(k):
            v = tuple((y, (x + y) % 2) for x, y in v)
        return v

    def times(g, h):
        moved = turned(h[0], g[1])
        return tuple(((a + c) % 2, (b + d) % 2) for (a, b), (c, d) in zip(g[0], moved)), (g[1] + h[1]) % 3
    planes = list(product(product(range(2), range(2)), repeat=2))
    return table_of([(v, k) for k in range(3) for v in planes], times)


def relabelled(table, seed):
    """The same group under other labels; `seed` fixes them."""
    labels = list(range(len(table)))
    random.Random(seed).shuffle(labels)
    place = {label: i for i, label in enumerate(labels)}
    return [[place[table[g][h]] for h in labels] for g in labels]


def group_tables():
    """(name, rows) of groups."""
    two, three, four = cyclic(2), cyclic(3), cyclic(4)
    quaternion, eight = dicyclic(2), dihedral(4)
    symmetric_three, symmetric_four, alternating_four = symmetric(3), symmetric(4), alternating(4)
    special_linear = [(1, 1, 0, 1), (0, 1, 2, 0)]
    found = [("C%d" % n, cyclic(n)) for n in range(1, 49)]
    found += [("D%d, order %d" % (n, 2 * n), dihedral(n)) for n in range(3, 25)]
    found += [("Dic%d, order %d" % (n, 4 * n), dicyclic(n)) for n in range(2, 13)]
    found += [("C2 ^ %d" % k, direct(*[two] * k)) for k in range(2, 6)]
    found += [("C3 ^ %d" % k, direct(*[three] * k)) for k in (2, 3)]
    found += [
        ("C5 x C5", direct(cyclic(5), cyclic(5))), ("C2 x C4", direct(two, four)), ("C4 x C4", direct(four, four)),
        ("C2 x C8", direct(two, cyclic(8))), ("C2 x C2 x C4", direct(two, two, four)),
        ("C4 x C8", direct(four, cyclic(8))), ("C2 x C4 x C4", direct(two, four, four)),
        ("C2 x C2 x C2 x C4", direct(two, two, two, four)), ("C9 x C3", direct(cyclic(9), three)),
        ("C6 x C6", direct(cyclic(6), cyclic(6))), ("C2 x C24", direct(two, cyclic(24))),
        ("C4 x C12", direct(four, cyclic(12))), ("C2 x C2 x C12", direct(two, two, cyclic(12))),
        ("C2 x C2 x C2 x C2 x C3", direct(two, two, two, two, three)),
        ("S3", symmetric_three), ("A4", alternating_four), ("S4", symmetric_four),
        ("A4 x C2", direct(alternating_four, two)), ("S4 x C2", direct(symmetric_four, two)),
        ("A4 x C3", direct(alternating_four, three)), ("A4 x C4", direct(alternating_four, four)),
        ("A4 x C2 x C2", direct(alternating_four, two, two)), ("S3 x C3", direct(symmetric_three, three)),
        ("S3 x C2 x C2", direct(symmetric_three, two, two)), ("S3 x S3", direct(symmetric_three, symmetric_three)),
        ("S3 x C2 x C2 x C2", direct(symmetric_three, two, two, two)), ("S3 x D4", direct(symmetric_three, eight)),
        ("S3 x Q8", direct(symmetric_three, quaternion)), ("D4 x C2", direct(eight, two)),
        ("D4 x C4", direct(eight, four)), ("D4 x C2 x C2", direct(eight, two, two)),
        ("Q8 x C2", direct(quaternion, two)), ("Q8 x C2 x C2", direct(quaternion, two, two)),
        ("Q8 x C3", direct(quaternion, three)), ("Q8 x C4", direct(quaternion, four)), ("D4 x C5", direct(eight, cyclic(5))),
        ("SL(2,3)", of_matrices(2, 3, special_linear)),
        ("SL(2,3) x C2", direct(of_matrices(2, 3, special_linear), two)),
        ("GL(2,3)", of_matrices(2, 3, special_linear + [(2, 0, 0, 1)])), ("2O", binary_octahedral()),
        ("Heisenberg 27", of_matrices(3, 3, [(1, 1, 0, 0, 1, 0, 0, 0, 1), (1, 0, 0, 0, 1, 1, 0, 0, 1)])),
        ("F20", semidirect(5, 4, 2)), ("F21", semidirect(7, 3, 2)), ("F42", semidirect(7, 6, 3)),
        ("F39", semidirect(13, 3, 3)), ("C8 : 3", semidirect(8, 2, 3)), ("C8 : 5", semidirect(8, 2, 5)),
        ("C16 : 7", semidirect(16, 2, 7)), ("C16 : 9", semidirect(16, 2, 9)), ("C9 : C3", semidirect(9, 3, 4)),
        ("C5 : C8", semidirect(5, 8, 2)), ("C3 : C8", semidirect(3, 8, 2)), ("C3 : C16", semidirect(3, 16, 2)),
        ("C4 : C4", semidirect(4, 4, 3)), ("C8 : C4", semidirect(8, 4, 5)), ("C12 : C4", semidirect(12, 4, 5)),
        ("C3 x C3 inverted", inverted_pairs()), ("C2 ^ 4 : C3", four_by_three()),
    ]
    again = ("C2", "C3", "C6", "C12", "C30", "C48", "S3", "D4, order 8", "Dic2, order 8", "A4", "D6, order 12", "S4",
             "A4 x C2", "S4 x C2", "D24, order 48", "SL(2,3)", "GL(2,3)", "F21", "C2 ^ 4", "C3 ^ 3", "S3 x S3", "2O",
             "Heisenberg 27")
    by_name = dict(found)
    found += [("%s, relabelled" % name, relabelled(by_name[name], seed)) for seed, name in enumerate(again)]
    return found


def flat(rows):
    return [entry for row in rows for entry in row]


def altered(table, *changes):
    rows = [list(row) for row in table]
    for g, h, image in changes:
        rows[g][h] = image
    return rows


def other_tables():
    """(name, order, entries) of what the rules refuse as a table."""
    # A Latin square with identity and inverses that is no group's: every loop of order 5 but C5 is one.
    loop = [[0, 1, 2, 3, 4], [1, 0, 3, 4, 2], [2, 4, 0, 1, 3], [3, 2, 4, 0, 1], [4, 3, 1, 2, 0]]
    left_only = [[0, 1, 2], [0, 1, 2], [0, 1, 2]]
    right_only = [[0, 0, 0], [1, 1, 1], [2, 2, 2]]
    quaternion, symmetric_four = dicyclic(2), symmetric(4)
    return [
        ("order 0", 0, []),
        ("order 49, cyclic", 49, flat(cyclic(49))), ("order 50, dihedral", 50, flat(dihedral(25))),
        ("an entry missing", 2, [0, 1, 1]), ("an entry too many", 2, [0, 1, 1, 0, 0]),
        ("no entry", 1, []), ("an entry out of range", 2, [0, 1, 1, 2]),
        ("order 1, entry 1", 1, [1]), ("an entry of 255", 3, [0, 1, 2, 1, 2, 0, 2, 0, 255]),
        ("all entries 0", 2, [0, 0, 0, 0]), ("identity on the left only", 3, flat(left_only)),
        ("identity on the right only", 3, flat(right_only)), ("no identity, C3 turned", 3, [1, 2, 0, 2, 0, 1, 0, 1, 2][::-1]),
        ("subtraction modulo 5", 5, [(g - h) % 5 for g in range(5) for h in range(5)]),
        ("multiplication modulo 2", 2, [0, 0, 0, 1]), ("an element without inverse", 2, [0, 1, 1, 1]),
        ("the larger of two", 4, [max(g, h) for g in range(4) for h in range(4)]),
        ("multiplication modulo 6", 6, [g * h % 6 for g in range(6) for h in range(6)]),
        ("inverse on one side only", 4, [0, 1, 2, 3, 1, 1, 0, 1, 2, 2, 2, 2, 3, 3, 3, 0]),
        ("not associative, order 3", 3, [0, 1, 2, 1, 0, 1, 2, 2, 0]),
        ("not associative, all squares 0", 4, [0, 1, 2, 3, 1, 0, 1, 1, 2, 2, 0, 2, 3, 3, 3, 0]),
        ("loop of order 5", 5, flat(loop)), ("loop of order 5, relabelled", 5, flat(relabelled(loop, 5))),
        ("Q8 with two entries exchanged", 8, flat(altered(quaternion, (5, 6, quaternion[5][7]), (5, 7, quaternion[5][6])))),
        ("S4 with one entry changed", 24, flat(altered(symmetric_four, (5, 7, symmetric_four[5][8])))),
        ("C48 with one entry changed", 48, flat(altered(cyclic(48), (47, 46, 7)))),
        ("C2 ^ 5 with one entry changed", 32, flat(altered(direct(*[cyclic(2)] * 5), (30, 29, 30)))),
    ]


# Symbols of the original's database whose tables are recorded.
SYMBOLS_WITH_TABLES = [
    "P 1", "-P 1", "P 2y", "-C 2yc", "P 2 2", "P 2ac 2ab", "-P 2ac 2n", "C 2 -2", "-C 2ac 2", "-F 2uv 2vw", "-I 2b 2",
    "F 2 -2d", "P 4w", "-P 4", "I 4bw", "-I 4ad", "P 4 2", "P 4n 2n", "P 4nw 2abw", "I -4 2", "-P 4 2", "-I 4bd 2c",
    "P 31", "R 3", "-R 3", "P 31 2 (0 0 4)", "R 3 2=", "P 3 -2=c", "-R 3 2=c", "P 61", "-P 6c", "P 65 2 (0 0 1)",
    "P -6c 2", "-P 6 2", "P 2 2 3", "F 2 2 3", "-F 2uv 2vw 3", "-I 2b 2c 3", "P 4acd 2ab 3", "I 4bd 2c 3", "F 4d 2 3",
    "-P 4 2 3", "-P 4a 2bc 3", "-F 4 2 3", "-F 4ud 2vw 3", "-I 4bd 2c 3", "-I 4 2 3", "-R 3 2=", "P 3* -2n", "A 2 -2",
]
