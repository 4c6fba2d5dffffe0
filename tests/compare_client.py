#!/usr/bin/env python3
"""Holds what ./layers shows to GAP and to texts that were worked out by hand.

    python3 tests/compare_client.py CLIENT [--emulator COMMAND]

CLIENT is client/layers.c, compiled. For each lattice that GAP was asked for, the picture must be well-formed XML with a node for each subgroup and a line for
each maximal inclusion, between the subgroups between which GAP has it; conjugate subgroups must stand side by side in one frame and one colour, no two nodes
may meet, and no line may go over a node. Order, class, conjugates and normalizer's order of the text must be GAP's. The examples and the picture in the
README are what is written.
Prints 'N passed, M failed'.
"""

import argparse
import collections
import itertools
import math
import os
import re
import shlex
import subprocess
import sys
import xml.etree.ElementTree as tree

ROOT = os.path.join(os.path.dirname(os.path.abspath(__file__)), "..")
SVG = "{http://www.w3.org/2000/svg}"

SOURCE = "every number is an answer of a proved entry or counted from such answers; the program that shows them is not proved\n"
# Elements are numbered in list order. P 2 2: the identity, the half turns about z and x, and their product, the one about y. P 4: the powers of the turn.
BY_HAND = {
    ("P 2",): """P 2: letter P, order 2, 2 subgroups in 2 classes
layer 0: order 2, class 0, conjugates 1, normalizer's order 2, generators -x,-y,z
layer 1: order 1, class 1, conjugates 1, normalizer's order 2, generators none
conjugates times the normalizer's order is 2 for 2 of 2 subgroups
the order divides 2 for 2 of 2 subgroups
the 2 classes hold 2 subgroups together, and 2 are listed
""" + SOURCE,
    ("P 2 2",): """P 2 2: letter P, order 4, 5 subgroups in 5 classes
layer 0: order 4, class 0, conjugates 1, normalizer's order 4, generators -x,-y,z x,-y,-z
layer 1: order 2, class 1, conjugates 1, normalizer's order 4, generators -x,-y,z
layer 2: order 2, class 2, conjugates 1, normalizer's order 4, generators x,-y,-z
layer 3: order 2, class 3, conjugates 1, normalizer's order 4, generators -x,y,-z
layer 4: order 1, class 4, conjugates 1, normalizer's order 4, generators none
conjugates times the normalizer's order is 4 for 5 of 5 subgroups
the order divides 4 for 5 of 5 subgroups
the 5 classes hold 5 subgroups together, and 5 are listed
""" + SOURCE,
    ("P 4",): """P 4: letter P, order 4, 3 subgroups in 3 classes
layer 0: order 4, class 0, conjugates 1, normalizer's order 4, generators -y,x,z
layer 1: order 2, class 1, conjugates 1, normalizer's order 4, generators -x,-y,z
layer 2: order 1, class 2, conjugates 1, normalizer's order 4, generators none
conjugates times the normalizer's order is 4 for 3 of 3 subgroups
the order divides 4 for 3 of 3 subgroups
the 3 classes hold 3 subgroups together, and 3 are listed
""" + SOURCE,
    # The record of -P 1, whose first operation is the inversion.
    ("--record", "0C7E000000 4064000000 500102000F"): """0C7E000000 4064000000 500102000F: letter P, order 2, 2 subgroups in 2 classes
layer 0: order 2, class 0, conjugates 1, normalizer's order 2, generators -x,-y,-z
layer 1: order 1, class 1, conjugates 1, normalizer's order 2, generators none
conjugates times the normalizer's order is 2 for 2 of 2 subgroups
the order divides 2 for 2 of 2 subgroups
the 2 classes hold 2 subgroups together, and 2 are listed
""" + SOURCE,
    # The same record in edition 3, and that of -p 1; a byte that stands before a record is not looked at.
    ("--record", "0054528001b2a300500302000d"): """0054528001b2a300500302000d: letter P, order 2, 2 subgroups in 2 classes
layer 0: order 2, class 0, conjugates 1, normalizer's order 2, generators -x,-y,-z
layer 1: order 1, class 1, conjugates 1, normalizer's order 2, generators none
conjugates times the normalizer's order is 2 for 2 of 2 subgroups
the order divides 2 for 2 of 2 subgroups
the 2 classes hold 2 subgroups together, and 2 are listed
""" + SOURCE,
    ("--record", "FF 0C7E000000 4064000000 700102000F"): """FF 0C7E000000 4064000000 700102000F: letter p, order 2, 2 subgroups in 2 classes
layer 0: order 2, class 0, conjugates 1, normalizer's order 2, generators -x,-y,-z
layer 1: order 1, class 1, conjugates 1, normalizer's order 2, generators none
conjugates times the normalizer's order is 2 for 2 of 2 subgroups
the order divides 2 for 2 of 2 subgroups
the 2 classes hold 2 subgroups together, and 2 are listed
""" + SOURCE,
    # By ascending code the record has the half turns about z, y and x, and then the identity.
    ("--layer", "p 2 2a"): """p 2 2a: letter p, order 4, 5 subgroups in 5 classes
operation 0: x,y,z
operation 1: -x,-y,z
operation 2: x+1/2,-y,-z
operation 3: -x+1/2,y,-z
record 0C800000000D200600003FC006000040640000007001040019, by which the layers are numbered
layer 0: order 4, class 0, conjugates 1, normalizer's order 4, generators -x,-y,z -x+1/2,y,-z
layer 1: order 2, class 1, conjugates 1, normalizer's order 4, generators -x,-y,z
layer 2: order 2, class 2, conjugates 1, normalizer's order 4, generators -x+1/2,y,-z
layer 3: order 2, class 3, conjugates 1, normalizer's order 4, generators x+1/2,-y,-z
layer 4: order 1, class 4, conjugates 1, normalizer's order 4, generators none
conjugates times the normalizer's order is 4 for 5 of 5 subgroups
the order divides 4 for 5 of 5 subgroups
the 5 classes hold 5 subgroups together, and 5 are listed
""" + SOURCE,
    # The half a cell along x reverses time; by itself twice it is a whole cell, and time as it was.
    ("--magnetic", "P 1a'"): """P 1a': letter P, order 2, operations only: the subgroups of magnetic groups are not numbered
operation 0: x,y,z,+1
operation 1: x+1/2,y,z,-1
""" + SOURCE,
    # The half turn about x reverses time, the one about z does not; so their product, the one about y, does.
    ("--magnetic", "-P 2 2'"): """-P 2 2': letter P, order 8, operations only: the subgroups of magnetic groups are not numbered
operation 0: x,y,z,+1
operation 1: -x,-y,-z,+1
operation 2: -x,-y,z,+1
operation 3: x,-y,-z,-1
operation 4: x,y,-z,+1
operation 5: -x,y,z,-1
operation 6: -x,y,-z,-1
operation 7: x,-y,z,-1
""" + SOURCE,
}
REFUSED = {
    ("P 2aq",): "layers: refused 5: a misspelt token\n  P 2aq\n      ^\n",
    ("P\t2aq",): "layers: refused 5: a misspelt token\n  P 2aq\n      ^\n",
    ("P 2aa",): "layers: refused 17: a letter twice in one token\n  P 2aa\n      ^\n",
    ("P",): "layers: refused 10: no rotation\n  P\n   ^\n",
    ("Q 1",): "layers: refused 4: the first token is no lattice letter\n  Q 1\n  ^\n",
    ("p 2",): "layers: refused 4: the first token is no lattice letter\n  p 2\n  ^\n  p and c are letters of layer symbols: ./layers --layer SYMBOL\n",
    ('P 3 2"',): "layers: refused 5: a misspelt token\n  P 3 2\"\n       ^\n  the mark \" of printed lists is written = here\n",
    ("-R 2",): "layers: refused 12: a generator does not keep the lattice (generator 1; they count from 0, and a minus before the letter is the first)\n",
    ("P 1a",): "layers: refused 14: one rotation with two translations\n",
    ("--layer", "P 2"): "layers: refused 4: the first token is no lattice letter\n  P 2\n  ^\n  a layer symbol begins with p or c\n",
    ("--layer", "p 2aq"): "layers: refused 5: a misspelt token\n  p 2aq\n      ^\n",
    ("--layer", "p 21"): "layers: refused 19: an operation that is none of a layer"
                         " (operation 1 of its list; they count from 0, and the identity is the first)\n",
    ("P 3 2'",): "layers: refused 8: an apostrophe\n  P 3 2'\n      ^\n"
                 "  the mark ' of printed lists is written ^ here; a time reversal is read by ./layers --magnetic SYMBOL\n",
    ("--magnetic", "P 1'a"): "layers: refused 8: an apostrophe\n  P 1'a\n    ^\n  a time reversal is one apostrophe at the end of a token\n",
    ("--magnetic", "P 2q'"): "layers: refused 5: a misspelt token\n  P 2q'\n     ^\n",
    ("--record", "--svg", "00"): "layers: refused 30: a record of under 9 bytes\n",
    ("--record", "00"): "layers: refused 30: a record of under 9 bytes\n",
}
MISUSED = [(), ("P 1", "P 1"), ("--fast", "P 1"), ("--record", "0"), ("--record", "0G"), ("--record",), ("--layer",),
           ("--record", "--layer", "00"), ("--svg", "--magnetic", "P 1"), ("--magnetic",)]


def recorded():
    """For each symbol that GAP was asked for: of each class the order of its subgroups, their normalizers' and their layers; and all (upper, lower)."""
    lattices = {}
    with open(os.path.join(ROOT, "oracle", "recorded", "lattices.txt")) as file:
        for line in file:
            kind, *words = line.split()
            if kind == "#":
                classes, inclusions = lattices.setdefault(line[2:].rstrip("\n"), ([], set()))
            elif kind == "K":
                classes.append((int(words[0]), int(words[1]), list(map(int, words[2:]))))
            else:
                inclusions.update((int(words[0]), int(low)) for low in words[1:])
    return lattices


def examples():
    """The calls of ./layers that the README shows, and what it shows behind each."""
    with open(os.path.join(ROOT, "README.md")) as file:
        shown = re.findall(r"^    \$ \./layers (.*)\n((?:    [^$\n].*\n)*)", file.read(), re.M)
    for call, lines in shown:
        yield tuple(shlex.split(call)), re.sub("^    ", "", lines, flags=re.M)


def numbers(element, *names):
    return tuple(int(element.get(name)) for name in names)


def points(line):
    return [tuple(map(int, pair.split(","))) for pair in line.get("points").split()]


def distance(point, one, other):
    """How far a point is from a straight line between two others."""
    (x, y), (a, b), (c, d) = point, one, other
    length = (c - a) ** 2 + (d - b) ** 2
    along = max(0, min(1, ((x - a) * (c - a) + (y - b) * (d - b)) / length))
    return math.hypot(x - a - along * (c - a), y - b - along * (d - b))


class Picture:
    """What a picture shows: its nodes by layer, its lines, frames and rows."""

    def __init__(self, text):
        picture = tree.fromstring(text)
        self.circles = {numbers(each, "cx", "cy"): each.get("fill") for each in picture.iter(SVG + "circle")}
        self.radius = int(next(picture.iter(SVG + "circle")).get("r"))
        texts = [(numbers(each, "x", "y"), each.text) for each in picture.iter(SVG + "text")]
        self.layer_at = {(x, y - 4): int(said) for (x, y), said in texts if said.isdigit()}
        self.order_at = {y - 4: int(said.split()[1]) for (_, y), said in texts if said.startswith("order ")}
        self.class_at = {(x, y - 4): int(said[1:]) for (x, y), said in texts if re.fullmatch(r"c\d+", said)}
        self.lines = [points(each) for each in picture.iter(SVG + "polyline")]
        self.frames = [numbers(each, "x", "y", "width", "height") for each in picture.iter(SVG + "rect") if each.get("rx")]

    def inclusions(self):
        """Each line as the layers of the nodes at whose lowest and highest points it ends."""
        return [(self.layer_at[line[0][0], line[0][1] - self.radius], self.layer_at[line[-1][0], line[-1][1] + self.radius]) for line in self.lines]

    def classes(self):
        """For each class number its order, its layers from the left, and their colours."""
        found = {}
        for x, y, width, height in self.frames:
            within = lambda place: x <= place[0] <= x + width and y <= place[1] <= y + height
            places = sorted(filter(within, self.circles))
            number, = (self.class_at[place] for place in self.class_at if within(place))
            found[number] = self.order_at[places[0][1]], [self.layer_at[place] for place in places], {self.circles[place] for place in places}
        return found

    def is_clear(self):
        """No two nodes meet, no line goes over a node that it does not end at, and no two lines share a place between their ends."""
        apart = all(math.dist(one, other) > 2 * self.radius for one, other in itertools.combinations(self.circles, 2))
        free = all(distance(place, *step) >= self.radius for line in self.lines for step in zip(line, line[1:]) for place in self.circles
                   if place not in ((line[0][0], line[0][1] - self.radius), (line[-1][0], line[-1][1] + self.radius)))
        bends = [place for line in self.lines for place in line[1:-1]]
        return apart and free and len(bends) == len(set(bends))


def is_drawn(text, classes, inclusions):
    try:
        picture = Picture(text)
    except tree.ParseError:
        return False
    found = picture.classes()
    return (sorted(picture.layer_at.values()) == list(range(sum(len(layers) for _, _, layers in classes))) and set(picture.layer_at) == set(picture.circles)
            and sorted(picture.inclusions()) == sorted(inclusions) and picture.is_clear()
            and len(found) == len(picture.frames) == len(classes)
            and all(found[number][:2] == (order, layers) and len(found[number][2]) == 1 for number, (order, _, layers) in enumerate(classes))
            and len({colour for _, _, (colour,) in found.values()}) == len(classes))


def is_listed(text, classes):
    told = re.findall(r"^layer (\d+): order (\d+), class (\d+), conjugates (\d+), normalizer's order (\d+),", text, re.M)
    expected = [(layer, order, number, len(layers), normalizer) for number, (order, normalizer, layers) in enumerate(classes) for layer in layers]
    return [tuple(map(int, each)) for each in told] == sorted(expected)


def main():
    arguments = argparse.ArgumentParser()
    arguments.add_argument("client")
    arguments.add_argument("--emulator", default="")
    given = arguments.parse_args()
    command = shlex.split(given.emulator) + [given.client]
    tally = collections.Counter()

    def ask(*words):
        return subprocess.run(command + list(words), capture_output=True, text=True)

    def holds(name, truth):
        tally[bool(truth)] += 1
        if not truth:
            print(name)

    for words, expected in BY_HAND.items():
        said = ask(*words)
        holds("%r: %s" % (words, said.stdout), said.returncode == 0 and said.stdout == expected)
    for words, expected in REFUSED.items():
        said = ask(*words)
        holds("%r: %s" % (words, said.stderr), said.returncode == 1 and said.stderr == expected and said.stdout == "")
    for words in MISUSED:
        said = ask(*words)
        holds("%r is no wrong use" % (words,), said.returncode == 2 and said.stderr.startswith("layers: ") and said.stdout == "")
    for symbol, (classes, inclusions) in recorded().items():
        holds("%s: the picture" % symbol, is_drawn(ask("--svg", symbol).stdout, classes, inclusions))
        holds("%s: the text" % symbol, is_listed(ask(symbol).stdout, classes))
    # Bytes that are good in a symbol and not in XML.
    holds("white space in a picture", tree.fromstring(ask("--svg", "P\v4\f2").stdout) is not None)
    holds("a layer symbol's picture", Picture(ask("--svg", "--layer", "p 4 2").stdout).is_clear())
    for words, shown in examples():
        said = ask(*words)
        holds("%r in the README" % (words,), said.stdout + said.stderr == shown)
    with open(os.path.join(ROOT, "docs", "layers_of_P_4_2.svg")) as file:
        holds("the picture in the README", ask("--svg", "P 4 2").stdout == file.read())
    print("%d passed, %d failed" % (tally[True], tally[False]))
    return tally[False] != 0


if __name__ == "__main__":
    sys.exit(main())
