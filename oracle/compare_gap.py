#!/usr/bin/env python3
"""Puts the recorded tables beside GAP, a program for groups: subgroups, classes and normalizers, as sets of elements.

    python3 oracle/compare_gap.py GAP_PROGRAM

GAP is given each group as permutations of its own elements, g as the map x -> xg. The orbit of the identity under a
subgroup is then that subgroup's set of elements.
"""

import os
import subprocess
import sys

RECORDED = os.path.join(os.path.dirname(os.path.abspath(__file__)), "recorded", "tables.txt")

ASK = """
describe := function(table, identity)
  local G, set, class;
  set := H -> Set(Orbit(H, identity));
  G := Group(List([1..Length(table)], g -> PermList(List([1..Length(table)], x -> table[x][g]))));
  for class in ConjugacyClassesSubgroups(G) do
    Print("class ", List(AsList(class), H -> [set(H), set(Normalizer(G, H))]), "\\n");
  od;
  Print("end\\n");
end;;
SizeScreen([1000000, 24]);;
"""


def recorded_groups():
    """For each recorded group: name, rows, identity, subgroups, and of each class what its lines hold."""
    groups = []
    with open(RECORDED) as file:
        for line in file:
            kind, *words = line.split()
            if kind == "#":
                group = {"name": line[2:].strip(), "conjugates": [], "normalizers": [], "representatives": []}
            elif kind == "T":
                order = int(words[0])
                group["rows"] = [list(map(int, words[2 + order * g:2 + order * g + order])) for g in range(order)]
            elif kind == "I":
                group["identity"] = int(words[0])
                groups.append(group)
            elif kind == "S":
                group["subgroups"] = [int(word, 16) for word in words[1:]]
            elif kind == "H":
                group["representatives"].append(int(words[0], 16))
            elif kind == "K":
                group["conjugates"].append([int(word, 16) for word in words[1::2]])
            elif kind == "N":
                group["normalizers"].append(int(words[0], 16))
    return groups


def number(points):
    """A set of GAP's points, from 1, as a number."""
    return sum(1 << point - 1 for point in points)


def ask_gap(gap, groups):
    """For each group its classes, a class as normalizers by subgroup."""
    script = ASK
    for group in groups:
        rows = [[entry + 1 for entry in row] for row in group["rows"]]
        script += "describe(%s, %d);;\n" % (rows, group["identity"] + 1)
    done = subprocess.run([gap, "-q", "-A", "-b"], input=script + "QUIT;\n", text=True, check=True,
                          stdout=subprocess.PIPE)
    found, classes = [], []
    for line in done.stdout.splitlines():
        if line.startswith("end"):
            found.append(classes)
            classes = []
        elif line.startswith("class"):
            pairs, = read_lists(line)
            classes.append({number(subgroup): number(normalizer) for subgroup, normalizer in pairs})
    return found


def read_lists(text):
    """The lists that stand side by side in a text."""
    parts, depth, start = [], 0, None
    for i, character in enumerate(text):
        if character == "[":
            start = i if depth == 0 else start
            depth += 1
        elif character == "]":
            depth -= 1
            if depth == 0:
                parts.append(text[start:i + 1])
    return [read_list(part) for part in parts]


def read_list(text):
    """A list of numbers or of lists; `[ a .. b ]` and `[ a, b .. c ]` are ranges."""
    inside = text.strip()[1:-1].strip()
    if "[" in inside:
        return read_lists(inside)
    if ".." in inside:
        first, last = inside.split("..")
        first = [int(word) for word in first.split(",")]
        step = first[1] - first[0] if len(first) == 2 else 1
        return list(range(first[0], int(last) + 1, step))
    return [int(word) for word in inside.split(",")]


def same(group, classes):
    """Whether GAP's classes are the recorded ones, and its normalizer of each recorded representative is that recorded."""
    if sorted(each for found in classes for each in found) != sorted(group["subgroups"]):
        return False
    by_subgroup = {each: found for found in classes for each in found}
    recorded = list(zip(group["representatives"], group["conjugates"], group["normalizers"]))
    return len(recorded) == len(classes) and all(
        sorted(by_subgroup[representative]) == sorted(conjugates)
        and by_subgroup[representative][representative] == normalizer
        for representative, conjugates, normalizer in recorded)


def main(arguments):
    if len(arguments) != 1:
        print(__doc__, file=sys.stderr)
        return 2
    groups = recorded_groups()
    found = ask_gap(arguments[0], groups)
    assert len(found) == len(groups)
    wrong = [group["name"] for group, classes in zip(groups, found) if not same(group, classes)]
    for name in wrong:
        print("differs:", name)
    print("%d groups, %d subgroups in %d classes, %d groups differ" % (
        len(groups), sum(len(group["subgroups"]) for group in groups),
        sum(len(group["representatives"]) for group in groups), len(wrong)))
    return 1 if wrong else 0


if __name__ == "__main__":
    sys.exit(main(sys.argv[1:]))
