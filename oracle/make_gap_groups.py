#!/usr/bin/env python3
"""Records what GAP, a program for groups, knows of every group of order 1 to 48: its subgroups, their classes and normalizers.

    python3 oracle/make_gap_groups.py GAP_PROGRAM OUT_FILE

The groups are those of GAP's library SmallGroups, each under labels shuffled by a fixed seed, so a second run writes the same bytes.
The README describes the file.
"""

import subprocess
import sys

import cases
from compare_gap import ask_gap, read_lists

MOST_ELEMENTS = 48

TABLES = """
LoadPackage("smallgrp");;
SetPrintFormattingStatus("*stdout*", false);;
show := function(order, number)
  local elements;
  elements := AsList(SmallGroup(order, number));
  Print("table ", order, " ", number, " ", List(elements, g -> List(elements, h -> Position(elements, g * h))), "\\n");
end;;
for order in [1..%d] do
  for number in [1..NumberSmallGroups(order)] do
    show(order, number);
  od;
od;
"""


def library_groups(gap):
    """(order, number, rows) of every group of the library, relabelled."""
    done = subprocess.run([gap, "-q", "-A", "-b"], input=TABLES % MOST_ELEMENTS + "QUIT;\n", text=True, check=True,
                          stdout=subprocess.PIPE)
    for line in done.stdout.splitlines():
        if line.startswith("table"):
            order, number = map(int, line.split()[1:3])
            rows, = read_lists(line)
            counted_from_0 = [[entry - 1 for entry in row] for row in rows]
            yield order, number, cases.relabelled(counted_from_0, 1000 * order + number)


def identity_of(rows):
    return next(e for e, row in enumerate(rows) if row == list(range(len(rows))))


def group_lines(order, number, rows, classes):
    yield "# SmallGroup(%d,%d)" % (order, number)
    yield "T %d %s" % (order, bytes(cases.flat(rows)).hex())
    yield "S %d" % sum(map(len, classes))
    yield "C %d" % len(classes)
    for subgroups in sorted(classes, key=min):
        yield " ".join(["K"] + ["%x %x" % (subgroup, subgroups[subgroup]) for subgroup in sorted(subgroups)])
    yield "E"


def main(arguments):
    if len(arguments) != 2:
        print(__doc__, file=sys.stderr)
        return 2
    gap, out = arguments
    groups = list(library_groups(gap))
    asked = [{"rows": rows, "identity": identity_of(rows)} for _, _, rows in groups]
    with open(out, "w", newline="\n") as file:
        for group, classes in zip(groups, ask_gap(gap, asked), strict=True):
            file.writelines(line + "\n" for line in group_lines(*group, classes))
    return 0


if __name__ == "__main__":
    sys.exit(main(sys.argv[1:]))
