#!/usr/bin/env python3
"""Records what GAP says of the lattice of subgroups of some symbols' groups: the classes, the normalizers' orders and every maximal inclusion.

    python3 oracle/make_lattices.py GAP_PROGRAM FILE

GAP is given each group as permutations of its own elements, g as the map x -> xg, from the model's table; the orbit of the identity under a subgroup is then
that subgroup's set of elements. The sets are numbered here, in list order (R7.2 of docs/RULES.md), as layers are. The README describes the file.
"""

import os
import subprocess
import sys

sys.path.insert(0, os.path.dirname(os.path.abspath(__file__)))

import model
from compare_gap import number, read_lists

SYMBOLS = ["P 2 2", "P 4", "-P 4", "P 4 2", "-P 2ac 2n", "P 6 2", "-P 3 2=", "-C 2 2", "P 4 2c", "-P 4 2", "P 2 2 3", "-P 6 2", "P 4 2 3",
           "-I 2 2 3", "-F 4 2 3", "-P 4 2 3"]

ASK = """
describe := function(table, identity)
  local G, set, class, H;
  set := H -> Set(Orbit(H, identity));
  G := Group(List([1..Length(table)], g -> PermList(List([1..Length(table)], x -> table[x][g]))));
  for class in ConjugacyClassesSubgroups(G) do
    Print("class [", Size(Normalizer(G, Representative(class))), "] ", List(AsList(class), set), "\\n");
    for H in AsList(class) do
      Print("maximal ", List(Concatenation([H], MaximalSubgroups(H)), set), "\\n");
    od;
  od;
  Print("end\\n");
end;;
SizeScreen([1000000, 24]);;
"""


def ask_gap(gap):
    """For each symbol its classes, as (normalizer's order, sets), and the maximal subgroups by set."""
    script = ASK
    for symbol in SYMBOLS:
        table = model.table_of_symbol(symbol.encode())
        script += "describe(%s, %d);;\n" % ([[cell + 1 for cell in row] for row in table.rows], table.identity + 1)
    done = subprocess.run([gap, "-q", "-A", "-b"], input=script + "QUIT;\n", text=True, check=True, stdout=subprocess.PIPE)
    classes, maximal = [], {}
    for line in done.stdout.splitlines():
        if line.startswith("end"):
            yield classes, maximal
            classes, maximal = [], {}
        elif line.startswith("class"):
            (order,), sets = read_lists(line)
            classes.append((order, [number(each) for each in sets]))
        elif line.startswith("maximal"):
            (upper, *lower), = read_lists(line)
            maximal[number(upper)] = [number(each) for each in lower]


def in_list_order(sets):
    """More members first; of two with as many the one that holds the lowest element in which they differ."""
    return sorted(sets, key=lambda each: (-bin(each).count("1"), [not each >> i & 1 for i in range(48)]))


def lines_of(symbol, classes, maximal):
    layers = in_list_order(maximal)
    yield "# %s" % symbol
    for order, sets in sorted(classes, key=lambda pair: min(map(layers.index, pair[1]))):
        yield "K %d %d %s" % (bin(sets[0]).count("1"), order, " ".join(str(layer) for layer in sorted(map(layers.index, sets))))
    for layer, each in enumerate(layers):
        yield " ".join(["M %d" % layer] + [str(low) for low in sorted(map(layers.index, maximal[each]))])


def main(arguments):
    gap, name = arguments
    found = list(ask_gap(gap))
    assert len(found) == len(SYMBOLS)
    with open(name, "w", newline="\n") as file:
        for symbol, (classes, maximal) in zip(SYMBOLS, found):
            file.writelines(line + "\n" for line in lines_of(symbol, classes, maximal))


if __name__ == "__main__":
    main(sys.argv[1:])
