#!/usr/bin/env python3
"""Holds subgroups, classes and normalizers as C is told them to GAP's, of every group of order 1 to 48, relabelled at random.

    python3 tests/compare_gap.py PROGRAM [--emulator COMMAND] [--all]

PROGRAM is made from tests/entries.c, oracle/recorded/gap_groups.txt by oracle/make_gap_groups.py. GAP gives the sets; only their order in
a list is that of R7.2. Its counts must fit: conjugates times normalizer is the group's order, for every subgroup. Conjugates and normalizers are
asked for a sample of the subgroups, with --all for each. For every representative of a class conjugations are composed: what C answers
goes into the next call. Prints 'N passed, M failed'.
"""

import sys
from typing import NamedTuple

import groups
from entries import Noise, ask, comparison, filled, line_of, sets

import model

SEED = 23
SEED_OF_ELEMENTS = 29
SAMPLED_CLASSES = 8
SAMPLED_CONJUGATES = 3


def conjugates(table, subgroup, others):
    """The subgroup and the identity, then the others of its class in list order, each with the smallest element that brings it about."""
    pairs = [(subgroup, table.identity)]
    for other in sorted(set(others) - {subgroup}, key=model.list_key):
        pairs.append((other, next(g for g in range(table.order) if model.conjugate_set(table, subgroup, g) == other)))
    return pairs


def ask_class(calls, source, table, found, noise):
    """One subgroup of a class with its conjugates; the normalizers of some."""
    subgroup = noise.chance.choice(sorted(found))
    pairs = conjugates(table, subgroup, found)
    lent = noise.bytes(8 * len(pairs) + 3), noise.bytes(len(pairs) + 1)
    listed = sets(each for each, _ in pairs), bytes(g for _, g in pairs)
    source.call(calls, "conjugates", subgroup, *lent, gives=len(pairs), leaves=list(map(filled, lent, listed)))
    for each in noise.chance.sample(sorted(found), min(len(found), SAMPLED_CONJUGATES)):
        source.call(calls, "normalizer", each, gives=found[each])


def fit(table, subgroups, classes):
    """The counts that C is held to fit: a class times each of its normalizers is the group, subgroups divide it, classes share none."""
    for found in classes:
        for subgroup, normalizer in found.items():
            assert len(found) * len(model.members(normalizer)) == table.order
            assert table.order % len(model.members(subgroup)) == 0
    assert len(set(subgroups)) == sum(map(len, classes))


class Conjugations(NamedTuple):
    """A subgroup, and the elements by which it is conjugated: a and b with their product, g with its inverse, and the identity."""
    source: groups.Source
    subgroup: int
    a: int
    b: int
    product: int
    g: int
    inverse: int
    identity: int

    def by(self, element, subgroup):
        return "%s_conjugate" % self.source.name, (*self.source.arguments, subgroup, element)


def some_conjugations(source, table, subgroup, noise):
    a, b, g = (noise.below(table.order) for _ in range(3))
    return Conjugations(source, subgroup, a, b, table.rows[a][b], g, table.inverses[g], table.identity)


def compose(calls, asked):
    """By a and then by b is by their product, by g and then by its inverse nothing changes, nor by the identity: each from C's answers alone."""
    def answers(questions):
        return [int(line, 16) for line in ask(calls.command, questions)]

    def same(questions, expected):
        for question, found, must_be in zip(questions, answers(questions), expected):
            calls.judge(found == must_be, lambda: (line_of(*question), "%x" % found, "%x" % must_be))

    given = [each.subgroup for each in asked]
    by_a, by_product, by_g = (answers([each.by(getattr(each, name), each.subgroup) for each in asked]) for name in ("a", "product", "g"))
    same([each.by(each.b, found) for each, found in zip(asked, by_a)], by_product)
    same([each.by(each.inverse, found) for each, found in zip(asked, by_g)], given)
    same([each.by(each.identity, each.subgroup) for each in asked], given)


def main():
    calls, options = comparison(__doc__, flags=("--all",))
    noise, elements, asked = Noise(SEED), Noise(SEED_OF_ELEMENTS), []
    for rows, counts, classes in groups.gap_groups():
        table, source = groups.known_table(rows), groups.table_source(rows)
        subgroups = sorted((each for found in classes for each in found), key=model.list_key)
        representatives = sorted((min(found, key=model.list_key) for found in classes), key=model.list_key)
        assert counts == [len(subgroups), len(representatives)]
        fit(table, subgroups, classes)
        for entry, listed in (("subgroups", subgroups), ("classes", representatives)):
            lent = noise.bytes(8 * len(listed))
            source.call(calls, entry, lent, gives=len(listed), leaves=[sets(listed)])
        some = classes if options.all else noise.chance.sample(classes, min(len(classes), SAMPLED_CLASSES))
        for found in some:
            ask_class(calls, source, table, found, noise)
        asked += [some_conjugations(source, table, subgroup, elements) for subgroup in representatives]
    compose(calls, asked)
    return calls.end()


if __name__ == "__main__":
    sys.exit(main())
