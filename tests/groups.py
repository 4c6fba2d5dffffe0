"""Questions about a group whose subgroups are known, asked of C by a symbol, a record or a table.

Each list is lent exactly as long as needed, longer, with left-over bytes, one slot short, and not at all; each refusal of R8, in its order,
is asked for together with those that it goes before.
"""

from types import SimpleNamespace

from entries import BEYOND, SET_BYTES, emptied, filled, packed, recorded, sets

import model


class Source:
    """One of the three ways to name a group in a call: the entries' first word, and their first arguments."""

    def __init__(self, name, *arguments):
        self.name = name
        self.arguments = arguments

    def call(self, calls, entry, *more, **expected):
        calls.call("%s_%s" % (self.name, entry), *self.arguments, *more, **expected)


def table_source(rows):
    return Source("table", len(rows), bytes(entry for row in rows for entry in row))


def known_table(rows):
    """A table that is known to be a group's, for the model's questions, without the model's long look at it."""
    elements = range(len(rows))
    identity = next(e for e in elements if rows[e] == list(elements))
    inverses = [rows[g].index(identity) for g in elements]
    return SimpleNamespace(rows=rows, order=len(rows), identity=identity, inverses=inverses)


def gap_groups():
    """The groups that GAP was asked about: (rows, counts of subgroups and classes, classes); a class gives each of its subgroups its
    normalizer."""
    for kind, *words in recorded("gap_groups.txt"):
        if kind == "T":
            order, entries = int(words[0]), bytes.fromhex(words[1])
            rows = [list(entries[order * g:order * g + order]) for g in range(order)]
            counts, classes = [], []
        elif kind in "SC":
            counts.append(int(words[0]))
        elif kind == "K":
            numbers = [int(word, 16) for word in words]
            classes.append(dict(zip(numbers[::2], numbers[1::2])))
        elif kind == "E":
            yield rows, counts, classes


def bytes_of(values, width):
    return sets(values) if width == SET_BYTES else bytes(values)


def one_list(source, calls, entry, numbers, values, width, noise):
    """An entry that fills one list: lists that it fits into, and lists that it does not."""
    listed = bytes_of(values, width)
    for more in {0, width - 1, width, 3 * width + 1}:
        lent = noise.bytes(len(listed) + more)
        source.call(calls, entry, *numbers, lent, gives=len(values), leaves=[filled(lent, listed)])
    for length in {len(listed) - 1, len(listed) - width, len(listed) // 2, width - 1}:
        lent = noise.bytes(length)
        source.call(calls, entry, *numbers, lent, gives=packed(26), leaves=[emptied(lent, width)])
    for nothing in (None, b""):
        source.call(calls, entry, *numbers, nothing, gives=packed(26))


def two_lists(source, calls, subgroup, conjugates, noise):
    """The entry that fills two lists: both must be long enough, and both are emptied where one is not."""
    found, conjugators = sets(each for each, _ in conjugates), bytes(g for _, g in conjugates)
    long, short = len(found), len(conjugators)
    for length, other in ((long, short), (long + 7, short + 1), (long + 8, short), (long, short + 5)):
        lent = noise.bytes(length), noise.bytes(other)
        source.call(calls, "conjugates", subgroup, *lent, gives=short,
                    leaves=[filled(lent[0], found), filled(lent[1], conjugators)])
    for length, other in ((long - 1, short), (long, short - 1), (long + 9, short - 1), (long - 8, short + 2), (7, 0)):
        lent = noise.bytes(length), noise.bytes(other)
        source.call(calls, "conjugates", subgroup, *lent, gives=packed(26),
                    leaves=[emptied(lent[0]), emptied(lent[1], 1)])
    for lent in ((None, None), (None, noise.bytes(short)), (noise.bytes(long), None)):
        left = [emptied(lent[0] or b""), emptied(lent[1] or b"", 1)]
        source.call(calls, "conjugates", subgroup, *lent, gives=packed(26), leaves=left)


def whole_group(source, calls, table, subgroups, representatives, noise):
    source.call(calls, "order", gives=table.order)
    source.call(calls, "identity", gives=table.identity)
    one_list(source, calls, "subgroups", (), subgroups, SET_BYTES, noise)
    one_list(source, calls, "classes", (), representatives, SET_BYTES, noise)


def beyond(table):
    """Elements that the table does not have."""
    return (table.order, table.order + 1, 63, 64) + tuple(table.identity + each for each in BEYOND[:-1]) + BEYOND[-1:]


def one_subgroup(source, calls, table, subgroup, conjugates, normalizer, noise):
    two_lists(source, calls, subgroup, conjugates, noise)
    source.call(calls, "normalizer", subgroup, gives=normalizer)
    for element in noise.chance.sample(beyond(table), 2):
        source.call(calls, "conjugate", subgroup, element, gives=packed(28))
        source.call(calls, "permutation", subgroup, element, None, gives=packed(28))
    for element in range(table.order):
        if not normalizer >> element & 1:
            source.call(calls, "permutation", subgroup, element, noise.bytes(48), gives=packed(29))
            source.call(calls, "permutation", subgroup, element, None, gives=packed(29))
            break


def one_permutation(source, calls, subgroup, element, positions, noise):
    one_list(source, calls, "permutation", (subgroup, element), positions, 1, noise)


def no_subgroups(table, subgroups, noise):
    """Sets that are no subgroup: none, without the identity, with an element that is not there, not closed."""
    some = {0, 2 ** 64 - 1, 1 << table.order | 1 << table.identity, 1 << 63 | 1 << table.identity, 2 ** 48 | 1 << table.identity}
    some |= {subgroup ^ 1 << noise.below(table.order) for subgroup in subgroups[:4] + subgroups[-4:]}
    some |= {noise.below(1 << table.order) for _ in range(3)}
    return sorted(number for number in some if not model.is_subgroup(table, number))


def refused_sets(source, calls, table, subgroups, noise):
    for number in noise.chance.sample(no_subgroups(table, subgroups, noise), 4):
        refused(source, calls, number, packed(27), noise)


def refused(source, calls, number, refusal, noise):
    """Every entry on subgroups with a refusal that goes before 28, 29 and 26: elements beyond, lists long, short and not lent."""
    source.call(calls, "normalizer", number, gives=refusal)
    for element in (0, BEYOND[noise.below(5)]):
        source.call(calls, "conjugate", number, element, gives=refusal)
        source.call(calls, "permutation", number, element, None, gives=refusal)
    source.call(calls, "permutation", number, 0, noise.bytes(48), gives=refusal)
    source.call(calls, "conjugates", number, noise.bytes(400), noise.bytes(48), gives=refusal)
    source.call(calls, "conjugates", number, noise.chance.choice((None, noise.bytes(7))), None, gives=refusal)


def refused_group(source, calls, refusal, noise):
    """No group is named: that goes before everything that is asked of it."""
    source.call(calls, "order", gives=refusal)
    source.call(calls, "identity", gives=refusal)
    for entry in ("subgroups", "classes"):
        for lent in (noise.bytes(100), noise.bytes(7), None):
            source.call(calls, entry, lent, gives=refusal)
    for number in (0, 1, 2 ** 64 - 1):
        refused(source, calls, number, refusal, noise)
