"""Has two builds of the port make the same calls, and writes what these cost, as Markdown. clock.sh runs this.

    python3 clock.py BEFORE AFTER [--emulated]

BEFORE and AFTER are folders with count.so and measure, made from measure.c and product.c. Times are the medians of runs of the two builds in turn.
"""

import os
import statistics
import subprocess
import sys

import measure

TURNS = 15
PRODUCT = "operation::product::mul"
# Pairs of operations with entries in −1..1 whose products are inside: nine digits by rows and three twelfths each.
PAIRS = ("010201000101010102060b03" "000101010201010100060006", "020101010201010102000000" "010200020000010102040809", "000101010001010100030609" "010102020101010201090300")


def wanted():
    """Rows: what is said of them, and their calls."""
    every = list(measure.all_calls())
    one = {(call.entry, call.name): call for call in every}
    yield "one product, with what the test library packs", [measure.Call("product", "product", bytes.fromhex(pair)) for pair in PAIRS]
    yield "operations, mean over the 530 symbols", [call for call in every if call.entry == "symbol_order" and call.name.startswith("database ")]
    for what, entry in (("table of `%s` by value", "value"), ("subgroups of `%s`", "subgroups")):
        for source, name in (("symbol", "database " + measure.CUBIC), ("record", "record of " + measure.CUBIC)):
            yield (what + ", from the %s") % (measure.CUBIC, source), [one["%s_%s" % (source, entry), name]]


def instructions(folder, calls):
    return [cost.instructions for _, cost in measure.costs(folder, calls)]


def of_product(folder, calls):
    """What the product's own function executes, on average."""
    _, lines = measure.counted(folder, calls, ",profile=on")
    return sum(int(line.split(" ", 1)[0]) for line in lines[len(calls):] if line.split(" ", 1)[1] == PRODUCT) / len(calls)


def times(folder, calls):
    """Nanoseconds of each call."""
    lines = "".join(call.line() for call in calls).encode()
    said = subprocess.run([os.path.join(folder, "measure"), "clock"], input=lines, stdout=subprocess.PIPE, check=True).stdout
    return [float(line) for line in said.split()]


def processor():
    with open("/proc/cpuinfo", encoding="utf-8") as lines:
        return next(line.split(":")[1].strip() for line in lines if line.startswith("model name"))


def cut(numbers, rows):
    """The mean of each row's calls."""
    place = 0
    for _, calls in rows:
        yield measure.mean(numbers[place:place + len(calls)])
        place += len(calls)


def table(title, unit, rows):
    print("\n%s:\n" % title)
    measure.row("one call", "before", "after", "change")
    print("|---|---:|---:|---:|")
    for what, before, after in rows:
        measure.row(what, unit % before, unit % after, "%+.1f %%" % (100 * (after - before) / before))


def main(before, after, *words):
    rows = list(wanted())
    names = [what for what, _ in rows]
    calls = [call for _, some in rows for call in some]
    counts = [list(cut(instructions(folder, calls), rows)) for folder in (before, after)]
    products = [("one product, its own function", *(of_product(folder, rows[0][1]) for folder in (before, after)))]
    table("Executed x86-64 instructions", "%.0f", products + list(zip(names, *counts)))
    if words == ("--emulated",):
        print("\nNo times: this machine is no x86-64, and they would be the emulator's.")
        return
    taken = ([], [])
    for _ in range(TURNS):
        for folder, some in zip((before, after), taken):
            some.append(times(folder, calls))
    medians = [list(cut([statistics.median(each) for each in zip(*some)], rows)) for some in taken]
    table("Nanoseconds by the clock, medians of %d runs of each build in turn, on %s" % (TURNS, processor()), "%.1f", zip(names, *medians))


if __name__ == "__main__":
    main(*sys.argv[1:])
