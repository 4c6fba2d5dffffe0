"""Has the C entries called on the recorded symbols, records and tables, and writes what the calls cost, as Markdown.

    python3 measure.py FOLDER LIBRARY TOOLS                          every table
    python3 measure.py FOLDER LIBRARY TOOLS beside                   the first table, with the Rust and gemmi beside the port
    python3 measure.py FOLDER LIBRARY TOOLS profile ENTRY INPUTS     what each function executes in a call

FOLDER holds count.so and measure, made from count.c and measure.c, for the second form also from beside.c; LIBRARY is the archive of the entries; TOOLS
stands before the names of `ld`, `size` and `nm` for x86-64. ENTRY is without "symmetry_", and INPUTS is the name of an input, where * stands for anything.
measure.sh and beside.sh run this.
"""

import fnmatch
import os
import shutil
import subprocess
import sys
from collections import defaultdict
from typing import NamedTuple

ORACLE = os.path.join(os.path.dirname(os.path.abspath(__file__)), "..", "..", "oracle")
RECORDED = os.path.join(ORACLE, "recorded")
sys.path.insert(0, ORACLE)
import model
DATABASE = 530
MOST_FUNCTIONS = 20

SYMBOLS = ("P 1", "-P 2ac 2n", "-F 4 2 3")
# Each has 64 bytes, all that are read.
LONG_LINES = [" " * (64 - len(line)) + line for line in (
    "-x-y-z-11/12,-x-y-z-11/12,-x-y-z-11/12", "-x+y-11/12,-x+z-11/12,-y-z-11/12", "+ 11/12 - x + y, - 11/12 + x + z, + 11/12 - y - z", "x,y,z")]
LARGEST_MAGNETIC = ("-P 4 2 3 1'", "-F 4 2 3 1'", "-F 4ud 2vw 3 1'", "-I 4bd 2c 3 1'", "F 4d 2 3 -1ad 1'", "F 4d 2 3 -1d 1'", "-P 4 2 3 1 1 1 1 1'")
CUBIC, MANY = "-P 4 2 3", "C2 ^ 5"
PROGRAMS = ("rust", "gemmi")
# The heap of the Rust and of gemmi is warm after the first call, and each call of the Rust has other keys for its hash tables.
STEADY_CALLS = 8


class Call(NamedTuple):
    """A call as measure.c reads it, and the name of its input."""
    name: str
    entry: str
    source: bytes
    number: int = 0
    subset: int = 0
    element: int = 0

    def line(self):
        return "%s %s %d %x %d\n" % (self.entry, self.source.hex() or "-", self.number, self.subset, self.element)


class Cost(NamedTuple):
    answer: int
    stack: int
    instructions: int


# ---- the calls ----

def recorded(file):
    with open(os.path.join(RECORDED, file), encoding="ascii") as lines:
        return lines.read().splitlines()


def shown(text):
    return "".join(chr(byte) if 32 <= byte < 127 else "?" for byte in text)


def of_group(name, family, *source):
    for entry in ("order", "identity", "subgroups", "classes"):
        yield Call(name, "%s_%s" % (family, entry), *source)


def of_subgroup(name, family, source, number, subset):
    """Its highest member stands for an element, since a permutation needs one that normalizes."""
    for entry in ("conjugate", "conjugates", "normalizer", "permutation"):
        yield Call(name, "%s_%s" % (family, entry), source, number, subset, subset.bit_length() - 1)


def of_symbols():
    for index, line in enumerate(recorded("symbols.txt")):
        text, refusal, place, *record = line.split()
        text = b"" if text == "-" else bytes.fromhex(text)
        name = ("database " if index < DATABASE else "symbol ") + shown(text)
        yield from of_group(name, "symbol", text)
        yield from (Call(name, "symbol_" + entry, text) for entry in ("letter", "operation", "record", "check"))
        yield Call(name, "catalogue_piece", text + b"\n")
        if len(text) <= 80:
            yield Call(name, "catalogue_end", text)
        if refusal == "0":
            whole = 2 ** int(place) - 1
            yield from of_subgroup(name, "symbol", text, 0, whole)
            yield from of_buffer("record of " + shown(text), bytes.fromhex(record[0]))
            yield from of_subgroup("record of " + shown(text), "record", bytes.fromhex(record[0]), 0, whole)


def of_layers():
    """The layer symbols of the Rust's database."""
    for line in recorded("layers.txt"):
        text = bytes.fromhex(line.split()[0])
        yield from (Call("layer " + shown(text), "layer_" + entry, text) for entry in ("order", "letter", "operation", "record"))


def of_magnetics():
    """The magnetic symbols of the Rust's database and those with the most operations, and their records, by the model of the rules."""
    texts = [bytes.fromhex(line.split()[0]) for line in recorded("magnetic.txt")]
    for text in texts + [text.encode() for text in LARGEST_MAGNETIC]:
        yield from (Call("magnetic " + shown(text), "magnetic_" + entry, text) for entry in ("order", "letter", "operation", "record"))
        record = model.magnetic_record(*model.group_of_magnetic(text))
        yield from (Call("record of magnetic " + shown(text), "magnetic_record_" + entry, record) for entry in ("order", "letter", "copy"))


def of_lines():
    """Operation lines: of each operation of the largest groups, and long ones that are read. A catalogue's start takes nothing."""
    yield Call("a state", "catalogue_start", b"")
    for line in LONG_LINES:
        yield Call("line " + line.strip(), "line_operation", line.encode())
    for line in recorded("symbols.txt")[:DATABASE]:
        text, _, _, record = line.split()
        record = bytes.fromhex(record)
        for at in range(0, len(record) - 5, 5):
            yield Call("operation %d of %s" % (at // 5, shown(bytes.fromhex(text))), "operation_line", record[at:at + 5])


def of_values():
    """The tables by value of the database's symbols and of their records, which no entry for C hands out."""
    for line in recorded("symbols.txt")[:DATABASE]:
        text, _, _, record = line.split()
        text = bytes.fromhex(text)
        yield Call("database " + shown(text), "symbol_value", text)
        yield Call("record of " + shown(text), "record_value", bytes.fromhex(record))


def of_buffer(name, record):
    yield from of_group(name, "record", record)
    yield from (Call(name, "record_" + entry, record) for entry in ("letter", "copy", "edition", "move", "compare"))


def of_buffers():
    for index, line in enumerate(recorded("records.txt")):
        record = line.split()[0]
        yield from of_buffer("buffer %d" % index, b"" if record == "-" else bytes.fromhex(record))


def of_tables():
    """Tables, refused ones too; of a symbol's table also the subgroups, asked about by the symbol."""
    for line in recorded("tables.txt"):
        kind, *words = line.split()
        if kind == "#":
            name, text = line[2:], None
            if words[0] == "symbol":
                text = line[len("# symbol "):].encode()
                name = "table of " + shown(text)
        elif kind == "T":
            yield from of_group(name, "table", bytes(int(word) for word in words[2:]), int(words[0]))
        elif kind == "H" and text is not None:
            yield from of_subgroup("database " + shown(text), "symbol", text, 0, int(words[0], 16))


def of_all_groups():
    """Every group of order 1 to 48, with a subgroup of each class."""
    for line in recorded("gap_groups.txt"):
        kind, *words = line.split()
        if kind == "#":
            name = words[0]
        elif kind == "T":
            order, table = int(words[0]), bytes.fromhex(words[1])
            yield from of_group(name, "table", table, order)
        elif kind == "K":
            yield from of_subgroup(name, "table", table, order, int(words[0], 16))


def all_calls():
    yield from of_symbols()
    yield from of_layers()
    yield from of_magnetics()
    yield from of_lines()
    yield from of_values()
    yield from of_buffers()
    yield from of_tables()
    yield from of_all_groups()


def of_others(calls):
    """The calls of the Rust and of gemmi on inputs of the port's; a call that is looked at alone is made once and then again, to be steady."""
    source = {call.name: call for call in calls if call.entry in ("symbol_order", "table_order")}
    for program in PROGRAMS:
        yield from (call._replace(entry=program + "_operations") for call in calls if (call.entry, call.name[:9]) == ("symbol_order", "database "))
        for text in SYMBOLS:
            yield from [source["database " + text]._replace(name=text, entry=program + "_operations")] * (1 + STEADY_CALLS)
    yield from [source["database " + CUBIC]._replace(name=CUBIC, entry="rust_table")] * (1 + STEADY_CALLS)
    for name, of_table in ((CUBIC, "table of " + CUBIC), (MANY, MANY)):
        for entry in ("rust_subgroups", "rust_classes"):
            yield from [source[of_table]._replace(name=name, entry=entry)] * (1 + STEADY_CALLS)


# ---- what they cost ----

def counted(folder, calls, options=""):
    """What the program and the plugin write. The program runs without an environment and on a processor without extensions, so that nothing of this
    machine is counted."""
    command = [shutil.which("qemu-x86_64"), "-cpu", "qemu64", "-plugin", "./count.so,out=counted" + options, "./measure"]
    lines = "".join(call.line() for call in calls).encode()
    said = subprocess.run(command, input=lines, stdout=subprocess.PIPE, cwd=folder, env={}, check=True).stdout.decode().splitlines()
    with open(os.path.join(folder, "counted"), encoding="utf-8") as counts:
        return said, counts.read().splitlines()


def costs(folder, calls):
    """Pairs of a call and its cost, without the instructions of a call that does nothing."""
    said, counts = counted(folder, [Call("nothing", "nothing", b"")] + calls)
    assert len(said) == len(counts) == len(calls) + 1
    empty = int(counts[0])
    for call, line, count in zip(calls, said[1:], counts[1:]):
        answer, stack = line.split()
        yield call, Cost(int(answer), int(stack), int(count) - empty)


def profile(folder, entry, inputs):
    calls = [call for call in all_calls() if call.entry == entry and fnmatch.fnmatchcase(call.name, inputs)]
    _, lines = counted(folder, calls, ",profile=on")
    functions = [line.split(" ", 1) for line in lines[len(calls):]]
    functions = sorted(((int(count) / len(calls), name) for count, name in functions), reverse=True)
    print("%d calls, instructions of each on average:" % len(calls))
    for count, name in functions[:MOST_FUNCTIONS]:
        print("%12s  %s" % (format(count, ",.0f"), name))


def said_by(*command):
    return subprocess.run(command, stdout=subprocess.PIPE, check=True).stdout.decode().splitlines()


def sizes(folder, library, tools, entries):
    """Code and constants that a link of these entries takes from the library, padding included."""
    linked = os.path.join(folder, "linked")
    names = ["symmetry_" + entry for entry in entries]
    roots = [word for name in names for word in ("-u", name)]
    subprocess.run([tools + "ld", "--gc-sections", "--unresolved-symbols=ignore-all", "-e", names[0], *roots, library, "-o", linked], check=True)
    listed = said_by(tools + "size", "-A", "-d", linked)
    sections = {words[0]: int(words[1]) for words in map(str.split, listed) if len(words) == 3 and words[1].isdigit()}
    return sections[".text"], sum(size for name, size in sections.items() if name not in (".text", ".comment"))


def needed(library, tools):
    """What the library takes from elsewhere."""
    return sorted({line.split()[1] for line in said_by(tools + "nm", "-u", library) if line.startswith(" ")})


# ---- the tables ----

def row(*cells):
    print("| " + " | ".join(format(cell, ",.0f") if isinstance(cell, (int, float)) else cell or "" for cell in cells) + " |")


def mean(numbers):
    return sum(numbers) / len(numbers)


def of_database(measured, entry):
    counts = [cost.instructions for call, cost in measured if call.entry == entry and call.name.startswith("database ")]
    assert len(counts) == DATABASE
    return mean(counts)


def steady(others):
    """What the calls of the Rust and of gemmi take, by entry and input: those after the first, or the mean over the database."""
    found = defaultdict(list)
    for call, cost in others:
        found[call.entry, call.name].append(cost.instructions)
    taken = {key: mean(counts[1:]) for key, counts in found.items() if len(counts) == 1 + STEADY_CALLS}
    taken.update(((entry, "database"), of_database(others, entry)) for entry in ("rust_operations", "gemmi_operations"))
    return taken


def speed(measured, taken=None):
    """The first table. `taken` has what the Rust and gemmi take, and adds a column for each."""
    cost = {(call.entry, call.name): each for call, each in measured}

    def line(what, entry, count, beside=(None, None), goal=None):
        """`beside` is the kind of the others' calls and their input."""
        kind, name = beside
        others = [] if taken is None else [taken.get(("%s_%s" % (program, kind), name)) for program in PROGRAMS]
        row(what, "`%s`" % entry, count, *others, goal)

    def one(what, entry, name, beside=(None, None), goal=None):
        line(what, "symmetry_" + entry, cost[entry, name].instructions, beside, goal)

    def of_table(entry, what, name, other):
        count = cost["table_" + entry, name].answer
        one("%s (%d), from table bytes" % (what, count), "table_" + entry, name, (entry, other))

    titles = ["one call", "entry", "the port"] + ([] if taken is None else ["the Rust", "gemmi"]) + ["goal"]
    row(*titles)
    print("|---|---|" + "---:|" * (len(titles) - 2))
    for what, entry, kind, goal in (("operations", "symbol_order", "operations", 4300), ("record", "symbol_record", None, None)):
        line(what + ", mean over the 530 symbols", "symmetry_" + entry, of_database(measured, entry), (kind, "database"), goal)
        for text in SYMBOLS:
            one("%s of `%s`" % (what, text), entry, "database " + text, (kind, text))
    for source, name, kind, goal in (("symbol", "database " + CUBIC, "table", 60000), ("record", "record of " + CUBIC, None, 300000)):
        line("table of `%s` by value, from the %s" % (CUBIC, source), source + "_table_order", cost[source + "_value", name].instructions, (kind, CUBIC), goal)
    one("the same table checked, from table bytes", "table_identity", "table of " + CUBIC)
    for entry, symbol_goal, record_goal in (("subgroups", 700000, 900000), ("classes", None, None)):
        of_table(entry, "%s of `%s`" % (entry, CUBIC), "table of " + CUBIC, CUBIC)
        one("the same, from the symbol", "symbol_" + entry, "database " + CUBIC, goal=symbol_goal)
        one("the same, from the record", "record_" + entry, "record of " + CUBIC, goal=record_goal)
    for entry in ("subgroups", "classes"):
        of_table(entry, entry + " of the elementary abelian group of order 32", MANY, MANY)


def agreed(measured, others):
    """That the Rust and gemmi answered the port's counts, so that the same work is measured."""
    answers = {(call.source, call.number, call.entry.split("_")[1]): cost.answer for call, cost in measured}
    for call, cost in others:
        kind = call.entry.split("_")[1]
        assert cost.answer == answers[call.source, call.number, "order" if kind in ("operations", "table") else kind], call


def entries_of(library, tools):
    """Every function that the library has for C."""
    symbols = [words.split()[-1] for words in said_by(tools + "nm", "--defined-only", library) if words.strip()]
    return sorted(symbol.removeprefix("symmetry_") for symbol in symbols if symbol.startswith("symmetry_"))


def by_entry(measured, size_of, every_entry):
    entries = sorted({call.entry for call, _ in measured if not call.entry.endswith("_value")})
    row("entry", "code", "constants", "deepest stack", "together", "longest call", "on")
    print("|---|---:|---:|---:|---:|---:|---|")
    deepest = 0
    for entry in entries:
        of_entry = [(call, cost) for call, cost in measured if call.entry == entry]
        stack = max(cost.stack for _, cost in of_entry)
        call, cost = max(of_entry, key=lambda pair: pair[1].instructions)
        code, constants = size_of([entry])
        deepest = max(deepest, stack)
        row("`%s`" % entry, code, constants, stack, code + constants + stack, cost.instructions, call.name)
    for entry in every_entry:
        if entry not in entries:
            code, constants = size_of([entry])
            row("`%s`" % entry, code, constants, "", "", "", "")
    code, constants = size_of(every_entry)
    row("all entries", code, constants, deepest, code + constants + deepest, "", "")


def beside(folder):
    calls = list(all_calls())
    wanted = [call for call in calls if call.name.startswith("database ") or call.name in ("record of " + CUBIC, "table of " + CUBIC, MANY)]
    others = list(of_others(wanted))
    measured = list(costs(folder, wanted + others))
    port, rest = measured[:len(wanted)], measured[len(wanted):]
    agreed(port, rest)
    print("Executed x86-64 instructions:\n")
    speed(port, steady(rest))


def main(folder, library, tools, *words):
    if words[:1] == ("beside",):
        return beside(folder)
    if words:
        return profile(folder, *words[1:])
    calls = list(all_calls())
    measured = list(costs(folder, calls))
    print("Executed x86-64 instructions:\n")
    speed(measured)
    print("\nBytes of code, constants and stack, and the executed instructions of the longest call, over %s calls:\n" % format(len(calls), ","))
    by_entry(measured, lambda entries: sizes(folder, library, tools, entries), entries_of(library, tools))
    print("\nWhat the library takes from elsewhere: " + ", ".join("`%s`" % name for name in needed(library, tools)) + ".")


if __name__ == "__main__":
    main(*sys.argv[1:])
