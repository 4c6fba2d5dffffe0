#!/usr/bin/env python3
"""Spells the repository's own definitions and lemmas as today's Rattle does: words in snake case, so `recordBy` becomes `record_by`.

usage: python3 tools/spell_names.py [--check]      at the top of the repository

A name turns if a file of specs/ or proofs/ declares it in lower camel case. It turns in every .antt and .rt file of crates/, in every .edit file,
and in the papers. Types, modules, constructors that begin with a capital, and whatever Rust declares keep their names.
It prints the names that would fall together with another name, and then writes nothing. A second run writes nothing more.
"""

import collections
import os
import re
import sys

TOKEN = re.compile(r"""[^\s(){}.;,@"«»\[\]|:`*/]+""")
DECLARED = re.compile(r"(?m)^(?:(?:pattern|unfoldable|abbrev|axiom|pub|data|record) )*([^\s(){}.;,@\"«»]+)(?: \{[^{}\n]*\})* :")
INNER = re.compile(r"(?m)^ +(?:pub )?([a-z][^\s(){}.;,@\"«»:]*) :")
NESTED = re.compile(r"(?m)^ +(?:(?:unfoldable|abbrev|pub) )*([a-z][^\s(){}.;,@\"«»:]*)(?: \{[^{}\n]*\})* :(?= )")
BLOCK = re.compile(r"(?m)^(?:(?:pub|abbrev) )*(?:data|record)\b[^\n]*\n((?: +[^\n]*\n|\n)+)")
CAMEL = re.compile(r"(?<=[a-z0-9])([A-Z])|(?<=[A-Z])([A-Z])(?=[a-z])")
LOWER_CAMEL = re.compile(r"^[a-z].*[a-z0-9][A-Z]|-[a-z]+[A-Z]")

# Lemmas that have the name of their definition once that is in snake case: the module that declares one, and its name.
LEMMAS = {
    "hall_axes.specs.Turns": "all_right",
    "laws.specs.Lattice": "below_twelve",
    "five_bytes.specs.OneForm": "below_twelve",
    "group_table.specs.ReadTables": "by_value",
    "group_table.specs.SymbolSteps": "by_value",
    "centering.specs.Reflections": "each_below",
    "group_record.specs.Editions": "from_end",
    "group_record.specs.Reading": "one_number",
    "group_record.specs.GroupLaws": "same_code",
    "group_growth.specs.Flagged": "same_flag",
    "laws.specs.SameMatrix": "same_row",
    "space_group.specs.OperationGrowth": "same_turn",
    "hall_symbol.specs.Parts": "two_digits",
    "operation.specs.Composed": "product_inside",
    "catalogue.specs.Calls": "in_a_row",
    "space_group_theorems.specs.Acceptance": "first_off",
    "record_report.specs.Differences": "in_both",
}
# A constructor that has the name of a definition: its older spelling tells them apart.
CONSTRUCTORS = {"in_both": "in-both"}
# A constructor and a field, which no file has beside the definition.
APART = {"noRoom", "sameBytes", "tooShort", "byTests", "nextPlace", "rowInside", "tooFew"}


def snake(name):
    """Turns each lower camel part of a name; a part that begins with a capital is a type and stays."""
    parts = re.split(r"([-→↔≡⊖⊕*+_]+)", name)
    turned = []
    for part in parts:
        if re.match(r"[a-z]", part):
            part = CAMEL.sub(lambda m: "_" + m[0].lower(), part)
        turned.append(part)
    return "".join(turned)


def files(root, endings):
    for folder, folders, names in os.walk(root):
        folders[:] = sorted(d for d in folders if d not in ("out", ".git", "target"))
        for name in sorted(names):
            if name.endswith(endings):
                yield os.path.join(folder, name)


def with_lemma(text, name):
    """The lemma `name` with `_lem` behind it, or a constructor with its older spelling; the words of a path stay."""
    return re.sub(rf"(?<![\w.'-]){name}(?![\w.'-])", CONSTRUCTORS.get(name, name + "_lem"), text)


def lemmas(path, text):
    """Turns the lemmas of LEMMAS where they are declared and where they are imported."""
    module = path[len("crates/") : -len(".antt")].replace("/", ".")
    for home, name in LEMMAS.items():
        taken = re.search(rf"use Rattle\.{re.escape(home)}\.(?:\{{[^}}]*(?<![\w'-]){name}(?![\w'-])[^}}]*\}}|{name}(?![\w'-]))", text)
        if module == home or taken:
            text = with_lemma(text, name)
    return text


def read(path):
    with open(path, encoding="utf-8") as file:
        return file.read()


def main():
    declared, where = set(), collections.defaultdict(set)
    for path in files("crates", (".antt",)):
        text = read(path)
        names = set(DECLARED.findall(text)) | set(NESTED.findall(text))
        for block in BLOCK.findall(text):
            names.update(INNER.findall(block))
        declared |= names
        for name in names:
            where[name].add(path)
    table = {name: snake(name) for name in declared if snake(name) != name}
    meeting = sorted(name for name, new in table.items() if new in declared and new not in LEMMAS.values() and name not in APART)
    counts = collections.Counter(table.values())
    meeting += sorted(name for name, new in table.items() if counts[new] > 1)
    if meeting:
        print("would meet another name: " + ", ".join(f"{name} ({table[name]})" for name in meeting))
        return 1
    changed = 0
    targets = list(files("crates", (".antt", ".rt", ".edit"))) + list(files("tests", (".edit", ".txt", ".py"))) + list(files("docs", (".md",))) + ["README.md", "crates.txt"]
    for path in targets:
        if path.endswith("unfinished.patch"):
            continue
        text = read(path)
        new = TOKEN.sub(lambda m: table.get(m[0], m[0]), lemmas(path, text) if table and path.endswith(".antt") else text)
        if new != text:
            changed += 1
            if "--check" not in sys.argv:
                with open(path, "w", encoding="utf-8") as file:
                    file.write(new)
    print(f"{len(table)} names, {changed} files")
    return 0


if __name__ == "__main__":
    raise SystemExit(main())
