#!/usr/bin/env python3
"""What a landing moved: `moved.py OLD NEW` compares two commits crate by crate.

A definition (abbrev, unfoldable, record, data, ruleset; struct, enum, const of the source) is held by its text; a theorem by its statement, the sections around
it included, and apart from that by its proof; a function by its contract, its parameters included, and apart from that by its body; a proof file by its
text, one of answers apart from one of invariants. Comments, imports and white space count for nothing. `moved.py --counts COMMIT` counts what there is.
"""
import re
import subprocess
import sys
from collections import namedtuple

Item = namedtuple("Item", "kind name said shown")  # said: text, statement or contract; shown: proof or body, empty for a definition

DEFINED = {"abbrev", "unfoldable"}
SIGNATURE = re.compile(r"^((?:(?:pub|abbrev|unfoldable|opaque)\s+)*)((?:(?!=(?:\s|$))[^\s:(){}]+\s+)+):(?:\s|$)")
DECLARED = re.compile(r"^(?:pub\s+)?(record|data|ruleset)\s+(\S+)")
OPENED = re.compile(r"^((?:abbrev\s+|unfoldable\s+|opaque\s+)*)pub\s+(?!use\s|mod\s)")  # who may name an item is no part of what it says
PASSED_BY = re.compile(r"^(?:(?:pub\s+)?(?:use|mod)|infix[lr]?)\s")


def squeezed(text):
    return " ".join(text.split())


def without_comments(text):
    return re.sub(r"(?m)(^|\s)--(?=\s|$).*$", r"\1", text)


def indent(line):
    return len(line) - len(line.lstrip(" "))


def chunks(text):
    """Each line of a section's own depth with the deeper lines behind it, and the headers of the sections that it stands in."""
    lines = [line.rstrip() for line in without_comments(text).split("\n") if line.strip()]
    sections = []  # (depth of the items inside, header)
    at = 0
    while at < len(lines):
        depth = indent(lines[at])
        while sections and depth < sections[-1][0]:
            sections.pop()
        end = at + 1
        if lines[at].lstrip().startswith("module "):
            while not lines[end - 1].endswith("where"):
                end += 1
            inner = indent(lines[end]) if end < len(lines) else depth + 2
            sections.append((inner, squeezed(" ".join(lines[at:end]))))
        else:
            while end < len(lines) and indent(lines[end]) > depth:
                end += 1
            yield squeezed(" ".join(lines[at:end])), " ".join(header for _, header in sections)
        at = end


def theorems_and_definitions(text):
    """The items of one file of specs."""
    items = []
    current = None  # [kind, names, said, shown]

    def close():
        if current:
            kind, names, said, shown = current
            for name in names:
                items.append(Item(kind, name, f"{said} {shown}" if kind == "definition" else said, "" if kind == "definition" else shown))

    for chunk, header in chunks(text):
        chunk = OPENED.sub(r"\1", chunk)
        declared, signature = DECLARED.match(chunk), SIGNATURE.match(chunk)
        if PASSED_BY.match(chunk):
            close()
            current = None
        elif declared:
            close()
            current = ["definition", [declared.group(2)], f"{header} {chunk}", ""]
        elif signature and not chunk.startswith("unfolding "):
            close()
            words = set(signature.group(1).split())
            current = ["definition" if words & DEFINED else "theorem", signature.group(2).split(), f"{header} {chunk}", ""]
        elif current:
            current[3] += " " + chunk
    close()
    return items


WORD = re.compile(r"b'(?:\\.|[^'])+'|b\"(?:\\.|[^\"])*\"|//[^\n]*|[A-Za-z_0-9]+|\s+|.", re.S)
CLOSING = {"{": "}", "(": ")", "[": "]"}


def balanced(words, at):
    """The place behind the bracket that closes the one at `at`."""
    opening, depth = words[at], 0
    while at < len(words):
        depth += (words[at] == opening) - (words[at] == CLOSING[opening])
        at += 1
        if depth == 0:
            return at
    return at


def next_of(words, at, wanted):
    while at < len(words) and words[at] not in wanted:
        at += 1
    return at


def functions_and_types(text):
    """The functions, types and constants of one file of source."""
    words = [w for w in WORD.findall(text) if not w.startswith("//") and not w.isspace()]
    items, owner, owner_end, at = [], "", 0, 0
    while at < len(words):
        word = words[at]
        if at >= owner_end:
            owner = ""
        if word == "impl":
            owner = words[at + 1] + "::"
            at = next_of(words, at, "{")
            owner_end = balanced(words, at)
            at += 1
        elif word == "fn":
            start, name = at, owner + words[at + 1]
            at = balanced(words, next_of(words, at, "("))
            while at < len(words) and words[at] != "{":
                if words[at] in ("requires", "ensures"):
                    at = balanced(words, next_of(words, at, "{"))
                else:
                    at += 1
            end = balanced(words, at) if at < len(words) else at
            items.append(Item("function", name, " ".join(words[start:at]), " ".join(words[at:end])))
            at = end
        elif word in ("struct", "enum", "const") and at + 1 < len(words):
            start, name = at, owner + words[at + 1]
            at = next_of(words, at, "{;")
            at = balanced(words, at) if at < len(words) and words[at] == "{" else at + 1
            if word == "const":
                at = next_of(words, start, ";") + 1
            items.append(Item("definition", name, " ".join(words[start:at]), ""))
        elif word == "ghost":
            at = next_of(words, at, ";") + 1
        else:
            at += 1
    return items


def git(*words):
    return subprocess.run(["git", *words], check=True, stdout=subprocess.PIPE).stdout.decode()


def inventory(commit):
    """(crate, kind, file, name) to the item, for all of a commit. Two items of one name in one file are told apart by their order."""
    listed = {}
    for path in git("ls-tree", "-r", "--name-only", "-z", commit, "crates/").split("\0"):
        part = re.match(r"crates/([^/]+)/(specs|src|proofs)/(.+)\.(antt|rt)$", path)
        if not part:
            continue
        crate, folder, file, _ = part.groups()
        text = git("show", f"{commit}:{path}")
        if folder == "proofs":
            items = [Item("proof file", file.removesuffix("/Proof"), squeezed(without_comments(text)), "")]
            file = ""
        else:
            items = theorems_and_definitions(text) if folder == "specs" else functions_and_types(text)
        seen = {}
        for item in items:
            again = seen[item.kind, item.name] = seen.get((item.kind, item.name), 0) + 1
            listed[crate, item.kind, file if folder != "src" else f"src/{file}", item.name + "'" * (again - 1)] = item
    return listed


SAID = {"definition": "definitions", "theorem": "theorems", "function": "functions", "proof file": "proof files"}


def counts(listed):
    return {SAID[kind]: sum(1 for key in listed if key[1] == kind) for kind in SAID}


def compared(old, new):
    """Lists by crate and what happened; what only went to another file or crate is said as such."""
    lists = {}

    def note(crate, what, name):
        lists.setdefault(crate, {}).setdefault(what, []).append(name)

    gone = [key for key in old if key not in new]
    came = [key for key in new if key not in old]
    for key in sorted(came):
        twin = next((other for other in gone if other[1] == key[1] and other[3] == key[3] and old[other] == new[key]), None)
        if twin:
            gone.remove(twin)
            note(key[0], f"{SAID[key[1]]} that came from {twin[0] if twin[0] != key[0] else 'another file'}, unchanged", key[3])
        else:
            note(key[0], f"{SAID[key[1]]} new", key[3])
    for key in sorted(gone):
        note(key[0], f"{SAID[key[1]]} gone", key[3])
    for key in sorted(old):
        if key not in new or old[key] == new[key]:
            continue
        said, kind = old[key].said != new[key].said, key[1]
        if kind == "theorem":
            note(key[0], "theorems whose statement moved" if said else "theorems of which only the proof moved", key[3])
        elif kind == "function":
            note(key[0], "functions whose contract moved" if said else "functions of which only the body moved", key[3])
        else:
            note(key[0], f"{SAID[kind]} moved", key[3])
    return lists


def main(words):
    if len(words) == 2 and words[0] == "--counts":
        print(", ".join(f"{number} {what}" for what, number in counts(inventory(words[1])).items()))
        return 0
    if len(words) != 2:
        print("usage: moved.py OLD NEW, or moved.py --counts COMMIT", file=sys.stderr)
        return 2
    old, new = inventory(words[0]), inventory(words[1])
    lists = compared(old, new)
    for crate in sorted(lists):
        print(f"{crate}:")
        for what in sorted(lists[crate]):
            names = lists[crate][what]
            print(f"  {what} ({len(names)}): {', '.join(names)}")
    still = sorted({key[0] for key in new} - set(lists))
    print(f"crates in which nothing moved ({len(still)}): {', '.join(still)}" if still else "every crate moved")
    stayed = {key: item for key, item in new.items() if old.get(key) == item}
    print("stayed: " + ", ".join(f"{number} {what}" for what, number in counts(stayed).items()))
    if not lists:
        print("nothing moved")
    return 0


if __name__ == "__main__":
    sys.exit(main(sys.argv[1:]))
