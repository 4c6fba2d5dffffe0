#!/usr/bin/env python3
"""Turns the must-fail edits of an earlier commit to the text that stands today, each with the same name and the same wrong change.

usage: python3 tools/turn_edits.py COMMIT [--write] [--all] [EDIT...]      at the top of the repository

COMMIT is one at which each edit fitted. A pair of texts, an old one and a new one, is turned so: the old text's place is found in today's file by setting the
two files beside each other, and the new text's words are spelled as today's files spell them. How words are spelled is learnt from the same setting beside each
other, over all files. Where the old text, so spelled, stands once in today's file, that is the pair. Where it does not, what differs between the old and the new
text is done to today's line, and the pair is that line's part, as long as it must be to stand once. A line that says what the edit does gets a `#` before it, as
`rt` reads it today.

An edit that fits today's files is left as it stands, but with --all. Without --write nothing is written. It prints each edit that it could not turn, each that it
placed by its line, and each word of a new text that today's file has nowhere; the last line is 'N turned, M left'.
"""
import collections
import difflib
import glob
import os
import re
import subprocess
import sys

WORD = re.compile(r"""_[^\w\s(){}.;,]+_|[^\s(){}.;,@"«»\[\]|`]+|[(){}.;,@"«»\[\]|`]""")
NAME = re.compile(r"[^\W\d]")
LOOSE = re.compile(r"(?<=[\w)'\]}]) \.\w[\w'-]*")
PART = re.compile(r"[\w({\[◌]")
OPERATOR = re.compile(r"_\S+_$")
IMPORT = re.compile(r" *(?:pub |ghost )*use ")
# What stands round a clause or between a value and its field in the older text alone.
DROPPED = {"⌜", "⌝"}


def words(text):
    """The words of a text with their places."""
    return [(m[0], m.start(), m.end()) for m in WORD.finditer(text)]


def bare(text):
    """The words of a text but those that today's has nowhere."""
    return [word for word, _, _ in words(text) if word not in DROPPED]


def matched(left, right):
    """How two lists answer each other: equal parts, replaced ones and so on, each with its places in both."""
    return difflib.SequenceMatcher(None, left, right, autojunk=False).get_opcodes()


def opening(text, stop):
    """Where the bracket opens that closes right before a place, if it does."""
    depth, at = 0, stop
    while at > 0:
        at -= 1
        depth += (text[at] in ")}]") - (text[at] in "({[")
        if depth == 0:
            return at
    return None


def spine(text, end):
    """Where the application that ends at a place begins, and of how many parts it is."""
    place, parts, start = end, 0, end
    while place > 0:
        stop = place
        if text[stop - 1] in ")}]":
            at = opening(text, stop)
            if at is None:
                break
            place = at
            while place > 0 and not text[place - 1].isspace() and text[place - 1] not in "({[,;":
                place -= 1
        else:
            while place > 0 and not text[place - 1].isspace() and text[place - 1] not in "({[,;)}]":
                place -= 1
            if place > 0 and text[place] == "." and text[place - 1] in ")}]":
                # A field of what stands in brackets: one part with it.
                place = opening(text, place) or 0
        part = text[place:stop]
        if part.endswith((".", ":")) or part in ("let", "in", "λ", "rw") or not PART.match(part):
            break
        start, parts = place, parts + 1
        if place == 0 or text[place - 1] != " ":
            break
        place -= 1
        if place == 0 or text[place - 1] in "({[,;" or text[place - 1].isspace():
            break
    return start, parts


def tight(text):
    """A text in which each field stands right behind its value: `f x .y` is `(f x).y`."""
    while True:
        found = LOOSE.search(text)
        if not found:
            return text
        begin, end = found.start(), found.end()
        start, parts = spine(text, begin)
        if parts <= 1:
            text, end = text[:begin] + text[begin + 1:], end - 1
        else:
            text, end = text[:start] + "(" + text[start:begin] + ")" + text[begin + 1:], end + 1
        # Brackets round no more than a value and its fields are needless.
        if start > 0 and text[start - 1] == "(" and text[end: end + 1] == ")" and (start < 2 or text[start - 2] in " ({["):
            text = text[:start - 1] + text[start:end] + text[end + 1:]


class Spelling:
    """How the words of the older files are spelled today, by file and over all."""

    def __init__(self):
        self.files = collections.defaultdict(lambda: collections.defaultdict(collections.Counter))
        self.all = collections.defaultdict(collections.Counter)

    def learn(self, name, older, today):
        left, right = ([line for line in text.split("\n") if not IMPORT.match(line)] for text in (older, today))
        seen = [self.line(name, line) for line in left]
        for _, a, b, c, d in matched(seen, [" ".join(bare(line)) for line in right]):
            first, second = bare("\n".join(left[a:b])), bare("\n".join(right[c:d]))
            spelled = [self.word(name, word) for word in first]
            for tag, i, j, k, m in matched(spelled, second):
                if tag == "equal" or (tag == "replace" and j - i == m - k):
                    for old, new in zip(first[i:j], second[k:m]):
                        if bool(NAME.search(old)) == bool(NAME.search(new)):
                            self.files[name][old][new] += 1
                            self.all[old][new] += 1

    def word(self, name, word):
        if OPERATOR.match(word):
            return "◌" + word[1:-1] + "◌"
        for table in (self.files[name], self.all):
            if word in table:
                return table[word].most_common(1)[0][0]
        return word

    def line(self, name, line):
        return " ".join(self.word(name, word) for word in bare(line))

    def text(self, name, text):
        """A text with each word spelled as today, fields tight, and its spaces kept."""
        made, end = [], 0
        for word, start, stop in words(text):
            made.append(text[end:start])
            made.append(self.word(name, word) if word not in DROPPED else "")
            end = stop
        made.append(text[end:])
        turned = "".join(made)
        return tight(turned) if name.endswith(".antt") else turned


def parsed(text):
    """The lines of an edit: ('said', line), ('file', name) or ('pair', old, new)."""
    lines, made, old = text.split("\n"), [], None
    for line in lines:
        if line.startswith("file: "):
            made.append(("file", line[len("file: "):]))
        elif line.startswith("old: "):
            old = line[len("old: "):]
        elif line.startswith("new:"):
            made.append(("pair", old, line[len("new:"):].removeprefix(" ")))
        else:
            made.append(("said", "# " + line if line.strip() and not line.startswith("#") else line))
    return made


def fits(crate, text):
    """Whether the old texts of an edit stand once in today's files, one pair after the other."""
    texts, name = {}, None
    for part in parsed(text):
        if part[0] == "file":
            name = f"crates/{crate}/{part[1]}"
            if not os.path.exists(name):
                return False
            texts.setdefault(name, open(name, encoding="utf-8").read())
        elif part[0] == "pair":
            if name is None or part[1] is None or texts[name].count(part[1]) != 1:
                return False
            texts[name] = texts[name].replace(part[1], part[2])
    return True


def written(parts):
    """An edit's text."""
    lines = []
    for part in parts:
        if part[0] == "pair":
            lines += ["old: " + part[1], ("new: " + part[2]) if part[2] else "new:"]
        else:
            lines.append(("file: " if part[0] == "file" else "") + part[1])
    return "\n".join(lines)


def changed(old, new):
    """What differs between two texts: from which word to which in the one, and in the other."""
    left, right = words(old), words(new)
    a = 0
    while a < min(len(left), len(right)) and left[a][0] == right[a][0]:
        a += 1
    b = 0
    while b < min(len(left), len(right)) - a and left[-1 - b][0] == right[-1 - b][0]:
        b += 1
    return a, len(left) - b, a, len(right) - b


def once_round(text, start, end):
    """The line that holds a place of a text, if it stands there once."""
    first = text.rfind("\n", 0, start) + 1
    last = text.find("\n", end)
    last = len(text) if last < 0 else last
    if "\n" in text[start:end]:
        return None
    # From the line's first word on, or the line with the spaces before it.
    indent = first + len(text[first:last]) - len(text[first:last].lstrip())
    for begin in (indent, first):
        if text.count(text[begin:last]) == 1:
            return begin, last
    return None


class Unturned(Exception):
    """Why a pair could not be turned."""


def place_today(spelling, name, older, today, start, end):
    """The span of today's text that answers to a span of the older one."""
    left, right = older.split("\n"), today.split("\n")
    seen = [spelling.line(name, line) for line in left]
    first, last = older.count("\n", 0, start), older.count("\n", 0, end)
    offset_left, offset_right = [0], [0]
    for line in left:
        offset_left.append(offset_left[-1] + len(line) + 1)
    for line in right:
        offset_right.append(offset_right[-1] + len(line) + 1)
    ops = matched(seen, [" ".join(bare(line)) for line in right])
    # The block of lines round the place, with one equal block on either side.
    hit = [n for n, (_, a, b, _, _) in enumerate(ops) if a <= last and b > first]
    _, a, _, c, _ = ops[max(hit[0] - 1, 0)]
    _, _, b, _, d = ops[min(hit[-1] + 1, len(ops) - 1)]
    part_left, part_right = older[offset_left[a]: offset_left[b]], today[offset_right[c]: offset_right[d]]
    first_words = [w for w in words(part_left) if w[0] not in DROPPED]
    second_words = words(part_right)
    table = matched([spelling.word(name, w[0]) for w in first_words], [w[0] for w in second_words])
    inside = [n for n, w in enumerate(first_words) if w[1] + offset_left[a] < end and w[2] + offset_left[a] > start]
    if not inside:
        raise Unturned("the changed part has no words")
    i, j = inside[0], inside[-1] + 1
    k = m = None
    for tag, p, q, r, s in table:
        if p <= i < q:
            k = r + (i - p) if tag == "equal" or q - p == s - r else r
            if tag == "replace" and q - p != s - r and i != p:
                raise Unturned("its place is not the same in today's text")
            if tag == "delete":
                raise Unturned("its words are gone")
        if p < j <= q:
            m = r + (j - p) if tag == "equal" or q - p == s - r else s
            if tag == "replace" and q - p != s - r and j != q:
                raise Unturned("its place is not the same in today's text")
            if tag == "delete":
                raise Unturned("its words are gone")
    if k is None or m is None or m <= k:
        raise Unturned("its place is not found")
    return second_words[k][1] + offset_right[c], second_words[m - 1][2] + offset_right[c]


def turned(spelling, name, older, today, old, new):
    """The pair for today's text, and how it was found."""
    spelled_old, spelled_new = spelling.text(name, old), spelling.text(name, new)
    if today.count(spelled_old) == 1 and spelled_old != spelled_new:
        return spelled_old, spelled_new, "spelled"
    at = older.index(old)
    left, right = words(old), words(new)
    p, q, r, s = changed(old, new)
    while True:
        # A word more on either side where nothing is taken away.
        if p < q:
            break
        if p > 0:
            p, r = p - 1, r - 1
        elif q < len(left):
            q, s = q + 1, s + 1
        else:
            raise Unturned("it changes no word")
    start, end = left[p][1] + at, left[q - 1][2] + at
    where = place_today(spelling, name, older, today, start, end)
    piece = new[right[r][1]: right[s - 1][2]] if s > r else ""
    piece = spelling.text(name, piece)
    span = once_round(today, *where)
    if span is None:
        raise Unturned(f"no one line holds it: {today[where[0]:where[1]]!r}")
    made_old = today[span[0]: span[1]]
    made_new = (today[span[0]: where[0]] + piece + today[where[1]: span[1]]).rstrip()
    return made_old, made_new, "placed"


def main(arguments):
    os.chdir(os.path.join(os.path.dirname(os.path.abspath(__file__)), ".."))
    write, every = "--write" in arguments, "--all" in arguments
    commit, *named = [word for word in arguments if word not in ("--write", "--all")]
    listed = subprocess.run(["git", "ls-tree", "-r", "--name-only", commit], capture_output=True, text=True, check=True).stdout.split("\n")
    older = {}
    for path in listed:
        if path.endswith((".rt", ".antt", ".edit")):
            older[path] = subprocess.run(["git", "show", f"{commit}:{path}"], capture_output=True, text=True, check=True).stdout
    today = {path: open(path, encoding="utf-8").read() for path in older if not path.endswith(".edit") and os.path.exists(path)}
    spelling = Spelling()
    for _ in range(2):
        for path, text in today.items():
            if "/proofs/" not in path:
                spelling.learn(path, older[path], text)
    done = left = 0
    for path in sorted(path for path in older if path.endswith(".edit")):
        crate = path.split("/")[2] if path.startswith("tests/") else path.split("/")[1]
        stands = os.path.exists(path) and fits(crate, open(path, encoding="utf-8").read())
        if (named and path not in named) or (stands and not every):
            continue
        before, after, name, made, hows = {}, {}, None, [], []
        try:
            for part in parsed(older[path]):
                if part[0] == "file":
                    name = f"crates/{crate}/{part[1]}"
                    if name not in today:
                        raise Unturned(f"there is no {name}")
                    before.setdefault(name, older[name])
                    after.setdefault(name, today[name])
                    made.append(part)
                elif part[0] == "pair":
                    old, new, how = turned(spelling, name, before[name], after[name], part[1], part[2])
                    hows.append(how)
                    before[name] = before[name].replace(part[1], part[2])
                    after[name] = after[name].replace(old, new)
                    made.append(("pair", old, new))
                    strange = sorted({w for w in bare(new) if NAME.search(w)} - set(bare(after[name].replace(new, ""))) - set(bare(old)))
                    if strange:
                        print(f"{path}: nowhere in today's {name}: {' '.join(strange)}")
                else:
                    made.append(part)
        except Unturned as wrong:
            left += 1
            print(f"{path}: {wrong}")
            continue
        done += 1
        if "placed" in hows:
            print(f"{path}: placed")
        if write:
            with open(path, "w", encoding="utf-8") as file:
                file.write(written(made))
    print(f"{done} turned, {left} left")
    return 1 if left else 0


if __name__ == "__main__":
    sys.exit(main(sys.argv[1:]))
