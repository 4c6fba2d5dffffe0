#!/usr/bin/env python3
"""Says of each must-fail edit of the gate whether it was refused because a fact fails: `rt ci 2>&1 | tee SAID; refusals.py SAID [REPOSITORY]`.

SAID is what `rt ci` or `rt must-fail` wrote. `rt` counts an edit as refused where the crate is no longer proved. That shows nothing if a proof file merely names
what the edit took away, if a name is missing, or if the prover came to a limit of its own; and an edit that does not fit or cannot be read is no more than a
remark there. Here each of these fails, and so does an edit of which SAID has no line. One line each, and 'N passed, M failed' at the end.
"""
import glob
import os
import re
import sys

# A proof file no longer fits the code, or a name is missing.
UNFIT = re.compile(r"has no `|has no field|is not in scope|was not admitted|no such (?:module|name)|unknown name|cannot find")
PLACE = r"(?:\./)?((?:src|specs|proofs)/[^ :]*\.(?:antt|rt):\d+)"
# An error of a declaration, by its name: one without it says that a text cannot be read, or that something rests on a declaration that fails.
ERROR = re.compile(rf"^{PLACE}:\d+: error: `[^`]+`: ")
# A goal that has no answer is proved by the prover's own search: it says which fact that does not reach.
NOT_REACHED = re.compile(rf"^note: {PLACE}:\d+: (it is not proved that .*)")
# It found values at which a goal is false.
FALSE = "the facts known there allow values"
LINE = re.compile(r"^(?:rt: )?must-fail ([^/ ]+/[^ ]+)\.edit: (.*)")
REFUSED = "refused, as it must be: "
# The line in which a function begins.
HEAD = re.compile(r"(?! *//).*?\bfn (\w+)")


def judged(log):
    """Whether what the prover said of a crate that it did not prove shows a fact that fails, and that in words."""
    lines = log.split("\n")
    first = next((line.strip() for line in lines if ": error" in line), "")
    left = [found for found in map(NOT_REACHED.match, lines) if found]
    false = next((found for found in left if FALSE in found[2]), None)
    found = ERROR.match(first)
    if found and not UNFIT.search(first):
        return True, f"refused at {found[1]}"
    if left and (false or not first):
        found = false or left[0]
        return True, f"refused at {found[1]}, {found[2][:200]}"
    return False, f"refused, but not by a fact: {first[:300]}"


def answered(crate, place):
    """Whether proofs/ has answers of the function that stands at this place of the crate's src/ (an edit moves no line), or of another of its name."""
    path, line = place.rsplit(":", 1)
    with open(os.path.join(crate, path)) as text:
        lines = text.read().split("\n")
    at = int(line)
    # A place may be that of an attribute, which stands before its function.
    while lines[at - 1].lstrip().startswith("#["):
        at += 1
    heads = [found[1] for found in map(HEAD.match, lines[:at]) if found]
    found = [glob.glob(os.path.join(crate, "proofs/**", name, file), recursive=True) for name in heads[-1:] for file in ("Answers.antt", "Proof.antt")]
    return not heads or any(found)


def told(verdict, crate):
    """The same of the line that `rt` wrote of an edit of the crate in this folder: the first of the prover's words that is not a name that the edit took away.

    A note that a goal is not proved counts only if it shows values at which the goal is false, or if the function has no answers in proofs/: where it has some,
    the edit may have given the goal another name, and its answer is merely missing.
    """
    if not verdict.startswith(REFUSED):
        return False, verdict[:300]
    first = verdict[len(REFUSED):]
    found, left = ERROR.match(first), NOT_REACHED.match(first)
    if left and (FALSE in left[2] or not answered(crate, left[1])):
        found = left
    if not found or UNFIT.search(first):
        return False, f"refused, but not by a fact: {first[:300]}"
    return True, f"refused at {found[1]}"


def main(words):
    with open(words[0], errors="replace") as said:
        verdicts = dict(found.groups() for found in map(LINE.match, said) if found)
    root = words[1] if len(words) > 1 else os.path.join(os.path.dirname(os.path.abspath(__file__)), "..", "..")
    edits = sorted(glob.glob(os.path.join(root, "crates/*/must-fail/*.edit")))
    failed = passed = 0
    for edit in edits:
        parts = edit[: -len(".edit")].split(os.sep)
        name = f"{parts[-3]}/{parts[-1]}"
        good, words = told(verdicts[name], os.path.dirname(os.path.dirname(edit))) if name in verdicts else (False, "it was not tried")
        passed, failed = passed + good, failed + (not good)
        print(f"{name}: {words}")
    print(f"{passed} passed, {failed} failed")
    return 1 if failed or not passed else 0


if __name__ == "__main__":
    sys.exit(main(sys.argv[1:]))
