"""The gate's time by crate, as Markdown: how long after its start each crate was proved, how many must-fail edits it has, and when all was done.

    .ci/run | python3 tests/measure/gate_time.py

`rt` says no seconds, so each line is timed as it comes. A crate of an earlier run on this machine is not proved anew and gets no time; `rt ci --anew` in the
place of `.ci/run` proves all.
"""

import os
import re
import sys
import time
from collections import Counter

ROOT = os.path.join(os.path.dirname(os.path.abspath(__file__)), "..", "..")
PROVED = re.compile(r"rt: (\w+) proved")
REFUSED = re.compile(r"rt: must-fail (\w+)/\S+: refused, as it must be.*")
VERDICT = re.compile(r"\d+ passed, 0 failed")


def row(*cells):
    print("| " + " | ".join("{:,}".format(cell) if isinstance(cell, int) else cell for cell in cells) + " |")


def main():
    began, proved, edits, line = time.monotonic(), {}, Counter(), ""
    for line in map(str.rstrip, sys.stdin):
        if found := PROVED.fullmatch(line):
            proved[found[1]] = round(time.monotonic() - began)
        elif found := REFUSED.fullmatch(line):
            edits[found[1]] += 1
    if not VERDICT.fullmatch(line):
        sys.exit("the gate did not pass: " + line)
    row("crate", "proved after, s", "edits")
    print("|---|---:|---:|")
    # Crates in the order of crates.txt.
    with open(os.path.join(ROOT, "crates.txt"), encoding="utf-8") as listed:
        for name in (line.split()[0].rstrip(":") for line in listed if ":" in line and not line.startswith("#")):
            row("`%s`" % name, proved.get(name, "kept"), edits[name])
    row("all", round(time.monotonic() - began), sum(edits.values()))


if __name__ == "__main__":
    main()
