#!/usr/bin/env python3
"""Tries the must-fail edits for which the gate has no time, those of tests/edits/CRATE/: the prover must refuse each because a fact fails.

`python3 tests/edits/try.py [--gate] [CRATE...]`: all of them, or those of the crates named; with --gate those of the crates' own must-fail/, which are then judged
by all that the prover says. It works in copies of the repository, one for each processor; `rt` begins there with what earlier checks on this machine kept. In a
copy a crate is proved once over the folder in which the prover keeps what it has checked; with an edit it then checks only what the edit touches, so an edit takes
seconds where the gate proves the whole crate. Each edit starts from the folder of the unchanged crate. A goal has its name from the condition that it stands
under, as `returns-then-status-ge80`: where an edit changes that, the answers in the proof files are given to the goals that stand in their place, so that they
are refused by what they do not prove and not by a name. One line each, and 'N passed, M failed' at the end.
"""
import difflib
import glob
import os
import queue
import re
import shutil
import subprocess
import sys
import tempfile
import threading
import time

from fitting import Unfit, edited
from refusals import judged


def edits_of(crates, gate):
    """The edits of the crates named, or of all, by crate."""
    place = "crates/{}/must-fail/*.edit" if gate else "tests/edits/{}/*.edit"
    names = crates or sorted({path.split(os.sep)[1 if gate else 2] for path in glob.glob(place.format("*"))})
    edits = {name: sorted(os.path.abspath(path) for path in glob.glob(place.format(name))) for name in names}
    for name, found in edits.items():
        if not found:
            sys.exit(f"there are no edits in {os.path.dirname(place.format(name))}")
    return edits


def copied(source, copy):
    """The crates of a repository in another folder, without what was built of them."""
    os.makedirs(copy)
    for name in ("crates.txt", "HANDLES"):
        if os.path.exists(os.path.join(source, name)):
            shutil.copy(os.path.join(source, name), copy)
    shutil.copytree(os.path.join(source, "crates"), os.path.join(copy, "crates"), ignore=shutil.ignore_patterns("out", "must-fail"))


def linked(folder, to):
    """A copy of what the prover keeps. It replaces what it has proved by new files and never writes into one, so these are links."""

    def copy(one, other):
        return os.link(one, other) if one.endswith(".oantt") else shutil.copy2(one, other)

    shutil.copytree(folder, to, symlinks=True, copy_function=copy)


def proved(copy, crate):
    """The status with which the prover ends on a crate, and what it says."""
    folder = os.path.join(copy, "crates", crate)
    run = subprocess.run(["rt", "check"], cwd=folder, stdout=subprocess.PIPE, stderr=subprocess.STDOUT, text=True, errors="replace")
    return run.returncode, run.stdout


# A name of a proof file that the edit took away, and the names that the prover has in its place or asks for.
GONE = re.compile(r"^(?:\./)?(proofs/[^:]*\.antt):\d+:\d+: error: [^\n]*? has no (?:field )?`([^`]+)`(?:[^\n]*\(nearest: ([^)\n]*)\))?", re.M)
ASKED = re.compile(r"^note: src/[^\n]*it is not proved that [^\n]*\(`([^`]+)`\)", re.M)


def renamed(log, texts, read):
    """The proof files in which names that are gone are those that stand in their place now, over the texts that are changed already."""
    made = dict(texts)
    for path, name, nearest in GONE.findall(log):
        close = difflib.get_close_matches(name, [word.strip(" .`") for word in nearest.split(",") if word] + ASKED.findall(log), 1)
        if close:
            text = made.get(path) or read(path)
            made[path] = re.sub(rf"(?<![\w-]){re.escape(name)}(?![\w-])", close[0], text)
    return made


def tried(copy, crate, edit):
    """Whether an edit of a crate is refused because a fact fails, and that in words."""
    folder = os.path.join(copy, "crates", crate)
    try:
        texts = edited(folder, edit)
    except Unfit as wrong:
        return False, f"does not fit: {wrong}"
    before = {}

    def read(name):
        return open(os.path.join(folder, name)).read()

    for _ in range(4):
        for name, text in texts.items():
            before.setdefault(name, read(name))
            open(os.path.join(folder, name), "w").write(text)
        status, log = proved(copy, crate)
        again = renamed(log, texts, read)
        if status == 0 or judged(log)[0] or again == texts:
            break
        texts = again
    for name, text in before.items():
        open(os.path.join(folder, name), "w").write(text)
    if status == 0:
        return False, "NOT REFUSED"
    if status != 1 or "\nlogic=not-proved" not in log:
        return False, f"it did not reach the prover: {log[-300:]}"
    return judged(log)


class Tally:
    """What was seen, a line for each edit as it is tried."""

    def __init__(self):
        self.passed = 0
        self.lock = threading.Lock()

    def say(self, name, good, words, seconds):
        with self.lock:
            self.passed += good
            print(f"{name}: {words} ({seconds:.0f} s)", flush=True)


def try_crate(copy, crate, edits, tally):
    """Each edit of a crate, from the state in which the crate was proved."""
    began = time.time()
    status, log = proved(copy, crate)
    if status != 0:
        tally.say(crate, False, f"not proved without an edit: {log[-300:]}", time.time() - began)
        return
    kept = os.path.join(copy, "crates", crate, "out", "incremental")
    unchanged = os.path.join(copy, "unchanged")
    os.rename(kept, unchanged)
    for edit in edits:
        began = time.time()
        linked(unchanged, kept)
        good, words = tried(copy, crate, edit)
        tally.say(f"{crate}/{os.path.basename(edit)[:-len('.edit')]}", good, words, time.time() - began)
        shutil.rmtree(kept)
    os.rename(unchanged, kept)


def main(words):
    os.chdir(os.path.join(os.path.dirname(os.path.abspath(__file__)), "..", ".."))
    edits = edits_of([word for word in words if word != "--gate"], "--gate" in words)
    tally = Tally()
    with tempfile.TemporaryDirectory() as scratch:
        waiting = queue.Queue()
        for crate in sorted(edits, key=lambda name: -len(edits[name])):
            waiting.put(crate)

        def work(copy):
            while True:
                try:
                    crate = waiting.get_nowait()
                except queue.Empty:
                    return
                try_crate(copy, crate, edits[crate], tally)

        copies = []
        for place in range(min(len(edits), os.cpu_count() or 1)):
            copies.append(os.path.join(scratch, f"copy-{place}"))
            copied(".", copies[-1])
        workers = [threading.Thread(target=work, args=(copy,)) for copy in copies]
        for worker in workers:
            worker.start()
        for worker in workers:
            worker.join()
    # Those of a crate that is not proved, or whose trial broke off, were not tried.
    left = sum(map(len, edits.values())) - tally.passed
    print(f"{tally.passed} passed, {left} failed")
    return 1 if left else 0


if __name__ == "__main__":
    sys.exit(main(sys.argv[1:]))
