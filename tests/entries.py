"""Calls of symmetry.h through the program made from tests/entries.c, beside what must come of them.

A test says for each call what the answer and the lent lists must be afterwards; `Comparison` makes the calls and counts.
"""

import argparse
import os
import random
import subprocess
import sys

ORACLE = os.path.join(os.path.dirname(os.path.abspath(__file__)), "..", "oracle")
RECORDED = os.path.join(ORACLE, "recorded")
sys.path.insert(1, ORACLE)

WHOLE_NUMBER = 2 ** 64
# Numbers that an entry which looks at a part of their bits only would take for small ones.
BEYOND = (2 ** 8, 2 ** 16, 2 ** 32, 2 ** 63, WHOLE_NUMBER - 1)
# The longest slice that tests/entries.c has room for.
MOST_BYTES = 16384
MOST_WAITING = 20000
MOST_SHOWN = 20
SET_BYTES = 8


def packed(number, place=0):
    """A refusal as one number: its number in the top byte, its place below."""
    return number << 56 | place


def answer_of(said, value):
    """The answer to a call: the refusal that a pair of number and place is, or the value taken of what was said."""
    refused = isinstance(said, tuple) and len(said) == 2 and isinstance(said[0], int)
    return packed(*said) if refused else value(said)


def sets(numbers):
    """A list of sets as C has it: eight bytes a set, high byte first."""
    return b"".join(number.to_bytes(SET_BYTES, "big") for number in numbers)


def filled(lent, values):
    """A lent list after a success: the values, and what stood behind them."""
    return values + lent[len(values):]


def emptied(lent, width=SET_BYTES):
    """A lent list after refusal 26: every slot 0, left-over bytes as they were."""
    slots = len(lent) // width * width
    return bytes(slots) + lent[slots:]


def word_of(value):
    if value is None:
        return "null"
    if isinstance(value, int):
        return str(value)
    return value.hex() or "-"


def shown(line):
    return line if len(line) < 2000 else line[:2000] + " .."


def line_of(entry, arguments, before=None):
    """A call as tests/entries.c reads it; `before` is the text, record or table of the line before."""
    words, source = list(map(word_of, arguments)), source_of(entry, arguments)
    if source is not None and source == before:
        words[arguments.index(source)] = "="
    return " ".join([entry] + words)


def source_of(entry, arguments):
    """The text, record or table of a call: the first slice among its arguments. A catalogue's calls have none: their first slice is lent."""
    if entry.startswith("catalogue_"):
        return None
    return next(value for value in arguments if not isinstance(value, int))


def ask(command, calls):
    """The program's answer lines for calls, each an entry and its arguments."""
    lines, before = [], None
    for entry, arguments in calls:
        lines.append(line_of(entry, arguments, before))
        before = source_of(entry, arguments)
    done = subprocess.run(command, input="".join(line + "\n" for line in lines), text=True, stdout=subprocess.PIPE)
    answers = done.stdout.splitlines()
    if done.returncode or len(answers) != len(lines):
        sys.exit("the program ended with %d, after %d of %d answers" % (done.returncode, len(answers), len(lines)))
    return answers


class Comparison:
    """Calls with what must come of them; `end` tells how many came out so."""

    def __init__(self, command):
        self.command = command
        self.calls, self.expected = [], []
        self.passed, self.differences = 0, []

    def call(self, entry, *arguments, gives, leaves=None):
        """One call. The first slice among the arguments is the text, record or table, the others are lent; `gives` is the whole
        returned number, `leaves` what each lent slice holds afterwards: as before, unless said."""
        after = [value for value in arguments if not isinstance(value, int)][1:] if leaves is None else leaves
        self.calls.append((entry, arguments))
        self.expected.append(" ".join(["%x" % gives] + [word_of(each or b"") for each in after]))
        if len(self.calls) >= MOST_WAITING:
            self.flush()

    def flush(self):
        for call, expected, answer in zip(self.calls, self.expected, ask(self.command, self.calls)):
            self.judge(answer == expected, lambda: (line_of(*call), answer, expected))
        self.calls, self.expected = [], []

    def judge(self, right, told):
        """Counts a comparison; where it failed, `told` gives the call, what came of it and what should have."""
        if right:
            self.passed += 1
        else:
            self.differences.append(told())

    def end(self, verdict="%d passed, %d failed"):
        """Shows the differences, the shortest calls first, and the verdict; answers the exit status."""
        self.flush()
        for call, answer, expected in sorted(self.differences, key=lambda each: len(each[0]))[:MOST_SHOWN]:
            print("%s\n  gives   %s\n  must be %s" % (shown(call), shown(answer), shown(expected)))
        print(verdict % (self.passed, len(self.differences)))
        return 1 if self.differences else 0


class Noise:
    """Bytes to lend and numbers to choose by, fixed by a seed."""

    def __init__(self, seed):
        self.chance = random.Random(seed)

    def bytes(self, count):
        return self.chance.randbytes(count)

    def below(self, most):
        return self.chance.randrange(most)


def comparison(about, flags=()):
    """The comparison with the program that the command line names, and the command line's options."""
    parser = argparse.ArgumentParser(description=about, formatter_class=argparse.RawDescriptionHelpFormatter)
    parser.add_argument("program", help="made from tests/entries.c")
    parser.add_argument("--emulator", default="", help="the command that runs the program on another machine")
    for flag in flags:
        parser.add_argument(flag, action="store_true")
    options = parser.parse_args()
    return Comparison(options.emulator.split() + [options.program]), options


def recorded(name):
    """The lines of a recorded file, cut into words."""
    with open(os.path.join(RECORDED, name)) as file:
        return [line.rstrip("\n").split(" ") for line in file]
