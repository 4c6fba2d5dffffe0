#!/usr/bin/env python3
"""Holds what the program writes, byte for byte, to the model of the rules (`oracle/model.py program`).

    python3 tests/compare_program.py PROGRAM [--emulator COMMAND]

PROGRAM is the proved program, crates/hall/out/hall; COMMAND is what runs it where it does not run by itself. Its input is a pipe, fed whole or cut into
pieces at chosen places, with a pause behind each piece so that it is read by itself. The lines are the recorded symbols and the damaged ones, every
byte in a line of its own and within one, lines around 80 bytes and over 4,096, and last lines with and without byte 10. The file that the gate
gives the program, crates/hall/stdin, is asked too, and crates/hall/stdout is held to the model. Prints 'N passed, M failed'.
"""

import argparse
import functools
import os
import subprocess
import sys
import time

from entries import Noise, recorded

import model

HALL = os.path.join(os.path.dirname(os.path.abspath(__file__)), "..", "crates", "hall")
# Many lines are asked more than once.
model.program_answer = functools.lru_cache(None)(model.program_answer)
# The program reads at most so many bytes at a time.
PIECE = 4096
PAUSE = 0.002


def symbols():
    return [model.text_of_hex(line[0]) for name in ("symbols.txt", "damaged.txt") for line in recorded(name)]


def inputs(noise):
    """(name, input) for whole inputs."""
    # A recorded text may hold byte 10; then it is two lines, for the program and for the model.
    lines = symbols()
    yield "all recorded and damaged symbols", b"".join(text + b"\n" for text in lines)
    yield "the same, the last without an end", b"\n".join(lines[::-1])
    yield "each byte as a line", b"".join(bytes([byte]) + b"\n" for byte in range(256))
    yield "each byte before, in and behind a symbol", b"".join(
        line + b"\n" for byte in range(256) for line in (bytes([byte]) + b"P 2", b"P" + bytes([byte]) + b"2", b"P 2" + bytes([byte])))
    yield "ends of lines of other systems", b"P 1\r\nP 2\r\n-P 1\rP 2\r"
    yield "blank lines", b"\n\n \n\t\n\nP 1\n\n"
    yield "zeros", bytes(300)
    yield "all bytes, at random", noise.bytes(3 * PIECE)
    for size in (79, 80, 81, 82, 160, PIECE - 1, PIECE, PIECE + 1, 5 * PIECE):
        for line in (b"P 1".ljust(size), b"x" * size):
            yield "a line of %d bytes" % size, line + b"\nP 1\n"
            yield "a last line of %d bytes" % size, b"P 1\n" + line


def last_lines():
    """Last lines of every length up to 90, and of every byte, each an input of its own."""
    for size in range(91):
        yield b"P 1\n" + b"P 2ac 2n".ljust(size)[:size]
    for byte in range(256):
        yield bytes([byte])


def cuts(data, noise):
    """Some ways to cut an input into pieces."""
    yield [data[i:i + 1] for i in range(len(data))]
    yield [data[i:i + 7] for i in range(0, len(data), 7)]
    for _ in range(3):
        places = sorted({noise.below(len(data) + 1) for _ in range(30)} | {0, len(data)})
        yield [data[a:b] for a, b in zip(places, places[1:])]
    # Before and behind every end of a line.
    places = sorted({0, len(data)} | {i + side for i, byte in enumerate(data) if byte == 10 for side in (0, 1)})
    yield [data[a:b] for a, b in zip(places, places[1:])]


def written(command, pieces):
    """What the program writes for the pieces, fed one by one, and its exit status."""
    program = subprocess.Popen(command, stdin=subprocess.PIPE, stdout=subprocess.PIPE)
    if len(pieces) == 1:
        return program.communicate(pieces[0])[0], program.returncode
    for piece in pieces:
        program.stdin.write(piece)
        program.stdin.flush()
        time.sleep(PAUSE)
    return program.communicate()[0], program.returncode


class Judge:
    def __init__(self, command):
        self.command, self.passed, self.failed = command, 0, 0

    def hold(self, name, said, expected):
        if said == expected:
            self.passed += 1
            return
        self.failed += 1
        place = next((i for i, (a, b) in enumerate(zip(said, expected)) if a != b), min(len(said), len(expected)))
        print("%s: from byte %d on the program writes %r, not %r" % (name, place, said[place:place + 60], expected[place:place + 60]))

    def ask(self, name, pieces):
        said, status = written(self.command, pieces)
        self.hold(name, said, model.program(b"".join(pieces)))
        if status:
            self.failed += 1
            print("%s: the program ended with %d" % (name, status))


def main():
    parser = argparse.ArgumentParser(description=__doc__, formatter_class=argparse.RawDescriptionHelpFormatter)
    parser.add_argument("program")
    parser.add_argument("--emulator", default="", help="the command that runs the program where it does not run by itself")
    options = parser.parse_args()
    judge, noise = Judge(options.emulator.split() + [options.program]), Noise(11)

    with open(os.path.join(HALL, "stdin"), "rb") as file:
        given = file.read()
    with open(os.path.join(HALL, "stdout"), "rb") as file:
        judge.hold("crates/hall/stdout", file.read(), model.program(given))
    judge.ask("crates/hall/stdin", [given])
    for name, data in inputs(noise):
        judge.ask(name, [data])
    for data in last_lines():
        judge.ask("the last line %r" % data, [data])
    short = b"-P 1\nP 1a\n\nP 2w\n" + b"P 1".ljust(81) + b"\n" + b"P 1".ljust(80) + b"\n-P 2ac 2n (0 0 1)\nP 31"
    for pieces in cuts(short, noise):
        judge.ask("cut into %d pieces" % len(pieces), pieces)
    print("%d passed, %d failed" % (judge.passed, judge.failed))
    return 1 if judge.failed else 0


if __name__ == "__main__":
    sys.exit(main())
