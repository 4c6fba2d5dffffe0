#!/usr/bin/env python3
"""Holds catalogues in pieces to the model of the rules.

    python3 tests/compare_catalogue.py ENTRIES CATALOGUE [--emulator COMMAND] [--all]

ENTRIES is made from tests/entries.c and CATALOGUE from tests/catalogue.c. Call by call: states of any content, pieces with and without an end of a line, of
4,095 to 4,097 bytes too, rooms of every size, held to the model in the answer, the state and the room. Then whole catalogues: recorded and damaged symbols,
lines over 80 bytes and blank ones between them, cut in many ways; the answers of every way are those of the model for the uncut text, line by line.
With --all the catalogue has some 8,000 lines and is cut in 200 ways, half of them without a last byte 10; else a part of it in 40. Prints 'N passed, M failed'.
"""

import argparse
import functools
import subprocess
import sys
import tempfile

from entries import Comparison, Noise, packed, recorded

import model

SYMBOLS = [b"-P 1", b"P 1a", b"P 2w", b"-F 4 2 3", b"P 31", b"P", b"", b" ", b"P 2aa", b"A 4", b"P 3 2x", b"-P 2ac 2n (0 0 -1)", b"H 3", b"P 1x"]
STATUSES = (0, 1, 2, 3, 4, 5, 40, 78, 79, 80, 81, 82, 83, 128, 255)


def told(taken, said):
    """The value of a call: the bytes taken, and above them what is said of a line."""
    if said is None:
        return taken
    return taken + 65536 * (1 + (256 * said[0] + said[1] if isinstance(said, tuple) else said))


def call_piece(calls, state, piece, room):
    try:
        taken, said, behind, left = model.catalogue_piece(state, piece, room)
        calls.call("catalogue_piece", state, piece, room, gives=told(taken, said), leaves=[behind, left])
    except model.Refusal as refusal:
        calls.call("catalogue_piece", state, piece, room, gives=packed(refusal.number, refusal.place), leaves=[state, room])


def call_end(calls, state, room):
    try:
        said, behind, left = model.catalogue_end(state, room)
        calls.call("catalogue_end", state, room, gives=told(0, said), leaves=[behind, left])
    except model.Refusal as refusal:
        calls.call("catalogue_end", state, room, gives=packed(refusal.number, refusal.place), leaves=[state, room])


def call_start(calls, state):
    try:
        calls.call("catalogue_start", state, gives=0, leaves=[model.catalogue_start(state)])
    except model.Refusal as refusal:
        calls.call("catalogue_start", state, gives=packed(refusal.number, refusal.place), leaves=[state])


def single_calls(calls, noise):
    """States of any content and length, pieces and rooms."""
    for length in (0, 1, 80, 81, 82, 200):
        state = noise.bytes(length)
        call_start(calls, state)
        call_end(calls, state, noise.bytes(20))
        for piece in (b"", b"\n", bytes(4096), bytes(4097)):
            call_piece(calls, state, piece, noise.bytes(20))
    for status in STATUSES:
        for text in SYMBOLS:
            # The state keeps a beginning of the symbol where its status says so many bytes, and noise behind it.
            kept = text[:status] if status <= 80 else b""
            state = bytes([len(kept) if kept else status]) + kept + noise.bytes(80 - len(kept) + noise.below(3))
            rest = text[len(kept):]
            for piece in (rest, rest + b"\n", rest + b"\nP 1\n", b"\n" + rest, noise.bytes(noise.below(100)), b"", b" " * 80, b" " * 81 + b"\n"):
                call_piece(calls, state, piece, noise.bytes((0, 9, 10, 14, 15, 244, 245, 246)[noise.below(8)]))
            call_end(calls, state, noise.bytes((0, 10, 15, 245)[noise.below(4)]))
    for size in (4095, 4096, 4097, 8000):
        for end in (None, 0, 79, 80, 81, size - 1):
            piece = bytearray(b"P 1".ljust(size))
            if end is not None:
                piece[end] = 10
            for status in (0, 80, 81, 82):
                call_piece(calls, bytes([status]) + noise.bytes(85), bytes(piece), noise.bytes(15))


def lines(noise, count):
    """So many lines of symbols, some over 80 bytes, of 80, blank, or noise between them."""
    texts = [model.text_of_hex(line[0]) for name in ("symbols.txt", "damaged.txt") for line in recorded(name)]
    step = max(1, len(texts) // count)
    for i, text in enumerate(texts[::step]):
        yield text
        if i % 40 == 7:
            yield (b"", b" ", b"P 1".ljust(80), b"P 1".ljust(81), b"x" * (81 + noise.below(9000)), noise.bytes(noise.below(200)))[noise.below(6)]


def lengths(size, places):
    """Pieces by the places where they end, none over 4,096 bytes."""
    at = 0
    for place in sorted(places) + [size]:
        while place - at > model.MOST_PIECE:
            yield model.MOST_PIECE
            at += model.MOST_PIECE
        yield place - at
        at = place


def ways(data, noise, count):
    """Ways to cut a text, as lists of lengths: every byte, 1 to 7 bytes, 4,096, before and behind each byte 10, pieces of no bytes, and at random."""
    size = len(data)
    ends = [i for i, byte in enumerate(data) if byte == 10]
    yield lengths(size, range(0, size, model.MOST_PIECE))
    yield lengths(size, ends)
    yield lengths(size, [end + 1 for end in ends])
    yield lengths(size, ends + [end + 1 for end in ends])
    yield lengths(size, ends + ends + [end + 1 for end in ends] * 2)
    yield lengths(size, range(size))
    for step in range(2, 8):
        yield lengths(size, range(0, size, step))
    for way in range(count - 12):
        places = [noise.below(size + 1) for _ in range((size // 4000, size // 80, size // 12)[way % 3])]
        yield lengths(size, places + places[::3])


def number_of(answers):
    """What tests/catalogue.c writes for answers in order."""
    number = 14695981039346656037
    for said, room in answers:
        value = packed(*said) if isinstance(said, tuple) else said
        for byte in value.to_bytes(8, "little") + (b"" if isinstance(said, tuple) else room[:5 * said + 5]):
            number = (number ^ byte) * 1099511628211 % 2 ** 64
    return "%d %016x" % (len(answers), number)


def whole_catalogues(calls, command, noise, count, most):
    answer = functools.lru_cache(None)(model.line_answer)
    for ended in (b"\n", b""):
        data = b"\n".join(lines(noise, count)) + b"\nP 1" + ended
        expected = number_of([answer(line, bytes(245)) for line in model.program_lines(data)])
        with tempfile.NamedTemporaryFile() as file:
            file.write(data)
            file.flush()
            cuts = [" ".join(map(str, way)) for way in ways(data, noise, most)]
            said = subprocess.run(command + [file.name], input="".join(way + "\n" for way in cuts), text=True, stdout=subprocess.PIPE)
        found = said.stdout.splitlines()
        calls.judge(said.returncode == 0 and len(found) == len(cuts), lambda: ("the ways of a catalogue", str(len(found)), str(len(cuts))))
        for way, each in zip(cuts, found):
            calls.judge(each == expected, lambda: ("cut into " + way[:100], each, expected))


def main():
    parser = argparse.ArgumentParser(description=__doc__, formatter_class=argparse.RawDescriptionHelpFormatter)
    parser.add_argument("entries")
    parser.add_argument("catalogue")
    parser.add_argument("--emulator", default="", help="the command that runs the programs on another machine")
    parser.add_argument("--all", action="store_true")
    options = parser.parse_args()
    emulator, noise = options.emulator.split(), Noise(46)
    calls = Comparison(emulator + [options.entries])
    single_calls(calls, noise)
    calls.flush()
    count, most = (8000, 100) if options.all else (300, 20)
    whole_catalogues(calls, emulator + [options.catalogue], noise, count, most)
    return calls.end()


if __name__ == "__main__":
    sys.exit(main())
