"""Runs the proved program over recordings that were changed at random.

    fuzz.py [--seed N] [--first N] [--program PATH] [--keep FOLDER] COUNT

The recordings are those of captures/ and of the worked examples that are of the first format. Each mutant has one to
four changes: bits and bytes flipped, bytes cut out or doubled, another recording's end or middle put in, pieces
swapped, dropped or doubled, and lengths changed. A mutant is fixed by the seed and its number, so --first N and COUNT 1
make the mutant N again. Of each

- the status is 0 or 1, standard error is empty, and the run ends within ten seconds;
- the last line of `show` is what `check` prints for the same bytes cut into other pieces, except for the offset of a
  damage, which moves with the heads of pieces before it;
- the status is 0 if that line is whole, and else 1;
- if it is undamaged, `migrate` writes its pieces in the second format, and `check` prints the same line for those;
- if it is whole, `build` of the listing makes each side's bytes again, one message a piece, and `show` of that prints
  the listing.

It prints the mutants for which one of these fails, counts of how the mutants end, and one last line. --keep writes the
former to that folder. The status is 0 if there are none.
"""

import argparse
import collections
import os
import pathlib
import random
import re
import sys
import time

from .harness import BUILT, HEAD, Program, last_line, piece, recording, sides, split, stored

SECONDS = 10
NUMBERS = (0, 1, 2, 4, 16, 0x7F, 0xFF, 0x100, 0x400000, 0x400001, 0x1000004, 0x1000005, 0x7FFFFFFF, 0x80000000,
           0xFFFFFFFE, 0xFFFFFFFF)


# ---- changes of a recording's bytes


def flip(chance, data, _):
    at = chance.randrange(len(data))
    value = chance.choice((data[at] ^ 1 << chance.randrange(8), 0, 1, 0x7F, 0x80, 0xFF, chance.randrange(256)))
    return data[:at] + bytes([value]) + data[at + 1:]


def part(chance, data, most):
    """Two places in the bytes, not far from each other."""
    low = chance.randrange(len(data))
    return low, min(len(data), low + chance.randint(1, most))


def cut(chance, data, _):
    if chance.random() < 0.5:
        return data[:chance.randint(1, len(data))]
    low, high = part(chance, data, 64)
    return data[:low] + data[high:]


def double(chance, data, _):
    low, high = part(chance, data, 64)
    return data[:high] + data[low:]


def number(chance, data, _):
    """Changes four bytes that are likely a length."""
    if len(data) < 13:
        return data
    low = chance.randrange(4, len(data) - 8)
    zeros = data.find(b"\0\0", low, -6)
    at = low if zeros < 0 else zeros
    return data[:at] + chance.choice(NUMBERS).to_bytes(4, "big") + data[at + 4:]


def splice(chance, data, others):
    other = chance.choice(others)
    return data[:chance.randint(4, max(4, len(data)))] + other[chance.randint(4, max(4, len(other))):]


# ---- changes of a recording's pieces, which keep the bytes after the last whole piece


def of_pieces(change):
    def changed(chance, data, others):
        pieces, rest = split(data)
        return recording(change(chance, pieces, others)) + rest if len(pieces) > 1 else data
    return changed


@of_pieces
def swap(chance, pieces, _):
    at = chance.randrange(len(pieces) - 1)
    return [*pieces[:at], pieces[at + 1], pieces[at], *pieces[at + 2:]]


@of_pieces
def drop(chance, pieces, _):
    at = chance.randrange(len(pieces))
    return pieces[:at] + pieces[at + 1:]


@of_pieces
def again(chance, pieces, _):
    at = chance.randrange(len(pieces))
    return pieces[:at + 1] + pieces[chance.randrange(at + 1):]


@of_pieces
def join(chance, pieces, others):
    other = split(chance.choice(others))[0]
    at = chance.randrange(len(other) + 1)
    return pieces[:chance.randint(1, len(pieces))] + other[at:at + chance.randint(1, 4)]


@of_pieces
def turn(chance, pieces, _):
    """Marks a piece as the other side's."""
    at = chance.randrange(len(pieces))
    side, data = pieces[at]
    return [*pieces[:at], (b"S" if side == b"C" else b"C", data), *pieces[at + 1:]]


@of_pieces
def until(chance, pieces, _):
    """Whole pieces from the beginning on, which most often are a good conversation."""
    return pieces[:chance.randint(1, len(pieces))]


CHANGES = (flip, flip, cut, double, number, number, splice, swap, drop, again, join, turn, until)


def mutant(seed, number_of_it, recordings):
    """The mutant of this number, and its options."""
    chance = random.Random(f"{seed} {number_of_it}")
    data = chance.choice(recordings)
    if len(data) > 20_000 and chance.random() < 0.9:
        pieces = split(data)[0]
        data = recording(pieces[:chance.randint(1, min(len(pieces), 40))])
    for _ in range(chance.choice((1, 1, 1, 2, 3, 4))):
        if data:
            data = chance.choice(CHANGES)(chance, data, recordings)
    options = chance.choice(([], [], [], ["--limit", "64"], ["--waiting", "1"], ["--waiting", "4"]))
    return chance, data, options


def cut_again(chance, data):
    """The same bytes in other pieces, and by how much the bytes after them have moved."""
    pieces, rest = split(data)
    joined, cut_now = [], []
    for side, content in pieces:
        if joined and joined[-1][0] == side:
            joined[-1][1].append(content)
        else:
            joined.append((side, [content]))
    longest = chance.choice((1, 3, 64, 5_000) if len(data) < 1_000 else (64, 500, 5_000))
    for side, contents in joined:
        content, at = b"".join(contents), 0
        while at < len(content):
            size = 1 + int(longest * chance.random())
            cut_now.append(piece(side, content[at:at + size]))
            at += size
    if not pieces:
        return data, 0
    again_cut = HEAD + b"".join(cut_now) + rest
    return again_cut, len(again_cut) - len(data)


def second(pieces, options):
    """These pieces in the second format, which has the options in its head; each with the time 0."""
    numbers = {"--limit": 4_194_304, "--waiting": 65_536, **dict(zip(options[::2], map(int, options[1::2])))}
    head = (numbers["--limit"], numbers["--limit"], numbers["--waiting"], 34)
    return b"ZKR2" + b"".join(number.to_bytes(4, "big") for number in head) + b"".join(
        side + bytes(8) + len(content).to_bytes(4, "big") + content for side, content in pieces)


def moved(line, growth):
    """The line of a damage at an offset that has moved."""
    found = re.fullmatch(rb"\. recording offset=(\d+) (.*)", line)
    return b". recording offset=%d %s" % (int(found[1]) + growth, found[2]) if found else line


def trouble(program, chance, data, options):
    """What the program does wrong with a mutant, or None; and its last line."""
    listing, errors, status = program.run(["show", *options], data)
    line = last_line(listing)
    if status not in (0, 1) or errors:
        return f"show: status {status}, {errors!r}", line
    if status != (0 if line.startswith(b". whole ") else 1):
        return f"show: status {status} with {line!r}", line
    other, growth = cut_again(chance, data)
    found = program.run(["check", *options], other)
    expected = (moved(line, growth) + b"\n", b"", status)
    if found != expected:
        return f"check of other pieces: {found}, expected {expected}", line
    pieces, rest = split(data)
    if data.startswith(HEAD) and not rest:
        migrated = second(pieces, options)
        if program.run(["migrate", *options], data) != (migrated, b"", 0):
            return "migrate gives other bytes", line
        found = program.run(["check"], migrated)
        if found != (line + b"\n", b"", status):
            return f"check of the second format: {found}, expected {line}", line
    if status:
        return None, line
    built, errors, status = program.run(["build", *options], listing)
    pieces, rest = split(built)
    if (errors, status, rest) != (b"", 0, b"") or sides(pieces) != sides(split(data)[0]):
        return f"build: status {status}, {errors!r}, or other bytes", line
    if len(pieces) != listing.count(b"\n") - 1:
        return f"build: {len(pieces)} pieces", line
    if program.run(["show", *options], built) != (listing, b"", 0):
        return "show of what was built is another listing", line
    return None, line


def kind_of(line):
    found = re.match(rb"\. (whole|cut|refused .*reason=(\w+)|recording .*reason=(\w+))", line)
    return b" ".join(filter(None, (found[1].split()[0], found[2] or found[3]))).decode() if found else "no line"


def main():
    parser = argparse.ArgumentParser(description="Recordings changed at random, over the proved program.")
    parser.add_argument("count", type=int)
    parser.add_argument("--seed", default="1")
    parser.add_argument("--first", type=int, default=0)
    parser.add_argument("--program", default=str(BUILT))
    parser.add_argument("--keep", type=pathlib.Path)
    options = parser.parse_args()
    if not os.access(options.program, os.X_OK):
        parser.error(f"{options.program} is not a program: build it with ./zkdump")
    recordings = [data for _, _, data, _ in stored() if data.startswith(HEAD)]
    program, kinds, failed = Program(options.program, SECONDS), collections.Counter(), 0
    begin = time.monotonic()
    for each in range(options.first, options.first + options.count):
        chance, data, words = mutant(options.seed, each, recordings)
        fault, line = trouble(program, chance, data, words)
        kinds[kind_of(line)] += 1
        if not fault:
            continue
        failed += 1
        print(f"seed {options.seed}, mutant {each}, {words}: {fault[:1000]}")
        if options.keep:
            options.keep.mkdir(parents=True, exist_ok=True)
            (options.keep / f"{options.seed}-{each}.zkr").write_bytes(data)
    print(f"{program.runs} runs in {time.monotonic() - begin:.0f} s; "
          + ", ".join(f"{kind}: {count}" for kind, count in kinds.most_common()))
    print(f"{options.count - failed} passed, {failed} failed")
    return 1 if failed else 0


if __name__ == "__main__":
    sys.exit(main())
