"""Runs the program over frames of the operations that only the newest profile has, changed at random, and compares all
that it writes with a second reader's listing (reader.py).

    python3 -m tests.program.newer [--seed N] [--first N] [--program PATH] [COUNT]

Each run is a short conversation: the connect messages, a request of a newer operation and its reply, as they come or
one of them changed, and sometimes a second pair. A change sets a byte, a number or a length, cuts bytes out, doubles or
appends some, or gives the frame another header. A conversation is fixed by the seed and its number, so --first N and
COUNT 1 make it again; without COUNT there are 20,000. Of each

- `show --profile 3.7` writes just the lines that the reader has, and `check` the last one;
- under 3.5 and 3.4 the request is refused as the reader says;
- where it is whole, `build` of the listing makes each side's bytes again, and `migrate` a recording that shows it.

Every fourth conversation is run under the older profiles, built and migrated, too. At first the recordings of
captures/ are read by the reader, each under each profile of which a listing is stored. It prints what differs, how many
conversations end in which way, and one last line. The status is 0 if nothing differs.
"""

import argparse
import collections
import random
import re
import struct
import sys

from . import reader
from .harness import BUILT, TOP, Program, recording, sides, split
from ..stored_listings import listings_of

PROFILES = {34: "3.4", 35: "3.5", 37: "3.7"}
NUMBERS = (0, 1, -1, -2, 2, 3, 4, 5, 7, 0x7F, 0xFF, 0x100, 0x7FFFFFFF, -0x80000000)
TEXTS = (None, "", "/", "/a", "/zookeeper/config", "/d\u00e9j\u00e0", "server.2=h:1:2;3", "\u65e5\u672c", "\x00\x7f\"\\")
BLOBS = (None, b"", b"v", bytes(range(16)))
CONNECT = b"\0" * 12 + struct.pack(">iqi", 30000, 0, 16) + b"\0" * 17
CONNECTED = struct.pack(">iiqi", 0, 30000, 1, 16) + bytes(range(16)) + b"\0"


# ---- payloads


def number(chance):
    return chance.choice(NUMBERS) if chance.random() < 0.7 else chance.randrange(-2**31, 2**31)


def item(chance, kind):
    """The bytes of some value of a kind of reader.py."""
    if kind == "int":
        return struct.pack(">i", number(chance))
    if kind == "long":
        return struct.pack(">q", chance.choice((0, 1, -1, 2**63 - 1, -2**63, number(chance))))
    if kind == "bit":
        return bytes([chance.randrange(2)])
    if kind in ("text", "blob"):
        found = chance.choice(TEXTS if kind == "text" else BLOBS)
        found = found.encode() if isinstance(found, str) else found
        return struct.pack(">i", -1) if found is None else struct.pack(">i", len(found)) + found
    if kind == "stat":
        return b"".join(item(chance, each) for each in reader.STAT_KINDS)
    count = chance.choice((-1, 0, 1, 1, 2, 5))
    element = ("text",) if kind == "texts" else ("int", "text", "text")
    return struct.pack(">i", count) + b"".join(item(chance, each) for _ in range(max(count, 0)) for each in element)


def body(chance, fields):
    return b"".join(item(chance, kind) for _, kind in fields)


def pair(chance, xid):
    """A request of a newer operation, and a reply to it."""
    operation = chance.choice(reader.NEWER)
    _, _, asked, answered = reader.OPERATIONS[operation]
    err = 0 if chance.random() < 0.8 else number(chance)
    return [("C", struct.pack(">ii", xid, operation) + body(chance, asked)),
            ("S", struct.pack(">iqi", xid, chance.choice((5, -1, 2**40)), err) +
             (b"" if err else body(chance, answered)))]


# ---- changes


def set_byte(chance, data):
    at = chance.randrange(len(data))
    return data[:at] + bytes([chance.choice((0, 1, 2, 0x7F, 0x80, 0xC3, 0xFF, chance.randrange(256)))]) + data[at + 1:]


def set_number(chance, data):
    at = chance.randrange(max(1, len(data) - 3))
    return data[:at] + struct.pack(">i", number(chance)) + data[at + 4:]


def cut(chance, data):
    at = chance.randrange(len(data))
    return data[:at] if chance.random() < 0.5 else data[:at] + data[at + chance.randint(1, 8):]


def more(chance, data):
    at = chance.choice((len(data), chance.randrange(len(data) + 1)))
    added = chance.choice((b"\0", b"\xff" * 4, data[at:at + 8], bytes([chance.randrange(256)])))
    return data[:at] + added + data[at:]


def header(chance, data):
    """Another xid, or another operation or error."""
    at = chance.choice((0, 4, 12))
    value = chance.choice((-1, -2, -4, -8, 1, 2, 13, 20, 22, 102, 105, 107, *reader.NEWER, *NUMBERS))
    return data[:at] + struct.pack(">i", value) + data[at + 4:]


CHANGES = (set_byte, set_byte, set_number, cut, cut, more, header)


def conversation(seed, count):
    """The payloads of a conversation, each with its side."""
    chance = random.Random(f"{seed} {count}")
    messages = [("C", CONNECT), ("S", CONNECTED)]
    for xid in range(1, chance.choice((2, 2, 3))):
        messages += pair(chance, xid)
    for _ in range(chance.choice((0, 1, 1, 1, 1, 2))):
        at = chance.randrange(2, len(messages))
        side, data = messages[at]
        if data:
            messages[at] = side, chance.choice(CHANGES)(chance, data)
    return messages


# ---- runs


class Judge:
    """Runs the program, and keeps what differs from what the reader has."""

    def __init__(self, program):
        self.program, self.passed, self.wrong = program, 0, []

    def same(self, name, found, wanted):
        if found == wanted:
            self.passed += 1
        else:
            self.wrong.append(f"{name}:\n    {found!r}\n    and wanted\n    {wanted!r}"[:2000])

    def run(self, name, words, data, output):
        """Runs the program, which is to write this alone."""
        status = 0 if words[0] in ("build", "migrate") or output.splitlines()[-1].startswith(b". whole") else 1
        self.same(f"{name} {' '.join(words)}", self.program.run(words, data), (output, b"", status))

    def listed(self, name, pieces, data, profile, words=("show", "check")):
        lines = reader.listing(pieces, profile)
        listing = "\n".join([*lines, ""]).encode()
        for word in words:
            self.run(name, [word, "--profile", PROFILES[profile]], data,
                     listing if word == "show" else f"{lines[-1]}\n".encode())
        return lines, listing

    def again(self, name, data, lines, listing):
        """What is built of a whole listing has the bytes of each side, and what is migrated shows it."""
        words = ["--profile", "3.7"]
        if lines[-1].startswith(". whole"):
            built, _, status = self.program.run(["build", *words], listing)
            self.same(f"{name} build", (sides(split(built)[0]), status), (sides(split(data)[0]), 0))
        migrated, _, status = self.program.run(["migrate", *words], data)
        self.same(f"{name} migrate", (migrated[:4], migrated[16:20], status), (b"ZKR2", struct.pack(">i", 37), 0))
        self.run(f"{name} migrated", ["show"], migrated, listing)


def stored(judge):
    """The recordings of captures/ without a multi, by the reader."""
    for path in sorted((TOP / "captures").glob("*.zkr")):
        pieces = list(reader.pieces_of(path.read_bytes()))
        for release, listing in listings_of(path):
            lines = listing.read_text().splitlines()
            if not any(re.match(r"C \S+ multi ", line) for line in lines):
                number_of = int(release.replace(".", ""))
                judge.same(f"{listing.name} by the reader", reader.listing(pieces, number_of), lines)


def main():
    parser = argparse.ArgumentParser(description="Runs the program over changed frames of the newest operations.")
    parser.add_argument("count", nargs="?", type=int, default=20_000)
    parser.add_argument("--seed", type=int, default=37)
    parser.add_argument("--first", type=int, default=0)
    parser.add_argument("--program", default=str(BUILT))
    options = parser.parse_args()
    judge, ends = Judge(Program(options.program, 10)), collections.Counter()
    stored(judge)
    for count in range(options.first, options.first + options.count):
        pieces = [(side, len(data).to_bytes(4, "big") + data) for side, data in conversation(options.seed, count)]
        data = recording((side.encode(), piece) for side, piece in pieces)
        lines, listing = judge.listed(count, pieces, data, 37)
        ends[re.sub(r" unanswered=.*|^\. refused side=. .*reason=", "", lines[-1]).partition(" expected")[0]] += 1
        if count % 4 == 0:
            for profile in (34, 35):
                judge.listed(count, pieces, data, profile, ("check",))
            judge.again(count, data, lines, listing)
    print("\n".join([*judge.wrong[:20], ", ".join(f"{many} {end}" for end, many in ends.most_common())]))
    print(f"{judge.passed} passed, {len(judge.wrong)} failed")
    return 1 if judge.wrong else 0


if __name__ == "__main__":
    sys.exit(main())
