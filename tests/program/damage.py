"""Runs the proved program over truncated, cut and changed conversations: those of the stored cases
(crates/zkdump/cases) and the small recordings in captures/.

    damage.py [--jobs N] [--only WORD] [PROGRAM]

The program is crates/zkdump/out/zkdump if none is named. For each conversation

- prefixes: each prefix of its bytes ends as the definitions say: with the fault, if the prefix decides that; else cut
  or whole, by counting frames;
- cuts: each piece, cut in two at each place, has the same listing;
- bytes: with each byte replaced by 00, 01, 7f, 80 and ff it is refused, not before that byte, or cut, or whole; if it
  is whole, `build` makes the same bytes of its listing;
- lengths: with each length and count replaced by 7fffffff, 80000000 and fffffffe it is refused or cut, within 64 MB of
  address space.

And once: ping (a ping and its reply, cut in two in 273 ways), limit (data of 4,194,216 bytes, and a length of
4,194,305), and long (frames of more than a read, in pieces of several sizes, which end at several places). It prints
what differs, the greatest memory of a run, and one last line. The status is 0 if nothing differs.
"""

import argparse
import concurrent.futures
import os
import re
import struct
import sys

from .harness import BUILT, HEAD, Program, last_line, recording, sides, split, stored

from dev import formats

BYTES = (0x00, 0x01, 0x7F, 0x80, 0xFF)
LENGTHS = ("7fffffff", "80000000", "fffffffe")
SMALL = 1_100  # bytes of a recording of captures/ that is small
MOST_SPACE = 65_536  # kilobytes of address space where a length is replaced
LIMIT = 4_194_304
LONG_PIECES = (16_777_216, 200_000, 65_536, 40_000, 32_768, 32_767, 1_460)  # bytes of the pieces of long frames


# ---- conversations, by counting and by the tables of docs/FORMATS.md


def int_at(data, at):
    return struct.unpack_from(">i", data, at)[0]


def frames(data):
    """The places of the whole frames of a side, each with its payload, and how many bytes are left."""
    found, at = [], 0
    while len(data) - at >= 4 and len(data) - at - 4 >= int_at(data, at) >= 0:
        size = int_at(data, at)
        found.append((at, data[at + 4:at + 4 + size]))
        at += 4 + size
    return found, len(data) - at


def ending(pieces):
    """The ending line of a conversation that isn't refused."""
    counts = []
    for letter, data in zip("CS", sides(pieces)):
        whole, rest = frames(data)
        if rest:
            return f". cut side={letter} frame={len(whole)} got={rest}".encode()
        counts.append(whole)
    events = sum(payload[:4] == b"\xff\xff\xff\xff" for _, payload in counts[1][1:])
    return f". whole unanswered={len(counts[0]) - len(counts[1]) + events}".encode()


def fault_at(pieces, line):
    """How many bytes have come with the one that decides the refusal; None if the line is not a refusal, and 0 if no
    such byte has come."""
    found = re.match(rb"\. refused side=(.) frame=\d+ offset=(\d+) ", line)
    if not found:
        return None
    left, before = int(found[2]), 0
    for side, data in pieces:
        if side == found[1] and left <= len(data):
            return before + left
        left -= len(data) if side == found[1] else 0
        before += len(data)
    return 0


def prefix(pieces, size):
    kept = []
    for side, data in pieces:
        kept.append((side, data[:size]))
        size -= len(kept[-1][1])
    return kept


# Fields: int, long, boolean, text or data, list of texts, list of access rights, Stat.
SIZES = {"i": 4, "l": 8, "o": 1, "S": 68}
LETTERS = {"int": "i", "long": "l", "bool": "o", "text": "t", "blob": "t", "texts": "L", "acl": "A", "stat": "S"}
MULTI = 14


def letters(of):
    """A letter for each field."""
    return "".join(LETTERS[field.kind] for field in of)


OPERATIONS, OF_MULTI = [row for row in formats.table("Op") if row.number != MULTI], list(formats.table("PartOp"))
ASKS = {row.number: letters(row.request) for row in OPERATIONS}
REPLIES = {row.number: letters(row.reply) for row in OPERATIONS}
PARTS = {row.number: letters(row.request) for row in OF_MULTI}
RESULTS = {**{row.number: letters(row.reply) for row in OF_MULTI}, -1: "i"}


def walk(payload, at, fields, found):
    """Goes over fields, and keeps the places of lengths and counts; returns the place after them."""
    for field in fields:
        if field in SIZES:
            at += SIZES[field]
            continue
        found.append(at)
        count, at = max(0, int_at(payload, at)), at + 4
        if field == "t":
            at += count
        for _ in range(count if field in "LA" else 0):
            at = walk(payload, at, "itt" if field == "A" else "t", found)
    return at


def walk_multi(payload, at, rows, found):
    while not payload[at + 4]:
        at = walk(payload, at + 9, rows[int_at(payload, at)], found)


def lane(xid):
    return xid if xid in (-2, -4, -8) else 0


def lengths(client, server):
    """The places of all lengths and counts in a side's bytes: those of whole frames, each reply's by its request."""
    asked = {}
    for side, data in ((b"C", client), (b"S", server)):
        for number, (start, payload) in enumerate(frames(data)[0]):
            found, xid = [], int_at(payload, 0)
            if number == 0:
                walk(payload, 0, "ililt" if side == b"C" else "iilt", found)
            elif side == b"C":
                kind = int_at(payload, 4)
                asked.setdefault(lane(xid), []).append(kind)
                if kind == MULTI:
                    walk_multi(payload, 8, PARTS, found)
                else:
                    walk(payload, 8, ASKS[kind], found)
            elif xid == -1:
                walk(payload, 16, "iit", found)
            else:
                kind = asked[lane(xid)].pop(0)
                if kind == MULTI and not int_at(payload, 12):
                    walk_multi(payload, 16, RESULTS, found)
                elif not int_at(payload, 12):
                    walk(payload, 16, REPLIES[kind], found)
            yield side, start
            for place in found:
                yield side, start + 4 + place


def replaced(pieces, side, offset, content):
    """The pieces with other bytes of a side from an offset on, and how many bytes come before the first of them."""
    changed, before, at = [], None, 0
    total = 0
    for who, data in pieces:
        if who == side:
            low, high = max(offset, at), min(offset + len(content), at + len(data))
            if low < high:
                if before is None:
                    before = total + low - at
                data = data[:low - at] + content[low - offset:high - offset] + data[high - at:]
            at += len(data)
        total += len(data)
        changed.append((who, data))
    return changed, before


# ---- the tests


class Tests:
    """One conversation, and what was found of it."""

    def __init__(self, program, name, words, pieces, line):
        self.program = program
        self.name = name
        self.words = words[1:]
        self.pieces = pieces
        self.line = line
        self.fault = fault_at(pieces, line)
        self.passed = 0
        self.failures = []

    def hold(self, what, same, *facts):
        if same:
            self.passed += 1
        else:
            self.failures.append(f"{self.name}: {what}: {' '.join(map(str, facts))}")

    def run(self, word, data, space=None):
        if space is None:
            return self.program.run([word, *self.words], data)
        script = f'ulimit -v {space}; exec "$0" "$@"'
        path, self.program.path = self.program.path, "/bin/sh"
        try:
            return self.program.run(["-c", script, path, word, *self.words], data)
        finally:
            self.program.path = path

    def ends(self, what, pieces, line):
        """The ending line of the pieces is this one."""
        found = self.run("check", recording(pieces))
        right = found == (line + b"\n", b"", 0 if line.startswith(b". whole") else 1)
        self.hold(what, right, "expected", line, "found", found)

    def judge(self, what, pieces, before, space=None):
        """A changed conversation ends as it may, where the change is after `before` bytes; returns the last line."""
        output, errors, status = self.run("show", recording(pieces), space)
        line = last_line(output)
        if self.fault is not None and self.fault <= before:
            right = (status, line) == (1, self.line)
        elif line.startswith(b". refused "):
            right = status == 1 and fault_at(pieces, line) > before
        else:
            right = line == ending(pieces) and status == (0 if line.startswith(b". whole ") else 1)
        if right and status == 0:
            built = self.run("build", output)
            right = built[1:] == (b"", 0) and sides(split(built[0])[0]) == sides(pieces)
        self.hold(what, right and not errors, status, line, errors)
        return line

    def try_prefixes(self):
        for size in range(sum(len(data) for _, data in self.pieces) + 1):
            part = prefix(self.pieces, size)
            decided = self.fault is not None and self.fault <= size
            self.ends(f"the first {size} bytes", part, self.line if decided else ending(part))

    def try_cuts(self):
        listing = self.run("show", recording(self.pieces))
        for number, (side, data) in enumerate(self.pieces):
            for at in range(1, len(data)):
                cut = [*self.pieces[:number], (side, data[:at]), (side, data[at:]), *self.pieces[number + 1:]]
                found = self.run("show", recording(cut))
                self.hold(f"piece {number} cut at {at}", found == listing, "expected", listing, "found", found)

    def try_bytes(self):
        for side, data in zip((b"C", b"S"), sides(self.pieces)):
            for offset in range(len(data)):
                for value in BYTES:
                    if value != data[offset]:
                        self.judge(f"byte {offset} of {side.decode()} is {value:02x}",
                                   *replaced(self.pieces, side, offset, bytes([value])))

    def try_lengths(self):
        good = self.pieces if self.fault is None else prefix(self.pieces, self.fault - 1)
        for side, offset in lengths(*sides(good)):
            for value in LENGTHS:
                what = f"length at {offset} of {side.decode()} is {value}"
                changed = replaced(self.pieces, side, offset, bytes.fromhex(value))
                line = self.judge(what, *changed, MOST_SPACE)
                self.hold(what, line.startswith((b". refused ", b". cut ")), line)

    def try_ping(self):
        """After the connect messages a ping and its reply, each cut in two, the first parts first."""
        ask = bytes.fromhex("00000008fffffffe0000000b")
        reply = bytes.fromhex("00000010fffffffe000000000000000500000000")
        early = b". refused side=S frame=1 offset=61 place=0 reason=Unasked"
        for asked in range(len(ask) + 1):
            for answered in range(len(reply) + 1):
                fed = [(b"C", ask[:asked]), (b"S", reply[:answered]), (b"C", ask[asked:]), (b"S", reply[answered:])]
                is_early = asked < len(ask) and answered == len(reply)
                self.ends(f"{asked} bytes of the ping and {answered} of its reply", [*self.pieces, *fed],
                          early if is_early else b". whole unanswered=0")

    def try_limit(self):
        """A getData reply of just the usual limit, and the length of one that is a byte longer."""
        ask = bytes.fromhex("0000000f0000000100000004000000022f6100")
        reply = bytes.fromhex("00000001000000000000000500000000") + struct.pack(">i", 4_194_216) + bytes(4_194_216 + 68)
        self.hold("the reply's length", len(reply) == LIMIT)
        pieces = [*self.pieces, (b"C", ask), (b"S", struct.pack(">i", LIMIT) + reply)]
        self.ends("a reply of the usual limit", pieces, b". whole unanswered=0")
        output, _, status = self.run("show", recording(pieces))
        data = b"00" * 4_194_216
        expected = b"S 1 getData zxid=5 blob=#%b stat=(0,0,0,0,0,0,0,0,0,0,0)\n. whole unanswered=0\n" % data
        self.hold("the line of a reply of the usual limit", status == 0 and output.endswith(expected))
        self.ends("a length above the usual limit", [*pieces[:-1], (b"S", struct.pack(">i", LIMIT + 1))],
                  b". refused side=S frame=1 offset=45 place=0 reason=LengthRange")

    def try_long(self):
        """A request and a reply that are longer than what is read at once, each with a piece of the other side in its
        midst. They end whole, and near the end of each piece."""
        def framed(*parts):
            return struct.pack(">i", sum(map(len, parts))) + b"".join(parts)

        def blob(data):
            return struct.pack(">i", len(data)) + data

        asked = framed(struct.pack(">ii", 1, 5), blob(b"/a"), blob(bytes(150_000)), struct.pack(">i", -1))
        done = framed(struct.pack(">iqi", 1, 5, 0), bytes(SIZES["S"]))
        wanted = framed(struct.pack(">ii", 2, 4), blob(b"/a"), b"\0")
        given = framed(struct.pack(">iqi", 2, 5, 0), blob(bytes(200_000)), bytes(SIZES["S"]))
        event = framed(struct.pack(">iqi", -1, -1, 0), struct.pack(">ii", 3, 3), blob(b"/a"))
        ping = framed(struct.pack(">ii", -2, 11))
        for size in LONG_PIECES:
            def cut(side, data):
                return [(side, data[at:at + size]) for at in range(0, len(data), size)]

            fed = [*self.pieces, *cut(b"C", asked[:90_000]), (b"S", event[:9]), *cut(b"C", asked[90_000:]),
                   (b"S", event[9:] + done), (b"C", wanted), *cut(b"S", given[:130_000]), (b"C", ping),
                   *cut(b"S", given[130_000:])]
            ends, total = {0, 3, 4}, 0
            for _, data in fed:
                total += len(data)
                ends |= {total - 1, total, total + 1}
            for end in sorted(ends) if size > 1_460 else (total - 1, total):
                part = prefix(fed, end)
                self.ends(f"{end} bytes of long frames in pieces of {size}", part, ending(part))


def conversations():
    """The worked examples and the small recordings whose recording isn't damaged, each once."""
    seen = set()
    for name, words, data, line in stored():
        pieces, rest = split(data)
        if rest or len(data) <= len(HEAD) or len(data) > SMALL or (tuple(words), tuple(pieces)) in seen:
            continue
        seen.add((tuple(words), tuple(pieces)))
        yield name, words, pieces, line


def test(task):
    """One kind of test over one conversation."""
    path, kind, conversation = task
    tests = Tests(Program(path), *conversation)
    getattr(tests, f"try_{kind}")()
    return tests.passed, tests.failures, kind, tests.program.peak


def main():
    parser = argparse.ArgumentParser(description="Damaged input, over the proved program.")
    parser.add_argument("program", nargs="?", default=str(BUILT))
    parser.add_argument("--jobs", type=int, default=os.cpu_count() or 1)
    parser.add_argument("--only", choices=("prefixes", "cuts", "bytes", "lengths", "ping", "limit", "long"))
    options = parser.parse_args()
    if not os.access(options.program, os.X_OK):
        parser.error(f"{options.program} is not a program: build it with ./zkdump")
    every = list(conversations())
    base = next(one for one in every if one[0] == "connect_answered")
    tasks = [(options.program, kind, one) for kind in ("bytes", "prefixes", "cuts", "lengths") for one in every]
    tasks += [(options.program, kind, base) for kind in ("ping", "limit", "long")]
    passed, failures, peak = 0, [], 0
    with concurrent.futures.ProcessPoolExecutor(options.jobs) as pool:
        chosen = [task for task in tasks if options.only in (None, task[1])]
        for good, bad, kind, most in pool.map(test, chosen):
            passed, failures = passed + good, failures + bad
            peak = max(peak, most if kind == "lengths" else 0)
    print("\n".join(failures[:50]), end="\n" if failures else "")
    print(f"the greatest memory of a run with a changed length, and of the script that started it: {peak} kB")
    print(f"{passed} passed, {len(failures)} failed")
    return 1 if failures else 0


if __name__ == "__main__":
    sys.exit(main())
