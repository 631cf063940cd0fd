"""Writes src/tests/earliest/asked.rt and answered.rt: bodies of every layout of a side, and what `earliest` has to answer
for each.

    python3 -m crates.talk_tests.make_bodies

The answers are made by the definition alone: the longest front of a body that begins some spelling of
the same number of bytes. Whether a front does is found by trying: it is written as a pattern, in which each later
byte may be any, and `ends` gives the places where an item that fits the pattern may end.
"""

import functools
import pathlib
import random

from dev import formats


def items(of):
    """The items of a layout by docs/FORMATS.md: the kind of each, of a list with those of an element."""
    return tuple(kind if isinstance(kind, str) else ("list", items(kind)) for _, kind in of)


RECORDS = {name: of for name, (_, of) in formats.records().items()}
OPERATIONS = list(formats.table("Op"))
PARTS = [(row.number, items(formats.items(row.request))) for row in formats.table("PartOp")]
# By the file of a side; the answer to a multi has a layout for each list of its parts.
LAYOUTS = {
    "asked": [
        ("Connect", RECORDS["ConnectRequest"]), ("ConnectRo", [*RECORDS["ConnectRequest"], formats.READ_ONLY]),
        *((f"Asked(Op::{row.variant})", row.request) for row in OPERATIONS)],
    "answered": [
        ("Connected", RECORDS["ConnectResponse"]), ("ConnectedRo", [*RECORDS["ConnectResponse"], formats.READ_ONLY]),
        ("Event", RECORDS["WatcherEvent"]),
        *((f"Answered(Op::{row.variant})", row.reply) for row in OPERATIONS if row.name != "multi")]}
SIDES = {"asked": "client", "answered": "server"}
FOLDER = pathlib.Path(__file__).parent / "src/tests/earliest"


# ---- the definition


def numeral(number):
    return (number % 2**32).to_bytes(4, "big")


def mark(number, done):
    """A header within a multi."""
    return numeral(number) + bytes([done]) + numeral(-1)


END = mark(-1, 1)


def is_text(content):
    try:
        content.decode("utf-8")
        return True
    except UnicodeDecodeError:
        return False


def may_be_text(content):
    """Whether some text fits the pattern: its known bytes are a front, the others are free."""
    known = bytes(byte for byte in content if byte is not None)
    free = len(content) - len(known)
    if is_text(known):
        return True
    # The last character is the only one that can be broken, and at most three more bytes end it.
    return any(is_text(known + rest) for rest in TAILS if len(rest) <= free)


TAILS = [bytes(tail) for a in (0x80, 0x90, 0xA0) for tail in ([a], [a, 0x80], [a, 0x80, 0x80])]


def stands(pattern, place, wanted):
    there = pattern[place:place + len(wanted)]
    return len(there) == len(wanted) and all(p in (None, w) for p, w in zip(there, wanted))


@functools.lru_cache(maxsize=100_000)
def ends(item, pattern, place):
    """Every place at which an item that begins at `place` and fits the pattern may end."""
    left = len(pattern) - place
    if item == "parts":
        return parts_end(pattern, place)
    if item == "int":
        return {place + 4} if left >= 4 else set()
    if item == "long":
        return {place + 8} if left >= 8 else set()
    if item == "bool":
        return {place + 1} if left >= 1 and pattern[place] in (None, 0, 1) else set()
    found = {place + 4} if stands(pattern, place, numeral(-1)) else set()
    if item in ("text", "blob"):
        for size in range(left - 3):
            end = place + 4 + size
            if stands(pattern, place, numeral(size)) and (item == "blob" or may_be_text(pattern[place + 4:end])):
                found.add(end)
        return found
    count, so_far = 0, {place + 4} if left >= 4 else set()
    while so_far:
        if stands(pattern, place, numeral(count)):
            found |= so_far
        count, so_far = count + 1, all_ends(item[1], pattern, so_far)
    return found


def all_ends(items, pattern, places):
    for item in items:
        places = {end for place in places for end in ends(item, pattern, place)}
    return places


def parts_end(pattern, place):
    """The ends of a multi: parts, each after its header, and the end marker."""
    found, so_far = set(), {place}
    while so_far:
        found |= {at + 9 for at in so_far if stands(pattern, at, END)}
        so_far = {
            end
            for at in so_far
            for number, record in PARTS
            if stands(pattern, at, mark(number, 0))
            for end in all_ends(record, pattern, {at + 9})
        }
    return found


def begins(items, body, known):
    """Whether the body's first `known` bytes begin a spelling of the body's length."""
    pattern = tuple(body[:known]) + (None,) * (len(body) - known)
    return len(body) in all_ends(items, pattern, {0})


def earliest(items, body):
    if not begins(items, body, 0):
        return None
    # What begins with a front begins with each shorter one, so the longest can be halved down to.
    low, high = 0, len(body)
    while low < high:
        known = (low + high + 1) // 2
        if begins(items, body, known):
            low = known
        else:
            high = known - 1
    return low


# ---- bodies


def spelling(item, chance):
    if item == "int":
        return numeral(chance.choice([0, 1, -1, 31]))
    if item == "long":
        return bytes(7) + bytes([chance.randrange(10)])
    if item == "bool":
        return bytes([chance.randrange(2)])
    if item == "parts":
        parts = (chance.choice(PARTS) for _ in range(chance.randrange(3)))
        return b"".join(mark(n, 0) + spellings(record, chance) for n, record in parts) + END
    if chance.random() < 0.2:
        return numeral(-1)
    if item in ("text", "blob"):
        content = chance.choice(["", "/a", "/é", "€", "/𝄞"]).encode()
        return numeral(len(content)) + content
    count = chance.randrange(3)
    return numeral(count) + b"".join(spellings(item[1], chance) for _ in range(count))


def spellings(items, chance):
    return b"".join(spelling(item, chance) for item in items)


def damaged(body, chance):
    body = bytearray(body)
    for _ in range(chance.randrange(3)):
        at = chance.randrange(len(body) + 1)
        how = chance.randrange(3)
        if how == 0:
            body[at:at + 1] = bytes([chance.choice([0, 1, 2, 3, 5, 8, 13, 0x7F, 0x80, 0xC3, 0xED, 0xFF])])
        elif how == 1:
            body[at:at] = bytes([chance.choice([0, 1, 0x61, 0xE2])])
        else:
            del body[at:at + chance.randrange(1, 4)]
    return bytes(body)


def rows(items, wanted, chance):
    """Bodies with as many different answers as may be."""
    by_answer = {}
    for _ in range(20 * wanted):
        body = damaged(spellings(items, chance), chance)
        answer = earliest(items, body)
        kind = "whole" if answer == len(body) else answer
        if kind not in by_answer or len(body) < len(by_answer[kind][0]):
            by_answer[kind] = (body, answer)
    first = [by_answer.pop(kind) for kind in (None, "whole") if kind in by_answer]
    others = sorted(by_answer.values(), key=lambda row: row[1])
    step = max(1, len(others) // max(1, wanted - len(first)))
    return first + others[::step][:wanted - len(first)]


# ---- the files


def written(name):
    """The lines of a side's file."""
    yield f"//! Bodies of every layout of the {SIDES[name]}: written by make_bodies.py.\n"
    yield "use zk_answers::Layout;\nuse zk_records::Op;\n\n"
    yield "/// Bodies of each layout: the bytes of one, and what is answered to it.\n"
    yield f"pub(crate) const {name.upper()}: &[(Layout, &str)] = &[\n"
    for layout, of in LAYOUTS[name]:
        found = items(formats.items(of))
        wanted = 20 if found == ("parts",) else 2 if found == () else 6
        # A seed of its own, so that a further layout changes no other's bodies.
        lines = "\n".join(f"{body.hex()} = {'None' if answer is None else f'Some({answer})'}"
                          for body, answer in rows(found, wanted, random.Random(layout)))
        yield f'    (\n        Layout::{layout},\n        "{lines}",\n    ),\n'
    yield "];\n"


def main():
    for name in LAYOUTS:
        (FOLDER / f"{name}.rt").write_text("".join(written(name)))


if __name__ == "__main__":
    main()
