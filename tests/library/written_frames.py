"""Compares the frames that the library for C writes of fields with the stored payloads.

tests/library calls it. The messages are those of the table of tests/library/fields.py and of the stored recordings. Their
fields are read by the reader there. They are written over the payload, and over a content that has the texts and blobs
alone: each time the frame has to be the payload's. With less room nothing is written. Messages that are written by
hand have the bytes of docs/FORMATS.md. Fields that say nothing are reported by their index.
"""

import collections
import ctypes

from . import fields
from .operation_samples import PROFILE

INT, LONG, BOOL, TEXT, BLOB, LIST, PART = fields.KINDS.values()
GUARD, MULTI = b"\x07", 14


def item(kind, number=0, place=0, length=0, null=0):
    """A field without a name, which no call that writes reads."""
    return place, length, number, 0, kind, null


# Of an exists of the path "/a" a field that says nothing: place, length, number, name, kind, null; and its index.
PATH, WATCH = (0, 2, 0, 1, 4, 0), (0, 1, 1, 6, 3, 0)
NOTHING = (
    ([(0, 2, 0, 1, 0, 0), WATCH], 0), ([(0, 2, 0, 1, 8, 0), WATCH], 0), ([(1, 2, 0, 1, 4, 0), WATCH], 0),
    ([(0, 3, 0, 1, 4, 0), WATCH], 0), ([(4294967295, 0, 0, 1, 5, 0), WATCH], 0), ([PATH, (0, 1, 2, 6, 3, 0)], 1),
    ([PATH, (0, 1, -1, 6, 3, 0)], 1), ([PATH, (0, 4, 2 ** 31, 5, 1, 0)], 1), ([PATH, (0, 4, -2 ** 31 - 1, 5, 1, 0)], 1),
    ([PATH, (0, 4, -1, 3, 6, 0)], 1), ([PATH, (0, 4, 2 ** 31, 3, 6, 0)], 1), ([PATH, (0, 9, 2 ** 31, 0, 7, 0)], 1),
    ([PATH, (2, 1, 0, 1, 4, 0)], 1),
    # a number that is said to be null
    ([PATH, (0, 1, 0, 6, 3, 1)], 1), ([PATH, (0, 4, 0, 5, 1, 1)], 1), ([PATH, (0, 8, 0, 7, 2, 1)], 1),
    ([PATH, (0, 9, 1, 0, 7, 1)], 1),
)
# In a reply the header of an error, which no int of its number follows.
NO_ERROR = (
    ([item(PART, -1)], 0), ([item(PART, 13), item(PART, -1), item(LONG, 5)], 1), ([item(PART, -1), item(PART, 13)], 0),
    ([item(PART, -1), item(INT, 2 ** 31)], 0), ([item(PART, -1), item(INT, 5), item(PART, -1)], 2),
    ([item(PART, -1), item(INT, 5, null=1)], 0),
)

# A kind and the numbers of its header, its fields over this content, and the frame.
HEADER = "00000002 0000000000000006"
BY_HAND = (
    ("reply", (1, 5, -101, 3), (), b"", "00000010 00000001 0000000000000005 ffffff9b"),
    ("reply", (-2, 2 ** 63 - 1, 0, 11), (), b"", "00000010 fffffffe 7fffffffffffffff 00000000"),
    ("reply", (2, 6, 0, 4), (item(BLOB, place=1, length=3), item(LONG, 4), item(LONG, 5), item(LONG, -1), item(LONG),
                             item(INT, 6), item(INT, 7), item(INT, 8), item(LONG, 9), item(INT, 3), item(INT, 1),
                             item(LONG, 12)), b"xabc",
     f"0000005b {HEADER} 00000000 00000003 616263 0000000000000004 0000000000000005 ffffffffffffffff"
     "0000000000000000 00000006 00000007 00000008 0000000000000009 00000003 00000001 000000000000000c"),
    ("reply", (2, 6, 0, 8), (item(LIST, 2), item(TEXT, null=1), item(TEXT, length=2)), "ü".encode(),
     f"0000001e {HEADER} 00000000 00000002 ffffffff 00000002 c3bc"),
    ("reply", (2, 6, 0, MULTI), (item(PART, 1), item(TEXT, length=2), item(PART, 13), item(PART, -1), item(INT, -103)),
     b"/a", f"0000003e {HEADER} 00000000 00000001 00 00000000 00000002 2f61 0000000d 00 00000000"
     "ffffffff 00 ffffff99 ffffff99 ffffffff 01 ffffffff"),
    ("reply", (2, 6, 0, MULTI), (), b"", f"00000019 {HEADER} 00000000 ffffffff 01 ffffffff"),
    ("reply", (2, 6, -8, MULTI), (), b"", f"00000010 {HEADER} fffffff8"),
    ("request", (2, MULTI), (item(PART, 13), item(TEXT, length=2), item(INT, -1)), b"/a",
     "00000024 00000002 0000000e 0000000d 00 ffffffff 00000002 2f61 ffffffff ffffffff 01 ffffffff"),
    ("event", (-1,), (item(INT, 3), item(INT, 3), item(TEXT, length=2)), b"/a",
     "0000001e ffffffff ffffffffffffffff 00000000 00000003 00000003 00000002 2f61"),
    ("connected", (), (item(INT), item(INT, 30000), item(LONG, 1), item(BLOB, length=2), item(BOOL, 1)), b"\0\1",
     "00000017 00000000 00007530 0000000000000001 00000002 0001 01"),
    ("connected", (), (item(INT), item(INT, 30000), item(LONG, 1), item(BLOB, null=1)), b"",
     "00000014 00000000 00007530 0000000000000001 ffffffff"),
)


def packed(payload, found):
    """The fields with a content of their texts and blobs alone, the last one first; nothing else has a place."""
    content, moved = b"", []
    for place, length, number, _, kind, null in reversed(found):
        if kind in (TEXT, BLOB) and not null:
            moved.insert(0, item(kind, number, len(content), length))
            content += payload[place:place + length]
        else:
            moved.insert(0, item(kind, number, null=null))
    return content, moved


class Writer:
    """The call for a message's kind, with a room and a byte after it that no call may write."""

    def __init__(self, talk, library):
        self.talk, self.library = talk, library

    def write(self, kind, header, content, found, size):
        out = ctypes.create_string_buffer(GUARD * (size + 1), size + 1)
        room = (self.talk.Field * (len(found) + 1))(*found)
        call = getattr(self.library, f"zk_write_{kind}")
        answer = call(*header, room, len(found), content, len(content), out, size)
        return (answer.status, answer.length, answer.index), out.raw


def compare_payload(writer, statuses, kind, header, payload, found):
    """What is written of a payload's fields, and what should be."""
    frame = len(payload).to_bytes(4, "big") + payload
    size = len(frame)
    for content, moved in ((payload, found), packed(payload, found)):
        yield writer.write(kind, header, content, moved, size), ((0, size, 0), frame + GUARD)
        yield writer.write(kind, header, content, moved, size + 3), ((0, size, 0), frame + GUARD * 4)
    for less in {0, 3, 4, size - 1}:
        yield writer.write(kind, header, payload, found, less), ((statuses["ROOM"], size, 0), GUARD * (less + 1))


def number(payload, place, size=4):
    return int.from_bytes(payload[place:place + size], "big", signed=True)


def header_of(kind, payload, operation):
    """The numbers that a frame is written from, besides its fields."""
    if kind == "request":
        return number(payload, 0), operation
    if kind == "reply":
        return number(payload, 0), number(payload, 4, 8), number(payload, 12), operation
    return (number(payload, 4, 8),) if kind == "event" else ()


def tabled():
    """The kind, the operation and the payload of each message of the table."""
    for call, digits, message, _ in fields.TABLE:
        kind, payload = call.split()[0], bytes.fromhex(digits)
        if message.split()[0] in ("CONNECT", "REQUEST", "CONNECTED", "REPLY", "EVENT"):
            yield kind, number(payload, 4) if kind == "request" else int((call.split() + [0])[1]), payload


def frames(talk, recording):
    """Whose each frame of a recording is, its number on that side, and its payload, as they become whole."""
    came, counts = {0: b"", 1: b""}, collections.Counter()
    for side, piece in talk.pieces(recording):
        came[side] += piece
        while len(came[side]) >= 4 and len(came[side]) >= 4 + number(came[side], 0) >= 4:
            size = 4 + number(came[side], 0)
            yield side, counts[side], came[side][4:size]
            came[side] = came[side][size:]
            counts[side] += 1


def recorded(talk, recording):
    """The same of each message of a recording; a reply answers the first request that waits in the lane of its xid."""
    lanes = collections.defaultdict(collections.deque)
    for side, count, payload in frames(talk, recording):
        xid = number(payload, 0)
        lane = lanes[xid if xid in (-2, -4, -8) else 0]
        if count == 0:
            yield "connected" if side else "first", 0, payload
        elif side == 0:
            lane.append(number(payload, 4))
            yield "request", lane[-1], payload
        elif xid == -1:
            yield "event", 0, payload
        elif lane:
            yield "reply", lane.popleft(), payload


def is_message(library, kind, operation, payload, parts):
    """Whether the payload is such a message's: only then it has all of its fields."""
    numbers = {"request": (PROFILE,), "reply": (operation, (ctypes.c_int32 * (len(parts) + 1))(*parts), len(parts))}
    return getattr(library, f"zk_judge_{kind}")(*numbers.get(kind, ()), payload, len(payload)).status == 0


def compare(talk, library, names, numbers, recordings):
    """Whether each frame and each answer is as it should be."""
    writer, names, kinds = Writer(talk, library), {"none": 0, **names}, set()
    messages = [*tabled(), *(each for path in recordings for each in recorded(talk, path.read_bytes()))]
    for kind, operation, payload in messages:
        found = fields.wanted(payload, len(payload), kind, operation, names)
        # An error answers any part.
        parts = [max(field[2], 1) for field in found if field[4] == PART] if kind == "reply" else []
        if not is_message(library, kind, operation, payload, parts):
            continue
        kinds.add(kind)
        header = header_of(kind, payload, operation)
        for given, wanted in compare_payload(writer, numbers, kind, header, payload, found):
            yield payload.hex(), given == wanted, f"zk_write_{kind} {payload.hex()}: {given}, not {wanted}"
    yield "kinds", len(kinds) == 5, f"only these kinds of messages are written: {kinds}"
    for kind, header, found, content, digits in BY_HAND:
        frame = bytes.fromhex(digits)
        given, wanted = writer.write(kind, header, content, found, len(frame)), ((0, len(frame), 0), frame + GUARD)
        yield digits, given == wanted, f"zk_write_{kind} {header} {found}: {given}, not {wanted}"
    for kind, header, rows in (("request", (1, 3), NOTHING), ("reply", (1, 5, 0, MULTI), NO_ERROR)):
        for found, index in rows:
            given, wanted = writer.write(kind, header, b"/a\xff", found, 32), ((numbers["RANGE"], 0, index), GUARD * 33)
            yield str(found), given == wanted, f"zk_write_{kind} of {found}: {given}, not {wanted}"
