"""Compares the fields that the library for C writes with tables of payloads and with a second reading of the formats.

tests/library calls it. The rows of the table were derived from docs/FORMATS.md and docs/EXAMPLES.md, by hand or by
samples.py. Then each row's payload is truncated at each byte, each byte is changed, and one is added, and the answer is
compared with that of readers here and in faults.py, by the tables of docs/FORMATS.md: the fault, and the fields before
it. zk_judge_ finds the same fault, and no byte outside of the room is written.
"""

import ctypes

from . import first_fault
from ..unknown_operations import DIGITS, NUMBER
from .operation_samples import OPERATIONS

from dev import formats

KINDS = dict(zip(("int", "long", "bool", "text", "blob", "list", "part"), range(1, 8)))
RECORDS = {name: of for name, (_, of) in formats.records().items()}
CONNECTS = {"first": formats.items([*RECORDS["ConnectRequest"], formats.READ_ONLY]),
            "connected": formats.items([*RECORDS["ConnectResponse"], formats.READ_ONLY])}
EVENT = formats.items(RECORDS["WatcherEvent"])
STAT = formats.items(RECORDS["Stat"])
ASKS = {row.number: formats.items(row.request) for row in formats.table("Op")}
BODIES = {row.number: formats.items(row.reply) for row in formats.table("Op")}
RELEASES = {row.number: int(row.release.replace(".", "")) for row in formats.table("Op")}
PARTS = {row.number: formats.items(row.request) for row in formats.table("PartOp")}
RESULTS = {**{row.number: formats.items(row.reply) for row in formats.table("PartOp")}, -1: [("err", "int")]}

# A row: the call and its numbers, the payload, what message it is or what is wrong, and its fields, a line a field:
# the place and the length of its content, its name, its kind, and its number if it has one.
HELLO = "00000000 0000000000000000 00007530 0000000000000000 00000010 00000000000000000000000000000000"
PLAIN_STAT = ("0000000000000004 0000000000000005 00000000000003e8 00000000000003e9 00000006 00000007 00000008 "
              "0000000000000009 00000003 0000000b 000000000000000c")
MULTI = ("00000001 0000000e 00000002 00 ffffffff 00000002 2f61 ffffffff 0000000d 00 ffffffff 00000002 2f62 00000003 "
         "ffffffff 01 ffffffff")
RESULTS_OF_FOUR = ("00000001 0000000000000006 00000000 00000001 00 00000000 00000002 2f61 00000002 00 00000000 "
                   "0000000d 00 00000000 ffffffff 00 ffffff99 ffffff99 ffffffff 01 ffffffff")
TABLE = (
    *OPERATIONS,
    ("request 34", "00000001 00000003 00000002 2f61 01", "REQUEST xid 1 operation 3", """
        12+2 path text
        14+1 watch bool 1"""),
    ("request 34", "00000001 00000001 00000002 2f61 ffffffff 00000001 0000001f 00000005 776f726c64 00000006"
     "616e796f6e65 00000003",
     "REQUEST xid 1 operation 1", """
        12+2 path text
        18+0 data blob null
        18+4 acl list 1
        22+4 perms int 31
        30+5 scheme text
        39+6 id text
        45+4 flags int 3"""),
    ("request 34", "00000002 00000005 00000002 2f61 00000000 ffffffff", "REQUEST xid 2 operation 5", """
        12+2 path text
        18+0 data blob
        18+4 version int -1"""),
    ("request 34", "00000007 00000007 ffffffff ffffffff 00000002", "REQUEST xid 7 operation 7", """
        12+0 path text null
        12+4 acl list null
        16+4 version int 2"""),
    ("request 34", "fffffff8 00000065 0000000000000005 00000001 00000002 2f61 00000000 ffffffff",
     "REQUEST xid -8 operation 101", """
        8+8 zxid long 5
        16+4 data_watches list 1
        24+2 data_watches text
        26+4 exist_watches list 0
        30+4 child_watches list null"""),
    ("request 34", "fffffffc 00000064 00000000 00000006 646967657374 00000003 613a62",
     "REQUEST xid -4 operation 100", """
        8+4 type int 0
        16+6 scheme text
        26+3 auth blob"""),
    ("request 34", "fffffffe 0000000b", "REQUEST xid -2 operation 11", ""),
    ("request 34", MULTI, "REQUEST xid 1 operation 14", """
        8+9 - part 2
        21+2 path text
        23+4 version int -1
        27+9 - part 13
        40+2 path text
        42+4 version int 3"""),
    ("request 35", "00000001 0000000f 00000002 2f61 ffffffff ffffffff 00000000", "REQUEST xid 1 operation 15", """
        12+2 path text
        18+0 data blob null
        18+4 acl list null
        22+4 flags int 0"""),
    ("first", HELLO, "CONNECT", """
        0+4 protocol_version int 0
        4+8 last_zxid_seen long 0
        12+4 time_out int 30000
        16+8 session_id long 0
        28+16 passwd blob"""),
    ("first", HELLO + "01", "CONNECT", """
        0+4 protocol_version int 0
        4+8 last_zxid_seen long 0
        12+4 time_out int 30000
        16+8 session_id long 0
        28+16 passwd blob
        44+1 read_only bool 1"""),
    ("connected", "00000000 00007530 0100000000000001 00000002 0001 00", "CONNECTED", """
        0+4 protocol_version int 0
        4+4 time_out int 30000
        8+8 session_id long 72057594037927937
        20+2 passwd blob
        22+1 read_only bool 0"""),
    ("reply 3", "00000001 0000000000000005 ffffff9b", "REPLY xid 1 operation 3 zxid 5 err -101", ""),
    ("reply 4", "00000001 0000000000000005 00000000 00000003 616263" + PLAIN_STAT, "REPLY xid 1 operation 4 zxid 5", """
        20+3 data blob
        23+8 czxid long 4
        31+8 mzxid long 5
        39+8 ctime long 1000
        47+8 mtime long 1001
        55+4 version int 6
        59+4 cversion int 7
        63+4 aversion int 8
        67+8 ephemeral_owner long 9
        75+4 data_length int 3
        79+4 num_children int 11
        83+8 pzxid long 12"""),
    ("reply 8", "00000001 0000000000000005 00000000 00000003 00000001 61 ffffffff 00000000",
     "REPLY xid 1 operation 8 zxid 5", """
        16+4 children list 3
        24+1 children text
        29+0 children text null
        33+0 children text"""),
    ("reply 14 1 2 13 5", RESULTS_OF_FOUR, "REPLY xid 1 operation 14 zxid 6", """
        16+9 - part 1
        29+2 path text
        31+9 - part 2
        40+9 - part 13
        49+9 - part -1
        58+4 err int -103"""),
    ("event", "ffffffff fffffffffffffffe 00000000 00000003 00000004 00000002 2f61", "EVENT xid -1 zxid -2", """
        16+4 type int 3
        20+4 state int 4
        28+2 path text"""),
    # what is wrong, and the fields before it
    ("request 34", "00000001 00000003 00000002 2f61 02", "BAD_BOOL 14 xid 1 operation 3", """
        12+2 path text"""),
    ("request 34", "00000009 00000003 00000002 2f61 01 00", "TRAILING 15 xid 9 operation 3", """
        12+2 path text
        14+1 watch bool 1"""),
    ("request 34", "00000009 00000003 00000002 2fc3 00", "BAD_TEXT 13 xid 9 operation 3", ""),
    ("request 34", f"0000000a {DIGITS} 0000", f"UNKNOWN_OP 4 xid 10 operation {NUMBER}", ""),
    ("request 34", "00000001 0000000f 00000002 2f61", "UNKNOWN_OP 4 xid 1 operation 15", ""),
    ("request 34", "ffffffff 00000003 00000002 2f61 01", "XID_OP 4 xid -1 operation 3", ""),
    ("request 34", "00000009 0000", "SHORT 4 xid 9", ""),
    ("request 34", "0000", "SHORT 0", ""),
    ("request 34", "00000001 00000001 00000002 2f61 ffffffff 00000002 0000001f 00000005 776f726c64 00000006"
     "616e796f6e65 0000", "SHORT 45 xid 1 operation 1", """
        12+2 path text
        18+0 data blob null
        18+4 acl list 2
        22+4 perms int 31
        30+5 scheme text
        39+6 id text"""),
    ("request 34", MULTI.replace("0000000d 00 ffffffff", "0000000e 00 ffffffff"), "BAD_PART 27 xid 1 operation 14", """
        8+9 - part 2
        21+2 path text
        23+4 version int -1"""),
    ("first", HELLO + "0100", "TRAILING 45", """
        0+4 protocol_version int 0
        4+8 last_zxid_seen long 0
        12+4 time_out int 30000
        16+8 session_id long 0
        28+16 passwd blob
        44+1 read_only bool 1"""),
    ("reply 14 1 2 13 2", RESULTS_OF_FOUR.replace("ffffff99 ffffff99", "ffffff99 ffffff9b"),
     "BAD_PART 49 xid 1 zxid 6", """
        16+9 - part 1
        29+2 path text
        31+9 - part 2
        40+9 - part 13"""),
    ("reply 4", "00000001 0000000000000005 00000000 00000003 6162", "SHORT 16 xid 1 zxid 5", ""),
    ("reply 3", "00000001 0000000000000005 ffffff9b 00", "TRAILING 16 xid 1 zxid 5 err -101", ""),
    ("reply 3", "ffffffff ffffffffffffffff 00000000", "MISFIT 0", ""),
    ("reply 10", "00000001 0000000000000005 00000000", "UNKNOWN_OP 16 xid 1 zxid 5", ""),
    (f"reply {NUMBER}", "fffffff8 0000000000000005 ffffff9b", "UNKNOWN_OP 16 xid -8 zxid 5 err -101", ""),
    (f"reply {NUMBER} 1", "00000003 0000000000000005 00000000 00000001 00000002 2f61",
     "UNKNOWN_OP 16 xid 3 zxid 5", ""),
    ("reply 13", "00000003 0000000000000005 0000", "SHORT 12 xid 3 zxid 5", ""),
    ("reply 0", "ffffffff ffffffffffffffff 00000000", "MISFIT 0", ""),
    ("reply 3 1", "00000001 0000000000000005 ffffff9b", "RANGE 0", ""),
    ("event", "ffffffff ffffffffffffffff 00000001 00000003", "EVENT_ERR 12 xid -1 zxid -1 err 1", ""),
    ("event", "ffffffff ffffffffffffffff 00000000 00000003 0000", "SHORT 20 xid -1 zxid -1", """
        16+4 type int 3"""),
)


class Stop(Exception):
    """The next item isn't there."""


class Reader:
    """The fields of a payload up to a place, by the page's tables."""

    def __init__(self, payload, names):
        self.payload, self.names, self.place, self.fields = payload, names, 0, []

    def number(self, size):
        if len(self.payload) - self.place < size:
            raise Stop
        self.place += size
        return int.from_bytes(self.payload[self.place - size:self.place], "big", signed=True)

    def put(self, place, length, name, kind, number=0, null=0):
        self.fields.append((place, length, number, self.names[name], KINDS[kind], null))

    def item(self, name, kind):
        place = self.place
        if kind == "bool":
            number = self.number(1)
            if number not in (0, 1):
                raise Stop
            self.put(place, 1, name, kind, number)
        elif kind in ("int", "long"):
            number = self.number(4 if kind == "int" else 8)
            self.put(place, self.place - place, name, kind, number)
        else:
            length = self.number(4)
            if length < -1 or len(self.payload) - self.place < length:
                raise Stop
            content = self.payload[self.place:self.place + max(length, 0)]
            if kind == "text":
                self.decode(content)
            self.put(self.place, len(content), name, kind, 0, int(length == -1))
            self.place += len(content)

    @staticmethod
    def decode(content):
        try:
            content.decode()
        except UnicodeDecodeError:
            raise Stop from None

    def items(self, of):
        for name, kind in of:
            if isinstance(kind, str):
                self.item(name, kind)
                continue
            place, count = self.place, self.number(4)
            if count < -1:
                raise Stop
            self.put(place, 4, name, "list", max(count, 0), int(count == -1))
            for _ in range(count):
                self.items(kind)

    def heads(self, table):
        while True:
            place, kind, done = self.place, self.number(4), self.number(1)
            self.number(4)
            if done or kind not in table:
                raise Stop
            self.put(place, 9, "none", "part", kind)
            self.items(table[kind])

    def read(self, start, of):
        self.place = start
        try:
            if of and of[0][1] in ("parts", "results"):
                self.heads(PARTS if of[0][1] == "parts" else RESULTS)
            else:
                self.items(of)
        except Stop:
            pass
        return self.fields


def items_of(kind, operation, err=0):
    """Where a message's fields begin, and the items that it has."""
    if kind in CONNECTS:
        return 0, CONNECTS[kind]
    if kind == "event":
        return 16, EVENT if err == 0 else []
    if kind == "request":
        return 8, ASKS.get(operation, [])
    return 16, BODIES.get(operation, []) if err == 0 else []


def wanted(payload, place, kind, operation, names):
    """The fields before a place, by the reader here."""
    err = int.from_bytes(payload[12:16], "big", signed=True) if kind in ("reply", "event") else 0
    start, of = items_of(kind, operation, err)
    return Reader(payload[:place], names).read(start, of) if start <= place else []


class Caller:
    """Calls of the library with a room of some fields, and fields after it that no call may write."""

    GUARD = (7, 7, 7, 7, 7, 7)

    def __init__(self, talk, library, names):
        self.talk, self.library, self.names = talk, library, names

    def room(self, size):
        return (self.talk.Field * (size + 2))(*[self.GUARD] * (size + 2))

    def fields(self, room, size):
        found = [(f.place, f.length, f.number, f.name, f.kind, f.null) for f in room]
        if found[size:] != [self.GUARD] * 2:
            raise AssertionError("a field after the room was written")
        return [field for field in found if field != self.GUARD]

    def ask(self, what, call, payload, *more):
        """The answer of zk_read_ or zk_judge_ to a call of the table."""
        kind, *numbers = call.split()
        numbers = list(map(int, numbers))
        before = numbers if kind == "request" else []
        if kind == "reply":
            parts = numbers[1:]
            before = [numbers[0], (ctypes.c_int32 * (len(parts) + 1))(*parts), len(parts)]
        return getattr(self.library, f"zk_{what}_{kind}")(*before, payload, len(payload), *more)

    def read(self, call, payload, size):
        room = self.room(size)
        return self.ask("read", call, payload, room, size), self.fields(room, size)


def told(answer, statuses, kinds):
    """An answer as the table has it."""
    words = f"{statuses[answer.status]} {answer.place}"
    if answer.kind:
        words = kinds[answer.kind]
    for word in ("xid", "operation", "zxid", "err"):
        if getattr(answer, word) != 0:
            words += f" {word} {getattr(answer, word)}"
    return words


def written(field, names):
    """A field as the table has it."""
    place, length, number, name, kind, null = field
    kind = next(word for word, of in KINDS.items() if of == kind)
    words = f"{place}+{length} {'-' if name == 0 else names[name]} {kind}"
    return words + (" null" if null else "" if kind in ("text", "blob") else f" {number}")


def compare_table(caller, statuses, kinds):
    """Whether each payload has the fields of its row, in a room that fits and in each smaller one."""
    words = {number: name for name, number in caller.names.items()}
    for call, digits, message, rows in TABLE:
        payload, rows = bytes.fromhex(digits), [row.strip() for row in rows.splitlines() if row.strip()]
        answer, found = caller.read(call, payload, 30)
        found = [written(field, words) for field in found]
        good = (told(answer, statuses, kinds), answer.count, found) == (message, len(rows), rows)
        yield digits, good, f"zk_read_{call} {digits}: {told(answer, statuses, kinds)}, {answer.count}, {found}"
        for size in range(len(rows)):
            answer, found = caller.read(call, payload, size)
            found = [written(field, words) for field in found]
            status = statuses[answer.status] == "ROOM" if answer.kind else answer.status != 0
            good = status and (answer.count, found) == (len(rows), rows[:size])
            yield digits, good, f"zk_read_{call} {digits}, a room of {size}"


def fault_of(payload, call):
    """The name and the place of a payload's fault; None of a multi, and where the call alone says more."""
    kind, *asked = call.split()
    first = int(asked[0]) if asked else 0
    operation = first_fault.number_at(payload, 4) if kind == "request" else first
    of = items_of(kind, operation)[1]
    if kind == "reply" and (len(asked) > 1 or operation not in BODIES) or of[:1] and of[0][1] in ("parts", "results"):
        return None
    return first_fault.first_fault(payload, kind, [each for each, release in RELEASES.items() if release <= first], of)


def compare_damaged(caller, numbers):
    """Whether each row's payload, damaged, has the fault that it should, and the fields before it. Where that is in a
    field, the reader finds it, too; else it may be before fields that are well."""
    elsewhere = {numbers[name] for name in ("MISFIT", "XID_OP", "UNKNOWN_OP", "BAD_PART")}
    for call, digits, _, _ in TABLE:
        payload, kind = bytes.fromhex(digits), call.split()[0]
        damaged = [*(payload[:length] for length in range(len(payload))), payload + b"\0", payload + b"\2"]
        for place in range(len(payload)):
            for byte in (payload[place] ^ 1, payload[place] ^ 128, 255):
                damaged.append(payload[:place] + bytes([byte]) + payload[place + 1:])
        for payload in damaged:
            answer, found = caller.read(call, payload, 40)
            place = answer.place if answer.status in elsewhere else len(payload)
            operation = int((call.split() + [0])[1])
            if kind == "request":
                operation = int.from_bytes(payload[4:8], "big", signed=True)
            fields = wanted(payload, place, kind, operation, caller.names)
            fault, judged = fault_of(payload, call), caller.ask("judge", call, payload)
            given = answer.status, answer.place
            same = (numbers["RANGE"], 0) if kind == "reply" and operation not in BODIES else given
            good = (answer.count, found, judged.status, judged.place) == (len(fields), fields, *same) and (
                fault is None or given == (numbers[fault[0]], fault[1]))
            answered = f"{given}, judged {judged.status} at {judged.place}, {found}"
            yield digits, good, f"zk_read_{call} {payload.hex()}: {answered}, not {fault}, {fields}"


def compare(talk, library, names, numbers):
    """Whether each answer is as it should be. `names` are the numbers of fields' names, `numbers` those of statuses."""
    kinds = dict(enumerate(("", "CONNECT", "REQUEST", "CONNECTED", "REPLY", "EVENT")))
    caller = Caller(talk, library, {"none": 0, **names})
    yield from compare_table(caller, {number: name for name, number in numbers.items()}, kinds)
    yield from compare_damaged(caller, numbers)
