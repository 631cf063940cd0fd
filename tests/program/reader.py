"""A second reader of conversations: what `show` writes of the bytes of both sides, and where they are refused.

It was written from ZooKeeper's own records (`zookeeper.jute`, `ZooDefs.OpCode`) and from docs/FORMATS.md, and shares
nothing with the crates, nor with the lists that are written from them. It reads every operation but multi.
"""

import struct

# A field is its word in a line and its kind; the kinds are those of `Payload` below.
CREATE = (("path", "text"), ("blob", "blob"), ("acl", "acls"), ("flags", "int"))
PATH, STAT = (("path", "text"),), (("stat", "stat"),)
WATCH, WATCHES = (("path", "text"), ("watch", "bit")), (("path", "text"), ("kind", "int"))
NAMES = (("names", "texts"),)
DATA = (("blob", "blob"), ("stat", "stat"))
# By number: the name, the profile that has it first, the fields of the request, and those of the reply.
OPERATIONS = {
    1: ("create", 34, CREATE, PATH),
    2: ("delete", 34, (("path", "text"), ("version", "int")), ()),
    3: ("exists", 34, WATCH, STAT),
    4: ("getData", 34, WATCH, DATA),
    5: ("setData", 34, (("path", "text"), ("blob", "blob"), ("version", "int")), STAT),
    6: ("getACL", 34, PATH, (("acl", "acls"), ("stat", "stat"))),
    7: ("setACL", 34, (("path", "text"), ("acl", "acls"), ("version", "int")), STAT),
    8: ("getChildren", 34, WATCH, NAMES),
    9: ("sync", 34, PATH, PATH),
    11: ("ping", 34, (), ()),
    12: ("getChildren2", 34, WATCH, NAMES + STAT),
    15: ("create2", 35, CREATE, PATH + STAT),
    16: ("reconfig", 37, (("joining", "text"), ("leaving", "text"), ("members", "text"), ("config", "long")), DATA),
    17: ("checkWatches", 37, WATCHES, ()),
    18: ("removeWatches", 37, WATCHES, ()),
    19: ("createContainer", 37, CREATE, PATH + STAT),
    21: ("createTTL", 37, CREATE + (("ttl", "long"),), PATH + STAT),
    100: ("auth", 34, (("kind", "int"), ("scheme", "text"), ("auth", "blob")), ()),
    101: ("setWatches", 34, (("zxid", "long"), ("dataWatches", "texts"), ("existWatches", "texts"),
                             ("childWatches", "texts")), ()),
    103: ("getEphemerals", 37, PATH, NAMES),
    104: ("getAllChildrenNumber", 37, PATH, (("count", "int"),)),
    106: ("addWatch", 37, (("path", "text"), ("mode", "int")), (("code", "int"),)),
    -11: ("closeSession", 34, (), ()),
}
NEWER = tuple(number for number, row in OPERATIONS.items() if row[1] == 37)
CONNECT = {"C": (("version", "int"), ("zxid", "long"), ("timeout", "int"), ("session", "long"), ("passwd", "blob")),
           "S": (("version", "int"), ("timeout", "int"), ("session", "long"), ("passwd", "blob"))}
STAT_KINDS = ("long",) * 4 + ("int",) * 3 + ("long", "int", "int", "long")
ERRORS = {0: "OK", -1: "SYSTEMERROR", -2: "RUNTIMEINCONSISTENCY", -3: "DATAINCONSISTENCY", -4: "CONNECTIONLOSS",
          -5: "MARSHALLINGERROR", -6: "UNIMPLEMENTED", -7: "OPERATIONTIMEOUT", -8: "BADARGUMENTS", -100: "APIERROR",
          -101: "NONODE", -102: "NOAUTH", -103: "BADVERSION", -108: "NOCHILDRENFOREPHEMERALS", -110: "NODEEXISTS",
          -111: "NOTEMPTY", -112: "SESSIONEXPIRED", -113: "INVALIDCALLBACK", -114: "INVALIDACL", -115: "AUTHFAILED",
          -118: "SESSIONMOVED", -119: "NOTREADONLY"}
EVENTS = {-1: "None", 1: "NodeCreated", 2: "NodeDeleted", 3: "NodeDataChanged", 4: "NodeChildrenChanged"}
LIMIT = 4_194_304


class Refused(Exception):
    """A payload is none that may come: the place, and the reason with what follows its name."""


def quoted(text):
    shown = "".join(chr(byte) if 0x20 <= byte <= 0x7e and byte not in b'"\\' else f"\\{byte:02x}" for byte in text)
    return f'"{shown}"'


def named(number, names):
    return f"{number}/{names[number]}" if number in names else str(number)


class Payload:
    """A payload, read item by item: each method takes one value and returns its spelling, or raises Refused."""

    def __init__(self, data):
        self.data, self.at = data, 0

    def take(self, size, begin):
        if len(self.data) - self.at < size:
            raise Refused(begin, "Short")
        self.at += size
        return self.data[self.at - size:self.at]

    def number(self, form="i"):
        return struct.unpack(">" + form, self.take(struct.calcsize(">" + form), self.at))[0]

    def int(self):
        return str(self.number())

    def long(self):
        return str(self.number("q"))

    def bit(self):
        byte = self.take(1, self.at)[0]
        if byte > 1:
            raise Refused(self.at - 1, "BadBool")
        return str(byte)

    def content(self):
        """The bytes of a text or a blob, which is one item with its length; None for null."""
        begin, size = self.at, self.number()
        if size < -1:
            raise Refused(begin, "BadLength")
        return None if size == -1 else self.take(size, begin)

    def text(self):
        found = self.content()
        if found is None:
            return "~"
        try:
            found.decode("utf-8")
        except UnicodeDecodeError as error:
            raise Refused(self.at - len(found) + error.start, "BadText") from None
        return quoted(found)

    def blob(self):
        found = self.content()
        return "~" if found is None else "#" + found.hex()

    def several(self, element):
        begin, count = self.at, self.number()
        if count < -1:
            raise Refused(begin, "BadLength")
        if count == -1:
            return "~"
        found = []
        while len(found) < count:       # each element has a byte at least, so a great count ends early
            found.append(element())
        return f"[{','.join(found)}]"

    def texts(self):
        return self.several(self.text)

    def acls(self):
        return self.several(lambda: f"{self.int()}:{self.text()}:{self.text()}")

    def stat(self):
        return f"({','.join(getattr(self, kind)() for kind in STAT_KINDS)})"

    def fields(self, fields):
        return "".join(f" {word}={getattr(self, kind)()}" for word, kind in fields)

    def end(self):
        if self.at < len(self.data):
            raise Refused(self.at, "Trailing")


def is_allowed(number, xid):
    return xid != -1 and (xid == -2) == (number == 11) and (xid == -4) == (number == 100) and (
        xid != -8 or number == 101)


class Conversation:
    """What came so far: how many frames of each side, and by xid's lane the requests that wait."""

    def __init__(self, profile):
        self.profile, self.frames, self.waiting = profile, {"C": 0, "S": 0}, {-2: [], -4: [], -8: [], None: []}

    def message(self, side, data):
        """The line of the side's next payload, which may come next, or Refused."""
        payload = Payload(data)
        if self.frames[side] == 0:
            line = self.connect(side, payload)
        else:
            line = self.request(payload) if side == "C" else self.answer(payload)
        self.frames[side] += 1
        return f"{side} {line}"

    @staticmethod
    def connect(side, payload):
        line = "connect" + payload.fields(CONNECT[side])
        read_only = payload.bit() if payload.at < len(payload.data) else "-"
        payload.end()
        return f"{line} ro={read_only}"

    def request(self, payload):
        xid, number = payload.number(), payload.number()
        name, since, fields, _ = OPERATIONS.get(number, ("", self.profile + 1, (), ()))
        if since > self.profile:
            raise Refused(4, "UnknownOp")
        if not is_allowed(number, xid):
            raise Refused(4, "XidOp")
        line = f"{xid} {name}{payload.fields(fields)}"
        payload.end()
        self.waiting[xid if xid in self.waiting else None].append((xid, number))
        return line

    def answer(self, payload):
        xid, zxid, err = payload.number(), payload.number("q"), payload.number()
        if xid == -1:
            return self.event(payload, zxid, err)
        lane = self.waiting[xid if xid in self.waiting else None]
        if not lane:
            raise Refused(0, "Unasked")
        asked, number = lane[0]
        if asked != xid:
            raise Refused(0, f"XidOrder expected={asked} got={xid}")
        name, _, _, fields = OPERATIONS[number]
        line = f" err={named(err, ERRORS)}" if err else payload.fields(fields)
        payload.end()
        lane.pop(0)
        return f"{xid} {name} zxid={zxid}{line}"

    @staticmethod
    def event(payload, zxid, err):
        if err:
            raise Refused(12, "EventErr")
        line = f"event zxid={zxid} kind={named(payload.number(), EVENTS)}" + payload.fields(
            (("state", "int"), ("path", "text")))
        payload.end()
        return line


def ending(conversation, held):
    for side in "CS":
        if held[side]:
            return f". cut side={side} frame={conversation.frames[side]} got={len(held[side])}"
    return f". whole unanswered={sum(map(len, conversation.waiting.values()))}"


def listing(pieces, profile):
    """The lines that `show` writes of these pieces, each a side's letter and its bytes, under a profile's number."""
    conversation, held, seen, lines = Conversation(profile), {"C": b"", "S": b""}, {"C": 0, "S": 0}, []

    def refused(side, offset, place, reason):
        return [*lines, f". refused side={side} frame={conversation.frames[side]} offset={seen[side] + offset} "
                        f"place={place} reason={reason}"]
    for side, data in pieces:
        held[side] += data
        while len(held[side]) >= 4:
            size = int.from_bytes(held[side][:4], "big")
            if size > LIMIT:
                return refused(side, 4, 0, "LengthRange")
            if len(held[side]) < 4 + size:
                break
            try:
                lines.append(conversation.message(side, held[side][4:4 + size]))
            except Refused as fault:
                return refused(side, 4 + size, *fault.args)
            seen[side] += 4 + size
            held[side] = held[side][4 + size:]
    return [*lines, ending(conversation, held)]


def pieces_of(recording):
    """The pieces of an undamaged recording of either format."""
    head, gap = (4, 1) if recording[:4] == b"ZKR1" else (20, 9)
    while head < len(recording):
        size = int.from_bytes(recording[head + gap:head + gap + 4], "big")
        begin = head + gap + 4
        yield chr(recording[head]), recording[begin:begin + size]
        head = begin + size
