"""What a recording has, counted from its bytes alone: a model for tests, which shares nothing with the tools.

A frame is a length of four bytes and a payload. The first of each side is a connect message; of the others only the
header counts: a request's xid and operation, a reply's xid, zxid and error. A reply answers the oldest request of its
xid; under -1 comes an event. The bodies are not read, but for the errors of a multi's results.
"""

import collections
import struct

# ZooKeeper's numbers (ZooDefs.OpCode and KeeperException.Code of its release 3.8).
OPERATIONS = {1: "create", 2: "delete", 3: "exists", 4: "getData", 5: "setData", 6: "getACL", 7: "setACL",
              8: "getChildren", 9: "sync", 11: "ping", 12: "getChildren2", 13: "check", 14: "multi", 15: "create2",
              16: "reconfig", 17: "checkWatches", 18: "removeWatches", 19: "createContainer", 20: "deleteContainer",
              21: "createTTL", 22: "multiRead", 100: "auth", 101: "setWatches", 102: "sasl", 103: "getEphemerals",
              104: "getAllChildrenNumber", 105: "setWatches2", 106: "addWatch", 107: "whoAmI", -11: "closeSession"}
CONNECT, MULTI, EXISTS, EVENT, NONODE = "connect", "multi", "exists", -1, -101


class Counts:
    """Of an operation: how many requests, replies and replies with an error there were."""

    def __init__(self):
        self.asked = self.answered = self.failed = 0

    def __eq__(self, other):
        return vars(self) == vars(other)

    def __repr__(self):
        return f"{self.asked}/{self.answered}/{self.failed}"


def pieces(data):
    """The pieces of a recording: the side, the time of a ZKR2 recording's, and the bytes."""
    form = {b"ZKR1": ">cI", b"ZKR2": ">cqI"}[data[:4]]
    at = 4 if data[:4] == b"ZKR1" else 20
    while at < len(data):
        side, *times, size = struct.unpack_from(form, data, at)
        at += struct.calcsize(form)
        yield side, times[0] if times else None, data[at:at + size]
        at += size


def frames(data):
    """The whole frames in the order of their last bytes: the side, the payload, and the number of its piece, from 0."""
    held = {b"C": b"", b"S": b""}
    for number, (side, _, part) in enumerate(pieces(data)):
        held[side] += part
        while len(held[side]) >= 4 and len(held[side]) >= 4 + int.from_bytes(held[side][:4], "big"):
            size = int.from_bytes(held[side][:4], "big")
            yield side, held[side][4:4 + size], number
            held[side] = held[side][4 + size:]


def has_failed(name, payload):
    """Whether a reply says that its request failed: of a multi, that one of its results is an error. That there is no
    node is what exists asks."""
    if err := struct.unpack_from(">i", payload, 12)[0]:
        return name != EXISTS or err != NONODE
    if name != MULTI or len(payload) < 29 or struct.unpack_from(">i", payload, 16)[0] != -1:
        return False
    # A failed multi has errors alone: a header of nine bytes, and the error again.
    return any(struct.unpack_from(">i", payload, at)[0] for at in range(25, len(payload) - 9, 13))


class Reckoned:
    """What is counted of a recording: of each operation by its name, or its number where it has none, its Counts; how
    many messages and events there are; the messages' numbers of the requests without a reply; and of each reply, by its
    message's number, that of its request."""

    def __init__(self, data, most=None):
        self.operations = collections.defaultdict(Counts)
        self.messages = self.events = 0
        self.asked, self.of, self.pieces = {}, {}, {}
        self.waiting = collections.defaultdict(collections.deque)
        seen = {b"C": 0, b"S": 0}
        for side, payload, piece in frames(data):
            if self.messages == most:
                break
            self.messages += 1
            self.pieces[self.messages] = piece
            seen[side] += 1
            if side == b"C":
                self.ask(None if seen[side] == 1 else payload)
            else:
                self.answer(None if seen[side] == 1 else payload)

    def ask(self, payload):
        xid, number = struct.unpack_from(">ii", payload) if payload is not None else (None, None)
        name = CONNECT if xid is None else OPERATIONS.get(number, str(number))
        self.operations[name].asked += 1
        self.waiting[xid].append((name, self.messages))

    def answer(self, payload):
        xid = None if payload is None else struct.unpack_from(">i", payload)[0]
        if xid == EVENT:
            self.events += 1
            return
        name, n = self.waiting[xid].popleft()
        self.of[self.messages] = n
        self.operations[name].answered += 1
        self.operations[name].failed += payload is not None and has_failed(name, payload)

    def left(self):
        """The numbers of the requests without a reply."""
        return sorted(n for lane in self.waiting.values() for _, n in lane)

    def counts(self):
        """By operation, how many were asked, answered and failed."""
        return {name: (each.asked, each.answered, each.failed) for name, each in self.operations.items()}
