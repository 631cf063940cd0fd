"""Compares passages of the library for C with a model of them, by the comments of include/zk.h.

tests/library calls it. Random conversations are cut anew at random, among them requests whose operation no profile
has, replies out of order or to nothing, damaged messages, and lengths out of range. Few requests may wait. After each
step and each offer all that a passage returns is compared: what became of the bytes, the message shown, the payload
that was left out or is shown, what waits and is held, and the ending. Half of the passages join late, some are begun
anew, and most that are refused go on after the refused frame.
"""

import collections
import copy
import ctypes
import random
import struct

from ..unknown_operations import NUMBER
from .reused_handles import EVENT, HELLO, WELCOME, numbers
from .operation_samples import PROFILE

WITHIN, MESSAGE, ASKED, ANSWERED, FULL, UNSEEN = range(6)
CONNECT, REQUEST, CONNECTED, REPLY, EVENTS = range(1, 6)
WHOLE, CUT, REFUSED = 1, 2, 3
RANGE, NO_MESSAGE, LIMIT, NONE = 67, 69, 100, (0,) * 7
BAD_BOOL, TRAILING, UNKNOWN_OP, LENGTH_RANGE, UNASKED, XID_ORDER = 2, 6, 7, 11, 13, 14
REASONS = {BAD_BOOL: "BadBool", TRAILING: "Trailing", UNKNOWN_OP: "UnknownOp", LENGTH_RANGE: "LengthRange", UNASKED: "Unasked",
           XID_ORDER: "XidOrder"}
MULTI, NO_NODE, PATH = 14, -101, b"\0\0\0\2/a"
PART, END = struct.pack(">iBi", 13, 0, -1) + PATH + bytes(4), struct.pack(">iBi", -1, 1, -1)
NEWER = struct.pack(">iBi", 21, 0, -1) + PATH + struct.pack(">iiiq", -1, -1, 5, 1000)

Request = collections.namedtuple("Request", "xid operation frame weight out")


def lane_of(xid):
    return xid if xid in (-2, -4, -8) else 0


def framed(payload):
    return len(payload).to_bytes(4, "big") + payload


class Passage:
    """What a passage is to return: of each side its bytes after the last whole frame, its frames and all its bytes."""

    def __init__(self, waiting, late):
        self.waiting, self.refused = waiting, 0
        self.begin(late)

    def begin(self, late):
        """A connect request and its answer came before a late one."""
        self.late, self.matched, self.fault = late, False, NONE
        self.came, self.frames = [b"", b""], [1, 1] if late else [0, 0]
        self.bytes = [32, 24] if late else [0, 0]
        self.lanes = collections.defaultdict(collections.deque)
        self.shown, self.left, self.payload = [None, None], [None, None], [b"", b""]

    def waits(self):
        return [request for lane in self.lanes.values() for request in lane]

    def refuse(self, side, used, reason, place=0, expected=0, got=0):
        self.fault, self.refused = (self.frames[side], self.bytes[side] + used, side, place, reason, expected, got), used
        self.shown[side] = None
        return 0, reason, WITHIN, 0, 0, self.fault, 0, 0, 0

    def step(self, side, piece):
        """The numbers of struct zk_passed."""
        self.left[side] = None
        if self.fault != NONE:
            self.shown[side] = None
            return 0, self.fault[4], WITHIN, 0, 0, self.fault, 0, 0, 0
        before, came = len(self.came[side]), self.came[side] + piece
        length = int.from_bytes(came[:4], "big", signed=True)
        if before < 4 <= len(came) and not 0 <= length <= LIMIT:
            return self.refuse(side, 4 - before, LENGTH_RANGE)
        if len(came) < 4 or len(came) < 4 + length:
            self.came[side], self.bytes[side] = came, self.bytes[side] + len(piece)
            return len(piece), 0, WITHIN, 0, 0, NONE, 0, 0, 0
        used, payload = 4 + length - before, came[4:4 + length]
        return (self.ask if side == 0 else self.answer)(used, payload)

    def take(self, side, used, payload, went, shown=None, xid=0, operation=0, frame=0, zxid=0, err=0):
        """A whole frame: a message that is shown, or one that is left out."""
        self.came[side], self.bytes[side] = b"", self.bytes[side] + used
        self.shown[side] = shown and (0, *shown[:3], 4 + len(payload), *shown[3:5], self.frames[side], shown[5])
        self.left[side], self.payload[side] = None if shown else payload, payload
        self.frames[side] += 1
        return used, 0, went, xid, operation, NONE, frame, zxid, err

    def passes(self, side, piece):
        """The same of a step after which the side shows nothing."""
        answer = self.step(side, piece)
        self.shown[side] = self.left[side] = None
        return answer

    def offer(self, side, frame):
        """The numbers of struct zk_passed, of an offer: those of a step, which changes nothing unless it takes the frame."""
        length = int.from_bytes(frame[:4], "big", signed=True)
        if self.fault == NONE and (self.came[side] or len(frame) < 4 or 0 <= length <= LIMIT and len(frame) != 4 + length):
            return 0, RANGE, WITHIN, 0, 0, NONE, 0, 0, 0
        before = copy.deepcopy(vars(self))
        answer = self.step(side, frame)
        if answer[0] == 0:
            vars(self).update(before)
        return answer

    def resume(self):
        """The numbers of struct zk_step, of a passage that goes on after a refused frame."""
        if self.fault == NONE or self.fault[4] == LENGTH_RANGE:
            return 0, self.fault[4], False, self.fault
        self.begin(True)
        return self.refused, 0, False, NONE

    def held(self, side):
        """How many bytes of a frame that isn't whole, or is refused."""
        return len(self.came[side]) + (self.refused if self.fault != NONE and self.fault[2] == side else 0)

    def ask(self, used, payload):
        if self.frames[0] == 0:
            return self.take(0, used, payload, MESSAGE, (CONNECT, 0, 0, 0, 0, 0))
        xid, operation = struct.unpack(">ii", payload[:8])
        unknown = operation in (NUMBER, 0)  # 0 is in a connect request that comes after a made up one
        out = unknown and lane_of(xid) in (0, -8) or operation == MULTI and NEWER in payload
        fault = (BAD_BOOL, 14) if payload[-1:] == b"\2" else None
        if unknown and not out:
            fault = UNKNOWN_OP, 4
        weight = 1 + (payload.count(PART) if operation == MULTI and not out else 0)
        if not fault and weight + sum(request.weight for request in self.waits()) > self.waiting:
            return 0, 0, FULL, 0, 0, NONE, 0, 0, 0
        if fault:
            return self.refuse(0, used, *fault)
        request = Request(xid, operation, self.frames[0], weight, out)
        self.lanes[lane_of(xid)].append(request)
        if out:
            return self.take(0, used, payload, ASKED, None, xid, operation, request.frame)
        return self.take(0, used, payload, MESSAGE, (REQUEST, xid, operation, 0, 0, 0))

    def answer(self, used, payload):
        if self.frames[1] == 0:
            if self.frames[0] == 0:
                return self.refuse(1, used, UNASKED)
            return self.take(1, used, payload, MESSAGE, (CONNECTED, 0, 0, 0, 0, 0))
        xid, zxid, err = struct.unpack(">iqi", payload[:16])
        if xid == -1:
            return self.take(1, used, payload, MESSAGE, (EVENTS, xid, 0, err, zxid, 0))
        lane, ordinary = self.lanes[lane_of(xid)], lane_of(xid) == 0
        earlier = not self.matched and xid not in [request.xid for request in lane] if ordinary else not lane
        if self.late and earlier:
            return self.take(1, used, payload, UNSEEN, None, xid, zxid=zxid, err=err)
        self.matched = self.matched or ordinary
        if not lane:
            return self.refuse(1, used, UNASKED)
        if lane[0].xid != xid:
            return self.refuse(1, used, XID_ORDER, 0, lane[0].xid, xid)
        if not lane[0].out and len(payload) > 16:
            return self.refuse(1, used, TRAILING, 16)
        request = lane.popleft()
        if request.out:
            return self.take(1, used, payload, ANSWERED, None, xid, request.operation, request.frame)
        return self.take(1, used, payload, MESSAGE, (REPLY, xid, request.operation, err, zxid, request.frame))

    def ending(self):
        """The numbers of struct zk_ending."""
        if self.fault != NONE:
            return 0, REFUSED, 0, 0, 0, 0, self.fault
        for side in (0, 1):
            if self.came[side]:
                return 0, CUT, 0, side, len(self.came[side]), self.frames[side], NONE
        unwelcomed = int(self.frames[0] > 0 and self.frames[1] == 0)
        return 0, WHOLE, len(self.waits()) + unwelcomed, 0, 0, 0, NONE


def line_of(ending):
    """The line of an ending (docs/FORMATS.md, section 11)."""
    _, kind, unanswered, side, got, frame, fault = ending
    if kind == WHOLE:
        return f". whole unanswered={unanswered}"
    if kind == CUT:
        return f". cut side={'CS'[side]} frame={frame} got={got}"
    more = f" expected={fault[5]} got={fault[6]}" if fault[4] == XID_ORDER else ""
    return f". refused side={'CS'[fault[2]]} frame={fault[0]} offset={fault[1]} place={fault[3]} reason={REASONS[fault[4]]}{more}"


def asked(chance, passage):
    """A client's next payload."""
    if passage.frames[0] == 0:
        return bytes.fromhex(HELLO)
    xid, kind = chance.choice((1, 2, 3, -3)), chance.randrange(8)
    if kind == 7 and chance.random() < 0.1:
        return chance.choice((struct.pack(">ii", -4, NUMBER), struct.pack(">ii", xid, 3) + PATH + b"\2"))
    return (struct.pack(">ii", -2, 11), struct.pack(">iii", -4, 100, 0) + PATH + PATH,
            struct.pack(">iiq", -8, 101, 5) + b"\xff" * 12,
            struct.pack(">ii", xid, MULTI) + PART * chance.randrange(4) + chance.choice((b"", NEWER)) + END, struct.pack(">ii", xid, NUMBER) + PATH,
            struct.pack(">ii", -8, NUMBER))[kind] if kind < 6 else struct.pack(">ii", xid, 3) + PATH + b"\1"


def answered(chance, passage):
    """A server's next payload: mostly a reply to the oldest request of a lane, with an error."""
    if passage.frames[1] == 0:
        return bytes.fromhex(WELCOME)
    waits = [lane[0].xid for lane in passage.lanes.values() if lane]
    if chance.random() < 0.2 or not waits and not passage.late:
        return bytes.fromhex(EVENT)
    other = chance.random() < (0.3 if passage.late else 0.02)
    xid = chance.choice((1, 2, 3, 9, -2, -4, -8) if other or not waits else waits)
    return struct.pack(">iqi", xid, chance.choice((5, -1)), NO_NODE) + (b"\0" if chance.random() < 0.02 else b"")


class Compared:
    """A passage of the library and its model."""

    def __init__(self, talk, library, chance):
        self.library, self.chance, self.handle = library, chance, talk.Handle()
        self.text = ctypes.create_string_buffer(LIMIT)
        waiting, late = chance.choice((1, 2, 4, 9)), chance.random() < 0.5
        self.model, make = Passage(waiting, late), library.zk_through_join if late else library.zk_through_new
        self.status = make(self.handle, LIMIT, LIMIT, waiting, PROFILE)

    def still(self):
        """What is returned without another byte, and what should be. A refused side shows no message."""
        model, library = self.model, self.library
        yield numbers(library.zk_through_finish(self.handle)), model.ending()
        line = library.zk_through_ending_line(self.handle, self.text, LIMIT)
        yield self.text.raw[:line.length].decode(), line_of(model.ending())
        waits = model.waits()
        yield numbers(library.zk_through_waiting(self.handle)), (0, len(waits), sum(request.weight for request in waits))
        for side in (0, 1):
            view = library.zk_through_view(self.handle, side)
            yield numbers(view), model.shown[side] or (NO_MESSAGE, *(0,) * 8)
            line = library.zk_through_payload(self.handle, side, self.text, LIMIT)
            has = model.left[side] is not None or model.shown[side] is not None
            yield (line.status, self.text.raw[:line.length]), (0, model.payload[side]) if has else (NO_MESSAGE, b"")
            yield numbers(library.zk_through_held(self.handle, side)), (0, model.held(side))

    def step(self, side, piece):
        """What a step returns and what should be, and the same of all that is returned then. Some show nothing."""
        shows = self.chance.random() < 0.9
        call = self.library.zk_through_step if shows else self.library.zk_through_pass
        step = numbers(call(self.handle, side, piece, len(piece)))
        return [(step, (self.model.step if shows else self.model.passes)(side, piece)), *self.still()]

    def offer(self, side, frame):
        """The same of a frame that is offered."""
        offered = numbers(self.library.zk_through_offer(self.handle, side, frame, len(frame)))
        return [(offered, self.model.offer(side, frame)), *self.still()]

    def resume(self):
        """The same of a passage that goes on after a refused frame."""
        resumed = numbers(self.library.zk_through_resume(self.handle))
        return [(resumed, self.model.resume()), *self.still()]

    def renew(self):
        """The same of a passage that is begun anew, which is not late."""
        status = self.library.zk_through_renew(self.handle)
        self.model.begin(False)
        return [(status, 0), *self.still()]


def offers(compared, side, due, seen):
    """The same of an offer of what the side is to send next, or of a byte less or more. What is taken isn't due any more."""
    frame = compared.chance.choice((due[side], due[side], due[side][:-1], due[side] + b"\0"))
    pairs = compared.offer(side, frame)
    used, reason, went = pairs[0][1][:3]
    seen["offered", went if reason == 0 else -reason] += 1
    due[side] = due[side][used:]
    return pairs


def conversation(compared, count, seen):
    """The first difference in a random conversation, or None; `seen` counts what became of the bytes."""
    chance, model, due = compared.chance, compared.model, [b"", b""]
    for _ in range(count):
        side = 0 if model.frames[0] == 0 and chance.random() < 0.9 else chance.choice((0, 1, 1))
        if not due[side]:
            payload = (asked if side == 0 else answered)(chance, model)
            due[side] = b"\xff" * 4 if chance.random() < 0.002 else framed(payload)
        pairs = offers(compared, side, due, seen) if chance.random() < 0.4 else []
        piece = due[side][:chance.choice((len(due[side]), chance.randrange(len(due[side]) + 1)))]
        stepped = compared.step(side, piece)
        used, reason, went = stepped[0][1][:3]
        pairs += stepped
        seen[went if reason == 0 else -reason] += 1
        due[side] = due[side][used:]
        if chance.random() < (0.4 if model.fault != NONE else 0.01):
            refused, begun = model.fault[2], list(model.came)
            resumed = compared.resume()
            if resumed[0][1][0] > 0:
                due[refused] = due[refused][resumed[0][1][0]:]
                due[1 - refused] = begun[1 - refused] + due[1 - refused]
                seen["resumed"] += 1
                seen["begun"] += len(begun[1 - refused]) > 0
            pairs += resumed
        if chance.random() < (0.5 if model.fault != NONE else 0.003):
            pairs, due = pairs + compared.renew(), [b"", b""]
        other = next((pair for pair in pairs if pair[0] != pair[1]), None)
        if other:
            return side, piece.hex(), other
    return None


def compare(talk, library):
    """Whether passages return what the model does, and each thing becomes of bytes."""
    chance, seen = random.Random(1), collections.Counter()
    for number in range(200):
        compared = Compared(talk, library, chance)
        other = conversation(compared, 150, seen)
        library.zk_through_free(compared.handle)
        yield number, compared.status == 0 and other is None, f"passage {number}: {compared.status}, {other}"
    reasons = {-reason for reason in (BAD_BOOL, TRAILING, UNKNOWN_OP, LENGTH_RANGE, UNASKED, XID_ORDER)}
    wanted = {*range(6), *reasons, "resumed", "begun", *(("offered", went) for went in (*range(1, 6), *reasons, -RANGE))}
    yield "passages", min(seen[each] for each in wanted) > 4, f"passages: what became of bytes, and how often: {seen}"
