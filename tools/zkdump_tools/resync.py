"""Where the frames of one side begin again after bytes that were not captured.

Any reader of captured connections can follow this rule. Its input is the bytes of one side that were captured without a
gap since the loss, up to the end of a segment. Frames begin again at the first place from which plausible whole frames
follow one another, up to the end of those bytes or three of them at least. If there is no such place, wait for the
next segment and look again. Meanwhile bytes are kept from the first place on that may still be one, but no more than
65,536: a longer frame is passed over.

A client's frame is plausible where its length is at least 8 and within the limit, and its xid and its operation belong
together: -2 and ping; -4 and auth; -8 or a positive number and setWatches or setWatches2; a positive number and any
other operation that ZooKeeper has. Where the operation's body begins with a path, the path begins with "/", and its
length leaves room for the fields after it: exactly their size where that is fixed, and else at least the least size. An
operation without a body has a frame of 8 bytes.

A server's frame is plausible where its length is at least 16 and within the limit, and it is one of these:

- an event: xid -1, err 0, a type from -1 to 7 and a state that ZooKeeper has, and a path that ends with the frame and
  is empty or begins with "/";
- a reply to a ping, auth or setWatches: xid -2, -4 or -8 and 16 bytes;
- an error: a positive xid, a zxid of at least -1, an err from -1 to -200 and 16 bytes;
- another reply: a positive xid, a zxid above 0, err 0, and a body that is one of these by its first int n and the size
  of the whole payload: none (16 bytes), a stat (84), a number or an empty or null list (20); n bytes of data, or an
  empty or null list, and a stat (88 and n); a path of n bytes, which begins with "/", with or without a stat after it;
  a list of n elements, of which the first is a name of at least a byte, or permissions from 1 to 31 and a scheme; the
  results of a multi, the first with the number n of a part, a boolean and an int from -200 to 0.

So a frame's beginning can be passed over, which loses a message. A place that is none is hardly ever taken, and then
the frames from it on are not plausible for long (joined.py).
"""

import re
import struct

from . import frames, operations, zkr

ENOUGH, MOST_KEPT = 3, 1 << 16
EVENT, PING, AUTH, SET_WATCHES = -1, -2, -4, -8
LANES = (PING, AUTH, SET_WATCHES)
# By operation, how long the payload of its request is, without the path that it may begin with: the least, and whether
# it has no more; and how long that of a reply without an error is, where that is fixed.
REQUESTS = {each.number: operations.least(each.request.removeprefix(operations.PATH))
            for each in operations.ALL if each.name != "check"}
BEGIN_WITH_PATH = {each.number for each in operations.ALL if each.request.startswith(operations.PATH)}
REPLY_SIZES = {each.number: 16 + operations.least(each.reply)[0] for each in operations.ALL
               if each.reply is not None and operations.least(each.reply)[1]}
STATES, PARTS = {-112, -1, 0, 1, 3, 4, 5, 6, 7}, {-1, 1, 2, 4, 5, 8, 13, 15, 19, 20, 21}
HEADS = {zkr.CLIENT: 12, zkr.SERVER: 20}
MAY_BEGIN = {
    zkr.CLIENT: re.compile(rb"(?s)(?=[\0\1].{7}(?:\0\0\0[\1-%c]|\xff\xff\xff\xf5))" % max(operations.BY_NUMBER)),
    zkr.SERVER: re.compile(rb"(?s)(?=[\0\1].{3}(?:[\0-\x7f]...|\xff{3}[\xff\xfe\xfc\xf8])(?:[\0-\x7f].{7}|\xff{8})"
                           rb"(?:\0{4}|\xff{3}.))")}


def resynchronise(side, data, limit):
    """Where frames begin again in these bytes of a side, or None; and from where on the bytes may still be needed."""
    keep = max(0, len(data) - HEADS[side] + 1)
    for found in MAY_BEGIN[side].finditer(data):
        at = found.start()
        follow = frames_follow(side, data, at, limit)
        if follow:
            return at, at
        if follow is None:
            keep = min(keep, at)
    return None, max(keep, len(data) - MOST_KEPT)


def frames_follow(side, data, at, limit):
    """Whether plausible frames follow one another from this place on; None if more bytes are needed to know it."""
    seen = 0
    while at < len(data) and seen < ENOUGH:
        if len(data) < at + HEADS[side]:
            return None
        end = frames.end_of(b"", 0, data, at, limit)
        if end == frames.NEVER or not is_plausible(side, data[at + frames.LENGTH:end], end - at - frames.LENGTH):
            return False
        if len(data) < end:
            return None
        at, seen = end, seen + 1
    return True


def is_plausible(side, payload, size):
    """Whether a frame of this side may have this payload, of which the first bytes may be all that is there."""
    least = HEADS[side] - 4
    return least <= size and len(payload) >= least and \
        (is_request if side == zkr.CLIENT else is_reply)(payload, size)


def is_request(payload, size):
    xid, kind = struct.unpack_from(">ii", payload)
    operation = operations.BY_NUMBER.get(kind)
    if kind not in REQUESTS or not (xid > 0 and operation.ordinary or xid == operation.xid):
        return False
    rest, (least, exact) = size - 8, REQUESTS[kind]
    if kind in BEGIN_WITH_PATH:
        if len(payload) < 13:
            return size > len(payload)
        length = int.from_bytes(payload[8:12], "big", signed=True)
        if length <= 0 or payload[12:13] != b"/":
            return False
        rest -= 4 + length
    return rest == least if exact else rest >= least


def is_reply(payload, size):
    xid, zxid, err = struct.unpack_from(">iqi", payload)
    if xid == EVENT:
        return err == 0 and is_event(payload, size)
    if xid in LANES:
        return size == 16
    if err:
        return xid > 0 and zxid >= -1 and size == 16 and -200 <= err < 0
    return xid > 0 and zxid > 0 and \
        (size in (16, 20, 84) or len(payload) < min(size, 28) or is_body(payload, size))


def is_body(payload, size):
    """Whether a reply without an error, of this size, can have the body that begins here."""
    count, first, second = struct.unpack_from(">iii", payload.ljust(28, b"\0"), 16)
    if size == 88 + max(0, count):
        return count >= -1
    if payload[20:21] == b"/" and count > 0 and size in (20 + count, 88 + count):
        return True
    err = int.from_bytes(payload[21:25], "big", signed=True)
    if count in PARTS and size >= 25 and payload[20] <= 1 and -200 <= err <= 0:
        return True
    left = size - 20
    return 0 < count <= left // 4 and (0 < first <= left - 4 or 0 < first <= 31 and 0 < second <= left - 8)


def is_event(payload, size):
    if size < 28:
        return False
    if len(payload) < 28:
        return True
    kind, state, length = struct.unpack_from(">iii", payload, 16)
    return -1 <= kind <= 7 and state in STATES and size == 28 + max(0, length) and payload[28:29] in (b"/", b"")


def may_answer(request, reply):
    """Whether the payload of a reply has a length that a reply to the request of this payload can have."""
    kind = int.from_bytes(request[4:8], "big", signed=True)
    return reply[12:16] != bytes(4) or len(reply) == REPLY_SIZES.get(kind, len(reply))
