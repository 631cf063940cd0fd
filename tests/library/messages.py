"""Compares what a talk returns of each message of the stored recordings with a second reading of the formats.

tests/library calls it. Each recording is given to a talk in the pieces that it has, and again byte by byte. Where a
frame becomes whole, its payload, its fields, its number and the numbers of its header are compared with the bytes that
were given, as tests/library/fields.py reads them. A second talk passes over the same pieces: it returns what the first returns,
and keeps no frame. After each piece what it holds, what waits, and how it would end are compared with the bytes and
requests that came. Which of the client's frames each reply answers is compared with the requests that came; so it is of
a passage, too, and the numbers of what a passage leaves out. As many messages have to come as the recording's listing
has lines, and it has to end as its last line says.

A third talk is offered the recording's frames, each after bytes that aren't one frame and frames that may not come: it
takes the recording's, and of the others nothing remains.

Passages that join each recording late, at several of its frames, are given what follows. They return the messages that
the talk returns, with frames' numbers of their own, but replies to requests that they weren't given as such.
"""

import collections
import ctypes
import struct

from . import fields
from dev import source
from ..stored_listings import listings_of
from .operation_samples import PROFILE

UNKNOWN_OP, XID_ORDER, RANGE, NO_MESSAGE = 7, 14, 67, 69  # statuses
MULTI = 14
MESSAGE, ASKED, ANSWERED, FULL, UNSEEN = 1, 2, 3, 4, 5  # what becomes of a passage's bytes
PINGS, AUTHS, WATCHES, EVENTS = -2, -4, -8, -1  # xids
WHOLE, CUT = 1, 2  # kinds of an ending
KINDS = ("first", "request", "connected", "reply", "event")


def numbers_of(kind, payload):
    """The xid, the err and the zxid of a payload's header."""
    def number(place, size):
        return int.from_bytes(payload[place:place + size], "big", signed=True)
    if kind == "request":
        return number(0, 4), 0, 0
    if kind in ("reply", "event"):
        return number(0, 4), number(12, 4), number(4, 8)
    return 0, 0, 0


def parts_of(caller, message, payload):
    """How many parts a request has; only a multi has any."""
    if KINDS[message.kind - 1] != "request" or message.operation != MULTI:
        return 0
    read = fields.wanted(payload, len(payload), "request", MULTI, caller.names)
    return sum(kind == fields.KINDS["part"] for _, _, _, _, kind, _ in read)


class Waiting:
    """The weights of the requests without a reply, by lanes (docs/CONVERSATION.md, sections 12 and 18)."""

    def __init__(self):
        self.lanes = collections.defaultdict(collections.deque)

    def message(self, kind, xid, parts):
        lane = self.lanes[xid if xid in (PINGS, AUTHS, WATCHES) else 0]
        if kind == "request":
            lane.append(1 + parts)
        elif kind == "reply":
            lane.popleft()

    def numbers(self):
        weights = [weight for lane in self.lanes.values() for weight in lane]
        return len(weights), sum(weights)


def numbers_of_step(step):
    fault = step.fault
    return (step.used, step.status, step.whole, fault.frame, fault.offset, fault.side, fault.place, fault.reason,
            fault.expected, fault.got)


def compare_counts(library, talk, came, waiting):
    """What is held of each side, where these bytes came of its frame, and what waits."""
    for side in (0, 1):
        held = library.zk_talk_held(talk.handle, side)
        yield (held.status, held.bytes), (0, len(came[side]))
    found = library.zk_talk_waiting(talk.handle)
    yield (found.status, found.requests, found.weight), (0, *waiting.numbers())


def compare_message(caller, talk, side, frame, payload):
    """What is returned of a side's kept frame, and what should be."""
    library, size = caller.library, min(len(payload), 4096)  # no item has less than a byte
    message = library.zk_talk_view(talk.handle, side)
    kind = KINDS[message.kind - 1]
    xid, err, zxid = numbers_of(kind, payload)
    yield ((message.frame, message.xid, message.err, message.zxid, message.size),
           (frame, xid, err, zxid, len(payload) + 4))
    out = ctypes.create_string_buffer(len(payload) + 1)
    line = library.zk_talk_payload(talk.handle, side, out, len(payload))
    yield (line.status, out.raw), (0, payload + b"\0")
    room = caller.room(size)
    read = library.zk_talk_fields(talk.handle, side, room, size)
    wanted = fields.wanted(payload, len(payload), kind, message.operation, caller.names)
    yield caller.fields(room, size), wanted
    yield ((read.status, read.count, read.kind, read.operation, read.xid, read.err, read.zxid),
           (0, len(wanted), message.kind, message.operation, xid, err, zxid))


def line_of_ending(ending):
    """The line that an ending's numbers make (docs/FORMATS.md, section 11)."""
    if ending.kind == WHOLE:
        return f". whole unanswered={ending.unanswered}"
    if ending.kind == CUT:
        return f". cut side={'CS'[ending.side]} frame={ending.frame} got={ending.got}"
    fault, reason = ending.fault, source.reasons().get(ending.fault.reason)
    order = f" expected={fault.expected} got={fault.got}" if reason == "XidOrder" else ""
    return (f". refused side={'CS'[fault.side]} frame={fault.frame} offset={fault.offset} place={fault.place} "
            f"reason={reason}{order}")


def compare_ending(library, talk, line):
    """The ending of a talk, by its numbers and by its line, and the last line of the listing."""
    out = ctypes.create_string_buffer(200)
    written = library.zk_talk_ending_line(talk.handle, out, len(out))
    yield line_of_ending(library.zk_talk_finish(talk.handle)), line
    yield (written.status, out.raw[:written.length].decode()), (0, line)


class Lanes:
    """How many frames each side has sent, and the numbers of the requests that wait, by lanes."""

    def __init__(self):
        self.frames, self.lanes = [0, 0], collections.defaultdict(collections.deque)

    def answered(self, side, payload):
        """Takes the side's next frame, and returns the number of the client's frame that it answers; 0 if none."""
        xid, first = int.from_bytes(payload[:4], "big", signed=True), self.frames[side] == 0
        lane = self.lanes[xid if xid in (PINGS, AUTHS, WATCHES) else 0]
        self.frames[side] += 1
        if first or xid == EVENTS:
            return 0
        if side == 1:
            return lane.popleft()
        lane.append(self.frames[side] - 1)
        return 0


def ending_so_far(came, lanes):
    """The line of how what came ends, if nothing more comes."""
    for side in (0, 1):
        if came[side]:
            return f". cut side={'CS'[side]} frame={lanes.frames[side]} got={len(came[side])}"
    connects = lanes.frames[0] > 0 and lanes.frames[1] == 0
    return f". whole unanswered={sum(map(len, lanes.lanes.values())) + connects}"


def compare_recording(caller, content, cut, count, ending):
    """What is returned of each message of a recording, of which there are `count`, and of how it ends, where its pieces
    are cut to at most `cut` bytes."""
    came, lanes, waiting, library = [bytearray(), bytearray()], Lanes(), Waiting(), caller.library
    with caller.talk.Talk(library, profile=PROFILE) as talk, caller.talk.Talk(library, profile=PROFILE) as passing:
        for side, piece in caller.talk.pieces(content):
            at = 0
            while at < len(piece):
                part = piece[at:at + cut]
                step = library.zk_talk_step(talk.handle, side, part, len(part))
                passed = library.zk_talk_pass(passing.handle, side, part, len(part))
                yield numbers_of_step(passed), numbers_of_step(step)
                if step.status != 0:
                    yield sum(lanes.frames), count
                    yield from compare_ending(library, talk, ending)
                    yield from compare_ending(library, passing, ending)
                    return
                came[side] += part[:step.used]
                at += step.used
                if step.whole:
                    payload, message = bytes(came[side][4:]), library.zk_talk_view(talk.handle, side)
                    yield from compare_message(caller, talk, side, lanes.frames[side], payload)
                    yield message.answers, lanes.answered(side, payload)
                    waiting.message(KINDS[message.kind - 1], message.xid, parts_of(caller, message, payload))
                    came[side] = bytearray()
                    yield library.zk_talk_view(passing.handle, side).status, NO_MESSAGE
                    yield from compare_counts(library, talk, came, waiting)
                yield from compare_counts(library, passing, came, waiting)
                if cut > 1:
                    yield line_of_ending(library.zk_talk_finish(talk.handle)), ending_so_far(came, lanes)
        yield sum(lanes.frames), count
        yield from compare_ending(library, talk, ending)
        yield from compare_ending(library, passing, ending)


def compare_passage(caller, content, is_whole):
    """Which of the client's frames each reply of a passage answers, the numbers of what is left out, and what should be.
    A whole one isn't refused."""
    handle, library, asked = caller.talk.Handle(), caller.library, {}
    came, lanes = [bytearray(), bytearray()], Lanes()
    yield library.zk_through_new(handle, 1 << 22, 1 << 22, 1 << 16, 34), 0
    for side, piece in caller.talk.pieces(content):
        while piece:
            step = library.zk_through_step(handle, side, piece, len(piece))
            if step.status != 0 or step.went == FULL:
                library.zk_through_free(handle)
                yield True, not is_whole
                return
            came[side] += piece[:step.used]
            piece = piece[step.used:]
            numbers = step.xid, step.operation, step.frame, step.zxid, step.err
            if step.went not in (MESSAGE, ASKED, ANSWERED):
                yield numbers, (0, 0, 0, 0, 0)
                continue
            payload, count = came[side][4:], lanes.frames[side]
            wanted = lanes.answered(side, payload)
            if side == 0:
                asked[count] = struct.unpack_from(">ii", payload)
            elif step.went == MESSAGE:
                yield library.zk_through_view(handle, side).answers, wanted
            left_out = {ASKED: count, ANSWERED: wanted}.get(step.went)
            yield numbers, (0, 0, 0, 0, 0) if left_out is None else (*asked[left_out], left_out, 0, 0)
            came[side] = bytearray()
    library.zk_through_free(handle)


def good_messages(caller, content):
    """The frames of a recording up to its fault, each with its side and what a talk from the first byte on returns."""
    library, came = caller.library, [b"", b""]
    with caller.talk.Talk(library, profile=PROFILE) as talk:
        for side, piece in caller.talk.pieces(content):
            while piece:
                step = library.zk_talk_step(talk.handle, side, piece, len(piece))
                if step.status != 0:
                    return
                came[side], piece = came[side] + piece[:step.used], piece[step.used:]
                if step.whole:
                    yield side, came[side], library.zk_talk_view(talk.handle, side)
                    came[side] = b""


def refused_frames(side, frame, message, lanes, sent):
    """Bytes that a talk refuses in the place of this frame, after `sent` bytes of the side, and what is returned of each."""
    count, nothing = lanes.frames[side], (0,) * 7
    for wrong in (b"", frame[:-1], frame + b"\0"):
        yield wrong, (0, RANGE, False, *nothing)
    if side == 0 and count > 0:
        yield struct.pack(">iii", 8, 1, 9999), (0, UNKNOWN_OP, False, count, sent + 12, side, 4, UNKNOWN_OP, 0, 0)
    if KINDS[message.kind - 1] == "reply" and message.xid > 0:
        other = message.xid ^ 1 << 30
        wrong = frame[:4] + struct.pack(">i", other) + frame[8:]
        yield wrong, (0, XID_ORDER, False, count, sent + len(frame), side, 0, XID_ORDER, message.xid, other)


def compare_offers(caller, messages, count):
    """What is returned where these messages' frames are offered, and others before each, and what should be."""
    lanes, waiting, sent, library = Lanes(), Waiting(), [0, 0], caller.library
    yield len(messages), count
    with caller.talk.Talk(library, profile=PROFILE) as talk:
        for side, frame, message in messages:
            for wrong, wanted in refused_frames(side, frame, message, lanes, sent[side]):
                shown = numbers_of_view(library.zk_talk_view(talk.handle, side))
                yield numbers_of_step(library.zk_talk_offer(talk.handle, side, wrong, len(wrong))), wanted
                yield numbers_of_view(library.zk_talk_view(talk.handle, side)), shown
                yield from compare_counts(library, talk, (b"", b""), waiting)
            found = numbers_of_step(library.zk_talk_offer(talk.handle, side, frame, len(frame)))
            yield found, (len(frame), 0, True, *(0,) * 7)
            sent[side] += len(frame)
            yield from compare_message(caller, talk, side, lanes.frames[side], frame[4:])
            yield library.zk_talk_view(talk.handle, side).answers, lanes.answered(side, frame[4:])
            waiting.message(KINDS[message.kind - 1], message.xid, parts_of(caller, message, frame[4:]))
            yield from compare_counts(library, talk, (b"", b""), waiting)
            yield line_of_ending(library.zk_talk_finish(talk.handle)), ending_so_far((b"", b""), lanes)
        library.zk_talk_step(talk.handle, 0, b"\0", 1)
        yield numbers_of_step(library.zk_talk_offer(talk.handle, 0, b"\0\0\0\0", 4)), (0, RANGE, False, *(0,) * 7)


def numbers_of_passed(step):
    return (step.status, step.used, step.went, step.xid, step.operation, step.frame, step.zxid, step.err)


def numbers_of_view(message):
    return message.kind, message.xid, message.operation, message.size, message.err, message.zxid


def compare_late(caller, messages):
    """What a passage returns of these messages that has joined before them, and what should be."""
    handle, library, frames, matched = caller.talk.Handle(), caller.library, [1, 1], False
    lanes = collections.defaultdict(collections.deque)
    yield library.zk_through_join(handle, 1 << 22, 1 << 22, 1 << 16, PROFILE), 0
    for side, frame, message in messages:
        kind, xid, answers = KINDS[message.kind - 1], message.xid, 0
        ordinary = xid not in (PINGS, AUTHS, WATCHES)
        lane = lanes[0 if ordinary else xid]
        earlier = not matched and xid not in [asked for asked, _ in lane] if ordinary else not lane
        found = numbers_of_passed(library.zk_through_step(handle, side, frame, len(frame)))
        if kind == "reply" and earlier:
            yield found, (0, len(frame), UNSEEN, xid, 0, 0, message.zxid, message.err)
            yield library.zk_through_view(handle, side).status, NO_MESSAGE
        else:
            if kind == "request":
                lane.append((xid, frames[0]))
            elif kind == "reply":
                (_, answers), matched = lane.popleft(), matched or ordinary
            yield found, (0, len(frame), MESSAGE, 0, 0, 0, 0, 0)
            view = library.zk_through_view(handle, side)
            yield (*numbers_of_view(view), view.frame, view.answers), (*numbers_of_view(message), frames[side], answers)
        frames[side] += 1
    library.zk_through_free(handle)


def compare_joined(caller, content, count):
    """The same of passages that join after the connect pair, after the last message, and at places between."""
    messages = list(good_messages(caller, content))
    yield len(messages), count
    pair = [i for i, (_, _, message) in enumerate(messages) if KINDS[message.kind - 1] in ("first", "connected")]
    first = 1 + max(pair, default=len(messages))
    for place in range(first, len(messages) + 1, max(1, (len(messages) - first) // 8)):
        yield from compare_late(caller, messages[place:])


def compare(talk, library, names, recordings):
    """A line for each recording with a message that is returned wrongly."""
    caller = fields.Caller(talk, library, {"none": 0, **names})
    for path in recordings:
        content, (*lines, ending) = path.read_bytes(), listings_of(path)[-1][1].read_text().splitlines()
        for what, compared in (("in its pieces", compare_recording(caller, content, 1 << 24, len(lines), ending)),
                               ("in pieces of a byte", compare_recording(caller, content, 1, len(lines), ending)),
                               ("by offers", compare_offers(caller, list(good_messages(caller, content)), len(lines))),
                               ("by a passage", compare_passage(caller, content, ending.startswith(". whole "))),
                               ("joined late", compare_joined(caller, content, len(lines)))):
            for found, wanted in compared:
                if found != wanted:
                    yield path.stem, False, f"{path.stem}, {what}: {found}, not {wanted}"
                    break
            else:
                yield path.stem, True, ""
