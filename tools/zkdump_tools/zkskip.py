"""Leaves out of a recording the requests that a release lacks, with their replies, so that zkdump reads all the rest.

    zkskip.py [--profile RELEASE] [--limit N] REC.zkr PLAIN.zkr
    zkskip.py [--profile RELEASE] [--limit N] < REC.zkr > PLAIN.zkr

Left out are operations of later releases and of SASL, a check outside a multi, multis with parts of later releases, and
auth under another xid than -4, which some Go clients send. Each has a line on standard error. Operations that no
release has stay, and so does everything else. The new recording has the format of the old one, in a ZKR2 recording's
head that profile, and one frame a piece, in the order of their last bytes; from where a side can no longer be cut into
frames, its bytes stay as they are. If REC.zkr.times exists, PLAIN.zkr.times is written, too. Neither new file may exist
already.
"""

import collections
import os
import struct
import sys

from . import contents, facts, operations, packed, zkr

OF_PROFILE = {profile: {each.number for each in operations.ALL if each.release and each.release <= profile}
              for profile in zkr.PROFILES}
OTHERS = {each.number: each.name for each in operations.ALL if each.release != "3.4"}
MULTI, AUTH = 14, 100
EVENT_XID, AUTH_XID = -1, -4
GATHERED = 1 << 16
# The kinds of the fields of a multi's parts.
PARTS = {operations.BY_NAME[name].number: operations.kinds(operations.BY_NAME[name].request)
         for name in ("create", "delete", "setData", "check")}


def int_at(payload, at):
    return struct.unpack_from(">i", payload, at)[0]


def after(payload, at, items):
    """The place after items of these kinds."""
    for item in items:
        if item == "acls":
            entries, at = int_at(payload, at), at + 4
            for _ in range(entries):
                at = after(payload, at, ("number", "text", "text"))
        else:
            at += 4 + (0 if item == "number" else max(0, int_at(payload, at)))
    return at


def later_part(payload):
    """The operation of the first part of a multi that it can't have in these releases; None if there is none."""
    at = 8
    try:
        while (kind := int_at(payload, at)) in PARTS:
            at = after(payload, at + 9, PARTS[kind])
    except struct.error:
        return None
    return OTHERS.get(kind)


def lacking(payload, operations):
    """What in a request a release with these operations lacks; None if it lacks nothing, or no release has it."""
    xid, kind = struct.unpack_from(">ii", payload)
    if kind == AUTH and xid != AUTH_XID:
        return "auth under an ordinary xid"
    if kind == MULTI and (part := later_part(payload)):
        return f"multi with {part}"
    return OTHERS.get(kind) if kind not in operations else None


class Turns:
    """Decides which frames stay, by these operations. A reply answers the oldest request of its xid. `waiting` has by the
    xid of each request that waits when it came, and why it is left out, or None."""

    def __init__(self, operations):
        self.operations, self.waiting = operations, collections.defaultdict(collections.deque)
        self.requests = self.replies = 0

    def is_connect(self, frame):
        """Whether this is a connect message, which has no xid."""
        return frame.number == 0

    def lacking(self, payload):
        """Why a request is left out, or None."""
        return lacking(payload, self.operations)

    def turn(self, frame):
        """Of a frame: when its request came, if it is a reply, and why it is left out; None for either."""
        is_connect = self.is_connect(frame)
        if not is_connect and len(frame.payload) < 8:
            return None, None
        xid = None if is_connect else int_at(frame.payload, 0)
        if frame.side == zkr.CLIENT:
            lacks = None if is_connect else self.lacking(frame.payload)
            self.waiting[xid].append((frame.milliseconds, lacks))
            self.requests += bool(lacks)
            return None, lacks
        if xid == EVENT_XID:
            return None, None
        requests = self.waiting.get(xid)
        asked, lacks = requests.popleft() if requests else (None, None)
        if not requests:
            self.waiting.pop(xid, None)
        self.replies += bool(lacks)
        return asked, lacks


def line_of(frame, lacks):
    """The line of a frame that is left out for this."""
    return (f"left out: {frame.side.decode()} frame={frame.number} xid={int_at(frame.payload, 0)} {lacks}, "
            f"{len(frame.payload)} bytes")


class Skipping(Turns):
    """The same of sides with the limits of this head, which it cuts into frames. `left_out` is called with the line of
    each frame that doesn't stay."""

    def __init__(self, operations, head, left_out):
        super().__init__(operations)
        self.cutter, self.left_out = zkr.Cutter(head), left_out

    def take(self, piece):
        """The frames that are whole with this piece and stay, as bytes; of a side that can't be cut, all its bytes."""
        for frame in self.cutter.take(piece):
            _, lacks = self.turn(frame)
            if lacks:
                self.left_out(line_of(frame, lacks))
            else:
                yield frame.whole()
        if piece.side in self.cutter.broken:
            yield self.rest(piece.side)

    def rest(self, side):
        """What is held of a side: a frame's beginning, or what can't be cut into frames."""
        held = bytes(self.cutter.held[side])
        self.cutter.held[side].clear()
        return held


class StandardOutput:
    """A recording on standard output, with the methods of zkr.Writer."""

    def __init__(self, head):
        self.head, self.file = head, sys.stdout.buffer
        self.file.write(head.to_bytes())

    def piece(self, side, milliseconds, data):
        for at in range(0, len(data), zkr.LARGEST_PIECE):
            self.file.write(self.head.piece(side, milliseconds, data[at:at + zkr.LARGEST_PIECE]))

    def close(self):
        self.file.flush()


def skip(pieces, times, out, skipping):
    """Writes the recording again, without the frames that don't stay. `times` are those of its pieces, or None."""
    milliseconds, damage = 0, None
    progress, done = zkr.Progress("zkskip"), 0
    try:
        for piece in pieces:
            milliseconds = float(next(times)) if times else piece.milliseconds or 0
            for data in skipping.take(piece):
                out.piece(piece.side, milliseconds, data)
            done += len(piece.data)
            progress.show(lambda: f"{done:,} bytes")
    except zkr.Damaged as found:
        damage = found
    finally:
        progress.end()
    for side in (zkr.CLIENT, zkr.SERVER):
        out.piece(side, milliseconds, skipping.rest(side))
    if damage:
        raise damage


def main():
    parser = zkr.Words(__doc__)
    parser.add_argument("source", metavar="REC.zkr", nargs="?", help="the recording; else standard input")
    parser.add_argument("target", metavar="PLAIN.zkr", nargs="?", help="the new recording; else standard output")
    parser.add_argument("--profile", choices=OF_PROFILE,
                        help="the release whose operations stay (that in the head of a ZKR2 recording, else 3.4, as for "
                        "zkdump)")
    parser.add_number("--limit", zkr.LIMITS, default=zkr.LIMITS[-1],
                      help=f"the greatest payload of a frame ({zkr.LIMITS[-1]})")
    words = parser.parse_args()
    if words.source and not words.target:
        parser.error("name the new recording, too: REC.zkr PLAIN.zkr")
    source = words.source
    try:
        if source:
            with packed.recording(source) as words.source, open(words.source, "rb") as stream:
                skip_all(words, stream)
        else:
            skip_all(words, zkr.standard_input())
    except zkr.Damaged as damage:
        raise ValueError(f"{source or 'standard input'}: {damage}") from None
    return 0


def skip_all(words, stream):
    """Writes the new recording that these arguments name, of the one in this stream."""
    recording = zkr.Reader(stream)
    has_times = words.source and os.path.exists(zkr.times_path(words.source))
    times = contents.times_beside(words.source) if has_times else None
    known = facts.facts_of(words.source) if words.source else None
    profile = words.profile or known and known.profile or zkr.RELEASES[recording.head.profile]
    skipping = Skipping(OF_PROFILE[profile], zkr.Head(client_limit=words.limit, server_limit=words.limit), zkr.report)
    head = recording.head._replace(profile=zkr.PROFILES[profile])
    if words.target:
        out = zkr.Writer(words.target, head, times is not None, GATHERED)
    else:
        out = StandardOutput(head)
    try:
        skip(recording, times, out, skipping)
    except (OSError, MemoryError, KeyboardInterrupt):
        known = None        # they are of the whole recording
        raise
    finally:
        out.close()
        if known and words.target:
            out.write_facts(known._replace(profile=known.profile and profile))
        zkr.report(f"left out: {skipping.requests} requests, {skipping.replies} replies")
