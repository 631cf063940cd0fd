"""Reads a recording on where `zkdump show` ends at a request of an operation that its profile lacks.

It is the plain form of the library's passages (zk_through_step, docs/LIBRARY.md), which zkcolumns reads by: such
requests are left out of what `show` gets, with their replies, each in its turn, and have lines of their own in their
place. These have the operation by name or number after a question mark, no path, and of a reply the header:

    C 7 ?createTTL
    S 7 ?createTTL zxid=12 err=-110/NODEEXISTS

The numbers of the last line count what is left out.
"""

import collections
import contextlib
import itertools
import queue
import re
import struct
import subprocess
import threading
from typing import NamedTuple

from . import errors, listing, operations, zkr, zkskip

EVENT_XID, LANES = -1, (-2, -4, -8)     # the other xids have a lane together (docs/CONVERSATION.md)
NEVER_OUT = (-2, -4)                    # requests under these are never left out
BATCH = 1 << 16                         # of bytes for `show`, and a sixteenth of it of messages
AHEAD = 8                               # batches that may wait to be read
# The refusals that other bounds may take back, or that may be of a request that is left out.
GOES_ON = ("UnknownOp", "XidOp", "BadPart", "LengthRange", "QueueFull")
NEWER_PARTS = [operations.BY_NAME[name].number for name in ("create2", "createContainer", "createTTL")]
REQUEST, REPLY, PART, INT = struct.Struct(">ii"), struct.Struct(">iqi"), struct.Struct(">iBi"), struct.Struct(">i")


class Bounds(NamedTuple):
    """By what a recording is read: the release of its profile, and the greatest payload of a frame."""
    profile: str = zkr.NEWEST
    limit: int = zkr.LIMITS[-1]

    @classmethod
    def of(cls, words):
        """Those that arguments name: a tool is no guard, so the others are as wide as zkdump allows."""
        return cls(words.profile or zkr.NEWEST, words.limit or zkr.LIMITS[-1])

    def options(self):
        """The options of zkdump."""
        return ["--profile", self.profile, "--limit", str(self.limit), "--waiting", str(zkr.WAITINGS[-1])]


def add_words(parser):
    """Adds the arguments that say by what recordings are read."""
    parser.add_argument("--profile", choices=zkr.PROFILES, help="the release whose operations are decoded "
                        f"({zkr.NEWEST}); others are shown by number")
    parser.add_number("--limit", zkr.LIMITS, help=f"the greatest payload of a frame ({zkr.LIMITS[-1]})")


def has_other_head(path, words):
    """Whether the head of a recording names other bounds than these arguments do. It has those of zkdump itself."""
    try:
        with open(path, "rb") as recording:
            head = zkr.Reader(recording).head
    except zkr.Damaged:
        return False
    if head.form == "zkr1":
        return False
    return bool(words.profile and zkr.PROFILES[words.profile] != head.profile
                or words.limit and {words.limit} != {head.client_limit, head.server_limit})


def may_go_on(ending):
    """Whether more may be read after this ending of zkdump itself."""
    return ending.startswith(". refused ") and ending.rpartition("=")[2] in GOES_ON


def name_of(number):
    """The name of an operation, or its number as a text."""
    found = operations.BY_NUMBER.get(number)
    return found.name if found else str(number)


def header_words(zxid, err):
    """What a line has of a reply's header."""
    name = errors.NAMES.get(err)
    return f"zxid={zxid}" + (f" err={err}{f'/{name}' if name else ''}" if err else "")


def number_of(name):
    """The number of an operation that has this name, or that is called by its number."""
    found = operations.BY_NAME.get(name)
    return found.number if found else int(name)


def ordered(counts):
    """Counts by operation, the most frequent first, and of equally frequent ones the lesser number."""
    return dict(sorted(counts.items(), key=lambda item: (-item[1], number_of(item[0]))))


def called(name):
    """The number of an operation, and its name if it has one."""
    return f"{number_of(name)} {name}" if name in operations.BY_NAME else name


class Turn(NamedTuple):
    """A request that waits: its xid, its operation, and whether it is left out."""
    xid: int
    operation: int
    out: bool


def after(payload, at, kinds):
    """The place after items of these kinds; a ValueError where something else is there."""
    for kind in kinds:
        if kind == "acls":
            count, = INT.unpack_from(payload, at)
            at += 4
            if count < -1 or 12 * count > len(payload) - at:
                raise ValueError("this is no list")
            for _ in range(count):
                at = after(payload, at, ("number", "text", "text"))
        elif kind == "number":
            at += 4
        else:
            size, = INT.unpack_from(payload, at)
            end = at + 4 + max(0, size)
            if size < -1 or end > len(payload):
                raise ValueError("this is no text and no data")
            if kind == "text":
                payload[at + 4:end].decode()
            at = end
    return at


def has_newer_part(payload):
    """Whether a multi's first fault is a part of a later release: create2, createContainer or createTTL."""
    at = 8
    try:
        while True:
            kind, is_last, err = PART.unpack_from(payload, at)
            if is_last or err != -1:
                return False
            if kind not in zkskip.PARTS:
                return kind in NEWER_PARTS
            at = after(payload, at + PART.size, zkskip.PARTS[kind])
    except (struct.error, ValueError):
        return False


class Passage:
    """Says of each whole frame of a recording whether it is left out. `fault` is the ending line of a reply that comes
    out of its turn, after which nothing is taken."""

    def __init__(self, profile, limit):
        self.operations = zkskip.OF_PROFILE[profile]
        self.cutter = zkr.Cutter(zkr.Head(client_limit=limit, server_limit=limit))
        self.lanes, self.bytes = collections.defaultdict(collections.deque), dict.fromkeys(zkr.OTHER, 0)
        self.fault = None

    def take(self, piece):
        """The frames that are whole with this piece, each with its line if it is left out."""
        for frame in self.cutter.take(piece):
            self.bytes[frame.side] += len(frame.payload) + 4
            line = None
            if frame.number > 0:
                line = self.ask(frame) if frame.side == zkr.CLIENT else self.answer(frame)
            if self.fault:
                return
            yield frame, line

    def is_over(self):
        """Whether nothing more is to be taken."""
        return bool(self.fault or self.cutter.broken)

    def lane(self, xid):
        return self.lanes[xid if xid in LANES else None]

    def lacks(self, xid, operation, payload):
        """Whether a request is left out."""
        if operation in self.operations:
            return operation == zkskip.MULTI and xid not in LANES and has_newer_part(payload)
        return xid not in NEVER_OUT

    def ask(self, frame):
        """The line of a request, if it is left out."""
        if len(frame.payload) < REQUEST.size:
            return None
        xid, operation = REQUEST.unpack_from(frame.payload)
        if xid == EVENT_XID:
            return None
        turn = Turn(xid, operation, self.lacks(xid, operation, frame.payload))
        self.lane(xid).append(turn)
        return f"C {xid} ?{name_of(operation)}" if turn.out else None

    def answer(self, frame):
        """The line of a reply to such a request."""
        if len(frame.payload) < REPLY.size:
            return None
        xid, zxid, err = REPLY.unpack_from(frame.payload)
        if xid == EVENT_XID:
            return None
        lane = self.lane(xid)
        if not lane:
            self.refuse(frame, "Unasked")
        elif lane[0].out and lane[0].xid != xid:
            self.refuse(frame, f"XidOrder expected={lane[0].xid} got={xid}")
        elif (turn := lane.popleft()).out:
            return f"S {xid} ?{name_of(turn.operation)} {header_words(zxid, err)}"
        return None

    def refuse(self, frame, reason):
        self.fault = (f". refused side={frame.side.decode()} frame={frame.number} offset={self.bytes[frame.side]} "
                      f"place=0 reason={reason}")


def as_it_came(ending, frames, size):
    """An ending line with the numbers that it has if nothing is left out, of each side's frames and bytes that are."""
    side = zkr.SERVER if " side=S " in ending else zkr.CLIENT
    more = {"frame": frames[side], "offset": size[side], "unanswered": frames[zkr.CLIENT] - frames[zkr.SERVER]}
    return re.sub(r"(?<= )(frame|offset|unanswered)=(\d+)",
                  lambda found: f"{found[1]}={int(found[2]) + more[found[1]]}", ending)


class Feeder(threading.Thread):
    """Gives `show` what stays of a recording. `batches` has of each batch of messages, in their order, None for one
    that `show` reads, or the side, the size and the line of one that is left out; the last batch is None. `end` is then
    an ending line in place of that of `show`, or `trouble` what went wrong."""

    def __init__(self, path, passage, stdin):
        super().__init__(daemon=True)
        self.path, self.passage, self.stdin, self.batches = path, passage, stdin, queue.Queue(AHEAD)
        self.marks, self.data, self.end, self.trouble, self.is_stopped = [], bytearray(b"ZKR1"), None, None, False

    def run(self):
        try:
            with open(self.path, "rb") as recording:
                self.feed(zkr.Reader(recording))
        except BrokenPipeError:
            pass
        except (OSError, ValueError, MemoryError) as trouble:
            self.trouble = trouble
        self.put(None)
        try:
            self.stdin.close()
        except BrokenPipeError:
            pass

    def feed(self, pieces):
        passage, damage = self.passage, None
        try:
            for piece in pieces:
                for frame, line in passage.take(piece):
                    whole = frame.whole()
                    self.marks.append((frame.side, len(whole), line) if line else None)
                    if not line:
                        self.give(frame.side, whole)
                    if len(self.data) >= BATCH or len(self.marks) >= BATCH >> 4:
                        self.flush()
                if passage.is_over() or self.is_stopped:
                    break
        except zkr.Damaged as found:
            damage = found
        for side, held in passage.cutter.held.items():
            if held:
                self.give(side, held)
        self.flush()
        self.end = passage.fault or damage and f". recording offset={damage.offset} reason={damage.reason}"

    def give(self, side, data):
        for at in range(0, len(data), zkr.LARGEST_PIECE):
            part = data[at:at + zkr.LARGEST_PIECE]
            self.data += zkr.PIECE_HEADS["zkr1"].pack(side, len(part))
            self.data += part

    def put(self, batch):
        while not self.is_stopped:
            try:
                self.batches.put(batch, timeout=0.1)
                return
            except queue.Full:
                pass

    def flush(self):
        """Hands a batch over before `show` gets it, so that nothing waits for a line that comes later."""
        self.put(self.marks)
        self.stdin.write(self.data)
        self.stdin.flush()
        self.marks, self.data = [], bytearray()


def lines(zkdump, path, bounds, before_read):
    """The lines of a recording, also of what zkdump leaves out."""
    show = subprocess.Popen([zkdump, "show", *bounds.options()], stdin=subprocess.PIPE, stdout=subprocess.PIPE)
    feeder = Feeder(path, Passage(*bounds), show.stdin)
    feeder.start()
    with ended(show, path):
        try:
            yield from joined(listing.lines_of(show.stdout, before_read), feeder)
        except GeneratorExit:
            show.kill()
            raise
        finally:
            feeder.is_stopped = True
            show.stdout.close()
            feeder.join()
        if feeder.trouble:
            raise feeder.trouble


@contextlib.contextmanager
def ended(show, path):
    """Waits for the end of a process `show`, which has to have read the whole recording, unless nothing more of it is
    wanted: whoever reads has enough, or has found a fault."""
    try:
        yield
    except GeneratorExit:
        show.kill()
        raise
    finally:
        show.stdout.close()
        status = show.wait()
    if status not in (0, 1):
        raise OSError(f"{path}: {show.args[0]} show has ended with status {status}, maybe before the listing's end")


def joined(shown, feeder):
    """The lines of `show` and of what is left out, in the order in which their frames came."""
    frames, size = dict.fromkeys(zkr.OTHER, 0), dict.fromkeys(zkr.OTHER, 0)
    for mark in itertools.chain.from_iterable(iter(feeder.batches.get, None)):
        if mark:
            side, length, line = mark
            frames[side] += 1
            size[side] += length
        else:
            line = next(shown, None)
            if line is None or line.startswith("."):
                yield from [as_it_came(line, frames, size)] if line else ()
                return
        yield line
    for line in shown:
        is_refusal = line.startswith(". refused")
        yield as_it_came(line, frames, size) if is_refusal or not feeder.end else feeder.end
