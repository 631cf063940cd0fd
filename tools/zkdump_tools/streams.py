"""The two sides of a TCP connection out of its segments, put into one order.

Bytes are passed on only after everything that their sender had acknowledged, so that no reply comes before its request,
in whatever order packets were captured. Where bytes are missing, those after them wait: the missing ones may have been
captured later. They count as lost once the connection is over, or once too much waits; what follows them is then passed
on.
"""

import bisect
import collections
import heapq
from typing import NamedTuple

from . import zkr
from .packets import ACK, FIN, RST, SYN

SIDES = (zkr.CLIENT, zkr.SERVER)
WRAP, MASK = 1 << 31, (1 << 32) - 1
# The memory of a part that waits, without its bytes.
PART_COST = 256
# A segment without bytes counts only where one of its numbers is near those that are known.
NEAR = 1 << 24


class Part(NamedTuple):
    """Bytes of one side in their place. `follows` is the number of bytes of the other side before them: what their
    sender had acknowledged. `number` is that of their packet. Places count from the first byte of the side. A part
    without bytes is a hole: `lost` bytes that were not captured."""
    place: int
    follows: int
    number: int
    milliseconds: float
    data: bytes
    lost: int = 0


class Budget:
    """How many bytes wait, of all connections, and how many may."""

    def __init__(self, most):
        self.held, self.most = 0, most


class Half:
    """One side of a connection: puts what was captured in order.

    `opened` says whether its SYN was captured. `first` and `next` are the sequence numbers of its first byte and after
    the bytes that are in order, or -1; `place` is the place of the latter. `apart` has what came out of order. `ready`
    has what is in order and waits for the other side's bytes that it follows. `written` is the place up to which bytes
    were passed on, `sent` that up to which it sent some, where these were not captured whole, `after` that of the last
    segment without bytes, `end` that of the side's end, and `fin` what is known of the first segment with a FIN.
    `spans` has where what came out of order begins and ends, without those of it that touch or overlap, in order; of
    the first `passed` of them nothing is `apart` any more.
    """

    __slots__ = ("stream", "side", "other", "opened", "first", "next", "place", "written", "sent", "end", "fin",
                 "acknowledged", "after", "apart", "spans", "passed", "ready")

    def __init__(self, stream, side):
        self.stream, self.side, self.other, self.first, self.next, self.end = stream, side, None, -1, -1, None
        self.opened, self.fin = False, None
        self.place = self.written = self.sent = self.acknowledged = self.after = self.passed = 0
        self.apart = self.spans = self.ready = ()

    def take(self, number, milliseconds, sequence, acknowledged, flags, data, snapped):
        """Takes a segment of this side. True where the connection may be over now, or too much waits."""
        stream, other = self.stream, self.other
        stream.last = number
        stream.last_time = milliseconds
        if sequence == self.next and flags & 23 == ACK and not (stream.held or stream.reset or snapped) \
                and (acknowledged == other.next or 0 <= other.next and acknowledged - other.next & MASK >= WRAP):
            # Everything before it is there on both sides, as nearly always.
            if data:
                size = len(data)
                self.place += size
                self.written += size
                self.next = sequence + size & MASK
                stream.sink.piece(self.side, number, milliseconds, data)
            return False
        return self.take_any(number, milliseconds, sequence, acknowledged, flags, data, snapped)

    def take_any(self, number, milliseconds, sequence, acknowledged, flags, data, snapped):
        """Takes a segment of any place."""
        stream, other = self.stream, self.other
        if flags & SYN:
            sequence = sequence + 1 & MASK
            stream.resent += self.opened
            self.opened = True
        elif (flags & RST or not (data or snapped)) and not (
                self.is_near(sequence) if self.next >= 0 else not (other.opened and flags & ACK)) \
                and not (flags & ACK and other.next >= 0 and other.is_near(acknowledged)):
            return False  # it is of a connection with the same ports, which one side alone still knows
        if self.next < 0:
            self.begin(sequence)
        stream.snapped |= snapped > 0
        follows = 0
        if flags & ACK:
            if other.next < 0:
                other.begin(acknowledged)
            follows = other.place_of(acknowledged)
            other.acknowledged = max(other.acknowledged, follows)
        place = self.place_of(sequence)
        after = place + len(data) + snapped
        if flags & FIN:
            stream.resent += self.fin is not None and not data
            self.end = after
            self.fin = self.fin or Part(place, follows, number, milliseconds, b"")
        if flags & RST:
            if not stream.has_ended():
                stream.resets(self.side, place, milliseconds)
        elif data or snapped:
            if stream.reset and place >= stream.reset_at and stream.reset == self.side:
                stream.reset = ""  # that reset was not one of this connection
            if snapped:
                self.sent = max(self.sent, after)
            if data:
                self.put(Part(place, follows, number, milliseconds, data))
        else:
            self.after = max(self.after, place)
        stream.write()
        return bool(self.fin or other.fin or stream.reset or stream.budget.held > stream.budget.most)

    def begin(self, sequence):
        """This half begins with this number: nothing was known of it."""
        self.first = self.next = sequence

    def place_of(self, sequence):
        """The place of a sequence number: of all places with that number modulo 2^32, the nearest to `place`."""
        return self.place + (sequence - self.next + WRAP & MASK) - WRAP

    def is_near(self, sequence):
        """Whether a sequence number is near those of the bytes that are known, in order or not."""
        place = self.place_of(sequence)
        last = self.spans[-1] if self.spans else ()
        return any(abs(place - known) < NEAR for known in (self.place, self.sent, self.acknowledged, *last))

    def put(self, part):
        """Takes bytes of any place."""
        size = len(part.data)
        end, ends = part.place + size, (self.place, self.spans[-1][1] if self.spans else 0)
        again = part.place < self.place and 0 < end
        if end > self.place and (again or self.apart or part.place > self.place):
            again |= self.cover(part.place, end)
        # The last byte alone asks whether the other end is alive.
        self.stream.resent += again and not (size == 1 and end in ends)
        if end <= self.place:
            return
        self.stream.hold(size + PART_COST)
        if part.place == self.place and not self.apart:
            self.add(part, size)
            return
        if not self.apart:
            self.apart = []
        heapq.heappush(self.apart, part)
        if part.place <= self.place:
            self.sort(part.milliseconds)

    def cover(self, begin, end):
        """Notes that what came out of order has these places. Returns whether some of them were there before."""
        spans = self.spans = self.spans or []
        if not spans or spans[-1][1] < begin:
            spans.append((begin, end))
            return False
        if spans[-1][1] == begin:
            spans[-1] = spans[-1][0], end
            return False
        if begin <= self.place and end <= spans[self.passed][0]:
            return False    # it is in order at once
        at = bisect.bisect_left(spans, (begin,), self.passed)
        after = bisect.bisect_left(spans, (end + 1,), at)
        at -= at > self.passed and spans[at - 1][1] >= begin
        touched = spans[at:after]
        places = [begin, end, *(place for span in touched for place in span)]
        spans[at:after] = [(min(places), max(places))]
        return any(span[0] < end and begin < span[1] for span in touched)

    def sort(self, milliseconds=0):
        """Moves what is in order now from `apart` to `ready`: since this time, at the earliest, as its receiver could
        not read it before."""
        while self.apart and self.apart[0].place <= self.place:
            part = heapq.heappop(self.apart)
            if part.milliseconds < milliseconds:
                part = Part(*part[:3], milliseconds, part.data)
            if part.place < self.place:
                data = part.data[self.place - part.place:]
                self.stream.hold(len(data) - len(part.data))
                part = part._replace(place=self.place, data=data)
            if part.data:
                self.add(part, len(part.data))
            else:
                self.stream.hold(-PART_COST)
        while self.passed < len(self.spans) and self.spans[self.passed][1] <= self.place:
            self.passed += 1
        if 2 * self.passed > len(self.spans):   # else each would move all that are left
            del self.spans[:self.passed]
            self.passed = 0

    def add(self, part, size):
        if not self.ready:
            self.ready = collections.deque()
        self.ready.append(part)
        self.place += size
        self.next = self.next + size & MASK

    def lose(self, size, number, milliseconds):
        """Counts the next `size` bytes as lost."""
        self.add(Part(self.place, 0, number, milliseconds, b"", size), size)
        self.stream.hold(PART_COST)
        self.sort()

    def reached(self):
        """How many bytes of this half were passed on; its end counts as one more."""
        return self.written + (self.end == self.written)

    def lacks(self):
        """Whether bytes are known to be missing at the end: the other side acknowledged them, or a segment of this side
        has a number after them. One number more is that of the end, which may not have been captured."""
        reset_at = self.stream.reset_at if self.stream.reset == self.side else 0
        more = self.end is not None or self.stream.sink.may_end(self.side)
        return max(self.end or 0, self.sent) > self.place or \
            max(self.acknowledged, self.after, reset_at) > self.place + more


class Stream:
    """A connection. It gives `sink.piece(side, number, milliseconds, data)` the bytes, in order, and
    `sink.hole(side, size)` where bytes are lost. `sink.may_end(side)` says whether a side may end after what it has."""

    __slots__ = ("sink", "budget", "halves", "ends", "first", "begun", "last", "last_time", "held", "snapped", "resent",
                 "reset", "reset_at", "reset_time")

    def __init__(self, sink, budget, number, milliseconds):
        self.sink, self.budget, self.first, self.begun, self.last, self.last_time = \
            sink, budget, number, milliseconds, number, milliseconds
        client, server = self.halves = Half(self, zkr.CLIENT), Half(self, zkr.SERVER)
        client.other, server.other = server, client
        self.held, self.resent, self.snapped = 0, 0, False
        self.reset, self.reset_at, self.reset_time = "", 0, None

    def hold(self, size):
        """Counts bytes that wait, here and in the budget of all connections."""
        self.held += size
        self.budget.held += size

    def resets(self, side, place, milliseconds):
        """Takes a reset; what the other side had sent by then may still come."""
        if not self.reset:
            self.reset, self.reset_at, self.reset_time = side, place, milliseconds

    def write(self):
        """Passes on what is in order on its side, once what it follows was passed on."""
        client, server = self.halves
        while client.ready or server.ready:
            half = self.next_half()
            if not half:
                return
            part = half.ready.popleft()
            self.hold(-len(part.data) - PART_COST)
            if part.lost:
                half.written += part.lost
                self.sink.hole(half.side, part.lost)
            else:
                half.written += len(part.data)
                self.sink.piece(half.side, part.number, part.milliseconds, part.data)

    def next_half(self):
        """The half whose bytes are passed on next: of those that have to wait for nothing, what was captured first.
        Bytes that were captured after a hole of the other side wait for what is in it."""
        found, blocked = None, 0
        for half in self.halves:
            if half.ready:
                head, other = half.ready[0], half.other
                if head.follows > other.reached():
                    blocked += 1
                elif (head.lost or not (other.apart and other.apart[0].number < head.number)) \
                        and not (found and found.ready[0].number < head.number):
                    found = half
        # Where each waits for the other, a copy of a segment was captured whose first copy was not.
        return self.halves[0] if blocked == 2 else found

    def wanting(self):
        """The half of which bytes are missing that everything else waits for, and what waits first for them; None if
        nothing waits."""
        for half in self.halves:
            if half.ready and half.ready[0].follows > half.other.reached() and not half.other.ready:
                return half.other, half.ready[0]
        apart = [half for half in self.halves if half.apart]
        half = min(apart, key=lambda half: half.apart[0].number) if apart else None
        return half and (half, half.apart[0])

    def give_up(self):
        """Counts the bytes that everything else waits for as lost, and continues after them. False if nothing
        waits."""
        found = self.wanting()
        if not found:
            return False
        half, head = found
        size = head.place - half.place
        if not (half.apart and head is half.apart[0]):
            size = head.follows - half.place
            if half.apart:
                size = min(size, half.apart[0].place - half.place)
            elif (half.end or 0) > half.place:
                size = min(size, half.end - half.place)
            if size == 1 and not half.apart and half.end is None \
                    and max(half.sent, half.after - 1) <= half.place and self.sink.may_end(half.side):
                half.end = half.place       # one alone, with nothing after it, is the end that wasn't captured
                size = 0
        if size:
            half.lose(size, head.number, head.milliseconds)
        self.write()
        return True

    def is_overdue(self, moment, unreceived):
        """Whether something has waited since this moment for bytes that their receiver has, which are sent no more; or
        since the moment `unreceived` for others."""
        found = self.wanting()
        if not found:
            return False
        half, head = found
        is_own = half.apart and head is half.apart[0]
        is_received = half.acknowledged >= (head.place if is_own else head.follows)
        return head.milliseconds < (moment if is_received else unreceived)

    def let_go(self):
        """Breaks cycles of references, so that the memory is free at once."""
        for half in self.halves:
            half.stream = half.other = None
        self.sink.stream = self.sink = None

    def has_ended(self):
        """Whether both sides have ended, and all is passed on."""
        return all(half.end == half.written for half in self.halves)

    def is_complete(self):
        """Whether it has ended, and each end was acknowledged."""
        return self.has_ended() and all(half.acknowledged > half.end for half in self.halves)

    def closer(self):
        """The side that sent the first FIN, and its time; or None. It wasn't captured first, or not at all, where the
        other's acknowledges it; its time is then that of the other's, at the latest."""
        fins = [half for half in self.halves if half.fin]
        if not fins:
            return None
        first = min(fins, key=lambda half: half.fin.number)
        other = first.other
        if first.fin.follows > (other.end if other.fin else other.place) and (other.fin or not other.lacks()):
            return other.side, (other.fin or first.fin).milliseconds
        return first.side, first.fin.milliseconds

    def is_silent(self):
        """Whether no byte was captured."""
        return not any(half.place or half.sent or half.apart or half.ready for half in self.halves)

    def is_over(self):
        """Whether no more is expected but what was captured late."""
        return bool(self.reset) or all(half.end is not None for half in self.halves)
