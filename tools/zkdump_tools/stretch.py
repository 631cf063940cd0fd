"""What the client said between two losses of its bytes, and what of it is kept (stretches.py has the rule)."""

import collections
import heapq
import math

from . import resync, zkr
from .parts import Message, Part

PING, *OTHERS = (xid.to_bytes(4, "big", signed=True) for xid in resync.LANES)
LANES = (PING, *OTHERS)
QUIET = 1000        # milliseconds without a reply after which none to an earlier ping is expected any more


class Stretch:
    """What the client said between two losses of its bytes.

    `part` takes what is said now. Where `anchored` is false it isn't known which of it is kept; then `before` is the
    part before the loss of the server's bytes, if that had any: to it belong the requests of an order below `boundary`.
    `undecided` has the requests of which it isn't known to which part they belong, by their order.

    `ordinary` has the requests that wait for their replies, the oldest first, and `waiting` those of pings, auth and
    setWatches by themselves: of each its xid and its order. Where the bytes are written as they come, `direct`, they
    have in place of the order where the frame begins among the client's bytes in the recording, its size, and its
    packet's number and time.
    """

    def __init__(self, all_of_them, part, owed=0):
        self.all, self.part, self.before, self.boundary = all_of_them, part, None, 0
        self.anchored = self.matched = self.direct = part.whole
        # Whether the client's bytes after it are lost, and whether the reply to its connect request may come.
        self.closed = self.connecting = False
        self.undecided, self.ordinary = collections.OrderedDict(), collections.deque()
        self.waiting = {xid: collections.deque() for xid in LANES}
        # How many replies to pings may be to pings from before it (of a capture that begins later: any number), and how
        # many had come when that was so; how many pings were sent since the last one; whether the reply to one alone is
        # certain; and the order of the last ordinary request.
        self.owed, self.counted, self.since, self.certain, self.asked = owed, all_of_them.pongs, 0, False, 0
        # By the xid of those that may have been answered before the first certain reply: how many requests are left out
        # for that, and the order of the last one.
        self.doubtful = {}

    def note(self, side, xid, *found):
        """Notes a frame with this xid that is written directly; of a request `found` is what `ordinary` has besides."""
        lane = self.waiting.get(xid, self.ordinary)
        if side == zkr.CLIENT:
            lane.append((xid, *found))
        elif lane and lane[0][0] == xid:
            lane.popleft()

    def waits(self):
        """Whether replies to what is in it may still come."""
        return self.connecting or bool(self.undecided or self.ordinary) or any(self.waiting.values())

    def is_empty(self):
        """Whether a loss of the client's bytes changes nothing that is known of it."""
        return not (self.anchored or self.before or self.undecided or self.part.later)

    def ask(self, message):
        """Takes a request."""
        xid = message.xid()
        lane = self.waiting.get(xid)
        if lane is None:
            lane, self.asked = self.ordinary, message.order
            self.all.asked.setdefault(xid, collections.deque()).append((self, message.order))
        elif self.anchored and xid in self.doubtful:
            self.doubtful[xid] = self.doubtful[xid][0] + 1, message.order
            self.skip(message)
            return
        elif xid == PING and not self.anchored:
            self.since += 1
            self.certain = self.since == 1 and self.asked <= self.all.gap
            if self.since == 1:
                self.all.pinged.append(self)
        lane.append((xid, message.order))
        self.undecided[message.order] = message
        self.all.hold(message)

    def answer(self, reply, is_last):
        """Takes a reply, where it is anchored and its request is here. Where no loss follows it, and it has a reply, it
        also takes an ordinary one without a request: that is a fault, which the recording is to show."""
        xid = reply.xid()
        lane = self.waiting.get(xid, self.ordinary)
        if not lane or lane[0][0] != xid:
            if xid in LANES or not (is_last and self.matched):
                return False
        elif self.direct:
            lane.popleft()
        else:
            self.decide(lane.popleft()[1], lane is self.ordinary)
        self.matched |= xid not in LANES
        self.keep(reply)
        return True

    def keep(self, message):
        """Takes what certainly belongs to its part."""
        if self.direct:
            self.all.put(self.part, message)
        elif self.undecided:
            heapq.heappush(self.part.later, message)
            self.all.hold(message)
            self.flush()
        else:
            self.flush()        # of all that waits this came last
            self.all.put(self.part, message)

    def decide(self, order, and_before):
        """A request of this order belongs to its part; where it is an ordinary one, so do those before it."""
        undecided = self.undecided
        while and_before and undecided and (first := next(iter(undecided))) < order:
            heapq.heappush(self.part.later, self.forget(first))
        if order in undecided:
            heapq.heappush(self.part.later, self.forget(order))
        if and_before and self.doubtful:
            self.forget_doubts(order)

    def forget_doubts(self, order):
        """An ordinary request of this order has its reply, and so have all that were left out before it."""
        self.doubtful = {xid: found for xid, found in self.doubtful.items() if found[1] > order}

    def forget(self, order):
        """The request of this order, which is no longer undecided."""
        message = self.undecided.pop(order)
        xid = message.xid()
        if xid not in LANES:
            found = self.all.asked[xid]
            found.remove((self, order))
            if not found:
                del self.all.asked[xid]
        return message

    def flush(self, part=None):
        """Writes what comes before the first request that is undecided."""
        part = part or self.part
        first = next(iter(self.undecided)) if self.undecided else math.inf
        while part.later and part.later[0].order < first:
            self.all.write(part, heapq.heappop(part.later))

    def skip(self, message, held=False):
        """Leaves a request out."""
        self.part.skipped[zkr.CLIENT] += len(message.data)
        if held:
            self.all.let_go(message)

    def leave(self, order):
        """Leaves the request of this order to the part before the loss, or out."""
        message = self.forget(order)
        if order < self.boundary:
            heapq.heappush(self.before.later, message)
        else:
            self.skip(message, True)

    def anchor(self, order, is_ping=False):
        """Keeps what was held back from the request of this order on, whose reply is certain."""
        while (first := next(iter(self.undecided))) < order:
            self.leave(first)
        for lane in (self.ordinary, *self.waiting.values()):
            while lane and lane[0][1] < order:
                lane.popleft()
        self.forget_doubts(order)
        for xid in LANES:
            lane, since = self.waiting[xid], max(self.all.gap, self.all.unasked.get(xid, 0))
            if xid != PING if is_ping else xid in self.doubtful or lane and lane[0][1] < since:
                count, last = self.doubtful.get(xid, (0, order))
                self.doubtful[xid] = count + len(lane), lane[-1][1] if lane else last
                while lane:
                    self.leave(lane.popleft()[1])
        self.anchored, self.matched = True, False
        self.end_before()

    def end_before(self):
        """Ends the part before the loss, which has all that belongs to it."""
        before, self.before, self.boundary = self.before, None, 0
        if before:
            self.all.end([before], self.part)

    def pings_due(self):
        """How many replies may still be sent to pings in it, and to those from before it."""
        due = len(self.waiting[PING])
        return due + self.doubtful.get(PING, (0,))[0] if self.anchored else \
            max(0, due + self.owed - (self.all.pongs - self.counted))

    def is_certain(self):
        """Whether the next reply to a ping is certainly one to the last ping of it."""
        come = self.all.pongs - self.counted
        if self.anchored or self.since != 1 or not self.certain or come == 0 or not self.waiting[PING]:
            return False
        asked = self.undecided[self.waiting[PING][-1][1]].milliseconds
        return come >= self.owed + len(self.waiting[PING]) - 1 or asked - self.all.pong_time >= QUIET

    def lose_replies(self, number, milliseconds, begun):
        """Bytes of the server are lost: a further reply belongs to what is held back. `begun` is how many bytes of the
        client's next frame are written."""
        self.owed = self.doubtful.get(PING, (0,))[0] if self.anchored else \
            max(0, self.owed - (self.all.pongs - self.counted))
        self.counted, self.since, self.connecting = self.all.pongs, 0, False
        if not self.anchored:
            return
        if self.direct:
            self.take_back(begun)
        self.anchored, self.before, self.boundary = False, self.part, self.all.next()
        self.before.holes.add(zkr.SERVER)
        self.part = Part(number, milliseconds)
        if self.closed:
            self.part.holes.add(zkr.CLIENT)
        for lane in (self.ordinary, *self.waiting.values()):
            while lane and lane[0][1] not in self.undecided:
                self.owed += lane.popleft()[0] == PING
        if not self.ordinary:
            self.owed += len(self.waiting[PING])
            for lane in self.waiting.values():
                lane.clear()
            while self.undecided:
                self.leave(next(iter(self.undecided)))
            self.end_before()

    def take_back(self, begun):
        """Takes the requests that wait out of the recording again, and all that was written after them."""
        lanes, self.direct = [self.ordinary, *self.waiting.values()], False
        every = sorted((each for lane in lanes for each in lane), key=lambda each: each[1])
        for lane in lanes:
            lane.clear()
        if not self.part.recording:
            return
        written = self.part.recording.count[zkr.CLIENT]
        spans = [each[1:3] for each in every] + [(written - begun, begun)] * (begun > 0)
        for at, side, milliseconds, data in self.part.recording.take_back(spans):
            if at is None:
                message = Message(self.all.next(), side, None, milliseconds, data)
                heapq.heappush(self.part.later, message)
                self.all.hold(message)
            elif at < len(every):
                self.ask(Message(self.all.next(), side, *every[at][3:], data))
        self.flush()

    def bound(self):
        """Lets the oldest of what waits go: to its part, or out. False where nothing waits any more."""
        if self.undecided:
            order, message = next(iter(self.undecided.items()))
            if self.anchored:
                self.decide(order, False)
            else:
                self.waiting.get(message.xid(), self.ordinary).popleft()
                self.owed += message.xid() == PING
                self.leave(order)
        if self.before and not (self.undecided and next(iter(self.undecided)) < self.boundary):
            self.end_before()
        if self.before:
            self.flush(self.before)
        elif self.anchored or not self.undecided:
            self.flush()
        return bool(self.undecided or self.part.later)

    def end(self, over):
        """Ends it, since the replies to another one come or because the connection is `over`. Returns its parts that
        weren't ended before."""
        if not self.direct:
            self.part.overlooked |= any(
                self.boundary <= order < max(self.all.gap, self.all.unasked.get(xid, 0))
                for lane in (self.ordinary, *self.waiting.values()) for xid, order in lane)
        while self.undecided:
            order = next(iter(self.undecided))
            if self.anchored or over and order >= self.boundary:
                heapq.heappush(self.part.later, self.forget(order))
            else:
                self.leave(order)
        self.since = 0
        return [part for part in (self.before, self.part) if part]
