"""What the recordings keep of a connection of which bytes were not captured.

A stretch is what the client said between two losses of its own bytes. It begins with the connection, or else in the
middle: then, and after a loss of the server's bytes, it isn't known which replies belong to which of its requests. So
all is held back until the first reply whose request is certain: an ordinary one, with the xid of a single request that
waits; or one to a ping, where it isn't the first to a ping, one ping alone was sent since that, and no other reply is
due that would come before it. From this request on every request is kept, since all that the server says after it is
there. Replies without their requests are left out. Events are kept in any case.

What is kept goes into a part, which has a recording of its own. One that follows a loss begins with the request of the
first certain reply; what was asked before that request stays in the part before the loss, its reply not captured, or is
left out if it was asked between two losses. A part that begins with the connection is written as its bytes come. Of
others, and of that one after a loss of the server's bytes, a request is written once it is known to which part it
belongs, as it is with its reply; until then whatever was captured after it waits. So a loss costs no more where more
requests wait.

A server answers pings, auths and setWatches before ordinary requests that were asked after them: this is assumed where
replies are lost. It may answer them before ordinary requests that were asked before them.
"""

import heapq
import math

from . import resync, zkr
from .parts import Part
from .stretch import LANES, PING, Stretch
from .streams import SIDES

MOST_STRETCHES, MOST_WITH_XID, LEAST_REQUEST = 4096, 16, 12
MESSAGE_COST = 512  # the memory of a message that waits, without its bytes


class Stretches:
    """The stretches of a connection, `list`, the oldest first: the client continues with the last one, those before it
    wait for replies. Calls `put(part, message)` with what is kept, in its order, and `report(part)` where the recording
    of a part ends. `budget` counts the bytes that wait, of all connections.

    `asked` has the ordinary requests that are undecided, by their xid; and `pinged` the stretches with pings since the
    last reply to one. `pongs` counts those replies, of which the last came at `pong_time`. `gap` is the order of the
    last bytes of the server that were lost or left out, and `unasked` by the xid that of the last reply to a ping, auth
    or setWatches that was.
    """

    def __init__(self, put, report, budget, first, began, late):
        self.put, self.report, self.budget, self.held, self.count = put, report, budget, 0, 0
        self.pongs, self.pong_time, self.pinged, self.asked, self.gap, self.unasked = 0, -math.inf, [], {}, 0, {}
        self.list = [Stretch(self, Part(first, began, not late), math.inf if late else 0)]

    def next(self):
        """The order of what comes next."""
        self.count += 1
        return self.count

    def hold(self, message):
        """Counts a message that waits."""
        size = len(message.data) + MESSAGE_COST
        self.held += size
        self.budget.held += size
        if self.budget.held > self.budget.most:
            for stretch in self.list[:]:
                while self.budget.held > self.budget.most and stretch.bound():
                    pass

    def let_go(self, message):
        """Counts one that no longer waits."""
        size = len(message.data) + MESSAGE_COST
        self.held -= size
        self.budget.held -= size

    def write(self, part, message):
        """Writes what waited."""
        self.let_go(message)
        self.put(part, message)

    def ask(self, message):
        """Takes a request."""
        self.list[-1].ask(message)

    def take_event(self, event):
        """Takes an event."""
        first = self.list[0]
        if first.anchored:
            first.keep(event)
        else:
            heapq.heappush(first.part.later, event)
            self.hold(event)

    def answer(self, reply):
        """Takes a reply, or leaves it out. The sides whose frames were certainly found, by this reply."""
        first, xid = self.list[0], reply.xid()
        taker = first if first.anchored and first.answer(reply, first is self.list[-1]) else self.anchored_by(reply)
        if xid == PING:
            self.pongs, self.pong_time = self.pongs + 1, reply.milliseconds
            for stretch in self.pinged:
                stretch.since = 0
            self.pinged.clear()
        if taker:
            return SIDES if taker is self.list[-1] else (zkr.SERVER,)
        self.list[-1].part.unasked += 1
        if xid in LANES:
            self.unasked[xid] = reply.order
        elif xid in self.asked:
            self.gap = reply.order
        return ()

    def anchored_by(self, reply):
        """The stretch with the request to which this reply certainly is, from which on it is kept now; None if that
        isn't known."""
        xid = reply.xid()
        if xid == PING:
            found = [(each, each.waiting[PING][-1][1]) for each in self.pinged
                     if each.is_certain() and not self.waits_before(each)]
        else:
            found = self.asked.get(xid, ())
            found = [(each, order) for each, order in found if not each.anchored] if len(found) <= MOST_WITH_XID else ()
            found = [(each, order) for each, order in found if order >= each.boundary] or found
            if len(found) != 1 or not resync.may_answer(found[0][0].undecided[found[0][1]].data[4:], reply.data[4:]):
                return None
        if not found:
            return None
        taker, order = found[0]
        taker.anchor(order, xid == PING)
        while self.list[0] is not taker:
            self.end_first()
        taker.answer(reply, taker is self.list[-1])
        return taker

    def waits_before(self, stretch):
        """Whether a reply is due to an ordinary request of a stretch before this one."""
        for each in self.list:
            if each is stretch:
                return False
            if each.ordinary and (each.direct or each.ordinary[-1][1] > self.gap):
                return True
        return False

    def skip(self, side, size):
        """Leaves bytes out."""
        self.list[-1].part.skipped[side] += size
        if side == zkr.SERVER and size > 0:
            self.gap = self.next()

    def lose_requests(self, size, number, milliseconds):
        """Bytes of the client are lost."""
        last = self.list[-1]
        if not last.is_empty():
            last.closed = True
            last.part.holes.add(zkr.CLIENT)
            self.list.append(Stretch(self, Part(number, milliseconds), last.pings_due()))
        self.list[-1].owed += size // LEAST_REQUEST
        self.list[-1].part.lost[zkr.CLIENT] += size
        if len(self.list) > MOST_STRETCHES:
            self.list[0].part.overlooked |= self.list[0].waits()
            self.end_first()

    def lose_replies(self, size, number, milliseconds, begun):
        """Bytes of the server are lost; of the client's next frame `size` bytes are written."""
        for stretch in self.list:
            stretch.lose_replies(number, milliseconds, begun)
        self.list[0].part.lost[zkr.SERVER] += size
        self.gap = self.next()
        self.pinged.clear()

    def end_settled(self):
        """Ends the stretches that no longer wait for a reply."""
        while len(self.list) > 1 and not self.list[0].waits():
            self.end_first()

    def end_first(self):
        """Ends the first stretch, which has another after it."""
        parts, after = self.list.pop(0).end(False), self.list[0]
        self.end(parts, after.before or after.part)

    def end(self, parts, last):
        """Ends these parts, after which this one comes."""
        for part, after in zip(parts, [*parts[1:], last]):
            self.flush(part)
            if part.recording:
                self.report(part)
            else:
                after.join(part)

    def flush(self, part):
        """Writes all that belongs to a part."""
        while part.later:
            self.write(part, heapq.heappop(part.later))

    def finish(self, lacking):
        """Ends all: the connection is over, and bytes of these sides are missing at its end. Returns the last part."""
        parts = []
        for stretch in self.list:
            waits = stretch.waits()
            ended = stretch.end(True)
            if zkr.SERVER in lacking and waits:
                ended[-1].holes.add(zkr.SERVER)
            parts += ended
        last = parts.pop()
        last.holes |= lacking
        self.end(parts, last)
        self.flush(last)
        return last
