"""What was captured of a connection, as recordings and as the lines that report them.

A connection has one recording up to the first bytes that were not captured, PREFIX-1.zkr, and one of what follows each
such loss, PREFIX-1.2.zkr and so on, as far as that can be known (stretches.py). The later ones begin with a made-up
connect request and connect response, with -1 for every number. A series makes the recordings and prints the lines:
pcap2zkr's makes files (recordings.py), and that of zkwatch shows what would be in them (live.py).
"""

from . import contents, facts, frames, resync, zkr
from .parts import Message, Part
from .streams import SIDES
from .stretches import Stretches

EVENT = resync.EVENT.to_bytes(4, "big", signed=True)


class Conversation:
    """The sink of a connection's stream."""

    __slots__ = ("series", "client", "server", "late", "first", "began", "stream", "cutter", "stretches", "direct",
                 "connected", "sought", "trusted", "unfinished", "holes", "number", "part", "resent", "left_out",
                 "session", "reported")

    def __init__(self, series, client, server, late, number, milliseconds):
        self.series, self.late, self.first, self.began = series, late, number, milliseconds
        self.client, self.server, self.session = client, server, None
        self.stream = self.cutter = self.number = self.holes = self.stretches = self.direct = None
        self.part, self.resent, self.unfinished, self.left_out, self.reported = 1, 0, 0, False, False

    def begin(self):
        """Begins the first stretch. As long as nothing was lost it is `direct`: its bytes are written as they come."""
        self.cutter = zkr.Cutter(self.series.head)
        self.stretches = Stretches(self.put, self.report_part, self.series.budget, self.first, self.began, self.late)
        # The sides whose connect message has passed; the sides whose frames were not found yet, with the bytes in which
        # they may be; and those whose frames were certainly found.
        self.connected, self.sought, self.trusted = set(), {}, set(SIDES)
        if self.late:
            self.connected, self.sought, self.trusted = set(SIDES), dict.fromkeys(SIDES, b""), set()
        else:
            self.direct = self.stretches.list[0]

    def piece(self, side, number, milliseconds, data):
        """Takes the next bytes of a side."""
        if self.late and not self.series.join:
            return
        if not self.stretches:
            self.begin()
        if self.holes:
            self.go_on(number, milliseconds)
        if self.direct:
            self.write(side, number, milliseconds, data)
        elif not (self.sought or self.unfinished or self.cutter.held[side]) and side in self.connected \
                and side in self.trusted and len(data) > 8 and frames.is_one(data, self.cutter.limits[side]):
            self.hear(side, number, milliseconds, data)     # it is just one frame, as nearly always
        else:
            self.take(side, number, milliseconds, data)

    def write(self, side, number, milliseconds, data):
        """Takes the next bytes of a side where nothing was lost."""
        direct, is_usual = self.direct, side in self.connected and not self.cutter.held[side] and frames.is_one(data)
        if is_usual and len(data) > 8:
            recording = direct.part.recording
            direct.note(side, data[4:8], recording.count[side], len(data), number, milliseconds)
            recording.take(side, number, milliseconds, data)
            return
        self.record(direct.part, side, number, milliseconds, data)
        whole = self.cutter.take(zkr.Piece(side, milliseconds, data))
        sizes = [4 + len(frame.payload) for frame in whole]
        place = direct.part.recording.count[side] - len(self.cutter.held[side]) - sum(sizes)
        for frame, size in zip(whole, sizes):
            if side in self.connected:
                direct.note(side, frame.payload[:4], place, size, number, milliseconds)
            elif side == zkr.CLIENT:
                direct.connecting = zkr.SERVER not in self.connected
            else:
                self.session, direct.connecting = contents.session_in(frame.payload), False
            self.connected.add(side)
            place += size
        if side in self.cutter.broken:
            self.cutter.held[side].clear()

    def take(self, side, number, milliseconds, data):
        """Takes the next bytes of a side after a loss."""
        if side in self.sought:
            data = self.found(side, data)
            if not data:
                return
        found = self.cutter.take(zkr.Piece(side, milliseconds, data))
        for at, frame in enumerate(found):
            payload, whole = frame.payload, frame.whole()
            if side not in self.connected:
                self.connect(side, number, milliseconds, whole)
            elif side == zkr.SERVER and self.unfinished:
                self.complete(number, milliseconds, whole)
            elif side in self.trusted or resync.is_plausible(side, payload, len(payload)):
                self.hear(side, number, milliseconds, whole)
            else:
                # These are no frames after all.
                self.skip(side, sum([4 + len(frame.payload) for frame in found[at:]]))
                self.seek(side)
                if side == zkr.CLIENT:
                    self.stretches.lose_requests(0, number, milliseconds)
                return
        if side in self.cutter.broken:
            stretch = self.stretches.list[-1 if side == zkr.CLIENT else 0]
            if side in self.trusted and stretch.anchored:
                begun = self.unfinished if side == zkr.SERVER else 0    # which was written before
                if data := bytes(self.cutter.held[side][begun:]):
                    stretch.keep(Message(self.stretches.next(), side, number, milliseconds, data))
                self.unfinished -= begun
                self.cutter.held[side].clear()
            else:
                self.seek(side)

    def found(self, side, data):
        """The bytes of a side from the first frame on that ends in these bytes; none where it isn't found yet."""
        before = self.sought[side]
        data, fresh = before + data, len(before)
        place, keep = resync.resynchronise(side, data, self.cutter.limits[side])
        if place is None:
            self.skip(side, keep)
            self.sought[side] = data[keep:]
            return b""
        while (end := frames.end_of(b"", 0, data, place) or frames.NEVER) <= fresh:
            place = end
        self.skip(side, place)
        del self.sought[side]
        return data[place:]

    def seek(self, side, count=True):
        """Looks for the frames of this side from here on. The beginning of a frame is left out, and counts."""
        if count:
            self.skip(side, self.waits(side))
        if side == zkr.SERVER:
            self.unfinished = 0
        self.cutter.held[side].clear()
        self.cutter.broken.discard(side)
        self.trusted.discard(side)
        self.connected.add(side)
        self.sought[side] = b""

    def waits(self, side):
        """How many bytes of a side wait for what completes them, and are not written."""
        return len(self.cutter.held[side]) + len(self.sought.get(side, b"")) - self.unfinished * (side == zkr.SERVER)

    def skip(self, side, size):
        """Leaves bytes out."""
        self.stretches.skip(side, size)

    def connect(self, side, number, milliseconds, frame):
        """Takes a connect message after a loss: the response to a request that was captured whole is kept."""
        self.connected.add(side)
        if side == zkr.CLIENT:
            self.skip(side, len(frame))     # its beginning is in the recording before the loss
            return
        first = self.stretches.list[0]
        if not self.reported:
            self.session = contents.session_in(frame[4:])
        if first.connecting:
            self.record(first.part, side, number, milliseconds, frame[self.unfinished:])
            first.connecting = False
        else:
            self.skip(side, len(frame) - self.unfinished)
        self.unfinished = 0
        self.end_settled()

    def complete(self, number, milliseconds, frame):
        """Takes a frame of the server whose beginning is in the first part already."""
        first = self.stretches.list[0]
        self.record(first.part, zkr.SERVER, number, milliseconds, frame[self.unfinished:])
        first.note(zkr.SERVER, frame[4:8])
        self.unfinished = 0
        self.end_settled()

    def hear(self, side, number, milliseconds, frame):
        """Takes a frame after a loss."""
        message = Message(self.stretches.next(), side, number, milliseconds, frame)
        if side == zkr.CLIENT:
            self.stretches.ask(message)
        elif frame[4:8] == EVENT:
            self.stretches.take_event(message)
        else:
            self.trusted.update(self.stretches.answer(message))
            self.end_settled()

    def put(self, part, message):
        """Writes a message of a part, or bytes that had been written before."""
        _, side, number, milliseconds, data = message
        if number is None:
            part.recording.piece(side, milliseconds, data)
        elif part.recording:
            part.recording.take(side, number, milliseconds, data)
        else:
            self.record(part, side, number, milliseconds, data)

    def record(self, part, side, number, milliseconds, data):
        """Writes bytes of a part."""
        if not part.recording:
            part.recording, self.number, self.part = self.series.next(self.known(part), self.number)
            part.part = self.part
            if not part.whole:
                for each in SIDES:
                    part.recording.take(each, number, milliseconds, zkr.MADE_UP[each])
        part.recording.take(side, number, milliseconds, data)

    def hole(self, side, size):
        """`size` bytes of this side were not captured."""
        if not self.late or self.series.join:
            self.holes = self.holes or dict.fromkeys(SIDES, 0)
            self.holes[side] += size

    def may_end(self, side):
        """Whether a side may end after the bytes that it has: it doesn't within a frame, as far as frames are known."""
        return not self.cutter or side in self.sought or not self.cutter.held[side]

    def go_on(self, number, milliseconds):
        """Continues after holes."""
        holes, self.holes = self.holes, None
        direct, self.direct = self.direct, None
        lost, held, is_connected = {side for side in SIDES if holes[side]}, self.cutter.held, self.connected.copy()
        if direct:
            self.unfinished = len(held[zkr.SERVER])
        for side in lost | self.cutter.broken:
            self.seek(side, not direct)
        begun = len(held[zkr.CLIENT]) if direct else 0      # its end follows, if that isn't lost
        if zkr.CLIENT in lost:
            self.stretches.lose_requests(holes[zkr.CLIENT], number, milliseconds)
        if zkr.SERVER in lost:
            self.stretches.lose_replies(holes[zkr.SERVER], number, milliseconds,
                                        begun if zkr.CLIENT in is_connected else 0)
            if zkr.CLIENT not in is_connected:
                # The beginning of its connect request, which is left out, is in the recording before.
                self.skip(zkr.CLIENT, -begun)
        self.end_settled()

    def end_settled(self):
        """Ends the stretches that no longer wait for a reply."""
        if not self.unfinished and zkr.SERVER in self.connected:
            self.stretches.end_settled()

    def finish(self):
        """Ends all stretches: the connection is over."""
        stream, how, ended = self.stream, {}, self.stream.last_time
        if stream.reset:
            how, ended = {"reset": stream.reset.decode()}, stream.reset_time
        if closer := stream.closer():
            how, ended = {"closed": closer[0].decode(), **how}, closer[1]
        lacking = {half.side for half in stream.halves if half.lacks() or self.holes and self.holes[half.side]}
        last = Part(self.first, self.began, not self.late)
        last.holes = lacking
        if self.stretches:
            for side in SIDES if not self.direct else ():
                self.skip(side, self.waits(side))
            last = self.stretches.finish(lacking)
        self.report(last, stream.last, ended, how or {"open": True})
        self.stretches = self.direct = None

    def report_part(self, part):
        """Ends the recording of a part, which others follow."""
        self.report(part, *part.recording.last())

    def known(self, part):
        """The facts of a part that are known when its recording begins."""
        return facts.Facts(
            tool="pcap2zkr", client=self.client, server=self.server, connected=self.began, begun=part.began,
            part=self.part, session=self.session, profile=self.series.profile(),
            late=self.late and not any(part.lost.values()), snapped=self.stream.snapped, lost=by_letter(part.lost))

    def report(self, part, last, ended, how=None):
        """Ends the recording of a part, where there is one; writes its facts, and prints its line. `how` has the
        facts of the connection's end, where it ends here."""
        recording, lost, whole = part.recording, any(part.lost.values()), self.series.join or not self.late
        count = dict.fromkeys(SIDES, 0)
        if recording:
            recording.close()
            self.series.open.discard(recording)
            count = recording.count
        first, began = (recording.first, recording.began) if lost and recording else (part.first, part.began)
        known = self.known(part)._replace(
            begun=began, ended=ended, part=part.part, unasked=part.unasked, overlooked=part.overlooked,
            skipped=by_letter(part.skipped) if whole and not part.whole else None,
            hole=tuple(side.decode() for side in SIDES if side in part.holes and whole), **how or {})
        if recording:
            recording.write_facts(known)
        words = known.words()
        self.left_out |= len(words) > len(how or ())
        self.series.say(recording, " ".join([
            f"{self.client} > {self.server}", "begun", zkr.clock(began), "ended", zkr.clock(ended),
            f"client={count[zkr.CLIENT]}", f"server={count[zkr.SERVER]}", f"packets={first}-{last}",
            f"resent={self.stream.resent - self.resent}", *words]), ended)
        self.resent, self.reported = self.stream.resent, True


def by_letter(found):
    """What there is of each side, by the side's letter."""
    return {side.decode(): count for side, count in found.items()}
