"""One side of a recording, played on a connection: what zkplay.py does."""

import socket
import struct
import sys
import time

from . import facts, zkr
from .frames import LENGTH, NEVER, end_of

NAMES = {zkr.CLIENT: "client", zkr.SERVER: "server"}
PING = bytes.fromhex("00000008fffffffe0000000b")            # a whole frame: its length, the xid -2, the operation 11
PING_REPLY = bytes.fromhex("00000010fffffffe")              # the same of its reply, which has a zxid and an error, too
WHOLE_REPLY = 20
BLOCK = 65536


class Refused(ValueError):
    """The peer didn't send what was recorded, or the place of a fault isn't in the recording."""


class Position:
    """Where a side's next byte is: the number of its frame, and its place in the payload. Before the payload are the
    four bytes of the length, at the places -4 to -1."""

    def __init__(self):
        self.frame, self.place, self.begun, self.offset = 0, -LENGTH, b"", 0

    def parts(self, data):
        """Yields these bytes frame by frame, and moves past each part once it is used."""
        data = memoryview(data)
        while data:
            end = end_of(self.begun, self.place + LENGTH, data, 0, sys.maxsize)
            part, data = (bytes(data), b"") if end in (None, NEVER) else (bytes(data[:end]), data[end:])
            yield part
            self.begun = (self.begun + part)[:LENGTH]
            self.place, self.offset = self.place + len(part), self.offset + len(part)
            if len(part) == end:
                self.frame, self.place, self.begun = self.frame + 1, -LENGTH, b""

    def begins(self):
        """Whether the next byte begins a frame."""
        return self.place == -LENGTH


class Faults:
    """The faults of the own side: a wait of `delay` seconds before each piece; `flips` has bytes by frame and place,
    where None is the recorded byte with its lowest bit changed; at `end`, a frame and a place, it ends its side, or
    resets the connection where `reset` is true."""

    def __init__(self, delay=0, flips=(), end=None, reset=False):
        self.delay, self.flips, self.end, self.reset = delay, dict(flips), end, reset


class Play:
    """One connection. `pings` counts the client's pings that were answered and not recorded, `spare` those of them that
    no recorded ping has been set against, `owed` those whose replies wait for the end of a frame of the own side, and
    `missed` the recorded pings whose replies are still to be left out."""

    def __init__(self, open_recording, own, connection, wait, faults=Faults(), writer=None):
        self.open_recording, self.own, self.connection, self.wait = open_recording, own, connection, wait
        self.delay, self.end, self.reset = faults.delay, faults.end, faults.reset
        self.flips = dict(faults.flips)
        self.peer = zkr.SERVER if own == zkr.CLIENT else zkr.CLIENT
        self.at = {zkr.CLIENT: Position(), zkr.SERVER: Position()}
        self.heard, self.has_ended, self.zxid = bytearray(), False, bytes(8)
        self.pings = self.spare = self.owed = self.missed = 0
        self.unsaid = b""                       # the beginning of a frame that may be left out
        # A recording of what is said, how the connection ended, and the sides of which the recording lacks bytes.
        self.writer, self.ended, self.hole = writer, {}, ()
        connection.setsockopt(socket.IPPROTO_TCP, socket.TCP_NODELAY, 1)

    def run(self):
        """Plays the recording, to its end or to the fault that ends it."""
        is_end, begun = False, b""
        with self.open_recording() as recording:
            for piece in zkr.Reader(recording):
                if piece.side == self.peer:
                    begun = self.hear(begun + piece.data)
                    continue
                begun = self.hear(begun, True)
                if self.delay:
                    self.pause(self.delay)
                if is_end := self.say(piece.data):
                    break
            self.hear(begun, True)
        if 0 < len(self.unsaid) < len(PING_REPLY):
            # The recording ends within these bytes, which may begin any reply.
            self.missed = 0
            is_end = self.say(b"")
        for frame, place in [*([self.end] if self.end and not is_end else []), *self.flips]:
            raise Refused(f"the {NAMES[self.own]}'s bytes ended before frame={frame} place={max(0, place)}, "
                          "so no fault was made there: choose an earlier place")
        if not is_end:
            if self.own == zkr.CLIENT:
                self.shut()
            self.hear_end()

    def counts(self):
        """How much was played, as it is printed."""
        count = "{} bytes of the client, {} of the server".format(*(self.at[side].offset for side in NAMES))
        return count + (f", and {self.pings} pings answered" if self.pings else "")

    def say(self, data):
        """Sends a piece with its faults; returns whether the connection was ended in it."""
        said, at, is_end = bytearray(), self.at[self.own], False
        data, self.unsaid = self.unsaid + data, b""
        for part in at.parts(data):
            said += self.due_replies()
            if self.missed and at.begins() and PING_REPLY.startswith(part[:len(PING_REPLY)]):
                if len(part) < WHOLE_REPLY:
                    self.unsaid = part
                    break
                self.missed -= 1
                if self.end and at.frame == self.end[0]:
                    self.end = at.frame + 1, -LENGTH
                continue
            if at.begins() and at.frame and len(part) >= 16 and part[8] < 0x80:
                self.zxid = part[8:16]
            left = self.before_the_end(at, len(part))
            is_end = left is not None
            said += self.flipped(at, part[:left])
            if is_end:
                at.offset += left
                break
        self.send(said + self.due_replies())
        if is_end:
            self.end_here()
        return is_end

    def send(self, data):
        """Sends bytes. It waits for the peer anew wherever that has taken some of them."""
        self.connection.settimeout(self.wait)
        self.record(self.own, data)
        left = memoryview(data)
        try:
            while left:
                left = left[self.connection.send(left):]
        except OSError as error:
            if isinstance(error, (BrokenPipeError, ConnectionResetError)):
                self.ended = self.ended or {"reset": self.peer.decode()}
            raise self.refused(f"nothing more can be sent to it: {error.strerror or error}") from None

    def record(self, side, data):
        """Writes what is said to the recording, if there is one."""
        if self.writer and data:
            try:
                self.writer.piece(side, time.time() * 1000, bytes(data))
            except OSError:
                self.hole = facts.SIDES
                raise

    def before_the_end(self, at, size):
        """How many of a part's bytes are still sent, where the side ends in it."""
        if self.end and at.frame == self.end[0] and at.place + size >= self.end[1]:
            return max(0, self.end[1] - at.place)
        return None

    def flipped(self, at, part):
        """A part, with the bytes that `flips` replaces."""
        made = bytearray(part)
        for frame, place in [it for it in self.flips if it[0] == at.frame and 0 <= it[1] - at.place < len(part)]:
            byte = self.flips.pop((frame, place))
            made[place - at.place] = made[place - at.place] ^ 1 if byte is None else byte
        return made

    def end_here(self):
        """Ends the own side, or resets the connection."""
        if self.reset:
            self.ended = self.ended or {"reset": self.own.decode()}
            self.connection.setsockopt(socket.SOL_SOCKET, socket.SO_LINGER, struct.pack("ii", 1, 0))
        else:
            self.shut()
            until = time.monotonic() + self.wait
            while time.monotonic() < until and not self.take(until):
                self.heard.clear()

    def shut(self):
        """Ends the own side, unless the peer has reset the connection."""
        try:
            self.connection.shutdown(socket.SHUT_WR)
            self.ended = self.ended or {"closed": self.own.decode()}
        except OSError:
            self.ended = self.ended or {"reset": self.peer.decode()}

    def close(self):
        """Ends the own side, where the connection hasn't ended."""
        if not self.ended:
            self.shut()

    def pause(self, seconds):
        """Waits, and answers pings meanwhile."""
        until = time.monotonic() + seconds
        while (left := until - time.monotonic()) > 0:
            if self.may_ping() and self.heard.startswith(PING):
                self.answer_ping()
            elif self.has_ended or len(self.heard) > BLOCK:
                time.sleep(left)
            else:
                self.take(until)

    def may_ping(self):
        """Whether the peer is a client that may ping now: it is connected, and between two frames."""
        return self.own == zkr.SERVER and self.at[self.own].frame > 0 and self.at[self.peer].begins()

    def take(self, until):
        """Takes what the peer sends next, up to this moment; returns why nothing came, or None."""
        try:
            self.connection.settimeout(max(0.001, until - time.monotonic()))
            got = b"" if self.has_ended else self.connection.recv(BLOCK)
        except socket.timeout:
            return f"nothing came for {self.wait:g} s"
        except OSError as error:
            if isinstance(error, ConnectionResetError):
                self.ended = self.ended or {"reset": self.peer.decode()}
            return error.strerror
        self.record(self.peer, got)
        self.heard += got
        self.has_ended = not got
        if self.has_ended:
            self.ended = self.ended or {"closed": self.peer.decode()}
        return None if got else "it has closed its side"

    def hear(self, due, are_all=False):
        """Takes these bytes from the peer. Unless they `are_all` that come before the next ones of this side, it leaves
        those at their end that may be a ping's beginning, and returns them."""
        at = self.at[self.peer]
        for part in at.parts(due):
            if not are_all and at.begins() and len(part) < len(PING) and PING.startswith(part):
                return part
            self.hear_part(part)
        return b""

    def hear_part(self, due):
        """Takes a part of one frame, before which a ping may come; a recorded ping may be missing."""
        until = time.monotonic() + self.wait
        if self.may_ping() and not self.is_coming(due, until):
            self.missed += 1
            return
        same = 0
        while same < len(due):
            size = min(len(self.heard), len(due) - same)
            if not size:
                reason = self.take(until)
                if reason:
                    raise self.refused(f"expected byte 0x{due[same]:02x}: {reason}", same)
            elif self.heard[:size] == due[same:same + size]:
                del self.heard[:size]
                same, until = same + size, time.monotonic() + self.wait
            else:
                other = next(at for at in range(size) if self.heard[at] != due[same + at])
                raise self.refused(f"expected byte 0x{due[same + other]:02x}, got 0x{self.heard[other]:02x}",
                                   same + other)

    def is_coming(self, due, until):
        """Answers the pings that come before this part of a frame. Returns whether the part itself is due: a recorded
        ping is not, where one was answered before, or another frame comes."""
        if due == PING and self.spare:
            self.spare -= 1
            return False
        if len(due) < len(PING) and PING.startswith(due):
            return True
        while True:
            head = bytes(self.heard[:len(PING)])
            if head == PING and due == PING:
                return True
            if head == PING:
                self.answer_ping()
            elif not PING.startswith(head):
                return due != PING
            elif reason := self.take(until):
                if due == PING and not head and (self.has_ended or time.monotonic() >= until):
                    return False
                if not head:
                    # (what comes from now on comes too late)
                    raise self.refused(f"expected byte 0x{due[0]:02x}: {reason}", 0)
                return True

    def answer_ping(self):
        del self.heard[:len(PING)]
        self.pings, self.spare, self.owed = self.pings + 1, self.spare + 1, self.owed + 1
        self.send(self.due_replies())

    def due_replies(self):
        """The replies to pings that wait, where the own side is between two frames."""
        owed = self.owed if self.at[self.own].begins() else 0
        self.owed -= owed
        return (PING_REPLY + self.zxid + bytes(4)) * owed

    def hear_end(self):
        """Waits for the peer's end, before which nothing but pings may come; silence counts as an end."""
        until, is_over = time.monotonic() + self.wait, False
        while not is_over:
            while self.may_ping() and self.heard.startswith(PING):
                self.answer_ping()
            is_ping = self.may_ping() and PING.startswith(self.heard)
            is_over = self.heard and not is_ping or self.take(until)
        if self.heard:
            raise self.refused(f"expected the end of the connection, got byte 0x{self.heard[0]:02x}")

    def refused(self, reason, same=0):
        """The refusal of the peer's next byte, after `same` bytes that are as recorded. The numbers are those of
        zkdump's ending lines for the recording."""
        at = self.at[self.peer]
        return Refused(f"{NAMES[self.peer]} frame={at.frame} offset={at.offset + same + 1} "
                       f"place={max(0, at.place + same)}: {reason}")
