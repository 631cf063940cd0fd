"""What zkwatch shows of each connection: the lines of a process of its own (lister.py), with their times, and how long
replies took.

For authors of proxies: what the process has not read is held up to a bound; then that connection is no longer read. Where a
refused frame has an end, the reading goes on after it, as the library's passages do (zk_through_resume, docs/LIBRARY.md):
both sides begin anew, and replies to earlier requests are left out.
"""

import collections
import functools
import re
import time
from typing import NamedTuple, Optional

from . import frames, lister, listing, passages, tables, zkr, zkskip
from .loop import BLOCK

MOST_WAITING = 1 << 26
PIECE = 256                 # what a piece that waits counts besides its bytes
FEW_GIVEN, MOST_GIVEN = 16, 1 << 14     # frames whose lines have not come yet, after a refusal and later
MADE_UP = [f"{side} connect{rest}" for side, rest in listing.MADE_UP.items()]
REFUSAL = re.compile(r"\. refused (side=[CS] frame=\d+ offset=\d+ place=\d+ reason=(\w+)(?: expected=\S+ got=\S+)?)")
ENDLESS = ("LengthRange", "StreamEnd")      # the refusals of a frame that has no end


class Turns(zkskip.Turns):
    """Decides which frames stay, as zkskip does; but operations that no release has are left out, too, as a passage of the
    library leaves them out."""

    def lacking(self, payload):
        xid, operation = passages.REQUEST.unpack_from(payload)
        stays = operation in self.operations or xid in (passages.EVENT_XID, *passages.NEVER_OUT)
        return super().lacking(payload) or (None if stays else passages.name_of(operation))


class Late(Turns):
    """Decides which frames stay of a connection that is seen late, as the library does (zk_through_join): a reply to a
    request that wasn't seen is known by its xid, until a reply is to one that was. It is left out."""

    def __init__(self, operations):
        super().__init__(operations)
        self.has_matched = False

    def is_connect(self, _frame):
        return False

    def turn(self, frame):
        if frame.side == zkr.SERVER and len(frame.payload) >= passages.REPLY.size:
            xid, zxid, err = passages.REPLY.unpack_from(frame.payload)
            is_ordinary = xid not in (passages.EVENT_XID, *passages.LANES)
            if xid != passages.EVENT_XID and not (is_ordinary and self.has_matched or self.waiting.get(xid)):
                return None, f"{passages.header_words(zxid, err)} not seen asked"
            self.has_matched |= is_ordinary
        return super().turn(frame)


class Given(NamedTuple):
    """A frame that the process was given, or that is left out and has this line; and how long it took, if it is a reply. A
    message that was made up after a refusal is no frame."""
    frame: Optional[frames.Frame] = None
    line: Optional[str] = None
    latency: Optional[float] = None


class Show:
    """What is shown of a connection: the lines of the process that reads it, and those of what it isn't given.

    Its pieces wait in `coming`, and as frames in `frames`, until the process takes them; `given` has those that were taken
    and have no line yet, `room` at most. After a refusal these go back, to be given anew, few at first: the next refusal may
    be near. `count` and `size` say how many frames and bytes of each side have had their lines. `now` is the time of the
    last piece. Where `last_words` are given, they are its last line.
    """

    def __init__(self, watch, number):
        self.watch, self.number, self.cutter = watch, number, zkr.Cutter(watch.head)
        self.coming, self.frames, self.given, self.lines = (collections.deque() for _ in range(4))
        self.turns, self.behind, self.last = Turns(zkskip.OF_PROFILE[watch.profile]), 0, b""
        self.count, self.size = dict.fromkeys(zkr.OTHER, 0), dict.fromkeys(zkr.OTHER, 0)
        self.room, self.now, self.last_words, self.unread, self.is_over, self.has_rest = \
            MOST_GIVEN, None, None, "", False, False
        self.begin(functools.partial(lister.begun, watch, self))

    def begin(self, begun):
        """Has a process read, which this call returns."""
        try:
            self.lister = begun()
        except OSError as error:
            self.unread = f"{self.watch.command[0]}: {error.strerror}"
            self.end_reading()

    def piece(self, side, data, milliseconds=None):
        """Takes a piece. What stays of it is given to be read, as far as that is taken; the rest waits. It came at this
        time, or else just now."""
        self.now = time.time() * 1000 if milliseconds is None else milliseconds
        if self.lister and not self.unread:
            self.coming.append(zkr.Piece(side, self.now, data))
            self.behind += len(data) + PIECE
            self.write()
            if self.waits() > MOST_WAITING:
                self.unread = f"{MOST_WAITING} bytes of it wait to be read"
                self.kill()

    def waits(self):
        """How many bytes wait to be read."""
        return self.behind + (len(self.lister.waiting) if self.lister else 0)

    def next_frame(self):
        """The next frame, or None: once the connection is over, what has begun of frames, without a payload, too."""
        while not self.frames and self.coming:
            piece = self.coming.popleft()
            self.behind -= len(piece.data) + PIECE
            self.cut(piece)
        if not self.frames and self.is_over and not self.has_rest:
            self.has_rest = True
            self.frames.extend(self.rest(side, self.now) for side, held in self.cutter.held.items()
                               if held and side not in self.cutter.broken)
        return self.frames.popleft() if self.frames else None

    def cut(self, piece):
        """Cuts a piece into frames. A length that no frame has is one without a payload, and what follows it isn't
        read."""
        side, cutter = piece.side, self.cutter
        if side not in cutter.broken:
            self.frames.extend(cutter.take(piece))
            if side in cutter.broken:
                del cutter.held[side][frames.LENGTH:]
                self.frames.append(self.rest(side, piece.milliseconds))

    def rest(self, side, milliseconds):
        """What is held of a side, as a frame without a payload."""
        return frames.Frame(side, self.cutter.count[side], None, milliseconds)

    def bytes_of(self, frame):
        return bytes(self.cutter.held[frame.side]) if frame.payload is None else frame.whole()

    def give(self, frame):
        """Gives a frame to be read, or leaves it out."""
        asked, lacks = (None, None) if frame.payload is None else self.turns.turn(frame)
        latency = None if asked is None else frame.milliseconds - asked
        self.given.append(Given(frame, zkskip.line_of(frame, lacks) if lacks else None, latency))
        if lacks:
            self.say_left_out()
        else:
            self.lister.give(frame.side, self.bytes_of(frame))

    def write(self):
        """Gives what waits to be read, as far as it is taken. After the last frame has its line, that is all."""
        if not self.lister or self.lister.stdin.closed:
            return
        is_all = False
        while not is_all and len(self.lister.waiting) < BLOCK and len(self.given) < self.room:
            if frame := self.next_frame():
                self.give(frame)
            else:
                is_all = True
        self.lister.write(is_all and self.is_over and not self.awaits_line())
        (self.watch.delayed.add if self.waits() else self.watch.delayed.discard)(self)

    def awaits_line(self):
        """Whether a whole frame has no line yet, after which there may be more to give."""
        frame = self.given[0].frame if self.given else None
        return bool(self.given) and not (frame and frame.payload is None)

    def is_due(self):
        """Whether the next line is that of a frame that is left out."""
        return bool(self.given and self.given[0].line)

    def say_left_out(self):
        """Prints the lines of such frames; those that can't be printed wait."""
        while self.is_due():
            if self.watch.lines.is_full():
                self.wait()
                return
            given = self.given.popleft()
            self.watch.say_of(self.number, with_latency(given.line, given.latency), given.frame.milliseconds)
            self.note(given.frame)

    def note(self, frame):
        """Counts a frame that has had its line."""
        self.count[frame.side] += 1
        self.size[frame.side] += len(self.bytes_of(frame))

    def wait(self):
        """Reads on in a moment, once lines can be printed."""
        self.lister.listen(False)
        if self.read_on not in self.watch.due:
            self.watch.after(0.05, self.read_on)

    def read_on(self):
        if self.lister and not self.lister.stdout.closed:
            self.lister.listen()
            self.read()

    def is_held_up(self):
        """Whether its next line has to wait: for those that come before it, or for the reader."""
        return self.is_due() or self.watch.lines.is_full()

    def read(self):
        """Prints the lines that are there; it waits where they can't be printed."""
        read = self.lister
        self.say_left_out()
        if not self.lines and not self.is_held_up():
            self.lines.extend(read.lines())
        while self.lines and not self.is_held_up():
            self.print_line(self.lines.popleft())
        if self.lister is read:
            if self.lines or self.is_due() or not read.is_read and self.is_held_up():
                self.wait()
            elif read.is_read:
                read.leave(self.reaped)
        self.write()

    def print_line(self, line):
        self.last, text = line, line.decode(errors="backslashreplace")
        if text.startswith("."):
            self.print_ending(text)
            return
        if not self.given:
            self.watch.say_of(self.number, text, self.now)
            return
        frame, _, latency = self.given.popleft()
        if frame:
            if not (frame.number == 0 and text in MADE_UP):
                self.watch.say_of(self.number, with_latency(text, latency), frame.milliseconds)
            self.note(frame)
            self.room = min(2 * self.room, MOST_GIVEN)
        self.say_left_out()

    def print_ending(self, ending):
        """Prints an ending line. After a refused frame that has an end it goes on."""
        ended = self.given[0].frame if self.given else None
        ending, moment = self.as_it_came(ending, ended), ended.milliseconds if ended else self.now
        refusal = REFUSAL.fullmatch(ending)
        self.watch.has_refused |= ending.startswith(". refused")
        if refusal and ended and ended.payload is not None and refusal[2] not in ENDLESS:
            self.watch.say_of(self.number, f"refused: {refusal[1]}, {len(self.bytes_of(ended))} bytes passed over", moment)
            self.go_on()
        else:
            self.watch.say_of(self.number, ending, moment)

    def as_it_came(self, ending, ended):
        """An ending line with the numbers that it has if nothing is left out or passed over."""
        side = zkr.SERVER if " side=S " in ending else zkr.CLIENT
        left = sum(1 for requests in self.turns.waiting.values() for _, lacks in requests if lacks)
        numbers = {"frame": lambda _: self.count[side], "unanswered": lambda shown: shown + left,
                   "offset": lambda shown: self.size[side] + len(self.bytes_of(ended)) if ended else shown}
        return re.sub(r"(?<= )(frame|offset|unanswered)=(\d+)",
                      lambda found: f"{found[1]}={numbers[found[1]](int(found[2]))}", ending)

    def go_on(self):
        """Reads on after a refused frame, as of a connection that is seen late."""
        self.note(self.given.popleft().frame)
        self.frames.extendleft(given.frame for given in reversed(self.given))
        self.given.clear()
        self.lines.clear()
        self.turns, self.room = Late(self.turns.operations), FEW_GIVEN
        self.begin(self.lister.anew)
        if self.lister:
            for side, frame in self.lister.made_up.items():
                self.lister.give(side, frame)
                self.given.append(Given())

    def over(self, last_words=None):
        """Ends with the connection: once all is read, and all lines are printed."""
        self.is_over, self.last_words = True, last_words
        if self.lister:
            self.write()
        else:
            self.end()

    def end(self):
        """Says its last words: the connection is over, and all lines are printed."""
        if self.last_words:
            self.watch.say_of(self.number, self.last_words, self.now)
        self.watch.seen(self)

    def kill(self):
        """Ends the process at once."""
        self.forget()
        if self.lister:
            self.lister.kill()

    def forget(self):
        """Lets what waits go."""
        self.coming.clear()
        self.frames.clear()
        self.behind = 0
        self.watch.delayed.discard(self)

    def reaped(self, status):
        """Takes the status of the process, which has written all its lines."""
        if not self.unread and (status not in (0, 1) or not self.last.startswith(b".")):
            self.unread = f"{self.lister.name} has ended with status {status}"
        self.end_reading()

    def end_reading(self):
        """No more is read: reports that, where the connection goes on or something went wrong."""
        self.lister = None
        self.forget()
        if self.unread or not self.is_over:
            reason = f"{self.unread}: " if self.unread else ""
            self.watch.say_of(self.number, f"{reason}{self.watch.what_follows}", self.now)
        if self.is_over:
            self.end()


def with_latency(line, milliseconds):
    """A line, at its end how long its reply took, unless that is None, or the clock went back."""
    return line if milliseconds is None or milliseconds < 0 else f"{line} ms={tables.exact(milliseconds)}"


class Watching:
    """What a loop has that shows connections: a class to derive from, before Loop. `shows` has those that aren't over,
    and `delayed` those of which something waits to be read. `has_refused` is true once something was refused.
    `what_follows` says what becomes of a connection that is no longer read."""

    what_follows = "what follows is not read"

    def __init__(self, words, *more):
        super().__init__(*more)
        self.command = lister.command(words)
        self.head = zkr.Head(client_limit=words.limit, server_limit=words.limit)
        self.profile, self.shows, self.delayed, self.has_refused = words.profile, set(), set(), False

    def say_of(self, number, text, milliseconds=None):
        """Prints a line of a connection, with the time of what it says."""
        self.say(f"{zkr.clock(time.time() * 1000 if milliseconds is None else milliseconds)} #{number} {text}")

    def show_of(self, number):
        """A new Show."""
        show = Show(self, number)
        self.shows.add(show)
        return show

    def busy(self):
        return bool(self.shows)

    def seen(self, show):
        """Called once a connection is over, and all its lines are printed."""
        self.shows.discard(show)
        self.delayed.discard(show)

    def stop(self):
        super().stop()
        for show in self.shows:
            show.kill()
