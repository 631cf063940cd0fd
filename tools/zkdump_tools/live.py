"""Shows the connections of a capture while it is read: zkwatch --capture.

The capture is read as pcap2zkr reads it, and in place of each recording is a Shown, whose lines are printed as its bytes
come. A printed line can't be taken back: so a request that waited when bytes were lost is shown again with what follows.
"""

import collections
import contextlib
import io
import os
import stat
import time

from . import loop, packets, pcap2zkr, running, shows, zkr
from .recordings import Noted, split_client
from .streams import PART_COST, Budget

# The most bytes of its last requests that a connection keeps, for a loss; less of each where there are many.
KEPT, MOST_KEPT, LEAST_KEPT = 1 << 16, 1 << 24, 1 << 13
BEHIND = 1 << 20            # bytes that may wait to be shown before no more are read


class Shown(Noted):
    """What is shown of a connection, or of what follows a loss, in place of a recording.

    `kept` has the client's last pieces, of `keeps` bytes at most; `place` is that of the first one among all its bytes.
    """

    def __init__(self, show, path, keeps):
        super().__init__()
        self.show, self.path, self.keeps, self.is_over = show, path, keeps, False
        self.count = dict.fromkeys(zkr.OTHER, 0)
        self.kept, self.size, self.place = collections.deque(), 0, 0

    def piece(self, side, milliseconds, data):
        """Shows bytes of a side; those that were taken back were shown before."""
        self.count[side] += len(data)
        if self.is_over:
            return
        self.show.piece(side, data, milliseconds)
        if side == zkr.CLIENT:
            self.kept.append(zkr.Piece(side, milliseconds, data))
            self.size += len(data) + PART_COST
            while self.size > self.keeps:
                first = len(self.kept.popleft().data)
                self.size -= first + PART_COST
                self.place += first

    def take_back(self, spans):
        """Gives back these spans of the client's bytes, as a recording does, as far as they are kept. No more is shown
        of it."""
        self.is_over = True
        spans = [(at, *span) for at, span in enumerate(spans) if span[0] >= self.place]
        found = split_client(self.kept, None, self.place, spans) if spans else ()
        found = [each for each in found if each[0] is not None]
        self.count[zkr.CLIENT] -= sum(len(data) for *_, data in found)
        return found

    def close(self):
        """Keeps nothing any more."""
        self.kept.clear()

    def write_facts(self, _known):
        """They are in its last line."""


class Series:
    """What is shown of all connections, each under its number, and after a loss under `1.2`, in place of recordings."""

    join, unsaid = True, None

    def __init__(self, watch, limit):
        self.watch, self.head, self.budget = watch, zkr.Head("zkr1", limit, limit), Budget(pcap2zkr.MOST_WAITING)
        self.number, self.open = 0, set()

    def next(self, known, connection=None):
        """What is shown of another connection, or of one after a loss; with its number and its part's."""
        if connection is None:
            self.number += 1
            number, part, name = self.number, 1, f"{self.number}"
        else:
            number, part, name = connection, known.part + 1, f"{connection}.{known.part + 1}"
        keeps = max(LEAST_KEPT, min(KEPT, MOST_KEPT // (len(self.open) + 1)))
        shown = Shown(self.watch.show_of(name), f"#{name}", keeps)
        self.open.add(shown)
        self.watch.say_of(name, " ".join([f"from {known.client}", *known.words()]), known.begun)
        return shown, number, part

    def profile(self):
        return None

    def remove_empty(self):
        """There is nothing to remove."""

    def begun(self):
        return []

    def say(self, shown, words, milliseconds):
        """Says how it ended, after all that is shown of it."""
        if shown:
            shown.show.now = milliseconds
            shown.show.over(words)
        else:
            self.watch.say_of("-", words, milliseconds)


class Watch(shows.Watching, loop.Loop):
    """Shows the connections of a capture, until it ends or a signal comes."""

    others = "the capture is read on"

    def __init__(self, words):
        super().__init__(words, running.name())
        self.capture = pcap2zkr.Capture(words.port, Series(self, words.limit), live=True)
        self.is_ready, self.always_ready, self.heard_at, self.trouble = False, False, time.monotonic(), None

    def not_printed(self, error):
        """Ends the reading: nobody reads the lines."""
        self.trouble = self.trouble or error
        with contextlib.suppress(OSError):      # it is closed once nothing is read any more
            self.bell.send(b"\0")

    def run(self, name, file):
        """Reads a capture from this file, without a buffer. The status."""
        self.hear_signals()
        self.always_ready = not stat.S_ISFIFO(kind := os.fstat(file.fileno()).st_mode) \
            and not stat.S_ISSOCK(kind) and not os.isatty(file.fileno())
        status = pcap2zkr.converted(self.capture, name, io.BufferedReader(Bytes(self, file), packets.BLOCK))
        self.due.pop(self.rest, None)
        while not self.signals and not self.trouble and (self.busy() or self.lines.held):
            self.turn(0.05)
        self.stop()
        self.end_lines()
        if self.trouble:
            if not isinstance(self.trouble, BrokenPipeError):
                running.complain(f"standard output: {self.trouble.strerror}")
            return 3
        return status or int(self.has_refused)

    def is_delayed(self):
        """Whether what was read has to be shown first."""
        return self.lines.is_full() or sum(show.waits() for show in self.delayed) > BEHIND

    def await_bytes(self, file):
        """Goes on until a file has bytes, and there is room for them; a KeyboardInterrupt after a signal."""
        self.is_ready = self.always_ready
        self.after(pcap2zkr.PATIENCE / 1000, self.rest)
        seconds = 0
        while True:
            if self.signals:
                raise KeyboardInterrupt
            is_delayed = self.is_delayed()
            self.wait_for(file, 0 if self.is_ready or is_delayed else loop.READ, self)
            self.turn(seconds if self.is_ready and not is_delayed else 0.05 if is_delayed else None)
            if self.is_ready and not self.is_delayed():
                break
        self.wait_for(file, 0)
        self.heard_at = time.monotonic()

    def step(self, file, events):
        """Counts signals, or notes that there are bytes of the capture."""
        if file is self.heard:
            super().step(file, events)
        else:
            self.is_ready = True

    def rest(self):
        """Looks after the connections while nothing is captured."""
        now = max((stream.last_time for stream in self.capture.streams()), default=0)
        self.capture.tend(now + (time.monotonic() - self.heard_at) * 1000)
        self.after(pcap2zkr.PATIENCE / 1000, self.rest)


class Bytes(io.RawIOBase):
    """The bytes of a capture. Until there are some, what was read is shown."""

    def __init__(self, watch, file):
        super().__init__()
        self.watch, self.file = watch, file

    def readable(self):
        return True

    def readinto(self, buffer):
        self.watch.await_bytes(self.file)
        return self.file.readinto(buffer)
