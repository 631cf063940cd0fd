"""The recordings of the connections in a capture: their names, and their files."""

import collections
import contextlib
import io
import os
import sys

from . import zkr

GATHERED, MOST_GATHERED, LEAST_GATHERED = 1 << 16, 1 << 23, 1 << 11
BLOCKS = 64         # of a recording's end, in which something can be taken back


class Noted:
    """Which packets a recording is of: the number and the time of the first one, and by the side those of the last
    ones. In a derived class `piece` takes bytes of a side."""

    def __init__(self):
        self.first, self.began, self.ends = None, None, {}

    def take(self, side, number, milliseconds, data):
        """Takes bytes of the packet of this number."""
        if self.first is None:
            self.first, self.began = number, milliseconds
        self.ends[side] = number, milliseconds
        self.piece(side, milliseconds, data)

    def last(self):
        """The number and the time of its last packet."""
        return max(self.ends.values())


class Recording(Noted, zkr.Writer):
    """A new recording, whose files are open only while something is written: there may be any number of them.

    `blocks` has of each of the last places up to which it was written the size of the recording, that of its times, and
    the numbers of the client's and the server's bytes.
    """

    def __init__(self, path, head, times, gather, known):
        self.blocks = collections.deque([(len(head.to_bytes()), 0, 0, 0)], BLOCKS)
        zkr.Writer.__init__(self, path, head, times, gather, known)
        Noted.__init__(self)
        for file in self.files:
            file.file.close()

    def flush(self):
        if self.recording.waiting:
            with contextlib.ExitStack() as opened:
                for file in self.files:
                    file.file = opened.enter_context(open(file.path, "ab", buffering=0))
                super().flush()
        self.blocks.append((self.recording.size, self.times.size if self.times else 0, *self.count.values()))

    def take_back(self, spans):
        """Takes the recording's end out of it again, from the first of these spans of the client's bytes on that wasn't
        written too long ago: `spans` has where each begins among the client's bytes, and its size, in order. Returns
        the pieces that were there, in their order: of each the number of its span, or None, its side, time and bytes. A
        span is a piece of its own, in the place of its last byte."""
        self.flush()
        spans = [(at, *span) for at, span in enumerate(spans) if span[0] >= self.blocks[0][2]]
        if not spans:
            return []
        block = next(block for block in reversed(self.blocks) if block[2] <= spans[0][1])
        tails = []
        for file, size in zip(self.files, block):
            with open(file.path, "r+b") as stream:
                stream.seek(size)
                tails.append(stream.read())
                stream.truncate(size)
            file.size = size
        self.count = dict(zip(self.count, block[2:]))
        while self.blocks[-1] is not block:
            self.blocks.pop()
        pieces = zkr.Reader(io.BytesIO(self.head.to_bytes() + tails[0]))
        times = map(float, tails[1].split()) if self.times else None
        found = list(split_client(pieces, times, block[2], spans))
        first = next(at for at, each in enumerate(found) if each[0] is not None)
        for _, *piece in found[:first]:
            self.piece(*piece)
        self.ends[zkr.CLIENT] = self.first, self.began
        return found[first:]


def split_client(pieces, times, place, spans):
    """Pieces with their times, of which the first one of the client begins at this place among its bytes: as
    `take_back` returns them."""
    spans = iter(spans)
    number, begin, size = next(spans)
    taken = bytearray()
    for side, milliseconds, data in pieces:
        milliseconds, at = next(times) if times else milliseconds or 0, 0
        if side == zkr.CLIENT:
            while begin < place + len(data):
                if at < begin - place:
                    yield None, side, milliseconds, data[at:begin - place]
                at = max(0, begin - place)
                taken += data[at:begin + size - place]
                at = min(len(data), begin + size - place)
                if len(taken) < size:
                    break
                yield number, side, milliseconds, bytes(taken)
                taken.clear()
                number, begin, size = next(spans, (None, float("inf"), 0))
            place += len(data)
        if at < len(data):
            yield None, side, milliseconds, data[at:]


class Series:
    """The recordings PREFIX-1.zkr, PREFIX-1.2.zkr, PREFIX-2.zkr and so on; a number whose file is there already is
    passed over. With `join` those of connections that began before the capture are made, too. `budget` counts what
    waits to be written to them, and can't be yet."""

    def __init__(self, prefix, head, times, join, budget):
        self.prefix, self.head, self.times, self.join, self.budget = prefix, head, times, join, budget
        self.number, self.open, self.unsaid = 0, set(), None

    def next(self, known, connection=None):
        """A new recording, with the number of its connection and which of its parts it is. It is the first of another
        connection, where none is given, or else one with a part's number above that of the facts that are `known`."""
        part = known.part
        while True:
            if connection is None:
                self.number += 1
                number, name = self.number, f"{self.number}"
            else:
                number, part, name = connection, part + 1, f"{connection}.{part + 1}"
            # Less is gathered of each where there are many.
            gather = max(LEAST_GATHERED, min(GATHERED, MOST_GATHERED // (len(self.open) + 1)))
            try:
                made = Recording(f"{self.prefix}-{name}.zkr", self.head, self.times, gather, known._replace(part=part))
            except FileExistsError:
                continue
            self.open.add(made)
            return made, number, part

    def remove_empty(self):
        """Removes the open recordings of which nothing was written."""
        for recording in self.open:
            if not recording.recording.size:
                recording.remove()

    def begun(self):
        """The paths of the recordings that were not finished."""
        return sorted(recording.path for recording in self.open if recording.recording.size)

    def profile(self):
        """The release that the head of each recording names, if any."""
        return zkr.RELEASES[self.head.profile] if self.head.form == "zkr2" else None

    def say(self, recording, words, _milliseconds):
        """Prints the line of a recording, or of a connection that has none; where nobody reads it any more, the rest
        continues."""
        line = f"{recording.path if recording else '-'} {words}"
        try:
            try:
                print(line, flush=True)
            except UnicodeEncodeError:      # the bytes of a name that is no UTF-8
                sys.stdout.buffer.write(os.fsencode(line) + b"\n")
                sys.stdout.flush()
        except OSError as error:
            self.unsaid = error
            zkr.drop_standard_output()
