"""What one recording has of a connection of which bytes were not captured, and the messages that it is made of."""

from typing import NamedTuple, Optional

from .streams import SIDES


class Message(NamedTuple):
    """A frame, with its length; `order` counts the messages of both sides, and `number` is that of the packet in which
    it ends. Bytes that were written before have no number."""
    order: int
    side: bytes
    number: Optional[int]
    milliseconds: float
    data: bytes

    def xid(self):
        return self.data[4:8]


class Part:
    """What one recording has of a connection. `whole` says that it begins with the connection, and `part` which of its
    recordings it is.

    `lost` counts the bytes of each side that were not captured before it, `skipped` those that were and are left out,
    and `unasked` the replies that are left out, whose bytes `skipped` doesn't count. `holes` are the sides of which
    bytes are missing after it; `overlooked` says that replies to its requests may be among what is left out. `later`
    has what belongs to it and can't be written yet, a heap.
    """

    def __init__(self, first, began, whole=False):
        self.first, self.began, self.whole = first, began, whole
        self.recording, self.part, self.holes, self.overlooked = None, 1, set(), False
        self.lost, self.skipped, self.unasked = dict.fromkeys(SIDES, 0), dict.fromkeys(SIDES, 0), 0
        self.later = []

    def join(self, before):
        """Takes over the beginning and the counts of the part before, of which nothing is kept."""
        self.first, self.began = before.first, before.began
        for side in SIDES:
            self.lost[side] += before.lost[side]
            self.skipped[side] += before.skipped[side]
        self.unasked += before.unasked
