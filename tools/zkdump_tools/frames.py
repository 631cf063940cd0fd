"""How the bytes of a side are cut into frames, in any pieces: a length of four bytes, and as many bytes of payload."""

from typing import NamedTuple, Optional

LENGTH = 4
LARGEST = 16_777_216        # the greatest limit of a payload
NEVER = float("inf")


def end_of(begun, got, data, at, limit=LARGEST):
    """The place in `data`, or past its end, where the frame ends that goes on there from `at`. `got` of its bytes came
    before, and `begun` has the first ones, four if there are. None as long as its length isn't whole; NEVER where the
    length is negative or above the limit."""
    head = bytes(begun[:LENGTH]) + bytes(data[at:at + max(0, LENGTH - got)])
    if len(head) < LENGTH:
        return None
    size = int.from_bytes(head, "big", signed=True)
    return at - got + LENGTH + size if 0 <= size <= limit else NEVER


def is_one(data, limit=LARGEST):
    """Whether these bytes are just one whole frame, as those of most pieces are."""
    return int.from_bytes(data[:LENGTH], "big") == len(data) - LENGTH <= limit


class Beginning:
    """The bytes of a frame that isn't whole yet: how many there are, `got`, and the first ones, `kept` of them at
    most."""

    def __init__(self, kept):
        self.got, self.first, self.kept, self.whole = 0, b"", kept, False

    def take(self, data, at):
        """Takes bytes from place `at` on, to the frame's end at most, and returns the place after them."""
        end = end_of(self.first, self.got, data, at)
        to = len(data) if end is None else min(len(data), end)
        if self.got < self.kept:
            self.first += data[at:min(to, at + self.kept - self.got)]
        self.got += to - at
        self.whole = to == end
        return to

    def is_whole(self):
        return self.whole


class Frame(NamedTuple):
    """A whole frame: its side, its number on that side from 0, its payload, and the time of its last byte."""
    side: bytes
    number: int
    payload: bytes
    milliseconds: Optional[float]

    def whole(self):
        """Its bytes, with the length."""
        return len(self.payload).to_bytes(LENGTH, "big") + self.payload


class Cutter:
    """Cuts the bytes of sides into frames; `limits` has the greatest payload of each side. `held` has what is left of
    each: a beginning of a frame.

    Where a side's length is negative or above the limit, that side is in `broken`, and all its bytes from there on
    stay in `held`.
    """

    def __init__(self, limits):
        self.limits = limits
        self.held = {side: bytearray() for side in limits}
        self.count = dict.fromkeys(limits, 0)
        self.broken = set()

    def take(self, piece):
        """The frames that are whole with this piece."""
        side, held, at, frames = piece.side, self.held[piece.side], 0, []
        if not held and side not in self.broken and is_one(piece.data, self.limits[side]):
            return [self.frame(piece, piece.data[LENGTH:])]
        held += piece.data
        while side not in self.broken:
            end = end_of(b"", 0, held, at, self.limits[side])
            if end == NEVER:
                self.broken.add(side)
            elif end is None or end > len(held):
                break
            else:
                frames.append(self.frame(piece, bytes(held[at + LENGTH:end])))
                at = end
        del held[:at]
        return frames

    def frame(self, piece, payload):
        """The next frame of the piece's side."""
        number = self.count[piece.side]
        self.count[piece.side] = number + 1
        return Frame(piece.side, number, payload, piece.milliseconds)
