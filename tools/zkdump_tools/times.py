"""The times of a listing's messages, by the recording that it is of."""

import os
import re
import struct

from . import contents, files, listing, operations, zkr
from .frames import LARGEST, Beginning

LETTERS = {zkr.CLIENT: "C", zkr.SERVER: "S"}
LENGTH_AND_XID = struct.Struct(">ii")
FRONT = 1 << 16         # bytes of a frame that are compared with its line
CONNECT_FIELDS = re.compile(rf" session=({listing.NUMBER}) passwd=(~|#[0-9a-f]*)", re.ASCII)
REPLY_FIELDS = re.compile(rf" zxid=({listing.NUMBER})(?: (?:err|kind)=({listing.NUMBER}))?", re.ASCII)
OTHER = ": name the recording that the listing is of"
SESSION_AT = {"C": 16, "S": 8}      # in the payload of a connect message; the password follows


def is_of_line(payload, line, made):
    """Whether a frame with this payload can have this line: by the operation, the first path, and the session and
    password, or the zxid and the error."""
    try:
        if made.op == listing.CONNECT:
            at, (session, passwd) = SESSION_AT[made.side], CONNECT_FIELDS.search(line).groups()
            return struct.unpack_from(">q", payload, at)[0] == int(session) and \
                is_text(payload, at + 8, None if passwd == "~" else bytes.fromhex(passwd[1:]))
        if made.side == "C":
            return struct.unpack_from(">i", payload, 4)[0] == operations.BY_NAME[made.op].number and \
                (made.path is None or is_text(payload, 8, bytes_of(made.path)))
        zxid, code = REPLY_FIELDS.match(line, made.end).groups()
        if made.op == listing.EVENT:
            found, = listing.EVENT_PATH.findall(line, made.end)
            if not is_text(payload, 24, bytes_of(found)):
                return False
        at = 16 if made.op == listing.EVENT else 12
        return struct.unpack_from(">q", payload, 4)[0] == int(zxid) and \
            struct.unpack_from(">i", payload, at)[0] == int(code or 0)
    except (AttributeError, struct.error, KeyError, ValueError):
        return False


def bytes_of(spelled):
    """The bytes of a text of a line; None for null."""
    return None if spelled == "~" else listing.unescaped(spelled[1:-1])


def is_text(payload, at, wanted):
    """Whether a payload, or its front, has these bytes at this place, after their number; or null for None."""
    size = struct.unpack_from(">i", payload, at)[0]
    return size == -1 if wanted is None else size == len(wanted) and \
        payload[at + 4:at + 4 + size] == wanted[:max(0, len(payload) - at - 4)]


class Times:
    """The frames of a recording, each with its time, which is that of its last byte.

    `frames` gives of each frame, in the order of their last bytes, its side, its xid and its time, or None. `times` are
    those of the recording's pieces, one each; where it is None, those that the pieces have. There 0 is no time. Any
    difference between the listing and the recording is a NoListing. Where the listing is not one that zkdump has just
    made of the recording, it is `foreign`: `front` is then the beginning of the last frame's payload.
    """

    def __init__(self, pieces, times, foreign):
        self.damage, self.count, self.foreign, self.front = None, {"C": 0, "S": 0}, foreign, b""
        self.kept = 4 + FRONT if foreign else 8
        self.begun = {"C": Beginning(self.kept), "S": Beginning(self.kept)}
        self.frames = self.read(pieces, times)

    def read(self, pieces, times):
        count, begun, length_and_xid, foreign = self.count, self.begun, LENGTH_AND_XID.unpack_from, self.foreign
        try:
            for side, milliseconds, data in pieces:
                moment = next(times, None) if times else milliseconds or None
                letter, at, end = LETTERS[side], 0, len(data)
                while at < end:
                    if end - at >= 8 and not begun[letter].got:
                        length, xid = length_and_xid(data, at)
                        if 4 <= length <= LARGEST and at + 4 + length <= end:
                            if foreign:
                                self.front = data[at + 4:at + 4 + min(length, FRONT)]
                            at += 4 + length
                            count[letter] += 1
                            yield letter, xid, moment
                            continue
                    beginning = begun[letter]
                    at = beginning.take(data, at)
                    if beginning.is_whole():
                        begun[letter], self.front = Beginning(self.kept), beginning.first[4:]
                        count[letter] += 1
                        yield letter, int.from_bytes(beginning.first[4:8], "big", signed=True), moment
        except zkr.Damaged as damage:
            self.damage = damage

    def is_of(self, line, made):
        """Whether the last frame can have this line."""
        return not self.foreign or is_of_line(self.front, line, made)

    def refuse(self, n, side, lines):
        """Raises a NoListing: why message `n` of the listing, which these lines follow, isn't the recording's next."""
        if side:
            raise listing.NoListing(f"line {n}: the recording has another message there{OTHER}")
        messages = n + sum(not line.startswith(".") for line in lines)
        raise listing.NoListing(f"the listing has {messages} messages, and the recording {n - 1}{OTHER}")

    def compare(self, ending):
        """Checks that the recording ends as the listing does. A listing without an ending line may be the
        beginning of one."""
        if not ending:
            return
        read, more = sum(self.count.values()), sum(1 for _ in self.frames)
        if ending["ending"] == "refused":
            fits = more or self.begun[ending["side"]].got
        elif more:
            raise listing.NoListing(f"the listing has {read} messages, and the recording {read + more}{OTHER}")
        else:
            fits = self.fits(ending)
        if not fits:
            raise listing.NoListing(f"the recording doesn't end as the listing does{OTHER}")

    def fits(self, ending):
        """Whether the recording, of which all has been read, ends in this way."""
        if ending["ending"] == "recording":
            return self.damage and (ending["offset"], ending["reason"]) == (self.damage.offset, self.damage.reason)
        if ending["ending"] == "cut":
            side = ending["side"]
            fits = (ending["frame"], ending["got"]) == (self.count[side], self.begun[side].got)
        else:
            fits = not any(beginning.got for beginning in self.begun.values())
        return fits and not self.damage


def times_of(parser, path, beside, foreign, opened):
    """The times of the messages of the recording at this path, which `opened` closes: in the file `beside`, where that is
    named; else in the usual file, whose times have decimals, or in the recording. None if there are none, unless the
    listing is `foreign`, which needs them."""
    pieces = zkr.Reader(opened.enter_context(files.open_again(path, files.RECORDING)))
    if not beside and not os.path.exists(zkr.times_path(path)):
        if pieces.head.form == "zkr2":
            return Times(pieces, None, foreign)
        if foreign:
            parser.error(f"{path} has no times: name a file of them with --times FILE")
        return None
    return Times(pieces, contents.times_beside(path, beside), foreign)
