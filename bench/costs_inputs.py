"""The inputs of costs.py: small recordings, each made by seed, so with the same bytes each time.

A row of costs.py names its input. The lists are those of the replies to getChildren, the texts are the paths of syncs
and of their replies.
"""

import io
import random
import struct

from . import make_recording as making
from .growth import exchange

from tools.zkdump_tools import zkr

NAMES, REPLIES, SYNCS = 10_000, 2, 1_000
NULL = struct.pack(">i", -1)
OWNER = 44  # the place of ephemeralOwner in a stat

# The lengths of texts outside ASCII, in bytes: by how they are judged, a text of up to 140 bytes is of one of these.
LENGTHS = ((1, 5), (6, 18), (19, 34), (35, 63), (64, 127), (128, 140))

# What a line escapes, by its number of bytes.
ESCAPED = {1: '"', 2: "é", 3: "中", 4: "\U0001f600", 6: "中中", 12: "中中中中"}


# ---- conversations at random


class Foreign(making.Small):
    """As small, with every path and name in Cyrillic or Chinese."""

    def path(self):
        forms = ("/Настройки/ключ-%04d", "/Службы/узел-%04d", "/服务/配置/节点-%04d", "/应用程序/键-%04d",
                 "/Брокеры/темы/主题-%04d")
        return self.chance.choice(forms) % self.chance.randrange(10_000)

    def names(self):
        forms = ("участник-%04d", "成员节点-%04d", "дочерний-%04d")
        return making.texts([self.chance.choice(forms) % self.chance.randrange(10_000)
                             for _ in range(self.chance.randrange(20))])


class Containers(making.Small):
    """Replies to exists, of container nodes: their owner is -2^63."""

    def exchange(self):
        stat = self.stat()
        return making.EXISTS, making.text(self.path()) + b"\0", 0, stat[:OWNER] + b"\x80" + bytes(7) + stat[OWNER + 8:]


def conversation(mix, size):
    """A recording of some `size` bytes, in the pieces of a proxy."""
    return making.HEAD + making.CONNECT + bytes(making.Repeated(mix(random.Random(mix.__name__)), size).bytes)


def one_message_a_piece(recording):
    """The same messages, each in a piece of its own."""
    cutter = zkr.Cutter()
    return making.HEAD + b"".join(making.pieces(frame.side, making.frame(frame.payload))
                                  for piece in zkr.Reader(io.BytesIO(recording)) for frame in cutter.take(piece))


# ---- one kind of message, many times


def syncs(paths):
    """Requests for sync of these paths, and then their replies."""
    told = [making.text(path) for path in paths]
    return (making.HEAD + making.CONNECT
            + making.pieces(b"C", b"".join(making.frame(making.request(1, making.SYNC, path)) for path in told))
            + making.pieces(b"S", b"".join(making.frame(making.reply(1, path)) for path in told)))


def children(names, replies=REPLIES, size=making.LARGEST_READ):
    """Requests for getChildren, whose replies have these names, given as their bytes, and each its length before it. They
    come in pieces of at most `size` bytes."""
    listed = struct.pack(">i", len(names)) + b"".join(names)
    return (making.HEAD + making.CONNECT
            + replies * exchange(making.GET_CHILDREN, making.text("/a") + b"\0", listed, size))


def names(form, others=None, chosen=lambda number: False):
    """As many names as a list has, each by its number from `form`, or from `others` if it is chosen."""
    return [making.text((others if chosen(number) else form) % number) for number in range(NAMES)]


def spread(percent):
    """Chooses some numbers at random."""
    chance = random.Random(percent)
    return lambda number: chance.random() * 100 < percent


def is_last_of_64(number):
    return number % 64 == 63


def ended_by(form, size):
    """Names of `size` bytes; the last of each 64 ends with a letter outside ASCII."""
    digits = size - len(form)
    return names(f"{form}%0{digits}d", f"{form}%0{digits - 2}dé", is_last_of_64)


def outside_ascii(size):
    """A text of `size` bytes, of characters of two and of three bytes, and of one more letter if they don't fit."""
    text = ("дом中节" * size).encode()[:size].decode(errors="ignore")
    return text + "a" * (size - len(text.encode()))


def of_lengths(least, most):
    """Texts outside ASCII, of each of these lengths in turn."""
    return [outside_ascii(least + number % (most + 1 - least)) for number in range(SYNCS)]


def escaped(size):
    """Texts with runs of `size` bytes that a line escapes, between plain letters."""
    return [f"/{number:03}" + 6 * f"{ESCAPED[size]}abcde" for number in range(SYNCS)]


def refused():
    """A list whose last name is no UTF-8."""
    return children([*names("member-%010d")[:-1], making.blob(b"member-\xff")], 1)


LISTS = {
    "names of ASCII, 17 bytes": lambda: names("member-%010d"),
    **{f"names, {percent}% outside ASCII": lambda percent=percent: names("member-%010d", "membér-%09d", spread(percent))
       for percent in (2, 5, 20)},
    **{f"names, the last of 64 outside ASCII, {size} bytes": lambda size=size: ended_by("member-", size)
       for size in (17, 60, 127, 300)},
    "names of one character of two bytes": lambda: [making.text(chr(0x430 + number % 32)) for number in range(NAMES)],
    "names of one character of three bytes": lambda: [making.text(chr(0x4e00 + number)) for number in range(NAMES)],
    "names of ASCII, 140 bytes": lambda: names("member-%0133d"),
    "null names": lambda: [NULL] * NAMES,
}

INPUTS = {
    "nothing": lambda: making.HEAD,
    "small": lambda: conversation(making.Small, 1_000_000),
    "big": lambda: conversation(making.Big, 2_000_000),
    "listing": lambda: conversation(making.Listing, 1_000_000),
    "one message a piece": lambda: one_message_a_piece(INPUTS["small"]()),
    "outside ASCII": lambda: conversation(Foreign, 1_000_000),
    "Cyrillic": lambda: syncs([f"/службы/настройки/ключ-{number:04}" for number in range(SYNCS)]),
    "containers": lambda: conversation(Containers, 300_000),
    "short": lambda: syncs(["/a"]),
    "refused": refused,
    **{name: lambda make=make: children(make()) for name, make in LISTS.items()},
    **{f"texts of {least} to {most} bytes": lambda least=least, most=most: syncs(of_lengths(least, most))
       for least, most in LENGTHS},
    **{f"runs of {size} to escape": lambda size=size: syncs(escaped(size)) for size in ESCAPED},
}
