"""Makes a capture of recordings, which Wireshark and tcpdump open.

    zkr2pcap.py [--port N] REC.zkr [REC.zkr ..] CAPTURE.pcap

Each recording becomes a TCP connection over IPv4, from a port of its own at 10.0.0.1 to port 2181, or N, at 10.0.0.2,
with a made-up beginning and end; it has no end where the facts beside the recording say that none was seen. A packet
has the time of its piece: those of a ZKR2 recording are within, others in REC.zkr.times, if that exists; else the
packets are a millisecond apart, from the beginning of 1970 on. The capture may not exist already, and its owner alone
may read it: it has everything that was said.
"""

import contextlib
import heapq
import os
import struct
from typing import NamedTuple

from . import contents, facts, packed, zkr
from .packets import ACK, ETHERNET, FIN, SYN

PUSH = 8
CLIENT_HOST, SERVER_HOST = b"\x0a\0\0\1", b"\x0a\0\0\2"
FIRST_PORT, MOST_CONNECTIONS = 40_001, 20_000
MOST_DATA = 1448
MAGIC_OF_NANOSECONDS, LATEST = 0xA1B23C4D, (1 << 32) * 10**9
ETHERNET_HEAD = bytes(12) + b"\x08\x00"


class Sent(NamedTuple):
    """A segment: its side, where its bytes begin (before the wrap, from the first number on), what it acknowledges."""
    milliseconds: float
    side: bytes
    number: int
    acknowledged: int
    flags: int
    data: bytes


def conversation(pieces, most=MOST_DATA, numbers=(1000, 2000), close=True, begun=None):
    """The segments of a connection with these pieces, none of more than `most` bytes of data. `numbers` are the
    sequence numbers before the client's and the server's first byte. The segments are a millisecond apart from `begun`
    on, where that is given; else each has the time of its piece, and none an earlier one than those before it."""
    first = {zkr.CLIENT: numbers[0], zkr.SERVER: numbers[1]}
    said = {zkr.CLIENT: 0, zkr.SERVER: 0}
    now = begun

    def send(side, flags, data=b""):
        nonlocal now
        acknowledged = first[zkr.OTHER[side]] + said[zkr.OTHER[side]] if flags & ACK else 0
        sent = Sent(now, side, first[side] + said[side], acknowledged, flags, data)
        said[side] += len(data) + bool(flags & (SYN | FIN))
        now += begun is not None
        return sent

    def begin():
        yield send(zkr.CLIENT, SYN)
        yield send(zkr.SERVER, SYN | ACK)
        yield send(zkr.CLIENT, ACK)
    if begun is not None:
        yield from begin()
    for piece in pieces:
        if begun is None:
            is_first, now = now is None, max(now or 0, piece.milliseconds or 0)
            if is_first:
                yield from begin()
        for at in range(0, len(piece.data), most):
            yield send(piece.side, PUSH | ACK, piece.data[at:at + most])
    if close and now is not None:
        yield send(zkr.CLIENT, FIN | ACK)
        yield send(zkr.SERVER, FIN | ACK)
        yield send(zkr.CLIENT, ACK)


def checksum(data):
    total = sum(struct.unpack(f">{len(data) // 2}H", data[:len(data) & ~1])) + (data[-1] << 8 if len(data) % 2 else 0)
    while total >> 16:
        total = (total & 0xFFFF) + (total >> 16)
    return struct.pack(">H", ~total & 0xFFFF)


def tcp(sent, client, server):
    """The bytes of a TCP segment between these two ports, without its checksum."""
    ports = (client, server) if sent.side == zkr.CLIENT else (server, client)
    return struct.pack(">HHIIHHHH", *ports, sent.number % 2**32, sent.acknowledged % 2**32, 5 << 12 | sent.flags,
                       65535, 0, 0) + sent.data


def ipv4(side, segment, client=CLIENT_HOST, server=SERVER_HOST):
    """The packet of a TCP segment between these hosts."""
    ends = client + server if side == zkr.CLIENT else server + client
    total = checksum(ends + struct.pack(">HH", 6, len(segment)) + segment)
    head = struct.pack(">BBHHHBBH", 0x45, 0, 20 + len(segment), 0, 0x4000, 64, 6, 0) + ends
    return head[:10] + checksum(head) + head[12:] + segment[:16] + total + segment[18:]


def nanoseconds(text):
    """A time of a file of times, in milliseconds, as a whole number of nanoseconds."""
    whole, _, part = text.partition(".")
    return int(whole) * 10**6 + int((part + "0" * 6)[:6])


def timed(path, reader, times):
    """The pieces of a recording, each with its time in nanoseconds: these times, if any."""
    try:
        for number, piece in enumerate(reader):
            if times:
                moment = nanoseconds(next(times))
            else:
                moment = (piece.milliseconds or number) * 10**6
            if moment >= LATEST:
                raise ValueError(f"{path} has a time after the year 2106, and a capture can't have such a time")
            yield piece._replace(milliseconds=moment)
    except zkr.Damaged as damage:
        raise ValueError(f"{path}: {damage}") from None


def packets(path, reader, client, server):
    """The packets of a recording, each with its time in nanoseconds and the port of its client."""
    times = contents.times_beside(path) if os.path.exists(zkr.times_path(path)) else None
    known = facts.facts_of(path)
    ends = not (known and (known.open or known.hole or known.unfinished))
    segments = conversation(timed(path, reader, times), close=ends)
    return ((sent.milliseconds, client, ETHERNET_HEAD + ipv4(sent.side, tcp(sent, client, server)))
            for sent in segments)


def write(out, found):
    """Writes a capture of these packets."""
    out.write(struct.pack("<IHHiIII", MAGIC_OF_NANOSECONDS, 2, 4, 0, 0, 65535, ETHERNET))
    for moment, _, packet in found:
        seconds, part = divmod(moment, 10**9)
        out.write(struct.pack("<IIII", seconds, part, len(packet), len(packet)) + packet)


def main():
    parser = zkr.Words(__doc__)
    parser.add_number("--port", range(1, 65536), default=2181, help="the server's port (2181)")
    parser.add_argument("recordings", metavar="REC.zkr", nargs="+")
    parser.add_argument("capture", metavar="CAPTURE.pcap")
    words = parser.parse_args()
    zkr.allow_many_files()
    if len(words.recordings) > MOST_CONNECTIONS:
        parser.error(f"there are {len(words.recordings):,} recordings: name {MOST_CONNECTIONS:,} at most")
    with contextlib.ExitStack() as stack:
        return write_all(words, stack)


def write_all(words, stack):
    """Writes the capture that these arguments name; `stack` keeps what is unpacked and opened for it."""
    found = []
    for number, path in enumerate(words.recordings):
        file = stack.enter_context(packed.recording(path))
        try:
            reader = zkr.Reader(stack.enter_context(open(file, "rb")))
            found.append(packets(file, reader, FIRST_PORT + number, words.port))
        except zkr.Damaged as damage:
            raise ValueError(f"{path}: {damage}") from None
    number = os.open(words.capture, os.O_WRONLY | os.O_CREAT | os.O_EXCL, 0o600)
    try:
        with open(number, "wb") as out:
            write(out, heapq.merge(*found, key=lambda packet: packet[0]))
    except OSError as error:
        # What can't be written whole can be made again, once there is room.
        os.unlink(words.capture)
        raise OSError(error.errno, error.strerror, error.filename or words.capture) from error
    return 0
