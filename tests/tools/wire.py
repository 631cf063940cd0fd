"""Captures made of recordings: what tcpdump would have captured of a connection, for the tests of pcap2zkr.py."""

import struct

from .support import zkr
from tools.zkdump_tools.packets import ACK, FIN, RST, SYN  # noqa: F401
from tools.zkdump_tools.zkr2pcap import PUSH, Sent, tcp  # noqa: F401
from tools.zkdump_tools import zkr2pcap

BEGUN = 1_700_000_000_000


def conversation(*words, **more):
    """The segments of a connection with these pieces, a millisecond apart, from BEGUN on."""
    return zkr2pcap.conversation(*words, begun=float(BEGUN), **more)


def ipv4(side, segment, client=b"\x0a\0\0\7", server=b"\x0a\0\0\x09"):
    return zkr2pcap.ipv4(side, segment, client, server)


def ipv6(side, segment, client=bytes(15) + b"\7", server=bytes(15) + b"\x09"):
    """With a header of options for each hop before TCP's."""
    ends = client + server if side == zkr.CLIENT else server + client
    return struct.pack(">IHBB", 6 << 28, 8 + len(segment), 0, 64) + ends + b"\6\0\1\4\0\0\0\0" + segment


# By name: the number of the link type, and what its header is for IPv4 and for IPv6.
LINKS = {
    "ethernet": (1, {4: bytes(12) + b"\x08\x00", 6: bytes(12) + b"\x86\xdd"}),
    "vlans": (1, {4: bytes(12) + b"\x88\xa8\0\1\x81\0\0\2\x08\x00", 6: bytes(12) + b"\x81\0\0\1\x86\xdd"}),
    "sll": (113, {4: bytes(14) + b"\x08\x00", 6: bytes(14) + b"\x86\xdd"}),
    "sll with a vlan": (113, {4: bytes(14) + b"\x81\0\0\1\x08\x00", 6: bytes(14) + b"\x81\0\0\1\x86\xdd"}),
    "sll2": (276, {4: b"\x08\x00" + bytes(18), 6: b"\x86\xdd" + bytes(18)}),
    "sll2 with vlans": (276, {4: b"\x81\0" + bytes(18) + b"\0\1\x08\x00",
                              6: b"\x88\xa8" + bytes(18) + b"\0\1\x81\0\0\2\x86\xdd"}),
    "raw": (101, {4: b"", 6: b""}),
    "null": (0, {4: b"\2\0\0\0", 6: b"\x1e\0\0\0"}),
    "loop": (108, {4: b"\0\0\0\2", 6: b"\0\0\0\x1e"}),
}


def packet(sent, link="ethernet", version=4, client=41822, server=2181, **more):
    network = (ipv4 if version == 4 else ipv6)(sent.side, tcp(sent, client, server), **more)
    padding = bytes(max(0, 46 - len(network))) if LINKS[link][0] == 1 else b""
    return LINKS[link][1][version] + network + padding


def pcap(packets, link="ethernet", order="<", nanoseconds=False, snap=65535):
    """A pcap file of packets, each a pair of its milliseconds and its bytes."""
    unit = 10**9 if nanoseconds else 10**6
    parts = [struct.pack(order + "IHHiIII", 0xA1B23C4D if nanoseconds else 0xA1B2C3D4, 2, 4, 0, 0, snap,
                         LINKS[link][0])]
    for milliseconds, data in packets:
        seconds, part = divmod(round(milliseconds * unit / 1000), unit)
        parts.append(struct.pack(order + "IIII", seconds, part, len(data[:snap]), len(data)) + data[:snap])
    return b"".join(parts)


def pcapng(packets, link="ethernet", order="<", snap=65535):
    """A pcapng file with a second interface of nanoseconds, which has the packets, and a block of another kind."""
    def block(kind, body):
        body += bytes(-len(body) % 4)
        size = struct.pack(order + "I", 12 + len(body))
        return struct.pack(order + "I", kind) + size + body + size
    interface = struct.pack(order + "HHI", LINKS[link][0], 0, 0)
    nanoseconds = struct.pack(order + "HH", 9, 1) + b"\x09\0\0\0" + bytes(4)
    parts = [block(0x0A0D0D0A, struct.pack(order + "IHHq", 0x1A2B3C4D, 1, 0, -1)), block(1, interface),
             block(1, interface + nanoseconds), block(4, b"names")]
    for milliseconds, data in packets:
        high, low = divmod(round(milliseconds * 10**6), 2**32)
        parts.append(block(6, struct.pack(order + "IIIII", 1, high, low, len(data[:snap]), len(data)) + data[:snap]))
    return b"".join(parts)
