"""Tests of the packets that pcap2zkr.py reads: of what their heads say, and of what isn't captured of them."""

import struct

from . import wire
from .captured import PcapCase, packed
from .support import sides, zkr

LONG = bytes(range(250))
ASK, REPLY = zkr.Piece(zkr.CLIENT, None, b"ask"), zkr.Piece(zkr.SERVER, None, LONG)


def opened(*said):
    """The segments of a connection that isn't closed."""
    return list(wire.conversation(said, close=False))


class Lengths(PcapCase):
    def test_a_length_of_0_is_that_of_the_packet(self):
        """As where the network card cuts what is sent: how long it was is said beside the packet alone."""
        for link, version, place in (("ethernet", 4, 16), ("raw", 4, 2), ("raw", 6, 4), ("sll", 6, 20)):
            packets = packed(opened(ASK, REPLY), link=link, version=version)
            for at, (time, packet) in enumerate(packets):
                if len(packet) > 200:
                    packets[at] = time, packet[:place] + b"\0\0" + packet[place + 2:]
            cut = len(packet) - 50
            for name, capture, left in (("pcap", wire.pcap(packets, link), 0),
                                        ("pcap, cut", wire.pcap(packets, link, snap=cut), 50),
                                        ("pcapng", wire.pcapng(packets, link), 0),
                                        ("pcapng, cut", wire.pcapng(packets, link, snap=cut), 50)):
                with self.subTest(name, link=link, version=version):
                    status, told, made = self.convert(capture)
                    self.assertEqual(sides(made[0]), (b"ask", LONG[:250 - left]))
                    self.assertEqual((status, told[0].split()[12:]),
                                     (1, ["open", "hole=S", "snapped"]) if left else (0, ["open"]))


class Extensions(PcapCase):
    def segments(self, *headers):
        """A capture whose packets have these headers between those of IPv6 and TCP: each its kind and its bytes, whose
        first is the kind of the next."""
        kinds = [kind for kind, _ in headers] + [6]
        between = b"".join(bytes([after]) + content for (_, content), after in zip(headers, kinds[1:]))
        packets = []
        for sent in opened(ASK, REPLY):
            ends = [bytes(15) + b"\7", bytes(15) + b"\x09"]
            segment = between + wire.tcp(sent, 41822, 2181)
            head = struct.pack(">IHBB", 6 << 28, len(segment), kinds[0], 64)
            packets.append((sent.milliseconds, head + b"".join(ends[::1 if sent.side == zkr.CLIENT else -1]) + segment))
        return wire.pcap(packets, "raw")

    def test_headers_before_that_of_tcp(self):
        """The one of fragments, with the offset 0 and no more of them, is that of a whole packet; its two reserved bits
        and its reserved byte say nothing."""
        options, routing = (0, b"\0\1\4\0\0\0\0"), (43, b"\1" + bytes(14))
        for headers in ([], [options], [routing, (60, b"\0\1\4\0\0\0\0")], [(44, b"\0\0\0abcd")],
                        [(44, b"\xff\0\6abcd")], [options, (44, b"\0\0\0abcd"), (60, b"\0\1\4\0\0\0\0")]):
            with self.subTest(headers=headers):
                status, told, made = self.convert(self.segments(*headers))
                self.assertEqual((status, len(told)), (0, 1), self.complaint)
                self.assertEqual(sides(made[0]), (b"ask", LONG))

    def test_fragments_are_passed_over(self):
        for place in (b"\0\1", b"\0\x08", b"\x80\0"):
            status, told, _ = self.convert(self.segments((44, b"\0" + place + b"abcd")))
            self.assertEqual((status, told), (1, []))


class Interfaces(PcapCase):
    """A pcapng with an interface of a link type that isn't read."""

    def block(self, kind, body):
        body += bytes(-len(body) % 4)
        return struct.pack("<II", kind, 12 + len(body)) + body + struct.pack("<I", 12 + len(body))

    def test_what_is_not_read_is_passed_over_and_named_once(self):
        """Its packets count, as in Wireshark, and the connection is whole."""
        packets = packed(wire.conversation([ASK, REPLY]))
        other = self.block(1, struct.pack("<HHI", 249, 0, 0)) + 2 * self.block(6, struct.pack(
            "<IIIII", 2, 0, 0, 9, 9) + b"\0\1\2\3\4\5\6\7\x08")
        status, told, made = self.convert(wire.pcapng(packets[:5]) + other + wire.pcapng(packets[5:]))
        self.assertEqual((status, sides(made[0])), (1, (b"ask", LONG)))
        self.assertRegex(told[0], rf" packets=1-{len(packets) + 2} resent=0 closed=C$")
        self.assertEqual(self.complaint, "pcap2zkr.py: packets of link type 249, as those of interface 2, can't be "
                         "read and are passed over: capture at another interface, such as any or eth0\n")

    def test_one_without_packets_is_no_matter(self):
        packets = packed(wire.conversation([ASK, REPLY]))
        other = self.block(1, struct.pack("<HHI", 249, 0, 0))
        status, told, _ = self.convert(wire.pcapng(packets[:5]) + other + wire.pcapng(packets[5:]))
        self.assertEqual((status, len(told), self.complaint), (0, 1, ""))
