"""TCP segments out of capture files, as tcpdump and Wireshark write them: pcap and pcapng, also packed with gzip.

Links: Ethernet and the cooked captures of Linux (SLL and SLL2), all with any number of VLAN tags, raw IP, and the
loopback of BSD and macOS. Networks: IPv4 and IPv6. A packet that was sent in fragments is passed over, though not one
whose only fragment is all of it, and so is what isn't TCP.

A segment is a plain tuple, since there are many of them:

    number, milliseconds, ends, source, target, sequence, acknowledged, flags, data, snapped

`number` is the packet's number in the capture, from 1, as Wireshark counts. `ends` are the source's and the target's
address and their ports, as the packet has them: a value of its own for each direction of each connection. `source` and
`target` are the ports; `snapped` is how many bytes at the end of its data were not captured.
"""

import gzip
import signal
import struct

FIN, SYN, RST, ACK = 1, 2, 4, 16
ENDING = (signal.SIGINT, signal.SIGTERM, signal.SIGHUP)
LARGEST_PACKET, LATEST = 1 << 24, 253_402_300_800_000
BLOCK = 1 << 18
ETHERNET, RAW = 1, 101
# By the number of the link type: where its header has the kind of what follows, or None; and its length. Tags of VLANs
# may come after it, each with the kind of what follows that.
LINKS = {0: (None, 4), 108: (None, 4), 12: (None, 0), 14: (None, 0), RAW: (None, 0), 228: (None, 0), 229: (None, 0),
         ETHERNET: (12, 14), 113: (14, 16), 276: (0, 20)}
VLANS, IP_KINDS = (b"\x81\x00", b"\x88\xa8", b"\x91\x00"), (b"\x08\x00", b"\x86\xdd")
FRAGMENTED, EXTENSIONS, TCP = 0x3FFF, (0, 43, 60), 6
FRAGMENT, PARTIAL = 44, 0xFFF9      # IPv6's header of fragments: its place, and whether more follow
IPV4, TCP_HEAD = struct.Struct(">2xH2xHxB"), struct.Struct(">HHIIBB")
# Ethernet, IPv4 without options, and TCP: the heads of nearly all packets.
USUAL, IPV4_KIND, IPV4_PLAIN = struct.Struct(">12xHBxH2xHxB10xHHIIBB"), 0x0800, 0x45
SECTION, INTERFACE, OLD_PACKETS, PACKET = 0x0A0D0D0A, 1, (2, 3), 6


class NotRead(ValueError):
    """A file that is not a capture, or one of a kind that this module doesn't read."""


def interruptible(call, *words):
    """Calls what may wait for bytes. A signal that ends the reading has an effect, also where it is blocked everywhere
    else."""
    before = signal.pthread_sigmask(signal.SIG_BLOCK, [])
    try:
        signal.pthread_sigmask(signal.SIG_UNBLOCK, ENDING)
        return call(*words)
    finally:
        signal.pthread_sigmask(signal.SIG_SETMASK, before)


class Source:
    """The bytes of a stream: `data`, of which those before `at` have been used."""

    def __init__(self, stream):
        self.read, self.data, self.at = stream.read1, b"", 0

    def more(self, at):
        """Reads on, and drops the bytes before `at`. False at the stream's end."""
        rest = self.data[at:]
        # It reads as much again as is there: else a large packet would be copied once for each small part of it.
        new = interruptible(self.read, max(BLOCK, len(rest)))
        self.data, self.at = rest + new, 0
        return bool(new)

    def exactly(self, size):
        """The next `size` bytes."""
        while len(self.data) - self.at < size:
            if not self.more(self.at):
                raise EOFError("the capture ends within a packet")
        self.at += size
        return self.data[self.at - size:self.at]


def segments(stream, pass_over):
    """The TCP segments of a capture: of a buffered stream of its bytes. Calls `pass_over` with the number and
    the link type of an interface whose packet isn't read."""
    if interruptible(stream.peek, 2)[:2] == b"\x1f\x8b":
        stream = gzip.GzipFile(fileobj=stream)
    source, number = Source(stream), 0
    mark = source.exactly(4) if source.more(0) else b""
    packets = packets_of_pcapng(source, pass_over) if mark == b"\x0a\x0d\x0d\x0a" else packets_of_pcap(source, mark)
    unpack_ip, unpack_tcp, unpack_usual, usual = IPV4.unpack_from, TCP_HEAD.unpack_from, USUAL.unpack_from, USUAL.size
    for number, (milliseconds, link, packet, at, end, sent) in enumerate(packets, 1):
        if not 0 <= milliseconds < LATEST:
            raise NotRead(f"packet {number} has no time between the years 1970 and 9999: correct it with editcap -t")
        if link == ETHERNET and end - at >= usual:
            kind, version, size, fragment, protocol, source_port, target_port, sequence, acknowledged, length, flags = \
                unpack_usual(packet, at)
            if kind == IPV4_KIND and version == IPV4_PLAIN and protocol == TCP and not fragment & FRAGMENTED:
                if length >= 0x50:
                    whole, begin = at + 14 + size if size else max(end, at + sent), at + 34 + (length >> 4) * 4
                    yield (number, milliseconds, packet[at + 26:at + 38], source_port, target_port, sequence,
                           acknowledged, flags, packet[begin:whole if whole < end else end],
                           whole > end and max(0, whole - max(begin, end)))
                continue
        begun, at = at, network_place(link, packet, at)
        if end - at >= 40 and packet[at] == 0x45:
            size, fragment, kind = unpack_ip(packet, at)
            if kind != TCP or fragment & FRAGMENTED:
                continue
            # 0 where the network card cuts the packet only later
            whole, ends, at = at + size if size else max(end, begun + sent), packet[at + 12:at + 24], at + 20
        else:
            found = other_network(packet, at, end)
            if not found:
                continue
            at, whole, ends = found
            whole = whole or max(end, begun + sent)
        source_port, target_port, sequence, acknowledged, length, flags = unpack_tcp(packet, at)
        if length < 0x50:
            continue
        begin = at + (length >> 4) * 4
        yield (number, milliseconds, ends, source_port, target_port, sequence, acknowledged, flags,
               packet[begin:whole if whole < end else end], whole > end and max(0, whole - max(begin, end)))


def packets_of_pcap(source, mark):
    """The packets of a pcap file, whose first four bytes were read: for each its time, its link type, bytes with the
    places in them where it begins and ends, and how many bytes it had when it was sent."""
    forms = {struct.pack(order + "I", number): (order, unit)
             for order in "<>" for number, unit in ((0xA1B2C3D4, 1e-3), (0xA1B23C4D, 1e-6))}
    if mark not in forms:
        raise NotRead("this is not a capture of tcpdump or Wireshark (pcap or pcapng)")
    order, unit = forms[mark]
    # (above the link type is how many bytes of check sequence each packet ends with, which IP's length leaves out)
    link = struct.unpack(order + "16xI", source.exactly(20))[0] & 0x03FFFFFF
    unpack = struct.Struct(order + "IIII").unpack_from
    data, at = source.data, source.at
    while True:
        size, last = 0, len(data)
        while at + 16 <= last:
            seconds, part, size, sent = unpack(data, at)
            end = at + 16 + size
            if end > last:
                break
            yield seconds * 1000 + part * unit, link, data, at + 16, end, sent
            at = end
        if size > LARGEST_PACKET:
            raise NotRead(f"the capture is damaged: it has a packet of {size} bytes")
        if not source.more(at):
            if at < last:
                raise EOFError("the capture ends within a packet")
            return
        data, at = source.data, 0


def packets_of_pcapng(source, pass_over):
    """The same of a pcapng file, whose first four bytes were read. Where an interface has a link type that isn't read,
    its packets have no bytes."""
    kind, order, interfaces = SECTION, "<", []
    while True:
        head = source.exactly(4)
        if kind == SECTION:  # it says in which order its bytes are
            mark = source.exactly(4)
            order, interfaces = "<" if mark == b"\x4d\x3c\x2b\x1a" else ">", []
            body = block_body(source, order, head, 16)
        else:
            body = block_body(source, order, head, 12)
        if kind == INTERFACE:
            interfaces.append((struct.unpack_from(order + "H", body)[0], *clock_of(order, body[8:])))
        elif kind == PACKET:
            interface, high, low, length, sent = struct.unpack_from(order + "IIIII", body)
            link, rate, offset = interfaces[interface]
            if link in LINKS:
                seconds, part = divmod((high << 32) + low, rate)    # a float has no room for all digits
                end = min(20 + length, len(body))
                yield (seconds + offset) * 1000 + part * 1000 / rate, link, body, 20, end, sent
            else:
                pass_over(interface, link)
                yield 0, RAW, b"", 0, 0, 0
        elif kind in OLD_PACKETS:
            raise NotRead("this is a pcapng of an old form: convert it with editcap -F pcapng OLD NEW")
        if source.at == len(source.data) and not source.more(source.at):
            return
        kind = struct.unpack(order + "I", source.exactly(4))[0]


def block_body(source, order, head, least):
    """The content of a block of pcapng, without its head and its end, which are `least` bytes and both have the
    length."""
    size = struct.unpack(order + "I", head)[0]
    if not least <= size <= LARGEST_PACKET:
        raise NotRead(f"the capture is damaged: it has a block of {size} bytes")
    body = source.exactly(size - least)
    if source.exactly(4) != head:
        raise NotRead("the capture is damaged: a block has one length before it and another after it")
    return body


def clock_of(order, options):
    """How many units of an interface's times are a second, and what is added to them, in seconds: by its options."""
    rate, offset = 10**6, 0
    while len(options) >= 4:
        code, size = struct.unpack(order + "HH", options[:4])
        value = options[4:4 + size]
        if code == 9:
            rate = 2 ** (value[0] & 127) if value[0] & 128 else 10 ** value[0]
        elif code == 14:
            offset = struct.unpack(order + "q", value)[0]
        elif code == 0:
            break
        options = options[4 + (size + 3 & ~3):]
    return rate, offset


def network_place(link, packet, at):
    """Where the IP header begins, of a packet that begins at this place; past its end if it has none."""
    try:
        place, size = LINKS[link]
    except KeyError:
        raise NotRead(f"packets of link type {link} can't be read: capture at another interface, such as any or "
                      "eth0") from None
    if place is None:
        return at + size
    kind, at = packet[at + place:at + place + 2], at + size
    while kind not in IP_KINDS:
        if kind not in VLANS:
            return len(packet)
        kind, at = packet[at + 2:at + 4], at + 4
    return at


def other_network(packet, at, end):
    """Of an IP packet: where TCP begins, where the packet should end, or 0 if it doesn't say that, and the ends. None
    if there is no TCP."""
    version = packet[at] >> 4 if at < end else 0
    if version == 4 and end - at >= 20:
        size, fragment, kind = IPV4.unpack_from(packet, at)
        tcp, addresses = at + (packet[at] & 15) * 4, packet[at + 12:at + 20]
        if fragment & FRAGMENTED or tcp < at + 20:
            return None
    elif version == 6 and end - at >= 40:
        size, kind, tcp, addresses = struct.unpack_from(">H", packet, at + 4)[0], packet[at + 6], at + 40, \
            packet[at + 8:at + 40]
        size += 40 if size else 0
        while end >= tcp + 8:
            if kind in EXTENSIONS:
                kind, tcp = packet[tcp], tcp + 8 + packet[tcp + 1] * 8
            elif kind == FRAGMENT and not int.from_bytes(packet[tcp + 2:tcp + 4], "big") & PARTIAL:
                kind, tcp = packet[tcp], tcp + 8
            else:
                break
    else:
        return None
    if kind != TCP or end < tcp + 20:
        return None
    return tcp, at + size if size else 0, addresses + packet[tcp:tcp + 4]
