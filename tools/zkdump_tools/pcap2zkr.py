"""Makes recordings of the ZooKeeper connections in a capture of tcpdump or Wireshark.

    pcap2zkr.py [--port N] [--late] CAPTURE PREFIX

CAPTURE is a file of pcap or pcapng, also one packed with gzip, or - for standard input. Each connection to the port
(2181) becomes PREFIX-1.zkr, PREFIX-2.zkr and so on; a number whose file exists is skipped. Once a connection has ended,
its line is printed (here on two lines):

    PREFIX-1.zkr 10.0.0.7:41822 > 10.0.0.9:2181 begun 2026-11-22T20:31:07.120Z ended 2026-11-22T20:31:09.884Z
        client=1045 server=2210 packets=1-37 resent=0 closed=C

`packets` has the numbers of its first and its last packet in the capture, and `resent` how many segments were captured
again. `closed=C` means that the client sent the first FIN, `reset=S` that the server sent a reset, and `open` that
neither was captured; `ended` is the time of that, or of the last packet.

Bytes are written only after everything that their sender had acknowledged, so no reply comes before its request, in
whatever order packets were captured. They have the time of their packet, or where bytes before them were captured
later, as after a loss on the network, the time from which all were there. Where bytes are missing, the recording ends
before them, and its line has `hole=C` or `hole=S`, the side of the missing bytes. What follows them becomes
PREFIX-1.2.zkr and so on, each with its line. Such a recording has a made-up connect request and response (all numbers
-1), and then begins with the first request whose reply is there. Its line has the numbers of bytes of each side that
were not captured before it (`lost=C:0,S:96`), of captured bytes that are left out (`skipped=C:120,S:300`), and of
replies that are left out because their requests are not in it (`unasked=3`). `snapped` means that packets were not
captured whole. One byte alone that is missing after a side's last whole message can't be told from its FIN, and counts
as that.

A connection that began before the capture gets a line with `late`, and no recording. With --late it gets one, which
begins in the same way as after missing bytes.

Ctrl-C or SIGTERM ends the reading; connections that are still open get their lines. The status is 1 if anything was
left out, or if the capture has no connection to the port.
"""

import contextlib
import ipaddress
import math
import signal
import struct
import sys
import zlib

from . import packets, resync, zkr
from .conversation import Conversation
from .recordings import Series
from .streams import MASK, Budget, Stream

MOST_HELD = MOST_WAITING = 1 << 25
MOST_SILENT, MOST_LINGERING, MOST_OVER, MOST_PORTS = 8192, 256, 8192, 8
# Of a live capture, in milliseconds: how long bytes may wait for missing ones that were received, and for others, and
# how long a connection may be silent.
PATIENCE, LONG_PATIENCE, SILENCE = 1000, 60_000, 600_000
DAMAGED = (struct.error, IndexError, zlib.error)


def address_text(ends, at):
    """The source's address and port, or where `at` is 1 the target's, out of a segment's ends."""
    width, port = (len(ends) - 4) // 2, len(ends) - 4 + 2 * at
    address = ipaddress.ip_address(ends[at * width:(at + 1) * width])
    text = str(address) if address.version == 4 else f"[{address}]"
    return f"{text}:{int.from_bytes(ends[port:port + 2], 'big')}"


class Capture:
    """All connections of a capture to a port of the server. `series` makes their recordings. Where it is `live`, none
    waits for the connection's end or for much to wait: by the times of the packets, bytes that are missing count as lost
    in a moment, and what is over or silent ends."""

    def __init__(self, port, series, live=False):
        self.port, self.series, self.live, self.begun, self.left_out, self.passed_over = \
            port, series, live, 0, False, set()
        self.budget, self.heard = Budget(MOST_HELD), {}
        # By the ends of a direction, the half of a connection, or where the bytes of one that is over were. And the
        # connections of which no byte was captured yet, and those of which no more is expected, the oldest first.
        self.halves, self.over, self.silent, self.lingering = {}, {}, {}, {}

    def convert(self, stream):
        """Makes recordings of a capture. Where one can't be written, those of which nothing was written are removed.
        Ctrl-C, and a signal that would end the tool, have an effect only where bytes are read, so that no packet is
        taken in part."""
        before = signal.pthread_sigmask(signal.SIG_BLOCK, packets.ENDING)
        usual = {number: signal.signal(number, signal.default_int_handler) for number in packets.ENDING
                 if signal.getsignal(number) is signal.SIG_DFL}
        try:
            self.read(stream)
        except OSError:
            self.series.remove_empty()
            raise
        finally:
            with contextlib.suppress(KeyboardInterrupt):
                signal.pthread_sigmask(signal.SIG_SETMASK, before)
            for number, handler in usual.items():
                signal.signal(number, handler)

    def pass_over(self, interface, link):
        """Reports an interface of a capture whose packets can't be read, once for each link type."""
        if link not in self.passed_over:
            self.passed_over.add(link)
            self.left_out = True
            zkr.complain(f"packets of link type {link}, as those of interface {interface}, can't be read and are "
                         "passed over: capture at another interface, such as any or eth0")

    def read(self, stream):
        """Reads a capture up to its end, or up to a signal."""
        progress, halves, failed = zkr.Progress("pcap2zkr.py", bool(sys.stderr) and not self.live), self.halves, None
        due = 0 if self.live else math.inf
        try:
            for segment in packets.segments(stream, self.pass_over):
                number, milliseconds, ends, _, _, sequence, acknowledged, flags, data, snapped = segment
                if milliseconds > due:
                    self.tend(milliseconds)
                    due = milliseconds + PATIENCE / 4
                half = halves.get(ends)
                if half is None or flags & packets.SYN:
                    half = self.half_of(half, segment)
                    if half is None:
                        continue
                if half.take(number, milliseconds, sequence, acknowledged, flags, data, snapped):
                    self.look_after(half.stream)
                if number & 1023 == 0:
                    progress.show(f"{number} packets, {self.begun} connections")
        except KeyboardInterrupt:
            pass
        except (EOFError, OSError, packets.NotRead, *DAMAGED) as error:
            failed = error
        progress.end()
        # Where one recording can't be written, the others are left as they are.
        if not getattr(failed, "filename", None):
            for stream in self.streams():
                self.finish(stream)
        if failed:
            raise failed

    def half_of(self, half, segment):
        """The half that takes a segment with a SYN, or one of unknown ends: a new one where a connection begins."""
        number, milliseconds, ends, source, target, sequence, _, flags, data, snapped = segment
        begins = flags & packets.SYN
        if half:
            if half.first in (-1, sequence + 1 & MASK):
                return half
            self.finish(half.stream)
        if self.port not in (source, target):
            self.hear(source, target, flags)
            return None
        width = (len(ends) - 4) // 2
        back = ends[width:2 * width] + ends[:width] + ends[-2:] + ends[-4:-2]
        if not (begins or data or snapped) or ends == back:
            return None
        if ends in self.over:
            first, size = self.over[ends]
            if first == sequence + 1 & MASK if begins else sequence - first & MASK < size:
                return None  # it was captured again
            del self.over[ends]
            self.over.pop(back, None)
        from_client = self.is_from_client(segment)
        client = ends if from_client else back
        conversation = Conversation(self.series, address_text(client, 0), address_text(client, 1), not begins, number,
                                    milliseconds)
        stream = conversation.stream = Stream(conversation, self.budget, number, milliseconds)
        stream.ends = client, back if from_client else ends
        self.halves.update(zip(stream.ends, stream.halves))
        self.begun += 1
        self.silent[stream] = None
        if len(self.silent) > MOST_SILENT:
            self.forget_silent()
        return self.halves[ends]

    def is_from_client(self, segment):
        """Whether the client sent this segment, of a connection of which nothing is known."""
        source, target, flags, data = segment[3], segment[4], segment[7], segment[8]
        if source != target:
            return target == self.port
        if flags & packets.SYN:
            return not flags & packets.ACK
        return not resync.frames_follow(zkr.SERVER, data, 0, self.series.head.server_limit)

    def hear(self, source, target, flags):
        """Counts a packet of another port, by that which is the server's."""
        if flags & packets.SYN:
            port = source if flags & packets.ACK else target
        else:
            port = next((port for port in (target, source) if port in self.heard), min(source, target))
        self.heard[port] = self.heard.get(port, 0) + 1

    def look_after(self, stream):
        """Ends a connection that is over, and lets none hold too much."""
        if stream.is_complete():
            self.finish(stream)
        elif stream.is_over():
            # What was captured late may still come.
            self.lingering[stream] = None
            if len(self.lingering) > MOST_LINGERING:
                oldest = next(iter(self.lingering))
                del self.lingering[oldest]
                if oldest.is_over():
                    self.finish(oldest)
        if self.budget.held > self.budget.most:
            self.relieve()

    def relieve(self):
        """Continues after missing bytes, in the connections that hold most."""
        holding = sorted({half.stream for half in self.halves.values() if half.stream.held},
                         key=lambda stream: stream.held)
        while self.budget.held > self.budget.most // 4 * 3:
            if not holding[-1].give_up():
                holding.pop()

    def streams(self):
        """The connections that aren't over."""
        return dict.fromkeys(half.stream for half in self.halves.values())

    def tend(self, now):
        """Continues after bytes that are missing since long before this moment, and ends what is over or silent."""
        for stream in list(self.streams()):
            while stream.held and stream.is_overdue(now - PATIENCE, now - LONG_PATIENCE) and stream.give_up():
                pass
            if stream.last_time < now - (PATIENCE if stream.is_over() else SILENCE):
                self.finish(stream)

    def forget_silent(self):
        """Ends the oldest of the connections of which no byte was captured."""
        for stream in list(self.silent)[:MOST_SILENT // 4]:
            del self.silent[stream]
            if stream.is_silent():
                self.finish(stream)

    def finish(self, stream):
        """Ends a connection, and lets it go."""
        while stream.give_up():
            pass
        stream.sink.finish()
        self.left_out |= stream.sink.left_out
        for ends, half in zip(stream.ends, stream.halves):
            del self.halves[ends]
            self.over[ends] = half.first, half.place
            if len(self.over) > MOST_OVER:
                del self.over[next(iter(self.over))]
        self.silent.pop(stream, None)
        self.lingering.pop(stream, None)
        stream.let_go()

    def ports_heard(self):
        """The other ports in the capture, as they are reported."""
        most = sorted(self.heard, key=lambda port: (-self.heard[port], port))[:MOST_PORTS]
        return f"; choose one of its ports with --port N: {', '.join(map(str, most))}" if most else ""


def words_of():
    parser = zkr.Words(__doc__)
    parser.add_number("--port", range(1, 65536), default=2181, help="the server's port (2181)")
    parser.add_argument("--late", action="store_true", help="join connections that began before the capture")
    parser.add_argument("capture", metavar="CAPTURE")
    parser.add_argument("prefix", metavar="PREFIX")
    parser.add_format()
    words = parser.parse_args()
    return words, parser.head_of(words)


def converted(capture, name, stream):
    """Converts a capture that is called so, to its end or to a signal, and reports what goes wrong. The status."""
    try:
        capture.convert(stream)
    except EOFError:
        zkr.complain(f"{name}: the capture ends within a packet, and was read up to there")
        return 1
    except DAMAGED:
        zkr.complain(f"{name}: the capture is damaged, and was read up to there")
        return 3
    except OSError as error:
        left = ", ".join(capture.series.begun())
        zkr.complain(f"{error.filename or name}: {error.strerror or error}"
                     + f"; these recordings are not complete: {left}" * bool(left))
        return 3
    except packets.NotRead as error:
        zkr.complain(f"{name}: {error}")
        return 3
    if capture.series.unsaid:
        zkr.complain(f"standard output: {capture.series.unsaid.strerror}; the recordings are complete, and lines are "
                     "lost")
        return 3
    if not capture.begun:
        zkr.complain(f"{name}: no connection to port {capture.port}{capture.ports_heard()}")
    return 1 if capture.left_out or not capture.begun else 0


def main():
    words, head = words_of()
    if not sys.stdout:
        zkr.complain("standard output is closed")
        return 3
    capture = Capture(words.port, Series(words.prefix, head, words.times, words.late, Budget(MOST_WAITING)))
    try:
        with zkr.standard_input() if words.capture == "-" else open(words.capture, "rb") as stream:
            return converted(capture, words.capture, stream)
    except OSError as error:
        zkr.complain(f"{words.capture}: {error.strerror or error}")
        return 3
