"""Tests of zkwatch over a capture that comes through a pipe, with the proved program, each way: what it prints of each
connection, and when. What is expected is counted from the packets' bytes and times."""

import collections
import datetime
import io
import re
import select
import signal
import subprocess
import sys
import time
import unittest.mock

from tools.zkdump_tools import live
from . import wire
from .support import PROGRAM, TOOLS, TOP, ToolCase, WayCase, pieces, zkr
from .test_columns import ColumnsCase

NAMES = "kazoo_basic", "c_watches_in_small_pieces", "java_multi"
LINE = re.compile(r"(\S+Z) (#\S+) (.*)\n")
SECONDS = 50
PATH = b"\0\0\0\2/a"
HELLO = bytes.fromhex("0000002c 00000000 0000000000000000 00007530 0000000000000000 00000010") + bytes(16)
WELCOME = bytes.fromhex("00000024 00000000 00007530 0100000000000001 00000010") + bytes(16)
HELLO_LINE = "C connect version=0 zxid=0 timeout=30000 session=0 passwd=#00000000000000000000000000000000 ro=-"
WELCOME_LINE = ("S connect version=0 timeout=30000 session=72057594037927937 passwd=#00000000000000000000000000000000 "
                "ro=- ms=1")


def clock(milliseconds):
    return f"{datetime.datetime.utcfromtimestamp(milliseconds // 1000):%Y-%m-%dT%H:%M:%S}.{milliseconds % 1000:03}Z"


def exists(xid):
    return b"C", (15).to_bytes(4, "big") + xid.to_bytes(4, "big") + b"\0\0\0\3" + PATH + b"\0"


def no_node(xid):
    return b"S", (16).to_bytes(4, "big") + xid.to_bytes(4, "big") + (5).to_bytes(8, "big") + b"\xff\xff\xff\x9b"


PING = b"C", bytes.fromhex("00000008 fffffffe 0000000b")
PONG = b"S", bytes.fromhex("00000010 fffffffe 0000000000000005 00000000")


def asked(xid):
    return f'C {xid} exists path="/a" watch=0'


def answered(xid, ms):
    return f"S {xid} exists zxid=5 err=-101/NONODE ms={ms}"


def sent_of(said, **more):
    """The segments of a connection that says this, one a millisecond."""
    return list(wire.conversation([zkr.Piece(side, None, data) for side, data in said], **more))


def messages(sent):
    """Of each message in these segments, the time of its last byte, and of a reply that since its request."""
    held, seen, waiting = {b"C": b"", b"S": b""}, collections.Counter(), collections.defaultdict(collections.deque)
    for each in sent:
        held[each.side] += each.data
        while len(data := held[each.side]) >= 4 and len(data) >= (end := 4 + int.from_bytes(data[:4], "big")):
            xid = data[4:8] if seen[each.side] else None
            held[each.side], took = data[end:], None
            seen[each.side] += 1
            if each.side == b"C":
                waiting[xid].append(each.milliseconds)
            elif xid != b"\xff\xff\xff\xff":
                took = each.milliseconds - waiting[xid].popleft()
            yield int(each.milliseconds), took


class Live(WayCase):
    def setUp(self):
        super().setUp()
        if not PROGRAM.exists():
            self.skipTest("the program zkdump is not built")

    def watch(self, *words):
        """Begins to watch a capture on standard input."""
        watcher = subprocess.Popen([sys.executable, TOOLS / "zkwatch.py", *words, "--capture", "-"], bufsize=0,
                                   stdin=subprocess.PIPE, stdout=subprocess.PIPE, stderr=subprocess.PIPE)
        for end in (watcher.stdin, watcher.stdout, watcher.stderr):
            self.addCleanup(end.close)
        self.addCleanup(watcher.wait)
        self.addCleanup(watcher.kill)
        self.lines = io.TextIOWrapper(io.BufferedReader(watcher.stdout))
        self.addCleanup(self.lines.close)
        return watcher

    def next_lines(self, count):
        """The next lines, without their times, once they have come."""
        return [LINE.fullmatch(self.lines.readline()).group(2, 3) for _ in range(count)]

    def ended(self, watcher):
        """What it prints until it ends, without the times; and its status and its complaints."""
        watcher.stdin.close()
        told = [LINE.fullmatch(line).group(2, 3) for line in self.lines]
        return told, watcher.wait(SECONDS), watcher.stderr.read().decode()

    def shown(self, capture, *words):
        """What is printed of a capture, as bytes: by its number, the lines of each connection with their times; the
        status and the complaints."""
        done = subprocess.run([sys.executable, TOOLS / "zkwatch.py", *words, "--capture", "-"], input=capture,
                              capture_output=True, check=False, timeout=SECONDS)
        found = collections.defaultdict(list)
        for line in done.stdout.decode().splitlines(keepends=True):
            moment, number, text = LINE.fullmatch(line).groups()
            found[number].append((moment, text))
        return dict(found), done.returncode, done.stderr.decode()

    def test_many_connections(self):
        """Each is shown as its listing has it, with the times of its packets: of pcap and of pcapng."""
        packets, wanted, sizes = [], {}, {}
        for number, name in enumerate(NAMES, 1):
            path, port = TOP / "captures" / f"{name}.zkr", 41822 + number
            sent = [each._replace(milliseconds=each.milliseconds + 100 * number)
                    for each in wire.conversation(pieces(path.read_bytes()))]
            packets += [(int(each.milliseconds), wire.packet(each, client=port), number) for each in sent]
            *lines, ending = path.with_suffix(".show").read_text().splitlines()
            begun, ended = (clock(int(sent[at].milliseconds)) for at in (0, -3))
            sizes = {side: sum(len(each.data) for each in sent if each.side == side) for side in (b"C", b"S")}
            wanted[f"#{number}"] = [
                (begun, f"from 10.0.0.7:{port}"),
                *((clock(moment), line if took is None else f"{line} ms={took:g}")
                  for line, (moment, took) in zip(lines, messages(sent))),
                (ended, ending),
                (ended, f"10.0.0.7:{port} > 10.0.0.9:2181 begun {begun} ended {ended} client={sizes[b'C']} "
                        f"server={sizes[b'S']} packets=FIRST-LAST resent=0 closed=C")]
        packets.sort(key=lambda each: each[0])
        for number in (1, 2, 3):
            of_one = [at for at, each in enumerate(packets, 1) if each[2] == number]
            moment, line = wanted[f"#{number}"][-1]
            wanted[f"#{number}"][-1] = moment, line.replace("FIRST-LAST", f"{of_one[0]}-{of_one[-1]}")
        for form in (wire.pcap, wire.pcapng):
            found, status, err = self.shown(form([each[:2] for each in packets]))
            self.assertEqual((status, err, set(found)), (0, "", set(wanted)))
            for number, lines in wanted.items():
                self.assertEqual(found[number], lines)

    def test_lines_come_with_their_packets(self):
        """While the capture goes on: also of a connection that began before it, from the first certain reply on."""
        sent = sent_of([(b"C", HELLO), (b"S", WELCOME), exists(1), no_node(1), exists(2), no_node(2)])
        # Of that connection the first packet is the reply to its exists with the xid 1.
        late = [each._replace(milliseconds=each.milliseconds + 0.5) for each in sent[6:]]
        capture = [wire.pcap([])]
        for each, port in sorted([*((each, 1) for each in sent), *((each, 2) for each in late)],
                                 key=lambda pair: pair[0].milliseconds):
            capture.append(wire.pcap([(each.milliseconds, wire.packet(each, client=port))])[24:])
        watcher = self.watch()
        told = iter([("#1", "from 10.0.0.7:1"), ("#1", HELLO_LINE), ("#1", WELCOME_LINE), ("#1", asked(1)),
                     ("#1", answered(1, 1)), ("#1", asked(2)),
                     ("#1", answered(2, 1)), ("#2", "from 10.0.0.7:2 late"), ("#2", asked(2)),
                     ("#2", answered(2, 1))])
        # Packets 4 to 9 have the frames; that of the other connection comes once its exists is answered.
        counts = [0, 0, 0, 0, 2, 1, 1, 1, 0, 1, 0, 1, 3]
        for count, packet in zip(counts, capture):
            watcher.stdin.write(packet)
            for _ in range(count):
                self.assertEqual(self.next_lines(1), [next(told)])
        for packet in capture[len(counts):]:
            watcher.stdin.write(packet)
        told, status, err = self.ended(watcher)
        told.sort()     # two processes end in either order
        self.assertEqual((status, err), (1, ""))
        self.assertEqual([text.split(" begun ")[0] for _, text in told if " begun " in text],
                         ["10.0.0.7:1 > 10.0.0.9:2181", "10.0.0.7:2 > 10.0.0.9:2181"])
        self.assertEqual([text.rpartition("resent=0 ")[2] for _, text in told if " begun " in text],
                         ["closed=C", "closed=C late skipped=C:0,S:0 unasked=1"])

    def test_a_loss(self):
        """A reply that wasn't captured: what follows is shown once a packet comes that is a second later, and not only
        at the connection's end. What waited comes again there with its reply."""
        sent = sent_of([(b"C", HELLO), (b"S", WELCOME), exists(1), exists(2), no_node(1), no_node(2), exists(3),
                        no_node(3)], close=False)
        self.assertEqual(sent[7].data, no_node(1)[1])
        later = sent_of([(b"C", HELLO)], close=False)[3]
        packets = [(each.milliseconds, wire.packet(each)) for each in sent if each is not sent[7]]
        packets += [(wire.BEGUN + 1500, wire.packet(later, client=9))]
        watcher = self.watch()
        watcher.stdin.write(wire.pcap(packets))
        told = self.next_lines(12)
        self.assertEqual([line for line in told if line[0] == "#1"][:5],
                         [("#1", "from 10.0.0.7:41822"), ("#1", HELLO_LINE), ("#1", WELCOME_LINE), ("#1", asked(1)),
                          ("#1", asked(2))])
        self.assertEqual([line for line in told if line[0] == "#1.2"],
                         [("#1.2", f"from 10.0.0.7:41822 lost=C:0,S:{len(no_node(1)[1])}"), ("#1.2", asked(2)),
                          ("#1.2", answered(2, 2)), ("#1.2", asked(3)), ("#1.2", answered(3, 1))])
        size = len(HELLO) + len(exists(1)[1])
        self.assertEqual([text.partition(" client=")[2] for number, text in told if number == "#1" and " begun " in text],
                         [f"{size} server={len(WELCOME)} packets=1-6 resent=0 hole=S"])
        told, status, _ = self.ended(watcher)
        self.assertEqual((status, {number: text.rpartition("resent=0 ")[2] for number, text in told if " begun " in text}),
                         (1, {"#1.2": f"open lost=C:0,S:{len(no_node(1)[1])} skipped=C:0,S:0 unasked=0",
                              "#-": f"open late skipped=C:{len(HELLO)},S:0 unasked=0"}))

    def test_a_loss_in_a_silent_capture(self):
        """A second later what follows is shown, though no packet comes."""
        sent = sent_of([(b"C", HELLO), (b"S", WELCOME), exists(1), no_node(1), exists(2), no_node(2)], close=False)
        watcher = self.watch()
        watcher.stdin.write(wire.pcap([(each.milliseconds, wire.packet(each)) for each in sent if each is not sent[6]]))
        begun = time.monotonic()
        told = self.next_lines(9)
        self.assertGreater(time.monotonic() - begun, 0.9)
        self.assertEqual([line for line in told if line[0] == "#1.2"][1:], [("#1.2", asked(2)), ("#1.2", answered(2, 1))])

    def test_silence(self):
        """A connection of which nothing is captured for ten minutes ends, and begins again if something is."""
        sent = sent_of([(b"C", HELLO), (b"S", WELCOME), exists(1), no_node(1), exists(2), no_node(2), exists(3),
                        no_node(3)], close=False)
        other = sent_of([(b"C", HELLO), *[PING] * 700])
        packets = [(each.milliseconds + (601_000 if at >= 9 else 0), wire.packet(each)) for at, each in enumerate(sent)]
        packets += [(wire.BEGUN + 1000 * at, wire.packet(each, client=9)) for at, each in enumerate(other[:602])]
        found, status, _ = self.shown(wire.pcap(sorted(packets)))
        self.assertEqual(status, 1)
        self.assertEqual([text for _, text in found["#1"]][:-1], [
            "from 10.0.0.7:41822", HELLO_LINE, WELCOME_LINE, asked(1), answered(1, 1), asked(2), answered(2, 1),
            ". whole unanswered=0"])
        self.assertTrue(found["#1"][-1][1].endswith(" open"))
        self.assertEqual([text for _, text in found["#3"]][:4],
                         ["from 10.0.0.7:41822 late", asked(3), answered(3, 1), ". whole unanswered=0"])

    def test_signals_end_it(self):
        """What was read is shown, and each connection has its last line."""
        sent = sent_of([(b"C", HELLO), (b"S", WELCOME), exists(1)], close=False)
        for number in (signal.SIGINT, signal.SIGTERM):
            watcher = self.watch()
            watcher.stdin.write(wire.pcap([(each.milliseconds, wire.packet(each)) for each in sent]))
            self.assertEqual(self.next_lines(4)[-1], ("#1", asked(1)))
            watcher.send_signal(number)
            rest, end = LINE.fullmatch(self.lines.readline())[3], LINE.fullmatch(self.lines.readline())[3]
            self.assertEqual((rest, end.rpartition(" resent=0 ")[2], self.lines.readline(), watcher.wait(SECONDS)),
                             (". whole unanswered=1", "open", "", 0))

    def test_its_reader_goes(self):
        """As `head` does: the reading ends."""
        sent = sent_of([(b"C", HELLO), (b"S", WELCOME), exists(1)], close=False)
        watcher = self.watch()
        watcher.stdin.write(wire.pcap([(each.milliseconds, wire.packet(each)) for each in sent[:5]]))
        self.next_lines(2)
        watcher.stdout.close()
        for each in sent[5:]:
            watcher.stdin.write(wire.pcap([(each.milliseconds, wire.packet(each))])[24:])
        self.assertEqual((watcher.wait(SECONDS), watcher.stderr.read()), (3, b""))

    def test_a_reader_that_is_slow_loses_no_line(self):
        """More than the printer and the pipe hold: the capture waits."""
        long = b"/" + b"a" * 1000
        ask = (1014).to_bytes(4, "big") + b"\0\0\0\1\0\0\0\3" + len(long).to_bytes(4, "big") + long + b"\0"
        said = [(b"C", HELLO), (b"S", WELCOME), *[(b"C", ask), no_node(1)] * 3000]
        path = self.folder / "a.pcap"
        path.write_bytes(wire.pcap([(each.milliseconds, wire.packet(each)) for each in sent_of(said)]))
        watcher = subprocess.Popen([sys.executable, TOOLS / "zkwatch.py", "--capture", path], stdout=subprocess.PIPE)
        self.addCleanup(watcher.stdout.close)
        self.addCleanup(watcher.wait)
        self.addCleanup(watcher.kill)
        time.sleep(2)
        lines = watcher.stdout.read().decode().splitlines()
        self.assertEqual((len(lines), watcher.wait(SECONDS)), (len(said) + 3, 0))
        self.assertTrue(lines[-3].endswith(answered(1, 1)))

    def test_what_is_no_capture(self):
        found, status, err = self.shown(b"no capture")
        self.assertEqual((found, status, err), ({}, 3, "zkwatch.py: -: this is not a capture of tcpdump or Wireshark "
                                                "(pcap or pcapng)\n"))
        sent = sent_of([(b"C", HELLO), (b"S", WELCOME), exists(1)])
        capture = wire.pcap([(each.milliseconds, wire.packet(each, server=2182)) for each in sent])
        self.assertEqual(self.shown(capture), ({}, 1, "zkwatch.py: -: no connection to port 2181; choose one of its "
                                               "ports with --port N: 2182\n"))
        found, status, err = self.shown(capture[:-3], "--port", "2182")
        self.assertEqual((status, err, found["#1"][3][1]),
                         (1, "zkwatch.py: -: the capture ends within a packet, and was read up to there\n", asked(1)))

    def test_words(self):
        for words in (["--capture", "-", "0", "a:1"], ["--capture", "-", "--once"], ["--port", "5", "0", "a:1"],
                      ["--capture"]):
            self.assert_bad_words("zkwatch.py", *words)


class LiveFast(ColumnsCase, Live):
    """The same through zkcolumns."""


class Kept(ToolCase):
    def test_no_more_is_kept_than_may_be(self):
        """Of the client's requests, for a loss; all that is kept is given back."""
        shown = live.Shown(unittest.mock.Mock(), "#1", 10_000)
        data = [exists(xid)[1] for xid in range(1, 1001)]
        for each in data:
            shown.piece(b"C", 5, each)
            self.assertLessEqual(sum(len(kept.data) for kept in shown.kept), 10_000)
            self.assertLessEqual(len(shown.kept), 10_000 // 256)
        spans = [(len(each) * at, len(each)) for at, each in enumerate(data)]
        kept = [(at, b"C", 5, data[at]) for at in range(1000 - len(shown.kept), 1000)]
        self.assertGreater(len(kept), 20)
        self.assertEqual(shown.take_back(spans), kept)
        self.assertEqual(shown.take_back(spans[:900]), [])
