"""Tests of zkreport over captures and recordings: how connections began and ended, and where bytes are missing."""

import fcntl
import re
import signal
import subprocess
import sys
import termios
import time
import unittest.mock

from . import wire
from .support import CAPTURES, PROGRAM, TOOLS, TOP, ToolCase, pieces

from tools.zkdump_tools import facts
from tools.zkdump_tools.report import gather, sources, summary

LINES = """\
/t/x-1.zkr 10.0.0.7:41822 > 10.0.0.9:2181 begun 2026-11-22T20:31:07.000Z ended 2026-11-22T20:31:08.000Z client=6 server=6 packets=1-88 resent=0 reset=S
/t/x-2.zkr 10.0.0.7:41823 > 10.0.0.9:2181 begun 2026-11-22T20:31:07.000Z ended 2026-11-22T20:31:09.000Z client=6 server=3 packets=90-101 resent=2 hole=S
/t/x-2.2.zkr 10.0.0.7:41823 > 10.0.0.9:2181 begun 2026-11-22T20:31:09.250Z ended 2026-11-22T20:31:10.000Z client=2 server=8 packets=102-182 resent=0 closed=C lost=C:0,S:81 skipped=C:0,S:0 unasked=0
- 10.0.0.7:41824 > [fe80::1]:2181 begun 2026-11-22T20:31:07.000Z ended 2026-11-22T20:31:07.500Z client=0 server=0 packets=1-2 resent=0 open late
/t/x-3.zkr 10.0.0.7:41825 > 10.0.0.9:2181 begun 2026-11-22T20:31:07.000Z client=6 server=6
"""


class Captures(ToolCase):
    def run_of(self, lines):
        """A run of the connections of these lines, none of which has been read."""
        run, parts = gather.Run(), {}
        for line in lines:
            source = sources.source_of(line, "x.pcap", "/t/x", parts)
            run.connection(source, source.name)
        return run

    def test_the_lines_of_pcap2zkr(self):
        run = self.run_of(LINES.splitlines())
        self.assertEqual([each.label for each in run.connections], ["#1", "#2", "#2.2", "#3", "#4"])
        self.assertEqual(run.whole, 4)
        begun = 1795379467000
        self.assertEqual([each.span() for each in run.connections],
                         [(begun, begun + 1000), (begun, begun + 2000), (begun + 2250, begun + 3000),
                          (begun, begun + 500), (begun, begun)])
        self.assertEqual([summary.closed_by(each) for each in run.connections],
                         ["server: reset", "not known: bytes are missing", "client: FIN", "open at the end",
                          "not recorded"])
        self.assertEqual([summary.ending_of(each) for each in run.connections],
                         ["no ending line", "no ending line, resent=2, hole=S", "no ending line, lost=C:0,S:81",
                          "nothing recorded, late", "no ending line"])

    def test_bytes_of_both_sides_are_missing(self):
        line = LINES.splitlines()[1].replace(" hole=S", " hole=C hole=S")
        self.assertIn(" hole=C hole=S", line)
        connection, = self.run_of([line]).connections
        self.assertEqual(summary.ending_of(connection), "no ending line, resent=2, hole=C,S")

    def test_parts_of_a_connection_are_of_its_session_and_have_no_gap(self):
        run = self.run_of(LINES.splitlines())
        first, other, later = run.connections[1], run.connections[4], run.connections[2]
        first.heard.session = other.heard.session = "0x7"
        self.assertEqual(later.session_id(), "0x7")
        session = next(each for each in summary.sessions_of(run) if each.id == "0x7")
        self.assertEqual((len(session.connections), session.count()), (3, 2))
        self.assertEqual([(before.label, after.label) for before, after in session.holes()], [("#2", "#2.2")])
        self.assertEqual(list(session.gaps()), [])

    def test_gaps(self):
        run = self.run_of(LINES.splitlines()[:3:2])
        for each in run.connections:
            each.heard.session = "0x7"
        session, = summary.sessions_of(run)
        gaps = [(before.label, after.label, ms) for before, after, ms in session.gaps()]
        self.assertEqual(gaps, [("#1", "#2", 1250)])

    def test_a_connection_lasts_to_the_microsecond(self):
        """From the time of its first packet, 0.999 ms, to that of its first FIN, 9.25 ms."""
        if not PROGRAM.exists():
            self.skipTest("the program zkdump is not built")
        sent = list(wire.conversation(pieces((TOP / "captures" / "kazoo_basic.zkr").read_bytes())[:6]))
        times = [at + {0: 0.999, len(sent) - 3: 0.25}.get(at, 0) for at in range(len(sent))]
        path = self.folder / "a.pcap"
        path.write_bytes(wire.pcap([(wire.BEGUN + at, wire.packet(each)) for at, each in zip(times, sent)]))
        out = self.run_inside("zkreport.py", "--text", path)[1]
        self.assertIn("  0.008251 s  ", out[out.index("\nConnections\n"):])

    def capture(self, *recordings, close=True):
        """A capture of these recordings' connections, one after another."""
        packets = []
        for number, recording in enumerate(recordings):
            for sent in wire.conversation(pieces(recording.read_bytes()), close=close):
                packets.append((sent.milliseconds + 3_600_000 * number, wire.packet(sent, client=41822 + number)))
        path = self.folder / "some.pcap"
        path.write_bytes(wire.pcap(packets))
        return path

    def test_a_capture_is_reported_as_its_listings_are(self):
        if not PROGRAM.exists():
            self.skipTest("the program zkdump is not built")
        names = ("kazoo_basic", "c_watches_in_small_pieces", "java_multi")
        recordings = [each for each in CAPTURES if each.stem in names]
        listings = [each.with_suffix(".show") for each in recordings]
        of_capture, of_listings = (self.run_tool("zkreport.py", "--text", *each)[1].splitlines()
                                   for each in ([self.capture(*recordings)], listings))
        self.assertEqual(of_capture[0], of_listings[0])
        at = of_capture.index("Errors")
        self.assertEqual(of_capture[at:at + 9], of_listings[of_listings.index("Errors"):][:9])
        self.assertIn("from 2023-11-14T22:13:20.000Z to 2023-11-15T00:13", of_capture[1])

    def test_a_capture_whose_reading_is_killed(self):
        """As by the system, where memory is short: that connections may be missing is reported."""
        killed = self.folder / "pcap2zkr.py"
        for said, connections in (("", 0), (LINES.splitlines()[3], 1)):
            killed.write_text(f"import os\nprint({said!r}, flush=True)\nos.kill(os.getpid(), 9)\n")
            found, warnings = [], []
            with unittest.mock.patch("tools.zkdump_tools.report.sources.TOOLS", self.folder):
                try:
                    found += sources.captured("x.pcap", "x.pcap", "/t/x", 2181, warnings)
                except ValueError as error:
                    warnings.append(str(error))
            self.assertEqual((len(found), warnings), (connections, [
                "x.pcap: pcap2zkr.py was ended by signal 9, maybe before the capture's end"]))

    def test_a_capture_that_ends_within_a_packet(self):
        if not PROGRAM.exists():
            self.skipTest("the program zkdump is not built")
        path = self.capture(next(each for each in CAPTURES if each.stem == "kazoo_basic"))
        path.write_bytes(path.read_bytes()[:-7])
        status, out, err = self.run_tool("zkreport.py", "--text", path)
        self.assertEqual((status, err), (1, ""))
        self.assertIn(f"\nnot read: {path}: the capture ends within a packet, and was read up to there\n", out)

    def test_a_capture_on_standard_input(self):
        """It is reported as a file is: at its end, and where a signal ends the reading before that."""
        if not PROGRAM.exists():
            self.skipTest("the program zkdump is not built")
        path = self.capture(next(each for each in CAPTURES if each.stem == "kazoo_basic"), close=False)
        wanted = self.run_tool("zkreport.py", "--text", path)[1].replace("some.pcap", "-").split()
        done = self.run_raw("zkreport.py", "--text", "-", stdin=path.read_bytes())
        self.assertEqual((done.returncode, done.stderr, done.stdout.decode().split()), (0, b"", wanted))
        for number in (signal.SIGINT, signal.SIGTERM):
            reporter = subprocess.Popen([sys.executable, TOOLS / "zkreport.py", "-", "--text"], stdin=subprocess.PIPE,
                                        stdout=subprocess.PIPE)
            for end in (reporter.stdin, reporter.stdout):
                self.addCleanup(end.close)
            self.addCleanup(reporter.kill)
            reporter.stdin.write(path.read_bytes())
            reporter.stdin.flush()
            until = time.monotonic() + 20
            while fcntl.ioctl(reporter.stdin, termios.FIONREAD, bytes(4)) != bytes(4) and time.monotonic() < until:
                time.sleep(0.05)        # until all is read
            reporter.send_signal(number)
            self.assertEqual((reporter.stdout.read().decode().split(), reporter.wait(20)), (wanted, 0))

    def test_standard_input_is_read_once(self):
        for words in (["-", "-"], ["-", "--jobs", "2"], ["-", "--against", "-"], ["-", self.folder]):
            self.assert_bad_words("zkreport.py", "--text", *words)

    def test_a_capture_without_a_connection(self):
        path = self.folder / "none.pcap"
        path.write_bytes(wire.pcap([]))
        status, out, err = self.run_tool("zkreport.py", "--text", path)
        self.assertEqual((status, out), (1, ""))
        self.assertRegex(err, r"^zkreport\.py: .*: no connection to port 2181")

    def test_connections_without_a_message_are_no_sessions(self):
        """3,000 of them, beside one of a session: the page has some of them, and counts them all."""
        if not PROGRAM.exists():
            self.skipTest("the program zkdump is not built")
        recording = next(each for each in CAPTURES if each.stem == "kazoo_basic")
        packets = [(wire.BEGUN + number, wire.packet(sent, client=1 + number))
                   for number in range(3000) for sent in wire.conversation([], close=number % 2)]
        packets += [(sent.milliseconds,
                     wire.packet(sent)) for sent in wire.conversation(pieces(recording.read_bytes()))]
        path, page = self.folder / "empty.pcap", self.folder / "empty.html"
        path.write_bytes(wire.pcap(packets))
        status, out, err = self.run_tool("zkreport.py", "--text", "-o", page, path)
        self.assertEqual((status, err), (0, ""))
        self.assertRegex(out, r"^3001 connections, 1 session, \d+ messages, ")
        self.assertIn("\nand 2800 more\n", out)
        self.assertEqual(len(out.partition("\nSessions\n")[2].partition("\n\n")[0].splitlines()), 2)
        self.assertLess(page.stat().st_size, 500_000)

    def test_a_first_part_of_which_nothing_is_chosen(self):
        if not PROGRAM.exists():
            self.skipTest("the program zkdump is not built")
        head = "".join((TOP / "captures" / "kazoo_basic.show").read_text().splitlines(True)[:2])
        exists = 'C 1 exists path="/a" watch=0\nS 1 exists zxid=5 err=-101/NONODE\n'
        sync = 'C 1 sync path="/a"\nS 1 sync zxid=5 path="/a"\n'
        paths = [self.folder / name for name in ("a-1.zkr", "a-1.2.zkr", "a-1.3.zkr")]
        for part, (path, lines) in enumerate(zip(paths, (exists, sync, sync)), 1):
            path.write_bytes(subprocess.run([PROGRAM, "build"], input=(head + lines).encode(), capture_output=True,
                                            check=True).stdout)
            facts.write(path, facts.Facts(client="10.0.0.1:1", server="10.0.0.2:2181", connected=1000.0,
                                          session="0x100003780a60000", part=part))
        for words in ((), ("--jobs", "2")):
            status, out, err = self.run_tool("zkreport.py", "--text", "--op", "sync", *words, *paths)
            self.assertEqual((status, err, out.splitlines()[0]), (
                0, "", "1 connection, 1 session, 4 messages, 2 requests, 0 failed, 0 unanswered, 0 events"))
            self.assertEqual(re.findall(r"^ *(#\S+)  0x100003780a60000  a-1", out, re.M), ["#1.2", "#1.3"])

    def test_a_recording_without_an_ending(self):
        """One that zkdump can't show is no empty connection."""
        path = self.folder / "a.zkr"
        path.write_bytes(b"ZKR1")
        status, out, err = self.run_tool("zkreport.py", "--text", "--zkdump", "/bin/false", path)
        self.assertEqual((status, out, err.count("\n")), (1, "", 1))
