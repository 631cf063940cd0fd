"""Tests of pcap2zkr.py with captures made of the recordings in captures/."""

import contextlib
import gzip
import os
import random
import re
import shutil
import socket
import struct
import subprocess
import sys
import threading
import time

from . import wire
from .captured import SMALL, PcapCase, capture_of, disturbed, packed
from .support import CAPTURES, TOOLS, TOP, pieces, receive, sides, zkr
from .test_record import echo, serve


class Forms(PcapCase):
    def test_every_link_and_network(self):
        source = SMALL[0].read_bytes()
        for link in wire.LINKS:
            for version in (4, 6):
                with self.subTest(link=link, version=version):
                    packets = packed(wire.conversation(pieces(source)), link=link, version=version)
                    self.assert_whole(wire.pcap(packets, link), source)

    def test_every_kind_of_file(self):
        source = SMALL[0].read_bytes()
        packets = packed(wire.conversation(pieces(source)))
        files = [wire.pcap(packets, order=order, nanoseconds=fine) for order in "<>" for fine in (False, True)]
        files += [wire.pcapng(packets, order=order) for order in "<>"]
        expected = None
        for capture in [*files, gzip.compress(files[0]), gzip.compress(files[4])]:
            made = self.assert_whole(capture, source, "--times")
            times = (self.folder / "r-1.zkr.times").read_text()
            expected = expected or (made, times)
            self.assertEqual((made, times), expected)
        self.assertEqual(times.splitlines()[0], f"{wire.BEGUN + 3}.000")
        status, _, _ = self.run_tool("pcap2zkr.py", "-", self.folder / "s", stdin=gzip.compress(files[0]))
        self.assertEqual((status, (self.folder / "s-1.zkr").read_bytes()), (0, made))

    def test_packets_that_end_with_a_check_sequence(self):
        """Its size is said above the link type: a bit that it is known, and four bits of how many times two bytes."""
        source = SMALL[0].read_bytes()
        packets = [(at, packet + bytes(4)) for at, packet in packed(wire.conversation(pieces(source)))]
        for order in "<>":
            capture = bytearray(wire.pcap(packets, order=order))
            capture[20:24] = struct.pack(order + "I", 0x24000001)
            self.assert_whole(capture, source)

    def test_nanoseconds_since_1970_are_more_than_a_float_tells_apart(self):
        """Each time is right to its last decimal, as is the millisecond in a recording of the second format."""
        times = ["1700000004661.509", "1700000004662.000", "1795332633004.999", "1795332633005.001"]
        sent = [each._replace(milliseconds=float(time)) for each, time in zip(wire.conversation(
            [zkr.Piece(zkr.CLIENT, None, b"x")] * 4, close=False), [times[0]] * 3 + times)]
        status, _, made = self.convert(wire.pcapng(packed(sent)), "--times", "--format", "zkr2")
        self.assertEqual((status, (self.folder / "r-1.zkr.times").read_text().split()), (0, times))
        self.assertEqual([piece.milliseconds for piece in pieces(made[0])],
                         [1700000004661, 1700000004662, 1795332633004, 1795332633005])

    def test_the_second_format(self):
        source = SMALL[0].read_bytes()
        made = self.assert_whole(capture_of(wire.conversation(pieces(source))), source, "--format", "zkr2", "--limit",
                                 "1000", "--waiting", "10", "--profile", "3.5")
        self.assertEqual(made[:20], b"ZKR2" + struct.pack(">iiii", 1000, 1000, 10, 35))
        self.assertEqual([piece.milliseconds - wire.BEGUN for piece in pieces(made)],
                         list(range(3, 3 + len(pieces(made)))))

    def test_bytes_after_the_packet_and_other_traffic(self):
        source = SMALL[0].read_bytes()
        packets = packed(wire.conversation(pieces(source)))
        noise = [packed(wire.conversation(pieces(source)), server=9999)[5][1], bytes(12) + b"\x08\x06" + bytes(28),
                 b"", bytes(14), bytes(12) + b"\x08\x00\x45", packets[9][1][:40], bytes(12) + b"\x86\xdd\x60"]
        mixed = [each for packet in packets for each in (packet, (0, random.Random(1).choice(noise)))]
        self.assert_whole(wire.pcap(mixed), source)

    def test_files_that_are_not_read(self):
        good = capture_of(wire.conversation(pieces(SMALL[0].read_bytes())))
        for capture, expected in ((b"", 3), (b"ZKR1", 3), (good[:20], 1), (good[:-1], 1), (good[:30], 1),
                                  (good[:20] + b"\x93\0\0\0" + good[24:], 3), (gzip.compress(good)[:-9], 1),
                                  (b"\x1f\x8b" + bytes(30), 3), (good[:24], 1), (good[:36] + b"\xff" * 99, 3)):
            with self.subTest(capture=capture[:40]):
                status, _, _ = self.convert(capture)
                self.assertEqual((status, self.complaint.count("\n")), (expected, 1), self.complaint)
        status, _, err = self.run_tool("pcap2zkr.py", self.folder / "none", self.folder / "r")
        self.assertEqual((status, err.count("\n")), (3, 1))

    def test_damaged_captures_end_with_a_status(self):
        chance = random.Random(17)
        packets = packed(list(wire.conversation(pieces(SMALL[0].read_bytes())))[:30])
        for make in (wire.pcap, wire.pcapng):
            for _ in range(100):
                capture = bytearray(make(packets))
                for _ in range(chance.randrange(1, 20)):
                    capture[chance.randrange(len(capture))] = chance.randrange(256)
                self.assertIn(self.convert(capture)[0], (0, 1, 3))

    def test_blocks_of_pcapng_with_impossible_lengths(self):
        whole = bytearray(wire.pcapng(packed(wire.conversation(pieces(SMALL[0].read_bytes())))))
        second = struct.unpack("<I", whole[4:8])[0]  # where the block after the first begins
        for place in (4, second + 4):
            for size in (0, 10, 11, 15, 40, 1 << 27, (1 << 32) - 1):
                with self.subTest(place=place, size=size):
                    whole[place:place + 4] = struct.pack("<I", size)
                    status, told, made = self.convert(whole)
                    self.assertEqual((status, told, made, self.complaint.count("\n")), (3, [], [], 1))
            whole[4:8] = struct.pack("<I", second)
        status, _, err = self.run_tool("pcap2zkr.py", "-", self.folder / "s", stdin=b"\n\r\r\n\n\0\0\0M<+\x1a")
        self.assertEqual((status, err), (3, "pcap2zkr.py: -: the capture is damaged: it has a block of 10 bytes\n"))

    def test_what_fails_is_named(self):
        capture, prefix = self.folder / "capture", self.folder / "none" / "r"
        capture.write_bytes(capture_of(wire.conversation(pieces(SMALL[0].read_bytes()))))
        for words, name, why in (((capture, prefix), f"{prefix}-1.zkr", "No such file or directory"),
                                 ((self.folder, self.folder / "r"), self.folder, "Is a directory"),
                                 ((prefix, self.folder / "r"), prefix, "No such file or directory")):
            with self.subTest(name=name):
                self.assertEqual(self.run_tool("pcap2zkr.py", *words), (3, "", f"pcap2zkr.py: {name}: {why}\n"))
        status, lines, complaint, _ = self.convert_within(capture.read_bytes(), "RLIMIT_FSIZE", 100)
        self.assertEqual((status, lines, complaint), (3, 0, [f"pcap2zkr.py: {self.folder}/r-1.zkr: File too large"]))

    def test_standard_streams_that_are_closed_or_gone(self):
        capture = self.folder / "capture"
        capture.write_bytes(capture_of(wire.conversation(pieces(SMALL[0].read_bytes()))))
        for words, closed, told in (("- PREFIX", "<&-", "-: standard input is closed, or a folder"),
                                    ("CAPTURE PREFIX", ">&-", "standard output is closed"),
                                    ("CAPTURE PREFIX", ">/dev/full",
                                     "standard output: No space left on device; the recordings are "
                                     "complete, and lines are lost")):
            with self.subTest(closed=closed):
                words = words.replace("CAPTURE", str(capture)).replace("PREFIX", str(self.folder / "s"))
                done = subprocess.run(["sh", "-c", f"{sys.executable} {TOOLS}/pcap2zkr.py {words} {closed}"],
                                      capture_output=True, text=True, check=False)
                self.assertEqual((done.returncode, done.stderr), (3, f"pcap2zkr.py: {told}\n"))
        done = subprocess.run(["sh", "-c", f"{sys.executable} {TOOLS}/pcap2zkr.py {capture} {self.folder}/t 2>&-"],
                              capture_output=True, text=True, check=False)
        self.assertEqual((done.returncode, done.stdout.count("\n")), (0, 1))

    def test_a_prefix_that_is_no_utf_8(self):
        """Its bytes are printed, also where standard output takes UTF-8 alone."""
        capture, prefix = self.folder / "c.pcap", bytes(self.folder) + b"/\xff"
        capture.write_bytes(capture_of(wire.conversation(pieces(SMALL[0].read_bytes()))))
        done = subprocess.run([sys.executable, TOOLS / "pcap2zkr.py", capture, prefix], capture_output=True,
                              check=False,
                              env={**os.environ, "PYTHONIOENCODING": "utf-8:strict"})
        self.assertEqual((done.returncode, done.stderr, done.stdout.split()[0]), (0, b"", prefix + b"-1.zkr"))

    def test_bad_words(self):
        for words in ((), ("a",), ("a", "b", "c"), ("--port", "0", "a", "b"), ("--port", "x", "a", "b"),
                      ("--lat", "a", "b"), ("--limit", "100", "a", "b"), ("--format", "zkr", "a", "b")):
            with self.subTest(words=words):
                self.assert_bad_words("pcap2zkr.py", *words)


class Order(PcapCase):
    def test_every_recording_as_it_was(self):
        for path in CAPTURES:
            with self.subTest(recording=path.stem):
                source = path.read_bytes()
                most = 1448 if len(source) < 60_000 else 9000
                made = self.assert_whole(capture_of(wire.conversation(pieces(source), most)), source)
                cuts = [piece[::2] for piece in pieces(source) if len(piece.data) <= most]
                self.assertEqual([piece[::2] for piece in pieces(made) if piece[::2] in cuts], cuts)

    def test_twice_overlapping_and_out_of_order(self):
        chance = random.Random(23)
        for path in SMALL:
            for most in (9, 100, 1448):
                with self.subTest(recording=path.stem, most=most):
                    source = path.read_bytes()
                    if len(source) > 400 * most:
                        continue
                    sent = list(wire.conversation(pieces(source), most))
                    made = self.assert_whole(capture_of(disturbed(sent, chance)), source)
                    self.assert_causal(made, sent)

    def test_numbers_past_their_end(self):
        source = SMALL[0].read_bytes()
        client, server = map(len, sides(source))
        for numbers in ((2**32 - 1, 2**32 - 2), (2**32 - client // 2, 7), (7, 2**32 - server // 2)):
            sent = list(wire.conversation(pieces(source), 100, numbers))
            made = self.assert_whole(capture_of(disturbed(sent, random.Random(5))), source)
            self.assert_causal(made, sent)

    def test_several_connections(self):
        chance, sources, packets = random.Random(3), [path.read_bytes() for path in SMALL[:5]], []
        for number, source in enumerate(sources):
            packets.append(packed(wire.conversation(pieces(source), 500), client=4000 + number))
        again = list(wire.conversation(pieces(sources[0]), 500, (77777, 88888)))
        packets[0] += packed(again, client=4000)  # the same two ports once more
        mixed = []
        while any(packets):
            mixed.append(chance.choice([each for each in packets if each]).pop(0))
        status, told, made = self.convert(wire.pcap(mixed))
        self.assertEqual((status, len(told), len(made)), (0, 6, 6))
        found = {sides(each) for each in made}
        self.assertEqual(found, {sides(source) for source in sources})
        self.assertEqual(sum(sides(each) == sides(sources[0]) for each in made), 2)

    def test_a_copy_that_acknowledges_what_came_later(self):
        first, ask, reply = b"first", b"ask", b"reply"
        parts = [zkr.Piece(zkr.SERVER, None, first), zkr.Piece(zkr.CLIENT, None, ask),
                 zkr.Piece(zkr.SERVER, None, reply)]
        sent = list(wire.conversation(parts))
        sent[3] = sent[3]._replace(acknowledged=sent[3].acknowledged + len(ask))
        status, _, made = self.convert(capture_of(sent))
        self.assertEqual((status, sides(made[0])), (0, (ask, first + reply)))


    def test_the_times_of_bytes_that_waited_for_others(self):
        """They were there once those before them were: where these were sent again, and not where packets were only
        captured in disorder."""
        sent = list(wire.conversation([zkr.Piece(zkr.CLIENT, None, b"abcdef")], 2, close=False))
        again = sent[4]._replace(milliseconds=sent[4].milliseconds + 200)
        both = again._replace(data=b"cdef")
        for more, times in (([sent[5], again], [3, 204, 204]), ([sent[5], sent[4]], [3, 4, 5]),
                            ([sent[5], both], [3, 204])):
            status, _, made = self.convert(capture_of([*sent[:4], *more]), "--format", "zkr2")
            self.assertEqual((status, sides(made[0])), (0, (b"abcdef", b"")))
            self.assertEqual([piece.milliseconds - wire.BEGUN for piece in pieces(made[0])], times)


class Missing(PcapCase):
    def test_a_hole_ends_the_recording_before_it(self):
        chance = random.Random(11)
        for path in SMALL:
            sent = list(wire.conversation(pieces(path.read_bytes()), 300))
            with_data = [at for at, each in enumerate(sent) if each.data]
            if len(with_data) < 6 or len(sent) > 500:
                continue
            for _ in range(2):
                gone = chance.choice(with_data[1:-3])
                side, size = sent[gone].side, len(sent[gone].data)
                with self.subTest(recording=path.stem, gone=gone):
                    status, told, made = self.convert(capture_of(sent[:gone] + sent[gone + 1:]))
                    self.assertEqual((status, told[0].split()[-1]), (1, f"hole={side.decode()}"), told)
                    whole, left = sides(path.read_bytes()), sides(made[0])
                    self.assertTrue(all(each.startswith(part) for each, part in zip(whole, left)))
                    before = sum(len(each.data) for each in sent[:gone] if each.side == side)
                    self.assertEqual(len(left[0 if side == zkr.CLIENT else 1]), before)
                    # Replies to what the client had said before the loss come after it.
                    known = [each for each in sent if each.side == side or side == zkr.SERVER]
                    self.assert_causal(made[0], [*sent[:3], *[each for each in known if each not in sent[:3]]])
                    self.assertGreater(size, 0)

    def test_packets_that_were_not_captured_whole(self):
        packets = packed(wire.conversation(pieces(SMALL[0].read_bytes())))
        status, told, made = self.convert(wire.pcap(packets, snap=96))
        self.assertEqual((status, bool(made)), (1, True))
        self.assertRegex(told[0], r"hole=[CS].* snapped$")

    def test_a_connection_without_bytes_has_no_recording(self):
        status, told, made = self.convert(capture_of(wire.conversation([])))
        self.assertEqual((status, made, told[0].split()[0]), (0, [], "-"))

    def test_no_connection(self):
        status, told, made = self.convert(wire.pcap([]))
        self.assertEqual((status, told, made, self.complaint.count("\n")), (1, [], [], 1))

    def test_no_connection_to_this_port_but_to_others(self):
        sent = list(wire.conversation(pieces(SMALL[0].read_bytes())))
        capture = wire.pcap(packed(sent, server=9999) + packed(sent[:3], server=60_000) + packed(sent[4:8], server=80))
        status, told, _ = self.convert(capture)
        self.assertEqual((status, told), (1, []))
        self.assertRegex(self.complaint,
                         r": no connection to port 2181; choose one of its ports with --port N: 9999, 80, 60000\n$")


class Others(PcapCase):
    def test_tshark_follows_the_same_bytes(self):
        """Of captures in their order: where packets were captured out of order, tshark 4.0 itself says that some are
        missing."""
        if not shutil.which("tshark"):
            self.skipTest("tshark is not here")
        for path in SMALL[:8]:
            source = path.read_bytes()
            capture = self.folder / "follow.pcap"
            capture.write_bytes(capture_of(wire.conversation(pieces(source), 100)))
            self.assert_whole(capture.read_bytes(), source)
            out = subprocess.run(["tshark", "-r", capture, "-q", "-z", "follow,tcp,raw,0"], capture_output=True,
                                 text=True, check=True).stdout
            lines = re.findall(r"^(\t?)([0-9a-f]+)$", out, re.MULTILINE)
            followed = tuple(b"".join(bytes.fromhex(text) for tab, text in lines if bool(tab) == server)
                             for server in (False, True))
            self.assertEqual(followed, sides(source))

    def test_a_live_capture_on_loopback(self):
        """Captures a connection of the kernel's own, with the socket that tcpdump uses."""
        try:
            tap = socket.socket(socket.AF_PACKET, socket.SOCK_RAW, socket.htons(3))
            tap.bind(("lo", 0))
        except (OSError, AttributeError) as error:
            self.skipTest(f"no packets can be captured here: {error}")
        self.addCleanup(tap.close)
        tap.setsockopt(socket.SOL_SOCKET, socket.SO_RCVBUF, 1 << 24)
        tap.settimeout(1)
        listener = serve(echo)
        self.addCleanup(listener.close)
        port, packets, source = listener.getsockname()[1], [], (TOP / "captures" / "kazoo_multi.zkr").read_bytes()

        def listen():
            with contextlib.suppress(socket.timeout):
                while True:
                    packets.append((time.time() * 1000, tap.recv(1 << 17)))
        listening = threading.Thread(target=listen)
        listening.start()
        said, _ = sides(source)
        with socket.create_connection(("127.0.0.1", port)) as client:
            for at in range(0, len(said), 700):
                client.sendall(said[at:at + 700])
                self.assertEqual(receive(client, len(said[at:at + 700])), said[at:at + 700])
            client.shutdown(socket.SHUT_WR)
            receive(client, 3)
        listening.join()
        status, _, made = self.convert(wire.pcap(packets, snap=1 << 18), "--port", port)
        self.assertEqual((status, sides(made[0])), (0, (said, said + b"end")))
