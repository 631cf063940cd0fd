"""Tests of zkplay as a bench: its faults, pings, several connections, and listings in place of recordings."""

import select
import socket
import subprocess
import sys
import time

from .support import PROGRAM, TOOLS, TOP, ToolCase, receive, sides, zkr

RUN = TOP / "crates" / "zkdump" / "stdin"       # connect, exists, and their replies
CLIENT_BYTES, SERVER_BYTES = sides(RUN.read_bytes())
CONNECT, CONNECTED = CLIENT_BYTES[:49], SERVER_BYTES[:41]
EXISTS, MISSING = CLIENT_BYTES[49:], SERVER_BYTES[41:]
PING = bytes.fromhex("00000008 fffffffe 0000000b")
PING_REPLY = bytes.fromhex("00000010 fffffffe 0000000000000009 00000000")
PLAYED = "played: 68 bytes of the client, 61 of the server"
SECONDS = 20


class BenchCase(ToolCase):
    def play(self, recording, *words):
        """Begins to play this recording, given by its path or as pieces, and returns the address."""
        if isinstance(recording, list):
            path = self.folder / f"made-{len(list(self.folder.iterdir()))}.zkr"
            path.write_bytes(b"ZKR1" + b"".join(zkr.Head().piece(side, 0, data) for side, data in recording))
            recording = path
        self.player = subprocess.Popen([sys.executable, TOOLS / "zkplay.py", "0", recording, *map(str, words)],
                                       stdout=subprocess.PIPE, stderr=subprocess.PIPE, text=True)
        self.addCleanup(self.player.wait)
        self.addCleanup(self.player.kill)
        return "127.0.0.1", int(self.player.stdout.readline().rpartition(":")[2])

    def client(self, address, *said):
        """A client, which says this."""
        client = socket.create_connection(address, SECONDS)
        self.addCleanup(client.close)
        client.sendall(b"".join(said))
        return client

    def ended(self):
        """The status of zkplay, and its lines."""
        out, err = self.player.communicate(timeout=SECONDS)
        return self.player.returncode, out.splitlines(), err.splitlines()

    def assert_refused(self, reason):
        self.assertEqual(self.ended(), (1, [], [f"zkplay.py: {reason}"]))


class Differences(BenchCase):
    def test_the_first_byte_that_differs_is_named_though_a_shorter_frame_follows(self):
        # Frames of 49, 21, 21 and 12 bytes of the client; byte 90 is at place 15 of the third.
        asks = [bytes.fromhex("00000011 00000001 00000003 00000004") + b"/abc\0",
                bytes.fromhex("00000011 00000002 00000003 00000004") + b"/abc\0"]
        close = bytes.fromhex("00000008 00000003 fffffff5")
        recording = [(zkr.CLIENT, CONNECT), (zkr.SERVER, CONNECTED), *((zkr.CLIENT, ask) for ask in asks),
                     (zkr.CLIENT, close)]
        self.client(self.play(recording), CONNECT, asks[0], asks[1].replace(b"c", b"d"), close)
        self.assert_refused("client frame=2 offset=90 place=15: expected byte 0x63, got 0x64")

    def test_waits_that_are_no_waits(self):
        for wait in ("--wait=1e300", "--wait=inf", "--wait=nan", "--wait=-1", "--wait=1000001", "--delay=inf"):
            self.assert_bad_words("zkplay.py", wait, "0", RUN)
        self.assert_bad_words("zkplay.py", "--client", "--wait", "1e300", "127.0.0.1:1", RUN)

    def test_what_is_no_recording(self):
        for path in (self.folder, self.folder / "no"):
            status, out, err = self.run_tool("zkplay.py", "0", path)
            self.assertEqual((status, out, err.count("\n")), (3, "", 1), err)
        for data in (b"", b"ZKR", b"\x1f\x8b", b". whole unanswered=0\n"):
            path = self.folder / "junk"
            path.write_bytes(data)
            self.assertEqual(self.run_tool("zkplay.py", "0", path),
                             (1, "", f"zkplay.py: {path}: this is no recording, which begins with ZKR1 or ZKR2 "
                                    "(offset=0 reason=BadHead)\n"))


class Faults(BenchCase):
    def test_a_delay_before_each_piece(self):
        begun = time.monotonic()
        client = self.client(self.play(RUN, "--delay", "0.3"), CONNECT)
        self.assertEqual(receive(client, 41), CONNECTED)
        self.assertGreater(time.monotonic() - begun, 0.3)
        client.sendall(EXISTS)
        self.assertEqual(receive(client, 20), MISSING)
        self.assertGreater(time.monotonic() - begun, 0.6)
        client.close()
        self.assertEqual(self.ended(), (0, [PLAYED], []))

    def test_the_side_ends_or_the_connection_is_reset(self):
        for place, heard in (("1:10", SERVER_BYTES[:41 + 14]), ("1", CONNECTED), ("1:16", SERVER_BYTES),
                             ("0:0", CONNECTED[:4]), ("0", b"")):
            with self.subTest(place=place):
                client = self.client(self.play(RUN, "--cut-at", place), CLIENT_BYTES)
                self.assertEqual(receive(client, 100), heard)
                client.close()
                told = f"played: {68 if place[0] == '1' else 49} bytes of the client, {len(heard)} of the server"
                self.assertEqual(self.ended(), (0, [told], []))
                client = self.client(self.play(RUN, "--reset-at", place), CLIENT_BYTES)
                with self.assertRaises(ConnectionResetError):
                    self.assertEqual(receive(client, len(heard)), heard)
                    client.recv(1)
                self.assertEqual(self.ended(), (0, [told], []))

    def test_other_bytes(self):
        made = bytearray(SERVER_BYTES)
        made[4 + 7] = 0xAB
        made[41 + 4 + 15] ^= 1
        client = self.client(self.play(RUN, "--flip", "0:7=ab", "--flip", "1:15"), CLIENT_BYTES)
        self.assertEqual(receive(client, 61), made)
        client.close()
        self.assertEqual(self.ended(), (0, [PLAYED], []))

    def test_of_the_client_that_is_played(self):
        server = socket.create_server(("127.0.0.1", 0))
        self.addCleanup(server.close)
        self.player = subprocess.Popen([sys.executable, TOOLS / "zkplay.py", "--client", "--flip", "0:0=01", "--cut-at",
                                        "1:2", "127.0.0.1:%d" % server.getsockname()[1], RUN],
                                       stdout=subprocess.PIPE, stderr=subprocess.PIPE, text=True)
        connection, _ = server.accept()
        with connection:
            self.assertEqual(receive(connection, 49), CONNECT[:4] + b"\1" + CONNECT[5:])
            connection.sendall(CONNECTED)
            self.assertEqual(receive(connection, 100), EXISTS[:6])
        self.assertEqual(self.ended(), (0, ["played: 55 bytes of the client, 41 of the server"], []))

    def test_a_fault_that_was_not_made_is_reported(self):
        for words in (("--cut-at", "2"), ("--reset-at", "2:5"), ("--flip", "1:16"),
                      ("--flip", "1:15", "--cut-at", "1:3")):
            with self.subTest(words=words):
                client = self.client(self.play(RUN, *words), CLIENT_BYTES)
                receive(client, 41 + 7)
                client.shutdown(socket.SHUT_WR)
                status, out, err = self.ended()
                self.assertEqual((status, out, len(err)), (1, [], 1))
                self.assertRegex(err[0], r"the server's bytes ended before frame=\d place=\d+, so no fault")

    def test_words(self):
        for words in (("--cut-at", "1:"), ("--reset-at", "1:2:3"), ("--flip", "1"), ("--flip", "1:2=001"),
                      ("--cut-at", "1", "--reset-at", "1"), ("--connections", "0"), ("--then",)):
            self.assert_bad_words("zkplay.py", "0", RUN, *words)


class Pings(BenchCase):
    def test_pings_that_were_not_recorded_are_answered(self):
        client = self.client(self.play(RUN), CONNECT)
        self.assertEqual(receive(client, 41), CONNECTED)
        for ping in (PING, PING[:5], PING[5:] + PING):
            client.sendall(ping)
            answers = 20 * (len(ping) // 12)
            self.assertEqual(receive(client, answers), (PING_REPLY[:8] + bytes(12)) * (answers // 20))
        self.assertEqual(receive(client, 20), PING_REPLY[:8] + bytes(12))
        client.sendall(EXISTS + PING)
        # The zxid is that of the last reply, 5.
        self.assertEqual(receive(client, 40), MISSING + PING_REPLY.replace(b"\x09", b"\x05"))
        client.close()
        self.assertEqual(self.ended(), (0, [f"{PLAYED}, and 4 pings answered"], []))

    def test_while_it_delays(self):
        client = self.client(self.play(RUN, "--delay", "0.6"), CONNECT)
        self.assertEqual(receive(client, 41), CONNECTED)
        begun = time.monotonic()
        client.sendall(EXISTS + PING)
        self.assertEqual(receive(client, 20), PING_REPLY[:8] + bytes(12))
        self.assertLess(time.monotonic() - begun, 0.4)
        self.assertEqual(receive(client, 20), MISSING)

    def test_recorded_pings_may_come_or_be_missing_or_come_early(self):
        recording = [(zkr.CLIENT, CONNECT), (zkr.SERVER, CONNECTED), (zkr.CLIENT, PING), (zkr.SERVER, PING_REPLY),
                     (zkr.CLIENT, EXISTS), (zkr.SERVER, MISSING)]
        for words, said, heard, told in (
                ((), CONNECT + PING + EXISTS, CONNECTED + PING_REPLY + MISSING, ""),
                ((), CONNECT + EXISTS, CONNECTED + MISSING, ""),
                (("--delay", "0.2"), CONNECT, CONNECTED, ""), ((), CONNECT + PING[:7], CONNECTED, "")):
            client = self.client(self.play(recording, *words), said)
            self.assertEqual(receive(client, len(heard)), heard)
            if words or not heard.endswith(MISSING):
                client.sendall(PING[len(said) - 49:] + PING + EXISTS)
                answers = receive(client, 60)
                self.assertEqual(answers.count(PING_REPLY[:8]), 2)
                self.assertEqual(answers.count(MISSING), 1)
                told = ", and 1 pings answered"
            client.close()
            self.assertEqual(self.ended(), (0, [f"played: 80 bytes of the client, 81 of the server{told}"], []))

    def test_a_frame_that_begins_as_a_ping_does(self):
        close = bytes.fromhex("00000008 00000002 fffffff5")
        recording = [(zkr.CLIENT, CONNECT), (zkr.SERVER, CONNECTED), (zkr.CLIENT, close), (zkr.SERVER, MISSING)]
        client = self.client(self.play(recording), CONNECT)
        self.assertEqual(receive(client, 41), CONNECTED)
        for part in (PING[:4], PING[4:] + close[:3], close[3:5]):
            client.sendall(part)
            time.sleep(0.1)
        self.assertEqual(receive(client, 20), PING_REPLY[:8] + bytes(12))
        client.sendall(close[5:])
        self.assertEqual(receive(client, 20), MISSING)

    def test_large_pieces_take_no_longer_than_they_are(self):
        frame = bytes.fromhex("0000000c 00000001 00000004 ffffffff")
        many, large = frame * 100_000, (8_000_000).to_bytes(4, "big") + bytes(8_000_000)
        recording = [(zkr.CLIENT, CONNECT), (zkr.SERVER, CONNECTED), (zkr.CLIENT, many), (zkr.CLIENT, large)]
        client = self.client(self.play(recording), CONNECT, many, large)
        client.shutdown(socket.SHUT_WR)
        self.assertEqual(self.ended()[:2], (0, ["played: 9600053 bytes of the client, 41 of the server"]))

    def test_what_only_begins_as_a_ping_is_refused(self):
        for said, told in ((PING[:11] + b"\0", "client frame=1 offset=53 place=0: expected byte 0x0f, got 0x08"),
                           (PING[:8], "client frame=1 offset=53 place=0: expected byte 0x0f, got 0x08")):
            client = self.client(self.play(RUN, "--wait", "0.5"), CONNECT, said)
            self.assertEqual(receive(client, 41), CONNECTED)
            self.assert_refused(told)

    def test_a_client_that_only_pings_is_not_waited_for_without_end(self):
        client = self.client(self.play(RUN, "--wait", "0.5"), CONNECT)
        until = time.monotonic() + 5
        while self.player.poll() is None and time.monotonic() < until:
            try:
                client.sendall(PING)
            except OSError:
                break
            select.select([client], [], [], 0.1)
            time.sleep(0.05)
        self.assert_refused("client frame=1 offset=50 place=0: expected byte 0x00: nothing came for 0.5 s")


class Many(BenchCase):
    def test_several_connections_at_once(self):
        address = self.play(RUN, "--connections", "3")
        clients = [self.client(address, CONNECT) for _ in range(3)]
        for client in reversed(clients):
            self.assertEqual(receive(client, 41), CONNECTED)
            client.sendall(EXISTS)
            self.assertEqual(receive(client, 20), MISSING)
            client.close()
        status, out, err = self.ended()
        self.assertEqual((status, sorted(out), err), (0, [f"#{number} {PLAYED}" for number in (1, 2, 3)], []))

    def test_one_recording_after_the_other(self):
        other = self.folder / "other.zkr"
        other.write_bytes(b"ZKR1" + zkr.Head().piece(zkr.CLIENT, 0, b"ruok") + zkr.Head().piece(zkr.SERVER, 0, b"imok"))
        address = self.play(RUN, "--then", other)
        first = self.client(address, CLIENT_BYTES)
        self.assertEqual(receive(first, 61), SERVER_BYTES)
        self.assertEqual(receive(self.client(address, b"ruok"), 4), b"imok")
        with self.assertRaises(ConnectionRefusedError):
            time.sleep(0.1)
            self.client(address)
        first.close()

    def test_one_that_is_refused_ends_no_other(self):
        address = self.play(RUN, "--connections", "2")
        good = self.client(address, CONNECT)
        self.assertEqual(receive(good, 41), CONNECTED)
        self.assertEqual(receive(self.client(address, b"ruok"), 1), b"")
        good.sendall(EXISTS)
        self.assertEqual(receive(good, 20), MISSING)
        good.close()
        self.assertEqual(self.ended(), (1, [f"#1 {PLAYED}"],
                                        ["zkplay.py: #2 client frame=0 offset=1 place=0: expected byte 0x00, got "
                                         "0x72"]))

    def test_many_that_are_played_to_a_server(self):
        address = self.play(RUN, "--connections", "5")
        done = self.run_tool("zkplay.py", "--client", "--connections", "5", "%s:%d" % address, RUN)
        self.assertEqual((done[0], len(done[1].splitlines()), done[2]), (0, 5, ""))
        self.assertEqual(self.ended()[0], 0)


class Listings(BenchCase):
    def listing(self, text):
        path = self.folder / "listing"
        path.write_text(text)
        return path

    def stand_in(self, script):
        path = self.folder / "zkdump"
        path.write_text(f"#!/bin/sh\nif [ $1 = show ]; then echo '. whole'; exit; fi\n{script}\n")
        path.chmod(0o700)
        return path

    def test_a_listing_is_built(self):
        program = self.stand_in(f"grep -q '^C 1 exists' && cat {RUN}")
        client = self.client(self.play(self.listing("C connect\nC 1 exists\n"), "--zkdump", program), CLIENT_BYTES)
        self.assertEqual(receive(client, 61), SERVER_BYTES)
        client.close()
        self.assertEqual(self.ended(), (0, [PLAYED], []))

    def test_a_listing_that_is_refused(self):
        path = self.listing("C connect\n")
        program = self.stand_in("echo 'line 1: column 10: Word'; exit 1")
        self.assertEqual(self.run_tool("zkplay.py", "--zkdump", program, "0", path),
                         (1, "", f"zkplay.py: {path}: line 1: column 10: Word\n"))
        self.assert_bad_words("zkplay.py", "--zkdump", "/bin/false", "0", path)

    def test_by_the_program_itself(self):
        if not PROGRAM.exists():
            self.skipTest("the program zkdump is not built")
        client = self.client(self.play(self.listing(self.show(RUN.read_bytes()))), CLIENT_BYTES)
        self.assertEqual(receive(client, 61), SERVER_BYTES)
        path = self.listing("C connect\n")
        status, out, err = self.run_tool("zkplay.py", "0", path)
        self.assertEqual((status, out, err), (1, "", f"zkplay.py: {path}: line 1: column 10: Word\n"))
