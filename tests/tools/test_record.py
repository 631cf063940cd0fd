"""Tests of record.py against a server of our own on loopback."""

import contextlib
import errno
import queue
import re
import signal
import socket
import stat
import struct
import subprocess
import sys
import threading
import time

from .support import CAPTURES, TOOLS, ToolCase, pieces, receive, sides, zkr

SECONDS = 20


def serve(talk, host="127.0.0.1"):
    """A server that calls `talk(connection)` for each client, and then closes the connection. Returns its socket."""
    family = socket.AF_INET6 if ":" in host else socket.AF_INET
    listener = socket.create_server((host, 0), family=family, backlog=512)

    def talk_and_end(connection):
        connection.settimeout(SECONDS)
        with connection, contextlib.suppress(OSError):
            talk(connection)

    def accept():
        while True:
            try:
                connection, _ = listener.accept()
            except OSError:
                return
            threading.Thread(target=talk_and_end, args=(connection,), daemon=True).start()
    threading.Thread(target=accept, daemon=True).start()
    return listener


def echo(connection):
    """Echoes what it hears; at the client's end it says `end`."""
    while data := connection.recv(65536):
        connection.sendall(data)
    connection.sendall(b"end")


class RecordCase(ToolCase):
    def setUp(self):
        super().setUp()
        self.prefix = self.folder / "r"

    def server(self, talk=echo, host="127.0.0.1"):
        listener = serve(talk, host)
        self.addCleanup(listener.close)
        return listener.getsockname()[1]

    def record(self, server, *words, listen="0"):
        """Runs record.py in front of that server, and returns the port that it listens on."""
        server = server if isinstance(server, str) else f"127.0.0.1:{server}"
        self.tool = subprocess.Popen([sys.executable, TOOLS / "record.py", listen, server, self.prefix, *words],
                                     stdout=subprocess.PIPE, stderr=subprocess.PIPE, text=True)
        self.addCleanup(self.tool.stdout.close)
        self.addCleanup(self.tool.stderr.close)
        self.addCleanup(self.tool.wait)
        self.addCleanup(self.tool.kill)
        return int(re.match(r"record.py: listens on .*:(\d+); ", self.tool.stderr.readline())[1])

    def client(self, port, host="127.0.0.1"):
        client = socket.create_connection((host, port), SECONDS)
        self.addCleanup(client.close)
        return client

    def next_line(self):
        """The next line on standard output."""
        return self.tool.stdout.readline().split()

    def ended(self):
        """The words of the next line that reports an end."""
        while (words := self.next_line())[2] != "ended":
            pass
        return words

    def recording(self, number=1):
        return self.prefix.with_name(f"r-{number}.zkr").read_bytes()


class Passing(RecordCase):
    def test_bytes_of_both_sides(self):
        client = self.client(self.record(self.server()))
        said = b"".join(path.read_bytes() for path in CAPTURES[:4])
        threading.Thread(target=lambda: (client.sendall(said), client.shutdown(socket.SHUT_WR)), daemon=True).start()
        self.assertEqual(receive(client, len(said) + 4), said + b"end")
        path, peer, begun, moment = self.next_line()
        self.assertEqual((path, peer, begun), (f"{self.prefix}-1.zkr", "%s:%d" % client.getsockname(), "begun"))
        self.assertRegex(moment, r"^\d{4}-\d\d-\d\dT\d\d:\d\d:\d\d\.\d{3}Z$")
        self.assertEqual(self.ended()[4:], [f"client={len(said)}", f"server={len(said) + 3}", "closed=C"])
        self.assertEqual(sides(self.recording()), (said, said + b"end"))

    def test_each_request_is_before_its_reply(self):
        client = self.client(self.record(self.server()))
        for number in range(200):
            client.sendall(b"%5d" % number)
            self.assertEqual(receive(client, 5), b"%5d" % number)
        found = pieces(self.recording())
        self.assertEqual([piece.data for piece in found], [b"%5d" % (number // 2) for number in range(400)])
        self.assertEqual([piece.side for piece in found], [b"C", b"S"] * 200)

    def test_an_answer_after_the_client_has_ended_its_side(self):
        port = self.record(self.server())
        for _ in range(20):
            with self.client(port) as client:
                client.sendall(b"ruok")
                client.shutdown(socket.SHUT_WR)
                self.assertEqual(receive(client, 8), b"ruokend")

    def test_the_server_may_end_its_side_first(self):
        heard = queue.Queue()

        def talk(connection):
            connection.sendall(b"bye")
            connection.shutdown(socket.SHUT_WR)
            heard.put(receive(connection, 8))
        client = self.client(self.record(self.server(talk)))
        self.assertEqual(receive(client, 4), b"bye")
        client.sendall(b"still me")
        client.close()
        self.ended()
        self.assertEqual(heard.get(timeout=SECONDS), b"still me")
        self.assertEqual(sides(self.recording()), (b"still me", b"bye"))

    def test_a_reset_is_passed_on(self):
        def talk(connection):
            receive(connection, 2)
            connection.sendall(b"last words")
            time.sleep(0.2)
            connection.setsockopt(socket.SOL_SOCKET, socket.SO_LINGER, struct.pack("ii", 1, 0))
        client = self.client(self.record(self.server(talk)))
        client.sendall(b"hi")
        self.assertEqual(receive(client, 10), b"last words")
        with self.assertRaises(ConnectionResetError):
            client.recv(1)
        self.ended()
        self.assertEqual(sides(self.recording()), (b"hi", b"last words"))

    def test_a_reset_while_bytes_wait_is_no_end(self):
        """Of a client that doesn't read; the server gets a reset, and no FIN before it."""
        heard, waits = queue.Queue(), threading.Event()

        def talk(connection):
            connection.settimeout(0.5)
            with contextlib.suppress(socket.timeout):
                while True:
                    connection.sendall(bytes(1 << 20))
            connection.settimeout(SECONDS)
            waits.set()
            try:
                heard.put(connection.recv(1))
            except OSError as error:
                heard.put(error.errno)
        client = self.client(self.record(self.server(talk)))
        self.assertTrue(waits.wait(SECONDS))
        client.setsockopt(socket.SOL_SOCKET, socket.SO_LINGER, struct.pack("ii", 1, 0))
        client.close()
        self.assertEqual((self.ended()[6:], heard.get(timeout=SECONDS)), (["reset=C"], errno.ECONNRESET))

    def test_small_writes_are_not_held_back(self):
        client = self.client(self.record(self.server()))
        client.setsockopt(socket.IPPROTO_TCP, socket.TCP_NODELAY, 1)
        took = []
        for _ in range(30):
            begun = time.monotonic()
            for _ in range(3):
                client.sendall(b"set")
                time.sleep(0.0003)
            receive(client, 9)
            took.append(time.monotonic() - begun)
        self.assertLess(sorted(took)[15], 0.030)

    def test_a_slow_reader_loses_nothing(self):
        size = 20_000_000
        client = self.client(self.record(self.server(lambda connection: connection.sendall(bytes(size)))))
        got = 0
        while got < size:
            got += len(client.recv(300_000))
            time.sleep(0.001)
        client.close()
        self.assertEqual(self.ended()[4:], ["client=0", f"server={size}", "closed=S"])
        self.assertEqual(len(sides(self.recording())[1]), size)

    def test_256_connections_at_once(self):
        port = self.record(self.server(), "--times")
        clients = [self.client(port) for _ in range(256)]
        for round_ in range(3):
            for number, client in enumerate(clients):
                client.sendall(b"%4d:%d" % (number, round_))
        for number, client in enumerate(clients):
            client.shutdown(socket.SHUT_WR)
            self.assertEqual(receive(client, 22), b"".join(b"%4d:%d" % (number, n) for n in range(3)) + b"end")
        for _ in clients:
            self.ended()
        said = {sides(self.recording(number))[0][:4] for number in range(1, 257)}
        self.assertEqual(said, {b"%4d" % number for number in range(256)})


class Files(RecordCase):
    def test_for_the_owner_alone_and_never_overwritten(self):
        self.prefix.with_name("r-1.zkr").write_bytes(b"mine")
        client = self.client(self.record(self.server(), "--times"))
        client.sendall(b"hi")
        receive(client, 2)
        self.assertEqual(self.next_line()[0], f"{self.prefix}-2.zkr")
        self.assertEqual(self.recording(1), b"mine")
        for name in ("r-2.zkr", "r-2.zkr.times"):
            self.assertEqual(stat.S_IMODE(self.prefix.with_name(name).stat().st_mode), 0o600)

    def test_times(self):
        before = time.time() * 1000
        client = self.client(self.record(self.server(), "--times", "--format", "zkr2", "--limit", "1000",
                                         "--waiting", "9", "--profile", "3.5"))
        for _ in range(3):
            client.sendall(b"hi")
            receive(client, 2)
            time.sleep(0.01)
        after = time.time() * 1000
        found = pieces(self.recording())
        self.assertEqual(self.recording()[:20], b"ZKR2" + struct.pack(">iiii", 1000, 1000, 9, 35))
        times = list(map(float, zkr.read_times(self.prefix.with_name("r-1.zkr.times"))))
        self.assertEqual([int(moment) for moment in times], [piece.milliseconds for piece in found])
        self.assertEqual((len(found), times), (6, sorted(times)))
        self.assertTrue(int(before) <= times[0] and times[-1] <= after and times[4] - times[0] > 19)

    def test_times_are_usual(self):
        for words, wanted in (((), True), (("--no-times",), False), (("--times",), True)):
            with self.subTest(words=words):
                self.prefix = self.folder / f"{len(words)}{wanted}"
                client = self.client(self.record(self.server(), *words))
                client.sendall(b"hi")
                receive(client, 2)
                times = self.prefix.with_name(f"{self.prefix.name}-1.zkr.times")
                self.assertEqual(times.exists() and len(list(zkr.read_times(times))), wanted and 2)

    def test_a_signal_ends_it_with_every_piece_written(self):
        for number in (signal.SIGTERM, signal.SIGINT):
            with self.subTest(signal=number):
                self.prefix = self.folder / number.name
                client = self.client(self.record(self.server(), "--times"))
                threading.Thread(target=lambda: self.flood(client), daemon=True).start()
                got = receive(client, 3_000_000)
                self.tool.send_signal(number)
                with contextlib.suppress(ConnectionResetError):
                    while part := client.recv(1 << 20):
                        got += part
                self.assertEqual((self.tool.wait(SECONDS), self.tool.stderr.read()), (0, ""))
                recording = (self.folder / f"{number.name}-1.zkr").read_bytes()
                self.assertTrue(sides(recording)[1].startswith(got))
                times = list(zkr.read_times(self.folder / f"{number.name}-1.zkr.times"))
                self.assertEqual(len(times), len(pieces(recording)))

    def flood(self, client):
        with contextlib.suppress(OSError):
            while True:
                client.sendall(bytes(range(256)) * 64)

    def test_a_full_disk_ends_the_recording_alone(self):
        port = self.record(self.server())
        subprocess.run(["prlimit", f"--pid={self.tool.pid}", "--fsize=1000:1000"], check=True)
        client = self.client(port)
        for _ in range(10):
            client.sendall(bytes(300))
            self.assertEqual(receive(client, 300), bytes(300))
        self.assertEqual([len(piece.data) for piece in pieces(self.recording())], [300, 300, 300])
        self.assertIn("no more of it is recorded", self.tool.stderr.readline())
        self.tool.terminate()
        self.assertEqual(self.tool.wait(SECONDS), 3)


class Addresses(RecordCase):
    def test_a_server_that_cannot_be_reached_ends_that_connection_alone(self):
        with socket.create_server(("127.0.0.1", 0)) as gone:
            server = gone.getsockname()[1]
        port = self.record(server)
        with self.client(port) as client:
            self.assertEqual(receive(client, 1), b"")
        self.assertRegex(self.tool.stderr.readline(), r"no connection to the server \S+:\d+: Connection refused")
        back = socket.create_server(("127.0.0.1", server))
        self.addCleanup(back.close)
        client = self.client(port)
        connection, _ = back.accept()
        with connection:
            connection.sendall(b"here")
            self.assertEqual(receive(client, 4), b"here")
        self.assertEqual(self.next_line()[0], f"{self.prefix}-1.zkr")

    def test_ipv6(self):
        try:
            server = self.server(host="::1")
        except OSError as error:
            self.skipTest(f"this machine has no IPv6: {error}")
        client = self.client(self.record(f"[::1]:{server}", listen="[::1]:0"), "::1")
        client.sendall(b"six")
        self.assertEqual(receive(client, 3), b"six")
        self.assertRegex(self.next_line()[1], r"^\[::1\]:\d+$")

    def test_a_name_whose_first_address_has_no_server(self):
        client = self.client(self.record(f"localhost:{self.server()}", listen="localhost:0"))
        client.sendall(b"name")
        self.assertEqual(receive(client, 4), b"name")

    def test_what_is_in_use_or_not_there_is_reported(self):
        with socket.create_server(("127.0.0.1", 0)) as taken:
            port = taken.getsockname()[1]
            for words in ((str(port), "127.0.0.1:1", self.prefix), ("0", "no.such.name.invalid:1", self.prefix),
                          ("192.0.2.1:0", "127.0.0.1:1", self.prefix), ("0", "127.0.0.1:1", self.folder / "no" / "r")):
                status, out, err = self.run_tool("record.py", *words)
                self.assertEqual((status, out, err.count("\n")), (3, "", 1), (words, err))

    def test_bad_words(self):
        good = ("0", "127.0.0.1:1", "r")
        for words in ((), good[:2], (*good, "more"), ("abc", *good[1:]), ("65536", *good[1:]), (":1", *good[1:]),
                      ("0", "localhost", "r"), ("0", ":1", "r"), ("0", "::1:1", "r"), ("0", "host:-1", "r"),
                      (*good, "--time"), (*good, "--limit", "64"), (*good, "--profile", "3.5"),
                      (*good, "--format", "zkr3"), (*good, "--format", "zkr2", "--limit", "63"),
                      (*good, "--format", "zkr2", "--limit", "+100"), (*good, "--format", "zkr2", "--waiting", "0"),
                      (*good, "--format", "zkr2", "--profile", "3.6")):
            with self.subTest(words=words):
                self.assert_bad_words("record.py", *words)
