"""Tests of record.py and zkwatch.py in trouble: the other connections are not delayed, and it is reported once."""

import errno
import resource
import select
import socket
import subprocess
import sys
import threading
import time
import unittest.mock

from .proxied import NO_IPV6, SECONDS, TroubleCase
from .support import TOOLS, pieces, receive
from tools.zkdump_tools import addresses, proxy


class Descriptors(TroubleCase):
    def assert_lives_through(self, tool, limit, most, told):
        port = self.begin(tool, limits=[f"--nofile={limit}:{limit}"])
        first = self.client(port)
        self.ask(first)
        others = [self.client(port) for _ in range(most)]
        self.assert_pace(first)
        time.sleep(0.3)
        self.assert_pace(first)
        self.assertEqual([told in line for line in self.complaints(1)], [True], self.err)
        for other in others:
            other.close()
        self.assert_pace(self.client(port))
        self.assert_pace(first)
        self.assertIsNone(self.tool.poll())

    def test_record(self):
        for limit in (20, 21, 22):
            with self.subTest(limit=limit):
                self.assert_lives_through("record.py", limit, 30, "new clients have to wait: Too many open files")
                for path in self.folder.glob("r-*.zkr"):
                    self.assertGreater(path.stat().st_size, 3)

    def test_zkwatch(self):
        self.assert_lives_through("zkwatch.py", 30, 20, "new clients have to wait: Too many open files")

    def test_their_table_has_its_size_from_the_start(self):
        """Where it grows later, all connections wait for some 20 ms."""
        for tool in ("record.py", "zkwatch.py"):
            self.begin(tool)
            limit = resource.prlimit(self.tool.pid, resource.RLIMIT_NOFILE)[0]
            with open(f"/proc/{self.tool.pid}/status", encoding="ascii") as status:
                size, = (int(line.split()[1]) for line in status if line.startswith("FDSize:"))
            self.assertGreaterEqual(size, min(limit, 1 << 16), tool)

    def test_nobody_waits_where_there_is_room_for_just_one_more(self):
        for limit in (20, 21, 22):
            with self.subTest(limit=limit):
                port, answered = self.begin("record.py", limits=[f"--nofile={limit}:{limit}"]), 0
                for _ in range(10):
                    client = self.client(port)
                    client.settimeout(0.5)
                    try:
                        self.ask(client)
                    except socket.timeout:
                        break
                    answered += 1
                    self.assertEqual(self.complaints(), [], answered)
                self.assertTrue(2 < answered < 10, answered)
                self.assertEqual(len(self.complaints(1)), 1)


class Passing(proxy.Proxy):
    """A proxy that observes nothing; its observers take `seconds` to begin, and as many to end."""

    seconds = 0

    def observer_of(self, connection):
        time.sleep(self.seconds)
        return unittest.mock.Mock(over=lambda: time.sleep(self.seconds))


class Crowd(TroubleCase):
    """Each turn of the loop serves every busy connection, so it is the number of turns that they wait for."""

    def setUp(self):
        super().setUp()
        self.passing = Passing("test", addresses.found(("127.0.0.1", self.echo.port)))
        self.passing.listen(addresses.listen(("127.0.0.1", 0)))
        for listener in self.passing.listeners:
            self.addCleanup(listener.close)
        for call in (self.passing.lines.end, self.passing.complaints.end, self.passing.stop):
            self.addCleanup(call)

    def come(self, count):
        """As many clients, which all are passed on. A turn may take long here: it is the count that bounds it."""
        clients = [self.client(self.passing.listeners[0].getsockname()[1]) for _ in range(count)]
        with unittest.mock.patch("tools.zkdump_tools.proxy.MOMENT", SECONDS):
            for turn in range(1, count // proxy.AT_ONCE + 3):
                self.passing.turn(1)
                self.assertLessEqual(len(self.passing.connections), proxy.AT_ONCE * turn)
                if len(self.passing.connections) == count:
                    return clients
        self.fail(f"{len(self.passing.connections)} of {count} clients are passed on")

    def assert_answered(self, clients):
        """That these clients, which have sent hello, have it back."""
        until = time.monotonic() + SECONDS
        while len(select.select(clients, [], [], 0)[0]) < len(clients) and time.monotonic() < until:
            self.passing.turn(0.01)
        self.assertEqual([receive(client, 5) for client in clients], [b"hello"] * len(clients))

    def test_clients_that_come_at_once(self):
        clients = self.come(100)
        for client in clients:
            client.sendall(b"hello")
        self.assert_answered(clients)

    def test_small_messages_go_at_once_and_an_end_that_is_gone_is_noticed(self):
        self.come(1)
        self.passing.turn(0)
        connection, = self.passing.connections
        for end in (connection.client, connection.server):
            self.assertTrue(end.getsockopt(socket.IPPROTO_TCP, socket.TCP_NODELAY))
            self.assertTrue(end.getsockopt(socket.SOL_SOCKET, socket.SO_KEEPALIVE))

    def test_clients_that_end_at_once(self):
        """What is left to do of them is done between the turns of the others."""
        steady, *others = self.come(100)
        for client in others:
            client.close()
        self.passing.turn(1)
        time.sleep(0.5)         # the server ends each connection, too
        steady.sendall(b"hello")
        over = []
        while len(self.passing.connections) > 1:
            before = len(self.passing.connections)
            self.passing.turn(1)
            over.append(before - len(self.passing.connections))
        self.assertLessEqual(max(over), proxy.AT_ONCE)
        self.assert_answered([steady])

    def most_at_once(self, count):
        """As many clients, and the most of them that begin in one turn."""
        clients = [self.client(self.passing.listeners[0].getsockname()[1]) for _ in range(count)]
        most = begun = 0
        while begun < count:
            self.passing.turn(1)
            before, begun = begun, sum(each.observer is not None for each in self.passing.connections)
            most = max(most, begun - before)
        return clients, most

    def test_observers_that_take_long(self):
        """As on a slow disk: one of the clients that wait begins, and one ends, between the turns of the others."""
        self.passing.seconds = 2 * proxy.MOMENT
        clients, most = self.most_at_once(20)
        self.assertEqual(most, 1)
        for client in clients:
            client.close()
        self.passing.turn(1)
        time.sleep(0.5)         # the server ends each connection, too
        while self.passing.connections:
            before = len(self.passing.connections)
            self.passing.turn(1)
            self.assertLessEqual(before - len(self.passing.connections), 1)

    def test_a_server_that_is_not_connected_at_once(self):
        made = socket.socket.connect_ex

        def late(end, address):
            made(end, address)
            return errno.EINPROGRESS

        self.passing.seconds = 2 * proxy.MOMENT
        with unittest.mock.patch.object(socket.socket, "connect_ex", late):
            clients, most = self.most_at_once(5)
        self.assertEqual(most, 1)
        clients[0].sendall(b"hello")
        self.assert_answered(clients[:1])


class Ends(TroubleCase):
    def test_clients_that_reset_and_that_never_read(self):
        port = self.begin("record.py")
        steady = self.client(port)
        stuck = self.client(port)
        stuck.setblocking(False)
        for _ in range(2000):
            try:
                stuck.send(bytes(65536))
            except BlockingIOError:
                break
        for begun in range(0, 2000, 50):
            clients = [self.client(port) for _ in range(50)]
            for client in clients:
                client.send(b"hi")
                self.reset(client)
        self.assert_pace(steady)
        self.assertEqual(self.complaints(), [])
        self.assertIsNone(self.tool.poll())

    def test_1000_connections(self):
        port = self.begin("record.py")
        clients = [self.client(port) for _ in range(1000)]
        for client in clients:
            client.sendall(b"hello")
        for client in clients:
            self.assertEqual(receive(client, 5), b"hello")
        self.assertEqual(len(list(self.folder.glob("r-*.zkr"))), 1000)
        self.assert_pace(clients[0])

    def test_no_ipv6(self):
        for tool in ("record.py", "zkwatch.py"):
            with self.subTest(tool=tool):
                port = self.begin(tool, f"localhost:{self.echo.port}", python=["-c", NO_IPV6])
                for _ in range(2):
                    self.ask(self.client(port))
                self.assertEqual(self.complaints(), [])

    def test_who_ended_a_connection_and_how(self):
        def ended(talk):
            port = self.begin("record.py")
            client = self.client(port)
            self.ask(client)
            talk(client)
            return self.lines(2)[1].split()[6:]
        self.assertEqual(ended(lambda client: client.close()), ["closed=C"])
        self.assertEqual(ended(self.reset), ["reset=C"])
        self.assertEqual(ended(lambda client: self.tool.terminate()), ["open"])
        for how, told in (("close", ["closed=S"]), ("reset", ["reset=S"])):
            listener = socket.create_server(("127.0.0.1", 0))
            self.addCleanup(listener.close)
            self.echo.port = listener.getsockname()[1]

            def serve():
                connection, _ = listener.accept()
                connection.sendall(receive(connection, 6))
                receive(connection, 3)
                (self.reset if how == "reset" else socket.socket.close)(connection)

            def bye(client):
                client.sendall(b"bye")
                try:
                    self.assertEqual(client.recv(1), b"")
                except ConnectionResetError:
                    self.assertEqual(how, "reset")
                client.close()
            threading.Thread(target=serve, daemon=True).start()
            self.assertEqual(ended(bye), told)


class Disk(TroubleCase):
    def test_a_prefix_that_cannot_be_written_is_reported_before_it_listens(self):
        (self.folder / "file").write_text("")
        (self.folder / "folder").mkdir()
        server = f"127.0.0.1:{self.echo.port}"
        for prefix in (self.folder / "file" / "r", self.folder / "no" / "r", self.folder / ("r" * 300)):
            status, out, err = self.run_tool("record.py", "0", server, prefix, seconds=10)
            self.assertEqual((status, out, err.count("\n")), (3, "", 1), err)
            self.assertIn(str(prefix), err)
        for words in ((), ("--times",)):
            done = subprocess.run(["prlimit", "--fsize=0:0", sys.executable, TOOLS / "record.py", "0", server,
                                   self.folder / "folder" / "r", *words], capture_output=True, text=True, timeout=10,
                                  check=False)
            self.assertEqual((done.returncode, done.stderr.count("\n")), (3, 1), done.stderr)
            self.assertEqual(list((self.folder / "folder").iterdir()), [])

    def test_a_disk_that_is_full_for_new_recordings(self):
        port = self.begin("record.py", "--times")
        first = self.client(port)
        self.ask(first)
        subprocess.run(["prlimit", f"--pid={self.tool.pid}", "--fsize=0:0"], check=True)
        for _ in range(5):
            self.assert_pace(self.client(port))
        self.assert_pace(first)
        told = self.lines(3, self.err)[1:]
        self.assertEqual(len(told), 2, told)
        self.assertEqual([len(pieces(path.read_bytes())) for path in self.folder.glob("r-*.zkr")], [2])
        self.tool.terminate()
        self.assertEqual(self.tool.wait(SECONDS), 3)
        self.assertRegex(told[0], "^record.py: .*: File too large; new connections go on without a recording$")
        self.assertRegex(told[1], "^record.py: .*-1.zkr: File too large; the connection of .* goes on, and no more of "
                                  "it is recorded$")
