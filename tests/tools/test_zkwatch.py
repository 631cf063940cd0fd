"""Tests of zkwatch: what goes through it, and what it prints of it, with a script in place of the program, and with the
program, each way."""

import pathlib
import re
import signal
import socket
import struct
import subprocess
import sys
import threading
import time
import unittest.mock

from .proxied import STAND_IN, stand_in
from .support import PROGRAM, TOOLS, TOP, WayCase, pieces, receive, sides, zkr
from .test_columns import ColumnsCase
from ..unknown_operations import NAMED
from tools.zkdump_tools import shows

RUN = TOP / "crates" / "zkdump" / "stdin"
LISTING = """C connect version=0 zxid=0 timeout=30000 session=0 passwd=#00000000000000000000000000000000 ro=0
S connect version=0 timeout=30000 session=72057594037927937 passwd=#000102030405060708090a0b0c0d0e0f ro=0
C 1 exists path="/a" watch=1
S 1 exists zxid=5 err=-101/NONODE
. whole unanswered=0
"""
# What 3.4 lacks in a recording: its lines from the third on; the others have the listing's lines, but for create2.
NEWER = {
    "refused_java_ttl_node": """left out: C frame=1 xid=1 createTTL, 68 bytes
left out: S frame=1 xid=1 createTTL, 101 bytes
left out: C frame=2 xid=2 createTTL, 69 bytes
left out: S frame=2 xid=2 createTTL, 112 bytes
C 3 closeSession
S 3 closeSession zxid=1949
. whole unanswered=0
""",
    "refused_go_auth_under_an_ordinary_xid": """left out: C frame=1 xid=1 auth under an ordinary xid, 36 bytes
left out: S frame=1 xid=1 auth under an ordinary xid, 16 bytes
C 2 create path="/go-auth" blob=#78 acl=[31:"auth":""] flags=0
S 2 create zxid=2213 path="/go-auth"
C 3 getData path="/go-auth" watch=0
S 3 getData zxid=2213 blob=#78 stat=(2213,2213,1795332738916,1795332738916,0,0,0,0,1,0,2213)
. whole unanswered=0
""",
}
HELLO = "0000002d 00000000 0000000000000000 00007530 0000000000000000 00000010" + "00" * 17
WELCOME = "00000025 00000000 00007530 0100000000000001 00000010" + "00" * 17
DIGITS, NAME = f"{NAMED.number:08x}", NAMED.name
# Hexadecimal bytes of each side, and the lines from the third on: the numbers of the last count what is left out.
ENDINGS = (
    # What no profile has and its reply of no paths; then an exists whose last byte, the client's 86th, is no boolean
    (f"C 0000000e 00000001 {DIGITS} 00000002 2f61  S 00000014 00000001 0000000000000005 00000000 00000000"
     "C 0000000f 00000002 00000003 00000002 2f61 02",
     [f"left out: C frame=1 xid=1 {NAME}, 14 bytes", f"left out: S frame=1 xid=1 {NAME}, 20 bytes",
      "refused: side=C frame=2 offset=86 place=14 reason=BadBool, 19 bytes passed over", ". whole unanswered=0"]),
    # an exists whose last byte is no boolean, and what no profile has after it
    (f"C 0000000f 00000001 00000003 00000002 2f61 02 00000008 00000002 {DIGITS}",
     ["refused: side=C frame=1 offset=68 place=14 reason=BadBool, 19 bytes passed over",
      f"left out: C frame=2 xid=2 {NAME}, 8 bytes", ". whole unanswered=1"]),
    # the same, and a length that no frame has, before the reply
    (f"C 0000000e 00000001 {DIGITS} 00000002 2f61 ffffffff  S 00000014 00000001 0000000000000005 00000000 00000000",
     [f"left out: C frame=1 xid=1 {NAME}, 14 bytes",
      ". refused side=C frame=2 offset=71 place=0 reason=LengthRange"]),
    # what no release has, which is called by its number, and its reply; under the xid of pings it is refused
    ("C 00000008 00000001 00001092 00000008 fffffffe 00001092  S 00000010 00000001 0000000000000005 00000000",
     ["left out: C frame=1 xid=1 4242, 8 bytes",
      "refused: side=C frame=2 offset=73 place=4 reason=UnknownOp, 12 bytes passed over",
      "left out: S frame=1 xid=1 zxid=5 not seen asked, 16 bytes", ". whole unanswered=0"]),
    # without a body, and a reply to it that is cut; without a reply, between two exists in one piece
    (f"C 00000008 00000001 {DIGITS}  S 00000014 00000001 0000",
     [f"left out: C frame=1 xid=1 {NAME}, 8 bytes", ". cut side=S frame=1 got=10"]),
    (f"C 0000000f 00000001 00000003 00000002 2f61 00 00000012 00000002 {DIGITS} 00000002 2f61 00000000"
     "  0000000f 00000003 00000003 00000002 2f61 00",
     ['C 1 exists path="/a" watch=0', f"left out: C frame=2 xid=2 {NAME}, 18 bytes",
      'C 3 exists path="/a" watch=0', ". whole unanswered=3"]),
)
WHOLE = f". whole show --profile {zkr.NEWEST} --limit 16777216"       # the last line of STAND_IN
LINE = re.compile(r"\d{4}-\d\d-\d\dT\d\d:\d\d:\d\d\.\d{3}Z (#\d+) (.*?)(?: ms=(?:0|0\.\d*[1-9]|[1-9]\d*(?:\.\d*[1-9])?))?")
REFUSED = re.compile(r" (?:\. refused|refused: )")
UNREAD = "what follows is passed on, and not read"         # unless the connection is over first
SECONDS = 20


class Echo(threading.Thread):
    """A server that echoes, and ends once its client has; with `slow` it waits for that end before it echoes."""

    def __init__(self, slow=False, host="127.0.0.1"):
        super().__init__(daemon=True)
        self.listener = socket.create_server((host, 0), family=socket.AF_INET6 if ":" in host else socket.AF_INET)
        self.host, self.port, self.slow = host, self.listener.getsockname()[1], slow
        self.start()

    def run(self):
        while True:
            try:
                client, _ = self.listener.accept()
            except OSError:
                return
            threading.Thread(target=self.answer, args=(client,), daemon=True).start()

    def answer(self, client):
        heard = b""
        with client:
            while data := client.recv(65536):
                heard += data
                if not self.slow:
                    client.sendall(data)
            if self.slow:
                client.sendall(heard)


class WatchCase(WayCase):
    """A test that begins to watch."""

    def setUp(self):
        super().setUp()
        self.stand_in = stand_in(self.folder)

    def watch(self, server, *words, listen="0", program=None):
        """Begins to watch: the process, and its address."""
        watcher = subprocess.Popen([sys.executable, TOOLS / "zkwatch.py", "--zkdump", program or self.stand_in, *words,
                                    listen, server], stdout=subprocess.PIPE, stderr=subprocess.PIPE, text=True)
        self.addCleanup(watcher.wait)
        self.addCleanup(watcher.kill)
        host, _, port = watcher.stdout.readline().removeprefix("listening on ").rpartition(":")
        return watcher, (host.strip("[]"), int(port))

    def echo(self, slow=False, host="127.0.0.1"):
        echo = Echo(slow, host)
        self.addCleanup(echo.listener.close)
        return echo

    def lines(self, watcher):
        """What it has printed of its connections, once it has ended: number and line. The status says whether something
        was refused."""
        out, err = watcher.communicate(timeout=SECONDS)
        self.assertEqual((watcher.returncode, err), (int(bool(REFUSED.search(out))), ""))
        return [LINE.fullmatch(line).groups() for line in out.splitlines()]

    def stopped(self, watcher):
        watcher.send_signal(signal.SIGINT)
        return self.lines(watcher)


class Zkwatch(WatchCase):
    """With the script."""

    def test_a_half_closed_connection_is_answered(self):
        watcher, address = self.watch(f"127.0.0.1:{self.echo(slow=True).port}", "--once")
        with socket.create_connection(address, SECONDS) as client:
            client.sendall(b"\0\0\0\2ab\0\0\0\1c")
            client.shutdown(socket.SHUT_WR)
            self.assertEqual(receive(client, 100), b"\0\0\0\2ab\0\0\0\1c")
            peer = f"from 127.0.0.1:{client.getsockname()[1]}"
        told = [peer, "C 0 2", "C 1 1", "S 0 2", "S 1 1", WHOLE]
        self.assertEqual(self.lines(watcher), [("#1", line) for line in told])

    def test_lines_come_while_the_connection_lives(self):
        watcher, address = self.watch(f"127.0.0.1:{self.echo().port}")
        with socket.create_connection(address, SECONDS) as client:
            client.sendall(b"\0\0\0\2a")
            client.sendall(b"b")
            told = [LINE.fullmatch(watcher.stdout.readline().rstrip()).groups() for _ in range(3)]
            self.assertEqual(told[1:], [("#1", "C 0 2"), ("#1", "S 0 2")])
            self.assertEqual(receive(client, 6), b"\0\0\0\2ab")
            self.assertEqual(self.stopped(watcher), [("#1", WHOLE)])

    def test_many_connections(self):
        watcher, address = self.watch(f"127.0.0.1:{self.echo().port}")
        clients = [socket.create_connection(address, SECONDS) for _ in range(8)]
        for size, client in enumerate(clients, 1):
            client.sendall(b"\0\0\0" + bytes([size]) + bytes(size))
            self.assertEqual(receive(client, 4 + size)[4:], bytes(size))
        for client in clients:
            client.close()
        time.sleep(0.5)
        told = self.stopped(watcher)
        numbers = {number for number, _ in told}
        self.assertEqual(numbers, {f"#{n}" for n in range(1, 9)})
        for number in numbers:
            of_one = [line for each, line in told if each == number]
            size = of_one[1].split(" ")[2]
            self.assertEqual(of_one[1:], [f"C 0 {size}", f"S 0 {size}", WHOLE])

    def test_bytes_go_on_after_a_refusal(self):
        # It reads only once the connection is over.
        self.stand_in.write_text(STAND_IN.replace("import sys\n", "import sys, time\ntime.sleep(1)\n", 1))
        watcher, address = self.watch(f"127.0.0.1:{self.echo().port}", "--once")
        said = b"\0\0\0\0" + bytes(range(256)) * 4000
        with socket.create_connection(address, SECONDS) as client:
            sending = threading.Thread(target=lambda: (client.sendall(said), client.shutdown(socket.SHUT_WR)))
            sending.start()
            self.assertEqual(receive(client, len(said)), said)
            sending.join()
        self.assertEqual([line for _, line in self.lines(watcher)[1:]], [". refused"])

    def test_small_writes_are_not_held_back(self):
        _, address = self.watch(f"127.0.0.1:{self.echo().port}")
        with socket.create_connection(address, SECONDS) as client:
            client.setsockopt(socket.IPPROTO_TCP, socket.TCP_NODELAY, 1)
            took = []
            for _ in range(30):
                begun = time.monotonic()
                client.sendall(b"\0\0\0\1a")
                time.sleep(0.001)
                client.sendall(b"\0\0\0\1b")
                receive(client, 10)
                took.append(time.monotonic() - begun)
        self.assertLess(sorted(took)[15], 0.03)

    def test_ipv6(self):
        try:
            echo = self.echo(host="::1")
        except OSError as error:
            self.skipTest(f"this machine has no IPv6: {error}")
        watcher, address = self.watch(f"[::1]:{echo.port}", "--once", listen="[::1]:0")
        with socket.create_connection(address, SECONDS) as client:
            client.sendall(b"\0\0\0\1a")
            self.assertEqual(receive(client, 5), b"\0\0\0\1a")
            peer = f"from [::1]:{client.getsockname()[1]}"
        self.assertEqual([line for _, line in self.lines(watcher)], [peer, "C 0 1", "S 0 1", WHOLE])

    def test_no_server(self):
        with socket.create_server(("127.0.0.1", 0)) as closed:
            port = closed.getsockname()[1]
        watcher, address = self.watch(f"127.0.0.1:{port}", "--once")
        with socket.create_connection(address, SECONDS) as client:
            self.assertEqual(client.recv(1), b"")
        self.assertTrue(self.lines(watcher)[1][1].startswith("not passed on: "))

    def test_its_reader_goes(self):
        """As `head` does, which ends after some lines: the connections go on, that one and later ones."""
        watcher, address = self.watch(f"127.0.0.1:{self.echo().port}")
        self.addCleanup(watcher.stderr.close)
        with socket.create_connection(address, SECONDS) as client:
            watcher.stdout.close()
            for _ in range(3):
                client.sendall(b"\0\0\0\2ab" * 1000)
                self.assertEqual(receive(client, 6000), b"\0\0\0\2ab" * 1000)
                time.sleep(0.1)
                with socket.create_connection(address, SECONDS) as other:
                    other.sendall(b"\0\0\0\1a")
                    self.assertEqual(receive(other, 5), b"\0\0\0\1a")
            watcher.send_signal(signal.SIGINT)
            self.assertEqual(watcher.wait(SECONDS), 0)
        self.assertEqual(watcher.stderr.read(), "zkwatch.py: standard output: Broken pipe; lines are lost, and the "
                         "connections go on\n")

    def test_what_is_left_out_keeps_its_place(self):
        """Also where there is room for lines again just after its line had to wait."""
        told, is_full = [], iter([False, True, *[False] * 9])
        watch = unittest.mock.Mock(command=["cat"], profile="3.4", head=zkr.Head(), due={}, delayed=set())
        watch.say_of, watch.lines.is_full = lambda _, line, at: told.append((line, at)), lambda: next(is_full)
        show = shows.Show(watch, 1)
        self.addCleanup(show.lister.process.communicate)
        show.lines.extend([b"C 1 ping", b"S 1 ping"])
        show.given.extend(shows.Given(zkr.frames.Frame(side, 1, b"", at), line, latency) for side, at, line, latency in (
            (zkr.CLIENT, 1, None, None), (zkr.CLIENT, 2, "left out", None), (zkr.SERVER, 3, None, 2)))
        show.read()
        show.read()
        self.assertEqual(told, [("C 1 ping", 1), ("left out", 2), ("S 1 ping ms=2", 3)])

    def test_words(self):
        program = ["--zkdump", str(self.stand_in)]
        for words in ([*program], [*program, "0"], [*program, "0", "2181"], [*program, "x", "a:1"],
                      [*program, "0", "a:1", "more"],
                      ["--zkdump", "/no/such/program", "0", "localhost:1"], [*program, "--nonsense", "0", "a:1"]):
            self.assert_bad_words("zkwatch.py", *words)
        self.assertTrue(pathlib.Path(TOOLS / "zkwatch.py").stat().st_mode & 0o100)


class Proved(WatchCase):
    """With the program."""

    def setUp(self):
        super().setUp()
        if not PROGRAM.exists():
            self.skipTest("the program zkdump is not built")

    def test_the_program_itself(self):
        player = subprocess.Popen([sys.executable, TOOLS / "zkplay.py", "0", RUN], stdout=subprocess.PIPE, text=True)
        self.addCleanup(player.wait)
        self.addCleanup(player.stdout.close)
        watcher, address = self.watch(player.stdout.readline().split()[-1], "--once", program=PROGRAM)
        client_bytes, server_bytes = sides(RUN.read_bytes())
        with socket.create_connection(address, SECONDS) as client:
            client.sendall(client_bytes[:49])
            welcome = receive(client, 41)
            client.sendall(client_bytes[49:])
            self.assertEqual(welcome + receive(client, 20), server_bytes)
        self.assertEqual([line for _, line in self.lines(watcher)[1:]], LISTING.splitlines())

    def watched(self, said, *words):
        """The lines of a connection in which these pieces come."""
        with socket.create_server(("127.0.0.1", 0)) as listener:
            watcher, address = self.watch(f"127.0.0.1:{listener.getsockname()[1]}", "--once", *words, program=PROGRAM)
            with socket.create_connection(address, SECONDS) as client, listener.accept()[0] as server:
                for side, data in said:
                    end, other = (client, server) if side == zkr.CLIENT else (server, client)
                    sender = threading.Thread(target=end.sendall, args=(data,))
                    sender.start()
                    self.assertTrue(receive(other, len(data)) == data)
                    sender.join()
        return [line for _, line in self.lines(watcher)[1:] if line != UNREAD]

    def test_lines_after_a_long_one(self):
        """One of 1.2 million characters leaves no room for others until it is read, and none is lost."""
        zeros = "00" * 600_000
        said = [(zkr.CLIENT, bytes.fromhex(HELLO)), (zkr.SERVER, bytes.fromhex(WELCOME)),
                (zkr.CLIENT, bytes.fromhex(f"000927d6 00000001 00000005 00000002 2f61 000927c0 {zeros} ffffffff"
                                           "0000000f 00000002 00000003 00000002 2f61 00")),
                (zkr.SERVER, bytes.fromhex("00000010 00000001 0000000000000005 ffffff9b"
                                           "00000010 00000002 0000000000000005 ffffff9b"))]
        told = self.watched(said)[2:]
        wanted = [f'C 1 setData path="/a" blob=#{zeros} version=-1', 'C 2 exists path="/a" watch=0',
                  "S 1 setData zxid=5 err=-101/NONODE", "S 2 exists zxid=5 err=-101/NONODE", ". whole unanswered=0"]
        self.assertEqual([line[:40] for line in told], [line[:40] for line in wanted])
        self.assertTrue(told == wanted)

    def test_lines_of_what_is_left_out_wait_for_their_reader(self):
        """As those of messages do: more than the printer holds, whose reader comes late."""
        numbers = range(1, 30_001)
        asked = b"".join(struct.pack(">iii", 8, number, NAMED.number) for number in numbers)
        told = self.watched([(zkr.CLIENT, bytes.fromhex(HELLO)), (zkr.SERVER, bytes.fromhex(WELCOME)),
                             (zkr.CLIENT, asked)])
        self.assertEqual(told[2:], [*(f"left out: C frame={n} xid={n} {NAME}, 8 bytes" for n in numbers),
                                    f". whole unanswered={len(numbers)}"])

    def test_what_the_release_lacks_is_left_out(self):
        """Each recording that 3.4 refuses for that is listed to its end."""
        for path in (TOP / "captures" / f"{name}.zkr" for name in (*NEWER, "refused_kazoo_create2")):
            listing = path.with_suffix(".show").read_text().splitlines()
            if path.stem in NEWER:
                listing[2:] = NEWER[path.stem].splitlines()
            else:
                sizes, listing = self.sizes(path), path.with_suffix(".show35").read_text().splitlines()
                listing = [re.sub(r"^(.) (\d+) create2 .*", lambda found: f"left out: {found[1]} frame={found[2]} "
                                  f"xid={found[2]} create2, {sizes[found[1], int(found[2])]} bytes", line)
                           for line in listing]
            with self.subTest(path.stem):
                said = ((piece.side, piece.data) for piece in pieces(path.read_bytes()))
                self.assertEqual(self.watched(said, "--profile", "3.4"), listing)

    def sizes(self, path):
        """The sizes of the payloads of a recording, by side and number."""
        cutter = zkr.Cutter()
        return {(frame.side.decode(), frame.number): len(frame.payload) for piece in pieces(path.read_bytes())
                for frame in cutter.take(piece)}

    def test_the_last_line_has_the_numbers_of_the_bytes_as_they_came(self):
        for digits, told in ENDINGS:
            said = [(side.encode(), bytes.fromhex(data))
                    for side, data in re.findall(r"([CS]) ([^CS]*)", f"C {HELLO} S {WELCOME} {digits}")]
            with self.subTest(told[-1]):
                self.assertEqual(self.watched(said)[2:], told)


class ProvedFast(ColumnsCase, Proved):
    """The same through zkcolumns."""
