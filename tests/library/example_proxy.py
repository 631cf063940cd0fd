"""Runs the proxy of examples/: all comes through as it is, and what it prints is compared with listings.

tests/library/examples.py calls it.
"""

import pathlib
import re
import resource
import signal
import socket
import struct
import subprocess
import threading
import time

from . import small_server
from ..unknown_operations import DIGITS, NUMBER
from ..stored_listings import listings_of

CAPTURES = pathlib.Path(__file__).resolve().parents[2] / "captures"
HELLO = small_server.framed(bytes.fromhex("00000000 0000000000000000 00007530 0000000000000000 00000010") + bytes(16))
EXISTS = small_server.framed(bytes.fromhex("00000001 00000003 00000002 2f61 01"))
PATIENCE = 20  # seconds
WAITING = 1024  # of proxy.c
# Frames of each side after the connect messages, and the lines of them: what no profile has of /a, exists of /a.
OTHER, NODE = f"0000000e 00000001 {DIGITS} 00000002 2f61", "0000000f 00000002 00000003 00000002 2f61 00"
ENDINGS = (
    # A reply without paths; then an exists whose last byte, the client's 85th, is no boolean.
    (("C", OTHER), ("S", "00000014 00000001 0000000000000005 00000000 00000000"), ("C", NODE[:-2] + "02"),
     [f"C 1 operation {NUMBER}, left out", f"S 1 operation {NUMBER}, left out",
      ". refused side=C frame=2 offset=85 place=14 reason=BadBool"]),
    # The reply to the exists comes before that to the other.
    (("C", OTHER + NODE), ("S", "00000010 00000002 0000000000000005 ffffff9b"),
     [f"C 1 operation {NUMBER}, left out", 'C 2 exists path="/a" watch=0',
      ". refused side=S frame=1 offset=61 place=0 reason=XidOrder expected=1 got=2"]),
    # The xid of setWatches, with five lists of no paths, and its reply after one that was asked later.
    (("C", f"00000024 fffffff8 {DIGITS} 0000000000000005 {'00000000' * 5}" + NODE),
     ("S", "00000010 00000002 0000000000000005 ffffff9b 00000010 fffffff8 0000000000000005 00000000"),
     [f"C -8 operation {NUMBER}, left out", 'C 2 exists path="/a" watch=0', "S 2 exists zxid=5 err=-101/NONODE",
      f"S -8 operation {NUMBER}, left out", ". whole unanswered=0"]),
    # A request without a body, and the first ten bytes of the reply to it.
    (("C", f"00000008 00000001 {DIGITS}"), ("S", "00000010 00000001 0000"),
     [f"C 1 operation {NUMBER}, left out", ". cut side=S frame=1 got=10"]),
    (("C", OTHER + NODE),
     [f"C 1 operation {NUMBER}, left out", 'C 2 exists path="/a" watch=0', ". whole unanswered=2"]),
)


class Proxy:
    """The proxy between here and a server's port; `lines` are what it has printed when it has ended."""

    def __init__(self, program, port, **options):
        self.process = subprocess.Popen([program, "0", "127.0.0.1", str(port)], stdout=subprocess.PIPE,
                                        stderr=subprocess.PIPE, text=True, **options)
        self.port = int(self.process.stdout.readline().rpartition(":")[2])
        self.lines, self.reader = [], threading.Thread(target=self.read)
        self.reader.start()

    def read(self):
        self.lines += (line.rstrip("\n").split(" ", 2) for line in self.process.stdout)

    def connect(self):
        return undelayed(socket.create_connection(("127.0.0.1", self.port), PATIENCE))

    def end(self):
        """Ends it, and returns what was wrong."""
        self.process.send_signal(signal.SIGTERM)
        self.reader.join(PATIENCE)
        return self.process.wait(PATIENCE), self.process.stderr.read()[-500:]

    def of(self, number):
        """The lines of a connection."""
        return [line for of, _, line in self.lines if int(of) == number]


def undelayed(end):
    """The socket, whose small pieces are sent at once, and which doesn't wait forever."""
    end.setsockopt(socket.IPPROTO_TCP, socket.TCP_NODELAY, 1)
    end.settimeout(PATIENCE)
    return end


def came(end, count):
    """That many bytes of a socket, or fewer at its end."""
    found = b""
    while len(found) < count:
        piece = end.recv(count - len(found))
        if not piece:
            break
        found += piece
    return found


def pieces(recording):
    """The pieces of a recording: side and bytes."""
    at = 4
    while at < len(recording):
        length = int.from_bytes(recording[at + 1:at + 5], "big")
        yield recording[at:at + 1], recording[at + 5:at + 5 + length]
        at += 5 + length


def passes(end, other, piece):
    """Whether a piece that is sent at one end comes at the other."""
    if len(piece) <= 4096:
        end.sendall(piece)
        return came(other, len(piece)) == piece
    sender = threading.Thread(target=end.sendall, args=(piece,))
    sender.start()
    good = came(other, len(piece)) == piece
    sender.join()
    return good


def pass_recordings(program):
    """Whether each recording comes through as it is, and its listing is printed."""
    paths = sorted(CAPTURES.glob("*.zkr"))
    with socket.create_server(("127.0.0.1", 0)) as listener:
        proxy, whole = Proxy(program, listener.getsockname()[1]), {}
        for path in paths:
            with proxy.connect() as client, undelayed(listener.accept()[0]) as server:
                ends, good = {b"C": (client, server), b"S": (server, client)}, True
                for side, piece in pieces(path.read_bytes()):
                    good &= passes(*ends[side], piece)
                whole[path] = good
        status = proxy.end()
    for number, path in enumerate(paths, 1):
        listing = listings_of(path)[-1][1]
        good = whole[path] and proxy.of(number) == listing.read_text().splitlines()
        yield path.stem, good, f"proxy {path.stem}: {whole[path]}, {proxy.of(number)[-1:]}"
    waited = [(waited, line) for _, waited, line in proxy.lines]
    good = all(waited.isdigit() == bool(re.match(r"S (connect|-?\d+) ", line)) for waited, line in waited)
    yield "latency", good, "proxy: a reply without its time, or a time of another message"
    yield "proxy", status == (0, ""), f"proxy: status {status}"


def many_connections(program):
    """Whether connections that are open at once are served, and a server that is not there harms none of them."""
    with small_server.Server() as server:
        threading.Thread(target=server.serve_forever, daemon=True).start()
        proxy = Proxy(program, server.port)
        clients = [proxy.connect() for _ in range(200)]
        for client in clients:
            client.sendall(HELLO + EXISTS * 3)
        found = [len(came(client, 41 + 3 * 88)) for client in clients]
        yield "200 connections", set(found) == {41 + 3 * 88}, f"proxy: {set(found)} bytes came"
        for client in clients:
            client.close()
        status = proxy.end()
        server.shutdown()
    yield "200 connections, ended", status == (0, ""), f"proxy: status {status}"
    proxy = Proxy(program, server.port)
    with proxy.connect() as client:
        yield "no server", came(client, 1) == b"", "proxy: something came of no server"
    yield "no server, ended", proxy.end() == (0, ""), "proxy: it has failed for lack of a server"


def half_closed(program):
    """Whether a client that has sent all still gets its reply, and how long that took is printed."""
    with socket.create_server(("127.0.0.1", 0)) as listener:
        proxy = Proxy(program, listener.getsockname()[1])
        with proxy.connect() as client, undelayed(listener.accept()[0]) as server:
            client.sendall(HELLO + EXISTS)
            client.shutdown(socket.SHUT_WR)
            asked = came(server, 1000)
            time.sleep(0.1)
            reply = small_server.framed(small_server.CONNECTED) + small_server.framed(small_server.reply(EXISTS[4:], 5))
            server.sendall(reply)
            server.close()
            answered = came(client, 1000)
        status = proxy.end()
    good = (asked, answered, status) == (HELLO + EXISTS, reply, (0, ""))
    yield "half-close", good, f"proxy: {asked}, {answered}, {status}"
    waited = [int(waited) for _, waited, _ in proxy.lines if waited != "-"]
    yield "100 ms", len(waited) == 2 and all(100_000 <= each < 10_000_000 for each in waited), f"proxy: {proxy.lines}"


def backpressure(program):
    """Whether a client is held up while the server reads nothing, and all comes once it reads."""
    with socket.create_server(("127.0.0.1", 0)) as listener:
        listener.setsockopt(socket.SOL_SOCKET, socket.SO_RCVBUF, 65536)
        proxy = Proxy(program, listener.getsockname()[1])
        with proxy.connect() as client, undelayed(listener.accept()[0]) as server:
            client.setblocking(False)
            # The frame of no bytes is refused, so nothing waits for replies.
            said, sent, idle = HELLO + small_server.framed(b"") + EXISTS * 3_000_000, 0, 0
            while idle < 5 and sent < len(said):
                try:
                    sent += client.send(said[sent:sent + 65536])
                    idle = 0
                except BlockingIOError:
                    idle += 1
                    time.sleep(0.1)
            held = sent < len(said)
            client.setblocking(True)
            client.shutdown(socket.SHUT_WR)
            got = came(server, len(said))
        status = proxy.end()
    good = held and got == said[:sent] and status == (0, "")
    yield "backpressure", good, f"proxy: {sent} of {len(said)} bytes were taken, {len(got)} came, {status}"


def is_silent(end):
    """Whether nothing comes for a moment."""
    end.settimeout(0.3)
    try:
        return end.recv(1) is None
    except socket.timeout:  # which is a TimeoutError since Python 3.10
        return True
    finally:
        end.settimeout(PATIENCE)


def full(frame, offset):
    """The last line of a client whose frame with this number, and its last byte there, has no place."""
    return f". refused side=C frame={frame} offset={offset} place=0 reason=QueueFull"


def heavy(program):
    """Whether a multi of too many parts is reported, though nothing else waits, and all goes on unseen."""
    part, ends = bytes.fromhex("0000000d 00 ffffffff 00000002 2f61 00000000"), bytes.fromhex("ffffffff 01 ffffffff")
    multi = small_server.framed(struct.pack(">ii", 1, 14) + part * WAITING + ends)
    with socket.create_server(("127.0.0.1", 0)) as listener:
        proxy = Proxy(program, listener.getsockname()[1])
        with proxy.connect() as client, undelayed(listener.accept()[0]) as server:
            good = passes(client, server, HELLO) and passes(server, client, small_server.framed(small_server.CONNECTED))
            good = good and all(passes(client, server, piece) for piece in (multi[:1000], multi[1000:] + EXISTS, EXISTS))
        status = proxy.end()
    good &= status == (0, "") and proxy.of(1)[2:] == [full(1, len(HELLO + multi))]
    yield "a heavy multi", good, f"proxy: {status}, {proxy.of(1)[2:]}"


def spent():
    """The processors' seconds of all programs that have ended."""
    used = resource.getrusage(resource.RUSAGE_CHILDREN)
    return used.ru_utime + used.ru_stime


def few_descriptors(program):
    """Whether the proxy rests while it can't take a client, and then takes it."""
    def limit():
        resource.setrlimit(resource.RLIMIT_NOFILE, (12, 12))
    with small_server.Server() as server:
        threading.Thread(target=server.serve_forever, daemon=True).start()
        begun, proxy = spent(), Proxy(program, server.port, preexec_fn=limit)
        clients = [proxy.connect() for _ in range(8)]
        time.sleep(2)
        for client in clients:
            client.close()
        with proxy.connect() as client:
            client.sendall(HELLO)
            got = len(came(client, 41))
        status = proxy.end()
        server.shutdown()
    good = status == (0, "") and got == 41 and spent() - begun < 0.3
    yield "few descriptors", good, f"proxy: {status}, {got} bytes, {spent() - begun:.2f} s"


def held_up(program):
    """Whether a client of which as many requests wait as may is held up, until the server replies or has sent all."""
    first, rest = HELLO + EXISTS * WAITING, EXISTS * 500
    reply = small_server.framed(small_server.reply(EXISTS[4:], 5))
    answers = small_server.framed(small_server.CONNECTED) + reply * WAITING, reply * 500
    for name, answers, told in (("replies", answers, ". whole unanswered=0"),
                                ("no replies", (b"", b""), full(WAITING + 1, len(first + EXISTS)))):
        with socket.create_server(("127.0.0.1", 0)) as listener:
            proxy = Proxy(program, listener.getsockname()[1])
            with proxy.connect() as client, undelayed(listener.accept()[0]) as server:
                client.sendall(first + rest)
                good = came(server, len(first)) == first and is_silent(server)
                if answers[0]:
                    server.sendall(answers[0])
                else:
                    server.shutdown(socket.SHUT_WR)
                good &= came(server, len(rest)) == rest
                if answers[1]:
                    server.sendall(answers[1])
                good &= came(client, len(b"".join(answers))) == b"".join(answers)
            status = proxy.end()
        good &= status == (0, "") and proxy.of(1)[-1] == told
        yield name, good, f"proxy, {name}: {status}, {proxy.of(1)[-1:]}"


def one_waits(program):
    """Whether a proxy of which one request may wait passes on each when the one before has its reply, and reads all."""
    with socket.create_server(("127.0.0.1", 0)) as listener:
        proxy = Proxy(program, listener.getsockname()[1])
        with proxy.connect() as client, undelayed(listener.accept()[0]) as server:
            client.sendall(HELLO + EXISTS * 3)
            good = came(server, len(HELLO + EXISTS)) == HELLO + EXISTS and is_silent(server)
            answer, reply = small_server.framed(small_server.CONNECTED), small_server.framed(small_server.reply(EXISTS[4:], 5))
            for wanted in (EXISTS, EXISTS, b""):
                server.sendall(answer + reply)
                good &= came(client, len(answer + reply)) == answer + reply and came(server, len(wanted)) == wanted
                answer = b""
        status = proxy.end()
    good &= status == (0, "") and proxy.of(1)[-1] == ". whole unanswered=0" and len(proxy.of(1)) == 9
    yield "one waits", good, f"proxy of which one may wait: {status}, {proxy.of(1)}"


class Unread(Proxy):
    """A proxy of which nobody reads more than the first line."""

    def read(self):
        self.process.stdout.close()


def unread(program):
    """Whether it reports once that its lines can't be written, and passes on all."""
    with socket.create_server(("127.0.0.1", 0)) as listener:
        proxy = Unread(program, listener.getsockname()[1])
        proxy.reader.join()
        with proxy.connect() as client, undelayed(listener.accept()[0]) as server:
            good = passes(client, server, HELLO) and passes(server, client, small_server.framed(small_server.CONNECTED))
            good = good and passes(client, server, EXISTS)
        status = proxy.end()
    good &= status == (2, "proxy: standard output can't be written\n")
    yield "unread", good, f"proxy, whose lines nobody reads: {status}"


def endings(program):
    """Whether what the profile lacks is left out, and the last line has the numbers of all that came."""
    for *said, told in ENDINGS:
        with socket.create_server(("127.0.0.1", 0)) as listener:
            proxy = Proxy(program, listener.getsockname()[1])
            with proxy.connect() as client, undelayed(listener.accept()[0]) as server:
                good = passes(client, server, HELLO) and passes(server, client, small_server.framed(small_server.CONNECTED))
                for side, digits in said:
                    ends = (client, server) if side == "C" else (server, client)
                    good &= passes(*ends, bytes.fromhex(digits))
            status = proxy.end()
        good &= status == (0, "") and proxy.of(1)[2:] == told
        yield told[-1], good, f"proxy: {status}, {proxy.of(1)[2:]}"


def check(program):
    """What the proxy does."""
    yield from pass_recordings(program)
    yield from many_connections(program)
    yield from half_closed(program)
    yield from backpressure(program)
    yield from held_up(program)
    yield from heavy(program)
    yield from few_descriptors(program)
    yield from unread(program)
    yield from endings(program)
