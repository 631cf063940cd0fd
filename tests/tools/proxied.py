"""What the tests of record.py and zkwatch.py in trouble share: a server, and a proxy in front of it."""

import os
import re
import resource
import selectors
import socket
import struct
import subprocess
import sys
import threading
import time

from .support import TOOLS, ToolCase, receive

SECONDS = 20
STAND_IN = f"""#!{sys.executable} -SE
# Prints each frame as its side, its number and its number of bytes; a frame of no bytes is refused.
import sys
from zkdump_tools import zkr
cutter = zkr.Cutter()
for piece in zkr.Reader(sys.stdin.buffer):
    for frame in cutter.take(piece):
        if not frame.payload:
            print(". refused", flush=True)
            sys.exit(1)
        print(frame.side.decode(), frame.number, len(frame.payload), flush=True)
print(". whole", *sys.argv[1:])
"""
# Runs a tool where there is no IPv6, though a name of the server has such an address first.
NO_IPV6 = """
import errno, importlib, pathlib, socket, sys
class Socket(socket.socket):
    def __init__(self, family=-1, *more, **named):
        if family == socket.AF_INET6:
            raise OSError(errno.EAFNOSUPPORT, "Address family not supported by protocol")
        super().__init__(family, *more, **named)
made = socket.getaddrinfo
def found(host, port, *more):
    six = [(socket.AF_INET6, socket.SOCK_STREAM, 6, "", ("::1", port, 0, 0))]
    return six * (host == "localhost") + made("127.0.0.1", port, *more)
socket.getaddrinfo, socket.socket, sys.argv = found, Socket, sys.argv[1:]
tool = importlib.import_module(f"tools.zkdump_tools.{pathlib.Path(sys.argv[0]).stem}")
sys.exit(importlib.import_module("tools.zkdump_tools.running").tool(tool.main))
"""


def stand_in(folder):
    """A program in the place of zkdump, in this folder, where it finds the tools' package beside it."""
    path = folder / "show"
    path.write_text(STAND_IN)
    path.chmod(0o700)
    (folder / "zkdump_tools").symlink_to(TOOLS / "zkdump_tools")
    return path


class Echo(threading.Thread):
    """A server that echoes to any number of clients, and drops one that doesn't take its answers."""

    def __init__(self):
        super().__init__(daemon=True)
        self.listener = socket.create_server(("127.0.0.1", 0), backlog=1024)
        self.port = self.listener.getsockname()[1]
        self.start()

    def run(self):
        ready = selectors.DefaultSelector()
        ready.register(self.listener, selectors.EVENT_READ)
        while True:
            for key, _ in ready.select():
                end = key.fileobj
                if end is self.listener:
                    client, _ = end.accept()
                    client.setsockopt(socket.IPPROTO_TCP, socket.TCP_NODELAY, 1)
                    client.settimeout(SECONDS)
                    ready.register(client, selectors.EVENT_READ)
                    continue
                try:
                    data = end.recv(65536)
                    end.sendall(data)
                except OSError:
                    data = b""
                if not data:
                    ready.unregister(end)
                    end.close()


class TroubleCase(ToolCase):
    """A proxy in front of an echo, whose lines on standard output and standard error are gathered as they come."""

    def setUp(self):
        super().setUp()
        most = resource.getrlimit(resource.RLIMIT_NOFILE)[1]
        resource.setrlimit(resource.RLIMIT_NOFILE, (most, most))
        self.echo = Echo()
        self.out, self.err = [], []
        self.prefix = self.folder / "r"
        self.stand_in = stand_in(self.folder)

    def begin(self, tool, *words, limits=(), out=None, program=None, python=()):
        """Runs a tool under these limits; returns the port that it listens on, once it does."""
        words = [*words, *(["--zkdump", program or self.stand_in] if tool == "zkwatch.py" else [])]
        server = next((word for word in words if str(word).startswith("localhost:")), f"127.0.0.1:{self.echo.port}")
        words = [word for word in words if word != server]
        words = ["0", server, *([self.prefix] if tool == "record.py" else []), *words]
        with open(out or os.devnull, "wb") as stdout:
            self.run_proxy(["prlimit", *limits, sys.executable, *python, TOOLS / tool, *words], stdout if out else
                           subprocess.PIPE)
        return self.port()

    def run_proxy(self, command, stdout):
        """Runs this command, and gathers what it prints."""
        self.tool = subprocess.Popen(command, stdout=stdout, stderr=subprocess.PIPE, text=True)
        self.out, self.err = [], []
        self.addCleanup(self.tool.wait)
        self.addCleanup(self.tool.kill)
        for stream, lines in ((self.tool.stdout, self.out), (self.tool.stderr, self.err)):
            if stream:
                threading.Thread(target=self.gather, args=(stream, lines), daemon=True).start()

    def gather(self, stream, lines):
        with stream:
            for line in stream:
                lines.append(line.rstrip("\n"))

    def port(self):
        """The port that the tool listens on."""
        until = time.monotonic() + SECONDS
        while time.monotonic() < until and self.tool.poll() is None:
            with open(f"/proc/{self.tool.pid}/net/tcp", encoding="ascii") as lines:
                listening = {line.split()[9]: line.split()[1] for line in lines if line.split()[3] == "0A"}
            for number in self.descriptors():
                inode = re.match(r"socket:\[(\d+)\]", number)
                if inode and inode[1] in listening:
                    return int(listening[inode[1]].rpartition(":")[2], 16)
            time.sleep(0.02)
        self.fail(f"it doesn't listen: {self.err}")

    def descriptors(self):
        """What the tool's descriptors refer to."""
        folder = f"/proc/{self.tool.pid}/fd"
        found = []
        for name in os.listdir(folder):
            try:
                found.append(os.readlink(f"{folder}/{name}"))
            except OSError:
                pass
        return found

    def client(self, port):
        client = socket.create_connection(("127.0.0.1", port), SECONDS)
        client.setsockopt(socket.IPPROTO_TCP, socket.TCP_NODELAY, 1)
        self.addCleanup(client.close)
        return client

    def ask(self, client, data=b"\0\0\0\2ab"):
        """The seconds that the echo of this takes."""
        begun = time.monotonic()
        client.sendall(data)
        self.assertEqual(receive(client, len(data)), data)
        return time.monotonic() - begun

    def assert_pace(self, client, rounds=20):
        """That this client has its answers soon: within 0.1 s, or, on a busy machine, little later than a client that
        asks the server itself."""
        direct = self.client(self.echo.port)
        took = sorted((self.ask(client), self.ask(direct)) for _ in range(rounds))
        usual = sorted(seconds for _, seconds in took)[rounds // 2]
        self.assertLess(took[rounds // 2][0], 0.1 + 5 * usual, took)

    def lines(self, count, stream=None):
        """The lines on a stream, by default standard output, once they are `count`."""
        stream = self.out if stream is None else stream
        until = time.monotonic() + SECONDS
        while len(stream) < count and time.monotonic() < until:
            time.sleep(0.01)
        return list(stream)

    def complaints(self, count=0):
        """The lines on standard error, but for those that say where record.py listens, once they are `count`."""
        until = time.monotonic() + SECONDS
        while True:
            found = [line for line in self.err if "listens on" not in line]
            if len(found) >= count or time.monotonic() > until:
                return found
            time.sleep(0.01)

    def reset(self, client):
        client.setsockopt(socket.SOL_SOCKET, socket.SO_LINGER, struct.pack("ii", 1, 0))
        client.close()
