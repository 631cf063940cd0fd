"""Runs the fake server of examples/: its frames are those of docs/FORMATS.md, and the client of examples/ reads them.

tests/library/examples.py calls it.
"""

import signal
import socket
import struct
import subprocess

PATIENCE = 20  # seconds
# A connect request, an exists, a ping and a closeSession, and what the server answers to them.
HELLO = "0000002c 00000000 0000000000000000 00007530 0000000000000000 00000010" + "00" * 16
EXISTS, ENDS = "0000000f 00000001 00000003 00000002 2f61 01", "00000008 fffffffe 0000000b 00000008 00000002 fffffff5"
ANSWERS = ("00000024 00000000 00007530 0000000000000001 00000010" + "00" * 16 +
           "00000010 00000001 0000000000000001 ffffff9b 00000010 fffffffe 0000000000000001 00000000"
           "00000010 00000002 0000000000000001 00000000")
SAID = """connected: time_out=30000
create: NONODE
getData: NONODE
multi: NONODE
getData: NONODE
closeSession: OK
"""


def served(program, speak, *port):
    """What comes of speaking to the server's port, the server's status, and its line on standard error."""
    with subprocess.Popen([program, *port], stdout=subprocess.PIPE, stderr=subprocess.PIPE, text=True) as process:
        listens = process.stdout.readline()
        return listens and speak(int(listens)), process.wait(PATIENCE), process.stderr.read()


def answered(port, digits):
    """What the server answers to these bytes, up to as many as it answers to all."""
    with socket.create_connection(("127.0.0.1", port), PATIENCE) as end, end.makefile("rb") as answers:
        end.sendall(bytes.fromhex(digits))
        return answers.read(len(bytes.fromhex(ANSWERS))).hex()


def gone(program, reset):
    """The server's status, and its line on standard error, where the client is gone before its answers, or resets the
    connection between two messages."""
    with subprocess.Popen([program], stdout=subprocess.PIPE, stderr=subprocess.PIPE, text=True) as process:
        port = int(process.stdout.readline())
        with socket.create_connection(("127.0.0.1", port), PATIENCE) as end, end.makefile("rb") as answers:
            end.sendall(bytes.fromhex(HELLO))
            answers.read(40)
            process.send_signal(signal.SIGSTOP)
            if reset:
                end.setsockopt(socket.SOL_SOCKET, socket.SO_LINGER, struct.pack("ii", 1, 0))
            else:
                end.sendall(bytes.fromhex(EXISTS) * 50)
        process.send_signal(signal.SIGCONT)
        return process.wait(PATIENCE), process.stderr.read()


def again(program):
    """What comes of a client that the server refuses, and of one at the same port at once after that."""
    with socket.create_server(("127.0.0.1", 0)) as free:
        port = str(free.getsockname()[1])
    return [served(program, lambda port: answered(port, EXISTS), port) for _ in range(2)]


def check(program, client):
    """Whether it answers what it should, and refuses what a client may not send."""
    for name, reset, told in (("a client that is gone", False, "the client has ended the connection before its answer"),
                              ("a reset", True, "Connection reset by peer")):
        found = gone(program, reset)
        yield name, found == (1, f"server: {told}\n"), f"server, {name}: {found}"
    refused = ("", 1, "server: . refused side=C frame=0 offset=19 place=12 reason=Short\n")
    found = again(program)
    yield "a port again", found == [refused] * 2, f"server, one port twice: {found}"
    for name, speak, wanted in (
        ("answers", lambda port: answered(port, HELLO + EXISTS + ENDS), (bytes.fromhex(ANSWERS).hex(), 0, "")),
        ("another first message", lambda port: answered(port, EXISTS), refused),
        ("the client", lambda port: subprocess.run([client, "127.0.0.1", str(port), "/a", "x"], stdout=subprocess.PIPE,
                                                   text=True).stdout, (SAID, 0, "")),
    ):
        found = served(program, speak)
        yield name, found == wanted, f"server, {name}: {found}"
