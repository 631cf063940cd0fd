#!/usr/bin/env python3
"""Measures what tools/record.py costs: the time of an answer with and without it, and the bytes per second.

    measure_record.py [--rounds N] [--megabytes N]

A server of its own on loopback answers each 100 bytes with 100 bytes. One client, and then 64 at once, ask it N times
each, directly and through the recorder; then three requests at a time; then N megabytes go each way. The recordings are
in a temporary folder. It prints the rows of a table.
"""

import argparse
import contextlib
import pathlib
import re
import selectors
import socket
import subprocess
import sys
import tempfile
import time
from multiprocessing import Process

RECORD = pathlib.Path(__file__).resolve().parent.parent / "tools" / "record.py"
ASK = b"\0\0\0\x60" + bytes(96)        # a frame
LISTENS = re.compile(r": listens on \S+:(\d+); ")


def serve(listener):
    """Answers with the bytes that it receives, whatever becomes of a client."""
    ready = selectors.DefaultSelector()
    ready.register(listener, selectors.EVENT_READ)
    while True:
        for key, _ in ready.select():
            if key.fileobj is listener:
                client, _ = listener.accept()
                client.setsockopt(socket.IPPROTO_TCP, socket.TCP_NODELAY, 1)
                ready.register(client, selectors.EVENT_READ)
                continue
            try:
                data = key.fileobj.recv(1 << 18)
                key.fileobj.sendall(data)
            except OSError:
                data = b""
            if not data:
                ready.unregister(key.fileobj)
                key.fileobj.close()


def begin(record, server, folder):
    """A recorder in front of the server at this port, which records in the folder; and the port that it listens on."""
    recorder = subprocess.Popen([sys.executable, record, "0", f"127.0.0.1:{server}", f"{folder}/r"],
                                stdout=subprocess.DEVNULL, stderr=subprocess.PIPE, text=True)
    found = LISTENS.search(told := recorder.stderr.readline())
    if not found:
        recorder.kill()
        raise SystemExit(f"{record} doesn't listen: {told.strip()}")
    return recorder, int(found[1])


def end(recorder):
    """Ends a recorder, which has to have written all."""
    recorder.terminate()
    if status := recorder.wait():
        raise SystemExit(f"{recorder.args[1]} ended with status {status}")


def came(client, size):
    """How many bytes come, at most `size`; a ConnectionError where none will."""
    if count := len(client.recv(size)):
        return count
    raise ConnectionError


def connect(port):
    try:
        client = socket.create_connection(("127.0.0.1", port))
    except OSError as error:
        raise SystemExit(f"no connection to port {port}: {error.strerror}") from None
    client.setsockopt(socket.IPPROTO_TCP, socket.TCP_NODELAY, 1)
    return client


def answers(port, clients, rounds, at_once=1):
    """The milliseconds of each answer to `clients` clients, each of which sends `at_once` requests at a time."""
    ready, took, left = selectors.DefaultSelector(), [], clients
    for _ in range(clients):
        ready.register(connect(port), selectors.EVENT_READ, [0, 0, 0])
    begun = time.perf_counter()

    def ask(client, state):
        state[:2] = time.perf_counter(), 0
        for _ in range(at_once):
            client.sendall(ASK)
    for key in list(ready.get_map().values()):
        ask(key.fileobj, key.data)
    while left:
        for key, _ in ready.select():
            state = key.data
            state[1] += came(key.fileobj, 1 << 16)
            if state[1] == len(ASK) * at_once:
                took.append((time.perf_counter() - state[0]) * 1000)
                state[2] += 1
                if state[2] < rounds:
                    ask(key.fileobj, state)
                else:
                    ready.unregister(key.fileobj)
                    key.fileobj.close()
                    left -= 1
    return took, clients * rounds / (time.perf_counter() - begun)


def flood(port, size):
    """Megabytes per second of `size` bytes, to the server and back."""
    block, begun = bytes(1 << 18), time.perf_counter()
    client = connect(port)

    def send():
        with contextlib.suppress(ConnectionError):      # which the reader finds, too
            for _ in range(size // len(block)):
                client.sendall(block)
    sender = Process(target=send, daemon=True)
    sender.start()
    got = 0
    while got < size // len(block) * len(block):
        got += came(client, 1 << 18)
    sender.join()
    client.close()
    return got / 1e6 / (time.perf_counter() - begun)


def row(name, port, words):
    for clients, at_once in ((1, 1), (64, 1), (1, 3)):
        rounds = max(1, words.rounds // clients)
        took, rate = answers(port, clients, rounds, at_once)
        took.sort()
        p50, p99 = took[len(took) // 2], took[len(took) * 99 // 100]
        print(f"| {name} | {clients} | {at_once} | {p50:.3f} | {p99:.3f} | {rate:,.0f} |", flush=True)


def main():
    parser = argparse.ArgumentParser(description=__doc__, formatter_class=argparse.RawDescriptionHelpFormatter)
    parser.add_argument("--rounds", type=int, default=20_000)
    parser.add_argument("--megabytes", type=int, default=1000)
    words = parser.parse_args()
    listener = socket.create_server(("127.0.0.1", 0), backlog=256)
    server = Process(target=serve, args=(listener,), daemon=True)
    server.start()
    direct = listener.getsockname()[1]
    with tempfile.TemporaryDirectory() as folder:
        recorder, through = begin(RECORD, direct, folder)
        try:
            print("| | Clients | Requests at once | p50 ms | p99 ms | Rounds a second |\n|---|---|---|---|---|---|")
            row("direct", direct, words)
            row("through record.py", through, words)
            size = words.megabytes * 1_000_000
            for name, port in (("direct", direct), ("through record.py", through)):
                print(f"{name}: {flood(port, size):,.0f} MB/s each way", flush=True)
        except (ConnectionError, TimeoutError):
            raise SystemExit("a connection has ended before its answers") from None     # it is no measure
        finally:
            end(recorder)
        sizes = [path.stat().st_size for path in pathlib.Path(folder).glob("*.zkr")]
        print(f"{len(sizes)} recordings, the largest of {max(sizes):,} bytes")
    server.terminate()
    return 0


if __name__ == "__main__":
    sys.exit(main())
