"""Plays the server of a recording to a client: a test bench without a ZooKeeper.

    zkplay.py [OPTIONS] [HOST:]PORT RECORDING
    zkplay.py --client [OPTIONS] HOST:PORT RECORDING

It listens on PORT (0 is any free one; the first line of standard output names it), accepts a connection, and plays the
recording: the client has to send exactly the recorded bytes, and each piece of the server is sent once the client's
pieces before it have come. If the client sends another byte, or ends or is silent where a byte is expected, one line
reports that, and the status is 1. Session and password are the recorded ones. Pings of the client that were not
recorded are answered, and recorded ones may be missing. After the last piece it waits for the client's end. With
--client it plays the client to a server: two of them are the two ends of a bench for proxies.

A listing may be given in place of a recording: `zkdump build` makes a recording of it. --then RECORDING plays another
one to the next connection. --connections N plays them to N connections, and begins again with the first one. --record
PREFIX records what is said, as record.py does, with times and facts.

Options make faults, on each connection, in what this side sends. FRAMEs are counted from 0; PLACE is a byte of the
frame's payload, as in zkdump's ending lines, and a FRAME alone is the place before its length.
"""

import contextlib
import errno
import io
import re
import select
import subprocess
import sys
import threading
import time

from . import addresses, contents, facts, frames, packed, playing, program, running, zkr

LONGEST_WAIT = 1_000_000
MOST_CONNECTIONS = range(1, 10_001)
# The options of `zkdump build` under which it takes every listing.
ALL_LISTINGS = ("--profile", max(zkr.PROFILES), "--limit", str(zkr.LIMITS[-1]), "--waiting", str(zkr.WAITINGS[-1]))


def clients(listeners, count):
    """`count` connections of clients with their addresses, one after the other; then the listeners are closed."""
    for _ in range(count):
        ready, _, _ = select.select(listeners, [], [])
        yield ready[0].accept()
    for listener in listeners:
        listener.close()


def servers(address, count):
    """`count` connections to a server with its addresses, one after the other."""
    for _ in range(count):
        connection = addresses.connected(address)
        try:
            peer = connection.getpeername()
        except OSError:     # it has reset the connection already
            peer = address
        yield connection, peer


def opener(parser, path, words):
    """A function that opens the recording at this path, or the one that is made of a listing there."""
    with open(path, "rb", buffering=0) as file:
        is_listing = file.read(2) in (b"C ", b"S ")
        file.seek(0)
        if not is_listing:
            try:
                zkr.Reader(file)
            except zkr.Damaged as damage:
                raise ValueError(f"{path}: {damage}") from None
            known = facts.facts_of(path)
            if known and known.skipped is not None:
                zkr.complain(f"{path} begins after bytes that were not captured: pcap2zkr.py made up its connect "
                             "messages, and a client sends others")
            return lambda: open(path, "rb")
        program.prove_runs(parser, words.zkdump)
        built = subprocess.run([words.zkdump, "build", *ALL_LISTINGS], stdin=file, capture_output=True, check=False)
    if built.returncode:
        line = (built.stderr or built.stdout).decode(errors="replace").strip().rpartition("\n")[2]
        raise ValueError(f"{path}: {line or f'zkdump build has ended with status {built.returncode}'}")
    return lambda: io.BytesIO(built.stdout)


class Bench:
    """Connections that are played side by side, and the exit status of all. `openers` has of each recording its path,
    and a function that opens it."""

    def __init__(self, openers, words):
        self.openers, self.words, self.status, self.printing = openers, words, 0, threading.Lock()
        self.own = zkr.CLIENT if words.client else zkr.SERVER
        self.series = zkr.Series(words.record, zkr.Head(), True) if words.record else None
        self.faults = playing.Faults(words.delay, words.flip, words.cut_at or words.reset_at, bool(words.reset_at))

    def run(self, connections):
        """Plays to all these connections, each with the peer's address; where no more can be made, to those before."""
        threads = []
        try:
            for number, (connection, peer) in enumerate(connections):
                threads.append(threading.Thread(target=self.play, args=(number, connection, peer), daemon=True))
                threads[-1].start()
        except OSError as error:
            self.fail(error)
        for thread in threads:
            thread.join()
        return self.status

    def play(self, number, connection, peer):
        """Plays to one connection, and prints the result."""
        head = f"#{number + 1} " if self.words.connections > 1 else ""
        path, open_recording = self.openers[number % len(self.openers)]
        try:
            with connection:
                ends = [addresses.address_text(each) for each in (peer, connection.getsockname())]
                client, server = ends if self.own == zkr.SERVER else reversed(ends)
                begun = time.time() * 1000
                known = facts.Facts(tool="zkplay", client=client, server=server, connected=begun, begun=begun)
                writer = self.series.next(known) if self.series else None
                play = playing.Play(open_recording, self.own, connection, self.words.wait, self.faults, writer)
                try:
                    play.run()
                finally:
                    play.close()
                    if writer:
                        self.end(writer, play, known)
            self.print(sys.stdout, f"{head}played: {play.counts()}")
        except (ValueError, OSError) as error:
            self.fail(error, head + (f"{path}: " if isinstance(error, zkr.Damaged) else ""))

    def fail(self, error, head=""):
        """Prints an error, and notes it for the status."""
        self.status = max(self.status, 3 if isinstance(error, OSError) else 1)
        self.print(sys.stderr, running.shown(f"{running.name()}: {head}{running.described(error)}"))

    def end(self, writer, play, known):
        """Ends a recording, and writes its facts."""
        writer.close()
        writer.write_facts(known._replace(ended=time.time() * 1000, session=contents.session_of(writer.path),
                                          hole=play.hole, **play.ended))

    def print(self, stream, line):
        """Prints a line, if the stream is open."""
        with self.printing:
            if stream:
                print(line, file=stream, flush=True)


def seconds(text):
    """A time to wait."""
    try:
        if 0 < float(text) <= LONGEST_WAIT:
            return float(text)
    except ValueError:
        pass
    raise ValueError(f"{text!r} is not a number of seconds above 0, up to {LONGEST_WAIT:,}")


def place(text):
    """A frame and a place in it."""
    found = re.fullmatch(r"(\d{1,18})(?::(\d{1,18}))?", text, re.ASCII)
    if not found:
        raise ValueError(f"{text!r} is not a place: write FRAME or FRAME:PLACE, as 2 or 2:10")
    return int(found[1]), -frames.LENGTH if found[2] is None else int(found[2])


def flip(text):
    """A frame and a place, and the byte that is to be there."""
    found = re.fullmatch(r"(\d{1,18}):(\d{1,18})(?:=([0-9a-fA-F]{2}))?", text, re.ASCII)
    if not found:
        raise ValueError(f"{text!r} is not a byte's place: write FRAME:PLACE or FRAME:PLACE=HH, as 2:10 or 2:10=ff")
    return (int(found[1]), int(found[2])), None if found[3] is None else int(found[3], 16)


def words_of():
    parser = zkr.Words(__doc__)

    def option(word, kind, metavar, **more):
        def read(text):
            try:
                return kind(text)
            except ValueError as error:
                parser.error(f"argument {word}: {error}")
        parser.add_argument(word, type=read, metavar=metavar, **more)
    parser.add_argument("address", metavar="[HOST:]PORT")
    parser.add_argument("recording", metavar="RECORDING")
    parser.add_argument("--then", metavar="RECORDING", action="append", default=[], help="play this one to the next "
                        "connection; may be given several times")
    parser.add_argument("--client", action="store_true", help="play the client, to the server at HOST:PORT")
    parser.add_argument("--record", metavar="PREFIX", help="record what is said as PREFIX-1.zkr and so on, with times")
    option("--wait", seconds, "SECONDS", default=10, help="how long it waits for a byte (10)")
    parser.add_number("--connections", MOST_CONNECTIONS,
                      help="how many connections it plays to (one for each recording)")
    option("--delay", seconds, "SECONDS", default=0, help="wait before each piece that is sent")
    option("--cut-at", place, "FRAME[:PLACE]", help="end the played side there")
    option("--reset-at", place, "FRAME[:PLACE]", help="reset the connection there")
    option("--flip", flip, "FRAME:PLACE[=HH]", action="append", default=[],
           help="send this byte there, or the recorded one with its lowest bit changed; may be given several times")
    program.add_program(parser)
    words = parser.parse_args()
    if words.cut_at and words.reset_at:
        parser.error("--cut-at and --reset-at both end a connection: choose one")
    words.recordings = [words.recording, *words.then]
    words.connections = words.connections or len(words.recordings)
    words.address = addresses.address_word(parser, words.address, None if words.client else "127.0.0.1")
    return parser, words


def main():
    parser, words = words_of()
    if sys.stdout is None:
        raise OSError(errno.EBADF, "standard output is closed")
    zkr.allow_many_files()
    with contextlib.ExitStack() as stack:
        bench = Bench([(path, opener(parser, stack.enter_context(packed.recording(path)), words))
                       for path in words.recordings], words)
        if words.client:
            return bench.run(servers(words.address, words.connections))
        listeners = addresses.listen(words.address)
        print(f"listening on {addresses.address_text(listeners[0].getsockname())}", flush=True)
        return bench.run(clients(listeners, words.connections))
