"""A proxy that passes connections on, each with an observer: what record.py and zkwatch.py have in common.

One loop (loop.py) serves all connections. An end of one direction is passed on, and so is a reset.

Descriptors are set aside before a client is taken, since a client that can't be passed on is worse than one that waits.
Where many clients come or end at once, some are taken or ended at a time, and the connections served between.
"""

import collections
import errno
import gc
import itertools
import os
import socket
import struct
import time

from . import zkr
from .addresses import address_text
from .loop import BLOCK, READ, WRITE, Loop

AT_ONCE = 16                # the most clients that are accepted, begin, and end, before the connections come again
MOMENT = 0.01               # the seconds after which no more of them begin and end, where files or processes take long
REST = 0.1                  # the seconds without new clients, once the system has no room for one


def set_options(end):
    """Sets what a socket has to have: small messages go at once, and an end that is gone is noticed."""
    end.setsockopt(socket.IPPROTO_TCP, socket.TCP_NODELAY, 1)
    end.setsockopt(socket.SOL_SOCKET, socket.SO_KEEPALIVE, 1)


def some(waiting, until):
    """Takes some of these from the left: one, others until that moment, and AT_ONCE in all."""
    for number in range(min(AT_ONCE, len(waiting))):
        if number and time.monotonic() > until:
            return
        yield waiting.popleft()


class Way:
    """One direction of a connection: from `source`, the end of this side, to `target`. `unsent` is what the source has
    sent and was not passed on yet; `back` is the other direction."""

    __slots__ = ("connection", "side", "source", "target", "piece", "unsent", "ended", "back")

    def __init__(self, connection, side, source, target):
        self.connection, self.side, self.source, self.target = connection, side, source, target
        self.piece, self.unsent, self.ended, self.back = connection.observer.piece, b"", False, None

    def step(self, _source, events):
        """Serves the source, which is ready."""
        if events & WRITE:
            self.back.send()
        if events & READ:
            self.receive()
        if events & WRITE or self.unsent or self.ended:
            self.connection.watch()

    def receive(self):
        """Reads what the source has sent, gives it to the observer, and passes it on."""
        try:
            data = self.source.recv(BLOCK)
        except BlockingIOError:
            return
        except OSError as error:
            self.connection.broke(self.side, error)
            for each in (self, self.back):
                each.unsent, each.ended = b"", True
            return
        if data:
            self.piece(self.side, data)
            self.unsent = data
            self.send()
        elif self.side in self.connection.gone:
            self.ended = True
        else:
            self.connection.ends.append((self.side, "FIN"))
            self.ended = True
            try:
                self.target.shutdown(socket.SHUT_WR)
            except OSError:
                pass

    def send(self):
        """Passes on what the target takes."""
        try:
            self.unsent = self.unsent[self.target.send(self.unsent):]
        except BlockingIOError:
            pass
        except OSError as error:
            # Nothing more can be sent to this end; what it sent before is still passed on.
            self.connection.broke(zkr.OTHER[self.side], error)
            self.unsent, self.ended = b"", True


class Connection:
    """A client's connection and the one to the server that it is passed on to. `ends` lists how its sides have ended,
    in order: FIN, RST, or the system's name of an error; `gone` has those that broke without a FIN before; `ended` is
    when both had, in seconds since 1970. `room` holds descriptors for its observer."""

    def __init__(self, proxy, number, client, peer, room):
        self.proxy, self.number, self.client, self.peer, self.room = proxy, number, client, address_text(peer), room
        self.addresses, self.server, self.ways, self.observer = iter(proxy.server), None, (), None
        self.ends, self.gone, self.ended = [], set(), None
        client.setblocking(False)

    def connect(self, reason):
        """Begins to connect to the next address of the server; if there is none, reports why the last one failed."""
        for family, kind, protocol, _, address in self.addresses:
            try:
                self.server = socket.socket(family, kind, protocol)
            except OSError as error:
                reason = error.strerror
                continue
            self.server.setblocking(False)
            failure = self.server.connect_ex(address)
            if failure == errno.EINPROGRESS:
                failure = self.server.connect_ex(address)       # one on the same machine has answered by now
            if failure in (0, errno.EISCONN):
                self.proxy.connected.append(self)
                return
            if failure in (errno.EINPROGRESS, errno.EALREADY):
                self.proxy.wait_for(self.server, WRITE, self)
                return
            reason = os.strerror(failure)
            self.server.close()
        self.room.close()
        self.client.close()
        self.proxy.unreached(self, reason)
        self.proxy.left(self)

    def step(self, server, _events):
        """Is about to pass on, since the server has answered, or tries the next address."""
        self.proxy.wait_for(server, 0)
        failure = server.getsockopt(socket.SOL_SOCKET, socket.SO_ERROR)
        if failure:
            server.close()
            self.connect(os.strerror(failure))
        else:
            self.proxy.connected.append(self)

    def begin(self):
        """Begins to pass on."""
        set_options(self.server)
        self.room.close()
        self.observer = self.proxy.observer_of(self)
        there, back = self.ways = (Way(self, zkr.CLIENT, self.client, self.server),
                                   Way(self, zkr.SERVER, self.server, self.client))
        there.back, back.back = back, there
        self.watch()

    def watch(self):
        """Waits for the events that something is left to do for; if there are none, the connection is over."""
        if all(way.ended for way in self.ways):
            self.close()
            return
        for way in self.ways:
            self.proxy.wait_for(way.source, (0 if way.ended or way.unsent else READ) |
                                (WRITE if way.back.unsent else 0), way)

    def broke(self, side, error):
        """Notes that a side's connection broke, and did not end. EPIPE says that it had sent a FIN before."""
        if error.errno != errno.EPIPE:
            self.gone.add(side)
        is_reset = error.errno in (errno.ECONNRESET, errno.EPIPE)
        how = side, "RST" if is_reset else errno.errorcode.get(error.errno, "lost")
        if how not in self.ends:
            self.ends.append(how)

    def close(self):
        """Ends both connections: with a reset where the other end broke."""
        broken = [side for side, how in self.ends if how != "FIN"]
        for side, end in ((zkr.CLIENT, self.client), (zkr.SERVER, self.server)):
            self.proxy.wait_for(end, 0)
            if zkr.OTHER[side] in broken:
                end.setsockopt(socket.SOL_SOCKET, socket.SO_LINGER, struct.pack("ii", 1, 0))
            end.close()
        self.room.close()
        self.ended = time.time()
        self.proxy.ended.append(self)

    def over(self):
        """What is left to do once both connections have ended."""
        if self.observer:
            self.observer.over()
        self.proxy.left(self)

    def ended_words(self):
        """How it ended, as it is printed: which side closed it first, and which broke it; `open` where neither did."""
        words = [f"closed={side.decode()}" for side, how in self.ends if how == "FIN"][:1]
        words += [f"reset={side.decode()}" for side, how in self.ends if how == "RST"][:1]
        words += [f"broken={side.decode()}:{how}" for side, how in self.ends if how not in ("FIN", "RST")][:1]
        return words or ["open"]


class Room:
    """Descriptors that are held for a connection, until it needs them. An OSError: there are too few."""

    def __init__(self, count, file):
        self.held = []
        try:
            while len(self.held) < count:
                self.held.append(os.dup(file.fileno()))
        except OSError:
            self.close()
            raise

    def give(self, count):
        for _ in range(count):
            os.close(self.held.pop())

    def close(self):
        self.give(len(self.held))


class Proxy(Loop):
    """Accepts clients' connections and passes them on, until a signal comes. In a derived class `observer_of` returns
    a connection's observer: its `piece(side, data)` is called before the bytes are passed on, and its `over()` once the
    connection has ended.

    `connected` has those whose server has answered, and which begin together: many steps of one kind take less time
    than as many by turns. `ended` has those that are not over yet. Each turn takes some of both."""

    descriptors = 0         # the most descriptors of an observer

    def __init__(self, name, server):
        super().__init__(name)
        self.server, self.connections, self.listeners = server, set(), []
        self.connected, self.ended = collections.deque(), collections.deque()
        self.numbers = itertools.count(1)

    def observer_of(self, connection):
        raise NotImplementedError

    def taken(self, connection):
        """Called when a client's connection begins."""

    def unreached(self, connection, reason):
        """Reports that a client's connection has ended, since there is none to the server."""
        raise NotImplementedError

    def run(self, listeners):
        """Passes on until a signal comes, and then ends every connection."""
        self.hear_signals()
        self.listen(listeners)
        gc.freeze()         # what was loaded so far is no garbage, and takes milliseconds to look through
        while not self.signals and not self.over:
            self.turn()
        self.stop()
        self.end_lines()

    def listen(self, listeners):
        """Begins to accept clients on these."""
        self.listeners = listeners
        for listener in listeners:
            listener.setblocking(False)
            set_options(listener)       # which its clients' sockets have from it
        self.take_clients()

    def turn(self, seconds=None):
        """Does what is ready or due; it waits for that, for `seconds` at most."""
        self.serve(0 if self.connected or self.ended else seconds)
        until = time.monotonic() + MOMENT
        for connection in some(self.connected, until):
            connection.begin()
        for connection in some(self.ended, until):
            connection.over()
        self.call_what_is_due()

    def stop(self):
        """Ends every connection, and gives the observers time for their last lines."""
        for listener in self.listeners:
            self.wait_for(listener, 0)
            listener.close()
        self.listeners = []
        for connection in self.connections.difference(self.ended):
            connection.close()
        self.connected.clear()
        while self.ended:
            self.ended.popleft().over()
        super().stop()

    def take_clients(self):
        for listener in self.listeners:
            self.wait_for(listener, READ, self)

    def rest(self, error):
        """Accepts no clients for a moment; the connections continue."""
        self.complaints.print_once(f"new clients have to wait: {error.strerror} (ulimit -Hn is how many may be open); "
                                   "the connections go on")
        for listener in self.listeners:
            self.wait_for(listener, 0)
        self.after(REST, self.take_clients)

    def step(self, file, events):
        """Counts signals, or accepts clients."""
        if file is self.heard:
            super().step(file, events)
        else:
            self.accept(file)

    def accept(self, listener):
        """Accepts clients that wait, if there are descriptors for all that belongs to them; not too many, since each
        takes as long as several messages do, and none while others have to begin."""
        for number in range(AT_ONCE - len(self.connected)):
            room = None
            try:
                room = Room(1 + self.descriptors, listener)
                client, peer = listener.accept()
            except OSError as error:
                if room:
                    room.close()
                # Only of the first is it known that it waits.
                if number == 0 and not isinstance(error, (BlockingIOError, ConnectionAbortedError)):
                    self.rest(error)
                return
            room.give(1)
            connection = Connection(self, next(self.numbers), client, peer, room)
            self.connections.add(connection)
            self.taken(connection)
            connection.connect("no address")

    def left(self, connection):
        """Called once a connection is over: if clients wait for room, there is some now."""
        self.connections.discard(connection)
        if self.take_clients in self.due:
            self.due[self.take_clients] = 0
