#!/usr/bin/env python3
"""Makes a recording of one long conversation.

    make_recording.py small|big|listing MEGABYTES OUT

small has twelve operations, paths of some 20 bytes and data of 100, and up to 50 requests that the server has yet to
answer; big has replies to getData with 100,000 bytes, and listing has replies to getChildren with 10,000 names. The
pieces are those of a proxy that reads up to 65,536 bytes at a time, so some frames are cut.

Some four megabytes are made at random, always the same, and then repeated: xids begin anew each time, which the
protocol allows. No request waits at the end of a repetition, so the conversation is whole however long it is.
"""

import argparse
import collections
import math
import random
import struct
import sys

HEAD = b"ZKR1"
LARGEST_READ = 65_536
REPEATED = 4_000_000
EVENT, PING_XID = -1, -2
CREATE, DELETE, EXISTS, GET_DATA, SET_DATA, GET_ACL, SET_ACL, GET_CHILDREN, SYNC = range(1, 10)
PING, GET_CHILDREN2, CHECK, MULTI, SET_WATCHES = 11, 12, 13, 14, 101
NO_NODE, BAD_VERSION, NODE_EXISTS = -101, -103, -110


# ---- bytes (docs/FORMATS.md, sections 1 to 6 and 12)


def blob(data):
    return struct.pack(">i", len(data)) + data


def text(characters):
    return blob(characters.encode())


def texts(many):
    return struct.pack(">i", len(many)) + b"".join(map(text, many))


def request(xid, operation, body=b""):
    return struct.pack(">ii", xid, operation) + body


def reply(xid, body=b"", error=0, zxid=1 << 33):
    return struct.pack(">iqi", xid, zxid, error) + body


def part(operation, body=b"", error=-1):
    return struct.pack(">ibi", operation, 0, error) + body


END_OF_PARTS = struct.pack(">ibi", -1, 1, -1)
ANYONE = struct.pack(">ii", 1, 31) + text("world") + text("anyone")


def frame(payload):
    return blob(payload)


def pieces(side, data, size=LARGEST_READ):
    """These bytes of a side, in pieces of at most `size`."""
    return b"".join(side + blob(data[at:at + size]) for at in range(0, len(data), size))


CONNECT = (pieces(b"C", frame(struct.pack(">iqiq", 0, 0, 30_000, 0) + blob(bytes(16)) + b"\0"))
           + pieces(b"S", frame(struct.pack(">iiq", 0, 30_000, 1 << 56) + blob(bytes(16)) + b"\0")))


# ---- mixes: each chooses a request's operation, its body, and the reply's error and body


# Of a hundred requests of the small mix.
SHARES = {EXISTS: 19, GET_DATA: 26, GET_CHILDREN2: 10, SET_DATA: 15, CREATE: 10, DELETE: 8, MULTI: 6, PING: 2,
          GET_ACL: 1, SET_ACL: 1, SYNC: 1, SET_WATCHES: 1}


class Small:
    at_once = 50

    def __init__(self, chance):
        self.chance = chance

    def path(self):
        forms = ("/app/settings/key-%04d", "/services/web/node-%04d", "/locks/lock-%04d", "/topics/t-%04d/state",
                 "/queues/q-%04d")
        form = "/straße/дом-%04d" if self.chance.random() < 0.02 else self.chance.choice(forms)
        return form % self.chance.randrange(10_000)

    def data(self):
        return blob(self.chance.randbytes(100))

    def number(self, low, high):
        return struct.pack(">i", self.chance.randint(low, high))

    def stat(self, size=100):
        zxid, time = self.chance.randrange(1 << 32, 1 << 40), 1_700_000_000_000 + self.chance.randrange(10**9)
        return struct.pack(">qqqqiiiqiiq", zxid, zxid + self.chance.randrange(1000), time, time + 5,
                           self.chance.randrange(100), self.chance.randrange(10), 0, 0, size, 0, zxid)

    def names(self):
        return texts([f"node-{self.chance.randrange(10_000):04}" for _ in range(self.chance.randrange(20))])

    def exchange(self):
        """An operation, its request's body, and its reply's error and body."""
        operation, = self.chance.choices(list(SHARES), SHARES.values())
        if operation == PING:
            return PING, b"", 0, b""
        if operation == MULTI:
            return MULTI, *self.parts()
        if operation == SET_WATCHES:
            return SET_WATCHES, bytes(8) + texts([self.path()]) + texts([]) + texts([self.path()]), 0, b""
        path = self.path()
        asked, told = {
            EXISTS: lambda: (b"\1", self.stat()),
            GET_DATA: lambda: (b"\0", self.data() + self.stat()),
            GET_CHILDREN2: lambda: (b"\1", self.names() + self.stat(0)),
            SET_DATA: lambda: (self.data() + self.number(-1, 50), self.stat()),
            CREATE: lambda: (self.data() + ANYONE + self.number(0, 1), text(path)),
            DELETE: lambda: (self.number(-1, 50), b""),
            GET_ACL: lambda: (b"", ANYONE + self.stat()),
            SET_ACL: lambda: (ANYONE + self.number(-1, 50), self.stat()),
            SYNC: lambda: (b"", text(path)),
        }[operation]()
        error = self.chance.choice((NO_NODE, BAD_VERSION, NODE_EXISTS)) if self.chance.random() < 0.06 else 0
        return operation, text(path) + asked, error, b"" if error else told

    def parts(self):
        """A multi of two to six parts; now and then all of them fail."""
        failed, asked, told = self.chance.random() < 0.1, b"", b""
        for _ in range(self.chance.randint(2, 6)):
            path, operation = self.path(), self.chance.choice((CREATE, DELETE, SET_DATA, CHECK))
            rest = {CREATE: self.data() + ANYONE + self.number(0, 1),
                    SET_DATA: self.data() + self.number(-1, 50)}.get(operation, self.number(-1, 50))
            asked += part(operation, text(path) + rest)
            result = {CREATE: text(path), SET_DATA: self.stat()}.get(operation, b"")
            told += part(-1, struct.pack(">i", NO_NODE), NO_NODE) if failed else part(operation, result, 0)
        return asked + END_OF_PARTS, 0, told + END_OF_PARTS

    def event(self):
        """The body of an event, after one reply in forty."""
        if self.chance.random() < 0.025:
            return self.number(1, 4) + struct.pack(">i", 3) + text(self.path())
        return None


class Big(Small):
    at_once = 8

    def exchange(self):
        return GET_DATA, text(self.path()) + b"\0", 0, blob(self.chance.randbytes(100_000)) + self.stat(100_000)

    def event(self):
        return None


class Listing(Big):
    at_once = 4

    def exchange(self):
        first = self.chance.randrange(10**6)
        names = [f"member-{number:010}" for number in range(first, first + 10_000)]
        return GET_CHILDREN, text(self.path()) + b"\0", 0, texts(names)


MIXES = {"small": Small, "big": Big, "listing": Listing}


# ---- conversations


class Repeated:
    """Pieces of a conversation after its connect messages, at the end of which no request waits."""

    def __init__(self, mix, size):
        self.mix, self.chance = mix, mix.chance
        self.bytes, self.messages, self.xid = bytearray(), 0, 0
        self.waiting, self.late = collections.deque(), b""
        while len(self.bytes) < size:
            self.ask(self.chance.randint(0, mix.at_once - len(self.waiting)))
            self.answer(self.chance.randint(0, len(self.waiting)))
        self.answer(len(self.waiting))
        self.pass_on(b"S", self.late)

    def ask(self, many):
        asked = b""
        for _ in range(many):
            operation, body, error, told = self.mix.exchange()
            self.xid += 1
            xid = PING_XID if operation == PING else self.xid
            asked += frame(request(xid, operation, body))
            self.waiting.append(reply(xid, told, error, (1 << 33) + self.xid))
        self.messages += many
        self.pass_on(b"C", asked)

    def answer(self, many):
        told = self.late
        for _ in range(many):
            told += frame(self.waiting.popleft())
            if event := self.mix.event():
                told += frame(reply(EVENT, event, zxid=-1))
                self.messages += 1
        self.messages += many
        now = self.chance.randint(0, len(told)) if self.chance.random() < 0.3 else len(told)
        self.pass_on(b"S", told[:now])
        self.late = told[now:]

    def pass_on(self, side, data):
        self.bytes += pieces(side, data)


def write(path, mix, megabytes):
    """Writes a recording of about that size; returns its numbers of bytes and messages."""
    size = megabytes * 1_000_000
    times = max(1, math.ceil(size / REPEATED))
    repeated = Repeated(MIXES[mix](random.Random(mix)), size / times)
    with open(path, "wb") as out:
        out.write(HEAD + CONNECT)
        for _ in range(times):
            out.write(repeated.bytes)
        return out.tell(), 2 + times * repeated.messages


def main():
    parser = argparse.ArgumentParser(description=__doc__, formatter_class=argparse.RawDescriptionHelpFormatter)
    parser.add_argument("mix", choices=MIXES)
    parser.add_argument("megabytes", type=float)
    parser.add_argument("out")
    words = parser.parse_args()
    print(f"{words.out}: {'%d bytes, %d messages' % write(words.out, words.mix, words.megabytes)}")
    return 0


if __name__ == "__main__":
    sys.exit(main())
