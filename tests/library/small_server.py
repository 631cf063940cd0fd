"""A small server of ZooKeeper's client port, which answers from stored payloads.

    answering.py [PORT]

It listens at 127.0.0.1 (0, or no PORT: any free port), prints the port, and serves every connection until it is ended.
A connect request is answered by a stored response. A reply's body has for each field of its operation (docs/FORMATS.md,
section 4) a stored value, of the node /a with the data "hello"; a request whose path ends with /missing is answered by
NONODE.
Each reply has its request's xid, and the next zxid. After a reply to closeSession the server ends the connection.
"""

import socketserver
import struct
import sys

from dev import formats

CONNECTED = bytes.fromhex("00000000 00002710 0100000000000001 00000010 000102030405060708090a0b0c0d0e0f 00")
STAT = bytes.fromhex("0000000000000004 0000000000000005 00000000000003e8 00000000000003e9 00000006 00000007 00000008"
                     "0000000000000000 00000005 00000000 0000000000000004")
PATH, CHILDREN = bytes.fromhex("00000002 2f61"), bytes.fromhex("00000002 00000001 62 00000001 63")
ACL = bytes.fromhex("00000001 0000001f 00000005 776f726c64 00000006 616e796f6e65")
END = bytes.fromhex("ffffffff 01 ffffffff")
CLOSE, MULTI, NO_NODE = -11, 14, -101
VALUES = {"text": PATH, "blob": bytes.fromhex("00000005 68656c6c6f"), "texts": CHILDREN, "acl": ACL, "stat": STAT,
          "int": bytes(4)}
BODIES = {row.number: b"".join(VALUES[field.kind] for field in row.reply)
          for row in formats.table("Op") if row.number != MULTI}
RESULTS = {1: PATH, 2: b"", 5: STAT, 13: b""}
# The items after the path of a part, which a multi has to be walked by.
PARTS = {1: ("blob", "acl", 4), 2: (4,), 5: ("blob", 4), 13: (4,)}


def framed(payload):
    return struct.pack(">i", len(payload)) + payload


def number(payload, place):
    return struct.unpack_from(">i", payload, place)[0]


def after(payload, place, item):
    """The place after an item."""
    if item == "blob":
        return place + 4 + max(number(payload, place), 0)
    if item == "acl":
        count, place = number(payload, place), place + 4
        for _ in range(count):
            place = after(payload, after(payload, place + 4, "blob"), "blob")
        return place
    return place + item


def results(payload):
    """The results of a multi's parts."""
    place, answer = 8, b""
    while payload[place + 4] == 0:
        operation, place = number(payload, place), place + 9
        for item in ("blob", *PARTS[operation]):
            place = after(payload, place, item)
        answer += struct.pack(">ibi", operation, 0, 0) + RESULTS[operation]
    return answer + END


def reply(payload, zxid):
    """The payload that answers a request's."""
    xid, operation = struct.unpack_from(">ii", payload)
    if operation not in (MULTI, CLOSE) and payload[8:].partition(b"/missing")[1]:
        return struct.pack(">iqi", xid, zxid, NO_NODE)
    return struct.pack(">iqi", xid, zxid, 0) + (results(payload) if operation == MULTI else BODIES[operation])


class Connection(socketserver.StreamRequestHandler):
    """One client; what it writes is answered in order."""

    disable_nagle_algorithm = True

    def payload(self):
        head = self.rfile.read(4)
        return self.rfile.read(struct.unpack(">i", head)[0]) if len(head) == 4 else b""

    def handle(self):
        zxid, hello = 4, self.payload()
        if hello:
            self.server.heard.append(hello)
            self.wfile.write(framed(CONNECTED))
        while payload := self.payload():
            self.server.heard.append(payload)
            zxid += 1
            self.wfile.write(framed(reply(payload, zxid)))
            if number(payload, 4) == CLOSE:
                break


class Server(socketserver.ThreadingTCPServer):
    """A thread for each connection; `heard` are the payloads that came."""

    allow_reuse_address = daemon_threads = True
    request_queue_size = 256

    def __init__(self, port=0):
        super().__init__(("127.0.0.1", port), Connection)
        self.port, self.heard = self.server_address[1], []


def main():
    with Server(int(sys.argv[1]) if len(sys.argv) > 1 else 0) as server:
        print(server.port, flush=True)
        try:
            server.serve_forever()
        except KeyboardInterrupt:
            pass
    return 0


if __name__ == "__main__":
    sys.exit(main())
