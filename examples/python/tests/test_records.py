"""Tests of what messages of the package libzk have: elements of lists, parts of multis, constants, and many at once.

    python3 -m unittest discover examples/python/tests
"""

import dataclasses
import pickle
import struct
import unittest

import libzk
from libzk import Code, FieldKind, Operation, Part, Permission, Profile, Refused, Right, Side, Talk
from test_libzk import HELLO, WELCOME, frame

STAT = struct.pack(">qqqqiiiqiiq", 1, 2, 3, 4, 5, 6, 7, 8, 9, 10, 11)
ANYONE = bytes.fromhex("0000001f 00000005 776f726c64 00000006 616e796f6e65")
DIGEST = bytes.fromhex("00000003 00000006 646967657374 00000003 6f3a70")


def text(said):
    return len(said.encode()).to_bytes(4, "big") + said.encode()


class Elements(unittest.TestCase):
    def test_children(self):
        head = struct.pack(">iqi", 1, 5, 0)
        for names in ([], ["a"], ["a", "ü", ""]):
            body = len(names).to_bytes(4, "big") + b"".join(map(text, names))
            self.assertEqual(libzk.read_reply("getChildren", head + body)["children"], names)
            both = libzk.read_reply("getChildren2", head + body + STAT)
            self.assertEqual((both["children"], both["czxid"], both["pzxid"]), (names, 1, 11))
        self.assertIsNone(libzk.read_reply("getChildren", head + b"\xff" * 4)["children"])

    def test_rights(self):
        wanted = [Right(31, "world", "anyone"), Right(3, "digest", "o:p")]
        for count, rights in enumerate((b"", ANYONE, ANYONE + DIGEST)):
            payload = struct.pack(">ii", 1, 1) + text("/a") + text("") + count.to_bytes(4, "big") + rights + bytes(4)
            message = libzk.read_request(Profile.V34, payload)
            self.assertEqual((message["acl"], message["flags"]), (wanted[:count], 0))
        self.assertEqual(Permission(wanted[1].perms), Permission.READ | Permission.WRITE)

    def test_watches(self):
        lists = b"".join(len(names).to_bytes(4, "big") + b"".join(map(text, names)) for names in (["/a", "/b"], [], ["/c"]))
        message = libzk.read_request(Profile.V34, struct.pack(">iiq", -8, 101, 9) + lists)
        self.assertEqual([message[name] for name in ("data_watches", "exist_watches", "child_watches")],
                         [["/a", "/b"], [], ["/c"]])


class Multis(unittest.TestCase):
    def test_parts(self):
        head, end = struct.pack(">iBi", 2, 0, -1), struct.pack(">iBi", -1, 1, -1)
        create = struct.pack(">iBi", 1, 0, -1) + text("/b") + text("d") + b"\0\0\0\1" + ANYONE + bytes(4)
        payload = struct.pack(">ii", 7, 14) + head + text("/a") + b"\0\0\0\5" + create + end
        message = libzk.read_request(Profile.V34, payload)
        self.assertEqual([part.operation for part in message.parts], ["delete", "create"])
        self.assertEqual([(part["path"], "data" in part) for part in message.parts], [("/a", False), ("/b", True)])
        self.assertEqual((message.parts[0]["version"], message.parts[1]["acl"]), (5, [Right(31, "world", "anyone")]))
        with self.assertRaises(KeyError):
            message.parts[0]["data"]
        self.assertEqual(libzk.read_request(Profile.V34, struct.pack(">ii", 7, 14) + end).parts, ())

    def test_results(self):
        failed = struct.pack(">iBii", -1, 0, -101, -101)
        done = struct.pack(">iBi", 1, 0, 0) + text("/b")
        payload = struct.pack(">iqi", 7, 5, 0) + done + failed + struct.pack(">iBi", -1, 1, -1)
        parts = libzk.read_reply("multi", payload, ("create", "delete")).parts
        self.assertEqual([part.operation for part in parts], ["create", ""])
        self.assertEqual((parts[0]["path"], parts[1]["err"]), ("/b", Code.NO_NODE))
        self.assertIsInstance(parts[0], Part)


class Constants(unittest.TestCase):
    def test_newer_names(self):
        self.assertEqual((libzk.OPERATIONS[106], libzk.ERRORS[-125], libzk.EVENTS[7]),
                         ("addWatch", "QUOTAEXCEEDED", "PersistentWatchRemoved"))
        self.assertEqual((libzk.STATES[-112], libzk.FLAGS[3]), ("Expired", "ephemeralSequential"))

    def test_numbers_in_place_of_names(self):
        said = [(FieldKind.TEXT, "/a"), (FieldKind.BOOL, True)]
        self.assertEqual(libzk.write_request(1, Operation.EXISTS, said), libzk.write_request(1, "exists", said))
        with self.assertRaises(Refused) as caught:
            libzk.read_request(Profile.V34, b"")
        self.assertEqual(caught.exception.status, libzk.Status.SHORT)


class Blocks(unittest.TestCase):
    def test_what_has_no_room(self):
        """Messages whose payloads, fields or number are more than a block takes, among others."""
        names = [f"/{at}" for at in range(3000)]
        watches = struct.pack(">iiq", -8, 101, 9) + len(names).to_bytes(4, "big") + b"".join(map(text, names)) + bytes(8)
        data = struct.pack(">ii", 1, 5) + text("/a") + text("d" * 70000) + b"\xff" * 4
        small = [struct.pack(">ii", xid, 3) + text(f"/{xid}") + b"\1" for xid in range(1, 400)]
        payloads = [*small, watches, small[0], data, data, *small]
        with Talk() as talk, Talk(lines=True) as lines:
            for each in (talk, lines):
                each.feed(Side.CLIENT, frame(HELLO))
                each.feed(Side.SERVER, frame(WELCOME))
            found = talk.feed(Side.CLIENT, b"".join(map(frame, payloads)))
            again = lines.feed(Side.CLIENT, b"".join(map(frame, payloads)))
        self.assertEqual([message.payload for message in found], payloads)
        self.assertEqual([message.frame for message in found], list(range(1, len(payloads) + 1)))
        self.assertEqual(found[len(small)]["data_watches"], names)
        self.assertEqual((found[0]["path"], found[-1]["path"]), ("/1", "/399"))
        for one, other in zip(found, again):
            self.assertEqual(one, dataclasses.replace(other, line=None))
            self.assertEqual(one.fields, other.fields)

    def test_a_message_is_a_value(self):
        with Talk() as talk:
            message, = talk.feed(Side.CLIENT, frame(HELLO))
        again = libzk.read_first(HELLO)
        self.assertEqual((message, message.fields), (dataclasses.replace(again, frame=0), again.fields))
        self.assertEqual(pickle.loads(pickle.dumps(message)), message)
        self.assertEqual(hash(message), hash(dataclasses.replace(again, frame=0)))
        with self.assertRaises(dataclasses.FrozenInstanceError):
            message.xid = 1

    def test_read(self):
        pieces = [(Side.CLIENT, frame(HELLO)), (Side.SERVER, frame(WELCOME)),
                  (Side.CLIENT, frame(struct.pack(">ii", 1, 3) + text("/a") + b"\1") * 2)]
        with Talk() as talk:
            self.assertEqual([(side, message.frame) for side, message in talk.read(pieces)],
                             [(Side.CLIENT, 0), (Side.SERVER, 0), (Side.CLIENT, 1), (Side.CLIENT, 2)])
            with self.assertRaises(Refused):
                list(talk.read([(Side.SERVER, b"\xff" * 4)]))


if __name__ == "__main__":
    unittest.main()
