"""A unit test of a client's own serializers: what kazoo writes is read back field by field, and refused if damaged.

    python3 -m unittest discover examples/python/tests

It needs kazoo (Debian: python3-kazoo); without it the tests are skipped.
"""

import unittest

from libzk import Profile, Refused, read_first, read_reply, read_request

try:
    from kazoo.protocol import serialization
    from kazoo.security import OPEN_ACL_UNSAFE
except ImportError:
    serialization = None


def payload(xid, request):
    """What kazoo's connection writes of a request, without the frame's length."""
    return bytes(serialization.int_struct.pack(xid) + serialization.int_struct.pack(request.type) + request.serialize())


def values(message):
    return [(field.name, field.value) for field in message.fields]


@unittest.skipIf(serialization is None, "kazoo is not installed")
class Serializers(unittest.TestCase):
    def requests(self):
        """Requests, and the operation and the fields that each should be."""
        rights = [("acl", 1), ("perms", 31), ("scheme", "world"), ("id", "anyone")]
        create = serialization.Create("/a", b"v", OPEN_ACL_UNSAFE, 3)
        created = [("path", "/a"), ("data", b"v"), *rights, ("flags", 3)]
        change = serialization.SetData("/a", b"", 7)
        changed = [("path", "/a"), ("data", b""), ("version", 7)]
        yield create, "create", created
        yield serialization.Delete("/a", -1), "delete", [("path", "/a"), ("version", -1)]
        yield serialization.Exists("/\u00fcn\u00ef", None), "exists", [("path", "/\u00fcn\u00ef"), ("watch", False)]
        yield serialization.GetData("/a", print), "getData", [("path", "/a"), ("watch", True)]
        yield change, "setData", changed
        yield serialization.GetACL("/a"), "getACL", [("path", "/a")]
        yield serialization.SetACL("/a", OPEN_ACL_UNSAFE, 2), "setACL", [("path", "/a"), *rights, ("version", 2)]
        yield serialization.GetChildren("/", None), "getChildren", [("path", "/"), ("watch", False)]
        yield serialization.GetChildren2("/", None), "getChildren2", [("path", "/"), ("watch", False)]
        yield serialization.Sync("/a"), "sync", [("path", "/a")]
        yield (serialization.Transaction([create, change, serialization.CheckVersion("/b", 1)]), "multi",
               [("", 1), *created, ("", 5), *changed, ("", 13), ("path", "/b"), ("version", 1)])

    def test_requests(self):
        for xid, (request, operation, fields) in enumerate(self.requests(), 1):
            with self.subTest(operation):
                message = read_request(Profile.V34, payload(xid, request))
                self.assertEqual((message.xid, message.operation, values(message)), (xid, operation, fields))

    def test_damaged_requests(self):
        for xid, (request, operation, _) in enumerate(self.requests(), 1):
            for damaged, name in ((payload(xid, request)[:-1], "SHORT"), (payload(xid, request) + b"\0", "TRAILING")):
                with self.subTest(operation, name=name), self.assertRaises(Refused) as caught:
                    read_request(Profile.V34, damaged)
                self.assertEqual(caught.exception.name, name)

    def test_the_connect_request(self):
        request = serialization.Connect(0, 5, 30000, 0, bytes(16), None)
        self.assertEqual(values(read_first(bytes(request.serialize()))),
                         [("protocol_version", 0), ("last_zxid_seen", 5), ("time_out", 30000), ("session_id", 0),
                          ("passwd", bytes(16)), ("read_only", False)])

    def test_what_kazoo_makes_of_a_reply(self):
        reply = bytes.fromhex("00000001 0000000000000005 00000000 00000002 6869 0000000000000004 0000000000000005"
                              "00000000000003e8 00000000000003e9 00000006 00000007 00000008 0000000000000009 00000002"
                              "0000000b 000000000000000c")
        fields = dict(values(read_reply("getData", reply)))
        data, stat = serialization.GetData.deserialize(reply, 16)
        self.assertEqual((data, stat.version, stat.pzxid), (fields["data"], fields["version"], fields["pzxid"]))
        self.assertEqual((stat.ephemeralOwner, stat.numChildren), (fields["ephemeral_owner"], fields["num_children"]))


if __name__ == "__main__":
    unittest.main()
