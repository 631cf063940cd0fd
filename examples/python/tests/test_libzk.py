"""Tests of the package libzk; the payloads are those of docs/EXAMPLES.md and docs/FORMATS.md.

    python3 -m unittest discover examples/python/tests
"""

import array
import copy
import gc
import mmap
import os
import pickle
import subprocess
import sys
import time
import unittest
from unittest import mock

import libzk
from libzk import _calls
from libzk import Cut, Fault, FieldKind, Kind, Profile, Refused, Side, Speaker, Talk, Through

HELLO = bytes.fromhex("00000000 0000000000000000 00007530 0000000000000000 00000010 00000000000000000000000000000000 00")
WELCOME = bytes.fromhex("00000000 00007530 0100000000000001 00000010 000102030405060708090a0b0c0d0e0f 00")
EXISTS = bytes.fromhex("00000001 00000003 00000002 2f61 01")
NO_NODE = bytes.fromhex("00000001 0000000000000005 ffffff9b")
EVENT = bytes.fromhex("ffffffff ffffffffffffffff 00000000 00000003 00000003 00000002 2f61")
ADD_WATCH = bytes.fromhex("00000003 0000006a 00000002 2f61 00000001")
WATCHED = bytes.fromhex("00000003 0000000000000007 00000000 00000000")
CREATE = bytes.fromhex("00000001 00000001 00000002 2f61 ffffffff 00000001 0000001f 00000005 776f726c64 00000006"
                       "616e796f6e65 00000003")
RESULTS = bytes.fromhex("00000001 0000000000000006 00000000 00000001 00 00000000 00000002 2f61 00000002 00 00000000"
                        "ffffffff 01 ffffffff")
LINES = ("C connect version=0 zxid=0 timeout=30000 session=0 passwd=#00000000000000000000000000000000 ro=0",
         "S connect version=0 timeout=30000 session=72057594037927937 passwd=#000102030405060708090a0b0c0d0e0f ro=0",
         'C 1 exists path="/a" watch=1', "S 1 exists zxid=5 err=-101/NONODE",
         'S event zxid=-1 kind=3/NodeDataChanged state=3 path="/a"')


def frame(payload):
    return len(payload).to_bytes(4, "big") + payload


def said(side, data):
    return [(message.kind, message.line) for message in side.feed(*data)]


class Payloads(unittest.TestCase):
    def test_fields(self):
        message = libzk.read_request(Profile.V34, EXISTS)
        self.assertEqual((message.kind, message.xid, message.operation), (Kind.REQUEST, 1, "exists"))
        self.assertEqual(message.fields, (("path", FieldKind.TEXT, "/a", 12, 2), ("watch", FieldKind.BOOL, True, 14, 1)))
        self.assertEqual((message["path"], message["watch"]), ("/a", True))
        self.assertEqual(("path" in message, "version" in message), (True, False))
        with self.assertRaises(KeyError):
            message["version"]

    def test_lists_and_nulls(self):
        message = libzk.read_request(Profile.V34, CREATE)
        self.assertEqual([(field.name, field.value) for field in message.fields],
                         [("path", "/a"), ("data", None), ("acl", 1), ("perms", 31), ("scheme", "world"),
                          ("id", "anyone"), ("flags", 3)])

    def test_other_messages(self):
        self.assertEqual(libzk.read_first(HELLO)["time_out"], 30000)
        self.assertEqual(libzk.read_connected(WELCOME)["passwd"], bytes(range(16)))
        self.assertEqual(libzk.read_reply("exists", NO_NODE).err, -101)
        self.assertEqual(libzk.read_event(EVENT)["path"], "/a")
        parts = libzk.read_reply("multi", RESULTS, ("create", "delete")).fields
        self.assertEqual([field.value for field in parts if field.kind == FieldKind.PART], [1, 2])

    def test_more_fields_than_the_first_room(self):
        names = [b"%d" % number for number in range(100)]
        listed = b"".join(map(frame, names))
        payload = bytes.fromhex("00000001 0000000000000005 00000000 00000064") + listed
        message = libzk.read_reply("getChildren", bytearray(payload))
        self.assertEqual([field.value.encode() for field in message.fields[1:]], names)

    def test_judged(self):
        for judge, well in ((lambda payload: libzk.judge_first(payload), HELLO),
                            (lambda payload: libzk.judge_request(Profile.V34, payload), EXISTS),
                            (lambda payload: libzk.judge_connected(payload), WELCOME),
                            (lambda payload: libzk.judge_reply("exists", payload), NO_NODE),
                            (lambda payload: libzk.judge_reply("multi", payload, ("create", "delete")), RESULTS),
                            (lambda payload: libzk.judge_event(payload), EVENT)):
            judge(bytearray(well))
            for damaged, name, place in ((b"", "SHORT", 0), (well + b"\0\0", "TRAILING", None)):
                with self.assertRaises(Refused) as caught:
                    judge(damaged)
                self.assertEqual(caught.exception.name, name)
                self.assertEqual(caught.exception.place, len(well) if place is None else place)
        with self.assertRaises(Refused) as caught:
            libzk.judge_reply("exists", EVENT)
        self.assertEqual(caught.exception.name, "MISFIT")

    def test_faults(self):
        for call, damaged, name, place in ((libzk.read_event, EVENT[:-1], "SHORT", 24),
                                           (libzk.read_event, EVENT + b"\0", "TRAILING", 30),
                                           (libzk.read_first, b"", "SHORT", 0)):
            with self.assertRaises(Refused) as caught:
                call(damaged)
            self.assertEqual((caught.exception.name, caught.exception.place), (name, place))
        with self.assertRaises(Refused) as caught:
            libzk.read_request(Profile.V34, EXISTS[:-1] + b"\2")
        self.assertEqual((caught.exception.name, caught.exception.fields[0].value), ("BAD_BOOL", "/a"))
        for operation, parts in (("nothing", ()), ("multi", ("ping",)), ("exists", ("create",))):
            with self.assertRaises(Refused):
                libzk.read_reply(operation, RESULTS, parts)

    def test_a_refusal_that_is_copied(self):
        """As one that comes from another process."""
        with Talk() as talk, self.assertRaises(Refused) as caught:
            talk.feed(Side.CLIENT, frame(HELLO) + frame(EXISTS + b"\0"))
        refused = caught.exception
        for copied in (copy.copy(refused), copy.deepcopy(refused), pickle.loads(pickle.dumps(refused))):
            self.assertEqual(str(copied), "TRAILING at 15")
            self.assertEqual(vars(copied), vars(refused))


class Writing(unittest.TestCase):
    """Frames by the payloads of docs/FORMATS.md."""

    def test_requests(self):
        items = [(FieldKind.TEXT, "/a"), (FieldKind.BOOL, True)]
        self.assertEqual(libzk.write_request(1, "exists", items), frame(EXISTS))
        items = [(FieldKind.TEXT, "/a"), (FieldKind.BLOB, None), (FieldKind.LIST, 1), (FieldKind.INT, 31),
                 (FieldKind.TEXT, "world"), (FieldKind.TEXT, b"anyone"), (FieldKind.INT, 3)]
        self.assertEqual(libzk.write_request(1, "create", items), frame(CREATE))
        hello = [(FieldKind.INT, 0), (FieldKind.LONG, 0), (FieldKind.INT, 30000), (FieldKind.LONG, 0),
                 (FieldKind.BLOB, bytes(16)), (FieldKind.BOOL, False)]
        self.assertEqual(libzk.write_first(hello), frame(HELLO))
        self.assertEqual(libzk.write_request(-2, "ping"), bytes.fromhex("00000008 fffffffe 0000000b"))

    def test_a_multi(self):
        items = [(FieldKind.PART, "delete"), (FieldKind.TEXT, "/a"), (FieldKind.INT, -1), (FieldKind.PART, 13),
                 (FieldKind.TEXT, "/b"), (FieldKind.INT, 1)]
        wanted = bytes.fromhex("00000003 0000000e 00000002 00 ffffffff 00000002 2f61 ffffffff 0000000d 00 ffffffff"
                               "00000002 2f62 00000001 ffffffff 01 ffffffff")
        self.assertEqual(libzk.write_request(3, "multi", items), frame(wanted))

    def test_what_was_read_is_written_again(self):
        for payload in (EXISTS, CREATE):
            message = libzk.read_request(Profile.V34, payload)
            self.assertEqual(libzk.write_request(message.xid, message.operation, message.fields), frame(payload))
        self.assertEqual(libzk.write_first(libzk.read_first(HELLO).fields), frame(HELLO))
        names = [(FieldKind.LONG, 5), (FieldKind.LIST, 1000), *((FieldKind.TEXT, "a" * 9),) * 1000,
                 (FieldKind.LIST, 0), (FieldKind.LIST, None)]
        payload = libzk.write_request(-8, "setWatches", names)[4:]
        self.assertEqual([field.value for field in libzk.read_request(Profile.V34, payload).fields],
                         [value for _, value in names])

    def test_answers(self):
        self.assertEqual(libzk.write_reply(1, "exists", zxid=5, err=-101), frame(NO_NODE))
        items = [(FieldKind.PART, "create"), (FieldKind.TEXT, "/a"), (FieldKind.PART, -1), (FieldKind.INT, -110)]
        wanted = bytes.fromhex("00000002 0000000000000006 00000000 00000001 00 00000000 00000002 2f61"
                               "ffffffff 00 ffffff92 ffffff92 ffffffff 01 ffffffff")
        self.assertEqual(libzk.write_reply(2, "multi", items, 6), frame(wanted))
        items = [(FieldKind.INT, 3), (FieldKind.INT, 3), (FieldKind.TEXT, "/a")]
        self.assertEqual(libzk.write_event(items), frame(EVENT))
        for operation, payload, parts in (("exists", NO_NODE, ()), ("multi", RESULTS, ("create", "delete"))):
            read = libzk.read_reply(operation, payload, parts)
            again = libzk.write_reply(read.xid, read.operation, read.fields, read.zxid, read.err)
            self.assertEqual(again, frame(payload))
        self.assertEqual(libzk.write_event(libzk.read_event(EVENT).fields), frame(EVENT))
        self.assertEqual(libzk.write_connected(libzk.read_connected(WELCOME).fields), frame(WELCOME))
        for numbers in ({"zxid": 1 << 63}, {"err": 1 << 31}):
            with self.assertRaises(Refused):
                libzk.write_reply(1, "exists", **numbers)
        with self.assertRaises(Refused) as caught:
            libzk.write_reply(1, "multi", [(FieldKind.PART, 13), (FieldKind.PART, -1)])
        self.assertEqual((caught.exception.name, caught.exception.place), ("RANGE", 1))

    def test_a_number_is_no_buffer(self):
        """As what recv_into returns: that number of zeros was taken for what came."""
        with Talk() as talk, Through() as through, Speaker() as speaker:
            for call in (lambda: talk.feed(Side.CLIENT, 3), lambda: talk.skip(Side.CLIENT, 3),
                         lambda: through.feed(Side.CLIENT, 3), lambda: speaker.say_payload(Side.CLIENT, 3),
                         lambda: libzk.read_request(Profile.V34, 3), lambda: libzk.judge_event(3)):
                with self.assertRaises(TypeError):
                    call()
            self.assertEqual((talk.held(Side.CLIENT), through.ending().whole), (0, True))

    def test_fields_that_say_nothing(self):
        text, number = (FieldKind.TEXT, "/a"), (FieldKind.INT, 1 << 31)
        for items, name, place in (([text, number], "RANGE", 1), ([text, text, (FieldKind.LONG, 1 << 63)], "RANGE", 2),
                                   ([(FieldKind.TEXT, b"\xff")], "RANGE", 0), ([(FieldKind.BOOL, 2)], "RANGE", 0),
                                   ([text, (FieldKind.TEXT, "/\ud800")], "RANGE", 1)):
            with self.assertRaises(Refused) as caught:
                libzk.write_request(1, "exists", items)
            self.assertEqual((caught.exception.name, caught.exception.place), (name, place))
        for xid, operation in ((1 << 31, "exists"), (1, "nothing")):
            with self.assertRaises(Refused):
                libzk.write_request(xid, operation, [text])
        for item in ((FieldKind.INT, "1"), (FieldKind.TEXT, 1), (FieldKind.BLOB, "a"), (FieldKind.INT, None),
                     (FieldKind.LONG, None), (FieldKind.BOOL, None), (FieldKind.PART, None)):
            with self.assertRaises(TypeError):
                libzk.write_request(1, "exists", [item])

    def test_bytes_of_any_buffer_are_written(self):
        for words, wanted in ((memoryview(array.array("H", [0x6161, 0x6262])), b"aabb"),
                              (memoryview(b"a.b.c.")[::2], b"abc"), (memoryview(b"abc")[::-1], b"cba")):
            data = [(FieldKind.TEXT, "/a"), (FieldKind.BLOB, words), (FieldKind.INT, -1)]
            payload = libzk.write_request(1, "setData", data)[4:]
            self.assertEqual(libzk.read_request(Profile.V34, payload)["data"], wanted)
        with mmap.mmap(-1, (1 << 32) + 1, flags=mmap.MAP_PRIVATE | mmap.MAP_ANONYMOUS, prot=mmap.PROT_READ) as zeros:
            with memoryview(zeros) as longer, self.assertRaises(Refused) as caught:
                libzk.write_request(1, "setData", [data[0], (FieldKind.BLOB, longer), data[2]])
        self.assertEqual((caught.exception.name, caught.exception.place), ("TOO_LONG", 1))

    def test_a_client_judges_what_it_writes(self):
        with Talk() as talk:
            talk.feed(Side.CLIENT, libzk.write_first(libzk.read_first(HELLO).fields))
            with self.assertRaises(Refused) as caught:
                talk.feed(Side.CLIENT, libzk.write_request(-1, "exists", [(FieldKind.TEXT, "/a"), (FieldKind.BOOL, 0)]))
        self.assertEqual(caught.exception.name, "XID_OP")


class Loading(unittest.TestCase):
    def test_a_variable_that_is_empty_names_no_file(self):
        place = os.path.dirname(os.environ.get("LIBZK", ""))
        done = subprocess.run([sys.executable, "-c", "import libzk"], capture_output=True, text=True, check=False,
                              env={**os.environ, "LIBZK": "", **({"LD_LIBRARY_PATH": place} if place else {})})
        self.assertEqual((done.returncode, done.stderr), (0, ""))


class Talks(unittest.TestCase):
    def fed(self, talk, cut):
        """The lines of a conversation whose bytes come in pieces of this length."""
        for side, payload in ((Side.CLIENT, HELLO), (Side.SERVER, WELCOME), (Side.CLIENT, EXISTS),
                              (Side.SERVER, NO_NODE), (Side.SERVER, EVENT)):
            data = frame(payload)
            for at in range(0, len(data), cut):
                for message in talk.feed(side, data[at:at + cut]):
                    self.assertEqual(message.payload, payload)
                    yield message

    def test_pieces(self):
        for cut in (1, 7, 1000):
            with Talk(lines=True) as talk:
                messages = list(self.fed(talk, cut))
                self.assertEqual([message.line for message in messages], list(LINES))
                self.assertEqual([message.frame for message in messages], [0, 0, 1, 1, 2])
                self.assertEqual((messages[3].operation, messages[3].err, messages[3].zxid), ("exists", -101, 5))
                self.assertEqual(messages[4]["path"], "/a")
                self.assertEqual(talk.ending(), (". whole unanswered=0", 0, None, None))
                self.assertTrue(talk.ending().whole)

    def test_many_messages_in_one_piece(self):
        with Talk() as talk:
            self.assertEqual(len(talk.feed(Side.CLIENT, frame(HELLO) + frame(EXISTS) * 3)), 4)
            self.assertEqual(talk.feed(Side.CLIENT, b""), [])

    def test_a_fault_comes_with_the_messages_before_it(self):
        with Talk() as talk, self.assertRaises(Refused) as caught:
            talk.feed(Side.CLIENT, frame(HELLO) + frame(EXISTS + b"\0"))
        self.assertEqual((caught.exception.name, caught.exception.place), ("TRAILING", 15))
        self.assertEqual([message.kind for message in caught.exception.messages], [Kind.CONNECT])

    def test_many_messages_take_time_by_their_number(self):
        """A piece of ten times as many events takes some ten times as long; it was a hundred times."""
        took = []
        for count in (2000, 20000):
            with Talk() as talk:
                talk.feed(Side.CLIENT, frame(HELLO))
                talk.feed(Side.SERVER, frame(WELCOME))
                piece, begun = frame(EVENT) * count, time.process_time()
                self.assertEqual(len(talk.feed(Side.SERVER, memoryview(piece))), count)
                took.append(time.process_time() - begun)
        self.assertLess(took[1], 40 * took[0])

    def test_a_fault_says_where(self):
        with Talk() as talk:
            talk.feed(Side.CLIENT, frame(HELLO) + frame(EXISTS) + frame(b"\0\0\0\2" + EXISTS[4:]))
            talk.feed(Side.SERVER, frame(WELCOME))
            with self.assertRaises(Refused) as caught:
                talk.feed(Side.SERVER, frame(b"\0\0\0\2" + NO_NODE[4:]))
            wanted = Fault(Side.SERVER, 1, 41 + 20, 0, "XID_ORDER", 1, 2)
            self.assertEqual(caught.exception.fault, wanted)
            self.assertEqual((talk.ending().whole, talk.ending().fault, talk.ending().cut), (False, wanted, None))
            with self.assertRaises(Refused) as again:
                talk.feed(Side.CLIENT, b"")
            self.assertEqual(again.exception.fault, wanted)
        with Talk() as talk, self.assertRaises(Refused) as caught:
            talk.feed(Side.CLIENT, frame(HELLO) + frame(EXISTS + b"\0"))
        self.assertEqual(caught.exception.fault, Fault(Side.CLIENT, 1, 49 + 20, 15, "TRAILING", None, None))

    def test_a_talk_that_is_begun_anew_meanwhile(self):
        """As by another thread, while a message is made: it had no fields. Without lines one call makes it."""
        for name, held in (("talk", Talk(lines=True)), ("through", Through())):
            call = f"zk_{name}_fields"
            fields = getattr(_calls.library, call)
            with mock.patch.object(_calls.library, call, lambda *words: (held.renew(), fields(*words))[1]):
                with held, self.assertRaises(Refused) as caught:
                    held.feed(Side.CLIENT, frame(HELLO))
            self.assertEqual(caught.exception.name, "NO_MESSAGE")

    def test_what_waits_and_is_held(self):
        multi = bytes.fromhex("00000003 0000000e 00000002 00 ffffffff 00000002 2f61 ffffffff ffffffff 01 ffffffff")
        with Talk() as talk:
            self.assertEqual(talk.skip(Side.CLIENT, frame(HELLO) + frame(EXISTS) + frame(multi) + b"\0\0\0\x08\xff"), 3)
            self.assertEqual(talk.waiting(), (2, 3))
            self.assertEqual((talk.held(Side.CLIENT), talk.held(Side.SERVER)), (5, 0))
            self.assertEqual(talk.ending(), (". cut side=C frame=3 got=5", None, Cut(Side.CLIENT, 3, 5), None))
            with self.assertRaises(Refused):
                talk.feed(Side.CLIENT, b"\xff\xff\xfe\0\0\0\x0c")
            self.assertEqual((talk.waiting(), talk.held(Side.CLIENT)), ((2, 3), 12))

    def test_renewed(self):
        """One talk for one conversation after another, whole, cut or refused."""
        with Talk(lines=True) as talk:
            for cut in (1000, 7):
                self.assertEqual([message.line for message in self.fed(talk, cut)], list(LINES))
                talk.renew()
                with self.assertRaises(Refused):
                    talk.feed(Side.CLIENT, frame(HELLO) + frame(EXISTS + b"\0"))
                talk.renew()
                talk.feed(Side.CLIENT, frame(HELLO) + frame(EXISTS) + b"\0\0")
                talk.renew()
                self.assertEqual((talk.waiting(), talk.held(Side.CLIENT)), ((0, 0), 0))
        with Speaker() as speaker:
            frames = [speaker.say(line) for line in LINES]
            speaker.renew()
            self.assertEqual([speaker.say(line) for line in LINES], frames)

    def test_listings(self):
        pieces = [(Side.CLIENT, frame(HELLO)), (Side.SERVER, frame(WELCOME)), (Side.CLIENT, frame(EXISTS)),
                  (Side.SERVER, frame(NO_NODE)), (Side.SERVER, frame(EVENT)[:9]), (Side.SERVER, frame(EVENT)[9:])]
        self.assertEqual(libzk.listing(pieces), [*LINES, ". whole unanswered=0"])
        self.assertEqual(libzk.listing([]), [". whole unanswered=0"])
        older = frame(HELLO[:-1])
        every_second = memoryview(bytes(byte for each in older for byte in (each, 0)))[::2]
        for buffer in (array.array("H", older), memoryview(array.array("H", older)), every_second):
            self.assertEqual(libzk.listing([(Side.CLIENT, buffer)]), [f"{LINES[0][:-1]}-", ". whole unanswered=1"])
        with self.assertRaises(Refused):
            libzk.listing(pieces, client=63)

    def test_the_usual_profile_is_the_newest(self):
        lines = [*LINES[:2], 'C 3 addWatch path="/a" mode=1', "S 3 addWatch zxid=7 code=0"]
        given = [(Side.CLIENT, HELLO), (Side.SERVER, WELCOME), (Side.CLIENT, ADD_WATCH), (Side.SERVER, WATCHED)]
        pieces = [(side, frame(payload)) for side, payload in given]
        self.assertEqual(libzk.listing(pieces), [*lines, ". whole unanswered=0"])
        self.assertEqual(libzk.listing(pieces, profile=Profile.V35),
                         [*lines[:2], ". refused side=C frame=1 offset=71 place=4 reason=UnknownOp"])
        with Talk(lines=True) as talk, Through(lines=True) as through, Speaker() as speaker:
            for line, (side, piece) in zip(lines, pieces):
                (message,), (passed,) = talk.feed(side, piece), through.feed(side, piece)
                self.assertEqual((message.line, passed.message.line, speaker.say(line)), (line, line, piece))
        with Talk(profile=Profile.V34) as talk, self.assertRaises(Refused) as caught:
            for side, piece in pieces:
                talk.feed(side, piece)
        self.assertEqual(caught.exception.name, "UNKNOWN_OP")

    def test_limits(self):
        for limits in ({"client": 63}, {"waiting": 0}, {"client": (1 << 32) + 64}, {"server": -1}):
            with self.assertRaises(Refused) as caught:
                Talk(**limits)
            self.assertEqual(caught.exception.name, "RANGE")
        with self.assertRaises(ValueError):
            Talk(profile=36)
        with Talk() as talk, self.assertRaises(ValueError):
            talk.feed(2, b"")

    def test_what_is_closed_is_refused_and_nothing_is_copied(self):
        talk, speaker, through = Talk(), Speaker(), Through()
        for copied in (copy.copy, copy.deepcopy, pickle.dumps):
            with self.assertRaises(TypeError):
                copied(talk)
        for held in (talk, speaker, through, talk, speaker, through):
            held.close()
        for call in (lambda: talk.feed(Side.CLIENT, b"1"), talk.ending, lambda: speaker.say(LINES[0]), talk.renew,
                     speaker.renew, talk.waiting, lambda: talk.held(Side.SERVER), lambda: talk.skip(Side.CLIENT, b""),
                     lambda: through.feed(Side.CLIENT, b"1"), through.renew, through.ending):
            with self.assertRaises(Refused) as caught:
                call()
            self.assertEqual(caught.exception.name, "EMPTY")
        del talk, speaker, through
        gc.collect()


if __name__ == "__main__":
    unittest.main()
