"""Tests of offers in the package libzk, to a talk and to a passage: a frame is taken only if it may come next.

    python3 -m unittest discover examples/python/tests
"""

import unittest

from libzk import Fault, Kind, Refused, Side, Talk, Through, Waiting, Went
from test_libzk import EXISTS, HELLO, NO_NODE, WELCOME, frame

NO_BOOLEAN = EXISTS[:-1] + b"\2"
SECOND, SECOND_NO_NODE = b"\0\0\0\2" + EXISTS[4:], b"\0\0\0\2" + NO_NODE[4:]
UNKNOWN = b"\0\0\0\1" + (9999).to_bytes(4, "big") + EXISTS[8:-1]  # of /a, under xid 1
DONE = b"\0\0\0\1" + (5).to_bytes(8, "big") + bytes(4)
# The client's 49 bytes before it are its connect request.
FAULT = Fault(Side.CLIENT, 1, 68, 14, "BAD_BOOL", None, None)


class Offers(unittest.TestCase):
    def talk(self, kind=Talk, **limits):
        """A talk, or a passage, after its connect messages."""
        talk = kind(**limits)
        self.addCleanup(talk.close)
        for side, payload in ((Side.CLIENT, HELLO), (Side.SERVER, WELCOME)):
            talk.feed(side, frame(payload))
        return talk

    def why(self, talk, side, data):
        """Why an offer is refused, which changes nothing."""
        before = talk.ending(), talk.waiting(), talk.held(side)
        with self.assertRaises(Refused) as caught:
            talk.offer(side, data)
        self.assertEqual((talk.ending(), talk.waiting(), talk.held(side)), before)
        return caught.exception.name, caught.exception.place, caught.exception.fault

    def test_a_frame_that_may_not_come(self):
        """Another one may, and the talk goes on as if the first had never been."""
        talk = self.talk()
        for _ in range(2):
            self.assertEqual(self.why(talk, Side.CLIENT, frame(NO_BOOLEAN)), ("BAD_BOOL", 14, FAULT))
        message = talk.offer(Side.CLIENT, bytearray(frame(EXISTS)))
        self.assertEqual((message.kind, message.xid, message.frame, message["path"]), (Kind.REQUEST, 1, 1, "/a"))
        self.assertEqual(talk.waiting(), Waiting(1, 1))
        order = Fault(Side.SERVER, 1, 61, 0, "XID_ORDER", 1, 2)
        self.assertEqual(self.why(talk, Side.SERVER, frame(SECOND_NO_NODE)), ("XID_ORDER", 0, order))
        self.assertEqual(talk.offer(Side.SERVER, frame(NO_NODE)).answers, 1)
        self.assertEqual(talk.ending().line, ". whole unanswered=0")

    def test_what_is_not_one_frame(self):
        talk = self.talk()
        for data in (b"", frame(EXISTS)[:3], frame(EXISTS)[:-1], frame(EXISTS) + b"\0", frame(EXISTS) * 2):
            self.assertEqual(self.why(talk, Side.CLIENT, data), ("RANGE", 0, None))
        talk.feed(Side.CLIENT, frame(EXISTS)[:1])
        self.assertEqual(self.why(talk, Side.CLIENT, frame(SECOND)), ("RANGE", 0, None))
        talk.feed(Side.CLIENT, frame(EXISTS)[1:])
        self.assertEqual(talk.waiting(), Waiting(1, 1))

    def test_after_a_refusal(self):
        """Nothing is taken any more."""
        talk = self.talk()
        with self.assertRaises(Refused):
            talk.feed(Side.CLIENT, frame(NO_BOOLEAN))
        for side, payload in ((Side.CLIENT, EXISTS), (Side.SERVER, NO_NODE)):
            self.assertEqual(self.why(talk, side, frame(payload)), ("BAD_BOOL", 14, FAULT))

    def test_lines_and_room(self):
        """A message has its line; a request for which there is no room may be offered again."""
        talk = self.talk(lines=True, waiting=1)
        self.assertEqual(talk.offer(Side.CLIENT, frame(EXISTS)).line, 'C 1 exists path="/a" watch=1')
        self.assertEqual(self.why(talk, Side.CLIENT, frame(SECOND))[0], "QUEUE_FULL")
        talk.offer(Side.SERVER, frame(NO_NODE))
        self.assertEqual(talk.offer(Side.CLIENT, frame(SECOND)).line, 'C 2 exists path="/a" watch=1')

    def test_closed(self):
        for talk in (Talk(), Through()):
            talk.close()
            with self.assertRaises(Refused) as caught:
                talk.offer(Side.CLIENT, frame(HELLO))
            self.assertEqual(caught.exception.name, "EMPTY")
            with self.assertRaises(ValueError):
                talk.offer(2, frame(HELLO))

    def test_passages(self):
        """What the profile lacks is taken and left out; a refusal changes nothing, also of one that resumes."""
        passage = self.talk(Through, resumes=True)
        self.assertEqual(self.why(passage, Side.CLIENT, frame(NO_BOOLEAN)), ("BAD_BOOL", 14, FAULT))
        for data in (b"", frame(UNKNOWN)[:-1], frame(UNKNOWN) * 2):
            self.assertEqual(self.why(passage, Side.CLIENT, data), ("RANGE", 0, None))
        asked = passage.offer(Side.CLIENT, frame(UNKNOWN))
        self.assertEqual((asked.went, asked.used, asked.xid, asked.operation, asked.frame, asked.payload),
                         (Went.ASKED, len(UNKNOWN) + 4, 1, 9999, 1, UNKNOWN))
        order = Fault(Side.SERVER, 1, 61, 0, "XID_ORDER", 1, 2)
        self.assertEqual(self.why(passage, Side.SERVER, frame(SECOND_NO_NODE)), ("XID_ORDER", 0, order))
        answered = passage.offer(Side.SERVER, frame(DONE))
        self.assertEqual((answered.went, answered.xid, answered.frame, answered.payload), (Went.ANSWERED, 1, 1, DONE))
        message = passage.offer(Side.CLIENT, frame(SECOND)).message
        self.assertEqual((message.kind, message.xid, message.frame), (Kind.REQUEST, 2, 2))
        self.assertEqual(passage.offer(Side.SERVER, frame(SECOND_NO_NODE)).message.answers, 2)
        self.assertEqual(passage.ending().line, ". whole unanswered=0")

    def test_room_of_passages(self):
        """Where there is no room nothing is used, and the frame may be offered again."""
        passage = self.talk(Through, lines=True, waiting=1)
        self.assertEqual(passage.offer(Side.CLIENT, frame(EXISTS)).message.line, 'C 1 exists path="/a" watch=1')
        before = passage.ending(), passage.waiting()
        for payload in (SECOND, UNKNOWN):
            full = passage.offer(Side.CLIENT, frame(payload))
            self.assertEqual((full.went, full.used, full.message), (Went.FULL, 0, None))
        self.assertEqual((passage.ending(), passage.waiting()), before)
        passage.offer(Side.SERVER, frame(NO_NODE))
        self.assertEqual(passage.offer(Side.CLIENT, frame(SECOND)).went, Went.MESSAGE)

    def test_late_passages(self):
        """A reply to what wasn't seen is passed over."""
        passage = Through(late=True)
        self.addCleanup(passage.close)
        unseen = passage.offer(Side.SERVER, frame(NO_NODE))
        self.assertEqual((unseen.went, unseen.xid, unseen.err, unseen.payload), (Went.UNSEEN, 1, -101, NO_NODE))


if __name__ == "__main__":
    unittest.main()
