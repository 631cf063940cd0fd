"""Tests of passages in the package libzk, which leave out what the profile lacks.

    python3 -m unittest discover examples/python/tests
"""

import itertools
import unittest

from libzk import Cut, Fault, Kind, Passed, Refused, Side, Through, Went
from test_libzk import EXISTS, HELLO, NO_NODE, WELCOME, frame

# An operation that no release has (9999) of /a, and its reply.
UNKNOWN = bytes.fromhex("00000001 0000270f 00000002 2f61")
NONE = bytes.fromhex("00000001 0000000000000005 00000000 00000000")


class Passages(unittest.TestCase):
    """That operation under xid 1, and an exists request under xid 2 before its reply."""
    SECOND, SECOND_NO_NODE = b"\0\0\0\2" + EXISTS[4:], b"\0\0\0\2" + NO_NODE[4:]
    CAME = ((Side.CLIENT, HELLO), (Side.SERVER, WELCOME), (Side.CLIENT, UNKNOWN), (Side.CLIENT, SECOND),
            (Side.SERVER, NONE), (Side.SERVER, SECOND_NO_NODE))

    def told(self, passed):
        """What is read of a step that ends with a frame."""
        message = passed.message
        if message is None:
            return passed.went, passed.xid, passed.operation, passed.payload, passed.frame
        self.assertEqual((passed.went, *passed[3:]), (Went.MESSAGE, *[None] * 7))
        return message.kind, message.xid, message.operation, message.payload, message.frame, message.answers

    def test_pairs_are_left_out(self):
        wanted = [(Kind.CONNECT, 0, "", HELLO, 0, None), (Kind.CONNECTED, 0, "", WELCOME, 0, None),
                  (Went.ASKED, 1, 9999, UNKNOWN, 1), (Kind.REQUEST, 2, "exists", self.SECOND, 2, None),
                  (Went.ANSWERED, 1, 9999, NONE, 1), (Kind.REPLY, 2, "exists", self.SECOND_NO_NODE, 2, 2)]
        with Through() as through:
            for cut in (1, 7, 1000):
                found = []
                for side, data in ((side, frame(payload)) for side, payload in self.CAME):
                    for at in range(0, len(data), cut):
                        every = through.feed(side, bytearray(data[at:at + cut]))
                        self.assertEqual(sum(passed.used for passed in every), len(data[at:at + cut]))
                        found += [passed for passed in every if passed.went != Went.WITHIN]
                self.assertEqual(list(map(self.told, found)), wanted)
                self.assertEqual((found[3].message["path"], found[5].message.err), ("/a", -101))
                through.renew()

    def test_lines(self):
        with Through(lines=True) as through:
            every = [passed for side, payload in self.CAME for passed in through.feed(side, frame(payload))]
        self.assertEqual([passed.message and passed.message.line for passed in every[2:]],
                         [None, 'C 2 exists path="/a" watch=1', None, "S 2 exists zxid=5 err=-101/NONODE"])

    def test_steps_of_one_piece(self):
        with Through() as through:
            asked = [frame(payload) for side, payload in self.CAME if side == Side.CLIENT]
            every = through.feed(Side.CLIENT, b"".join(asked) + b"\0")
            self.assertEqual([(passed.went, passed.used) for passed in every],
                             [(Went.MESSAGE, 49), (Went.ASKED, 18), (Went.MESSAGE, 19), (Went.WITHIN, 1)])
            self.assertEqual(through.feed(Side.CLIENT, b""), [Passed(Went.WITHIN, 0)])

    def test_full(self):
        with Through(waiting=1) as through:
            through.feed(Side.CLIENT, frame(HELLO))
            through.feed(Side.SERVER, frame(WELCOME))
            asked, full = through.feed(Side.CLIENT, frame(UNKNOWN) + frame(self.SECOND))
            self.assertEqual((asked.went, asked.used, full), (Went.ASKED, 18, Passed(Went.FULL, 0)))
            self.assertEqual(through.feed(Side.CLIENT, frame(self.SECOND)[:9]), [Passed(Went.WITHIN, 9)])
            for _ in range(2):
                self.assertEqual(through.feed(Side.CLIENT, frame(self.SECOND)[9:]), [Passed(Went.FULL, 0)])
            self.assertEqual([passed.went for passed in through.feed(Side.SERVER, frame(NONE))], [Went.ANSWERED])
            (last,) = through.feed(Side.CLIENT, frame(self.SECOND)[9:])
            self.assertEqual((last.used, self.told(last)), (10, (Kind.REQUEST, 2, "exists", self.SECOND, 2, None)))

    def healthy(self):
        """A healthy conversation of four requests, of which both sides' messages come in one piece each, and what is
        read of it where one may wait: each side's in its order."""
        asked = [HELLO] + [xid.to_bytes(4, "big") + EXISTS[4:] for xid in (1, 2)] + [b"\0\0\0\3" + UNKNOWN[4:],
                                                                                   b"\0\0\0\4" + EXISTS[4:]]
        answered = [WELCOME] + [xid.to_bytes(4, "big") + NO_NODE[4:] for xid in (1, 2)] + [b"\0\0\0\3" + NONE[4:],
                                                                                         b"\0\0\0\4" + NO_NODE[4:]]
        wanted = [[(Kind.CONNECT, 0), (Kind.REQUEST, 1), (Kind.REQUEST, 2), (Went.ASKED, 3), (Kind.REQUEST, 4)],
                  [(Kind.CONNECTED, 0), (Kind.REPLY, 1), (Kind.REPLY, 2), (Went.ANSWERED, 3), (Kind.REPLY, 4)]]
        return [b"".join(map(frame, payloads)) for payloads in (asked, answered)], wanted

    def test_as_many_as_may_wait(self):
        """The server's next bytes come after the client's that had no room, reply by reply."""
        for waiting in (1, 2, 3, 65536):
            (client, server), wanted = self.healthy()
            left, found = {Side.CLIENT: client, Side.SERVER: server}, [[], []]
            with Through(waiting=waiting) as through:
                while any(left.values()):
                    for side in Side:
                        if left[side]:
                            every = through.feed(side, left[side])
                            left[side] = left[side][sum(passed.used for passed in every):]
                            self.assertEqual(every[-1].went == Went.FULL, bool(left[side]))
                            found[side] += [self.told(passed)[:2] for passed in every if passed.went != Went.FULL]
                self.assertEqual(through.ending().unanswered, 0)
            self.assertEqual(found, wanted)

    def test_read(self):
        """What the client sends is kept while it has no room, whatever its pieces, and taken after each reply."""
        for waiting, cut in ((1, 1000), (1, 7), (2, 1000), (3, 11), (65536, 1)):
            (client, server), wanted = self.healthy()
            pieces = [(side, sent[at:at + cut]) for side, sent in ((Side.CLIENT, client), (Side.SERVER, server))
                      for at in range(0, len(sent), cut)]
            with Through(waiting=waiting) as through:
                every = [(side, *self.told(passed)[:2]) for side, passed in through.read(pieces)
                         if passed.went not in (Went.WITHIN, Went.FULL)]
                self.assertEqual(through.ending().unanswered, 0)
            for side in Side:
                self.assertEqual([of for by, *of in every if by == side], [list(pair) for pair in wanted[side]])
            steps = {Kind.REQUEST: 1, Went.ASKED: 1, Kind.REPLY: -1, Went.ANSWERED: -1}
            most = max(itertools.accumulate(steps.get(kind, 0) for _, kind, _ in every))
            self.assertLessEqual(most, waiting)
        with Through(waiting=1) as through:
            every = [passed.went for _, passed in through.read([(Side.CLIENT, client), (Side.SERVER, frame(WELCOME))])]
            self.assertEqual(every, [Went.MESSAGE, Went.MESSAGE, Went.FULL, Went.MESSAGE])
            through.renew()
            self.assertEqual([passed.went for _, passed in through.read([(Side.CLIENT, frame(HELLO))])], [Went.MESSAGE])

    def test_a_reply_before_its_turn(self):
        with Through() as through:
            for side, payload in self.CAME[:4]:
                through.feed(side, frame(payload))
            wanted = Fault(Side.SERVER, 1, 61, 0, "XID_ORDER", 1, 2)
            for side, piece in ((Side.SERVER, frame(self.SECOND_NO_NODE)), (Side.CLIENT, b"")):
                with self.assertRaises(Refused) as caught:
                    through.feed(side, piece)
                self.assertEqual((caught.exception.fault, caught.exception.messages), (wanted, ()))
            through.renew()
            with self.assertRaises(Refused) as caught:
                through.feed(Side.CLIENT, frame(HELLO) + frame(UNKNOWN) + frame(self.SECOND[:-1]))
            self.assertEqual(caught.exception.fault, Fault(Side.CLIENT, 2, 85, 14, "SHORT", None, None))
            self.assertEqual([message.kind for message in caught.exception.messages], [Kind.CONNECT])

    def test_late(self):
        earlier = bytes.fromhex("00000001 0000000000000004 ffffff9b")
        with Through(late=True) as through:
            every = [passed for side, payload in ((Side.CLIENT, self.SECOND), (Side.SERVER, earlier),
                                                  (Side.SERVER, self.SECOND_NO_NODE))
                     for passed in through.feed(side, frame(payload))]
            self.assertEqual(self.told(every[0]), (Kind.REQUEST, 2, "exists", self.SECOND, 1, None))
            self.assertEqual(every[1], Passed(Went.UNSEEN, 20, None, 1, None, earlier, None, 4, -101))
            self.assertEqual(self.told(every[2]), (Kind.REPLY, 2, "exists", self.SECOND_NO_NODE, 2, 1))
            with self.assertRaises(Refused) as caught:
                through.feed(Side.SERVER, frame(earlier))
            # The made up frames have 32 and 24 bytes.
            self.assertEqual(caught.exception.fault, Fault(Side.SERVER, 3, 84, 0, "UNASKED", None, None))
            through.renew()
            self.assertEqual(through.feed(Side.CLIENT, frame(HELLO))[0].went, Went.MESSAGE)

    def test_endings(self):
        with Through() as through:
            self.assertEqual(through.ending(), (". whole unanswered=0", 0, None, None))
            for side, payload in self.CAME[:4]:
                through.feed(side, frame(payload))
            self.assertEqual(through.ending(), (". whole unanswered=2", 2, None, None))
            through.feed(Side.SERVER, frame(NONE)[:9])
            self.assertEqual(through.ending(), (". cut side=S frame=1 got=9", None, Cut(Side.SERVER, 1, 9), None))
            through.feed(Side.SERVER, frame(NONE)[9:])
            self.assertEqual(through.ending(), (". whole unanswered=1", 1, None, None))
            with self.assertRaises(Refused):
                through.feed(Side.SERVER, frame(NONE))
            wanted = Fault(Side.SERVER, 2, 89, 0, "XID_ORDER", 2, 1)
            line = ". refused side=S frame=2 offset=89 place=0 reason=XidOrder expected=2 got=1"
            self.assertEqual(through.ending(), (line, None, None, wanted))

    def test_what_waits_and_is_held(self):
        """The request that is left out waits, too, and weighs 1."""
        with Through() as through:
            found = []
            for side, payload in self.CAME:
                through.feed(side, frame(payload)[:-1])
                held = through.held(side)
                through.feed(side, frame(payload)[-1:])
                found.append((held, through.held(side), through.waiting()))
            sizes = [len(frame(payload)) - 1 for _, payload in self.CAME]
            self.assertEqual(found, [(size, 0, (count, count)) for size, count in zip(sizes, (0, 0, 1, 2, 1, 0))])
            self.assertEqual(through.ending().line, ". whole unanswered=0")

    def test_skip(self):
        """What is skipped is judged, and has no message and no payload."""
        with Through() as through:
            every = [passed for side, payload in self.CAME for passed in through.skip(side, frame(payload))]
            sizes = [len(frame(payload)) for _, payload in self.CAME]
            self.assertEqual(every, [
                Passed(Went.MESSAGE, sizes[0]), Passed(Went.MESSAGE, sizes[1]),
                Passed(Went.ASKED, sizes[2], None, 1, 9999, None, 1), Passed(Went.MESSAGE, sizes[3]),
                Passed(Went.ANSWERED, sizes[4], None, 1, 9999, None, 1), Passed(Went.MESSAGE, sizes[5])])
            with self.assertRaises(Refused) as caught:
                through.skip(Side.SERVER, frame(NONE))
            self.assertEqual(caught.exception.fault, Fault(Side.SERVER, 3, 109, 0, "UNASKED", None, None))


if __name__ == "__main__":
    unittest.main()
