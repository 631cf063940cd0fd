"""Tests of passages in the package libzk that go on after a refusal.

    python3 -m unittest discover examples/python/tests
"""

import unittest

from libzk import Cut, Fault, Kind, Passed, Refused, Side, Through, Waiting, Went
from test_libzk import EXISTS, HELLO, NO_NODE, WELCOME, frame
from test_offers import NO_BOOLEAN, SECOND, SECOND_NO_NODE

LONGER = NO_NODE + b"\0"  # a reply with a byte after its header, which has an error


class Resumed(unittest.TestCase):
    """An exists under xid 1 whose last byte is no boolean, one under xid 2 after it, and the replies to both."""
    CAME = ((Side.CLIENT, frame(HELLO)), (Side.SERVER, frame(WELCOME)), (Side.CLIENT, frame(NO_BOOLEAN) + frame(SECOND)),
            (Side.SERVER, frame(NO_NODE) + frame(SECOND_NO_NODE)))
    # The refused frame's last byte is the client's 68th.
    FAULT = Fault(Side.CLIENT, 1, 68, 14, "BAD_BOOL", None, None)

    def told(self, passed):
        message = passed.message
        return message and (message.kind, message.xid, message.operation, message.frame, message.answers) or passed[3:]

    def test_what_follows_a_refused_frame(self):
        """It is counted from there on; the reply to the refused request is one to a request that wasn't seen."""
        wanted = [(Kind.CONNECT, 0, "", 0, None), (Kind.CONNECTED, 0, "", 0, None), (*[None] * 6, self.FAULT),
                  (Kind.REQUEST, 2, "exists", 1, None), (1, None, NO_NODE, None, 5, -101, None),
                  (Kind.REPLY, 2, "exists", 2, 1)]
        wents = [Went.MESSAGE, Went.MESSAGE, Went.PASSED_OVER, Went.MESSAGE, Went.UNSEEN, Went.MESSAGE]
        for cut in (1, 7, 1000):
            with self.subTest(cut), Through(resumes=True) as through:
                for _ in range(2):
                    found = []
                    for side, data in self.CAME:
                        for at in range(0, len(data), cut):
                            every = through.feed(side, data[at:at + cut])
                            self.assertEqual(sum(passed.used for passed in every), len(data[at:at + cut]))
                            found += [passed for passed in every if passed.went != Went.WITHIN]
                    self.assertEqual([passed.went for passed in found], wents)
                    self.assertEqual(list(map(self.told, found)), wanted)
                    self.assertEqual(through.ending().line, ". whole unanswered=0")
                    through.renew()

    def test_read_and_skip(self):
        with Through(resumes=True) as through:
            every = [(side, passed.went, passed.used) for side, passed in through.read(self.CAME)]
            wanted = [(Side.CLIENT, Went.MESSAGE, 49), (Side.SERVER, Went.MESSAGE, 41), (Side.CLIENT, Went.PASSED_OVER, 19),
                      (Side.CLIENT, Went.MESSAGE, 19), (Side.SERVER, Went.UNSEEN, 20), (Side.SERVER, Went.MESSAGE, 20)]
            self.assertEqual(every, wanted)
            through.renew()
            every = [passed for side, data in self.CAME for passed in through.skip(side, data)]
            self.assertEqual([passed[:3] for passed in every], [(went, used, None) for _, went, used in wanted])
            self.assertEqual(every[2].fault, self.FAULT)

    def test_what_the_other_side_had_begun_stays(self):
        with Through(resumes=True) as through:
            for side, payload in ((Side.CLIENT, HELLO), (Side.SERVER, WELCOME), (Side.CLIENT, EXISTS)):
                through.feed(side, frame(payload))
            through.feed(Side.CLIENT, frame(SECOND)[:9])
            # The server's 41 bytes before it are its answer to the connect request.
            fault = Fault(Side.SERVER, 1, 62, 16, "TRAILING", None, None)
            self.assertEqual(through.feed(Side.SERVER, frame(LONGER)), [Passed(Went.PASSED_OVER, 21, fault=fault)])
            self.assertEqual((through.held(Side.CLIENT), through.held(Side.SERVER), through.waiting()), (9, 0, (0, 0)))
            self.assertEqual(through.ending()[:3], (". cut side=C frame=1 got=9", None, Cut(Side.CLIENT, 1, 9)))
            (asked,) = through.feed(Side.CLIENT, frame(SECOND)[9:])
            self.assertEqual(self.told(asked), (Kind.REQUEST, 2, "exists", 1, None))
            (answered,) = through.feed(Side.SERVER, frame(SECOND_NO_NODE))
            self.assertEqual(self.told(answered), (Kind.REPLY, 2, "exists", 1, 1))

    def test_room_for_what_the_client_sent_before(self):
        """With the refused reply no request waits, so the one for which there was no room comes before the next reply."""
        pieces = [(Side.CLIENT, frame(HELLO) + frame(EXISTS) + frame(SECOND)),
                  (Side.SERVER, frame(WELCOME) + frame(LONGER) + frame(SECOND_NO_NODE))]
        with Through(waiting=1, resumes=True) as through:
            every = [(side, passed.went, passed.message and passed.message.xid) for side, passed in through.read(pieces)]
            self.assertEqual(every, [
                (Side.CLIENT, Went.MESSAGE, 0), (Side.CLIENT, Went.MESSAGE, 1), (Side.CLIENT, Went.FULL, None),
                (Side.SERVER, Went.MESSAGE, 0), (Side.SERVER, Went.PASSED_OVER, None), (Side.CLIENT, Went.MESSAGE, 2),
                (Side.SERVER, Went.MESSAGE, 2)])

    def test_a_frame_without_an_end(self):
        """A length that no frame has is refused all the same, and stays so."""
        with Through(resumes=True) as through:
            through.feed(Side.CLIENT, frame(HELLO))
            for side, piece in ((Side.CLIENT, b"\xff" * 5), (Side.CLIENT, frame(EXISTS)), (Side.SERVER, b"")):
                with self.assertRaises(Refused) as caught:
                    through.feed(side, piece)
                fault = Fault(Side.CLIENT, 1, 53, 0, "LENGTH_RANGE", None, None)
                self.assertEqual(caught.exception.fault, fault)
            self.assertEqual(through.ending().fault, fault)

    def test_others_stay_refused(self):
        with Through() as through:
            for _ in range(2):
                with self.assertRaises(Refused) as caught:
                    through.feed(Side.CLIENT, frame(HELLO) + frame(NO_BOOLEAN) + frame(SECOND))
                self.assertEqual(caught.exception.fault, self.FAULT)
            self.assertEqual((through.waiting(), through.held(Side.CLIENT)), (Waiting(0, 0), 19))


if __name__ == "__main__":
    unittest.main()
