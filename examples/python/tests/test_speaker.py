"""Tests of the package's speaker; the payloads are those of test_libzk.py.

    python3 -m unittest discover examples/python/tests
"""

import unittest

from libzk import Refused, Side, Speaker
from test_libzk import EVENT, EXISTS, HELLO, LINES, NO_NODE, WELCOME, frame

SAID = ((Side.CLIENT, HELLO), (Side.SERVER, WELCOME), (Side.CLIENT, EXISTS), (Side.SERVER, NO_NODE), (Side.SERVER, EVENT))


class Speakers(unittest.TestCase):
    def test_frames(self):
        with Speaker() as speaker:
            frames = [speaker.say(line) for line in LINES]
        self.assertEqual(frames, list(map(frame, (HELLO, WELCOME, EXISTS, NO_NODE, EVENT))))

    def test_refusals(self):
        with Speaker() as speaker:
            for line, name, column in (("C 1 exists", "LINE_WORD", 11), ("", "LINE_WORD", 1),
                                       ('C 1 exists path="/\ud800" watch=1', "LINE_TEXT", 17), (LINES[2], "NOT_FIRST", 0)):
                with self.assertRaises(Refused) as caught:
                    speaker.say(line)
                self.assertEqual((caught.exception.name, caught.exception.place), (name, column))
            self.assertEqual(speaker.say(LINES[0]), frame(HELLO))

    def test_payloads(self):
        with Speaker() as speaker:
            self.assertEqual([speaker.say_payload(*said) for said in SAID], [frame(payload) for _, payload in SAID])

    def test_refused_payloads(self):
        with Speaker() as speaker:
            for side, payload, name, place in ((Side.SERVER, WELCOME, "UNASKED", 0), (Side.CLIENT, EXISTS, "SHORT", 12),
                                               (Side.CLIENT, HELLO + b"\2\0", "TRAILING", 45)):
                with self.assertRaises(Refused) as caught:
                    speaker.say_payload(side, payload)
                self.assertEqual((caught.exception.name, caught.exception.place), (name, place))
            self.assertEqual(speaker.say_payload(*SAID[0]), frame(HELLO))


if __name__ == "__main__":
    unittest.main()
