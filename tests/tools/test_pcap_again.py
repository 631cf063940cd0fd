"""Tests of how many segments pcap2zkr.py counts as captured again, in whatever order they come."""

import random
import re

from . import wire
from .captured import PcapCase, capture_of
from .support import sides, zkr


def captured_again(sent):
    """How many of these segments have a byte, or no byte and a SYN or FIN, that one before them had: but not one of the
    last byte alone, which asks whether the other end is alive."""
    count, seen = 0, {zkr.CLIENT: set(), zkr.SERVER: set()}
    for each in sent:
        known, marks = seen[each.side], {-flag for flag in (wire.SYN, wire.FIN) if each.flags & flag}
        own = set(range(each.number, each.number + len(each.data))) or marks
        ends = [number for number in known if number >= 0 and number + 1 not in known]
        count += bool(own & known) and not (len(each.data) == 1 and own <= {min(ends), max(ends)})
        known |= own | marks
    return count


class Again(PcapCase):
    def test_in_any_order(self):
        """Conversations of which bytes are sent again with other cuts, and packets captured in disorder."""
        for seed in range(60):
            chance = random.Random(seed)
            said = [zkr.Piece(chance.choice([zkr.CLIENT, zkr.SERVER]), None, chance.randbytes(chance.randrange(1, 40)))
                    for _ in range(12)]
            sent = list(wire.conversation(said, chance.choice([3, 10, 50]), (1000, 2**32 - 50)))
            first, whole = [each.number + 1 for each in sent[:2]], [b"", b""]
            for piece in said:
                whole[piece.side == zkr.SERVER] += piece.data
            more = []
            for each in sent[3:]:
                more.append(each)
                if each.data and chance.random() < 0.5:
                    server = each.side == zkr.SERVER
                    end = each.number + len(each.data) - first[server]
                    begin = max(0, end - chance.randrange(1, 60))
                    end = min(end, begin + chance.randrange(1, 30))
                    more.append(each._replace(number=first[server] + begin, data=whole[server][begin:end],
                                              acknowledged=first[not server]))
            size = chance.choice([1, 2, 4, 8, 100])
            mixed = [each for at in range(0, len(more), size)
                     for each in chance.sample(more[at:at + size], len(more[at:at + size]))]
            with self.subTest(seed=seed):
                status, told, made = self.convert(capture_of([*sent[:3], *mixed]))
                last, count = map(int, re.search(r" packets=1-(\d+) resent=(\d+) closed=", told[0]).groups())
                self.assertEqual((status, sides(made[0])), (0, tuple(whole)))
                # What comes once it is complete is no longer read.
                self.assertEqual(count, captured_again([*sent[:3], *mixed][:last]))

    def test_what_comes_apart(self):
        """Bytes from 0 on, 10 and more at a time: those of these places, in this order."""
        sent = list(wire.conversation([zkr.Piece(zkr.CLIENT, None, bytes(range(40)))], close=False))
        whole = sent[3]
        for places, count in ((((10, 20), (0, 10)), 0), (((10, 20), (0, 15)), 1), (((10, 20), (5, 30), (0, 10)), 2),
                              (((10, 20), (10, 15), (0, 10)), 1), (((10, 20), (19, 20), (0, 10)), 0),
                              (((10, 20), (30, 40), (20, 30), (0, 10)), 0), (((10, 20), (18, 19), (0, 10)), 1),
                              (((10, 20), (30, 40), (15, 35), (0, 15)), 2), (((20, 30), (0, 10), (9, 10)), 0)):
            with self.subTest(places=places):
                cut = [whole._replace(number=whole.number + begin, data=whole.data[begin:end])
                       for begin, end in places]
                self.assertIn(f" resent={count} ", self.convert(capture_of([*sent[:3], *cut]))[1][0])

    def test_what_comes_before_the_first_of_a_late_connection(self):
        sent = list(wire.conversation([zkr.Piece(zkr.CLIENT, None, b"some")] * 4, close=False))[3:]
        for order, count in ((sent, 0), ([sent[1], sent[0], *sent[2:]], 0), ([sent[0], *sent], 1)):
            self.assertIn(f" resent={count} open late", self.convert(capture_of(order))[1][0])
