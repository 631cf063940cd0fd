"""What pcap2zkr.py keeps of made conversations where packets were not captured, and that no pair of it is wrong.

The conversations are random by a seed, so it is known which reply is to which request: a message is found again by its
payload, or where a packet has one message by its time. `python3 -m tests.tools.test_pcap_pairs [SEEDS]` prints which
share of the messages is kept.
"""

import contextlib
import io
import pathlib
import random
import struct
import sys
import tempfile
import unittest.mock

from . import wire
from .support import ToolCase, zkr
from tools.zkdump_tools import pcap2zkr

PING, EVENT = b"\xff\xff\xff\xfe", b"\xff\xff\xff\xff"


class Talk:
    """A random conversation of about `count` messages, with up to `depth` requests under way. `pairs` has the number of
    the request of each reply, by the number of its message; messages are counted from 0."""

    def __init__(self, seed, depth, count, others=0.0):
        self.chance, self.said, self.pairs, waiting, xid = random.Random(seed), [], {}, [], 0
        self.say(zkr.CLIENT, struct.pack(">iqiqi", 0, 0, 30_000, 0, 16) + bytes(16))
        self.pairs[self.say(zkr.SERVER, struct.pack(">iiqi", 0, 30_000, 5, 16) + bytes(16))] = 0
        while len(self.said) < count or waiting:
            if self.chance.random() < others / 2:
                self.say(zkr.SERVER, EVENT + struct.pack(">qiiii2s", len(self.said), 0, 3, 3, 2, b"/e"))
            elif len(self.said) < count and len(waiting) < depth and (not waiting or self.chance.random() < 0.6):
                xid += 1
                is_ping = self.chance.random() < others
                waiting.append(self.say(zkr.CLIENT, PING + struct.pack(">i", 11) if is_ping else
                                        struct.pack(">iii7s?", xid, 3, 7, b"/%06d" % xid, False)))
            elif waiting:
                asked = waiting.pop(0)
                answer = self.said[asked].data[4:8] + struct.pack(">qi", 100 + len(self.said), -101)
                self.pairs[self.say(zkr.SERVER, answer if answer[:4] != PING else answer[:12] + bytes(4))] = asked

    def say(self, side, payload):
        self.said.append(zkr.Piece(side, None, len(payload).to_bytes(4, "big") + payload))
        return len(self.said) - 1

    def segments(self, most=None):
        """What is sent: a message each, or up to `most` bytes of messages of one side that follow one another."""
        if not most:
            return list(wire.conversation(self.said))
        joined = []
        for piece in self.said:
            if joined and joined[-1].side == piece.side:
                joined[-1] = piece._replace(data=joined[-1].data + piece.data)
            else:
                joined.append(piece)
        return list(wire.conversation(joined, most))

    def lottery(self, sent, share):
        """Which segments are lost: this many, or each with this chance; the connect messages never are."""
        numbers = [at for at, each in enumerate(sent[:-3]) if at > 6 and each.data]
        return set(self.chance.sample(numbers, share)) if share > 1 else \
            {at for at in numbers if self.chance.random() < share}


def recordings(sent, lost, folder):
    """What pcap2zkr --late makes of a capture without these segments: of each recording its frames, with their
    times."""
    source = pathlib.Path(folder, "capture")
    packets = [(each.milliseconds, wire.packet(each)) for at, each in enumerate(sent) if at not in lost]
    source.write_bytes(wire.pcap(packets))
    for old in pathlib.Path(folder).glob("r-*"):
        old.unlink()
    with contextlib.redirect_stdout(io.StringIO()), contextlib.redirect_stderr(io.StringIO()), \
            unittest.mock.patch("sys.argv", ["pcap2zkr.py", "--late", "--times", str(source), f"{folder}/r"]):
        pcap2zkr.main()
    found = []
    for path in pathlib.Path(folder).glob("r-*.zkr"):
        cutter, times = zkr.Cutter(), zkr.times_beside(path)
        with open(path, "rb") as recording:
            found.append([frame for piece in zkr.Reader(recording)
                          for frame in cutter.take(piece._replace(milliseconds=float(next(times))))])
    return found


class Kept:
    """What is kept of a conversation: `messages`, the numbers of its messages, and `pairs`, those of requests and
    replies. `by_time` says that a message is known by its time, and else by its payload."""

    def __init__(self, talk, sent, lost, folder, by_time):
        if by_time:
            numbers = {(each.side, each.milliseconds): at for at, each in enumerate(sent[3:-3])}
            self.number = lambda frame: numbers[frame.side, frame.milliseconds]
        else:
            numbers = {(piece.side, piece.data[4:]): at for at, piece in enumerate(talk.said)}
            self.number = lambda frame: numbers[frame.side, frame.payload]
        self.messages, self.pairs = [], []
        for frames in recordings(sent, lost, folder):
            self.take(frames[2 if frames[0].payload == zkr_made_up() else 0:])

    def take(self, frames):
        """Pairs each reply with the oldest request that waits in its lane, as zkdump does."""
        lanes = {PING: [], None: []}
        for frame in frames:
            self.messages.append(self.number(frame))
            xid = frame.payload[:4]
            if frame.side == zkr.CLIENT:
                lanes[xid if xid == PING else None].append(frame)
            elif xid != EVENT:
                asked = lanes[xid if xid == PING else None].pop(0)
                self.pairs.append((self.number(asked), self.number(frame)))


def zkr_made_up():
    return zkr.MADE_UP[zkr.CLIENT][4:]


CASES = {"11 of 5,000 lost, depth 1": (1, 11, 0.995), "11 of 5,000 lost, depth 8": (8, 11, 0.99),
         "11 of 5,000 lost, depth 200": (200, 11, 0.97), "5% lost, depth 1": (1, 0.05, 0.9),
         "5% lost, depth 8": (8, 0.05, 0.9), "5% lost, depth 200": (200, 0.05, 0.9)}


def measure(seeds, depth, share, count=5000, **others):
    """Of conversations of `count` messages by these seeds, the numbers of messages that were said, captured and kept,
    and of pairs that are wrong; a message that is kept twice counts as a wrong pair."""
    said = captured = kept = wrong = 0
    for seed in seeds:
        talk = Talk(seed, depth, count, **others)
        sent = talk.segments()
        lost = talk.lottery(sent, share)
        with tempfile.TemporaryDirectory() as folder:
            found = Kept(talk, sent, lost, folder, True)
        truth = {(asked, answer) for answer, asked in talk.pairs.items()}
        said, captured = said + len(talk.said), captured + len(talk.said) - len(lost)
        kept += len(set(found.messages))
        wrong += len(found.messages) - len(set(found.messages)) + len(set(found.pairs) - truth)
    return said, captured, kept, wrong


class Pairs(ToolCase):
    def test_what_is_kept(self):
        for name, (depth, share, least) in CASES.items():
            with self.subTest(name):
                said, _, kept, wrong = measure([1], depth, share)
                self.assertEqual(wrong, 0)
                self.assertGreater(kept / said, least)

    def test_pings_and_events(self):
        for depth, share, others in ((1, 0.02, 0.05), (8, 0.02, 0.05), (200, 0.02, 0.05), (8, 0.2, 0.05),
                                     (200, 0.2, 0.05), (1, 0.05, 0.9), (3, 0.05, 0.5)):
            with self.subTest(depth=depth, share=share, others=others):
                self.assertEqual(measure(range(2), depth, share, 1000, others=others)[3], 0)

    def test_a_capture_that_begins_among_pings(self):
        """Of how many pings from before it the replies still come isn't known."""
        for seed in range(40):
            talk = Talk(seed, seed % 5 + 1, 60, others=(0.3, 0.6, 0.9, 1)[seed % 4])
            sent = talk.segments()
            with self.subTest(seed=seed), tempfile.TemporaryDirectory() as folder:
                found = Kept(talk, sent, set(range(talk.chance.randrange(5, 40))), folder, True)
                self.assertEqual(set(found.pairs) - {(asked, answer) for answer, asked in talk.pairs.items()}, set())

    def test_messages_that_share_packets(self):
        for most in (60, 200, 1448):
            for depth in (1, 8, 200):
                with self.subTest(most=most, depth=depth):
                    talk = Talk(most, depth, 2000)
                    sent = talk.segments(most)
                    found = Kept(talk, sent, talk.lottery(sent, 0.03), self.folder, False)
                    truth = {(asked, answer) for answer, asked in talk.pairs.items()}
                    self.assertEqual(len(found.messages), len(set(found.messages)))
                    self.assertEqual(set(found.pairs) - truth, set())


if __name__ == "__main__":
    for name_, (depth_, share_, _) in CASES.items():
        said_, captured_, kept_, wrong_ = measure(range(int(sys.argv[1]) if len(sys.argv) > 1 else 3), depth_, share_)
        print(f"{name_}: {kept_ / said_:.1%} of what was said is kept, {kept_ / captured_:.1%} of what was captured; "
              f"{wrong_} pairs are wrong")
