"""Tests of where the frames of a side begin again (resync.py)."""

import random
import struct
import unittest

from .support import CAPTURES, sides, zkr
from ..unknown_operations import NUMBER
from tools.zkdump_tools import resync

LIMIT = zkr.USUAL_LIMIT
CLIENT, SERVER = zkr.CLIENT, zkr.SERVER


def frame(form, *values, more=b""):
    payload = struct.pack(form, *values) + more
    return len(payload).to_bytes(4, "big") + payload


def path(text):
    return len(text).to_bytes(4, "big") + text


def request(xid, kind, more=b""):
    return frame(">ii", xid, kind, more=more)


def reply(xid, zxid, err=0, more=b""):
    return frame(">iqi", xid, zxid, err, more=more)


def event(kind=3, state=3, text=b"/a"):
    return reply(-1, -1, more=struct.pack(">ii", kind, state) + path(text))


EXISTS = request(7, 3, path(b"/a") + b"\0")


class Plausible(unittest.TestCase):
    """What a frame may be, by the rule at the head of resync.py."""

    def check(self, side, good, bad):
        for wanted, frames in ((True, good), (False, bad)):
            for each in frames:
                with self.subTest(side=side, wanted=wanted, frame=each.hex(" ", 4)):
                    self.assertEqual(bool(resync.frames_follow(side, each, 0, LIMIT)), wanted)

    def test_requests(self):
        create = path(b"/a") + path(b"data") + struct.pack(">i", -1) + bytes(4)
        self.check(CLIENT, [
            EXISTS, request(1, 1, create), request(1, 15, create), request(2, 2, path(b"/") + bytes(4)),
            request(3, 5, path(b"/a") + path(b"") + bytes(4)), request(4, 6, path(b"/a")), request(-2, 11),
            request(-4, 100, bytes(4) + path(b"digest") + path(b"a:b")), request(9, -11), request(9, 107),
            request(-8, 101, bytes(8) + bytes(12)), request(8, 101, bytes(8) + bytes(12)),
            request(5, 14, struct.pack(">i?i", -1, True, -1)), request(6, 106, path(b"/a") + bytes(4)),
        ], [
            request(0, 3, path(b"/a") + b"\0"), request(-1, 3, path(b"/a") + b"\0"),  # no xid of a request
            request(7, 3, path(b"/a")), request(7, 3, path(b"/a") + b"\0\0"),  # a byte is missing, or is too much
            request(7, 3, path(b"a") + b"\0"), request(7, 3, path(b"") + b"\0"),  # no path
            request(7, 3, struct.pack(">i", -1) + b"/"), request(7, 3, struct.pack(">i", 1 << 30) + b"/"),
            request(7, 10, path(b"/a")), request(7, 13, path(b"/a") + bytes(4)), request(7, NUMBER), request(7, 0),
            request(7, 11), request(-2, 3, path(b"/a") + b"\0"), request(-4, 3, path(b"/a") + b"\0"),
            request(7, 100, bytes(16)), request(-2, 11, b"\0"), request(9, -11, b"\0"), request(5, 14),
            struct.pack(">i", LIMIT + 1) + EXISTS[4:], struct.pack(">i", -1) + EXISTS[4:], bytes(64),
        ])

    def test_replies_and_events(self):
        stat = bytes(68)
        self.check(SERVER, [
            reply(1, 5), reply(1, 5, -101), reply(1, -1, -112), reply(1, 5, more=stat), reply(1, 5, more=path(b"/a")),
            reply(1, 5, more=path(b"data") + stat), reply(1, 5, more=struct.pack(">i", -1) + stat),
            reply(1, 5, more=struct.pack(">i", 2) + path(b"a") + path(b"b")), reply(1, 5, more=bytes(4)),
            reply(1, 5, more=struct.pack(">ii", 1, 31) + path(b"world") + path(b"anyone") + stat),
            reply(1, 5, more=struct.pack(">i?i", -1, True, -1)), reply(1, 5, more=path(b"/a") + stat),
            reply(-2, 0), reply(-4, 0), reply(-4, 0, -115), reply(-8, 5), event(), event(state=-112),
            event(kind=-1, state=0, text=b""),
        ], [
            reply(0, 5), reply(-3, 5), reply(1, 0), reply(1, -5), reply(1, 5, 1), reply(1, 5, -101, b"\0"),
            reply(-2, 0, more=bytes(4)), reply(1, 5, more=path(b"/a")[:-1]), reply(1, 5, more=b"\xff\xff\xff\xfe" * 3),
            event(kind=9), event(state=77), event(text=b"a"), event()[:-1], reply(-1, -1, -4),
            reply(-1, -1, more=struct.pack(">iii", 3, 3, 9) + b"/"), reply(-1, -1), bytes(64),
        ])

    def test_more_bytes_may_be_needed(self):
        for side, whole in ((CLIENT, EXISTS), (SERVER, event())):
            for size in range(1, len(whole)):
                self.assertIsNone(resync.frames_follow(side, whole[:size], 0, LIMIT))


class Places(unittest.TestCase):
    def test_frames_up_to_the_end(self):
        two = EXISTS + request(8, 4, path(b"/b") + b"\1")
        for before in (b"", b"/c\0", bytes(50), EXISTS[5:], b"\xff" * 9):
            self.assertEqual(resync.resynchronise(CLIENT, before + two, LIMIT)[0], len(before))

    def test_a_frame_that_is_cut_waits_for_the_rest(self):
        before = EXISTS[9:]
        for size in range(1, len(EXISTS)):
            place, keep = resync.resynchronise(CLIENT, before + EXISTS[:size], LIMIT)
            self.assertIsNone(place)
            data = before + EXISTS[:size]
            self.assertEqual(data[keep:], EXISTS[:size] if size >= 12 else data[-11:])
            self.assertEqual(resync.resynchronise(CLIENT, (before + EXISTS)[keep:], LIMIT)[0], len(before) - keep)

    def test_three_frames_and_the_beginning_of_another(self):
        for count in range(5):
            data = b"abc" + EXISTS * count + EXISTS[:15]
            self.assertEqual(resync.resynchronise(CLIENT, data, LIMIT)[0], 3 if count >= 3 else None)

    def test_no_more_is_kept_than_the_bound(self):
        begun = request(1, 5, path(b"/a") + struct.pack(">i", 1 << 20) + bytes(1 << 20) + bytes(4))
        self.assertEqual(resync.resynchronise(CLIENT, begun[:60_000], LIMIT), (None, 0))
        place, keep = resync.resynchronise(CLIENT, begun[:70_000], LIMIT)
        self.assertIsNone(place)
        self.assertEqual(70_000 - keep, 1 << 16)

    def test_a_stat_is_no_frame(self):
        """Its numbers can look like a reply's header: version 32 as a length, and small numbers after it."""
        stat = struct.pack(">qqqqiiiqiiq", 9, 9, 1 << 40, 1 << 40, 32, 1, 0, 0, 5, 0, 9)
        data = reply(4, 9, more=stat)
        for cut in range(1, len(data)):
            self.assertIsNone(resync.resynchronise(SERVER, data[cut:], LIMIT)[0])

    def test_every_recording_from_any_place(self):
        """From any place of a side, the place that is found is one where a frame begins."""
        chance, found = random.Random(3), 0
        for recording in CAPTURES:
            if recording.name.startswith("refused"):
                continue
            for side, data in zip((CLIENT, SERVER), sides(recording.read_bytes())):
                begins, at = set(), 0
                while at < len(data):
                    begins.add(at)
                    at += 4 + int.from_bytes(data[at:at + 4], "big")
                for _ in range(30):
                    begin = chance.randrange(1, len(data))
                    end = min(len(data), begin + chance.choice((100, 1448, 20_000)))
                    place, _ = resync.resynchronise(side, data[begin:end], LIMIT)
                    if place is not None:
                        found += 1
                        self.assertIn(begin + place, begins, (recording.stem, side, begin, end))
        self.assertGreater(found, 100)

    def test_a_time_is_no_frame(self):
        """The first half of a time in 2026 is 418, and 418 bytes after its second half may be where a frame begins."""
        time = 418 << 32 | 36_408_704
        stat = struct.pack(">qqqqiiiqiiq", 9, 9, time, time, 0, 0, 0, 0, 5, 0, 9)
        sizes = enumerate((0, 0, 0, 2, 0), 5)
        following = b"".join(reply(xid, 9, more=path(bytes(size)) + stat) for xid, size in sizes)
        data = stat[16:] + following
        self.assertEqual(resync.resynchronise(SERVER, data, LIMIT)[0], len(stat) - 16)

    def test_random_bytes_have_no_frames(self):
        chance = random.Random(9)
        for values in (range(256), (0, 0, 0, 1, 255), (0, 0, 0, 0, 0, 0, 3, 16, 47)):
            for side in (CLIENT, SERVER):
                data = bytes(chance.choices(values, k=100_000))
                place, _ = resync.resynchronise(side, data, LIMIT)
                self.assertIsNone(place, (values, side))
