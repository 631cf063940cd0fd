"""Tests of what pcap2zkr.py makes of connections that were not captured whole."""

import random
import re
import struct
import subprocess

from . import wire
from .captured import SMALL, PcapCase, capture_of
from .support import PROGRAM, pieces, sides, zkr


def frame(side, *numbers, more=b""):
    payload = b"".join(value.to_bytes(length, "big", signed=True) for value, length in numbers) + more
    return zkr.Piece(side, None, len(payload).to_bytes(4, "big") + payload)


def ask(xid):
    """A request for exists."""
    return frame(zkr.CLIENT, (xid, 4), (3, 4), more=b"\0\0\0\2/a\0")


def reply(xid):
    """The reply that there is no such node."""
    return frame(zkr.SERVER, (xid, 4), (7, 8), (-101, 4))


CONNECT = [zkr.Piece(zkr.CLIENT, None, struct.pack(">iiqiqi", 44, 0, 0, 30_000, 0, 16) + bytes(16)),
           zkr.Piece(zkr.SERVER, None, struct.pack(">iiiqi", 36, 0, 30_000, 5, 16) + bytes(16))]
PING, PONG = frame(zkr.CLIENT, (-2, 4), (11, 4)), frame(zkr.SERVER, (-2, 4), (7, 8), (0, 4))
EVENT = frame(zkr.SERVER, (-1, 4), (-1, 8), (0, 4), (3, 4), (3, 4), more=b"\0\0\0\2/a")


class JoinedCase(PcapCase):
    def frames(self, recording):
        cutter = zkr.Cutter()
        return [frame for piece in pieces(recording) for frame in cutter.take(piece)]

    def check_joined(self, made, source, bytes_of_sides):
        """That the frames are the made-up pair and then frames of the source in its order, and that each reply is
        that of the oldest request that waits."""
        self.assertEqual([len(made[0].payload), len(made[1].payload)], [28, 20])
        self.assertEqual(sum(4 + len(frame.payload) for frame in made), sum(map(len, bytes_of_sides)))
        rest = iter((frame.side, frame.payload) for frame in source)
        self.assertTrue(all((frame.side, frame.payload) in rest for frame in made[2:]))
        waiting = []
        for frame in made[2:]:
            xid = struct.unpack(">i", frame.payload[:4])[0]
            if xid <= 0:
                continue
            if frame.side == zkr.CLIENT:
                waiting.append(xid)
            else:
                self.assertEqual(xid, waiting.pop(0))

    def assert_no_refusal(self, recording):
        """That the program finds the recording whole, or cut."""
        if PROGRAM.exists():
            done = subprocess.run([PROGRAM, "check"], input=recording, capture_output=True, text=False, check=False)
            self.assertRegex(done.stdout.decode(), r"^\. (whole|cut) ")


class Late(JoinedCase):
    def test_is_reported(self):
        sent = list(wire.conversation(pieces(SMALL[0].read_bytes())))
        status, told, made = self.convert(capture_of(sent[6:]))
        self.assertEqual((status, made), (1, []))
        self.assertRegex(told[0], r"^- 10\.0\.0\.7:41822 > 10\.0\.0\.9:2181 begun \S+ ended \S+ client=0 server=0 "
                         r"packets=1-\d+ resent=0 closed=C late$")

    def test_is_joined(self):
        chance, joined = random.Random(7), 0
        for path in SMALL:
            source = path.read_bytes()
            sent = list(wire.conversation(pieces(source)))
            if path.name.startswith("refused") or len(sent) < 20:
                continue
            for _ in range(3):
                begin = chance.randrange(5, len(sent) - 10)
                with self.subTest(recording=path.stem, begin=begin):
                    status, told, made = self.convert(capture_of(sent[begin:]), "--late")
                    self.assertEqual((status, len(told)), (1, 1))
                    self.assertRegex(told[0], r" late skipped=C:\d+,S:\d+ unasked=\d+$")
                    if made:
                        joined += 1
                        self.check_joined(self.frames(made[0]), self.frames(source), sides(made[0]))
        self.assertGreater(joined, 20)

    def test_replies_without_their_requests_are_counted(self):
        asks, replies = [ask(xid) for xid in range(1, 6)], [reply(xid) for xid in range(1, 6)]
        sent = list(wire.conversation([*asks[:3], replies[0], EVENT, asks[3], replies[1], replies[2], replies[3],
                                       asks[4], replies[4]]))[6:]
        status, told, made = self.convert(capture_of(sent), "--late")
        self.assertEqual((status, told[0].split()[-3:]), (1, ["late", "skipped=C:0,S:0", "unasked=3"]))
        self.assertEqual(pieces(made[0])[2:], [EVENT, asks[3], replies[3], asks[4], replies[4]])

    def test_frames_that_are_cut_are_put_together(self):
        """The first reply begins in one segment and ends in the next, with another after it."""
        asks, replies = [ask(xid) for xid in range(1, 5)], [reply(xid) for xid in range(1, 5)]
        cut = [replies[0]._replace(data=replies[0].data[:7]),
               replies[1]._replace(data=replies[0].data[7:] + replies[1].data)]
        sent = list(wire.conversation([asks[0], cut[0], asks[1], cut[1], asks[2], replies[2], asks[3], replies[3]]))
        status, told, made = self.convert(capture_of(sent[3:]), "--late")
        self.assertEqual((status, told[0].split()[-2:]), (1, ["skipped=C:0,S:0", "unasked=0"]))
        kept = [*asks[:2], *replies[:2], asks[2], replies[2], asks[3], replies[3]]
        self.assertEqual([piece.data for piece in pieces(made[0])[2:]], [each.data for each in kept])


class AfterLoss(JoinedCase):
    """What follows a loss."""

    def parts(self, said, *gone, are_frames=True):
        """The lines without their paths, and what is in the recordings, where the segments of these pieces were not
        captured."""
        sent = list(wire.conversation([*CONNECT, *said]))
        keep = [each for at, each in enumerate(sent) if at - 5 not in gone]
        status, told, made = self.convert(capture_of(keep))
        self.assertEqual(status, 1 if gone else 0)
        for recording in made if are_frames else ():
            self.assert_no_refusal(recording)
        names = [line.split()[0].rpartition("/")[2] for line in told]
        ends = [" ".join(line.split()[10:]) for line in told]
        return names, ends, [[piece[::2] for piece in pieces(recording)[2:]] for recording in made]

    def assert_parts(self, made, *expected):
        self.assertEqual(made, [[piece[::2] for piece in said] for said in expected])

    def test_a_lost_reply(self):
        said = [ask(1), reply(1), ask(2), reply(2), ask(3), reply(3)]
        names, ends, made = self.parts(said, 3)
        self.assertEqual(names, ["r-1.zkr", "r-1.2.zkr"])
        self.assertEqual(ends, ["packets=1-8 resent=0 hole=S",
                                "packets=9-13 resent=0 closed=C lost=C:0,S:20 skipped=C:0,S:0 unasked=0"])
        self.assert_parts(made, said[:3], said[4:])

    def test_a_lost_request(self):
        said = [ask(1), reply(1), ask(2), reply(2), ask(3), reply(3)]
        names, ends, made = self.parts(said, 2)
        self.assertEqual(names, ["r-1.zkr", "r-1.2.zkr"])
        self.assertEqual(ends, ["packets=1-7 resent=0 hole=C",
                                "packets=9-13 resent=0 closed=C lost=C:19,S:0 skipped=C:0,S:0 unasked=1"])
        self.assert_parts(made, said[:2], said[4:])

    def test_replies_to_what_was_asked_before_a_lost_request(self):
        """They come after it, and belong to the recording before it."""
        said = [*map(ask, range(1, 7)), reply(1), EVENT, *map(reply, range(2, 7))]
        _, ends, made = self.parts(said, 2)
        self.assert_parts(made, [*said[:2], reply(1), EVENT, reply(2)], [*said[3:6], *map(reply, range(4, 7))])
        self.assertRegex(ends[1], r" lost=C:19,S:0 skipped=C:0,S:0 unasked=1$")

    def test_lost_replies_of_many_requests_under_way(self):
        """What was asked from the request of the first reply after the loss on is in the recording after it."""
        said = [*map(ask, range(1, 9)), *map(reply, range(1, 9))]
        _, ends, made = self.parts(said, 10)
        self.assert_parts(made, [*said[:3], reply(1), reply(2)], [*said[3:8], *map(reply, range(4, 9))])
        self.assertRegex(ends[0], r"^packets=1-15 resent=0 hole=S$")
        self.assertRegex(ends[1], r"^packets=9-\d+ .* lost=C:0,S:20 skipped=C:0,S:0 unasked=0$")
        _, _, made = self.parts(said, 3, 8, 13)
        self.assert_parts(made, said[:1], [*said[1:3], reply(2), reply(3)], [*said[4:6], reply(5)],
                          [*said[6:8], reply(7), reply(8)])

    def test_what_is_asked_after_the_loss_joins_what_is_asked_before_it(self):
        said = [*map(ask, range(1, 5)), reply(1), reply(2), EVENT, ask(5), reply(3), PING, reply(4), reply(5), PONG]
        _, _, made = self.parts(said, 5)
        self.assert_parts(made, [ask(1), ask(2), reply(1)], [ask(3), ask(4), EVENT, *said[7:]])

    def test_a_lost_request_and_lost_replies(self):
        """What was asked before a lost request and is answered after lost replies has a recording of its own."""
        said = [*map(ask, range(1, 8)), *map(reply, range(1, 8))]
        for gone, parts in (((4, 8), [[*said[:2], reply(1)], [*said[2:4], reply(3), reply(4)],
                                      [*said[5:7], reply(6), reply(7)]]),
                            ((4, 8, 12), [[*said[:2], reply(1)], [*said[2:4], reply(3), reply(4)],
                                          [ask(7), reply(7)]])):
            names, ends, made = self.parts(said, *gone)
            self.assert_parts(made, *parts)
            self.assertEqual([re.sub(" skipped.*|.*resent=0 ", "", end) for end in ends],
                             ["hole=C hole=S", "lost=C:0,S:20", f"closed=C lost=C:19,S:{20 * (len(gone) - 2)}"])
            self.assertTrue(ends[1].endswith(" hole=C"))

    def test_a_request_that_begins_before_the_loss_and_ends_after_it(self):
        cut = [ask(2)._replace(data=ask(2).data[:7]), ask(2)._replace(data=ask(2).data[7:])]
        said = [ask(1), cut[0], reply(1), EVENT, cut[1], reply(2)]
        _, _, made = self.parts(said, 2)
        self.assert_parts(made, [ask(1)], [EVENT, ask(2), reply(2)])

    def test_bytes_of_the_server_that_are_no_frames_and_begin_before_the_loss(self):
        """They are written as they came, and each once."""
        other = bytes(range(200, 250))
        for cut in (1, 3):
            said = [ask(1), reply(1), reply(0)._replace(data=other[:cut]), ask(2),
                    reply(0)._replace(data=other[cut:30]), ask(3), reply(0)._replace(data=other[30:])]
            _, ends, made = self.parts(said, 3, are_frames=False)
            self.assertEqual(b"".join(data for side, data in made[0] if side == zkr.SERVER), reply(1).data + other,
                             ends)

    def test_xids_that_come_twice_say_nothing(self):
        said = [ask(1), ask(1), reply(1), reply(1), ask(1), reply(1)]
        _, _, made = self.parts(said, 2)
        self.assert_parts(made, said[:2], said[4:])

    def test_what_follows_the_last_loss_has_no_reply(self):
        said = [ask(1), reply(1), ask(2), reply(2), ask(3), ask(4)]
        _, ends, made = self.parts(said, 2)
        self.assert_parts(made, said[:2], said[4:])
        self.assertRegex(ends[1], r"unasked=1$")

    def test_pings(self):
        """The reply to a ping has no xid of its own: the first one after the loss may be one to a ping before it."""
        said = [PING, PONG, ask(1), reply(1), PING, PONG, ask(2), reply(2), PING, PONG]
        _, _, made = self.parts(said, 3)
        self.assert_parts(made, said[:3], said[6:])
        said = [ask(1), reply(1), PING, PONG, PING, PONG, EVENT, PING, PONG]
        _, _, made = self.parts(said, 1)
        self.assert_parts(made, said[:1], [*said[4:6], EVENT, *said[7:]])

    def test_a_loss_at_the_end(self):
        names, ends, made = self.parts([ask(1), reply(1), ask(2), reply(2)], 3)
        self.assertEqual((names, ends), (["r-1.zkr"], ["packets=1-11 resent=0 closed=C hole=S"]))
        self.assert_parts(made, [ask(1), reply(1), ask(2)])

    def test_a_lost_connect_message(self):
        for gone in (-2, -1):
            names, ends, made = self.parts([ask(1), reply(1), ask(2), reply(2)], gone)
            self.assertRegex(ends[-1], r" closed=C lost=C:\d+,S:\d+ skipped=")
            self.assert_parts(made[-1:], [ask(1), reply(1), ask(2), reply(2)])

    def test_a_connect_request_that_ends_after_the_loss(self):
        """Its end is left out; its beginning is in the recording before."""
        first, rest = (CONNECT[0]._replace(data=part) for part in (CONNECT[0].data[:20], CONNECT[0].data[20:]))
        sent = list(wire.conversation([first, rest, CONNECT[1], reply(1), ask(2), reply(2)]))
        status, told, made = self.convert(capture_of([*sent[:4], sent[6], sent[4], *sent[7:]]))
        self.assertEqual((status, sides(made[0])), (1, (first.data, b"")))
        self.assertRegex(told[1], r" lost=C:0,S:40 skipped=C:28,S:0 unasked=1$")
        self.assert_parts([[piece[::2] for piece in pieces(made[1])[2:]]], [ask(2), reply(2)])

    def test_nothing_is_known_between_two_losses(self):
        said = [ask(1), reply(1), ask(2), reply(2), ask(3), reply(3), ask(4), reply(4)]
        names, ends, made = self.parts(said, 3, 5)
        self.assertEqual(names, ["r-1.zkr", "r-1.2.zkr"])
        self.assertRegex(ends[1], r" lost=C:0,S:40 skipped=C:19,S:0 unasked=0$")
        self.assert_parts(made, said[:3], said[6:])

    def test_what_is_lost_before_a_second_loss_counts_though_nothing_is_kept_between(self):
        """Also where the connection ends with a request from before both that may still be answered."""
        cut = [ask(3)._replace(data=ask(3).data[:7]), ask(3)._replace(data=ask(3).data[7:])]
        said = [ask(1), reply(1), ask(2), reply(2), *cut, ask(4)]
        _, ends, made = self.parts(said, 3, 5)
        self.assertRegex(ends[1], r" lost=C:12,S:20 skipped=C:7,S:0 unasked=0$")
        self.assert_parts(made, said[:3], said[6:])

    def test_a_number_that_is_taken_is_passed_over(self):
        sent = list(wire.conversation([*CONNECT, ask(1), reply(1), ask(2), reply(2)]))
        capture = self.folder / "c"
        capture.write_bytes(capture_of(sent[:6] + sent[7:]))
        (self.folder / "s-1.2.zkr").write_bytes(b"old")
        _, told, _ = self.run_tool("pcap2zkr.py", capture, self.folder / "s")
        self.assertEqual([line.split()[0][-7:] for line in told.splitlines()], ["s-1.zkr", "1.3.zkr"])
        self.assertEqual((self.folder / "s-1.2.zkr").read_bytes(), b"old")

    def lose(self, chance, least):
        """Loses packets of each recording with this chance. Every part consists of frames that were said, each reply
        after its request, and at least this share is kept."""
        kept, captured, checked = 0, 0, 0
        for path in SMALL:
            if re.search("refused|small|create2", path.name):
                continue
            source, lottery = path.read_bytes(), random.Random(f"5 {path.stem}")   # its own, whatever others there are
            sent = [each for each in wire.conversation(pieces(source))
                    if each.flags & wire.SYN or lottery.random() >= chance]
            captured += sum(len(each.data) for each in sent)
            _, told, made = self.convert(capture_of(sent))
            for line, recording in zip([line for line in told if line[0] != "-"], made):
                kept += sum(map(len, sides(recording)))
                if "lost=" in line:
                    self.check_joined(self.frames(recording), self.frames(source), sides(recording))
                    kept -= 56
                listing = path.with_suffix(".show")
                if checked < 40 and listing.exists() and "\n. refused " not in listing.read_text("ascii"):
                    checked += 1
                    self.assert_no_refusal(recording)
        self.assertGreater(kept / captured, least)

    def test_two_packets_in_a_thousand_are_lost(self):
        self.lose(0.002, 0.97)

    def test_two_packets_in_a_hundred_are_lost(self):
        self.lose(0.02, 0.9)

    def test_one_packet_in_ten_is_lost(self):
        self.lose(0.1, 0.5)
