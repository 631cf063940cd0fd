"""Tests of which requests count as answered where pcap2zkr.py makes recordings of connections that were not captured
whole. What is expected is counted from the conversation that was made."""

import collections
import pathlib
import struct

from . import wire
from .captured import PcapCase, capture_of
from .support import pieces, zkr
from .test_pcap_holes import CONNECT, PING, PONG, ask, reply
from tools.zkdump_tools import facts

SESSION = "0x5"


class RepliesCase(PcapCase):
    def made(self, said, *gone, begin=0, words=()):
        """What is made of a connection of these pieces of which these were not captured, or which began before the
        capture: the lines, of each recording its messages without the made-up ones, and its facts."""
        sent = [each for at, each in enumerate(wire.conversation(said)) if at >= begin and at - 3 not in gone]
        _, told, _ = self.convert(capture_of(sent), *words)
        paths = [line.split()[0] for line in told if line[0] != "-"]
        found = [[piece[::2] for piece in pieces(pathlib.Path(path).read_bytes())] for path in paths]
        known = [facts.facts_of(path) for path in paths]
        return told, [each[2 * (len(each[0][1]) == 32):] for each in found], known

    def assert_made(self, made, *expected):
        self.assertEqual(made, [[piece[::2] for piece in said] for said in expected])


class Connecting(RepliesCase):
    """Requests after the connect request, of which one was not captured."""

    def test_the_response_is_the_one_that_was_captured(self):
        asked, answered = CONNECT
        said = [asked, ask(1), ask(2), ask(3), answered, reply(1), reply(2), reply(3)]
        told, made, known = self.made(said, 2)
        self.assert_made(made, [asked, ask(1), answered, reply(1)], [ask(3), reply(3)])
        self.assertTrue(told[1].endswith(" lost=C:19,S:0 skipped=C:0,S:0 unasked=1"), told)
        self.assertEqual({each.session for each in known}, {SESSION})

    def test_the_response_comes_after_the_loss(self):
        asked, answered = CONNECT
        told, made, known = self.made([asked, ask(1), answered, reply(1), ask(2), reply(2)], 1)
        self.assert_made(made, [asked, answered], [ask(2), reply(2)])
        self.assertEqual([each.session for each in known], [SESSION, SESSION])
        self.assertTrue(told[0].endswith(" hole=C"), told)

    def test_the_response_begins_before_the_loss_and_ends_after_it(self):
        asked, answered = CONNECT
        cut = [answered._replace(data=answered.data[:9]), answered._replace(data=answered.data[9:])]
        _, made, known = self.made([asked, cut[0], ask(1), cut[1], reply(1), ask(2), reply(2)], 2)
        self.assert_made(made, [asked, *cut], [ask(2), reply(2)])
        self.assertEqual([each.session for each in known], [SESSION, SESSION])

    def test_the_connect_request_is_cut_by_the_loss(self):
        """The response is left out: there is no request to which it is. All parts are of its session."""
        asked, answered = CONNECT
        cut = [asked._replace(data=asked.data[:9]), asked._replace(data=asked.data[9:])]
        told, made, known = self.made([*cut, answered, ask(1), reply(1)], 1)
        self.assert_made(made, cut[:1], [ask(1), reply(1)])
        self.assertEqual([each.session for each in known], [SESSION, SESSION])
        self.assertIn(f" lost=C:{len(cut[1].data)},S:0 skipped=C:0,S:{len(answered.data)} ", told[1])

    def test_a_response_that_was_not_captured_is_not_made_of_a_reply(self):
        asked, answered = CONNECT
        for gone in ((3,), (2, 3)):
            _, made, known = self.made([asked, ask(1), ask(2), answered, reply(1), reply(2), ask(3), reply(3)], *gone)
            self.assertEqual([piece for said in made for piece in said if piece[1][4:8] == bytes(4)], [asked[::2]])
            self.assertTrue(known[0].loses_replies(), gone)
            self.assertEqual({each.session for each in known}, {None})


class Unanswered(RepliesCase):
    def waiting(self, made):
        """The xids of the requests in a recording that have no reply there."""
        left = collections.Counter()
        for side, data in made:
            if data[4:8] != bytes(4):
                left[struct.unpack(">i", data[4:8])[0]] += 1 if side == zkr.CLIENT else -1
        return sorted(xid for xid, count in left.items() if count > 0)

    def test_both_sides_are_lost_at_once_after_requests_without_a_reply(self):
        """Their replies are among the bytes of the server that were lost with later ones of the client."""
        said = [*CONNECT, ask(1), reply(1), ask(2), ask(3), ask(4), reply(2), reply(3), reply(4), ask(5), ask(6)]
        told, made, known = self.made(said, 4, 7, 8, 9, 10)
        self.assert_made(made, said[:4], [ask(3), ask(4)], [ask(6)])
        self.assertTrue(any(f"S:{3 * len(reply(1).data)}" in line for line in told), told)
        self.assertEqual([self.waiting(each) for each in made], [[], [3, 4], [6]])
        self.assertEqual([each.loses_replies() for each in known], [False, True, False])

    def test_requests_of_each_part_where_the_last_replies_are_lost(self):
        """The client's last packet says that the server had sent more."""
        said = [*CONNECT, ask(1), ask(2), ask(3), reply(1), reply(2), reply(3)]
        _, made, known = self.made(said, 3, 5, 6, 7)
        self.assertEqual([self.waiting(each) for each in made], [[1], [3]])
        self.assertEqual([each.loses_replies() for each in known], [True, True])

    def test_an_idle_client_whose_capture_begins_late(self):
        """The reply to its ping was captured, and may be one to an earlier ping: it is left out."""
        for said, unasked in (([PING, PONG], 1), ([PING, PONG, PING], 1), ([PING, PING, PONG, PONG], 2)):
            told, made, known = self.made(said, begin=3, words=("--late",))
            self.assert_made(made, [piece for piece in said if piece.side == zkr.CLIENT])
            self.assertTrue(told[0].endswith(f" late skipped=C:0,S:0 unasked={unasked}"), told)
            self.assertTrue(known[0].loses_replies())

    def test_a_request_that_was_never_answered_is_unanswered(self):
        """All that the server sent after it was captured."""
        said = [*CONNECT, ask(1), reply(1), ask(2), reply(2), ask(3), ask(4)]
        _, made, known = self.made(said, 4)
        self.assert_made(made, said[:4], said[6:])
        self.assertEqual([each.loses_replies() for each in known], [False, False])
        _, made, known = self.made([ask(7), ask(8)], begin=3, words=("--late",))
        self.assertEqual(([self.waiting(each) for each in made], known[0].loses_replies()), ([[7, 8]], False))

    def test_a_ping_is_answered_before_an_earlier_request(self):
        """After a loss it isn't known whether the reply to a ping that comes before the first certain reply is to one
        that was asked after that request: these are left out until that is known."""
        said = [*CONNECT, ask(1), reply(1), ask(2), PING, PONG, reply(2), PING, PONG, ask(3), reply(3), PING, PONG]
        told, made, _ = self.made(said, 3)
        self.assert_made(made, said[:3], [ask(2), reply(2), *said[10:]])
        self.assertTrue(told[1].endswith(" lost=C:0,S:20 skipped=C:24,S:0 unasked=2"), told)


class Counted(RepliesCase):
    def test_a_connection_whose_last_part_has_no_recording(self):
        """The reply to the request that was lost is left out, so nothing is kept of what follows the loss."""
        said = [*CONNECT, ask(1), reply(1), ask(2), reply(2)]
        sent = list(wire.conversation(said))
        for end in (len(sent), len(sent) - 3):
            capture = self.folder / f"{end}.pcap"
            capture.write_bytes(capture_of([each for at, each in enumerate(sent[:end]) if at != 7]))
            _, told, _ = self.convert(capture.read_bytes())
            self.assertEqual([line[0] for line in told], ["/", "-"])
            _, out, _ = self.run_inside("zkreport.py", "--text", capture)
            self.assertRegex(out, "^1 connection, 1 session, ")

    def test_two_connections_of_the_same_ends(self):
        said = [*CONNECT, ask(1), reply(1), ask(2), reply(2)]
        sent = [each for at, each in enumerate(wire.conversation(said)) if at != 7]
        later = [each._replace(milliseconds=each.milliseconds + 99)
                 for at, each in enumerate(wire.conversation(said, numbers=(77_777, 88_888))) if at != 7]
        capture = self.folder / "c.pcap"
        capture.write_bytes(capture_of([*sent, *later]))
        _, out, _ = self.run_inside("zkreport.py", "--text", capture)
        self.assertRegex(out, "^2 connections, 1 session, ")

    def test_parts_of_a_connection_are_one_by_their_facts(self):
        asked, answered = CONNECT
        self.made([asked, ask(1), answered, reply(1), ask(2), reply(2)], 1)
        paths = sorted(self.folder.glob("r-*.zkr"))
        self.assertEqual(len(paths), 2)
        _, out, _ = self.run_inside("zkreport.py", "--text", *paths)
        self.assertRegex(out, "^1 connection, 1 session, ")


class Many(RepliesCase):
    """Many requests that always wait, and one reply in twenty not captured. Each takes about as long as where few
    wait; where it grew with those that wait it took minutes."""

    def said(self, waiting, count, pings):
        """A conversation, and the numbers of its pieces that are replies."""
        said, left, xid = list(CONNECT), collections.deque(), 0
        while xid < count or left:
            while xid < count and len(left) < waiting:
                xid += 1
                if pings and xid % pings == 0:
                    said.append(PING)
                    left.append(PONG)
                said.append(ask(xid))
                left.append(reply(xid))
            said.append(left.popleft())
        return said, [at for at, piece in enumerate(said) if piece.side == zkr.SERVER and at > 1]

    def test_requests(self):
        said, replies = self.said(2_000, 4_000, 0)
        lost = set(replies[19:-1:20])
        _, made, known = self.made(said, *lost)
        kept = [piece for part in made for piece in part]
        self.assertEqual(sorted(kept), sorted(piece[::2] for at, piece in enumerate(said) if at not in lost))
        self.assertEqual(len(made), len(lost) + 1)
        self.assertTrue(all(each.loses_replies() for each in known[:-1]))

    def test_pings_among_them(self):
        said, replies = self.said(250, 1_000, 3)
        lost = set(replies[19::20])
        _, made, _ = self.made(said, *lost)
        kept = collections.Counter(piece for part in made for piece in part if piece[0] == zkr.SERVER)
        self.assertEqual([piece for at, piece in enumerate(said) if piece.side == zkr.SERVER and at not in lost
                          and piece != PONG and not kept[piece[::2]]], [])
