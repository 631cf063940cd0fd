"""Tests of how pcap2zkr.py reports the ends of connections, and forgets them."""

import itertools
import random
import signal
import subprocess
import sys
import time
import unittest.mock

from . import wire
from .captured import SMALL, PcapCase, capture_of, packed
from .support import TOOLS, pieces, sides, zkr
from tools.zkdump_tools import facts, pcap2zkr

ASK = zkr.Piece(zkr.CLIENT, None, b"ask")
REPLY = zkr.Piece(zkr.SERVER, None, b"reply")
FRAME = b"\0\0\0\x08\0\0\0\1\0\0\0\x0b"


def opened(said=(ASK, REPLY), **more):
    """A connection that isn't closed."""
    return list(wire.conversation(said, close=False, **more))


def then(sent, *segments):
    """These segments, and after them others of no bytes: each a side and its flags."""
    found = list(sent)
    for side, flags in segments:
        last = {each.side: each for each in found}
        own, other = last[side], last[zkr.CLIENT if side == zkr.SERVER else zkr.SERVER]
        found.append(wire.Sent(found[-1].milliseconds + 1, side, own.number + len(own.data) + (own.flags & wire.FIN),
                               other.number + len(other.data) + (other.flags & wire.FIN), flags, b""))
    return found


class Ends(PcapCase):
    def end_words(self, sent):
        """The words that say how it ended, and the milliseconds since the capture began."""
        status, told, _ = self.convert(capture_of(sent))
        words = told[0].split()
        self.assertEqual((status, len(told), words[4], words[6]), (0, 1, "begun", "ended"), told)
        return words[12:], round(float(words[7][-5:-1]) * 1000)

    def test_who_ended_it_and_when(self):
        fin, reset = wire.FIN | wire.ACK, wire.RST | wire.ACK
        client, server = zkr.CLIENT, zkr.SERVER
        for segments, words in (((), ["open"]), (((client, fin),), ["closed=C"]),
                                (((server, fin), (client, fin), (server, wire.ACK)), ["closed=S"]),
                                (((client, fin), (server, fin)), ["closed=C"]), (((client, reset),), ["reset=C"]),
                                (((client, fin), (server, fin), (client, reset)), ["closed=C"]),
                                (((server, fin), (client, fin), (client, reset)), ["closed=S"]),
                                (((server, reset),), ["reset=S"]), (((client, fin), (server, reset)),
                                                                    ["closed=C", "reset=S"])):
            with self.subTest(words=words, segments=segments):
                sent = then(opened(), *segments)
                found, ended = self.end_words(sent)
                self.assertEqual(found, words)
                self.assertEqual(ended, 4 + bool(segments))  # five segments before it, one in each millisecond

    def test_who_ended_it_where_captured_out_of_order(self):
        fin = wire.FIN | wire.ACK
        sent = then(opened(), (zkr.CLIENT, fin), (zkr.SERVER, fin))
        self.assertEqual(self.end_words([*sent[:5], sent[6], sent[5]])[0], ["closed=C"])

    def test_packets_are_numbered_as_wireshark_does(self):
        sent, other = then(opened(), (zkr.CLIENT, wire.FIN | wire.ACK)), bytes(12) + b"\x08\x06" + bytes(28)
        packets = packed(sent)
        _, told, _ = self.convert(wire.pcap([(0, other), (0, other), *packets, (0, other)]))
        self.assertIn(f" packets=3-{len(packets) + 2} ", told[0])

    def test_the_acknowledgement_of_the_last_end_is_its_last_packet(self):
        """Also where the second end was captured again before it, or the first one after it, or both come at once."""
        client, server, fin = zkr.CLIENT, zkr.SERVER, wire.FIN | wire.ACK
        sent, other = then(opened(), (client, fin), (server, fin), (client, wire.ACK)), packed(opened(), client=3000)
        crossing = then(opened(), (client, fin), (server, fin), (server, wire.ACK), (client, wire.ACK))
        crossing[6] = crossing[6]._replace(acknowledged=crossing[6].acknowledged - 1)
        for found in (sent, [*sent[:7], sent[6], *sent[7:]], [*sent[:5], sent[6], sent[5], sent[7]], crossing):
            status, told, _ = self.convert(wire.pcap([*packed(found), *other]))
            self.assertEqual((status, len(told)), (0, 2))
            self.assertIn(f" packets=1-{len(found)} ", told[0])
            self.assertTrue(told[0].endswith(" closed=C"), told)

    def test_ctrl_c_takes_no_packet_in_part(self):
        """It ends the conversion where it reads on; also one that comes twice."""
        gathered = zkr.Writer.gathered

        def interrupted(*words):
            signal.raise_signal(signal.SIGINT)
            gathered(*words)
        before = signal.signal(signal.SIGINT, signal.default_int_handler)
        self.addCleanup(signal.signal, signal.SIGINT, before)
        with unittest.mock.patch("tools.zkdump_tools.zkr.Writer.gathered", interrupted):
            status, told, made = self.convert(capture_of(opened()))
        self.assertEqual((status, [sides(each) for each in made]), (0, [(b"ask", b"reply")]))
        self.assertIn(" client=3 server=5 ", told[0])

    def test_a_signal_where_it_waits_for_packets(self):
        """A connection that is still open has its line, its recording and its facts. So it is where SIGHUP is ignored,
        as nohup has it, until the capture ends."""
        for at, (number, handler) in enumerate(((signal.SIGINT, signal.default_int_handler),
                                                (signal.SIGTERM, signal.SIG_DFL), (signal.SIGHUP, signal.SIG_DFL),
                                                (signal.SIGHUP, signal.SIG_IGN))):
            command = [sys.executable, TOOLS / "pcap2zkr.py", "-", self.folder / f"{at}"]
            with self.subTest(number=number, handler=handler), subprocess.Popen(
                    command, stdin=subprocess.PIPE, stdout=subprocess.PIPE, text=False,
                    preexec_fn=lambda number=number, handler=handler: signal.signal(number, handler)) as tool:
                tool.stdin.write(capture_of(opened()))
                tool.stdin.flush()
                while not list(self.folder.glob(f"{at}-1.zkr")):
                    time.sleep(0.01)
                tool.send_signal(number)
                if handler is signal.SIG_IGN:
                    tool.stdin.close()
                self.assertRegex(tool.stdout.read(), rb" client=3 server=5 packets=1-5 resent=0 open\n$")
                self.assertEqual(tool.wait(), 0)
                path = self.folder / f"{at}-1.zkr"
                self.assertEqual((sides(path.read_bytes()), facts.facts_of(path).open), ((b"ask", b"reply"), True))

    def test_segments_that_were_captured_again(self):
        sent = opened([ASK, REPLY, ASK])
        asks_alive = sent[-1]._replace(number=sent[-1].number + 2, data=b"k")
        for more, count in (((), 0), ((sent[3],), 1), ((sent[0],), 1), (sent[3:], 3), ((asks_alive,), 0)):
            with self.subTest(count=count, more=more):
                _, told, made = self.convert(capture_of([*sent, *more]))
                self.assertIn(f" resent={count} ", told[0])
                self.assertEqual(sides(made[0]), (b"askask", b"reply"))

    def test_handshakes_that_were_captured_out_of_order(self):
        """No segment of them was captured again."""
        sent = opened()
        for mixed in ([1, 0, 2], [1, 2, 0]):
            _, told, made = self.convert(capture_of([*[sent[at] for at in mixed], *sent[3:]]))
            self.assertIn(" resent=0 ", told[0])
            self.assertEqual(sides(made[0]), (b"ask", b"reply"))

    def test_bytes_that_come_with_the_first_packet(self):
        """Also where none of the server was captured."""
        first, server = opened([])[0]._replace(data=b"ask"), opened()[1:2]
        for more in ((), [each._replace(acknowledged=each.acknowledged + 3) for each in server]):
            status, told, made = self.convert(capture_of([first, *more]))
            self.assertEqual((status, told[0].split()[8], [sides(each) for each in made]),
                             (0, "client=3", [(b"ask", b"")]))

    def test_what_the_other_side_said_before_a_reset_is_kept(self):
        """Also where it was captured after the reset, as was what the side itself had said."""
        for side, late in ((zkr.SERVER, ASK), (zkr.CLIENT, ASK), (zkr.SERVER, REPLY), (zkr.CLIENT, REPLY)):
            with self.subTest(side=side, late=late):
                sent = opened([ASK, REPLY, late])
                if side == late.side:
                    reset = then(sent, (side, wire.RST | wire.ACK))[-1]
                else:
                    reset = then(sent[:-1], (side, wire.RST | wire.ACK))[-1]
                status, told, made = self.convert(capture_of([*sent[:-1], reset, sent[-1]]))
                self.assertEqual((status, len(told), sides(made[0])), (0, 1, sides_of([ASK, REPLY, late])))
                self.assertIn(f" reset={side.decode()}", told[0])

    def test_bytes_before_a_reset_that_were_not_captured(self):
        """The number of the reset says that its side had sent them; an end that wasn't captured counts as one. One
        number alone is that of the end, unless it is in a frame."""
        for side, size, ask, hole in ((zkr.CLIENT, 5, FRAME, "C"), (zkr.SERVER, 5, FRAME, "S"),
                                      (zkr.CLIENT, 1, FRAME, None), (zkr.CLIENT, 1, FRAME[:-1], "C"),
                                      (zkr.CLIENT, 1, FRAME[:2], "C"), (zkr.CLIENT, 1, b"ask no zoo", None)):
            for fin in (0, wire.FIN):
                with self.subTest(side=side, size=size, ask=ask, fin=fin):
                    said = [zkr.Piece(zkr.CLIENT, None, ask), REPLY, zkr.Piece(side, None, bytes(size - bool(fin)))]
                    sent = opened(said)
                    if fin:
                        sent = then(sent, (side, fin | wire.ACK))
                    status, told, made = self.convert(capture_of([*sent[:5], then(sent, (side, wire.RST))[-1]]))
                    self.assertEqual((status, told[0].split()[12:]),
                                     (int(bool(hole)), [f"reset={side.decode()}"] + [f"hole={hole}"] * bool(hole)))
                    self.assertEqual(sides(made[0]), (ask, b"reply"))

    def test_one_number_alone_that_was_not_captured(self):
        """What acknowledges it says that it was there: it is a byte where it is in a frame, and else the end, after
        which the other side's end is the second one."""
        closing = (zkr.SERVER, wire.FIN | wire.ACK)
        for more, whole, ends, words in (((), True, (), ["open"]), ((), False, (), ["open", "hole=C"]),
                                         ((), True, (closing,), ["closed=C"]),
                                         ((), False, (closing,), ["closed=S", "hole=C"]),
                                         ((REPLY,), True, (closing,), ["closed=C"]),
                                         ((REPLY,), False, (closing,), ["hole=C"])):
            with self.subTest(more=more, whole=whole, ends=ends):
                sent = opened([zkr.Piece(zkr.CLIENT, None, FRAME[:len(FRAME) - (not whole)]), REPLY])
                sent = then(sent, (zkr.CLIENT, wire.FIN | wire.ACK), (zkr.SERVER, wire.ACK))
                for piece in more:
                    sent.append(sent[-1]._replace(data=piece.data))
                sent = then(sent, *ends)
                del sent[5]
                status, told, made = self.convert(capture_of(sent))
                self.assertEqual((status, told[0].split()[12:]), (int("hole=C" in words), words))
                self.assertEqual(sides(made[0])[0], FRAME[:len(FRAME) - (not whole)])
                if more and not whole:
                    self.assertIn(" closed=S lost=C:1,S:0 ", told[1])

    def test_the_number_of_a_last_packet_without_bytes(self):
        """It says that what is before it was sent, though nothing acknowledges that; or that the side had ended."""
        client, server, ask = zkr.CLIENT, zkr.SERVER, zkr.Piece(zkr.CLIENT, None, FRAME)
        end = client, wire.FIN | wire.ACK
        for said, gone, more, words in (([ask, REPLY, REPLY], 5, [(server, wire.ACK)], ["open", "hole=S"]),
                                        ([ask, REPLY, REPLY], None, [(server, wire.ACK)], ["open"]),
                                        ([ask, REPLY], 5, [end, (client, wire.ACK)], ["open"]),
                                        ([ask, REPLY], None, [end, (client, wire.ACK)], ["closed=C"]),
                                        ([ask, REPLY, ask], 5, [end, (client, wire.ACK)], ["closed=C", "hole=C"])):
            with self.subTest(gone=gone, words=words):
                sent = then(opened(said), *more)
                status, told, _ = self.convert(capture_of([each for at, each in enumerate(sent) if at != gone]))
                self.assertEqual((status, told[0].split()[12:]), (int("hole" in words[-1]), words))

    def test_a_last_packet_that_was_not_captured_whole(self):
        """Its bytes are missing though nothing acknowledges them; also where it has the end."""
        for side, name, link, size in ((zkr.CLIENT, "C", "ethernet", 54), (zkr.SERVER, "S", "raw", 40)):
            for flags, how in ((wire.ACK, "open"), (wire.FIN | wire.ACK, f"closed={name}")):
                for kept in (6, 49):
                    sent = opened([ASK, zkr.Piece(side, None, b"long" * 12 + b"er")])
                    sent[-1] = sent[-1]._replace(flags=flags)
                    capture = wire.pcap(packed(sent, link=link), link, snap=size + kept)
                    status, told, made = self.convert(capture)
                    self.assertEqual((status, told[0].split()[12:]), (1, [how, f"hole={name}", "snapped"]))
                    self.assertEqual(sides(made[0]), sides_of([ASK, zkr.Piece(side, None, sent[-1].data[:kept])]))

    def test_one_byte_that_was_not_captured_is_no_end(self):
        """Where the packet says that it was there, and the other side goes on after it."""
        sent = opened([ASK, zkr.Piece(zkr.SERVER, None, bytes(50)), ASK])
        status, told, _ = self.convert(wire.pcap(packed(sent), snap=54 + 49))
        self.assertEqual((status, told[0].split()[12:]), (1, ["hole=S", "snapped"]))
        self.assertIn(" lost=C:0,S:1 ", told[1])

    def test_options_that_were_cut_off_are_no_bytes_of_the_connection(self):
        sent = opened([])
        packet = bytearray(wire.packet(sent[2]))[:54] + b"\1\1\x08\x0a" + bytes(8)
        packet[16:18], packet[46] = (52).to_bytes(2, "big"), 8 << 4
        status, told, _ = self.convert(wire.pcap([*packed(sent[:2]), (sent[2].milliseconds, bytes(packet))], snap=60))
        self.assertEqual((status, told[0].split()[12:]), (0, ["open"]))

    def test_a_port_that_the_server_still_knows(self):
        """It answers the first packet with what it acknowledged last, which the client resets, and asks once more."""
        sent, old = opened(numbers=(1 << 31, 7)), opened(numbers=(1 << 20, 1 << 30))[-1]
        for flags in (wire.ACK, wire.PUSH | wire.ACK):
            known = old._replace(data=b"", flags=flags)
            reset = wire.Sent(0, zkr.CLIENT, known.acknowledged, known.number, wire.RST | wire.ACK, b"")
            status, told, made = self.convert(capture_of([sent[0], known, reset, sent[0], *sent[1:]]))
            self.assertEqual((status, len(told), [sides(each) for each in made]), (0, 1, [(b"ask", b"reply")]), told)
            self.assertTrue(told[0].endswith(" packets=1-8 resent=1 open"), told)

    def test_what_is_of_something_else_ends_nothing(self):
        sent = opened([ASK, REPLY, ASK, REPLY])
        for flags, number in ((wire.RST, 5), *itertools.product((wire.RST, wire.FIN | wire.ACK, wire.ACK), (1 << 30,))):
            strange = sent[4]._replace(number=sent[4].number + number, flags=flags, data=b"",
                                       acknowledged=sent[4].acknowledged + (1 << 30))
            found, _ = self.end_words([*sent[:5], strange, *sent[5:]])
            self.assertEqual(found, ["open"])

    def test_an_end_after_many_bytes_that_were_not_captured(self):
        sent = then(opened([ASK, REPLY, REPLY]), (zkr.SERVER, wire.FIN | wire.ACK))
        for last, word in ((sent[6], "closed=S"), (sent[6]._replace(flags=wire.RST | wire.ACK), "reset=S")):
            far = [each._replace(number=each.number + (1 << 25)) for each in (sent[5], last)]
            status, told, _ = self.convert(capture_of([*sent[:5], *far]))
            self.assertEqual((status, told[0].split()[-1]), (1, "hole=S"))
            self.assertIn(f" {word} lost=C:0,S:{1 << 25} ", told[1])
            status, told, _ = self.convert(capture_of([*sent[:5], far[1]._replace(number=last.number + (1 << 25))]))
            self.assertEqual((status, told[0].split()[12:]), (1, [word, "hole=S"]))

    def test_ends_after_many_bytes_of_which_the_heads_alone_were_captured(self):
        sent = list(wire.conversation([ASK, REPLY, ASK, REPLY]))
        far = [each._replace(number=each.number + (1 << 25), acknowledged=each.acknowledged + (1 << 25))
               for each in sent[5:]]
        status, told, _ = self.convert(wire.pcap(packed([*sent[:5], *far]), snap=54))
        self.assertEqual((status, told[0].split()[12:]), (1, ["closed=C", "hole=C", "hole=S", "snapped"]))


def sides_of(said):
    return tuple(b"".join(piece.data for piece in said if piece.side == side) for side in (zkr.CLIENT, zkr.SERVER))


class Many(PcapCase):
    """Many connections, one after the other unless it says otherwise."""

    def connections(self, count, *end, said=(ASK, REPLY), first=10_000):
        chance, packets = random.Random(1), []
        for at in range(count):
            numbers = chance.randrange(1 << 32), chance.randrange(1 << 32)
            packets += packed(then(opened(said, numbers=numbers), *end), client=first + at)
        return packets

    def test_more_of_them_than_files_may_be_open(self):
        packets = [*self.connections(80, (zkr.SERVER, wire.RST | wire.ACK)), *self.connections(80, first=20_000)]
        *found, _ = self.convert_within(wire.pcap(packets), "RLIMIT_NOFILE", 32)
        self.assertEqual(found, [0, 160, []])
        self.assertEqual(len(list(self.folder.glob("r-*.zkr"))), 160)

    def most_known(self, packets, lines):
        """The most halves of connections that were known at a time, and the most ends of those that were over, with
        small bounds."""
        known, over, begins = [], [], pcap2zkr.Capture.half_of

        def watch(capture, *words):
            half = begins(capture, *words)
            known.append(len(capture.halves))
            over.append(len(capture.over))
            return half
        with unittest.mock.patch.multiple("tools.zkdump_tools.pcap2zkr", MOST_SILENT=8, MOST_LINGERING=4, MOST_OVER=10), \
                unittest.mock.patch("tools.zkdump_tools.pcap2zkr.Capture.half_of", watch):
            status, told, _ = self.convert(wire.pcap(packets))
        self.assertEqual((status, len(told)), (0, lines))
        return max(known), max(over)

    def test_those_that_are_over_are_let_go(self):
        fin = wire.FIN | wire.ACK
        closed = self.connections(50, (zkr.CLIENT, fin), (zkr.SERVER, fin), (zkr.CLIENT, wire.ACK))
        self.assertEqual(self.most_known(closed, 50), (2, 10))
        reset = self.connections(50, (zkr.SERVER, wire.RST | wire.ACK))
        self.assertEqual(self.most_known(reset, 50), (2 * 5, 10))

    def test_those_that_are_never_answered_are_let_go(self):
        packets = [each for at in range(50) for each in packed(opened([])[:1], client=at + 3000)]
        self.assertLessEqual(self.most_known(packets, 50)[0], 2 * 9)

    def test_what_comes_again_of_one_that_is_over(self):
        """Also where its ports are used once more, by a connection whose beginning was not captured."""
        source = SMALL[0].read_bytes()
        sent = list(wire.conversation(pieces(source)))
        later = list(wire.conversation(pieces(source), numbers=(1 << 30, 1 << 31)))
        status, told, made = self.convert(capture_of([*sent, *sent[-5:], *sent[3:5], *later[3:]]))
        self.assertEqual((status, [line.split()[-1] for line in told]), (1, ["closed=C", "late"]))
        self.assertEqual([sides(each) for each in made], [sides(source)])

    def test_a_client_with_the_port_of_the_server(self):
        source = SMALL[0].read_bytes()
        sent = list(wire.conversation(pieces(source)))
        self.assert_whole(capture_of(sent, client=2181), source)
        for begin in (5, 6):
            status, told, made = self.convert(capture_of(sent[begin:], client=2181), "--late")
            self.assertEqual((status, len(told)), (1, 1))
            self.assertIn(" 10.0.0.7:2181 > 10.0.0.9:2181 ", told[0])

    def test_packets_from_an_end_to_itself_are_passed_over(self):
        packet = bytearray(packed(opened()[3:4], client=2181)[0][1])
        packet[26:30] = packet[30:34]
        status, told, _ = self.convert(wire.pcap([(0, bytes(packet))]))
        self.assertEqual((status, told), (1, []))

    def test_what_waits_has_one_bound_for_all(self):
        """Twenty connections, each of which lacks its first bytes and has 6,000 after them."""
        packets, most = [], []
        for at in range(20):
            sent = opened([zkr.Piece(zkr.CLIENT, None, bytes(6_600))], most=600)
            packets += packed(sent[:3] + sent[4:], client=3000 + at)
        watched = pcap2zkr.Capture.look_after

        def watch(capture, stream):
            watched(capture, stream)
            most.append(capture.budget.held)
        with unittest.mock.patch("tools.zkdump_tools.pcap2zkr.MOST_HELD", 40_000), \
                unittest.mock.patch("tools.zkdump_tools.pcap2zkr.Capture.look_after", watch):
            status, told, _ = self.convert(wire.pcap(packets))
        self.assertEqual((status, len(told)), (1, 20))
        self.assertTrue(all(" lost=C:600,S:0 " in line for line in told), told)
        self.assertTrue(most and max(most) <= 40_000, most)
