"""Tests of zkwatch after a refusal, with the proved program, each way: what it passes over, and what it reads on. What is
expected is counted from the bytes (followed.py), or written by hand."""

import random
import re
import struct
import subprocess
import sys

from . import wire
from .followed import followed
from .proxied import TroubleCase
from .support import PROGRAM, TOOLS, TOP, WayCase, pieces, zkr
from .test_columns import ColumnsCase
from .test_live import HELLO, LINE, SECONDS, WELCOME, clock
from ..unknown_operations import NAMED

UNREAD = "what follows is not read"
NUMBER = 4242               # which no release has
LACKING = {15: "create2", 21: "createTTL", NAMED.number: NAMED.name, NUMBER: str(NUMBER)}   # of 3.4, in these tests
RECORDINGS = sorted((TOP / "captures").glob("refused_*.zkr"))
STAY = ("refused_go_auth_under_an_ordinary_xid", "refused_java_ttl_node", "refused_kazoo_create2")
EVENT = struct.pack(">iqiii", -1, -1, 0, 3, 3) + b"\0\0\0\2/a"
REFUSE = f"""#!{sys.executable}
# Refuses the first frame, and can't be run again.
import os, sys
sys.stdin.buffer.read(10)
os.unlink(sys.argv[0])
print(". refused side=C frame=0 offset=6 place=0 reason=Short", flush=True)
sys.exit(1)
"""


def framed(payload):
    return len(payload).to_bytes(4, "big") + payload


def asks(xid, last=0):
    return zkr.CLIENT, framed(struct.pack(">iiI2sB", xid, 3, 2, b"/a", last))


def answers(xid):
    return zkr.SERVER, framed(struct.pack(">iqi", xid, 5, -101))


def cut_anew(said, chance):
    """The same bytes in pieces that are cut at random."""
    for side, data in said:
        at = 0
        while at < len(data):
            size = chance.choice((1, 2, 5, 30, len(data)))
            yield zkr.Piece(side, None, data[at:at + size])
            at += size


def conversation(chance, count):
    """What is said at random, with faults: bad booleans, replies to nothing and out of turn, and what 3.4 lacks."""
    said, waits = [(zkr.CLIENT, HELLO), (zkr.SERVER, WELCOME)], []
    for xid in range(1, count + 1):
        kind = chance.randrange(12)
        if kind < 5:
            said.append(asks(xid, last=2 if kind == 4 else 0))
            waits.append(xid)
        elif kind == 5:
            number = chance.choice((NAMED.number, NUMBER))
            said.append((zkr.CLIENT, framed(struct.pack(">iiI2s", xid, number, 2, b"/a"))))
            waits.append(xid)
        elif kind == 6:
            said.append(chance.choice([(zkr.SERVER, framed(EVENT)), (zkr.CLIENT, framed(struct.pack(">ii", -2, 11)))]))
            waits += [-2] * (said[-1][0] == zkr.CLIENT)
        elif waits:
            at = chance.randrange(len(waits)) if kind == 7 else 0
            said.append(answers(waits.pop(at)))
        elif kind == 8:
            said.append(answers(xid + 1000))
    return said


class RefusedCase(WayCase):
    """A test that watches captures."""

    def setUp(self):
        super().setUp()
        if not PROGRAM.exists():
            self.skipTest("the program zkdump is not built")

    def watched(self, connections, *words):
        """Of connections in which these pieces come, in one capture through a pipe: the lines of each, with their times,
        and what was sent; and the status."""
        packets, sent = [], {}
        for number, said in enumerate(connections, 1):
            sent[number] = [each._replace(milliseconds=each.milliseconds + number) for each in wire.conversation(said)]
            packets += [(each.milliseconds, number, wire.packet(each, client=number)) for each in sent[number]]
        capture = wire.pcap((moment, packet) for moment, _, packet in sorted(packets))
        done = subprocess.run([sys.executable, TOOLS / "zkwatch.py", *words, "--capture", "-"], input=capture,
                              capture_output=True, check=False, timeout=SECONDS)
        self.assertEqual(done.stderr, b"")
        told = {number: [] for number in sent}
        for line in done.stdout.decode().splitlines(keepends=True):
            moment, number, text = LINE.fullmatch(line).groups()
            told[int(number[1:])].append((moment, text))
        return [(told[number][1:-1], [(each.side.decode(), each.milliseconds, each.data) for each in sent[number]])
                for number in sent], done.returncode


class Refused(RefusedCase):
    def assert_told(self, told, said, lacking):
        """That the lines of a connection are those of the model."""
        told, wanted = [each for each in told if each[1] != UNREAD], followed(said, lacking)
        for (moment, text), line in zip(told, wanted):
            if line.took is not None:
                self.assertTrue(text.endswith(f" ms={line.took:g}"), (text, line))
                text = text.rpartition(" ms=")[0]
            self.assertTrue(text == line.text or not line.whole and text.startswith(line.text + " "), (text, line))
            if not line.text.startswith("."):
                self.assertEqual(moment, clock(int(line.moment)))
        self.assertEqual(len(told), len(wanted), told[len(wanted):])

    def test_recordings(self):
        """Those that are refused, as they are and cut anew: each is read to its end, or to a length that no frame has."""
        for path in RECORDINGS:
            whole = pieces(path.read_bytes())
            said = [(piece.side, piece.data) for piece in whole]
            connections = [whole, *(list(cut_anew(said, random.Random(seed))) for seed in range(3))]
            found, status = self.watched(connections, "--profile", "3.4")
            self.assertEqual(status, int(path.stem not in STAY), path.stem)
            for told, sent in found:
                with self.subTest(path.stem):
                    self.assert_told(told, sent, LACKING)

    def test_what_is_said_at_random(self):
        connections = []
        for seed in range(40):
            chance = random.Random(seed)
            connections.append(list(cut_anew(conversation(chance, 40), chance)))
        found, status = self.watched(connections)
        self.assertEqual(status, 1)
        texts = []
        for seed, (told, sent) in enumerate(found):
            with self.subTest(seed):
                self.assert_told(told, sent, LACKING)
            texts += [text for _, text in told]
        for words in ("BadBool", "Unasked", "XidOrder", "not seen asked", NAMED.name, f" {NUMBER}, "):
            self.assertGreater(sum(words in text for text in texts), 9, words)

    def test_both_sides_begin_anew(self):
        """What the other side has begun of a frame is read to its end; what was asked before has no reply."""
        begun = asks(3)[1]
        said = [(zkr.CLIENT, HELLO), (zkr.SERVER, WELCOME), asks(1), asks(2), (zkr.CLIENT, begun[:9]),
                (zkr.SERVER, framed(answers(1)[1][4:] + b"\0")), (zkr.CLIENT, begun[9:]), answers(2), answers(3), asks(4)]
        (told, _), = self.watched([[zkr.Piece(side, None, data) for side, data in said]])[0]
        self.assertEqual([text for _, text in told][4:], [
            f"refused: side=S frame=1 offset={len(WELCOME) + 21} place=16 reason=Trailing, 21 bytes passed over",
            'C 3 exists path="/a" watch=0',
            "left out: S frame=2 xid=2 zxid=5 err=-101/NONODE not seen asked, 16 bytes",
            "S 3 exists zxid=5 err=-101/NONODE ms=2", 'C 4 exists path="/a" watch=0', ". whole unanswered=1"])

    def test_the_ending_counts_what_was_passed_over(self):
        """A frame that is cut, and a length that no frame has, after a refused one."""
        bad, good = asks(1, last=2), asks(2)
        refused = f"refused: side=C frame=1 offset={len(HELLO) + 19} place=14 reason=BadBool, 19 bytes passed over"
        endings = {bad[1][:7]: ". cut side=C frame=3 got=7",
                   b"\xff" * 9: f". refused side=C frame=3 offset={len(HELLO) + 19 + 19 + 4} place=0 reason=LengthRange"}
        for more, ending in endings.items():
            said = [(zkr.CLIENT, HELLO), (zkr.SERVER, WELCOME), bad, good, (zkr.CLIENT, more)]
            ((told, _),), status = self.watched([[zkr.Piece(side, None, data) for side, data in said]])
            self.assertEqual(([text for _, text in told if text != UNREAD][2:], status),
                             ([refused, 'C 2 exists path="/a" watch=0', ending], 1))


class RefusedFast(ColumnsCase, Refused):
    """The same through zkcolumns."""


class Proxied(WayCase, TroubleCase):
    """What else comes of it, through the proxy."""

    def told(self, count):
        """The first lines of connections, without their times and what replies took."""
        return [re.sub(r" ms=[\d.]+$", "", line.partition(" ")[2]) for line in self.lines(count + 1)[1:]]

    def test_no_other_program_can_begin(self):
        """What follows is passed on, as where the first one can't begin."""
        port = self.begin("zkwatch.py")
        self.stand_in.write_text(REFUSE)
        client = self.client(port)
        self.ask(client)
        self.assertEqual(self.told(3)[1:], [
            "#1 refused: side=C frame=0 offset=6 place=0 reason=Short, 6 bytes passed over",
            f"#1 {self.stand_in}: No such file or directory: what follows is passed on, and not read"])
        self.assert_pace(client)
        client.close()
        self.tool.terminate()
        self.assertEqual(self.tool.wait(SECONDS), 1)

    def test_many_refusals_delay_no_other_connection(self):
        if not PROGRAM.exists():
            self.skipTest("the program zkdump is not built")
        port = self.begin("zkwatch.py", program=PROGRAM)
        client, other = self.client(port), self.client(port)
        client.sendall(HELLO + b"".join(asks(xid, last=2)[1] for xid in range(200)))
        took = sorted(self.ask(other) for _ in range(20))
        self.assertLess(took[10], 0.5, took)        # all of them take longer, and a process begins for each


class ProxiedFast(ColumnsCase, Proxied):
    """The same through zkcolumns, which goes on itself."""
