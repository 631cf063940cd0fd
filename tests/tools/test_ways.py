"""Tests of zkwatch's two ways: through zkcolumns, where it is there, it prints what it prints by `zkdump show`."""

import argparse
import itertools
import os
import pathlib
import random
import shutil
import struct
import subprocess
import sys
import unittest.mock

from tools.zkdump_tools import lister, operations, program, zkr
from .proxied import TroubleCase
from .support import CAPTURES, PROGRAM, TOOLS, pieces
from .test_columns import ColumnsCase
from .test_live import HELLO, PING, WELCOME
from .test_refused import NUMBER, UNREAD, RefusedCase, answers, asks, cut_anew, framed

SAID = [(zkr.CLIENT, HELLO), (zkr.SERVER, WELCOME)]
MOST_FRAMES, SEEDS = 60, 2
NUMBERS = [*operations.BY_NUMBER, NUMBER, 0, -1]
BAD = asks(1, last=2)[1]
REFUSED = f". refused side=C frame=1 offset={len(HELLO) + len(BAD)} place=14 reason=BadBool"


def piece(side, data):
    return lister.HEAD.piece(side, 0, data)


MADE = [piece(*each) for each in lister.ASKED.items()]


def frames_of(path):
    """The first frames of a recording, in the order in which they became whole."""
    cutter = zkr.Cutter(zkr.LARGEST_FRAMES)
    every = (frame for piece in pieces(path.read_bytes()) for frame in cutter.take(piece))
    return [(frame.side, frame.payload) for frame in itertools.islice(every, MOST_FRAMES)]


def damaged(said, chance):
    """The frames of what is said, of which some are changed, cut short, repeated, left out, or come too late."""
    late = []
    for side, payload in said:
        kind, payload = chance.randrange(40), bytearray(payload)
        if kind == 0 and payload:
            payload[chance.randrange(len(payload))] ^= 1 << chance.randrange(8)
        elif kind == 1:
            del payload[chance.randrange(len(payload) + 1):]
        elif kind == 2 and side == zkr.CLIENT and len(payload) >= 8:
            payload[4:8] = struct.pack(">i", chance.choice(NUMBERS))
        elif kind == 3 and len(payload) >= 4:
            payload[:4] = struct.pack(">i", chance.choice((-8, -4, -2, -1, 0, 1, 2, 3)))
        elif kind == 4:
            payload += b"\0"
        if kind == 5:
            late.append((side, framed(payload)))
        else:
            yield from [(side, framed(payload))] * {6: 0, 7: 2}.get(kind, 1)
        if late and chance.randrange(5) == 0:
            yield late.pop()


class Same(ColumnsCase, RefusedCase):
    def both(self, connections, *words):
        """What is printed of connections, which is the same each way; and the status."""
        found = []
        for way in ("", str(self.program)):
            with unittest.mock.patch.dict(os.environ, ZKCOLUMNS=way):
                told, status = self.watched(connections, *words)
                found.append(([[each for each in lines if each[1] != UNREAD] for lines, _ in told], status))
        for number, (plain, fast) in enumerate(zip(found[0][0], found[1][0])):
            with self.subTest(number):
                self.assertEqual(fast, plain)
        self.assertEqual(found[0], found[1])
        return found[0]

    def test_damaged_recordings(self):
        """By each profile, and by a limit that frames of some exceed."""
        texts = []
        for words in (["--profile", "3.4"], ["--profile", "3.5"], [], ["--limit", "200"]):
            connections = []
            for path, seed in itertools.product(CAPTURES, range(SEEDS)):
                chance = random.Random(f"{path.name} {seed}")
                said = list(cut_anew(damaged(frames_of(path), chance), chance))
                connections.append(said[:-chance.randrange(1, 4)] if chance.randrange(2) else said)
            told, status = self.both([said for said in connections if said], *words)
            texts += [text for lines in told for _, text in lines]
            self.assertEqual(status, 1)
        reasons = ("Short", "Trailing", "XidOp", "Unasked", "XidOrder", "LengthRange")
        for part in (*(f"reason={reason}" for reason in reasons), "left out: C ", "not seen asked", " ms=", ". cut "):
            self.assertGreater(sum(part in text for text in texts), 4, part)

    def test_more_waits_than_may(self):
        """What comes after it is read again, as of a connection that is seen late."""
        pings = (zkr.CLIENT, PING[1] * 65_537)
        (lines,), status = self.both([[zkr.Piece(side, None, data) for side, data in (*SAID, pings, asks(1), answers(1))]])
        refused = f"refused: side=C frame=65537 offset={len(HELLO) + len(pings[1])} place=0 reason=QueueFull, 12 bytes"
        self.assertEqual((len(lines), status, [text for _, text in lines[-4:]]), (65_542, 1, [
            f"{refused} passed over", 'C 1 exists path="/a" watch=0', "S 1 exists zxid=5 err=-101/NONODE ms=1",
            ". whole unanswered=0"]))


class OneProcess(ColumnsCase, TroubleCase):
    def children(self):
        return pathlib.Path(f"/proc/{self.tool.pid}/task/{self.tool.pid}/children").read_text().split()

    def test_it_reads_on_after_refusals(self):
        """A `show` ends at each, and another one begins."""
        if not PROGRAM.exists():
            self.skipTest("the program zkdump is not built")
        for way, is_one in ((str(self.program), True), ("", False)):
            with self.subTest(way), unittest.mock.patch.dict(os.environ, ZKCOLUMNS=way):
                client, seen = self.client(self.begin("zkwatch.py", program=PROGRAM)), set()
                for count in range(3):
                    self.ask(client)
                    lines = self.lines(4 + 2 * count)[2:]       # each side's frame is too short
                    seen.update(self.children())
                self.assertEqual([line.split()[2:4] for line in lines], [["refused:", "side=C"], ["refused:", "side=S"]] * 3)
                self.assertEqual(len(seen) == 1, is_one, seen)


class Command(ColumnsCase):
    def command(self, zkdump, columns):
        words = argparse.Namespace(zkdump=zkdump, profile="3.5", limit=1000)
        with unittest.mock.patch.dict(os.environ, ZKCOLUMNS=str(columns)):
            return lister.command(words)

    def test_the_program_that_reads(self):
        """It is zkcolumns, unless there is none that follows, or --zkdump names another program."""
        options, own, older = ["--profile", "3.5", "--limit", "1000"], program.found(), self.folder / "older"
        older.write_text("#!/bin/sh\nexit 2\n")
        older.chmod(0o700)
        self.assertEqual(self.command(own, self.program), [str(self.program), *options, "--waiting", "65536", "--follow"])
        for columns in ("", "/no/such/program", older):
            self.assertEqual(self.command(own, columns), [own, "show", *options])
        self.assertEqual(self.command("/other", self.program), ["/other", "show", *options])

    def test_an_installed_one(self):
        tools = shutil.copytree(TOOLS, self.folder / "share" / "zkdump" / "tools", ignore=shutil.ignore_patterns("out"))
        columns = self.folder / "lib" / "zkdump" / "zkcolumns"
        columns.parent.mkdir(parents=True)
        columns.touch(0o700)
        environment = {name: value for name, value in os.environ.items() if name != "ZKCOLUMNS"}
        done = subprocess.run([sys.executable, "-c", "from zkdump_tools import program; print(program.found_columns())"],
                              cwd=tools, env=environment, stdout=subprocess.PIPE, text=True, check=True)
        self.assertEqual(done.stdout, f"{columns}\n")


class Follow(ColumnsCase):
    """What zkcolumns writes of pieces that it follows."""

    def followed(self, *parts, words=()):
        done = subprocess.run([self.program, *words, lister.FOLLOW], input=b"ZKR1" + b"".join(parts),
                              capture_output=True, check=False)
        return done.returncode, done.stdout.decode().splitlines(), done.stderr.decode().count("\n")

    def test_it_waits_after_a_refusal(self):
        """For the piece that says that it is to go on; what comes before that is dropped."""
        good = piece(*asks(2))
        status, lines, said = self.followed(*map(piece, *zip(*SAID)), piece(zkr.CLIENT, BAD + good), good, lister.GO_ON,
                                            *MADE, good)
        self.assertEqual((status, lines[2:], said), (0, [REFUSED, 'C 1 exists path="" watch=0',
                                                         "S 1 exists zxid=-1 err=-101/NONODE",
                                                         'C 2 exists path="/a" watch=0', ". whole unanswered=1"], 0))
        status, lines, said = self.followed(*map(piece, *zip(*SAID)), piece(zkr.CLIENT, BAD), good)
        self.assertEqual((status, lines[2:], said), (0, [REFUSED], 0))

    def test_it_ends_where_a_frame_has_no_end(self):
        refused = f". refused side=C frame=1 offset={len(HELLO) + 4} place=0 reason=LengthRange"
        for words, length in (((), b"\xff" * 4), (("--limit", "64"), b"\0\0\0\x41")):
            found = self.followed(*map(piece, *zip(*SAID)), piece(zkr.CLIENT, length), lister.GO_ON, *MADE, words=words)
            self.assertEqual((found[0], found[1][2:], found[2]), (0, [refused], 0))

    def test_a_long_line(self):
        """Of a frame in many pieces, and of frames that come in one."""
        data = bytes(range(256)) * 4000
        frame = framed(struct.pack(">iiI2sI", 1, 5, 2, b"/a", len(data)) + data + b"\xff" * 4)
        line = f'C 1 setData path="/a" blob=#{data.hex()} version=-1'
        parts = [piece(zkr.CLIENT, frame[at:at + 1000]) for at in range(0, len(frame), 1000)]
        for said in (parts, [piece(zkr.CLIENT, frame)]):
            found = self.followed(*map(piece, *zip(*SAID)), *said, *said)
            self.assertEqual((found[0], found[1][2:], found[2]), (0, [line, line, ". whole unanswered=2"], 0))

    def test_what_it_does_not_follow(self):
        for data, status in ((b"", 4), (b"ZKR", 4), (b"ZKR2" + bytes(16), 4), (b"ZKR1C\0\0", 4),
                             (b"ZKR1" + b"".join(map(piece, *zip(*SAID))) + piece(zkr.CLIENT, framed(struct.pack(
                                 ">ii", 1, NUMBER))), 4)):
            done = subprocess.run([self.program, lister.FOLLOW], input=data, capture_output=True, check=False)
            self.assertEqual((done.returncode, done.stderr.count(b"\n")), (status, 1), data)
        for words in (("--limit", "1", lister.FOLLOW), (lister.FOLLOW, "--lines")):
            done = subprocess.run([self.program, *words], input=b"ZKR1", capture_output=True, check=False)
            self.assertEqual((done.returncode, done.stdout, done.stderr.count(b"\n")), (2, b"", 1), words)


if __name__ == "__main__":
    unittest.main()
