"""Tests of the tools that record, on a full disk: what they leave there is whole recordings, each with as many times as
pieces. In place of a full disk the system limits the size of files; a small disk is used, too, where one can be
mounted."""

import subprocess
import sys

from . import wire
from .captured import PcapCase, packed
from .proxied import SECONDS, TroubleCase
from .support import CAPTURES, TOOLS, pieces, zkr
from tools.zkdump_tools import facts

ASK, REPLY = zkr.Piece(zkr.CLIENT, None, bytes(300)), zkr.Piece(zkr.SERVER, None, bytes(300))


def small_disk(case, room):
    """A folder on a disk of its own with room for this number of files of up to 4 kB. The test is skipped where none
    can be mounted."""
    folder = case.folder / "disk"
    folder.mkdir()
    if subprocess.run(["mount", "-t", "tmpfs", "-o", "size=64k", "none", folder], capture_output=True,
                      check=False).returncode:
        case.skipTest("no disk can be mounted here")
    case.addCleanup(subprocess.run, ["umount", "--lazy", folder], check=True)
    (folder / "used").write_bytes(bytes((64 << 10) - room * 4096))
    return folder


class Record(TroubleCase):
    def assert_ends_alone(self, size, most=None):
        """That a recording with pieces of this size ends on the full disk, and its connection goes on."""
        port = self.begin("record.py", "--times")
        if most:
            subprocess.run(["prlimit", f"--pid={self.tool.pid}", f"--fsize={most}:{most}"], check=True)
        with self.client(port) as client:
            for _ in range(300):
                self.ask(client, bytes(size))
        begun, ended = [line.split() for line in self.lines(2)]
        path = self.prefix.with_name("r-1.zkr")
        found, times = pieces(path.read_bytes()), path.with_name("r-1.zkr.times")
        self.assertEqual((len(list(zkr.read_times(times))), {len(piece.data) for piece in found}), (len(found), {size}))
        said = [size * sum(piece.side == side for piece in found) for side in (zkr.CLIENT, zkr.SERVER)]
        self.assertEqual(ended[4:], [f"client={said[0]}", f"server={said[1]}", "closed=C", "incomplete"])
        first, *more = self.complaints(1)
        self.assertTrue(first.endswith("no more of it is recorded"), self.err)
        self.assertTrue(all(line.endswith("are not written") for line in more), self.err)
        self.tool.terminate()
        self.assertEqual(self.tool.wait(SECONDS), 3)
        known = facts.facts_of(path)
        self.assertTrue(known.hole == ("C", "S") and not known.unfinished or known.unfinished and not known.hole, known)
        self.assertEqual([each.name for each in path.parent.glob("r-*.facts.json*")], ["r-1.facts.json"])

    def test_the_recording_ends_first(self):
        self.assert_ends_alone(300, most=1000)

    def test_its_times_end_first(self):
        self.assert_ends_alone(1, most=400)

    def test_a_small_disk(self):
        self.prefix = small_disk(self, 3) / "r"
        for size in (300, 1):
            with self.subTest(size=size):
                self.assert_ends_alone(size)
                for path in self.prefix.parent.glob("r-*"):
                    path.unlink()


class Zkskip(PcapCase):
    def test_nothing_comes_after_what_could_not_be_written(self):
        """The client's last frame is cut, so that there is something to write after the pieces that fail."""
        source, target = self.folder / "long.zkr", self.folder / "plain.zkr"
        frame = zkr.Piece(zkr.SERVER, 0, b"\0\0\1\0" + bytes(256))
        head = zkr.Head()
        source.write_bytes(head.to_bytes() + head.piece(zkr.CLIENT, 0, b"\0\0\0\4cut") + head.piece(*frame) * 1000)
        facts.write(source, facts.Facts(closed="C"))
        for most, left in ((50_000, None), (100_000, 248)):
            with self.subTest(most=most):
                done = subprocess.run(["prlimit", f"--fsize={most}:{most}", sys.executable, TOOLS / "zkskip.py", source,
                                       target], capture_output=True, text=True, timeout=60, check=False)
                self.assertEqual((done.returncode, done.stderr.splitlines()[-1]),
                                 (3, f"zkskip.py: {target}: File too large"))
                self.assertEqual(target.exists() and len(pieces(target.read_bytes())), left or False)
                self.assertFalse(target.with_name("plain.facts.json").exists())


class Zkplay(PcapCase):
    def test_a_recording_that_is_not_whole_has_a_hole(self):
        path, prefix = self.folder / "long.zkr", self.folder / "r"
        path.write_bytes(b"ZKR1" + zkr.Head().piece(zkr.SERVER, 0, bytes(250)) * 200)
        player = subprocess.Popen(["prlimit", "--fsize=20000:20000", sys.executable, TOOLS / "zkplay.py", "--record",
                                   prefix, "0", path], stdout=subprocess.PIPE, stderr=subprocess.PIPE, text=True)
        self.addCleanup(player.kill)
        address = player.stdout.readline().split()[-1]
        self.run_tool("zkplay.py", "--client", address, path)
        _, err = player.communicate(timeout=SECONDS)
        self.assertEqual((player.returncode, err), (3, f"zkplay.py: {prefix}-1.zkr: File too large\n"))
        self.assertEqual(facts.facts_of(f"{prefix}-1.zkr").hole, ("C", "S"))


class Zkr2pcap(PcapCase):
    def test_no_part_of_a_capture_is_left(self):
        capture = self.folder / "made.pcap"
        done = subprocess.run(["prlimit", "--fsize=100:100", sys.executable, TOOLS / "zkr2pcap.py", CAPTURES[0],
                               capture],
                              capture_output=True, text=True, timeout=60, check=False)
        self.assertEqual((done.returncode, done.stderr), (3, f"zkr2pcap.py: {capture}: File too large\n"))
        self.assertFalse(capture.exists())


class Pcap2zkr(PcapCase):
    """Five connections side by side, of which the last is longer than what is gathered before it is written."""

    def left(self, most, *words):
        """What is left in the folder where no file may have more bytes: names, and numbers of pieces and of times."""
        talks = [list(wire.conversation([ASK, REPLY] * count, close=False)) for count in (4, 4, 4, 4, 400)]
        sent = sorted((each.milliseconds, at, each) for at, talk in enumerate(talks) for each in talk)
        capture = wire.pcap([packed([each], client=3000 + at)[0] for _, at, each in sent])
        status, lines, told, _ = self.convert_within(capture, "RLIMIT_FSIZE", most, *words)
        self.assertEqual((status, lines, len(told)), (3, 0, 1), told)
        self.complaint = told[0]
        self.assertRegex(told[0], r"^pcap2zkr\.py: \S+r-\d\.zkr(\.times)?: File too large")
        recordings = sorted(self.folder.glob("r-*.zkr"))
        times = [list(zkr.read_times(path)) for path in sorted(self.folder.glob("r-*.times"))]
        return ([path.name for path in recordings], [len(pieces(path.read_bytes())) for path in recordings],
                [len(each) for each in times])

    def test_nothing_is_left_where_nothing_could_be_written(self):
        for words in ((), ("--times",)):
            with self.subTest(words=words):
                self.assertEqual(self.left(100, *words), ([], [], []))

    def test_what_was_written_is_left_whole(self):
        names, count, times = self.left(100_000, "--times")
        self.assertEqual((names, count, times), (["r-5.zkr"], times, count))
        self.assertIn("; these recordings are not complete: ", self.complaint)
        self.assertTrue(self.complaint.endswith("r-5.zkr"), self.complaint)
        self.assertTrue(0 < count[0] < 800, count)

    def test_a_small_disk(self):
        """Which has room for the facts with which five recordings begin, for one recording, its times and its new facts."""
        disk, capture = small_disk(self, 8), self.folder / "capture"
        sent = [wire.conversation([ASK, REPLY] * 4, close=False) for _ in range(5)]
        capture.write_bytes(wire.pcap([each for at, talk in enumerate(sent)
                                       for each in packed(talk, client=3000 + at)]))
        status, lines, told = self.run_tool("pcap2zkr.py", "--times", capture, disk / "r")
        self.assertEqual((status, told), (3, f"pcap2zkr.py: {disk}/r-2.zkr.times: No space left on device\n"))
        self.assertEqual([line.split()[0] for line in lines.splitlines()], [f"{disk}/r-1.zkr"])
        self.assertEqual(sorted(path.name for path in disk.glob("r-*")), ["r-1.facts.json", "r-1.zkr", "r-1.zkr.times"])
        self.assertEqual(len(pieces((disk / "r-1.zkr").read_bytes())), 8)
