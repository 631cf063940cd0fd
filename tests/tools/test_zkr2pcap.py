"""Tests of zkr2pcap.py: the way back by pcap2zkr.py, times, and what it can't do."""

import io
import stat
import struct

from .support import CAPTURES, ToolCase, pieces, sides, zkr
from . import wire
from tools.zkdump_tools import zkr2pcap

CONNECT = CAPTURES[0]


def packets_of(capture):
    """The packets of a capture as it writes them: nanoseconds and bytes."""
    at = 24
    while at < len(capture):
        seconds, part, size, whole = struct.unpack_from("<IIII", capture, at)
        assert size == whole
        yield seconds * 10**9 + part, capture[at + 16:at + 16 + size]
        at += 16 + size


class Zkr2pcap(ToolCase):
    def convert(self, *recordings, words=()):
        capture = self.folder / "made.pcap"
        capture.unlink(missing_ok=True)
        done = self.run_inside("zkr2pcap.py", *words, *recordings, capture)
        self.assertEqual(done, (0, "", ""))
        return capture

    def back(self, capture, *words):
        """The recordings that pcap2zkr.py makes of it."""
        for old in self.folder.glob("r-*"):
            old.unlink()
        status, out, err = self.run_tool("pcap2zkr.py", *words, capture, self.folder / "r")
        self.assertEqual((status, err), (0, ""), out)
        return sorted(self.folder.glob("r-*.zkr"), key=lambda path: int(path.stem[2:]))

    def test_the_way_back(self):
        made = self.back(self.convert(*CAPTURES))
        self.assertEqual(len(made), len(CAPTURES))
        found = sorted(sides(path.read_bytes()) for path in made)
        self.assertEqual(found, sorted(sides(path.read_bytes()) for path in CAPTURES))

    def test_one_piece_is_one_packet_unless_it_is_long(self):
        recording = b"ZKR1" + b"".join(zkr.Head().piece(side, 0, data) for side, data in (
            (zkr.CLIENT, b"one"), (zkr.SERVER, bytes(1449)), (zkr.CLIENT, b"t")))
        path = self.folder / "r.zkr"
        path.write_bytes(recording)
        found = [len(packet) - 54 for _, packet in packets_of(self.convert(path).read_bytes())]
        self.assertEqual(found, [0, 0, 0, 3, 1448, 1, 1, 0, 0, 0])

    def test_times(self):
        times = [1_700_000_000_000, 1_700_000_000_007, 1_700_000_001_000]
        recording = zkr.Head("zkr2")
        path = self.folder / "two.zkr"
        path.write_bytes(recording.to_bytes() + b"".join(recording.piece(zkr.CLIENT, time, b"x") for time in times))
        found = [moment for moment, packet in packets_of(self.convert(path).read_bytes()) if len(packet) > 54]
        self.assertEqual(found, [time * 10**6 for time in times])
        path = self.folder / "one.zkr"
        path.write_bytes(b"ZKR1" + zkr.Head().piece(zkr.CLIENT, 0, b"x") * 3)
        beside = self.folder / "one.zkr.times"
        beside.write_text("1700000000000.000001\n1700000000000.25\n1700000000003\n")
        found = [moment for moment, packet in packets_of(self.convert(path).read_bytes()) if len(packet) > 54]
        self.assertEqual(found, [1_700_000_000_000 * 10**6 + part for part in (1, 250_000, 3_000_000)])
        beside.unlink()
        found = [moment for moment, packet in packets_of(self.convert(path).read_bytes()) if len(packet) > 54]
        self.assertEqual(found, [0, 10**6, 2 * 10**6])

    def test_the_time_0_is_none(self):
        """A migrated recording without times has the packets of the one that it is made of."""
        migrated, head = self.folder / "new.zkr", zkr.Head("zkr2")
        migrated.write_bytes(head.to_bytes() + b"".join(head.piece(piece.side, 0, piece.data)
                                                        for piece in pieces(CONNECT.read_bytes())))
        wanted = self.convert(CONNECT).read_bytes()
        self.assertEqual(self.convert(migrated).read_bytes(), wanted)

    def test_a_time_that_no_capture_has(self):
        """The seconds of a packet's time are 32 bits."""
        path, capture = self.folder / "late.zkr", self.folder / "late.pcap"
        for seconds, status in ((2**32 - 1, 0), (2**32, 1)):
            path.write_bytes(zkr.Head("zkr2").to_bytes() + zkr.Head("zkr2").piece(zkr.CLIENT, 1000 * seconds, b"x"))
            err = f"zkr2pcap.py: {path} has a time after the year 2106, and a capture can't have such a time\n"
            self.assertEqual(self.run_tool("zkr2pcap.py", path, capture), (status, "", err * status))
            capture.unlink()

    def test_several_are_in_the_order_of_time(self):
        head, paths = zkr.Head("zkr2"), []
        for at, times in enumerate(((10, 30), (20, 40))):
            paths.append(self.folder / f"{at}.zkr")
            paths[-1].write_bytes(head.to_bytes() + b"".join(head.piece(zkr.CLIENT, time, b"x") for time in times))
        found = [(moment // 10**6, int.from_bytes(packet[34:36], "big"), int.from_bytes(packet[36:38], "big"))
                 for moment, packet in packets_of(self.convert(*paths, words=("--port", "99")).read_bytes())
                 if len(packet) > 54]
        self.assertEqual(found, [(10, 40_001, 99), (20, 40_002, 99), (30, 40_001, 99), (40, 40_002, 99)])

    def test_checksums(self):
        """The sum over what has its checksum in it is 0."""
        sent = zkr2pcap.Sent(0, zkr.CLIENT, 1001, 2001, wire.PUSH | wire.ACK, b"abc")
        packet = zkr2pcap.ipv4(zkr.CLIENT, zkr2pcap.tcp(sent, 40_001, 2181))
        self.assertEqual(zkr2pcap.checksum(packet[:20]), bytes(2))
        self.assertEqual(zkr2pcap.checksum(packet[12:20] + struct.pack(">HH", 6, len(packet) - 20) + packet[20:]),
                         bytes(2))

    def test_what_it_cannot_do(self):
        capture = self.convert(CONNECT)
        self.assertEqual(stat.S_IMODE(capture.stat().st_mode), 0o600)
        for words, status, told in (((CONNECT, capture), 3, f"{capture}: File exists"),
                                    ((self.folder / "no", self.folder / "new"), 3,
                                     f"{self.folder}/no: No such file or directory"),
                                    ((self.folder, self.folder / "new"), 3, f"{self.folder}: Is a directory"),
                                    ((capture, self.folder / "new"), 1,
                                     f"{capture}: this is no recording, which begins with ZKR1 or ZKR2 "
                                     "(offset=0 reason=BadHead)")):
            with self.subTest(told=told):
                self.assertEqual(self.run_tool("zkr2pcap.py", *words), (status, "", f"zkr2pcap.py: {told}\n"))
                self.assertFalse((self.folder / "new").exists())
        cut = self.folder / "cut.zkr"
        cut.write_bytes(CONNECT.read_bytes()[:40])
        status, _, err = self.run_tool("zkr2pcap.py", cut, self.folder / "front")
        self.assertEqual((status, err),
                         (1, f"zkr2pcap.py: {cut}: the recording ends within a piece, or within its head "
                                  "(offset=9 reason=Short)\n"))
        self.assertEqual(sum(len(packet) > 54 for _, packet in packets_of((self.folder / "front").read_bytes())), 1)
        self.assert_bad_words("zkr2pcap.py")
        self.assert_bad_words("zkr2pcap.py", CONNECT)
        self.assert_bad_words("zkr2pcap.py", "--port", "0", CONNECT, self.folder / "new")

    def test_times_of_another_recording(self):
        """No capture is begun, so that it can be made once they are put right."""
        path, other, capture = (self.folder / name for name in ("a.zkr", "b.zkr", "a.pcap"))
        for each in (path, other):
            each.write_bytes(CONNECT.read_bytes())
        other.with_name("b.zkr.times").write_text("1\n", "ascii")
        status, out, err = self.run_inside("zkr2pcap.py", path, other, capture)
        self.assertEqual((status, out, err.count("\n")), (1, "", 1))
        self.assertIn("these are not the times of this recording", err)
        self.assertFalse(capture.exists())

    def test_an_empty_recording(self):
        path = self.folder / "none.zkr"
        path.write_bytes(b"ZKR1")
        self.assertEqual(len(self.convert(path).read_bytes()), 24)
        self.assertEqual(pieces(path.read_bytes()), [])
        self.assertEqual(list(zkr2pcap.packets(path, zkr.Reader(io.BytesIO(b"ZKR1")), 1, 2)), [])
