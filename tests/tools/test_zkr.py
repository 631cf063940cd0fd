"""Tests of recordings as the tools read and write them."""

import io
import stat
import unittest.mock

from .support import CAPTURES, ToolCase, pieces, zkr

TWO = bytes.fromhex("5a4b5232 00400000 00400000 00010000 00000022")


class Reading(ToolCase):
    def test_the_first_format(self):
        found = pieces(b"ZKR1" b"C\0\0\0\2ab" b"S\0\0\0\1c")
        self.assertEqual(found, [(b"C", None, b"ab"), (b"S", None, b"c")])

    def test_the_second_format(self):
        found = zkr.Reader(io.BytesIO(TWO + bytes.fromhex("43 0000000000000102 00000002 6162")))
        self.assertEqual(found.head, ("zkr2", 4_194_304, 4_194_304, 65_536, 34))
        self.assertEqual(list(found), [(b"C", 258, b"ab")])

    def test_damages(self):
        for recording, offset, reason in (
                (b"", 0, "BadHead"), (b"ZKR", 0, "BadHead"), (b"ZKR3", 0, "BadHead"), (b"ZKR1X", 4, "BadSide"),
                (b"ZKR1C", 5, "Short"), (b"ZKR1C\0\0\0\0", 5, "BadSize"), (b"ZKR1C\1\0\0\5", 5, "BadSize"),
                (b"ZKR1C\0\0\0\2a", 9, "Short"), (b"ZKR2", 4, "Short"), (b"ZKR2\0\0\0\x3f", 4, "BadLimits"),
                (TWO[:-1] + b"\x24", 16, "BadLimits"), (TWO + b"C" + b"\xff" * 8, 21, "BadTime"),
                (TWO + b"C" + bytes(8), 29, "Short"), (TWO + b"C" + bytes(12), 29, "BadSize")):
            with self.subTest(recording=recording), self.assertRaises(zkr.Damaged) as caught:
                pieces(recording)
            self.assertEqual((caught.exception.offset, caught.exception.reason), (offset, reason))

    def test_pieces_are_counted_as_they_are_read(self):
        whole = b"ZKR1C\0\0\0\2abS\0\0\0\1c"
        for recording in (whole, whole[:-1], whole[:-2], whole + b"X", whole[:11], TWO, TWO + b"C" + bytes(11) + b"\1a",
                          TWO + b"C" + b"\xff" * 12, *(capture.read_bytes() for capture in CAPTURES)):
            found = []
            try:
                found.extend(zkr.Reader(io.BytesIO(recording)))
            except zkr.Damaged:
                found = []
                with self.assertRaises(zkr.Damaged):
                    for piece in zkr.Reader(io.BytesIO(recording)):
                        found.append(piece)
            self.assertEqual(zkr.Reader(io.BytesIO(recording)).count(), len(found))

    def test_a_piece_cut_short_is_read_as_far_as_it_is_there(self):
        taken = []
        with self.assertRaises(zkr.Damaged):
            for piece in zkr.Reader(io.BytesIO(b"ZKR1C\0\0\0\5abc")):
                taken.append(piece.data)
        self.assertEqual(taken, [b"abc"])


class Cutting(ToolCase):
    def test_frames_however_they_are_cut(self):
        data = b"\0\0\0\2ab" b"\0\0\0\0" b"\0\0\0\1c" b"\0\0"
        for size in range(1, len(data) + 1):
            cutter, found = zkr.Cutter(), []
            for at in range(0, len(data), size):
                found += cutter.take(zkr.Piece(b"C", float(at), data[at:at + size]))
            self.assertEqual([frame[:3] for frame in found], [(b"C", 0, b"ab"), (b"C", 1, b""), (b"C", 2, b"c")])
            self.assertEqual(found[0].milliseconds, 5 // size * size)
            self.assertEqual(cutter.held, {b"C": b"\0\0", b"S": b""})

    def test_a_length_out_of_range(self):
        cutter = zkr.Cutter(zkr.Head("zkr2", 64, 65, 1, 34))
        for side, size, broken in ((b"S", 65, False), (b"C", 65, True)):
            cutter.take(zkr.Piece(side, None, size.to_bytes(4, "big") + bytes(size)))
            self.assertEqual(side in cutter.broken, broken)
        self.assertEqual(len(cutter.held[b"C"]), 69)


class Writing(ToolCase):
    def test_what_is_written_is_read_again(self):
        source = pieces(CAPTURES[0].read_bytes())
        for head, gather in ((zkr.Head(), 0), (zkr.Head("zkr2", 64, 64, 1, 35), 1 << 16)):
            path = self.folder / head.form
            writer = zkr.Writer(path, head, True, gather)
            for number, piece in enumerate(source):
                writer.piece(piece.side, 1_700_000_000_000.25 + number, piece.data)
            writer.close()
            reader = zkr.Reader(io.BytesIO(path.read_bytes()))
            self.assertEqual(reader.head, head)
            self.assertEqual([(side, data) for side, _, data in reader], [(side, data) for side, _, data in source])
            self.assertEqual(list(zkr.read_times(zkr.times_path(path))),
                             [f"{1_700_000_000_000 + number}.250" for number in range(len(source))])
            self.assertEqual(stat.S_IMODE(path.stat().st_mode), 0o600)

    def test_both_files_have_one_time(self):
        for milliseconds, whole, spelled in ((7.9994, 7, "7.999"), (7.9996, 8, "8.000")):
            path = self.folder / spelled
            writer = zkr.Writer(path, zkr.Head("zkr2"), True)
            writer.piece(b"C", milliseconds, b"a")
            writer.close()
            self.assertEqual([piece.milliseconds for piece in pieces(path.read_bytes())], [whole])
            self.assertEqual(list(zkr.read_times(zkr.times_path(path))), [spelled])

    def test_what_is_no_file_of_times(self):
        path = self.folder / "times"
        for line in ("", "-1", "1e3", "nan", "1.", ".5", "1 ", "9" * 20, "1." + "0" * 10, "9" * 400, "\xb2",
                     "01", "00", "00.5"):       # zkjson writes times as they are, and JSON has no such number
            path.write_bytes(f"1\n2.5\n{line}\n".encode("latin-1"))
            with self.subTest(line=line), self.assertRaisesRegex(ValueError, "line 3 is not a time: "):
                list(zkr.read_times(path))

    def test_large_data_is_several_pieces(self):
        writer = zkr.Writer(self.folder / "large", zkr.Head(), True)
        writer.piece(b"S", 0, bytes(zkr.LARGEST_PIECE + 1))
        writer.close()
        self.assertEqual([len(piece.data) for piece in pieces((self.folder / "large").read_bytes())],
                         [zkr.LARGEST_PIECE, 1])
        self.assertEqual(len(list(zkr.read_times(self.folder / "large.times"))), 2)

    def test_no_file_is_overwritten(self):
        for name in ("a-1.zkr", "a-3.zkr.times"):
            (self.folder / name).write_bytes(b"mine")
        series = zkr.Series(str(self.folder / "a"), zkr.Head(), True)
        made = [series.next() for _ in range(2)]
        for writer in made:
            writer.close()
        self.assertEqual([writer.path[-7:] for writer in made], ["a-2.zkr", "a-4.zkr"])
        self.assertEqual(sorted(path.name for path in self.folder.iterdir()),
                         ["a-1.zkr", "a-2.zkr", "a-2.zkr.times", "a-3.zkr.times", "a-4.zkr", "a-4.zkr.times"])


class Progress(ToolCase):
    def shown(self, is_terminal):
        stream = io.StringIO()
        stream.isatty = lambda: is_terminal
        with unittest.mock.patch("sys.stderr", stream), unittest.mock.patch("time.monotonic", side_effect=range(9)):
            progress = zkr.Progress("tool")
            for number in range(3):
                progress.show(f"{number} frames")
            progress.end()
        return stream.getvalue()

    def test_on_a_terminal_alone(self):
        self.assertEqual(self.shown(False), "")
        self.assertEqual(self.shown(True)[:17], "\rtool: 0 frames\033[")
        self.assertTrue(self.shown(True).endswith("\r\033[K"))
