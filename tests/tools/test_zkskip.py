"""Tests of zkskip: what is left out, what stays, and what is reported."""

import stat
import struct
import unittest.mock

from .support import CAPTURES, PROGRAM, ToolCase, pieces, sides, zkr
from ..unknown_operations import LACKED, NAMED, NUMBER
from tools.zkdump_tools import facts, zkskip

CONNECT = bytes.fromhex("00000000 0000000000000000 00007530 0000000000000000 00000010" + "00" * 17)
CONNECTED = bytes.fromhex("00000000 00007530 0100000000000001 00000010 000102030405060708090a0b0c0d0e0f 00")
PATH = bytes.fromhex("00000002 2f61")
CREATE = PATH + bytes.fromhex("ffffffff 00000001 0000001f 00000005 776f726c64 00000006 616e796f6e65 00000000")
DONE = bytes.fromhex("ffffffff 01 ffffffff")
ACCESS_LIST_WITHOUT_END = bytes.fromhex("7fffffff 0000001f 00000000")


def request(xid, kind, body=b""):
    return "C", struct.pack(">ii", xid, kind) + body


def reply(xid, err=0, body=b""):
    return "S", struct.pack(">iqi", xid, 5, err) + body


def part(kind, body):
    return struct.pack(">i?i", kind, False, -1) + body


def recording(frames, head=zkr.Head()):
    """A recording of the connect frames and these, one frame a piece."""
    every = [("C", CONNECT), ("S", CONNECTED), *frames]
    return head.to_bytes() + b"".join(
        head.piece(side.encode(), at, len(payload).to_bytes(4, "big") + payload)
        for at, (side, payload) in enumerate(every))


# Frames, those numbers of them (from 0) that profile 3.4 leaves out, and the line of the first of these.
CASES = {
    "all operations of 3.4": (
        [request(n, kind) for n, kind in enumerate((1, 2, 3, 4, 5, 6, 7, 8, 9, 12, 101, -11))]
        + [request(-2, 11), request(-4, 100), request(-8, 101)], [], None),
    "create2 and its reply": (
        [request(1, 3, PATH + b"\0"), request(2, 15, CREATE), reply(1, -101), reply(2, 0, PATH)], [1, 3],
        "left out: C frame=2 xid=2 create2, 49 bytes"),
    "auth under an ordinary xid, answered too early": (
        [request(1, 3, PATH + b"\0"), request(2, 100), reply(2), reply(1, -101)], [1, 2],
        "left out: C frame=2 xid=2 auth under an ordinary xid, 8 bytes"),
    "two requests of one xid": (
        [request(7, NAMED.number), request(7, 3, PATH + b"\0"), reply(7), reply(7, -101)], [0, 2],
        f"left out: C frame=1 xid=7 {NAMED.name}, 8 bytes"),
    "an operation of a later release under the xid of setWatches, and no reply": (
        [request(-8, NAMED.number), request(-8, 101), ("S", reply(-1)[1])], [0],
        f"left out: C frame=1 xid=-8 {NAMED.name}, 8 bytes"),
    "a check outside a multi, all of later releases, SASL, and an operation that no release has": (
        [request(xid, each.number) for xid, each in enumerate(LACKED)] + [request(99, NUMBER)]
        + [reply(xid) for xid, _ in enumerate(LACKED)] + [reply(99)],
        [*range(len(LACKED)), *range(len(LACKED) + 1, 2 * len(LACKED) + 1)],
        "left out: C frame=1 xid=0 check, 8 bytes"),
    "a multi of 3.4": (
        [request(1, 14, part(1, CREATE) + part(2, PATH + bytes(4)) + part(5, PATH + bytes(8))
                 + part(13, PATH + bytes(4)) + DONE),
         reply(1, 0, DONE)], [], None),
    "a multi with create2": (
        [request(1, 14, part(1, CREATE) + part(15, CREATE) + DONE), reply(1, 0, DONE)], [0, 1],
        "left out: C frame=1 xid=1 multi with create2, 117 bytes"),
    "multis that zkdump has to judge": (
        [request(1, 14, part(14, b"")), request(2, 14, part(1, PATH)), request(3, 14),
         request(4, 14, part(1, PATH + b"\xff" * 4 + ACCESS_LIST_WITHOUT_END))], [], None),
    "frames too short for a header, and a reply that nobody asked for": (
        [("C", b""), ("C", b"1234567"), ("S", b""), reply(9)], [], None),
}


class Zkskip(ToolCase):
    def skip(self, data, *words, status=0):
        """What zkskip makes of a recording, and the lines that it prints."""
        done = self.run_raw("zkskip.py", *words, stdin=data)
        self.assertEqual(done.returncode, status, done.stderr)
        return done.stdout, done.stderr.decode().splitlines()

    def test_what_is_left_out(self):
        for name, (frames, gone, told) in CASES.items():
            with self.subTest(name):
                found, lines = self.skip(recording(frames))
                stays = [frame for at, frame in enumerate(frames) if at not in gone]
                self.assertEqual(found, recording(stays))
                requests = sum(frames[at][0] == "C" for at in gone)
                self.assertEqual(lines[-1], f"left out: {requests} requests, {len(gone) - requests} replies")
                self.assertEqual(len(lines), len(gone) + 1)
                if told:
                    self.assertEqual(lines[0], told)

    def test_create2_stays_under_3_5(self):
        frames = [request(1, 15, CREATE), request(2, NAMED.number, CREATE), reply(1, 0, PATH), reply(2, 0, PATH)]
        self.assertEqual(self.skip(recording(frames), "--profile", "3.5")[0], recording(frames[::2]))
        self.assertEqual(self.skip(recording(frames), "--profile=3.4")[0], recording([]))

    def test_operations_of_3_7_stay_under_it(self):
        """An addWatch and its reply, and with them no operation that no profile has."""
        frames = [request(1, 106, PATH + b"\0\0\0\1"), request(2, NAMED.number, CREATE), reply(1, 0, bytes(4)), reply(2)]
        for words, head, wanted in ((["--profile", "3.7"], zkr.Head(), frames[::2]), ([], zkr.Head(), []),
                                    (["--profile", "3.5"], zkr.Head(), []),
                                    ([], zkr.Head("zkr2", profile=37), frames[::2]),
                                    (["--profile", "3.5"], zkr.Head("zkr2", profile=37), [])):
            found, _ = self.skip(recording(frames, head), *words)
            self.assertEqual(sides(found), sides(recording(wanted, head)))

    def test_the_second_format_keeps_its_head_and_times(self):
        head = zkr.Head("zkr2", 100, 200, 3, 35)
        found, _ = self.skip(recording([request(1, NAMED.number), reply(1), request(2, 3)], head))
        self.assertEqual(found[:20], head.to_bytes())
        self.assertEqual([piece.milliseconds for piece in pieces(found)], [0, 1, 4])

    def test_the_second_format_has_the_profile(self):
        frames = [request(1, 15, CREATE), reply(1)]
        for profile, words, kept in ((34, [], []), (35, [], frames), (35, ["--profile=3.4"], []),
                                     (34, ["--profile=3.5"], frames)):
            head = zkr.Head("zkr2", profile=profile)
            found, _ = self.skip(recording(frames, head), *words)
            self.assertEqual(sides(found), sides(recording(kept, head)))

    def test_the_head_has_the_profile_by_which_it_was_made(self):
        """So the program reads what stays, by the new head."""
        frames = [request(1, 15, CREATE), request(2, NAMED.number, CREATE), reply(1, -110), reply(2)]
        for profile, words, wanted in ((34, ["--profile=3.5"], 35), (35, ["--profile=3.4"], 34), (34, [], 34),
                                       (35, [], 35)):
            found, _ = self.skip(recording(frames, zkr.Head("zkr2", profile=profile)), *words)
            self.assertEqual(found[:20], b"ZKR2" + struct.pack(">iiii", 4_194_304, 4_194_304, 65_536, wanted))
            self.assertEqual(len(pieces(found)), 4 if wanted == 35 else 2)
            if PROGRAM.exists():
                self.assertEqual(self.show(found).splitlines()[-1], ". whole unanswered=0")

    def test_however_the_pieces_are_cut(self):
        frames = [request(1, 15, CREATE), request(2, 3, PATH + b"\0"), reply(1, 0, PATH), reply(2, -101)]
        whole, expected = pieces(recording(frames)), recording(frames[1::2])
        for size in (1, 2, 5, 33):
            data = b"ZKR1" + b"".join(zkr.Head().piece(side, 0, part[at:at + size])
                                      for side, _, part in whole for at in range(0, len(part), size))
            self.assertEqual(self.skip(data)[0], expected)

    def test_what_is_no_frame_stays(self):
        begun = recording([request(1, 15, CREATE)])
        cut = zkr.Head().piece(b"S", 0, b"\0\0\0\x10\0") + zkr.Head().piece(b"C", 0, b"\0\0")
        self.assertEqual(sides(self.skip(begun + cut)[0]), sides(recording([]) + cut))
        other = b"ZKR1" + b"".join(zkr.Head().piece(side, 0, data) for side, data in
                                   ((b"C", b"ruok"), (b"S", b"imok"), (b"C", b"more"), (b"S", b"!")))
        self.assertEqual(sides(self.skip(other)[0]), (b"ruokmore", b"imok!"))

    def test_damaged_recordings(self):
        begun = recording([request(1, 15, CREATE), request(2, 3, PATH + b"\0")])
        for data, expected, told in ((b"", b"", "(offset=0 reason=BadHead)"),
                                     (b"no recording", b"", "(offset=0 reason=BadHead)"),
                                     (begun + b"X", recording([request(2, 3, PATH + b"\0")]),
                                      f"(offset={len(begun)} reason=BadSide)"),
                                     (begun[:-1], None, "reason=Short)")):
            found, lines = self.skip(data, status=1)
            self.assertTrue(lines[-1].startswith("zkskip.py: standard input: ") and lines[-1].endswith(told), lines)
            if expected is not None:
                self.assertEqual(found, expected)

    def test_every_capture(self):
        left_out = {"refused_go_auth_under_an_ordinary_xid": (1, 1), "refused_java_ttl_node": (2, 2),
                    "refused_kazoo_create2": (35, 35), "java_create2": (5, 5),
                    "kazoo_create2_and_others": (11, 11), "curator_service": (17, 17),
                    "java_containers_and_ttl": (8, 8), "java_add_watch": (11, 11), "java_ephemerals": (10, 10),
                    "java_reconfig": (8, 8), "curator_watch": (3, 3)}
        for capture in CAPTURES:
            data = capture.read_bytes()
            found, lines = self.skip(data)
            with self.subTest(capture=capture.name):
                requests, replies = left_out.get(capture.stem, (0, 0))
                self.assertEqual(lines[-1], f"left out: {requests} requests, {replies} replies")
                if not requests:
                    self.assertEqual(sides(found), sides(data))
                if requests and PROGRAM.exists():
                    self.assertEqual(self.show(found).splitlines()[-1], ". whole unanswered=0")

    def test_files_by_their_names(self):
        frames = [request(1, 19), request(2, 3), reply(1), reply(2, -101)]
        for head in (zkr.Head(), zkr.Head("zkr2")):
            source, target = self.folder / f"{head.form}.zkr", self.folder / f"{head.form}_plain.zkr"
            source.write_bytes(recording(frames, head))
            self.skip(b"", source, target)
            self.assertEqual(target.read_bytes(), self.skip(source.read_bytes())[0])
            self.assertFalse((self.folder / f"{target}.times").exists())
            target.unlink()
            (self.folder / f"{source}.times").write_text("".join(f"{at}.25{at}\n" for at in range(6)), "ascii")
            self.skip(b"", source, target)
            self.assertEqual(target.read_bytes(), self.skip(source.read_bytes())[0])
            self.assertEqual((self.folder / f"{target}.times").read_text("ascii"), "0.250\n1.251\n3.253\n5.255\n")
            self.assertEqual(stat.S_IMODE(target.stat().st_mode), 0o600)
            status, out, err = self.run_tool("zkskip.py", source, target)
            self.assertEqual((status, out, err), (3, "", f"zkskip.py: {target}: File exists\n"))

    def test_ctrl_c_leaves_no_facts_of_the_whole_recording(self):
        source, take = self.folder / "a.zkr", zkskip.Skipping.take
        source.write_bytes(recording([request(1, 19), request(2, 3), reply(1), reply(2, -101)]))
        facts.write(source, facts.Facts(closed="C"))

        def interrupted(skipping, piece):
            if piece.side == zkr.SERVER and skipping.requests:
                raise KeyboardInterrupt
            return take(skipping, piece)
        for name, taken, status, left in (("b", take, 0, True), ("c", interrupted, 130, False)):
            with unittest.mock.patch("tools.zkdump_tools.zkskip.Skipping.take", taken):
                self.assertEqual(self.run_inside("zkskip.py", source, self.folder / f"{name}.zkr")[0], status)
            self.assertTrue((self.folder / f"{name}.zkr").exists())
            self.assertEqual((self.folder / f"{name}.facts.json").exists(), left)

    def test_times_of_another_recording(self):
        source = self.folder / "a.zkr"
        source.write_bytes(recording([request(1, 19)]))
        (self.folder / "a.zkr.times").write_text("1\n2\n", "ascii")
        status, out, err = self.run_tool("zkskip.py", source, self.folder / "b.zkr")
        self.assertEqual((status, out, err), (1, "", f"zkskip.py: {source}.times has 2 times, and {source} 3 "
                                                   "pieces: these are not the times of this recording\n"))
        self.assertFalse((self.folder / "b.zkr").exists())

    def test_words(self):
        for words in (["--nonsense"], ["file.zkr"], ["a", "b", "c"], ["--profile", "3.6"], ["--profile"]):
            self.assert_bad_words("zkskip.py", *words)
