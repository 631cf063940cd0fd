"""The choices that zkjson, zkstat and zkreport have in common."""

import json
import struct

from .support import PROGRAM, ToolCase, zkr

ASKED = 1_795_332_633_000


class Choices(ToolCase):
    run_tool = ToolCase.run_inside

    def lines(self, *latencies):
        """A file of the lines of zkjson, with a reply of each of these latencies in milliseconds."""
        path = self.folder / "a.json"
        path.write_text("".join(json.dumps(each) + "\n" for number, ms in enumerate(latencies) for each in (
            {"n": 2 * number + 1, "side": "C", "xid": number, "op": "sync", "path": "/a", "at": ASKED},
            {"n": 2 * number + 2, "side": "S", "xid": number, "op": "sync", "zxid": "0x5", "path": "/a",
             "at": ASKED + ms, "ms": ms, "of": 2 * number + 1, "asked": "/a"})))
        return path

    def test_slower_than_a_number_of_microseconds(self):
        """A reply that took just so long isn't slower, though 1.001 is no binary fraction."""
        path = self.lines(1.0, 1.001, 1.002, 4.035, 4.036)
        for slower, chosen in (("1", 4), ("1.001", 3), ("1.0010", 3), ("1.0015", 3), ("1.000999999", 4), ("1.002", 2),
                               ("4.035", 1), ("0", 5), ("5", 0)):
            with self.subTest(slower=slower):
                status, out, err = self.run_tool("zkstat.py", "--json", "--slower", slower, path)
                self.assertEqual((status, err), (0, ""))
                self.assertEqual(len(json.loads(out)["slowest"]), chosen)

    def test_times_in_microseconds(self):
        """A time in milliseconds is all of that millisecond, and one in microseconds is just that."""
        path, second = self.folder / "a.json", "2026-11-22T07:30:33"
        path.write_text("".join(json.dumps({"n": n, "side": "C", "xid": n, "op": "sync", "path": "/a",
                                            "at": ASKED + after}) + "\n"
                                for n, after in enumerate((0, 0.4, 0.5, 0.501, 1), 1)))
        for words, chosen in ((["--from", f"{second}.000500Z"], [3, 4, 5]), (["--to", f"{second}.000500Z"], [1, 2, 3]),
                              (["--from", f"{second}.000401Z", "--to", f"{second}.000501Z"], [3, 4]),
                              (["--to", f"{second}.000Z"], [1, 2, 3, 4]), (["--to", f"{second}Z"], [1, 2, 3, 4]),
                              (["--to", f"{second}.000000Z"], [1]), (["--to", f"{second}.001000Z"], [1, 2, 3, 4, 5]),
                              (["--to", str(ASKED)], [1, 2, 3, 4]), (["--to", f"{second}.001Z"], [1, 2, 3, 4, 5]),
                              (["--from", f"{second}.001Z"], [5]), (["--from", str(ASKED + 1)], [5]),
                              (["--from", str(ASKED)], [1, 2, 3, 4, 5])):
            with self.subTest(words=words):
                status, out, err = self.run_tool("zkstat.py", "--json", *words, path)
                self.assertEqual((status, err), (0, ""))
                self.assertEqual([each["n"] for each in json.loads(out)["unanswered"]], chosen)

    def test_times_of_more_digits_than_a_float_has(self):
        """As the tools print them: milliseconds since 1970 of 19 digits, which columns have as floats."""
        path, ask, answer = self.folder / "a.zkr", struct.pack(">ii", -2, 11), struct.pack(">iqi", -2, 5, 0)
        frames = ((b"C", struct.pack(">iqiqi", 0, 0, 9, 0, -1)), (b"S", struct.pack(">iiqi", 0, 9, 7, -1)),
                  *((b"C", ask), (b"S", answer)) * 3)
        head, first = zkr.Head("zkr2"), 1_795_332_633_000_123_904
        path.write_bytes(head.to_bytes() + b"".join(
            head.piece(side, first + at // 2, struct.pack(">i", len(payload)) + payload)
            for at, (side, payload) in enumerate(frames)))
        if not PROGRAM.exists():
            self.skipTest("the program zkdump is not built")
        lines = self.folder / "a.json"
        lines.write_text(self.run_tool("zkjson.py", path)[1])
        for words, chosen in ((["--from", str(first + 1)], [7, 5, 3]), (["--from", str(first + 2)], [7, 5]),
                              (["--to", str(first + 2)], [1, 3, 5]), (["--to", str(first)], [1]),
                              (["--from", str(first + 3), "--to", str(first + 3)], [7]),
                              (["--to", str(first - 1)], []), (["--from", str(first + 4)], [])):
            for each in (path, lines):
                with self.subTest(words=words, path=each):
                    status, out, err = self.run_tool("zkstat.py", "--json", *words, each)
                    self.assertEqual((status, err), (0, ""))
                    self.assertEqual(sorted(row["n"] for row in json.loads(out)["slowest"]), sorted(chosen))
                    out = self.run_tool("zkjson.py", *words, path)[1].splitlines()
                    self.assertEqual([found["n"] for found in map(json.loads, out) if found.get("side") == "C"],
                                     sorted(chosen))

    def test_the_time_of_a_request_that_is_not_there(self):
        """It is that of the reply less the latency, of which the microseconds are no binary fractions."""
        path, millisecond = self.folder / "a.json", "2026-11-22T07:30:33.000"
        path.write_text(json.dumps({"n": 2, "side": "S", "xid": 1, "op": "sync", "zxid": "0x5", "path": "/a",
                                    "at": ASKED + 0.014, "ms": 0.006, "of": 1, "asked": "/a"}) + "\n")
        for begin, end, chosen in (("008", "008", 1), ("000", "007", 0), ("009", "999", 0)):
            status, out, err = self.run_tool("zkstat.py", "--json", "--from", f"{millisecond}{begin}Z", "--to",
                                             f"{millisecond}{end}Z", path)
            self.assertEqual((status, err, len(json.loads(out)["slowest"])), (0, "", chosen), begin)

    def test_a_session_of_more_than_64_bits(self):
        """2 ** 64 + 7 is no session, least of all 0x7."""
        for session in (str(2 ** 64 + 7), str(2 ** 64)):
            self.assert_bad_words("zkstat.py", "--session", session, self.lines(1))
        for session in (str(2 ** 64 - 1), "0xffffffffffffffff"):
            self.assertEqual(self.run_tool("zkstat.py", "--session", session, self.lines(1))[0], 0)

    def test_the_paths_of_a_slow_multi(self):
        """Its request isn't among the replies, but its parts' paths go with its reply."""
        head, pieces = zkr.Head("zkr2"), []
        for at, side, payload in ((1, b"C", struct.pack(">iqiqi", 0, 0, 9, 0, -1)),
                                  (2, b"S", struct.pack(">iiqi", 0, 9, 7, -1)),
                                  (10, b"C", struct.pack(">ii", 1, 14) + b"".join(
                                      struct.pack(">i?ii2si", 13, False, -1, 2, path, 3) for path in (b"/a", b"/b"))
                                   + struct.pack(">i?i", -1, True, -1)),
                                  (30, b"S", struct.pack(">iqi", 1, 5, 0) + b"".join(
                                      struct.pack(">i?ii", -1, False, code, code) for code in (0, -103))
                                   + struct.pack(">i?i", -1, True, -1))):
            pieces.append(head.piece(side, at, struct.pack(">i", len(payload)) + payload))
        path = self.folder / "a.zkr"
        path.write_bytes(head.to_bytes() + b"".join(pieces))
        if not PROGRAM.exists():
            self.skipTest("the program zkdump is not built")
        reply, _ = map(json.loads, self.run_tool("zkjson.py", "--slower", "5", path)[1].splitlines())
        self.assertEqual(reply["parts"], [{"op": "fail", "err": 0, "errName": "OK", "asked": "/a"},
                                          {"op": "fail", "err": -103, "errName": "BADVERSION", "asked": "/b"}])
        _, out, _ = self.run_tool("zkreport.py", "--text", "--slower", "5", path)
        self.assertIn("".join(f'       1       {failed}      20  "{each}"\n'
                              for failed, each in ((0, "/a"), (1, "/b"))), out)
