"""What the tools count of recordings is what their bytes have, whatever release a client is of."""

import json
import os
import re
import signal
import struct
import unittest.mock

from . import reckoned
from .support import CAPTURES, PROGRAM, TOP, ToolCase
from .test_columns import ColumnsCase

from tools.zkdump_tools import columns, errors, passages

CONNECT = bytes(24) + b"\0\0\0\x10" + bytes(17)       # frames of 49 and 41 bytes
CONNECTED = struct.pack(">iiqi", 0, 30_000, 0x100000000000001, 16) + bytes(17)
PATH = b"\0\0\0\2/a"
NUMBER = 4242               # which no release has


def ask(xid, number, body=PATH):
    return b"C", struct.pack(">ii", xid, number) + body


def answer(xid, zxid=5, err=0, body=b""):
    return b"S", struct.pack(">iqi", xid, zxid, err) + body


def exists(xid):
    return ask(xid, 3, PATH + b"\0")


def recording(frames, form=">cI", head=b"ZKR1", cut=None):
    """A recording of the connect frames and these, one frame a piece, or in pieces of this many bytes."""
    made = head
    for at, (side, payload) in enumerate([(b"C", CONNECT), (b"S", CONNECTED), *frames]):
        whole = len(payload).to_bytes(4, "big") + payload
        for begin in range(0, len(whole), cut or len(whole)):
            part = whole[begin:begin + (cut or len(whole))]
            made += struct.pack(form, side, *([1000 + 10 * at] if "q" in form else []), len(part)) + part
    return made


def zkr2(profile=34, limit=4_194_304, waiting=65_536):
    return b"ZKR2" + struct.pack(">iiii", limit, limit, waiting, profile)


# Requests of later releases and of none, with replies that fail, in turn, under -8, and without any.
NEWER = [ask(1, 21), ask(2, NUMBER), exists(3), ask(-8, 105, bytes(28)), answer(1, 7, -110), answer(-8),
         answer(2, 8, -121), answer(3, 9, -101), ask(4, -77, b""), ask(5, 107, b""), answer(4)]
TOLD = f"are shown by number alone: -77 (1), 21 createTTL (1), 105 setWatches2 (1), 107 whoAmI (1), {NUMBER} (1)"


def several(count, what):
    return f"{count} {what}{'' if count == 1 else 's'}"


class ReadingCase(ToolCase):
    """What both ways of reading find: by the lines of zkdump, and by columns where they can be made here."""

    ways = ("",)
    run_tool = ToolCase.run_inside

    def setUp(self):
        super().setUp()
        signal.alarm(300)
        if not PROGRAM.exists():
            self.skipTest("the program zkdump is not built")

    def write(self, data, name="a.zkr"):
        path = self.folder / name
        path.write_bytes(data)
        return path

    def each_way(self, tool, *words):
        """The status, the standard output and the standard error of a tool, which are the same each way."""
        found = []
        for way in self.ways:
            with unittest.mock.patch.dict(os.environ, ZKCOLUMNS=way):
                found.append(self.run_inside(tool, *words))
        self.assertEqual(found, found[:1] * len(found))
        return found[0]

    def counts(self, *words, status=0):
        """What zkstat counts, as one object."""
        found, out, err = self.each_way("zkstat.py", "--json", *words)
        self.assertEqual((found, err), (status, ""))
        return json.loads(out)

    def messages(self, *words, status=0):
        """The objects of zkjson, the last one apart."""
        found, out, err = self.each_way("zkjson.py", *words)
        self.assertEqual((found, err), (status, ""))
        *messages, ending = map(json.loads, out.splitlines())
        return messages, ending

    def text(self, *words, status=0):
        found, out, err = self.each_way("zkreport.py", "--text", *words)
        self.assertEqual((found, err), (status, ""))
        return out

    def rows(self, out, heading):
        """The rows of a table of zkreport, as words."""
        return [line.split() for line in out.partition(f"\n{heading}\n")[2].partition("\n\n")[0].splitlines()[1:]]

    def assert_counted(self, path, wanted, *words, status=0):
        """That each tool counts of a recording what the model does."""
        found = self.counts(*words, path, status=status)
        self.assertEqual({name: (each["asked"], each["answered"], each["failed"])
                          for name, each in found["operations"].items()}, wanted.counts())
        self.assertEqual(sum(found["events"].values()), wanted.events)
        fate = "notKnown" if status else "unanswered"
        self.assertEqual([each["n"] for each in found.get(fate, ())], wanted.left())
        messages, ending = self.messages(*words, path, status=status)
        self.assertEqual(len(messages), wanted.messages)
        self.assertEqual({made["n"]: made["of"] for made in messages if "of" in made}, wanted.of)
        self.assertEqual(ending["notKnown" if status else "waiting"], wanted.left())
        out = self.text(*words, path, status=status)
        self.assertEqual({row[0]: tuple(map(int, row[1:4])) for row in self.rows(out, "Operations")}, wanted.counts())
        left = f"0 unanswered, {len(wanted.left())} not known" if status and wanted.left() else \
            f"{0 if status else len(wanted.left())} unanswered"
        asked, failed = (sum(each[at] for each in wanted.counts().values()) for at in (0, 2))
        self.assertEqual(out.partition("\n")[0], f"1 connection, 1 session, {several(wanted.messages, 'message')}, "
                         f"{several(asked, 'request')}, {failed} failed, {left}, {several(wanted.events, 'event')}")


class Reading(ReadingCase):
    def test_every_capture(self):
        """Of those that are refused by every profile, the frames before that one."""
        read = 0
        for path in CAPTURES:
            data, shown = path.read_bytes(), path.with_suffix(".show").read_text("ascii").splitlines()
            is_refused = re.search("reason=(BadText|XidOp|LengthRange|Short)$", shown[-1])
            if len(shown) < 3:      # it has no connect messages, and so no session
                continue
            with self.subTest(path.name):
                wanted = reckoned.Reckoned(data, len(shown) - 1 if is_refused else None)
                self.assert_counted(path, wanted, status=1 if is_refused else 0)
                read += 1
        self.assertGreater(read, 20)

    def test_operations_of_no_profile(self):
        """However the pieces are cut: with their latencies, errors and xids."""
        wanted = {"connect": (1, 1, 0), "createTTL": (1, 1, 1), str(NUMBER): (1, 1, 1), "exists": (1, 1, 0),
                  "setWatches2": (1, 1, 0), "-77": (1, 1, 0), "whoAmI": (1, 0, 0)}
        for cut in (None, 1, 7):
            path = self.write(recording(NEWER, ">cqI", zkr2(), cut), f"{cut}.zkr")
            model = reckoned.Reckoned(path.read_bytes())
            self.assertEqual((model.counts(), model.left()), (wanted, [12]))
            self.assert_counted(path, model, "--profile", "3.4")
            found = self.counts("--profile", "3.4", path)
            self.assertEqual(found["operations"]["createTTL"]["errors"], {"NODEEXISTS": 1})
            self.assertEqual(found["operations"][str(NUMBER)]["errors"], {"NOWATCHER": 1})
            self.assertEqual(found["byNumber"], dict.fromkeys(("createTTL", str(NUMBER), "setWatches2", "-77",
                                                                "whoAmI"), 1))
            took = {row["op"]: row["ms"] for row in found["slowest"]}
            self.assertEqual(took, {"connect": 10, "createTTL": 40, str(NUMBER): 50, "exists": 50, "setWatches2": 20,
                                    "-77": 20})
            self.assertEqual(found["unanswered"], [{"connection": str(path), "n": 12, "xid": 5, "op": "whoAmI"}])

    def test_their_messages(self):
        path = self.write(recording(NEWER, ">cqI", zkr2()))
        messages, ending = self.messages("--profile", "3.4", path)
        for made in messages:
            del made["connection"]
        self.assertEqual([made for made in messages if not made.get("decoded", True)], [
            {"n": 3, "side": "C", "xid": 1, "op": "createTTL", "decoded": False, "at": 1020},
            {"n": 4, "side": "C", "xid": 2, "op": str(NUMBER), "decoded": False, "at": 1030},
            {"n": 6, "side": "C", "xid": -8, "op": "setWatches2", "decoded": False, "at": 1050},
            {"n": 7, "side": "S", "xid": 1, "op": "createTTL", "decoded": False, "zxid": "0x7", "err": -110,
             "errName": "NODEEXISTS", "at": 1060, "ms": 40.0, "of": 3},
            {"n": 8, "side": "S", "xid": -8, "op": "setWatches2", "decoded": False, "zxid": "0x5", "at": 1070,
             "ms": 20.0, "of": 6},
            {"n": 9, "side": "S", "xid": 2, "op": str(NUMBER), "decoded": False, "zxid": "0x8", "err": -121,
             "errName": "NOWATCHER", "at": 1080, "ms": 50.0, "of": 4},
            {"n": 11, "side": "C", "xid": 4, "op": "-77", "decoded": False, "at": 1100},
            {"n": 12, "side": "C", "xid": 5, "op": "whoAmI", "decoded": False, "at": 1110},
            {"n": 13, "side": "S", "xid": 4, "op": "-77", "decoded": False, "zxid": "0x5", "at": 1120, "ms": 20.0,
             "of": 11}])
        self.assertEqual(ending, {"connection": str(path), "ending": "whole", "unanswered": 1, "waiting": [12]})

    def test_it_is_said(self):
        path = self.write(recording(NEWER))
        told = f"5 operations {TOLD}"
        self.assertIn(f"\n       {told}\n", self.each_way("zkstat.py", "--profile", "3.4", path)[1])
        self.assertIn(f"\n{told}\n", self.text("--profile", "3.4", path))
        lines = self.run_inside("zkjson.py", "--profile", "3.4", path)[1]
        self.assertEqual(self.run_inside("zkstat.py", stdin=lines.encode())[1],
                         self.each_way("zkstat.py", "--profile", "3.4", path)[1])
        found = self.each_way("zkfleet.py", "check", "--profile", "3.4", path)
        self.assertEqual(found, (0, f"1 recordings, {path.stat().st_size} bytes\n       1 whole\n       {told}\n", ""))

    def test_choices(self):
        path = self.write(recording(NEWER))
        for words, wanted in ((["--op", "createTTL"], {"createTTL": 1}), (["--op", "21"], {"createTTL": 1}),
                              (["--op", str(NUMBER), "--op", "exists"], {str(NUMBER): 1, "exists": 1}),
                              (["--op", "-77"], {"-77": 1})):
            found = self.counts("--profile", "3.4", *words, path)
            self.assertEqual({name: each["asked"] for name, each in found["operations"].items()}, wanted)
        for tool, words in (("zkstat.py", []), ("zkjson.py", []), ("zkreport.py", ["--text"])):
            for choice, left in (([], 5), (["--op", "createTTL", "--op", "107"], 2)):
                status, _, err = self.each_way(tool, *words, "--profile", "3.4", "--path", "/a", *choice, path)
                self.assertEqual((status, err), (1, f"{tool}: requests that are shown by number alone: {left}; --path "
                                                 "left these out, since their paths are not read\n"))

    def test_the_page_says_it(self):
        path, page = self.write(recording(NEWER[:-1] + [ask(6, 3, PATH + b"\2")])), self.folder / "page.html"
        self.assertEqual(self.run_tool("zkreport.py", "-o", page, "--profile", "3.4", path)[0], 1)
        data = json.loads(re.search('id="data">(.*?)</script>', page.read_text("utf-8"), re.S)[1])
        self.assertEqual(data["headlines"], [
            f"a: not read to the end: refused side=C frame=7 offset={self.offset(path)} place=14 reason=BadBool "
            "messages=12", f"5 operations {TOLD}"])
        self.assertEqual((data["counts"]["unanswered"], data["counts"]["notKnown"]), (0, 2))

    @staticmethod
    def offset(path):
        """How many bytes of the client a recording has."""
        return sum(len(data) for side, _, data in reckoned.pieces(path.read_bytes()) if side == b"C")

    def test_replies_out_of_turn(self):
        """They end the reading at the side's own frame and byte, which those left out count among."""
        for frames, told in (
                ([ask(1, 21), exists(2), answer(2)],
                 "side=S frame=1 offset=61 place=0 reason=XidOrder expected=1 got=2"),
                ([ask(1, 21), answer(1), answer(1)], "side=S frame=2 offset=81 place=0 reason=Unasked"),
                ([ask(1, 21), exists(2), answer(1), answer(7)],
                 "side=S frame=2 offset=81 place=0 reason=XidOrder expected=2 got=7"),
                ([ask(-4, 21)], "side=C frame=1 offset=67 place=4 reason=UnknownOp"),
                ([ask(1, 21), ask(-1, 21)], "side=C frame=2 offset=85 place=4 reason=UnknownOp"),
                ([ask(1, 21), answer(1), (b"C", b"\0\0\0\7")], "side=C frame=2 offset=75 place=4 reason=Short"),
                ([ask(1, 21), (b"S", b"\0\0\0\1")], "side=S frame=1 offset=49 place=4 reason=Short")):
            path = self.write(recording(frames))
            with self.subTest(told):
                found = self.counts("--profile", "3.4", path, status=1)["connections"][0]
                wanted = dict(each.split("=") for each in f"ending=refused {told} messages={1 + len(frames)}".split())
                self.assertEqual({name: str(value) for name, value in found["ending"].items()}, wanted)

    def test_a_frame_that_is_cut_and_a_damage(self):
        whole = recording([ask(1, 21), answer(1), exists(2)])
        for data, told in ((whole + b"S" + b"\0\0\0\6" + b"\0\0\0\x10\0\0", "cut side=S frame=2 got=6 messages=5"),
                           (whole[:-3], f"recording offset={len(whole) - 19} reason=Short messages=4"),
                           (whole + b"X", f"recording offset={len(whole)} reason=BadSide messages=5")):
            path = self.write(data)
            with self.subTest(told):
                out = self.each_way("zkstat.py", "--profile", "3.4", path)
                self.assertEqual(out[0], 1)
                self.assertIn(f"  {told}\n", out[1])
                self.assertIn("       1 of 1 connections not read to the end\n", out[1])
                self.assertIn(f"\na: not read to the end: {told}\n", self.text("--profile", "3.4", path, status=1))
                waits = 1 if told.endswith("5") else 0
                self.assertIn(f"\n       0 requests unanswered\n{f'       {waits} requests of which' * waits}", out[1])
                found = self.each_way("zkfleet.py", "check", "--profile", "3.4", path)
                self.assertEqual((found[0], found[1].partition("\n")[0]), (1, f"{path}: {told}"))

    def test_a_large_frame(self):
        """With the server's limit raised its clients send some, of which a tool is no guard, whatever a head says."""
        data = b"\0\x50\0\0" + bytes(5 << 20)
        large = [ask(1, 5, PATH + data + b"\xff" * 4), *(exists(xid) for xid in range(2, 101)),
                 answer(1, 5, -103), *(answer(xid, 5, -101) for xid in range(2, 101))]
        for made in (recording(large), recording(large, ">cqI", zkr2(35)), recording(large, ">cqI", zkr2(34, 64, 3))):
            path = self.write(made)
            wanted = reckoned.Reckoned(made)
            self.assertEqual(wanted.counts(), {"connect": (1, 1, 0), "setData": (1, 1, 1), "exists": (99, 99, 0)})
            self.assert_counted(path, wanted)
            self.assertEqual(self.each_way("zkfleet.py", "check", path)[0], 0)
            limited = reckoned.Reckoned(made, 2)
            self.assert_counted(path, limited, "--limit", "1000000", status=1)
            found = self.each_way("zkfleet.py", "check", "--limit", "1000000", path)[1]
            self.assertEqual(found.partition("\n")[0], f"{path}: refused side=C frame=1 offset=53 place=0 "
                                                       "reason=LengthRange messages=2")

    def test_the_profile_of_a_head(self):
        """It is that of the recorder; that which is asked for counts."""
        create2 = ask(1, 15, PATH + b"\0\0\0\0" * 3)
        path = self.write(recording([create2, answer(1, 5, -110)], ">cqI", zkr2(34)))
        self.assertNotIn("byNumber", self.counts(path))
        self.assertEqual(self.counts("--profile", "3.4", path)["byNumber"], {"create2": 1})
        path = self.write(recording([create2, answer(1, 5, -110)], ">cqI", zkr2(35)), "b.zkr")
        self.assertEqual(self.counts("--profile", "3.4", path)["byNumber"], {"create2": 1})
        frames = [ask(1, 106, PATH + b"\0\0\0\1"), answer(1, 5, 0, bytes(4))]
        for profile in (34, 35, 37):
            path = self.write(recording(frames, ">cqI", zkr2(profile)), f"{profile}.zkr")
            self.assertNotIn("byNumber", self.counts(path))
            for words in (["--profile", "3.4"], ["--profile", "3.5"]):
                self.assertEqual(self.counts(*words, path)["byNumber"], {"addWatch": 1})
            asked, answered = self.messages(path)[0][-2:]
            self.assertEqual((asked["op"], asked["path"], asked["mode"]), ("addWatch", "/a", 1))
            self.assertEqual((answered["op"], answered["zxid"], answered["code"]), ("addWatch", "0x5", 0))

    def test_times_beside(self):
        """They are those of all frames, also of what is left out."""
        data = recording(NEWER)
        path = self.write(data)
        path.with_name("a.zkr.times").write_text("".join(f"{1000 + number}.25\n" for number in range(len(NEWER) + 2)))
        model = reckoned.Reckoned(data)
        messages, _ = self.messages("--profile", "3.4", path)
        self.assertEqual([made["at"] for made in messages],
                         [1000.25 + model.pieces[n] for n in range(1, model.messages + 1)])
        self.assertEqual([made["ms"] for made in messages if "of" in made],
                         [model.pieces[n] - model.pieces[of] for n, of in model.of.items()])

    def test_many_left_out(self):
        """More than are handed over at once, before and between messages that are not."""
        frames = []
        for xid in range(1, 10_001):
            frames += [ask(xid, 21 if xid % 3000 else 3, PATH + b"\0"), answer(xid, xid, -110)]
        path = self.write(recording(frames))
        self.assert_counted(path, reckoned.Reckoned(path.read_bytes()), "--profile", "3.4")

    def test_folders(self):
        """They are read one by one where no number of processes is named."""
        for number in range(3):
            self.write(recording(NEWER), f"{number}.zkr")
        self.write(b"ZKR2 no head", "bad.zkr")
        listed = self.folder / "list"
        listed.write_text("".join(f"{path}\n" for path in sorted(self.folder.glob("*.zkr"))))
        for tool, words in (("zkstat.py", []), ("zkstat.py", ["--json"]), ("zkjson.py", []),
                            ("zkreport.py", ["--text"])):
            words = ["--profile", "3.4", *words]
            wanted = self.run_tool(tool, *words, "--jobs", "2", self.folder)
            self.assertEqual((wanted[0], wanted[1].count("BadLimits")), (1, 1))
            for each in (self.folder, f"@{listed}"):
                self.assertEqual(self.run_tool(tool, *words, each), wanted, tool)
        (self.folder / "bad.zkr").unlink()
        page = self.folder / "page.html"
        self.assertEqual(self.run_tool("zkreport.py", "-o", page, "--profile", "3.4", self.folder), (0, "", ""))
        self.assertIn('"connections":3', page.read_text("utf-8"))

    def test_the_session_that_a_line_has(self):
        """Which is negative where its number in hexadecimal begins with more than 7."""
        welcome = struct.pack(">iiqi", 0, 30_000, -5, 16) + bytes(17)
        path = self.write(recording([]).replace(CONNECTED, welcome))
        for session, count in (("-5", 1), ("0xfffffffffffffffb", 1), (str(2**64 - 5), 1), ("5", 0)):
            self.assertEqual(len(self.counts("--session", session, path)["connections"]), count)
        for wrong in (str(-2**63 - 1), str(2**64), "-0x5", "--5"):
            self.assert_bad_words("zkstat.py", f"--session={wrong}", path)

    def test_words(self):
        for tool, words in (("zkstat.py", []), ("zkjson.py", []), ("zkreport.py", ["--text"]),
                            ("zkfleet.py", ["check"]), ("zkskip.py", [])):
            for wrong in (["--profile", "3.6"], ["--limit", "63"], ["--limit", "16777217"], ["--limit", "x"]):
                self.assert_bad_words(tool, *words, *wrong, CAPTURES[0])


class ReadingFast(ColumnsCase, Reading):
    """The same by columns, too, which need numpy here."""

    def setUp(self):
        super().setUp()
        if not columns.has_numpy():
            self.skipTest("Python's numpy is missing; compared.py runs where it is")
        self.ways = ("", str(self.program))


class Names(ToolCase):
    def test_the_names_of_errors_are_those_of_the_plugin(self):
        source = (TOP / "wireshark" / "names.c").read_text().partition("error_names[]")[2].partition("};")[0]
        found = {int(number.strip("NUMBER()")): name
                 for number, name in re.findall(r'\{(NUMBER\(-\d+\)|\d+), "(\w+)"\}', source)}
        self.assertEqual(errors.NAMES, found)


class Parts(ToolCase):
    def test_a_multi_with_a_part_of_a_later_release(self):
        """It is one of which that is the first fault."""
        def part(kind, body, done=0, err=-1):
            return struct.pack(">iBi", kind, done, err) + body
        acl = b"\0\0\0\1" + struct.pack(">i", 31) + PATH + PATH
        create, check = PATH + b"\0\0\0\1x" + acl + bytes(4), PATH + bytes(4)
        before = part(1, create) + part(13, check) + part(2, check) + part(5, PATH + b"\xff" * 4 + bytes(4))
        for parts, wanted in (
                (part(15, create), True), (before + part(19, create), True),
                (before + part(21, create + bytes(8)), True), (part(21, b""), True), (before, False), (before + part(-1, b"", 1), False), (part(14, b""), False),
                (part(4, PATH + b"\0"), False), (part(15, create, 1), False), (part(15, create, 0, 0), False),
                (struct.pack(">iB", 15, 0), False), (part(1, create[:-1]) + part(15, create), False),
                (part(2, b"\0\0\0\1\xff" + bytes(4)) + part(15, create), False),
                (part(2, b"\xff\xff\xff\xfe" + bytes(4)) + part(15, create), False),
                (part(2, b"\x7f\xff\xff\xff" + bytes(4)) + part(15, create), False),
                (part(2, b"\xff\xff\xff\xff" + bytes(4)) + part(15, create), True),
                (part(1, PATH + bytes(4) + b"\x7f\xff\xff\xff" + bytes(40)) + part(15, create), False)):
            payload = struct.pack(">ii", 1, 14) + parts
            self.assertEqual(passages.has_newer_part(payload), wanted, payload.hex())
