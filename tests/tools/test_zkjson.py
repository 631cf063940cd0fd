"""Tests of zkjson: what each line becomes, what is paired, and whose times a message has."""

import json
import pathlib
import struct
import subprocess
import sys

from .support import CAPTURES, TOOLS, ToolCase, zkr

CONNECT = "C connect version=0 zxid=0 timeout=30000 session=0 passwd=#00000000000000000000000000000000 ro=0"
CONNECTED = ("S connect version=0 timeout=30000 session=72057594037927937 passwd=#000102030405060708090a0b0c0d0e0f "
             "ro=-")
STAT = "(4,5,1000,1001,1,2,3,-1,3,0,72057594037927937)"
STAT_NAMED = {"czxid": "0x4", "mzxid": "0x5", "ctime": 1000, "mtime": 1001, "version": 1, "cversion": 2, "aversion": 3,
              "ephemeralOwner": "0xffffffffffffffff", "dataLength": 3, "numChildren": 0,
              "pzxid": "0x100000000000001"}
ANYONE = [{"perms": 31, "scheme": "world", "id": "anyone"}]

# A line of each kind, by the tables of docs/FORMATS.md, section 9, and what follows its side, xid and operation.
LINES = {
    CONNECT: {"version": 0, "zxid": "0x0", "timeout": 30000, "session": "0x0", "passwd": {"hex": "00" * 16},
              "ro": False},
    CONNECTED: {"version": 0, "timeout": 30000, "session": "0x100000000000001",
                "passwd": {"hex": "000102030405060708090a0b0c0d0e0f"}, "ro": None},
    'C 1 create path="/a" blob=~ acl=[31:"world":"anyone"] flags=0':
        {"path": "/a", "blob": None, "acl": ANYONE, "flags": 0},
    'C 2 create path="/a" blob=# acl=~ flags=3': {"path": "/a", "blob": "", "acl": None, "flags": 3},
    'C 3 delete path="/a" version=-1': {"path": "/a", "version": -1},
    r'C 4 exists path="/\c3\a9\22 =[{\5c" watch=1': {"path": '/é" =[{\\', "watch": True},
    'C 5 getData path=~ watch=0': {"path": None, "watch": False},
    'C 6 setData path="/a" blob=#c3a90a version=3': {"path": "/a", "blob": "é\n", "version": 3},
    'C 7 setData path="/a" blob=#c3 version=3': {"path": "/a", "blob": {"hex": "c3"}, "version": 3},
    'C 8 setData path="/a" blob=#6100 version=3': {"path": "/a", "blob": {"hex": "6100"}, "version": 3},
    'C 9 getACL path="/a"': {"path": "/a"},
    'C 10 setACL path="/a" acl=[31:"world":"anyone",1:~:""] version=-1':
        {"path": "/a", "acl": [*ANYONE, {"perms": 1, "scheme": None, "id": ""}], "version": -1},
    "C -2 ping": {},
    'C -4 auth kind=0 scheme="digest" auth=#613a62': {"kind": 0, "scheme": "digest", "auth": "a:b"},
    'C -8 setWatches zxid=5 dataWatches=["/a","/b"] existWatches=[] childWatches=~':
        {"zxid": "0x5", "dataWatches": ["/a", "/b"], "existWatches": [], "childWatches": None},
    "C 11 multi {}": {"parts": []},
    'C 12 multi {create path="/a" blob=# acl=[31:"world":"anyone"] flags=0;check path="/;}" version=3;delete path="/a" '
    'version=3}':
        {"parts": [{"op": "create", "path": "/a", "blob": "", "acl": ANYONE, "flags": 0},
                   {"op": "check", "path": "/;}", "version": 3}, {"op": "delete", "path": "/a", "version": 3}]},
    'S event zxid=-1 kind=3/NodeDataChanged state=3 path="/a"':
        {"zxid": "0xffffffffffffffff", "kind": 3, "kindName": "NodeDataChanged", "state": 3, "path": "/a"},
    'S event zxid=-1 kind=9 state=3 path="/a"': {"zxid": "0xffffffffffffffff", "kind": 9, "state": 3, "path": "/a"},
}

# Requests, and then replies to them in their order: what follows a reply's side, xid and operation.
REPLIES = {
    ('C 1 exists path="/a" watch=1', "S 1 exists zxid=5 err=-101/NONODE"):
        {"zxid": "0x5", "err": -101, "errName": "NONODE", "asked": "/a"},
    ('C 1 delete path="/a" version=-1', "S 1 delete zxid=6 err=-200"): {"zxid": "0x6", "err": -200, "asked": "/a"},
    ('C 1 create path="/a-" blob=~ acl=~ flags=2', 'S 1 create zxid=6 path="/a-0000000001"'):
        {"zxid": "0x6", "path": "/a-0000000001", "asked": "/a-"},
    ('C 1 getData path="/a" watch=0', f"S 1 getData zxid=6 blob=#616263 stat={STAT}"):
        {"zxid": "0x6", "blob": "abc", "stat": STAT_NAMED, "asked": "/a"},
    ('C 1 getChildren2 path="/a" watch=0', f'S 1 getChildren2 zxid=6 names=["b"] stat={STAT}'):
        {"zxid": "0x6", "names": ["b"], "stat": STAT_NAMED, "asked": "/a"},
    ('C 1 getACL path="/a"', f'S 1 getACL zxid=6 acl=[31:"world":"anyone"] stat={STAT}'):
        {"zxid": "0x6", "acl": ANYONE, "stat": STAT_NAMED, "asked": "/a"},
    ('C 1 multi {check path="/a" version=3;delete path="/b" version=1}',
     "S 1 multi zxid=5 {fail err=0/OK;fail err=-103/BADVERSION}"):
        {"zxid": "0x5", "parts": [{"op": "fail", "err": 0, "errName": "OK", "asked": "/a"},
                                  {"op": "fail", "err": -103, "errName": "BADVERSION", "asked": "/b"}]},
    ('C 1 multi {setData path="/a" blob=# version=3;check path="/b" version=1}',
     f"S 1 multi zxid=5 {{setData stat={STAT};check}}"):
        {"zxid": "0x5", "parts": [{"op": "setData", "stat": STAT_NAMED}, {"op": "check"}]},
}

ENDINGS = {
    ". whole unanswered=2": {"ending": "whole", "unanswered": 2},
    ". cut side=S frame=7 got=12": {"ending": "cut", "side": "S", "frame": 7, "got": 12},
    ". refused side=S frame=1 offset=61 place=0 reason=XidOrder expected=-8 got=2":
        {"ending": "refused", "side": "S", "frame": 1, "offset": 61, "place": 0, "reason": "XidOrder", "expected": -8,
         "got": 2},
    ". recording offset=9 reason=Short": {"ending": "recording", "offset": 9, "reason": "Short"},
}


class Zkjson(ToolCase):
    run_tool = ToolCase.run_inside

    def json_of(self, lines, *words, wanted=0):
        """The objects that zkjson makes of these lines, without their connection, which is the same for all."""
        status, out, err = self.run_tool("zkjson.py", *words, stdin="".join(f"{line}\n" for line in lines).encode())
        self.assertEqual((status, err), (wanted, ""))
        found = [json.loads(line) for line in out.splitlines()]
        self.assertEqual(len({made.pop("connection") for made in found}), 1)
        return found

    def test_each_kind_of_line(self):
        found = self.json_of(LINES)
        self.assertEqual(len(found), len(LINES))
        for n, (made, (line, expected)) in enumerate(zip(found, LINES.items()), 1):
            side, xid, operation = (line + " ").split(" ")[:3]
            head = {"side": side, "xid": int(xid), "op": operation} if xid[-1].isdigit() else {"side": side, "op": xid}
            answers = {"of": 1} if line == CONNECTED else {}
            with self.subTest(line=line):
                self.assertEqual(made, {"n": n, **head, **expected, **answers})

    def test_replies_have_what_was_asked(self):
        found = self.json_of([line for pair in REPLIES for line in pair])
        self.assertEqual(len(found), 2 * len(REPLIES))
        for n, ((request, reply), expected) in enumerate(REPLIES.items()):
            head = {"n": 2 * n + 2, "side": "S", "xid": 1, "op": request.split(" ")[2], "of": 2 * n + 1}
            with self.subTest(reply=reply):
                self.assertEqual(found[2 * n + 1], {**head, **expected})

    def test_endings_list_the_waiting_requests(self):
        for line, expected in ENDINGS.items():
            with self.subTest(line=line):
                is_whole = line.startswith(". whole")
                found = self.json_of(['C 7 getData path="/a" watch=0', "C -2 ping", line], wanted=0 if is_whole else 1)
                left = {"waiting": [1, 2]} if is_whole else {"messages": 2, "waiting": [], "notKnown": [1, 2]}
                self.assertEqual(found[2:], [{**expected, **left}])

    def test_a_ping_overtakes_and_xids_come_twice(self):
        found = self.json_of(['C 7 exists path="/a" watch=1', 'C 7 delete path="/b" version=-1', "C -2 ping",
                              "S -2 ping zxid=5", "S 7 exists zxid=5 err=-101/NONODE", "S 7 delete zxid=6"])
        self.assertEqual([made.get("of") for made in found], [None, None, None, 3, 1, 2])

    def test_no_character_that_a_terminal_obeys(self):
        _, out, _ = self.run_tool("zkjson.py", stdin=rb'C 1 exists path="/\c2\9b\e2\80\ae\07" watch=1')
        self.assertTrue(out.removesuffix("\n").isprintable())
        self.assertEqual(json.loads(out)["path"], "/\x9b\u202e\x07")

    def test_what_is_no_listing(self):
        for line, told in (("", "column 1 on"), ("C 1", "column 1 on"),
                           ("S 1 exists zxid=5",
                            "the request of this reply is missing before it: name the whole listing"),
                           ('C 1 exists path="/a', "column 11 on"), ("C 1 ping\r", "column 9 on"),
                           ('C 1 delete path="/a" version=1 stat=(1,2)', "column 31 on"),
                           ('{"side": "C"}', "column 1 on"), ("C 1 multi {delete", "column 18 on"),
                           ("C 1 ping}", "column 9 on"), ("C 1 ping  x=1", "column 9 on"),
                           ('C 1 setACL path="/a" acl=[1:"a"]', "column 21 on"),
                           ('C 1 getData path="/a"watch=0', "column 12 on"),
                           ('C 1 setData path="/a" blob=#6', "column 22 on"), 
                           (". whole x", "this begins with a dot, and is no last line"),
                           (". cut", "this begins with a dot, and is no last line"),
                           (". refused side=X", "this begins with a dot, and is no last line"),
                           ("C 1 nonsense", "column 13 on")):
            with self.subTest(line=line):
                status, out, err = self.run_tool("zkjson.py", stdin=f"C -2 ping\n{line}\n".encode())
                self.assertEqual((status, out.count("\n"), err.count("\n")), (1, 1, 1))
                self.assertTrue(err.startswith("zkjson.py: line 2: ") and told in err, err)

    def test_what_is_made_by_hand_is_json_or_refused(self):
        made = [f'C 1 delete path="/a" version={version}' for version in (
            "007", "-0", "+1", "1_0", "\u0661", "1 n=5", "1 version=2", "1 ", "")]
        made += [f'C 1 exists path="/{path}" watch=1' for path in (
            "\x1b[2J", "\u202e", "\xe9", "\\zz", "\\c3", "\\", "\\0", '"')]
        made += [f'C 1 setData path="/a" blob={blob} version=1' for blob in ("#6G", "#666", "6666", "#66 ")]
        made += [f'C 1 multi {{check path="/a" version=1{end}' for end in ("{", ";}", ";ping}", "")]
        made += ["C 01 ping", "C \u0661 ping", "C 1 ping ms=5", 'C 1 exists path="/a" watch=2',
                 ". whole unanswered=\x1b", 'S event zxid=-1 kind=3/\x1b state=3 path="/a"']
        for line in made:
            status, out, err = self.run_tool("zkjson.py", stdin=f"C -2 ping\n{line}\n".encode())
            with self.subTest(line=line):
                self.assertEqual((status, out.count("\n"), err.count("\n")), (1, 1, 1))
                self.assertTrue(err.startswith("zkjson.py: line 2: ") and err[:-1].isprintable(), err)
        asked = 'C 1 exists path="/a" watch=1\n'
        for number in ("--1", "1-1", "", "1,1"):
            reply = f"S 1 exists zxid=5 stat={STAT.replace('1000', number)}\n"
            self.assertEqual(self.run_tool("zkjson.py", stdin=(asked + reply).encode())[0], 1, reply)

    def test_long_lines_become_the_same_as_short_ones(self):
        text, names = r"/\c3\a9\22a" * 20_000, ",".join(['"a\\5cb"', "~"] * 20_000)
        lines = [f'C 1 setData path="{text}" blob=#{"c3a9" * 30_000} version=1', "S 1 setData zxid=6 err=-101/NONODE",
                 f'C 2 setData path="{text}" blob=#{"c3" * 50_000} version=1', "S 2 setData zxid=6 err=-101/NONODE",
                 'C 3 getChildren path="/" watch=1', f"S 3 getChildren zxid=5 names=[{names}]",
                 f'C 4 multi {{check path="{text}" version=1}}', "S 4 multi zxid=5 {fail err=-103/BADVERSION}"]
        found = self.json_of(lines)
        path = '/é"a' * 20_000
        self.assertEqual([made["path"] for made in found[:4:2]], [path] * 2)
        self.assertEqual([made["asked"] for made in found[1:4:2]], [path] * 2)
        self.assertEqual([made["blob"] for made in found[:4:2]], ["é" * 30_000, {"hex": "c3" * 50_000}])
        self.assertEqual(found[5]["names"], ["a\\b", None] * 20_000)
        self.assertEqual([found[6]["parts"][0]["path"], found[7]["parts"][0]["asked"]], [path] * 2)
        for wrong in (lines[0].replace(" version", "0 version"), lines[0].replace("a9", "zz"), lines[0] + " "):
            status, out, err = self.run_tool("zkjson.py", stdin=wrong.encode())
            self.assertEqual((status, out, err.count("\n")), (1, "", 1))

    def test_lines_after_the_ending_line_and_of_zkjson(self):
        lines = "C -2 ping\n. whole unanswered=1\nS -2 ping zxid=5\n"
        status, out, err = self.run_tool("zkjson.py", stdin=lines.encode())
        self.assertEqual((status, out.count("\n"), err),
                         (1, 1, "zkjson.py: line 3: a line after the last one of a connection: name the "
                                                       "listings of two connections each by itself\n"))

    def test_lists_of_texts(self):
        texts = ["", ",", "a", '","', "~", "]", "a b", "\\"]
        spelled = ",".join('"' + text.replace("\\", "\\5c").replace('"', "\\22") + '"' for text in texts)
        for names, wanted in (("~", None), ("[]", []), ('[",",",",""]', [",", ",", ""]), ('["","a",""]', ["", "a", ""]),
                              ('[~,"~",~]', [None, "~", None]), (f"[{spelled}]", texts)):
            with self.subTest(names=names):
                found = self.json_of(['C 1 getChildren path="/" watch=0', f"S 1 getChildren zxid=5 names={names}"])
                self.assertEqual(found[1]["names"], wanted)

    def test_lines_come_when_they_are_there(self):
        tool = subprocess.Popen([sys.executable, TOOLS / "zkjson.py"], stdin=subprocess.PIPE, stdout=subprocess.PIPE)
        self.addCleanup(tool.kill)
        for line in (b"C -2 ping\n", b"S -2 ping zxid=5\n"):
            tool.stdin.write(line)
            tool.stdin.flush()
            self.assertEqual(json.loads(tool.stdout.readline())["side"], line[:1].decode())
        tool.communicate()

    def test_every_capture(self):
        listings = [capture.with_suffix(".show") for capture in CAPTURES]
        status, out, err = self.run_tool("zkjson.py", *listings)
        self.assertEqual((status, err), (1, ""))        # some end with a refusal
        found = {path: [] for path in listings}
        for line in out.splitlines():
            made = json.loads(line)
            found[pathlib.Path(made.pop("connection"))].append(made)
        for path, objects in found.items():
            with self.subTest(capture=path.name):
                lines = path.read_text(encoding="ascii").splitlines()
                self.assertEqual(len(objects), len(lines))
                waiting = set(range(1, len(lines))) - {made.get("of") for made in objects}
                waiting = [n for n in sorted(waiting) if lines[n - 1].startswith("C")]
                fate = "waiting" if lines[-1].startswith(". whole") else "notKnown"
                self.assertEqual(objects[-1][fate], waiting)
                self.assertEqual(objects[-1].get("unanswered", len(waiting)), len(waiting))

    def test_the_times_of_every_capture(self):
        for capture in CAPTURES:
            with self.subTest(capture=capture.name):
                words = ["--recording", self.with_times(capture), capture.with_suffix(".show")]
                status, out, err = self.run_tool("zkjson.py", *words)
                is_whole = ". whole" in capture.with_suffix(".show").read_text("ascii")
                self.assertEqual((status, err), (0 if is_whole else 1, ""))
                *messages, ending = map(json.loads, out.splitlines())
                self.assertTrue(all("at" in made for made in messages))
                self.assertIn("ending", ending)

    def with_times(self, capture):
        """A copy of a recording, beside a file with the times of its pieces."""
        copy = self.folder / capture.name
        copy.write_bytes(capture.read_bytes())
        with open(capture, "rb") as recording:
            count = sum(1 for _ in zkr.Reader(recording))
        (self.folder / (capture.name + ".times")).write_text("".join(f"{at}.5\n" for at in range(count)), "ascii")
        return copy


class Times(ToolCase):
    """Two requests and their replies, in pieces that are parts of frames and several frames."""

    run_tool = ToolCase.run_inside
    FRAMES = {"request": bytes.fromhex("0000000f 00000001 00000003 00000002 2f61 01"),
              "reply": bytes.fromhex("00000010 00000001 0000000000000005 ffffff9b")}
    LISTING = 'C 1 exists path="/a" watch=1\nS 1 exists zxid=5 err=-101/NONODE\n' * 2
    PIECES = [(b"C", FRAMES["request"][:3]), (b"C", FRAMES["request"][3:-1]), (b"S", FRAMES["reply"][:5]),
              (b"C", FRAMES["request"][-1:]), (b"S", FRAMES["reply"][5:]), (b"C", FRAMES["request"][:18]),
              (b"C", FRAMES["request"][18:]), (b"S", FRAMES["reply"])]
    AT = [3, 4, 6, 7]       # the pieces, from 0, in which the four last bytes came

    def recording(self, head, times):
        path = self.folder / "two.zkr"
        path.write_bytes(head.to_bytes() + b"".join(head.piece(side, at, data)
                                                    for (side, data), at in zip(self.PIECES, times)))
        return path

    def found(self, *words):
        status, out, err = self.run_tool("zkjson.py", *words, stdin=self.LISTING.encode())
        self.assertEqual((status, err), (0, ""))
        made = list(map(json.loads, out.splitlines()))
        return [each.get("at") for each in made], [each.get("ms") for each in made]

    def test_times_of_the_second_format(self):
        times = [1000 + 10 * n for n in range(8)]
        path = self.recording(zkr.Head("zkr2"), times)
        self.assertEqual(self.found("--recording", path), ([1030, 1040, 1060, 1070], [None, 10, None, 10]))

    def test_a_time_of_0_is_none(self):
        path = self.recording(zkr.Head("zkr2"), [0, 0, 0, 0, 5, 0, 0, 0])
        self.assertEqual(self.found("--recording", path), ([None, 5, None, None], [None] * 4))

    def test_a_file_of_times(self):
        path = self.recording(zkr.Head(), range(8))
        times = [f"{1795332633516 + 2 ** n / 4}\n" for n in range(8)]
        beside = self.folder / "two.zkr.times"
        for file, words in ((beside, []), (self.folder / "elsewhere", ["--times", self.folder / "elsewhere"])):
            file.write_text("".join(times), "ascii")
            self.assertEqual(self.found("--recording", path, *words),
                             ([1795332633518, 1795332633520, 1795332633532, 1795332633548], [None, 2, None, 16]))
            file.unlink()
        self.assert_bad_words("zkjson.py", "--recording", path)

    def test_times_of_another_recording(self):
        path = self.recording(zkr.Head(), range(8))
        for count in (0, 1, 7, 9):
            (self.folder / "two.zkr.times").write_text("1000\n" * count, "ascii")
            self.assertEqual(self.run_tool("zkjson.py", "--recording", path, stdin=self.LISTING.encode()),
                             (1, "", f"zkjson.py: {path}.times has {count} times, and {path} 8 pieces: these are not "
                              "the times of this recording\n"))

    def test_another_recording(self):
        path = self.recording(zkr.Head("zkr2"), range(8))
        request, reply = self.LISTING.splitlines()[:2]
        other = "the recording has another message there"
        for lines, told in (
                ([request, reply, reply], f"line 3: {other}"), ([request.replace("C 1", "C 2")], f"line 1: {other}"),
                ([request, reply] * 3 + [". whole unanswered=0"], "the listing has 6 messages, and the recording 4"),
                ([request, reply, ". whole unanswered=0"], "the listing has 2 messages, and the recording 4"),
                ([request, reply] * 2 + [". cut side=S frame=2 got=1"],
                 "the recording doesn't end as the listing does"),
                ([request, reply] * 2 + [". recording offset=9 reason=Short"],
                 "the recording doesn't end as the listing does"),
                ([request, reply] * 2 + [". refused side=S frame=2 offset=9 place=0 reason=Short"],
                 "the recording doesn't end as the listing does")):
            with self.subTest(lines=lines):
                status, _, err = self.run_tool("zkjson.py", "--recording", path, stdin="\n".join(lines).encode())
                self.assertEqual((status, err), (1, f"zkjson.py: {told}: name the recording that the listing is of\n"))

    def test_another_recording_of_the_same_sides_and_xids(self):
        """Its operations, paths, zxids, errors or sessions differ."""
        def frame(side, form, *values):
            payload = struct.pack(form, *values)
            return side, len(payload).to_bytes(4, "big") + payload
        path = self.folder / "one.zkr"
        frames = [frame(b"C", ">iqiqi2s?", 0, 0, 9, 7, 2, b"ab", False),
                  frame(b"S", ">iiqi2s?", 0, 9, 8, 2, b"cd", False),
                  frame(b"C", ">iii2s?", 1, 3, 2, b"/a", True), frame(b"S", ">iqi", 1, 5, -101),
                  frame(b"S", ">iqiiii2s", -1, -1, 0, 3, 3, 2, b"/a"), frame(b"C", ">iiii", 2, 4, -1, 0),
                  frame(b"S", ">iqii68s", 2, 5, 0, -1, bytes(68)), frame(b"C", ">ii", 3, -11),
                  frame(b"S", ">iqi", 3, 6, 0)]
        head = zkr.Head("zkr2")
        path.write_bytes(head.to_bytes() + b"".join(head.piece(side, at + 1, data) for at,
                                                    (side, data) in enumerate(frames)))
        lines = ["C connect version=0 zxid=0 timeout=9 session=7 passwd=#6162 ro=0",
                 "S connect version=0 timeout=9 session=8 passwd=#6364 ro=0", 'C 1 exists path="/a" watch=1',
                 "S 1 exists zxid=5 err=-101/NONODE", 'S event zxid=-1 kind=3/NodeDataChanged state=3 path="/a"',
                 "C 2 getData path=~ watch=0", f"S 2 getData zxid=5 blob=~ stat=({','.join('0' * 11)})",
                 "C 3 closeSession",
                 "S 3 closeSession zxid=6"]
        found = self.run_tool("zkjson.py", "--recording", path, stdin="\n".join(lines).encode())
        self.assertEqual((found[0], found[1].count('"at": ')), (0, 9), found)
        for n, old, new in ((1, "session=7", "session=6"), (1, "6162", "6163"), (2, "session=8", "session=0"),
                            (2, "#6364", "~"), (3, '"/a"', '"/b"'), (3, "exists", "getData"), (3, '"/a"', "~"),
                            (4, "zxid=5", "zxid=6"), (4, " err=-101/NONODE", " err=-102/NOAUTH"),
                            (5, "kind=3/NodeDataChanged", "kind=2/NodeDeleted"), (5, '"/a"', '"/aa"'), (6, "~", '"/a"'),
                            (7, "zxid=5 blob=~ stat=(0,0,0,0,0,0,0,0,0,0,0)", "zxid=5 err=-101/NONODE"),
                            (8, "closeSession", "ping"), (9, "zxid=6", "zxid=7")):
            changed = [*lines[:n - 1], lines[n - 1].replace(old, new), *lines[n:]]
            with self.subTest(n=n, new=new):
                self.assertNotEqual(changed, lines)
                if "getData" in new:
                    changed[3] = changed[3].replace("exists", "getData")
                if new == "ping":
                    changed[8] = changed[8].replace("closeSession", "ping")
                status, out, err = self.run_tool("zkjson.py", "--recording", path, stdin="\n".join(changed).encode())
                self.assertEqual((status, out.count("\n"), err),
                                 (1, n - 1, f"zkjson.py: line {n}: the recording has another message there: name the "
                                  "recording that the listing is of\n"))

    def test_a_recording_that_is_cut(self):
        path = self.recording(zkr.Head("zkr2"), range(8))
        path.write_bytes(path.read_bytes()[:-1])
        lines = self.LISTING.rpartition("S 1")[0]
        for ending, fits in (("recording offset=182 reason=Short", True), ("whole unanswered=1", False),
                             ("recording offset=181 reason=Short", False), ("cut side=S frame=1 got=19", False)):
            found = self.run_tool("zkjson.py", "--recording", path, stdin=f"{lines}. {ending}\n".encode())
            self.assertEqual((found[0], not found[2]), (1, fits), found)
        self.assertEqual(self.run_tool("zkjson.py", "--recording", path, stdin=self.LISTING.encode())[::2],
                         (1, "zkjson.py: the listing has 4 messages, and the recording 3: name the recording that the "
                             "listing is of\n"))

    def test_words(self):
        for words in (["--nonsense"], ["a", "b", "--recording", "c"], ["--times", "a"], ["a", "a"], ["a", "./a"],
                      ["--op", "none"],
                      ["--slower", "-1"], ["--slower", "nan"], ["--from", "noon"], ["--session", "x"],
                      ["--profile", "3.6"]):
            self.assert_bad_words("zkjson.py", *words)
        self.assertEqual(self.run_tool("zkjson.py", "/no/such/listing")[0], 3)
        self.assertEqual(self.run_tool("zkjson.py", "--help")[0], 0)
