"""Tests of zkstat: what is counted, and what is printed of it."""

import json
import shutil
import struct

from .support import CAPTURES, PROGRAM, TOP, ToolCase, zkr

LISTING = r"""C connect version=0 zxid=0 timeout=30000 session=0 passwd=#00 ro=0
S connect version=0 timeout=30000 session=72057594037927937 passwd=#00 ro=0
C 1 exists path="/a" watch=1
S 1 exists zxid=5 err=-101/NONODE
C 2 exists path="/b" watch=0
S 2 exists zxid=5 stat=(4,4,1000,1000,0,0,0,0,3,0,4)
C 3 exists path="/c" watch=0
S 3 exists zxid=5 err=-200
S event zxid=-1 kind=3/NodeDataChanged state=3 path="/ err=-101/NONODE"
S event zxid=-1 kind=3/NodeDataChanged state=3 path="/a"
S event zxid=-1 kind=9 state=3 path="/a"
C 4 multi {create path="/;fail err=-1" blob=# acl=~ flags=0;check path="/a" version=3;delete path="/a" version=3}
S 4 multi zxid=6 {fail err=0/OK;fail err=-103/BADVERSION;fail err=-2/RUNTIMEINCONSISTENCY}
C 5 multi {create path="/;fail err=-1" blob=# acl=~ flags=0}
S 5 multi zxid=7 {create path="/;fail err=-1"}
C 6 getData path="/\c3\a9" watch=0
C -2 ping
C 7 multi {}
. cut side=S frame=8 got=3
"""

NO_TIMES = {"timed": 0, "ms": None}
COUNTED = {
    "operations": {
        "exists": {"asked": 3, "answered": 3, "failed": 1, "errors": {"-200": 1}, "answers": {"NONODE": 1}, **NO_TIMES},
        "multi": {"asked": 3, "answered": 2, "failed": 1, "errors": {"BADVERSION": 1}, "answers": {}, **NO_TIMES},
        "connect": {"asked": 1, "answered": 1, "failed": 0, "errors": {}, "answers": {}, **NO_TIMES},
        "getData": {"asked": 1, "answered": 0, "failed": 0, "errors": {}, "answers": {}, **NO_TIMES},
        "ping": {"asked": 1, "answered": 0, "failed": 0, "errors": {}, "answers": {}, **NO_TIMES},
    },
    "events": {"NodeDataChanged": 2, "9": 1},
    "connections": [{"connection": "-", "session": "0x100000000000001", "gap": None, "begun": None, "ended": None,
                     "asked": 9, "answered": 6, "failed": 2, **NO_TIMES, "backwards": 0,
                     "ending": {"ending": "cut", "side": "S", "frame": 8, "got": 3, "messages": 18}}],
    "unanswered": [],
    "notKnown": [{"connection": "-", "n": 16, "xid": 6, "op": "getData", "path": r'"/\c3\a9"'},
                 {"connection": "-", "n": 17, "xid": -2, "op": "ping"},
                 {"connection": "-", "n": 18, "xid": 7, "op": "multi"}],
    "slowest": [],
}

TABLE = r"""operation  asked  answered  failed  p50 ms  p95 ms  p99 ms  max ms
exists         3         3       1       -       -       -       -
multi          3         2       1       -       -       -       -
connect        1         1       0       -       -       -       -
getData        1         0       0       -       -       -       -
ping           1         0       0       -       -       -       -
       1 errors: exists -200
       1 errors: multi BADVERSION
       1 answers: exists NONODE
       2 events: NodeDataChanged
       1 events: 9
       0 of 6 replies timed
       0 requests unanswered
       3 requests of which it isn't known whether they were answered: the reading stopped
    message 16: 6 getData "/\c3\a9"
    message 17: -2 ping
    message 18: 7 multi
       1 of 1 connections not read to the end

connection  session            begun  ended  asked  answered  failed  p50 ms  p95 ms  p99 ms  max ms  ending
-           0x100000000000001  -      -          9         6       2       -       -       -       -  cut side=S frame=8 got=3 messages=18
"""

# Times of day in milliseconds since 1970, and the frames that came then: of two connections of a session, each a
# connect request and response, a request, and in the first the reply to it.
SESSION = "0x100000000000001"
BEGUN = 1_795_332_633_000
CONNECT = bytes.fromhex("00000000 0000000000000000 00007530 0000000000000000 00000000")
CONNECTED = bytes.fromhex("00000000 00007530 0100000000000001 00000000")
EXISTS = struct.pack(">iii2s?", 1, 3, 2, b"/a", False)
NO_NODE = struct.pack(">iqi", 1, 5, -101)
FRAMES = {"first": [(0, b"C", CONNECT), (4.5, b"S", CONNECTED), (1000, b"C", EXISTS), (1001.25, b"S", NO_NODE)],
          "second": [(5000, b"C", CONNECT), (5002, b"S", CONNECTED), (5010, b"C", EXISTS)]}
LINES = ["C connect version=0 zxid=0 timeout=30000 session=0 passwd=# ro=-",
         "S connect version=0 timeout=30000 session=72057594037927937 passwd=# ro=-",
         'C 1 exists path="/a" watch=0', "S 1 exists zxid=5 err=-101/NONODE"]


class Zkstat(ToolCase):
    run_tool = ToolCase.run_inside

    def stat(self, *words, stdin=b"", wanted=0):
        status, out, err = self.run_tool("zkstat.py", *words, stdin=stdin)
        self.assertEqual((status, err), (wanted, ""))
        return out

    def test_counts(self):
        self.assertEqual(json.loads(self.stat("--json", stdin=LISTING.encode(), wanted=1)), COUNTED)
        self.assertEqual(self.stat(stdin=LISTING.encode(), wanted=1), TABLE)

    def test_the_lines_of_zkjson(self):
        _, out, _ = self.run_tool("zkjson.py", stdin=LISTING.encode())
        self.assertEqual(self.stat(stdin=out.encode(), wanted=1), TABLE)

    def test_what_is_no_object_of_zkjson(self):
        ping = {"n": 2, "side": "C", "op": "ping", "xid": -2}
        many = [("{", "this is not JSON from column 2 on"), ('{"a":' + "[" * 100_000, "this is nested too deeply"),
                ('{"n": NaN}', "NaN is not a number of JSON"), ("[]", "this is not an object of zkjson"),
                ('{"n": 2, "side": "C"}', "this object has no 'op'"), ('{"op": "ping"}', "this object has no 'n'"),
                ('{"n": 2, "op": "ping"}', "this object has no 'side'"),
                ('{"ending": "x"}', "this is not an ending of zkjson"), ("C -2 ping", "this is not JSON"),
                ('{"ending": "whole", "unanswered": "\\u001b"}', "this is not an ending of zkjson")]
        many += [(json.dumps({**ping, **wrong}), "zkjson doesn't write this value of ") for wrong in (
            {"op": []}, {"op": "\x1b"}, {"op": "multi", "side": "S", "parts": 3},
            {"op": "multi", "side": "S", "parts": [3]},
            {"ms": -5}, {"at": "x"}, {"ms": 10**400}, {"n": True}, {"n": "2"}, {"connection": 3}, {"path": 3},
            {"xid": "1"}, {"err": "x", "side": "S"}, {"err": 1, "errName": "a b"}, {"side": "X"},
            {"op": "connect", "session": 1}, {"op": "connect", "session": "0xx"})]
        many += [(json.dumps({**ping, "side": "S"}), "this object has no 'of'"),
                 (json.dumps({**ping, "n": 1}), "message 1 of")]
        for line, told in many:
            with self.subTest(line=line[:60]):
                lines = f'{{"n": 1, "side": "C", "op": "ping"}}\n{line}\n'
                status, out, err = self.run_tool("zkstat.py", stdin=lines.encode())
                self.assertEqual((status, out, err.count("\n")), (1, "", 1), err)
                self.assertTrue(err.startswith(f"zkstat.py: line 2: {told}"), err)

    def test_many_unanswered_and_no_ending_line(self):
        listing = "".join(f'C {n} getData path="/a" watch=0\n' for n in range(1, 13)).encode()
        found = self.stat(stdin=listing).splitlines()
        self.assertEqual(found[3:15], ["      12 requests unanswered",
                                       *(f'    message {n}: {n} getData "/a"' for n in range(1, 11)), "    and 2 more"])
        self.assertEqual(found[-1].split()[-3:], ["no", "ending", "line"])

    def test_no_character_that_a_terminal_obeys(self):
        forged = r'C 1 exists path="/a\1b]0;owned\07\1b[2J\0aunanswered             0\0a. whole unanswered=0" watch=1'
        found = self.stat(stdin=forged.encode())
        self.assertIn(forged[16:-8], found)
        self.assertTrue(all(line.isprintable() for line in found.splitlines()), found)
        _, objects, _ = self.run_tool("zkjson.py", stdin=forged.encode())
        self.assertEqual(self.stat(stdin=objects.encode()), found)
        for raw in ('C 1 exists path="/\x1b[2J" watch=1', 'C 1 exists path="/\u202e" watch=1',
                    'C 1 exists path="/\xff" watch=1', "C 1 exists\x1b[2J", ". whole\x1b[2J=1",
                    ". whole unanswered=\x1b[2J", "\x1b[2J", ". Whole unanswered=0"):
            status, out, err = self.run_tool("zkstat.py", stdin=raw.encode())
            self.assertEqual((status, out, err.count("\n")), (1, "", 1), raw)
            self.assertTrue(err[:-1].isprintable(), err)
        objects = json.dumps({"connection": "a\n\x1b[2J", "n": 1, "side": "C", "op": "ping"})
        self.assertTrue(all(line.isprintable() for line in self.stat(stdin=objects.encode()).splitlines()))

    def recordings(self):
        """The two recordings of a session, each with a file of times, and their listings."""
        for number, (name, frames) in enumerate(FRAMES.items()):
            path = self.folder / f"{name}.zkr"
            path.write_bytes(b"ZKR1" + b"".join(
                zkr.Head().piece(side, 0, len(payload).to_bytes(4, "big") + payload) for _, side, payload in frames))
            zkr_times = "".join(f"{BEGUN + at:.3f}\n" for at, *_ in frames)
            (self.folder / f"{name}.zkr.times").write_text(zkr_times, "ascii")
            lines = [*LINES[:len(frames)], f". whole unanswered={number}"]
            (self.folder / f"{name}.show").write_text("".join(f"{line}\n" for line in lines), "ascii")

    def joined(self, *words):
        """What zkjson makes of both."""
        found = [self.run_tool("zkjson.py", "--recording", self.folder / f"{name}.zkr", *words,
                               self.folder / f"{name}.show") for name in ("second", "first")]
        self.assertEqual([each[0] for each in found], [0, 0], found)
        return "".join(each[1] for each in found).replace(f"{self.folder}/", "").encode()

    def test_connections_of_one_session_are_together(self):
        self.recordings()
        wide, counts = "{:10}  {:17}  {:24}  {:24}", "asked  answered  failed  p50 ms  p95 ms  p99 ms  max ms"
        self.assertEqual(self.stat(stdin=self.joined()).splitlines(), [
            f"operation  {counts}",
            "connect        2         2       0       2     4.5     4.5     4.5",
            "exists         2         1       0    1.25    1.25    1.25    1.25",
            "       1 answers: exists NONODE",
            "       3 of 3 replies timed",
            "       1 requests unanswered",
            '    second.zkr message 3: 1 exists "/a"',
            "",
            wide.format("connection", "session", "begun", "ended") + f"  {counts}  ending",
            wide.format("first.zkr", SESSION, "2026-11-22T07:30:33.000Z", "2026-11-22T07:30:34.001Z")
            + "      2         2       0    1.25     4.5     4.5     4.5  whole unanswered=0",
            "    the same session, 3.99875 s later",
            wide.format("second.zkr", SESSION, "2026-11-22T07:30:38.000Z", "2026-11-22T07:30:38.010Z")
            + "      2         1       0       2       2       2       2  whole unanswered=1",
            "",
            "slowest: asked at           ms  connection  message  operation  error   zxid  path",
            "2026-11-22T07:30:33.000Z   4.5  first.zkr         1  connect    -       -     -",
            "2026-11-22T07:30:38.000Z     2  second.zkr        1  connect    -       -     -",
            '2026-11-22T07:30:34.000Z  1.25  first.zkr         3  exists     NONODE  0x5   "/a"',
        ])

    def test_recordings_by_their_names(self):
        self.recordings()
        program = self.folder / "zkdump"
        program.write_text("#!/bin/sh\ntest \"$*\" = 'show --profile 3.5 --limit 1000 --waiting 1048576' || exit 2\n"
                           f"if [ $(wc -c) -gt 100 ]; then cat {self.folder}/first.show; exit 0; fi\n"
                           f"cat {self.folder}/second.show; exit 1\n")
        program.chmod(0o700)
        names = [self.folder / f"{name}.zkr" for name in FRAMES]
        words = ["--zkdump", program, "--profile", "3.5", "--limit", "1000"]
        found = self.stat(*words, *names).replace(f"{self.folder}/", "")
        self.assertEqual(sorted(" ".join(line.split()) for line in found.splitlines()),
                         sorted(" ".join(line.split()) for line in self.stat(stdin=self.joined()).splitlines()))
        for wrong, told in ((["--zkdump", program], "show has ended with status 2, maybe before the listing's end"),):
            status, out, err = self.run_tool("zkstat.py", *wrong, names[0])
            self.assertEqual((status, out, err), (3, "", f"zkstat.py: {names[0]}: {program} {told}\n"))
        self.assert_bad_words("zkstat.py", "--zkdump", "/no/such/program", names[0])

    def test_what_is_chosen(self):
        self.recordings()
        joined = self.joined()
        for words, asked in ((["--path", "/a"], {"exists": 2}), (["--path", "/"], {"exists": 2}),
                             (["--path", "/b"], {}),
                             (["--path", "/a/"], {"exists": 2}), (["--op", "connect"], {"connect": 2}),
                             (["--op", "connect", "--op", "exists"], {"connect": 2, "exists": 2}),
                             (["--slower", "1.25"], {"connect": 2}),
                             (["--slower", "1.249"], {"connect": 2, "exists": 1}),
                             (["--session", SESSION], {"connect": 2, "exists": 2}),
                             (["--session", "72057594037927937"], {"connect": 2, "exists": 2}),
                             (["--session", "1"], {}),
                             (["--from", "2026-11-22T07:30:34Z"], {"connect": 1, "exists": 2}),
                             (["--to", "2026-11-22T07:30:33.000Z"], {"connect": 1}),
                             (["--from", "2026-11-22T08:30:33.001+01:00", "--to", str(BEGUN + 5000)],
                              {"connect": 1, "exists": 1})):
            with self.subTest(words=words):
                found = json.loads(self.stat("--json", *words, stdin=joined))
                self.assertEqual({name: each["asked"] for name, each in found["operations"].items()}, asked)
                chosen = json.loads(self.stat("--json", stdin=self.joined(*words)))
                for each in ("operations", "events", "unanswered", "slowest"):
                    self.assertEqual(chosen[each], found[each])

    def test_the_paths_of_a_multi(self):
        lines = ('C 1 multi {check path="/x path=~ y" version=1;delete path="/b/c" version=1}\n'
                 'C 2 exists path="/bc" watch=1\n')
        for path, count in (("/b", 1), ("/b/c", 1), ("/x path=~ y", 1), ("/x", 0), ("/bc", 1), ("/", 2)):
            found = json.loads(self.stat("--json", "--path", path, stdin=lines.encode()))
            self.assertEqual(sum(each["asked"] for each in found["operations"].values()), count, path)

    def test_the_paths_of_events(self):
        for path, count in (("/a", 2), ("/", 3), ("/ err=-101", 1), ("/ err", 0)):
            for stdin in (LISTING, self.run_tool("zkjson.py", stdin=LISTING.encode())[1]):
                found = json.loads(self.stat("--json", "--path", path, stdin=stdin.encode(), wanted=1))
                self.assertEqual(sum(found["events"].values()), count, path)
            _, chosen, _ = self.run_tool("zkjson.py", "--path", path, stdin=LISTING.encode())
            self.assertEqual(json.loads(self.stat("--json", stdin=chosen.encode(), wanted=1))["events"],
                             found["events"])
            listing = self.folder / "events.show"
            listing.write_text(LISTING, "ascii")
            report = self.run_tool("zkreport.py", "--text", "--path", path, listing)[1]
            events = "1 event" if count == 1 else f"{count} events"
            self.assertTrue(report.partition("\n")[0].endswith(f" {events}"), report)

    def test_the_connect_messages_that_pcap2zkr_makes_up_are_none(self):
        self.recordings()
        made_up = ["C connect version=-1 zxid=-1 timeout=-1 session=-1 passwd=~ ro=-",
                   "S connect version=-1 timeout=-1 session=-1 passwd=~ ro=-"]
        names = []
        for number in range(3):
            names.append(self.folder / f"part{number}.show")
            names[-1].write_text("\n".join([*made_up, *LINES[2:], ". whole unanswered=0\n"]), "ascii")
        _, objects, _ = self.run_tool("zkjson.py", *names)
        for words, stdin in ((names, b""), ([], objects.encode())):
            found = json.loads(self.stat("--json", *words, stdin=stdin))
            self.assertEqual({name: each["asked"] for name, each in found["operations"].items()}, {"exists": 3})
            self.assertEqual([each["session"] for each in found["connections"]], [None] * 3)
            self.assertEqual([each["asked"] for each in found["connections"]], [1] * 3)

    def test_values_that_no_line_has(self):
        for line, column in ((r'C 1 exists path="/\c3" watch=0', 17), (r'C 1 exists path="/\zz" watch=0', 17),
                             ('C 1 setData path="/#6" blob=#6 version=1', 23),
                             ('C 1 setData path="/#6" blob=#AB version=1', 30), ("C -4 auth kind=0 scheme=~ auth=#6g", 26),
                             ('C 1 setData path="/a" blob=#61,62 version=1', 31),
                             ("C 1 whoAmI", 11), ("C 1 event", 10), ("C 1 check", 10),
                             (r'C 1 setACL path="/a" acl=[1:"\ff":"a"] version=1', 29)):
            for words in (["zkstat.py"], ["zkstat.py", "--path", "/"], ["zkjson.py", "--slower", "5"],
                          ["zkreport.py", "--text"]):
                path = self.folder / "wrong.show"
                path.write_text(f"C -2 ping\n{line}\n", "ascii")
                status, out, err = self.run_tool(*words, path)
                self.assertEqual((status, out, err),
                                 (1, "", f"{words[0]}: {path}: line 2: from column {column} on this "
                                                      "is no line as zkdump show writes it\n"))

    def test_latencies(self):
        head = zkr.Head("zkr2")
        payloads = [(at, b"C", struct.pack(">iii?", n, 3, -1, False))
                    for n, at in enumerate((1000, 1001, 1010, 1020), 1)]
        payloads += [(at, b"S", struct.pack(">iqi", n, 5, -101)) for n, at in enumerate((1003, 1005, 3345, 1010), 1)]
        recording = self.folder / "four.zkr"
        recording.write_bytes(head.to_bytes() + b"".join(
            head.piece(side, at, len(payload).to_bytes(4, "big") + payload) for at, side, payload in payloads))
        listing = "".join(f"C {n} exists path=~ watch=0\n" for n in (1, 2, 3, 4))
        listing += "".join(f"S {n} exists zxid=5 err=-101/NONODE\n" for n in (1, 2, 3, 4))
        found = self.stat("--recording", recording, stdin=listing.encode()).splitlines()
        self.assertEqual(found[1:5], ["exists         4         4       0   4.001    2335    2335    2335",
                                      "       4 answers: exists NONODE", "       3 of 4 replies timed",
                                      "       1 replies have a time before that of their request"])

    def test_choices_by_time_where_there_are_no_times(self):
        """That nothing is chosen isn't all that is said: nobody knows whether a reply was slow."""
        none, some, silent = CAPTURES[0], self.folder / "some.zkr", self.folder / "silent.zkr"
        if not PROGRAM.exists():
            self.skipTest("the program zkdump is not built")
        shutil.copy(TOP / "crates" / "zkdump" / "stdin", some)
        (self.folder / "some.zkr.times").write_text("1000\n1001\n1002\n1003\n")
        silent.write_bytes(b"ZKR1")
        for tool, *words in (("zkstat.py",), ("zkjson.py",), ("zkreport.py", "--text")):
            wanted = f"{tool}: connections with messages without times: 1; --slower, --from and --to left these out: " \
                     "record with --times\n"
            for choice in (("--slower", "1"), ("--from", "5"), ("--to", "5"), ("--to", "5", "--op", "ping")):
                for more in ((), ("--jobs", "2")):
                    found = self.run_tool(tool, *words, *choice, *more, some, silent, none)
                    self.assertEqual(found[::2], (1, wanted), (tool, choice, more))
                    self.assertEqual(self.run_tool(tool, *words, *choice, *more, some, silent)[::2], (0, ""))
            self.assertEqual(self.run_tool(tool, *words, "--session", "0x1", "--slower", "1", none)[::2], (0, ""))
            self.assertEqual(self.run_tool(tool, *words, "--path", "/", none)[::2], (0, ""))

    def test_every_capture(self):
        listings = [capture.with_suffix(".show") for capture in CAPTURES]
        # Some of these end with a refusal.
        found = self.stat("--json", *listings, wanted=1)
        found = {each["connection"]: each for each in json.loads(found)["connections"]}
        for path in listings:
            with self.subTest(capture=path.name):
                lines, each = path.read_text(encoding="ascii").splitlines(), found[str(path)]
                self.assertEqual(each["asked"], sum(line[0] == "C" for line in lines))
                self.assertEqual(each["answered"], sum(line[0] == "S" and line[:7] != "S event" for line in lines))
                self.assertEqual(each["ending"].get("unanswered", each["asked"] - each["answered"]),
                                 each["asked"] - each["answered"])
                is_whole = lines[-1].startswith(". whole")
                self.assertEqual(each["ending"].get("messages"), None if is_whole else len(lines) - 1)

    def test_words(self):
        link = self.folder / "link"
        link.symlink_to("a")
        for words in (["--nonsense"], ["a", "b", "--recording", "c"], ["--times", "a"], ["a", "a"], ["a", "./a"],
                      [self.folder / "a", link]):
            self.assert_bad_words("zkstat.py", *words)
        self.assertEqual(self.run_tool("zkstat.py", stdin=b"nonsense\n")[::2],
                         (1, "zkstat.py: line 1: from column 1 on this is no line as zkdump show writes it\n"))
        self.assertEqual(self.run_tool("zkstat.py"),
                         (1, "", "zkstat.py: standard input is empty: a listing has at least "
                                                         "its last line, as zkdump show writes it\n"))
