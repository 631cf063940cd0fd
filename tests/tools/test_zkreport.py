"""Tests of zkreport: the tables as text, the trace, and two runs compared."""

import json
import os
import subprocess

from . import report_lines
from .support import CAPTURES, PROGRAM, TOP, ToolCase

from tools.zkdump_tools import facts

TABLES = r"""2 connections, 1 session, 20 messages, 10 requests, 2 failed, 1 unanswered, 1 event
from 2023-11-14T22:13:20.000Z to 2023-11-14T22:13:25.201Z

Sessions
session  timeout ms  connections  begun                     ended                     requests  failed  unanswered  longest gap  how it ended
0x7           10000            2  2023-11-14T22:13:20.000Z  2023-11-14T22:13:25.201Z        10       2           1          5 s  closed by the client

Connections
connection  session  name        server  begun                      lasted  requests  failed  unanswered  events  closed by             recording
        #1  0x7      one.json    -       2023-11-14T22:13:20.000Z   0.07 s         5       0           1       1  not recorded          whole
        #2  0x7      other.json  -       2023-11-14T22:13:25.070Z  0.131 s         5       2           0       0  client: closeSession  whole

Operations
operation     asked  answered  failed  unanswered  p50 ms  p95 ms  p99 ms  max ms
connect           2         2       0           0     1.5       2       2       2
setData           2         1       1           1     100     100     100     100
closeSession      1         1       0           0       1       1       1       1
create            1         1       0           0      30      30      30      30
exists            1         1       0           0    1.25    1.25    1.25    1.25
getData           1         1       0           0       1       1       1       1
multi             1         1       1           0       1       1       1       1
setWatches        1         1       0           0       4       4       4       4

Errors
operation  error       outcome  count
multi      NONODE      failed       1
setData    BADVERSION  failed       1
exists     NONODE      answer       1

Slowest requests
  ms  asked at                  connection  message  operation     error       path
 100  2023-11-14T22:13:25.090Z          #2        5  setData       BADVERSION  "/a"
  30  2023-11-14T22:13:20.020Z          #1        5  create        -           "/a"
   4  2023-11-14T22:13:25.080Z          #2        3  setWatches    -           -
   2  2023-11-14T22:13:20.000Z          #1        1  connect       -           -
 1.5  2023-11-14T22:13:25.070Z          #2        1  connect       -           -
1.25  2023-11-14T22:13:20.010Z          #1        3  exists        NONODE      "/a"
   1  2023-11-14T22:13:20.060Z          #1        8  getData       -           "/a"
   1  2023-11-14T22:13:25.195Z          #2        7  multi         NONODE      -
   1  2023-11-14T22:13:25.200Z          #2        9  closeSession  -           -

Busiest paths
requests  failed  max ms  path
       5       1     100  "/a"
       1       0       -  "/b/\1b[2J"
       1       1       1  "/b"

Watches
set  set again  fired  events         connection  path
  2          0      1  NodeCreated=1          #1  "/a"
  1          1      0  -                      #2  "/a"

Unanswered requests
asked at                  connection  message  operation  path
2023-11-14T22:13:20.070Z          #1       10  setData    "/b/\1b[2J"
"""

LISTING = r"""C connect version=0 zxid={zxid} timeout=9 session={session} passwd=#{passwd} ro=0
S connect version=0 timeout=9 session={session} passwd=#{passwd} ro=0
C {xid} create path="/stat=(1,2,3,4,5,6,7,8,9,10,11)" blob=#00 acl=~ flags=1
S event zxid=-1 kind=1/NodeCreated state=3 path="/a"
S {xid} create zxid={zxid} path="/a"
C -2 ping
C {next} exists path="/a" watch=0
S -2 ping zxid={zxid}
S {next} exists zxid={zxid} stat=({zxid},{zxid},{time},{time},{version},0,0,{session},3,0,{zxid})
. whole unanswered=0
"""
HERE = {"zxid": 5, "session": 72, "passwd": "aa", "xid": 1, "next": 2, "time": 1000, "version": 1}
THERE = {"zxid": 90, "session": 99, "passwd": "bb", "xid": 7, "next": 8, "time": 2000, "version": 1}


class Zkreport(ToolCase):
    def setUp(self):
        super().setUp()
        self.one = report_lines.first(self.folder / "one.json")
        self.other = report_lines.second(self.folder / "other.json")

    def report(self, *words, status=0):
        found, out, err = self.run_tool("zkreport.py", *words)
        self.assertEqual((found, err), (status, ""))
        return out

    def listing(self, name, text):
        path = self.folder / name
        path.write_text(text)
        return path

    def test_tables(self):
        self.assertEqual(self.report("--text", self.one, self.other), TABLES)

    def rows(self, found, heading):
        """The rows of a table in the text, each as its words."""
        after = found.partition(f"\n{heading}\n")[2].partition("\n\n")[0]
        return [line.split() for line in after.splitlines()[1:]]

    def test_choices(self):
        for words, operations in ((["--path", "/b"], {"setData": "1", "multi": "1"}),
                                  (["--op", "exists"], {"exists": "1"}),
                                  (["--session", "0x8"], {}), (["--slower", "29"], {"create": "1", "setData": "1"}),
                                  (["--from", "2023-11-14T22:13:25.200Z"], {"closeSession": "1"}),
                                  (["--to", "2023-11-14T22:13:20.010Z"], {"connect": "1", "exists": "1"})):
            with self.subTest(words=words):
                found = self.report("--text", *words, self.one, self.other)
                self.assertEqual({row[0]: row[1] for row in self.rows(found, "Operations")}, operations)

    def test_a_session_whose_connect_messages_are_not_chosen(self):
        """Both connections are of one session, whatever is chosen of them."""
        names = [self.listing(f"{number}.show", LISTING.format(**HERE)) for number in range(2)]
        for choice in (["--path", "/a"], ["--op", "exists"], ["--session", "72"]):
            found = self.report("--text", *choice, *names)
            self.assertEqual([row[:3:2] for row in self.rows(found, "Sessions")], [["0x48", "2"]], found)
            self.assertEqual([row[:2] for row in self.rows(found, "Connections")], [["#1", "0x48"], ["#2", "0x48"]])

    def test_many_connections_without_a_message_in_the_lines_of_zkjson(self):
        """3,000 of them, beside one of a session: the page has some of them, and counts them all."""
        path, page = self.folder / "many.json", self.folder / "many.html"
        ending = {"ending": "whole", "unanswered": 0, "waiting": []}
        path.write_text(self.one.read_text() + "".join(json.dumps({"connection": f"c{number}", **ending}) + "\n"
                                                       for number in range(3000)))
        found = self.report("--text", "-o", page, path, self.other)
        self.assertRegex(found, "^3002 connections, 1 session, 20 messages, ")
        self.assertIn("\nand 2800 more\n", found)
        self.assertLess(page.stat().st_size, 500_000)
        self.assertEqual(self.report("--text", "--jobs", 2, path, self.other), found)

    def test_several_connections_in_the_lines_of_zkjson(self):
        path = self.folder / "both.json"
        path.write_text("".join(json.dumps({"connection": each.stem, **json.loads(line)}) + "\n"
                                for each in (self.one, self.other) for line in each.read_text().splitlines()))
        found = self.report("--text", path)
        self.assertEqual([row[:3] for row in self.rows(found, "Connections")],
                         [["#1", "0x7", "one"], ["#2", "0x7", "other"]])
        self.assertEqual(self.rows(found, "Slowest requests"), self.rows(TABLES, "Slowest requests"))
        status, out, err = self.run_tool("zkreport.py", "--text", path, "--against", path)
        expected = f"zkreport.py: {path} has several connections: --against compares files of one each\n"
        self.assertEqual((status, out, err), (1, "", expected))

    def test_latencies_by_the_rule_of_hdrhistogram(self):
        """Of 5.001, 9 and 20 ms the middle one is counted with those that differ by less than a thousandth, up to
        9.007 ms; the longest is exact."""
        lines = report_lines.Lines()
        for n, took in enumerate((5.001, 9, 20), 1):
            lines.ask(100 * n, "sync", n, path="/")
            lines.answer(100 * n + took, n, zxid="0x1", path="/")
        found = self.report("--text", lines.write(self.folder / "three.json", ending="whole", unanswered=0))
        self.assertEqual(self.rows(found, "Operations"), [["sync", "3", "3", "0", "0", "9.007", "20", "20", "20"]])

    def test_a_listing_without_times(self):
        found = self.report("--text", self.listing("a.show", LISTING.format(**HERE)))
        self.assertEqual(found.partition("\n")[0], "1 connection, 1 session, 9 messages, 4 requests, 0 failed, "
                                                    "0 unanswered, 1 event")
        self.assertIn("create         1         1       0           0       -       -       -       -\n", found)
        self.assertNotIn("Slowest", found)

    def test_every_capture(self):
        shown = [capture.with_suffix(".show") for capture in CAPTURES]
        first_line = self.report("--text", *shown, status=1).partition("\n")[0]     # some end with a refusal
        counts, left = [0, 0, 0], {True: 0, False: 0}
        for path in shown:
            *lines, ending = path.read_text(encoding="ascii").splitlines()
            found = [len(lines), *(sum(line.startswith(word) for line in lines) for word in ("C", "S event"))]
            counts = [sum(pair) for pair in zip(counts, found)]
            left[ending.startswith(". whole")] += sum(found[1:]) - sum(line[0] == "S" for line in lines)
        messages, asked, events = counts
        self.assertRegex(first_line, rf"^{len(shown)} connections, \d+ sessions, {messages} messages, {asked} "
                                     rf"requests, \d+ failed, {left[True]} unanswered, {left[False]} not known, "
                                     rf"{events} events$")

    def test_a_terminal_gets_nothing_that_it_would_obey(self):
        lines = report_lines.Lines()
        lines.connect(0, 1)
        lines.ask(1, "exists", 1, path=report_lines.HOSTILE * 9, watch=False)
        lines.ask(2, "getData", 2, path=report_lines.HOSTILE, watch=False)
        lines.event(3, 3, "NodeDataChanged", report_lines.HOSTILE)
        name = self.folder / "a\x1b[2Jb.json"
        path = lines.write(name, ending="whole", unanswered=2, waiting=[3, 4])
        done = self.run_raw("zkreport.py", "--text", path)
        found = done.stdout
        self.assertEqual((done.returncode, found.count(b"[2J"), found.count(rb"0;owned\07")), (0, 1, 5))
        self.assertEqual([byte for byte in found if not 0x20 <= byte < 0x7f and byte != 0x0a], [])

    def test_trace(self):
        trace = self.folder / "trace.json"
        self.assertEqual(self.report("--trace", trace, self.one, self.other), "")
        events = json.loads(trace.read_text())["traceEvents"]
        begun = {event["id"]: event for event in events if event["ph"] == "b"}
        ended = {event["id"]: event for event in events if event["ph"] == "e"}
        self.assertEqual((len(begun), begun.keys()), (10, ended.keys()))
        spans = sorted((ended[key]["ts"] - each["ts"], each["name"]) for key, each in begun.items())
        self.assertEqual(spans[-2:], [(30_000, "create"), (100_000, "setData BADVERSION")])
        unanswered = [each for each in ended.values() if each["args"] == {"answered": False}]
        self.assertEqual([(each["name"], each["ts"]) for each in unanswered],
                         [("setData", (report_lines.T + 70) * 1000)])
        self.assertEqual([event["args"]["path"] for event in events if event["ph"] == "i"], ['"/a"'])
        processes = {event["args"]["name"] for event in events if event["name"] == "process_name"}
        self.assertEqual(processes, {"session 0x7"})
        self.assertEqual([event["dur"] for event in events if event["ph"] == "X"], [70_000, 131_000])
        for event in events:
            self.assertTrue(isinstance(event["pid"], int) and isinstance(event["tid"], int) and event["name"])

    def test_a_reply_with_a_time_before_that_of_its_request_in_a_trace(self):
        head = '{"connection": "a", "n": %d, "side": "%s", "xid": 1, "op": "sync", '
        path, trace = self.folder / "back.json", self.folder / "trace.json"
        path.write_text(head % (1, "C") + '"path": "/a", "at": 2000}\n'
                        + head % (2, "S") + '"zxid": "0x1", "path": "/a", "at": 1000, "of": 1, "asked": "/a"}\n')
        self.report("--trace", trace, path)
        events = json.loads(trace.read_text())["traceEvents"]
        self.assertEqual([(each["ph"], each["ts"]) for each in events if each["ph"] in "be"],
                         [("b", 2_000_000), ("e", 2_000_000)])

    def test_a_trace_has_no_times_that_are_rounded(self):
        """A reader has times as floats of microseconds, which have each up to June 2255."""
        path, trace = self.folder / "late.json", self.folder / "trace.json"
        for at, wanted in ((2 ** 53 // 1000, 0), (2 ** 53 // 1000 + 1, 1), (1_795_332_633_000_123_904, 1)):
            path.write_text(json.dumps({"n": 1, "side": "C", "xid": 1, "op": "sync", "path": "/a", "at": at}) + "\n")
            status, out, err = self.run_tool("zkreport.py", "--trace", trace, path)
            self.assertEqual((status, out, "from June 2255 on" in err), (wanted, "", bool(wanted)), err)
            self.assertEqual(trace.exists(), not wanted)
            trace.unlink(missing_ok=True)

    def test_a_trace_needs_times(self):
        path = self.listing("a.show", LISTING.format(**HERE))
        status, out, err = self.run_tool("zkreport.py", "--trace", self.folder / "t", path)
        self.assertEqual((status, out, err),
                         (1, "", "zkreport.py: there are no times, which a trace needs: record with "
                                                 "--times\n"))
        self.assertFalse((self.folder / "t").exists())

    def test_no_difference(self):
        here = self.listing("here.show", LISTING.format(**HERE))
        there = self.listing("there.show", LISTING.format(**THERE))
        found = self.report("--text", here, "--against", there)
        self.assertIn("\nCompared\nno difference: 4 exchanges and events are the same\n", found)

    def test_the_first_difference(self):
        here = self.listing("here.show", LISTING.format(**HERE))
        changed = LISTING.format(**THERE)
        for old, new, kind, one, two in (
                ("(90,90,2000,2000,1,", "(90,90,2000,2000,2,", "a reply",
                 'exists stat=(1,0,0,owner,3,0)', 'exists stat=(2,0,0,owner,3,0)'),
                ("8 exists path=\"/a\"", "8 exists path=\"/b\"", "a request",
                 'exists path="/a" watch=0', 'exists path="/b" watch=0'),
                ("(1,2,3,4,5", "(1,2,3,4,6", "a request", None, None),
                ("kind=1/NodeCreated", "kind=2/NodeDeleted", "an event", None, None),
                (" flags=1", " flags=3", "a request", None, None)):
            self.assertIn(old, changed)
            there = self.listing("there.show", changed.replace(old, new))
            with self.subTest(new=new):
                found = self.report("--text", here, "--against", there, status=1)
                self.assertRegex(found, rf"\nthe first difference is {kind} of connection #1, after \d exchanges ")
                if one:
                    self.assertIn(f": {one}\n", found)
                    self.assertIn(f": {two}\n", found)

    def test_the_order_of_replies_among_requests_is_no_difference(self):
        head = "".join(LISTING.format(**HERE).splitlines(True)[:2])
        ask, answer = 'C {} sync path="/{}"\n', 'S {} sync zxid=1 path="/{}"\n'
        together = head + "".join(ask.format(n, n) for n in (1, 2)) + "".join(answer.format(n, n) for n in (1, 2))
        apart = head + "".join(each.format(n, n) for n in (1, 2) for each in (ask, answer))
        self.report("--text", self.listing("a.show", together), "--against", self.listing("b.show", apart))
        self.report("--text", self.listing("a.show", together), "--against", self.listing("b.show", head), status=1)

    def test_a_difference_that_is_not_chosen(self):
        here = self.listing("here.show", LISTING.format(**HERE))
        there = self.listing("there.show", LISTING.format(**THERE).replace("flags=1", "flags=3"))
        self.report("--text", here, "--against", there, status=1)
        self.report("--text", here, "--against", there, "--path", "/a")
        self.report("--text", here, "--against", there, "--op", "create", status=1)
        self.assert_bad_words("zkreport.py", "--text", here, "--against", there, "--slower", "1")

    def test_what_is_missing_of_the_other_run_is_reported(self):
        if not PROGRAM.exists():
            self.skipTest("the program zkdump is not built")
        whole, capture, cut = self.folder / "whole.zkr", self.folder / "whole.pcap", self.folder / "cut.pcap"
        whole.write_bytes((TOP / "captures" / "kazoo_basic.zkr").read_bytes())
        self.assertEqual(self.run_tool("zkr2pcap.py", whole, capture)[0], 0)
        cut.write_bytes(capture.read_bytes()[:-1])      # of the last packet, which has no bytes of the conversation
        found = self.report("--text", capture, "--against", cut, status=1)
        self.assertIn(f"\nnot read: {cut}: the capture ends within a packet, and was read up to there\n", found)
        self.assertIn("\nno difference: ", found)

    def test_holes_of_the_other_run_are_reported(self):
        if not PROGRAM.exists():
            self.skipTest("the program zkdump is not built")
        whole = self.folder / "whole.zkr"
        whole.write_bytes((TOP / "captures" / "kazoo_basic.zkr").read_bytes())
        holed = self.folder / "holed.zkr"
        holed.write_bytes(whole.read_bytes())
        facts.write(holed, facts.Facts(hole=("S",)))
        found = self.report("--text", whole, "--against", holed, status=1)
        self.assertIn("\nnot read: holed: bytes of it are missing\n", found)

    def test_one_connection_more(self):
        found = self.report("--text", self.one, "--against", self.one, "--against", self.other, status=1)
        self.assertIn("the first difference is a connection of connection #2", found)

    def test_words(self):
        link = self.folder / "link"
        link.symlink_to(self.one)
        for words in ([], [self.one], ["--text"], ["--text", self.one, "--nonsense"],
                      ["--port", "0", "--text", self.one], ["--text", self.one, self.one], ["--text", self.one, link],
                      ["--text", self.one, f"{self.folder}/./{self.one.name}"],
                      ["--text", self.one, "--against", self.other, "--against", self.other]):
            self.assert_bad_words("zkreport.py", *words)

    def test_what_is_no_input(self):
        path = self.listing("words", "words")
        self.assertEqual(self.run_tool("zkreport.py", "--text", path),
                         (1, "",
                          f"zkreport.py: {path} is no capture, no recording, no listing of zkdump show, and has no "
                                "lines of zkjson\n"))
        status, _, err = self.run_tool("zkreport.py", "--text", self.folder / "none")
        self.assertEqual((status, err.count("\n")), (3, 1))

    def test_a_name_that_is_no_utf_8(self):
        path, page = self.folder / os.fsdecode(b"\xff.show"), self.folder / "page.html"
        path.write_bytes(self.one.read_bytes())
        self.assertEqual(self.run_tool("zkreport.py", "-o", page, path), (0, "", ""))
        self.assertIn("<title>\\udcff.show</title>", page.read_text("utf-8"))

    def test_no_file_is_overwritten(self):
        for option in ("-o", "--trace"):
            path = self.listing("there", "words")
            status, out, err = self.run_tool("zkreport.py", option, path, self.one)
            self.assertEqual((status, out, err.count("\n"), path.read_text()), (3, "", 1, "words"))

    def test_a_page_of_the_first_messages_of_many(self):
        """Once it has them zkdump show is not read on, which is no trouble to report."""
        if not PROGRAM.exists():
            self.skipTest("the program zkdump is not built")
        lines = "\n".join((*LISTING.format(**HERE).splitlines()[:2], *('C 1 sync path="/a"' for _ in range(9_000))))
        path = self.folder / "many.zkr"
        path.write_bytes(subprocess.run([PROGRAM, "build"], input=lines.encode(), capture_output=True,
                                        check=True).stdout)
        self.report("-o", self.folder / "many.html", "--op", "connect", path)

    def test_null_paths(self):
        """They are no paths, in a multi and among the watches of setWatches as elsewhere; of lines of zkjson, too."""
        listing = self.listing("null.show", "\n".join((
            *LISTING.format(**HERE).splitlines()[:2],
            'C 1 multi {check path=~ version=1;check path="/a" version=1}', "S 1 multi zxid=5 {check;check}",
            "C 2 sync path=~", "S 2 sync zxid=5 path=~",
            'C -8 setWatches zxid=5 dataWatches=[~,"/b"] existWatches=[] childWatches=~', "S -8 setWatches zxid=5")))
        lines = self.folder / "null.json"
        lines.write_text(self.run_tool("zkjson.py", listing)[1])
        for path in (listing, lines):
            found = self.report("--text", path)
            self.assertEqual(self.rows(found, "Busiest paths"), [["1", "0", "-", '"/a"']], path)
            self.assertEqual(self.rows(found, "Watches"), [["1", "1", "0", "-", "#1", '"/b"']], path)
