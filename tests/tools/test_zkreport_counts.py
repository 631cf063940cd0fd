"""Tests of what zkreport counts, of what it says of a connection, and of runs that it compares."""

import json
import resource
import struct
import subprocess
import sys
import unittest.mock

from . import report_lines
from .support import PROGRAM, TOOLS, ToolCase, zkr

from tools.zkdump_tools import facts

CONNECTED = ["C connect version=0 zxid=0 timeout=9000 session=0 passwd=#00 ro=0",
             "S connect version=0 timeout=9000 session=72 passwd=#00 ro=0"]
WHOLE = ". whole unanswered=0"


class Counts(ToolCase):
    def listing(self, name, *lines):
        """A file of these lines."""
        path = self.folder / name
        path.write_text("".join(f"{line}\n" for line in lines))
        return path

    def report(self, *words, status=0):
        found, out, err = self.run_inside("zkreport.py", "--text", *words)
        self.assertEqual((found, err), (status, ""))
        return out

    def table(self, found, heading):
        """The lines of a table, without its columns' names, and what follows it."""
        return found.partition(f"\n{heading}\n")[2].split("\n\n")[0].splitlines()[1:]

    def test_a_connection_is_the_same_whatever_is_chosen_of_it(self):
        """Its beginning, its length, its timeout and its end are not those of the messages that are chosen."""
        path = report_lines.second(self.folder / "a.json")
        for choice in ((), ("--op", "multi"), ("--path", "/a"), ("--slower", "99")):
            with self.subTest(choice=choice):
                found = self.report(*choice, path)
                row, = (line.split() for line in self.table(found, "Connections"))
                self.assertEqual((row[4:7], row[-3:]), (["2023-11-14T22:13:25.070Z", "0.131", "s"],
                                                        ["client:", "closeSession", "whole"]))
                row, = (line.split() for line in self.table(found, "Sessions"))
                self.assertEqual((row[:5], row[-5:]), (
                    ["0x7", "10000", "1", "2023-11-14T22:13:25.070Z", "2023-11-14T22:13:25.201Z"],
                    "- closed by the client".split()))

    def test_a_session_that_is_refused_whatever_is_chosen(self):
        lines = report_lines.Lines()
        lines.connect(0, 1, asked="0x7", given="0x0")
        lines.event(2, 1, "NodeCreated", "/a")
        path = lines.write(self.folder / "a.json", ending="whole", unanswered=0)
        for choice in ((), ("--op", "event")):
            self.assertIn("  server: session expired  whole\n", self.report(*choice, path))

    def test_parts_of_a_connection_in_the_lines_of_zkjson(self):
        """Their endings have the facts: which parts there are, what is missing between these, and who ended it."""
        known = {"client": "10.0.0.1:40001", "server": "10.0.0.2:2181", "connected": report_lines.T}
        text = []
        for name, at, more in (("a", 0, {**known, "ended": report_lines.T + 20, "hole": ["S"]}),
                               ("a.2", 50, {**known, "part": 2, "lost": {"C": 0, "S": 9}, "closed": "C"}),
                               ("b", 90, None)):
            lines = report_lines.Lines()
            lines.connect(at, 1)
            ending = {"ending": "whole", "unanswered": 0, **({"facts": more} if more else {})}
            text += [json.dumps({"connection": name, **each}) for each in (*lines.objects, ending)]
        path = self.listing("a.json", *text)
        found = self.report(path, status=1)
        self.assertRegex(found, "^2 connections, 1 session, 6 messages, ")
        self.assertEqual([" ".join(line.split()) for line in self.table(found, "Connections")], [
            "#1 0x7 a 10.0.0.2:2181 2023-11-14T22:13:20.000Z 0.02 s 1 0 0 0 not known: bytes are missing whole, hole=S",
            "#1.2 0x7 a.2 10.0.0.2:2181 2023-11-14T22:13:20.050Z 0.001 s 1 0 0 0 client: FIN whole, lost=C:0,S:9",
            "#2 0x7 b - 2023-11-14T22:13:20.090Z 0.001 s 1 0 0 0 not recorded whole"])
        session, = self.table(found, "Sessions")
        self.assertEqual((session.split()[2], session.split()[8:10]), ("2", ["0.039", "s"]))
        self.assertEqual(self.report("--jobs", 2, path, status=1), found)
        # A part is called the same where nothing of the first one is chosen.
        choice = "--from", "2023-11-14T22:13:20.040Z"
        found = self.report(*choice, path, status=1)
        self.assertEqual([line.split()[0] for line in self.table(found, "Connections")], ["#1.2", "#2"])
        self.assertEqual(self.report("--jobs", 2, *choice, path, status=1), found)

    def test_a_later_part_in_the_lines_before_the_first(self):
        """They are one connection, between whose parts is no gap, whichever is chosen first, and so is a third part."""
        known = {"client": "10.0.0.1:40001", "server": "10.0.0.2:2181", "connected": report_lines.T}
        parts = []
        later = [(f"a.{part}", 50 * part, {"part": part, "lost": {"C": 0, "S": 9}}) for part in (2, 3)]
        for name, at, more in (("a", 0, {"hole": ["S"]}), *later):
            lines = report_lines.Lines()
            lines.connect(at, 1)
            lines.ask(at + 2, "sync", 1, path="/a")
            ending = {"ending": "whole", "unanswered": 1, "facts": {**known, **more}, "notCaptured": [3], "waiting": []}
            parts.append([json.dumps({"connection": name, **each}) for each in (*lines.objects, ending)])
        first, later, third = parts
        path = self.listing("a.json", *later[:1], *first, *later[1:], *third)
        for words, labels in (((), ["#1", "#1.1", "#1.3"]), (("--op", "sync"), ["#1.1", "#1.2", "#1.3"])):
            found = self.report(*words, path, status=1)
            self.assertRegex(found, "^1 connection, 1 session, ")
            session, = self.table(found, "Sessions")
            self.assertEqual((session.split()[2], session.split()[8]), ("1", "-"))
            self.assertEqual([line.split()[0] for line in self.table(found, "Connections")], labels)
            self.assertEqual(self.report("--jobs", 2, *words, path, status=1), found)

    def test_missing_bytes_whatever_is_chosen(self):
        """What is chosen may be among them: the status is 1, also where nothing of the connection is in the report."""
        lines = report_lines.Lines()
        lines.connect(0, 1)
        whole = lines.write(self.folder / "whole.json", ending="whole", unanswered=0)
        holed = lines.write(self.folder / "holed.json", ending="whole", unanswered=0, facts={"hole": ["S"]})
        for choice in ((), ("--path", "/a"), ("--op", "sync"), ("--session", "0x9"), ("--slower", "99"),
                       ("--from", "2024-01-01"), ("--jobs", "1", "--path", "/a")):
            with self.subTest(choice=choice):
                self.report(*choice, whole)
                self.report(*choice, holed, status=1)
                self.assertEqual(self.run_inside("zkstat.py", *choice, holed)[0], 1)
        found = self.report("--op", "sync", whole, "--against", holed, status=1)
        self.assertIn("\nnot read: holed.json: bytes of it are missing\n", found)

    def test_facts_of_a_connection_without_a_message(self):
        """Its ending alone, in the lines of zkjson, says when it was and who ended it."""
        known = {"server": "10.0.0.2:2181", "begun": report_lines.T, "ended": report_lines.T + 20, "closed": "S"}
        endings = ({"connection": "a", "ending": "whole", "unanswered": 0, "facts": known},
                   {"connection": "b", "ending": "whole", "unanswered": 0})
        path = self.listing("a.json", *map(json.dumps, endings))
        found = self.report(path)
        self.assertRegex(found, "^2 connections, 0 sessions, 0 messages, ")
        self.assertEqual([" ".join(line.split()) for line in self.table(found, "Connections")], [
            "#1 - a 10.0.0.2:2181 2023-11-14T22:13:20.000Z 0.02 s 0 0 0 0 server: FIN whole",
            "#2 - b - - - 0 0 0 0 not recorded whole"])
        self.assertEqual(self.report("--jobs", 2, path), found)

    def test_a_trace_has_all_of_a_connection_in_one_process(self):
        """Also where its session comes with its ending alone."""
        lines = report_lines.Lines()
        lines.ask(50, "sync", 1, path="/a")
        lines.answer(51, 1, zxid="0x1", path="/a")
        path = lines.write(self.folder / "a.json", ending="whole", unanswered=0, facts={"session": "0x7"})
        trace = self.folder / "a.trace"
        self.assertEqual(self.run_inside("zkreport.py", "--trace", trace, path), (0, "", ""))
        events = json.loads(trace.read_text())["traceEvents"]
        self.assertEqual({(each["pid"], each["tid"]) for each in events}, {(1, 1)})
        self.assertIn({"name": "session 0x7"}, [each["args"] for each in events if each["ph"] == "M"])

    def test_a_trace_of_requests_without_a_reply(self):
        """It says where the reply may be among missing bytes."""
        lines = report_lines.Lines()
        lines.ask(50, "sync", 1, path="/a")
        for number, (known, wanted) in enumerate(((None, {"answered": False}), ({"hole": ["S"]}, {"captured": False}))):
            trace = self.folder / f"{number}.trace"
            more = {"facts": known, "notCaptured": [1], "waiting": []} if known else {"waiting": [1]}
            path = lines.write(self.folder / "a.json", ending="whole", unanswered=1, **more)
            self.assertEqual(self.run_inside("zkreport.py", "--trace", trace, path), (int(bool(known)), "", ""))
            end, = (each for each in json.loads(trace.read_text())["traceEvents"] if each["ph"] == "e")
            self.assertEqual(end["args"], wanted)

    def test_long_latencies_and_connections(self):
        """They are exact: 12,345.678 ms, 2,345,678.901 ms, and 100,000.123 s from the first message to the last."""
        lines = report_lines.Lines()
        for n, (at, took) in enumerate(((0, 12_345.678), (20_000, 2_345_678.901), (100_000_121, 2)), 1):
            lines.ask(at, "sync", n, path="/")
            lines.answer(at + took, n, zxid="0x1", path="/")
        found = self.report(lines.write(self.folder / "a.json", ending="whole", unanswered=0))
        self.assertEqual([line.split()[0] for line in self.table(found, "Slowest requests")],
                         ["2345678.901", "12345.678", "2"])
        self.assertIn("2345678.901", self.table(found, "Operations")[0])
        self.assertIn("  100000.123 s  ", self.table(found, "Connections")[0])

    def test_a_clock_that_goes_backward(self):
        """A connection lasts from the least of its times to the greatest, which aren't those of its ends."""
        head, path = zkr.Head("zkr2"), self.folder / "a.zkr"
        made = head.to_bytes()
        for side, at, payload in ((b"C", 2000, struct.pack(">iqiqi", 0, 0, 9, 0, -1)),
                                  (b"S", 5000, struct.pack(">iiqi", 0, 9, 7, -1)),
                                  (b"C", 1000, struct.pack(">ii", -2, 11)),
                                  (b"S", 1500, struct.pack(">iqi", -2, 5, 0))):
            made += head.piece(side, at, struct.pack(">i", len(payload)) + payload)
        path.write_bytes(made)
        if not PROGRAM.exists():
            self.skipTest("the program zkdump is not built")
        begun, ended = "1970-01-01T00:00:01.000Z", "1970-01-01T00:00:05.000Z"
        for known in (None, facts.Facts(begun=1900.0, ended=1600.0), facts.Facts(begun=1500.0), facts.Facts(ended=3.0)):
            if known:
                facts.write(path, known)
            lines = self.listing("a.json", *self.run_inside("zkjson.py", path)[1].splitlines())
            for each in (path, lines):
                found, = json.loads(self.run_inside("zkstat.py", "--json", each)[1])["connections"]
                self.assertEqual((found["begun"], found["ended"]), (begun, ended), each)
                found = self.report(each)
                self.assertIn(f"\nfrom {begun} to {ended}\n", found, known)
                self.assertIn(f"  {begun}     4 s  ", self.table(found, "Connections")[0])
            (self.folder / "a.facts.json").unlink(missing_ok=True)

    def test_times_of_more_digits_than_a_float_has(self):
        """They are exact, and so are latencies: of whole milliseconds in the recording, and of fractions beside it."""
        if not PROGRAM.exists():
            self.skipTest("the program zkdump is not built")
        frames, path = [], self.folder / "a.zkr"
        for side, payload in ((b"C", struct.pack(">iqiqi", 0, 0, 9, 0, -1)), (b"S", struct.pack(">iiqi", 0, 9, 7, -1)),
                              (b"C", struct.pack(">ii", -2, 11)), (b"S", struct.pack(">iqi", -2, 5, 0))):
            frames.append((side, struct.pack(">i", len(payload)) + payload))
        most = 2 ** 63 - 1
        for last, fractions, latencies in ((("0993", "0996", "0999", "1001"), None, (3, 2)),
                                           (("0993", str(most), "0995", str(most - 1)), None,
                                            (most - 9_007_199_254_740_993, most - 9_007_199_254_740_996)),
                                           (("0999", "0998", "0993", "0994"), None, (None, 1)),
                                           (("0993", "0995", "0995", "0999"), ("500", "001", "751", "250"),
                                            (1.501, 3.499))):
            times = [f"900719925474{each}" if len(each) == 4 else each for each in last]
            head = zkr.Head("zkr1" if fractions else "zkr2")
            path.write_bytes(head.to_bytes() + b"".join(head.piece(side, int(at), frame)
                                                        for (side, frame), at in zip(frames, times)))
            if fractions:
                self.listing("a.zkr.times", *(f"{at}.{part}" for at, part in zip(times, fractions)))
            lines = self.listing("a.json", *self.run_inside("zkjson.py", path)[1].splitlines())
            for each in (path, lines):
                with self.subTest(last=last, each=each):
                    found = json.loads(self.run_inside("zkstat.py", "--json", each)[1])
                    begun, ended = f"{min(times)} ms", f"{max(times)} ms"
                    self.assertEqual([(row["begun"], row["ended"]) for row in found["connections"]], [(begun, ended)])
                    slowest = {row["op"]: (row["ms"], row["time"]) for row in found["slowest"]}
                    self.assertEqual(slowest, {name: (ms, f"{at} ms") for name, ms, at in zip(
                        ("connect", "ping"), latencies, times[::2]) if ms})
                    found = self.report(each)
                    self.assertIn(f"\nfrom {begun} to {ended}\n", found)
                    self.assertEqual([" ".join(line.split()[:3]) for line in self.table(found, "Slowest requests")],
                                     [f"{ms:.16g} {at}" if isinstance(ms, float) else f"{ms} {at}"
                                      for ms, at in sorted(slowest.values(), reverse=True)])

    def test_facts_that_know_the_end_alone(self):
        """The time of the end, and that an error on the server's side was it."""
        path = self.folder / "a.zkr"
        path.write_bytes(b"ZKR1")
        facts.write(path, facts.Facts(ended=5000.0, broken="S:ETIMEDOUT"))
        if not PROGRAM.exists():
            self.skipTest("the program zkdump is not built")
        row, = self.table(self.report(path), "Connections")
        self.assertEqual(" ".join(row.split()), "#1 - a - - - 0 0 0 0 server: ETIMEDOUT whole")

    def test_paths_of_the_parts_of_a_multi(self):
        """Each counts as a request that took as long as the multi, and has failed if that part failed itself; where
        none did, the last one with an error has, and where the server refused the multi all have."""
        parts = [{"op": "delete", "path": f"/{name}", "version": -1} for name in "abcd"]
        ok, rest, none, bad = (
            {"op": "fail", "err": code, "errName": name}
            for code, name in ((0, "OK"), (-2, "RUNTIMEINCONSISTENCY"), (-101, "NONODE"), (-103, "BADVERSION")))
        done, lines = {"op": "delete"}, report_lines.Lines()
        for n, results in enumerate(([done] * 4, [ok, none, rest, rest], [none, done, bad, rest], [ok, ok, rest, rest],
                                     [done, ok, ok, done], None, []), 1):
            lines.ask(100 * n, "multi", n, parts=parts)
            if results != []:
                lines.answer(101 * n, n, zxid="0x5", **({"parts": results} if results else
                                                        {"err": -4, "errName": "CONNECTIONLOSS"}))
        path = lines.write(self.folder / "a.json", ending="whole", unanswered=1)
        self.assertEqual([line.split() for line in self.table(self.report(path), "Busiest paths")],
                         [["7", failed, "6", f'"/{name}"'] for failed, name in zip("2232", "abcd")])

    def test_a_multi_of_many_parts_that_failed(self):
        """It takes no time that grows as the square of their number: here half a second of the processor."""
        parts, results = 60_000 * ['delete path="/a" version=-1'], 60_000 * ["fail err=-101/NONODE"]
        path = self.listing("a.show", *CONNECTED, f"C 1 multi {{{';'.join(parts)}}}",
                            f"S 1 multi zxid=5 {{{';'.join(results)}}}", WHOLE)
        done = subprocess.run([sys.executable, TOOLS / "zkreport.py", "--text", path], capture_output=True, text=True,
                              preexec_fn=lambda: resource.setrlimit(resource.RLIMIT_CPU, (8, 8)), check=False)
        self.assertEqual((done.returncode, done.stderr), (0, ""))
        self.assertEqual([line.split() for line in self.table(done.stdout, "Busiest paths")],
                         [["60000", "60000", "-", '"/a"']])

    def test_a_page_of_a_run_that_lacks_a_message(self):
        """The first difference leads to no message of this run: the other one alone has a request, or a connection."""
        asked = 'C 1 sync path="/a"', 'S 1 sync zxid=5 path="/a"'
        less, more = (self.listing(name, *CONNECTED, *lines, WHOLE) for name, lines in (("less", ()), ("more", asked)))
        for number, (here, there) in enumerate((([less], [more]), ([less, more], [less]), ([less], [less, more]))):
            page = self.folder / f"{number}.html"
            others = [word for path in there for word in ("--against", path)]
            self.assertEqual(self.run_inside("zkreport.py", "-o", page, *here, *others), (1, "", ""))
            self.assertIn('"compared":{', page.read_text("utf-8"))

    def test_credentials_that_differ_are_not_shown(self):
        """Neither as text nor on the page, of a listing and of the lines of zkjson; both have 14 bytes."""
        listings = [self.listing(name, *CONNECTED, f'C -4 auth kind=0 scheme="digest" auth=#{word.encode().hex()}',
                                 "S -4 auth zxid=0", WHOLE) for name, word in (("a", "alice:secret-1"),
                                                                               ("b", "alice:secret-2"))]
        lines = [self.listing(f"{path.name}.json", *self.run_inside("zkjson.py", path)[1].splitlines())
                 for path in listings]
        for number, (here, there) in enumerate((listings, lines)):
            page = self.folder / f"{number}.html"
            found = self.report("-o", page, here, "--against", there, status=1)
            self.assertIn("the first difference is a request of connection #1, after 1 exchanges", found)
            for shown in (found, page.read_text("utf-8")):
                self.assertNotRegex(shown, f"secret-|{'secret-'.encode().hex()}")
        self.assertIn('    here message 3: auth kind=0 scheme="digest" auth=.. 14 bytes\n',
                      self.report(listings[0], "--against", listings[1], status=1))

    def test_connections_of_which_nothing_is_chosen_are_compared(self):
        """They keep their places: what one connection asked here, and another there, differs."""
        create = 'C 1 create path="/a" blob=~ acl=[] flags=0', 'S 1 create zxid=5 path="/a"'
        sync = 'C 1 sync path="/a"', 'S 1 sync zxid=5 path="/a"'
        first, other = (self.listing(name, *CONNECTED, *lines, WHOLE) for name, lines in (("a", sync), ("b", create)))
        again, one = (self.listing(name, *CONNECTED, *lines, WHOLE) for name, lines in (("c", create), ("d", sync)))
        page, choice = self.folder / "a.html", ("--op", "create", "--against")
        found = self.report("-o", page, first, other, *choice, again, "--against", one, status=1)
        self.assertIn("\nthe first difference is a request of connection a, after 0 exchanges and events that are the "
                      'same:\n    here: nothing\n    there message 3: create path="/a"', found)
        self.assertIn('"first":{"connection":null,"label":"a",', page.read_text("utf-8"))
        for here, there, wanted in (([other, first], [again, one], "no difference: 1 exchanges"),
                                    ([first, other], [one, again], "no difference: 1 exchanges"),
                                    ([other], [again, one], "no difference: 1 exchanges"),
                                    ([first], [one, again], "the first difference is a connection of connection #1")):
            others = [word for path in there for word in ("--against", path)]
            self.assertIn(f"\n{wanted}", self.report("--op", "create", *here, *others, status=int(wanted[0] == "t")))

    def test_endings_are_compared(self):
        """By what they say of the connection, and not of the numbers of its frames; where all of it is compared."""
        whole, cut, later, refused, none = (
            self.listing(str(number), *CONNECTED, *lines) for number, lines in enumerate((
                [WHOLE], [". cut side=S frame=1 got=3"], [". cut side=S frame=2 got=9"],
                [". refused side=S frame=1 offset=49 place=0 reason=Unasked"], [])))
        for here, there, wanted in ((whole, cut, ("whole", "cut side=S")), (cut, later, None), (whole, none, None),
                                    (refused, whole, ("refused side=S reason=Unasked", "whole"))):
            with self.subTest(here=here, there=there):
                stopped = {here, there} & {cut, later, refused}
                found = self.report(here, "--against", there, status=1 if wanted or stopped else 0)
                self.assertIn("\nthe first difference is an ending of connection #1, after 1 exchanges and events that "
                              f"are the same:\n    here: {wanted[0]}\n    there: {wanted[1]}\n" if wanted else
                              "\nno difference: 1 exchanges and events are the same\n", found)
                self.report("--op", "connect", here, "--against", there, status=1 if stopped else 0)

    def test_watches_that_could_not_be_set(self):
        """A request that failed or has no reply has set none: one that asks for a watch, and setWatches."""
        listing = self.listing(
            "a.show", *CONNECTED, 'C 1 getData path="/a" watch=1', "S 1 getData zxid=5 err=-101/NONODE",
            'C 2 exists path="/b" watch=1', "S 2 exists zxid=5 err=-101/NONODE",
            *(line for paths, reply in (('"/c"', " err=-118/SESSIONMOVED"), ('"/d"', ""))
              for line in (f"C -8 setWatches zxid=5 dataWatches=[{paths}] existWatches=[] childWatches=[]",
                           f"S -8 setWatches zxid=5{reply}")),
            'C -8 setWatches zxid=5 dataWatches=["/e"] existWatches=[] childWatches=[]', 'C 3 exists path="/f" watch=1',
            ". whole unanswered=2")
        for path in (listing, self.listing("a.json", *self.run_inside("zkjson.py", listing)[1].splitlines())):
            self.assertEqual([line.split() for line in self.table(self.report(path), "Watches")],
                             [["1", again, "0", "-", "#1", f'"/{name}"'] for again, name in ("0b", "1d")])

    def test_watches_of_slow_requests(self):
        """Replies that come alone set the watches that their requests asked for."""
        lines = report_lines.Lines()
        for n, (took, fields) in enumerate(((30, {"path": "/a", "watch": True}), (2, {"path": "/b", "watch": True}),
                                            (30, {"path": "/c", "watch": False})), 1):
            lines.ask(100 * n, "exists", n, **fields)
            lines.answer(100 * n + took, n, zxid="0x5", **report_lines.NONODE)
        lines.ask(900, "setWatches", -8, zxid="0x6", dataWatches=["/d"], existWatches=[], childWatches=[])
        lines.answer(930, -8, zxid="0x6")
        path = lines.write(self.folder / "a.json", ending="whole", unanswered=0, waiting=[])
        found = self.report(path, "--slower", "10")
        self.assertEqual([line.split() for line in self.table(found, "Watches")],
                         [["1", again, "0", "-", "#1", f'"/{name}"'] for again, name in ("0a", "1d")])

    def test_more_watches_than_are_kept(self):
        """Of five that are kept the rarer ones are forgotten for a sixth; one that was set once and fired three times
        is none of these."""
        watches = [line for n, path in enumerate("aaabcdef", 1)
                   for line in (f'C {n} exists path="/{path}" watch=1', f"S {n} exists zxid=5 err=-101/NONODE")]
        fired = ['S event zxid=-1 kind=1/NodeCreated state=3 path="/b"'] * 3
        with unittest.mock.patch("tools.zkdump_tools.report.gather.MOST_WATCHES", 5):
            found = self.report(self.listing("a.show", *CONNECTED, *watches[:8], *fired, *watches[8:], WHOLE))
        self.assertEqual([line.split() for line in self.table(found, "Watches")], [
            ["1", "0", "3", "NodeCreated=3", "#1", '"/b"'], ["3", "0", "0", "-", "#1", '"/a"'],
            ["1", "0", "0", "-", "#1", '"/f"'],
            "Counts of watches may be up to 1 too low: there were too many watches to count each.".split()])

    def test_how_many_more_rows_there_are_at_least(self):
        """Of 60 paths 30 are kept, those after the thirty-first from which on the others are forgotten."""
        paths = [line for n in range(1, 61) for line in (f'C {n} sync path="/{n}"', f'S {n} sync zxid=5 path="/{n}"')]
        with unittest.mock.patch("tools.zkdump_tools.report.kept.Counted.__init__.__defaults__", (30,)):
            found = self.report(self.listing("a.show", *CONNECTED, *paths, WHOLE))
        self.assertEqual(self.table(found, "Busiest paths")[20:], [
            "and at least 10 more",
            "Counts of paths may be up to 1 too low: there were too many paths to count each."])
