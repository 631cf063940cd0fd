"""Tests of the scripts of zkreport's page, without a browser."""

import json
import math
import re
import shutil
import subprocess
import unittest.mock

from . import report_lines
from .support import TOOLS, ToolCase

SCRIPTS = TOOLS / "zkdump_tools" / "report"


class Scripts(ToolCase):
    def test_latencies_in_tables_are_exact(self):
        """To the microsecond, as in zkstat's tables and those of --text."""
        code = ("const document = { getElementById() {} }, data = {};\n"
                + "".join((SCRIPTS / name).read_text("utf-8") for name in ("draw.js", "tables.js"))
                + "console.log(JSON.stringify([0.001, 1.25, 12345.678, 123456.7, 1e9, null].map(\n"
                "  each => cellText(\"ms\", each))));")
        self.assertEqual(self.of_script(code), ["0.001", "1.25", "12345.678", "123456.7", "1000000000", "–"])

    def test_rows_in_the_order_of_a_column(self):
        """Connections and sessions go by their numbers, and what is not there comes first."""
        sizes = {"text": "/b", "size": 900}
        values = {"connection": ["#1", "#1.2", "#1.10", "#2", "#10"],
                  "session": [None, "0x7", "0x1f", "0x100003780a6001f"],
                  "error": [None, None, "-999", "NODEEXISTS", "NONODE"], "path": [None, "/a", sizes, "/c"],
                  "ms": [None, 0.5, 2, 10], "counts": [{}, {"NodeCreated": 2}, {"NodeCreated": 1, "NodeDeleted": 9}]}
        code = ("const document = { getElementById() {} }, data = { tables: { a: { columns: [] } } };\n"
                + "".join((SCRIPTS / name).read_text("utf-8") for name in ("draw.js", "tables.js"))
                + f"const values = {json.dumps(values)};\n"
                "console.log(JSON.stringify(Object.keys(values).map(kind => [1, -1].map(direction => {\n"
                "  orders.a = { column: 0, direction }; data.tables.a.columns[0] = ['', '', kind];\n"
                "  const rows = values[kind].map(each => [each]);\n"
                "  return sorted('a', [...rows.slice(2), ...rows.slice(0, 2).reverse()]).map(([each]) => each);\n"
                "}))));")
        for (kind, wanted), (up, down) in zip(values.items(), self.of_script(code)):
            self.assertEqual((up, down), (wanted, wanted[::-1]), kind)

    def of_draw(self, data, found):
        """What draw.js makes of this data."""
        return self.of_script("const document = { getElementById() {} }, filter = {}, timed = true, "
                              f"data = {json.dumps(data)};\n{(SCRIPTS / 'draw.js').read_text('utf-8')}\n"
                              f"console.log(JSON.stringify({found}));")

    def test_times_after_the_year_9999(self):
        """They are milliseconds, as a file has them by mistake, and no picture has ticks without end."""
        begun = 1_795_332_633_000_123_905      # which no number of JavaScript is
        shown, next_shown = f"{begun} ms", f"{begun + 1} ms"
        self.assertEqual(self.of_draw({"begun": str(begun), "ended": str(begun)},
                                      "[iso(data.begun), place(0.5), axisName(), ticks([0, 1], 3)]"),
                         [shown, shown, f"time of day, UTC, {shown}", [{"x": 0, "label": shown},
                                                                       {"x": 1, "label": next_shown}]])
        self.assertEqual(self.of_draw({"begun": 5, "ended": str(begun)}, f"[place({begun}), "
                                      f"[[0, {begun}], [{begun}, {begun + 1}]].every(each => ticks(each, 9).length < 12)]"),
                         [f"about {begun - 1} ms", True])
        last = 253_402_300_799_999
        self.assertEqual(self.of_draw({"begun": last, "ended": last + 1}, "[iso(data.begun), iso(data.ended), "
                                      "place(1), timeOfDay(data.begun), dayOf(data.begun)]"),
                         ["9999-12-31T23:59:59.999Z", f"{last + 1} ms", f"{last + 1} ms", "23:59:59.999", "9999-12-31"])

    def test_the_borders_of_a_time(self):
        """A time that the page shows has its request, as --from and --to have it: a time in milliseconds all of that
        millisecond, one in microseconds just that. The first time is no binary fraction."""
        times, path, second = (0.1, 9.999, 10, 10.001, 10.5, 10.999, 11), self.folder / "a.json", "2023-11-14T22:13:20"
        path.write_text("".join(json.dumps({"n": n, "side": "C", "xid": n, "op": "sync", "path": "/a",
                                            "at": report_lines.T + at}) + "\n" for n, at in enumerate(times, 1)))
        script = (SCRIPTS / "page.js").read_text("utf-8")
        script = script[script.index("function placeOf"):script.index("function placeText")]
        borders = (".010", ".010000", ".010500", ".010999", ".011")
        code = (f"{script}\nconst chosen = () => matching().map(i => requests.n[i]);\n"
                f"console.log(JSON.stringify({json.dumps(borders)}.map(border => [\n"
                f"  (filter.to = null, filter.from = placeOf('{second}' + border), chosen()),\n"
                f"  (filter.from = null, filter.to = placeOf('{second[-8:]}' + border, true), chosen())])));")
        wanted = [[[3, 4, 5, 6, 7], [1, 2, 3, 4, 5, 6]], [[3, 4, 5, 6, 7], [1, 2, 3]], [[5, 6, 7], [1, 2, 3, 4, 5]],
                  [[6, 7], [1, 2, 3, 4, 5, 6]], [[7], [1, 2, 3, 4, 5, 6, 7]]]
        self.assertEqual(self.of_page(code, path), wanted)
        for border, chosen in zip(borders, wanted):
            for word, numbers in zip(("--from", "--to"), chosen):
                found = json.loads(self.run_inside("zkstat.py", "--json", word, f"{second}{border}Z", path)[1])
                self.assertEqual([each["n"] for each in found["unanswered"]], numbers, (word, border))

    def test_times_before_1970(self):
        """As in the tables of --text and zkstat: of a request that is not there, which its reply says."""
        self.assertEqual(self.of_draw({}, "[-9.75, -0.25, 0, 0.75].map(iso)"),
                         ["1969-12-31T23:59:59.990Z", "1969-12-31T23:59:59.999Z", *["1970-01-01T00:00:00.000Z"] * 2])
        path = self.folder / "a.json"
        path.write_text(json.dumps({"n": 2, "side": "S", "xid": 1, "op": "sync", "path": "/a", "zxid": "0x5",
                                    "at": 10.5, "ms": 20.25, "of": 1}))
        for words in (("zkstat.py",), ("zkreport.py", "--text")):
            self.assertIn("1969-12-31T23:59:59.990Z", self.run_inside(*words, path)[1])

    def test_lengths_of_time(self):
        self.assertEqual(self.of_draw({}, "[0.25, 1500, 59999, 60000, 119900, 3599400, 3599500, 3600000, 7199999]"
                                      ".map(duration)"),
                         ["0.25 ms", "1.5 s", "60 s", "1 min 0 s", "2 min 0 s", "59 min 59 s", "1 h 0 min", "1 h 0 min",
                          "2 h 0 min"])

    def test_how_a_connection_ended(self):
        """By an error with a name or without one as by a reset, whatever else has such a word."""
        code = (f"{(SCRIPTS / 'sessions.js').read_text('utf-8')}\n"
                "console.log(JSON.stringify(['client: reset', 'server: lost', 'server: ETIMEDOUT', 'server: FIN',\n"
                "  'open at the end', 'not recorded', 'client: closeSession'].map(closed => endOf({ closed }))));")
        self.assertEqual(self.of_script(code), [*["reset"] * 3, "closed", "still", "still", "closed"])

    def of_page(self, code, *inputs):
        """What a script prints that comes after those that know the data of the page of these files."""
        path = self.folder / "a.html"
        self.assertEqual(self.run_inside("zkreport.py", "-o", path, *inputs), (0, "", ""))
        data = re.search('id="data">(.*?)</script>', path.read_text("utf-8"))[1]
        return self.of_script(f"const document = {{ getElementById: () => ({{ textContent: {json.dumps(data)} }}) }};\n"
                              + "".join((SCRIPTS / name).read_text("utf-8")
                                        for name in ("model.js", "draw.js", "tables.js")) + code)

    def script(self, *names):
        return "".join((SCRIPTS / name).read_text("utf-8") for name in names)

    def test_many_requests_without_times_have_no_axis_of_latencies(self):
        """Also where the page has not every one of them, and would show how many there were by latency."""
        lines = report_lines.Lines()
        for n in range(1, 9):
            lines.ask(None, "exists", n, path="/a", watch=False)
            lines.answer(None, n, zxid="0x1")
        path = lines.write(self.folder / "a.json", ending="whole", unanswered=0)
        code = self.script("latency.js") + "console.log(JSON.stringify([data.complete, latencyAxis(matching())]));"
        with unittest.mock.patch("tools.zkdump_tools.report.kept.SLOWEST", 2):
            self.assertEqual(self.of_page(code, path), [False, None])

    def test_how_requests_went_over_time(self):
        """By time the rate, the share that failed and the percentiles of latencies: of all requests, whether the page has
        each of them or not. Here 40 take 1 to 4 ms, every fourth of them fails, and then one in two of 10 takes 400 ms."""
        lines, asked = report_lines.Lines(), []
        for n in range(1, 51):
            slow = n > 40 and n % 2 == 0
            at, took, failed = 100 * n, 400 if slow else 1 + n % 4, n <= 40 and n % 4 == 0
            asked.append((at, took, failed))
            lines.ask(at, "setData", n, path="/a", blob="x", version=-1)
            lines.answer(at + took, n, zxid="0x1", **(report_lines.BADVERSION if failed else {}))
        path = lines.write(self.folder / "a.json", ending="whole", unanswered=0)
        code = (self.script("trends.js", "latency.js") + "const steps = trend(matching());\n"
                "const sum = name => steps.reduce((all, each) => all + each[name], 0);\n"
                "console.log(JSON.stringify([data.complete, sum('count'), sum('failed'),\n"
                "  steps.every((each, at) => !at || each.x >= steps[at - 1].x + steps[at - 1].length - 1e-9),\n"
                "  steps.map(each => [each.x, each.length, each.count, each.failed, each.p50, each.p99])]));")
        began = asked[0][0]
        for most, complete in ((8_000, True), (2, False)):
            (self.folder / "a.html").unlink(missing_ok=True)
            with unittest.mock.patch("tools.zkdump_tools.report.kept.SLOWEST", most), \
                    unittest.mock.patch("tools.zkdump_tools.report.kept.OTHER_FAILED", most):
                is_complete, count, failed, are_apart, steps = self.of_page(code, path)
            self.assertEqual((is_complete, count, failed, are_apart),
                             (complete, len(asked), sum(each[2] for each in asked), True))
            for x, length, count, failed, p50, p99 in steps:
                inside = [each for each in asked if x <= each[0] - began < x + length]
                took = sorted(each[1] for each in inside)
                self.assertEqual((count, failed), (len(inside), sum(each[2] for each in inside)), (complete, x))
                for found, wanted in ((p50, took[(len(took) + 1) // 2 - 1]), (p99, took[-1])):
                    # (a bin is an eighth of a factor of ten)
                    self.assertLess(abs(math.log10(found / wanted)), 1e-9 if complete else 1 / 8, (complete, x))

    def test_a_node_s_times_are_dates(self):
        code = ("const element = (name, { text }) => text, document = { getElementById() {} };\n"
                + re.sub("(?s)function element.*?\n}\n", "", self.script("draw.js")) + self.script("messages.js")
                + "console.log(JSON.stringify(['ctime', 'mtime', 'pzxid'].map(name => valueOf(name, 1700000000123)[0])));")
        date = "2023-11-14T22:13:20.123Z (1700000000123)"
        self.assertEqual(self.of_script(code), [date, date, "1700000000123"])

    def test_numbers_that_a_browser_would_round(self):
        """Of times and latencies, as where a file has nanoseconds, all digits are shown and sorted, with filters too;
        and of a node's times."""
        begun, path = 1_795_332_633_000_123_905, self.folder / "a.json"
        path.write_text("".join(json.dumps(each) + "\n" for each in (
            {"n": 1, "side": "C", "xid": 1, "op": "sync", "path": "/a", "at": begun},
            {"n": 2, "side": "C", "xid": 2, "op": "exists", "path": "/b", "watch": False, "at": begun + 1},
            {"n": 3, "side": "S", "xid": 1, "op": "sync", "path": "/a", "zxid": "0x5", "at": begun + 2 ** 60,
             "ms": 2 ** 60, "of": 1},
            {"n": 4, "side": "S", "xid": 2, "op": "exists", "zxid": "0x5", "stat": {"ctime": -2 ** 60 - 1, "mtime": 5},
             "at": begun + 2 ** 60 + 2, "ms": 2 ** 60 + 1, "of": 2})))
        code = ("const shown = name => sorted(name, rowsOf(name, matching())).map(row => data.tables[name].columns.map(\n"
                "  ([name, , kind], at) => [name, cellText(kind, row[at])]).filter(each => /^(at|ms|max|begun|ended)$/.test(\n"
                "  each[0])).map(each => each[1]));\n"
                "const all = () => ['sessions', 'connections', 'operations', 'slowest', 'paths'].map(shown);\n"
                "const plain = all(); filter.slower = 1; const filtered = all(); filter.from = 1;\n"
                "orders.slowest = { column: 1, direction: 1 }; filter.from = null; const [early] = shown('slowest');\n"
                "const messages = data.messages[0].map(each => [timeOfDay(each.at), each.stat && each.stat.ctime]);\n"
                "console.log(JSON.stringify([plain, filtered, early, messages, iso(data.ended), slowestOf([0, 1])]));")
        plain, filtered, early, messages, ended, slowest = self.of_page(code, path)
        times, (short, long) = [f"{begun + more} ms" for more in (0, 1, 2 ** 60, 2 ** 60 + 2)], (2 ** 60, 2 ** 60 + 1)
        self.assertEqual(plain, [[[times[0], times[3]]], [[times[0]]], [[str(long)], [str(short)]],
                                 [[str(long), times[1]], [str(short), times[0]]], [[str(short)], [str(long)]]])
        self.assertEqual((filtered, early, ended, slowest), (plain, [str(short), times[0]], times[3], 1))
        self.assertEqual(messages, [[time, None] for time in times[:3]] + [[times[3], str(-2 ** 60 - 1)]])

    def test_filters_say_that_they_leave_out_the_paths_of_multis(self):
        """A multi of /a and /b counts for both, but under filters for neither."""
        code = ("const told = name => (filter[name] = name === 'op' ? 'setData' : '/b', "
                "[rowsOf('paths', matching()).length, shortcoming().split(':')[0]]);\n"
                "console.log(JSON.stringify([[rowsOf('paths', matching()).length, shortcoming()], told('path'), "
                "(filter.path = '', told('op'))]));")
        note = "The filters go by a request's own path"
        found = self.of_page(code, report_lines.second(self.folder / "a.json"))
        self.assertEqual(found, [[2, ""], [0, note], [1, note]])

    def test_a_session_that_is_not_one_of_the_busiest(self):
        """The page counts its requests that it has, and says so; of a busier one it counts all."""
        lines = report_lines.Lines()
        lines.connect(0, 500, given="0x8")
        lines.ask(600, "sync", 1, path="/a")
        lines.answer(1600, 1, zxid="0x1", path="/a")
        paths = report_lines.second(self.folder / "a.json"), lines.write(self.folder / "b.json", ending="whole",
                                                                         unanswered=0)
        code = ("const told = id => (filter.session = id,\n"
                "  [rowsOf('operations', matching()).map(row => row.slice(0, 2)), / alone\\.$/.test(shortcoming())]);\n"
                "console.log(JSON.stringify([told('0x7'), told('0x8')]));")
        with unittest.mock.patch("tools.zkdump_tools.report.kept.SLOWEST", 2), \
                unittest.mock.patch("tools.zkdump_tools.report.summary.MOST_SESSIONS", 1):
            busy, other = self.of_page(code, *paths)
        self.assertEqual(busy, [[[name, 1] for name in ("closeSession", "connect", "multi", "setData", "setWatches")],
                                False])
        self.assertEqual(other, [[["connect", 1], ["sync", 1]], True])

    def test_rows_that_a_table_lacks(self):
        """Filters can't choose these, and say so."""
        lines = report_lines.Lines()
        lines.connect(6000, 500, given="0x8")
        paths = report_lines.second(self.folder / "a.json"), lines.write(self.folder / "b.json", ending="whole",
                                                                         unanswered=0)
        code = ("const told = id => (filter.session = id, ['sessions', 'connections', 'operations'].map(name =>\n"
                "  [rowsOf(name, matching()).length, rest(name)]));\n"
                "console.log(JSON.stringify([told(''), told('0x8')]));")
        with unittest.mock.patch("tools.zkdump_tools.report.summary.MOST_CONNECTIONS", 1):
            every, other = self.of_page(code, *paths)
        self.assertEqual(every, [[1, "and 1 more"], [1, "and 1 more"], [5, ""]])
        filtered = "The filters go through the rows of this table, and not through 1 more."
        self.assertEqual(other, [[0, filtered], [0, filtered], [1, ""]])

    def test_a_latency_without_a_time_under_filters(self):
        """As where a program took the times from the lines of one of two connections."""
        timed, other = report_lines.second(self.folder / "a.json"), self.folder / "b.json"
        lines = [json.loads(line) for line in timed.read_text().splitlines()]
        for each in lines:
            each.pop("at", None)
        other.write_text("".join(json.dumps(each) + "\n" for each in lines))
        code = ("filter.op = 'multi'; console.log(JSON.stringify(rowsOf('slowest', matching()).map(\n"
                "  row => row.slice(0, 3).map((each, at) => cellText(['ms', 'time', 'text'][at], each)))));")
        self.assertEqual(sorted(self.of_page(code, timed, other)),
                         [["1", "2023-11-14 22:13:25.195", "#1"], ["1", "–", "#2"]])

    def of_script(self, code):
        """What a script prints."""
        if not shutil.which("node"):
            self.skipTest("node is not here")
        return json.loads(subprocess.run(["node", "-e", code], capture_output=True, check=True).stdout)

    def axis(self, *milliseconds):
        """The axis of latencies: its least and its greatest power of ten, and the place of no time at all."""
        code = ("const document = { getElementById() {} }, data = { complete: true, density: {} }, filter = {}, "
                f"requests = {{ ms: [{', '.join(map(str, milliseconds))}] }};\n"
                + "".join((SCRIPTS / name).read_text("utf-8") for name in ("draw.js", "latency.js"))
                + "const axis = latencyAxis(requests.ms.map((_, i) => i));\n"
                "console.log(JSON.stringify(axis && [axis.from, axis.to, axis.y(0) === axis.y(10 ** axis.from)]));")
        return self.of_script(code)

    def test_the_axis_of_latencies(self):
        """Latencies of no milliseconds, as whole ones often are, have an axis; where there are none there is none."""
        for milliseconds, wanted in (((), None), (("NaN",), None), ((0, "NaN", 0), [0, 1, True]),
                                     ((0, 3), [0, 1, True]),
                                     ((0.02, 30), [-2, 2, True])):
            self.assertEqual(self.axis(*milliseconds), wanted, milliseconds)
