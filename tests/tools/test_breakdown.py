"""Counts by time, by path and by client, CSV and Prometheus's text, by a model of the test's own, of what it writes."""

import collections
import csv
import importlib.util
import io
import json
import random
import re
import shutil
import subprocess

from tools.zkdump_tools import facts
from . import report_lines
from .support import ToolCase
from .test_answers import listing

NONODE = report_lines.NONODE


def clock(seconds):
    """A time of this day: it begins at 22:13:20."""
    at = 22 * 3600 + 13 * 60 + 20 + seconds
    return f"2023-11-14T{at // 3600:02}:{at // 60 % 60:02}:{at % 60:02}.000Z"


class Case(ToolCase):
    def run_well(self, tool, *words):
        status, out, err = self.run_inside(tool, *words)
        self.assertEqual((status, err), (0, ""))
        return out

    def csv(self, table, *words):
        return list(csv.DictReader(io.StringIO(self.run_well("zkstat.py", "--csv", table, *words))))


class Intervals(Case):
    def setUp(self):
        super().setUp()
        chance, lines = random.Random(21), report_lines.Lines()
        lines.connect(0, 1)
        self.asked, self.failed, at = collections.Counter([0]), collections.Counter(), 0
        for n in range(1, 301):
            at += chance.choice((1, 400, 2_500))
            op, error = chance.choice(("exists", "getData")), chance.random() < .3
            lines.ask(at, op, n, path="/a", watch=False)
            lines.answer(at + 900, n, zxid="0x1", **(NONODE if error else {}))
            self.asked[at // 10_000] += 1
            self.failed[at // 10_000] += error and op == "getData"
        lines.ask(at + 1, "getData", 301, path="/a", watch=False)
        self.asked[(at + 1) // 10_000] += 1
        self.file = lines.write(self.folder / "a.json", ending="whole", unanswered=1, waiting=[603])

    def test_each_interval(self):
        rows = json.loads(self.run_well("zkstat.py", "--json", "--every", "10s", self.file))["every"]["rows"]
        self.assertEqual([(each["begun"], each["asked"], each["failed"]) for each in rows],
                         [(clock(10 * at), count, self.failed[at]) for at, count in sorted(self.asked.items())])
        self.assertEqual(rows, json.loads(self.run_well("zkstat.py", "--json", "--every", "10000ms", self.file)
                                          )["every"]["rows"])
        of_csv = self.csv("every", "--every", "10", self.file)
        self.assertEqual([(each["begun"], float(each["askedASecond"])) for each in of_csv],
                         [(clock(10 * at), count / 10) for at, count in sorted(self.asked.items())])
        table = self.run_well("zkstat.py", "--every", "10s", self.file)
        first = self.asked[0], self.failed[0], self.asked[0] / 10, self.failed[0] / 10
        self.assertRegex(table, rf"{clock(0)} +{first[0]} +{first[1]} +{first[2]:g} +{first[3]:g}\n")

    def test_two_processes(self):
        shutil.copy(self.file, self.folder / "b.json")
        words = "--every", "1m", "--depth", "2", self.file, self.folder / "b.json"
        status, out, _ = self.run_tool("zkstat.py", "--jobs", "2", *words)
        self.assertEqual((status, out), (0, self.run_well("zkstat.py", *words)))

    def test_words(self):
        for words in (("--every", "0s"), ("--every", "1d"), ("--csv", "every"), ("--csv", "paths"), ("--top", "0"),
                      ("--json", "--csv", "events")):
            with self.subTest(words=words):
                status, out, _ = self.run_inside("zkstat.py", *words, self.file)
                self.assertEqual((status, out), (2, ""))


class Paths(Case):
    LINES = (*listing(random.Random(1), 0)[0].splitlines()[:2],
             'C 1 getData path="/a/b/c" watch=0', "S 1 getData zxid=5 err=-101/NONODE",
             'C 2 exists path="/a/b" watch=0', "S 2 exists zxid=5 err=-101/NONODE",
             'C 3 getData path="/" watch=0', "S 3 getData zxid=5 err=-102/NOAUTH",
             r'C 4 getData path="/a\c3\a9/x/y" watch=0', "S 4 getData zxid=5 blob=# stat=(0,0,0,0,0,0,0,0,0,0,0)",
             'C 5 multi {check path="/a/b/d" version=1;delete path="/a/q" version=1;delete path="/a/b/e" version=-1}',
             "S 5 multi zxid=6 {fail err=0/OK;fail err=-103/BADVERSION;fail err=-2/RUNTIMEINCONSISTENCY}",
             f'C 6 getData path="/{"z" * 3000}/a" watch=0', 'C 7 multi {delete path="/a/b" version=1}', ". whole unanswered=2",
             "")
    DEEP = {'"/a/b"': (5, 1), '"/a/q"': (1, 1), '"/"': (1, 1), r'"/a\c3\a9/x"': (1, 0),
            f'"/{"z" * 899}".. and more': (1, 0)}

    def test_first_parts(self):
        (self.folder / "a.show").write_text("\n".join(self.LINES))
        found = {each["path"]: (int(each["asked"]), int(each["failed"]))
                 for each in self.csv("paths", "--depth", "2", self.folder / "a.show")}
        self.assertEqual(found, self.DEEP)
        table = self.run_well("zkstat.py", "--depth", "1", "--top", "1", self.folder / "a.show")
        self.assertIn('asked  failed  path, 1 deep\n    6       2  "/a"\nand 3 more\n', table)


class Clients(Case):
    def test_by_address(self):
        for number, (client, host) in enumerate((("10.0.0.7:1", "s:2181"), ("10.0.0.7:2", "s:2181"), ("[::1]:9", "s:2181"))):
            lines = report_lines.Lines()
            lines.connect(0, 1)
            path = self.folder / f"{number}.json"
            known = facts.Facts(client=client, server=host, connected=5.0)
            lines.write(path, ending="whole", unanswered=0, waiting=[], facts=known.to_object())
        rows = self.csv("clients", "--clients", *(self.folder / f"{number}.json" for number in range(3)))
        self.assertEqual([(each["client"], each["connections"], each["asked"]) for each in rows],
                         [("10.0.0.7", "2", "2"), ("[::1]", "1", "1")])


class Forms(Case):
    def setUp(self):
        super().setUp()
        text, self.asked = listing(random.Random(85), 100)
        self.file = self.folder / "a.show"
        self.file.write_text(text)

    def test_csv(self):
        wanted = collections.Counter((op, error, "answer" if (op, error) == ("exists", "NONODE") else "failed")
                                     for op, _, error in self.asked if error)
        self.assertEqual({(each["operation"], each["error"], each["outcome"]): int(each["count"])
                          for each in self.csv("errors", self.file)}, wanted)
        asked = collections.Counter(["connect", *(op for op, _, _ in self.asked)])
        self.assertEqual({each["operation"]: int(each["asked"]) for each in self.csv("operations", self.file)}, asked)
        self.assertEqual(self.csv("slowest", self.file), [])
        self.assertEqual([each["session"] for each in self.csv("connections", self.file)], ["0x7"])

    def test_prometheus(self):
        """By the client library's own parser, where that is installed, and else by the format's rule."""
        lines = report_lines.Lines()
        lines.connect(0, 1)
        for n in range(1, 101):
            lines.ask(10 * n, "getData", n, path="/a", watch=False)
            lines.answer(10 * n + n / 1000, n, zxid="0x1", **(NONODE if n % 10 == 0 else {}))
        found = self.run_well("zkstat.py", "--prometheus", lines.write(self.folder / "a.json", ending="whole",
                                                                       unanswered=0, waiting=[]))
        samples = re.findall(r"^(\w+)(?:\{(.*)\})? (\S+)$", found, re.M)
        values = {(name, labels): float(value) for name, labels, value in samples}
        self.assertEqual(len(values), len(samples))
        for name, labels, value in (("zkstat_asked_total", 'operation="getData"', 100),
                                    ("zkstat_failed_total", 'operation="getData"', 10),
                                    ("zkstat_errors_total", 'operation="getData",error="NONODE"', 10),
                                    ("zkstat_latency_seconds", 'operation="getData",quantile="0.5"', 0.00005),
                                    ("zkstat_latency_seconds_count", 'operation="getData"', 100),
                                    ("zkstat_latency_max_seconds", 'operation="getData"', 0.0001)):
            self.assertEqual(values[name, labels], value, name)
        code = ("import sys; from prometheus_client.parser import text_string_to_metric_families as parsed\n"
                "print([[s.name, s.labels, s.value] for f in parsed(sys.stdin.read()) for s in f.samples])")
        for python in ("python3", "/usr/bin/python3"):
            done = subprocess.run([python, "-c", code], input=found, capture_output=True, text=True, check=False)
            if done.returncode == 0:
                parsed = eval(done.stdout)      # what the line above has printed
                self.assertEqual({(name, ",".join(f'{each}="{of}"' for each, of in labels.items())): value
                                  for name, labels, value in parsed}, values)
                return
        if importlib.util.find_spec("prometheus_client"):
            self.fail(done.stderr)
        self.skipTest("Debian's python3-prometheus-client is missing")


class Top(Case):
    def test_slowest(self):
        lines = report_lines.Lines()
        lines.connect(0, 0)
        for n in range(1, 101):
            lines.ask(10 * n, "getData", n, path=f"/{n}", watch=False)
            lines.answer(10 * n + n / 10, n, zxid="0x1")
        file = lines.write(self.folder / "a.json", ending="whole", unanswered=0, waiting=[])
        for top in (3, 20, 60):
            rows = self.csv("slowest", "--top", top, file)
            self.assertEqual([each["path"] for each in rows], [f'"/{n}"' for n in range(100, 100 - top, -1)])
            text = self.run_well("zkreport.py", "--text", "--top", top, file)
            shown = text.split("\nSlowest requests\n")[1].split("\n\n")[0].splitlines()[1:]
            self.assertEqual([line.split()[-1] for line in shown], [each["path"] for each in rows])
            self.assertIn(f"and {100 - top} more\n", text.split("\nBusiest paths\n")[1] + "\n")
