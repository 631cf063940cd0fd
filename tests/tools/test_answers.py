"""That exists answers NONODE is no failure: counts by a model of the test's own, of the lines that it writes."""

import collections
import json
import random
import re

from . import report_lines
from .support import TOP, ToolCase

ERRORS = {"NONODE": -101, "NOAUTH": -102, "NODEEXISTS": -110}
FORMS = {"exists": ('path="{}" watch=0', "stat=(1,1,1,1,0,0,0,0,0,0,1)"), "delete": ('path="{}" version=-1', ""),
         "getData": ('path="{}" watch=0', "blob=# stat=(1,1,1,1,0,0,0,0,0,0,1)")}
PATHS = ("/a", "/b", "/a/b")
HEAD = (f"C connect version=0 zxid=0 timeout=1000 session=0 passwd=#{'00' * 16} ro=0",
        f"S connect version=0 timeout=1000 session=7 passwd=#{'00' * 16} ro=0")


def listing(chance, count):
    """The lines of a connection, and of each request the operation, the path and the error's name, None for none."""
    lines, asked = list(HEAD), []
    for xid in range(1, count + 1):
        op, path = chance.choice(list(FORMS)), chance.choice(PATHS)
        error = chance.choice((None, "NONODE", "NONODE", *ERRORS))
        asks, tail = FORMS[op]
        told = f"err={ERRORS[error]}/{error}" if error else tail
        lines += [f"C {xid} {op} {asks.format(path)}", f"S {xid} {op} zxid={xid} {told}".rstrip()]
        asked.append((op, path, error))
    return "\n".join([*lines, ". whole unanswered=0", ""]), asked


class Answers(ToolCase):
    def setUp(self):
        super().setUp()
        self.file = self.folder / "a.show"
        text, self.asked = listing(random.Random(85), 200)
        self.file.write_text(text)
        failed = [each for each in self.asked if each[2] and (each[0], each[2]) != ("exists", "NONODE")]
        self.errors = collections.Counter((op, error) for op, _, error in failed)
        self.failed, self.paths = collections.Counter(op for op, _, _ in failed), collections.Counter(
            path for _, path, _ in failed)
        self.answers = sum(each[0] == "exists" and each[2] == "NONODE" for each in self.asked)

    def run_well(self, tool, *words):
        status, out, err = self.run_inside(tool, *words)
        self.assertEqual((status, err), (0, ""))
        return out

    def test_zkstat(self):
        found = json.loads(self.run_well("zkstat.py", "--json", self.file))
        for op in FORMS:
            each = found["operations"][op]
            self.assertEqual(each["failed"], self.failed[op])
            self.assertEqual({(op, error): count for error, count in each["errors"].items()},
                             {key: count for key, count in self.errors.items() if key[0] == op})
            self.assertEqual(each["answers"], {"NONODE": self.answers} if op == "exists" else {})
        self.assertEqual(found["connections"][0]["failed"], sum(self.failed.values()))
        table = self.run_well("zkstat.py", self.file)
        self.assertEqual(re.findall(r"^ +(\d+) answers: (.*)$", table, re.M), [(str(self.answers), "exists NONODE")])
        self.assertNotIn("errors: exists NONODE", table)

    def test_zkstat_of_several_processes(self):
        text, _ = listing(random.Random(86), 20)
        (self.folder / "b.show").write_text(text)
        files = self.file, self.folder / "b.show"
        self.assertEqual(*(self.run_well("zkstat.py", *words, *files) for words in ((), ("--jobs", "2"))))

    def test_the_report(self):
        found = self.run_well("zkreport.py", "--text", self.file)
        self.assertIn(f"201 requests, {sum(self.failed.values())} failed, 0 unanswered", found)
        rows = [line.split() for line in found.split("\nErrors\n")[1].split("\n\n")[0].splitlines()[1:]]
        wanted = [[op, error, "failed", str(count)] for (op, error), count in self.errors.items()]
        self.assertEqual(sorted(rows[:-1]), sorted(wanted))
        self.assertEqual(rows[-1], ["exists", "NONODE", "answer", str(self.answers)])
        paths = [line.split() for line in found.split("\nBusiest paths\n")[1].split("\n\n")[0].splitlines()[1:]]
        self.assertEqual({path.strip('"'): int(failed) for _, failed, _, path in paths}, dict(self.paths))

    def test_what_is_compared(self):
        found = self.run_well("zkreport.py", "--text", "--against", self.file, self.file)
        for row in found.partition("\nCompared\n")[2].splitlines():
            if (cells := row.split())[0] in FORMS:
                self.assertEqual(cells[3:5], [str(self.failed[cells[0]])] * 2)

    def page(self, *files):
        out = self.folder / "a.html"
        self.run_well("zkreport.py", "-o", out, *files)
        return json.loads(re.search(r'<script [^>]*id="data"[^>]*>(.*?)</script>', out.read_text(), re.S)[1])

    def test_what_the_page_keeps_and_the_failures_over_time(self):
        """Of a long run the page has the slowest requests, and by themselves the failed."""
        lines = report_lines.Lines()
        lines.connect(0, 1)
        for n in range(1, 8_101):
            lines.ask(10 * n, "exists" if n % 3 else "getData", n, path="/a", watch=False)
            lines.answer(10 * n + 1 + n / 10_000, n, zxid="0x1", **({} if n % 5 else report_lines.NONODE))
        data = self.page(lines.write(self.folder / "long.json", ending="whole", unanswered=0, waiting=[]))
        failed = 8_100 // 15
        self.assertEqual(data["counts"]["failed"], failed)
        self.assertTrue(data["complete"])       # 8,000 slowest, of 8,101 less those that failed
        found = data["density"]["troubles"]["0"]
        self.assertEqual([sum(found[2::3]), set(found[1::3])], [failed, {1}])
        self.assertEqual(len(data["requests"]["n"]), 8_101)


class Names(ToolCase):
    def test_readers_have_the_plugins_names_of_errors(self):
        """Lines have numbers for the errors of later releases; zkstat names them, by what the plugin has."""
        text = (TOP / "wireshark" / "names.c").read_text()
        table = re.search(r"error_names\[\] = \{(.*?)\n\};", text, re.S)[1]
        names = {int(number): name for number, name in re.findall(r'\{(?:NUMBER\()?(-?\d+)\)?, "(\w+)"\}', table)}
        self.assertIn(-125, names)
        del names[0]
        lines = list(HEAD)
        for xid, number in enumerate(names, 1):
            lines += [f'C {xid} delete path="/a" version=-1', f"S {xid} delete zxid=5 err={number}"]
        file = self.folder / "a.show"
        file.write_text("\n".join([*lines, f"C 999 delete path=\"/a\" version=-1", "S 999 delete zxid=5 err=-4242", ""]))
        status, out, _ = self.run_inside("zkstat.py", "--json", file)
        self.assertEqual(status, 0)
        self.assertEqual(json.loads(out)["operations"]["delete"]["errors"], dict.fromkeys([*names.values(), "-4242"], 1))
