"""Tests of bench/costs.py: what it says of a row, what it keeps, and that an input is the same each time."""

import contextlib
import io
import re
import shutil
import sys
import unittest
import unittest.mock

from tests.tools.support import PROGRAM, TOP, ToolCase

from bench import costs, costs_inputs

KEPT = costs.Cost(1_000_000, {"zk_talk::talk::Talk::step": 600_000, "zk_asks::front::body_end": 300_000})
ROW = "check small"
CALLGRIND = """\
# callgrind format
positions: line
events: Ir
ob=/tmp/zkdump
fn=zk_talk::talk::Talk::step
0 30
0 5
cob=/usr/lib/libc.so.6
cfn=memcpy
calls=2 0
0 400

fn=zk_items::list::Put::put::<#268f6f39a04f28f6>
0 11
fn=zk_items::list::Put::put::<#f36cba213dc8a90d>
0 2
ob=/usr/lib/libc.so.6
fn=memcpy
0 400
fn=0x0000000000005560
0 3

totals: 458
"""


def cost(**changes):
    functions = {**KEPT.functions, **changes}
    return costs.Cost(KEPT.count + sum(functions.values()) - sum(KEPT.functions.values()), functions)


class Rows(ToolCase):
    def kept(self):
        """A file of numbers with one row."""
        kept = costs.Kept(self.folder / "costs.txt")
        kept.tools, kept.inputs, kept.costs = "a compiler", "a sum", {ROW: KEPT}
        kept.write()
        return costs.Kept(self.folder / "costs.txt")

    def test_more(self):
        told = costs.fault(ROW, KEPT, cost(**{"zk_talk::talk::Talk::step": 630_000}))
        self.assertEqual(told, "check small: 1,000,000 instructions came to 1,030,000 (+3.0%); "
                               "zk_talk::talk::Talk::step had 600,000, and has 630,000")

    def test_more_in_a_function_that_is_new(self):
        now = cost(**{"zk_talk::talk::Talk::step": 610_000, "memcpy": 25_000})
        self.assertRegex(costs.fault(ROW, KEPT, now), "; memcpy had less than 10,000, and has 25,000$")

    def test_less_and_the_same(self):
        self.assertRegex(costs.fault(ROW, KEPT, cost(memcpy=-30_000)),
                         r"970,000 \(-3.0%\): keep the gain by .* --update$")
        for change in (-20_000, 0, 20_000):
            self.assertEqual(costs.fault(ROW, KEPT, cost(memcpy=change)), "")

    def test_a_run_that_failed(self):
        for kept in (KEPT, None):
            self.assertEqual(costs.fault(ROW, kept, costs.Cost(0, {})), "check small: a run failed")

    def test_a_row_without_a_number(self):
        self.assertRegex(costs.fault(ROW, None, KEPT), "^check small: 1,000,000 instructions, and .* no number$")

    def test_what_is_kept(self):
        kept = self.kept()
        self.assertEqual((kept.tools, kept.inputs, kept.costs), ("a compiler", "a sum", {ROW: KEPT}))
        for now, used, wanted in ((cost(memcpy=15_000), "a compiler", KEPT), (cost(memcpy=21_000), "a compiler", None),
                                  (cost(memcpy=-21_000), "a compiler", None), (cost(memcpy=15_000), "another", None)):
            kept = self.kept()
            costs.update(kept, {ROW: now}, used, "a sum")
            read = costs.Kept(self.folder / "costs.txt").costs[ROW]
            self.assertEqual(read.count, (wanted or now).count)

    def test_what_callgrind_wrote(self):
        path = self.folder / "callgrind"
        path.write_text(CALLGRIND)
        self.assertEqual(dict(costs.read_functions(path)), {"zk_talk::talk::Talk::step": 35,
                                                            "zk_items::list::Put::put": 13,
                                                            "memcpy": 400, "libc.so.6": 3})

    def test_what_another_run_does_is_left_out_function_by_function(self):
        counter = costs.collections.Counter
        found = {"show": counter(put=100, read=30), "check": counter(judge=50, read=20)}
        row = costs.Row("show less check", costs.Run("zkdump", ("show",)), costs.Run("zkdump", ("check",)))
        with unittest.mock.patch.object(costs, "count", lambda run, *_: found[run.words[0]]):
            made = costs.count_all([row], self.folder)
        self.assertEqual(made, {"show less check": costs.Cost(110, {"put": 100, "read": 10})})

    def test_the_rows_that_are_kept_are_those_that_are_counted(self):
        kept = costs.Kept(costs.KEPT)
        self.assertEqual(list(kept.costs), [row.name for row in costs.ROWS])
        self.assertEqual(len(kept.costs), len(set(kept.costs)))


class Inputs(unittest.TestCase):
    def test_the_bytes_are_those_that_were_counted(self):
        self.assertEqual(costs.digest(), costs.digest())
        self.assertEqual(costs.digest(), costs.Kept(costs.KEPT).inputs)

    def test_what_they_have(self):
        for size in range(1, 141):
            self.assertEqual(len(costs_inputs.outside_ascii(size).encode()), size)
        for size, run in costs_inputs.ESCAPED.items():
            self.assertEqual(len(run.encode()), size)
        for name, make in costs_inputs.LISTS.items():
            names = make()
            self.assertEqual(len(names), 10_000)
            if sizes := re.findall(r"(\d+) bytes", name):
                self.assertEqual({len(each) - 4 for each in names}, {int(sizes[0])})
        for percent in (2, 5, 20):
            many = sum(not name.isascii() for name in costs_inputs.LISTS[f"names, {percent}% outside ASCII"]())
            self.assertLess(abs(many - percent * 100), percent * 10)


class Whole(ToolCase):
    ROW = "check texts of 19 to 34 bytes"

    def setUp(self):
        super().setUp()
        if not PROGRAM.exists() or not shutil.which("valgrind") or not shutil.which("rt"):
            self.skipTest("the program zkdump is not built, or valgrind or rt is not here")

    def count(self, name):
        """The row, counted in a folder of this name."""
        folder, row = self.folder / name, next(row for row in costs.ROWS if row.name == self.ROW)
        folder.mkdir()
        costs.place_programs(folder, TOP, ["zkdump"])
        costs.place_inputs(folder, [row])
        return costs.count_all([row], folder)[self.ROW]

    def test_a_row_that_has_more_than_its_number(self):
        now, again = self.count("one"), self.count("another folder")
        self.assertLess(abs(again.count - now.count), now.count / 1000)
        most = max(now.functions, key=now.functions.get)
        gained = now.count - round(now.count / 1.03)
        kept, said = costs.Kept(self.folder / "costs.txt"), io.StringIO()
        kept.costs[self.ROW] = costs.Cost(now.count - gained, {**now.functions, most: now.functions[most] - gained})
        kept.write()
        with contextlib.redirect_stdout(said), unittest.mock.patch.object(costs, "KEPT", kept.path), \
                unittest.mock.patch.object(sys, "argv", ["costs.py", self.ROW]):
            self.assertEqual(costs.main(), 1)
        *_, fault, last = said.getvalue().splitlines()
        self.assertEqual(last, "0 passed, 1 failed")
        self.assertEqual(fault,
                         f"{self.ROW}: {now.count - gained:,} instructions came to {now.count:,} (+3.0%); {most} had "
                                f"{now.functions[most] - gained:,}, and has {now.functions[most]:,}")
