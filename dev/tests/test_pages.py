"""Tests of tests/pages/clauses.py, tests/pages/stored_cases.py, dev/words.py and dev/proved.py: clauses, functions and
paths that a page names and that aren't there, cases that it shows otherwise, and definitions that no section explains."""

import subprocess
import sys

from tests.tools.support import TOP, ToolCase

from tests.pages import clauses, stored_cases
from .. import proved, words

PAGE = """| What holds | Clauses |
|---|---|
| A fault is kept. | `Talk::take` (err, gone), `Talk::gone`, `Wire` |

| Function | What it does |
|---|---|
| `Talk::gone` | `nothing` |
"""
GONE = "_".join(("is", "gone"))     # in one string this file would have it


class Clauses(ToolCase):
    def test_what_there_is_not_is_named(self):
        page = self.folder / "PAGE.md"
        page.write_text(PAGE)
        done = subprocess.run([sys.executable, "-m", "tests.pages.clauses", page], cwd=TOP, capture_output=True, text=True,
                              check=False)
        self.assertEqual((done.returncode, done.stderr), (1, ""))
        self.assertEqual(done.stdout.splitlines(), ["PAGE.md: no source has Talk::gone",
                                                    "PAGE.md: there is no function or type Talk::gone",
                                                    "PAGE.md: `Talk::take` has no clause gone", "4 passed, 3 failed"])

    def test_a_name_in_any_code_of_a_page(self):
        page = self.folder / "PAGE.md"
        page.write_text("`zk_jute::laws`, `Ask::Multi`, `FromRead::read`, `put_escaped`, `connect_answered`, `_view`, "
                        "`zk_jute::ItemFault`, `Vec::new`; `Origin::has`, `Talk::put_escaped`, `zk_jute::read_all`, "
                        f"`Op::Gone`, `{GONE}`\n")
        done = subprocess.run([sys.executable, "-m", "tests.pages.clauses", page], cwd=TOP, capture_output=True, text=True,
                              check=False)
        self.assertEqual(done.stdout.splitlines(), [f"PAGE.md: no source has {name}" for name in (
            "Op::Gone", "Origin::has", "Talk::put_escaped", GONE, "zk_jute::read_all")] + [
                "7 passed, 5 failed"])
        page.write_text("words\n")
        done = subprocess.run([sys.executable, "-m", "tests.pages.clauses", page], cwd=TOP, capture_output=True, text=True,
                              check=False)
        self.assertEqual((done.returncode, done.stdout), (1, "0 passed, 0 failed\n"))

    def test_edits_that_are_not_in_their_crates_table(self):
        """One of another crate, one that a clause's column has, and one that no table has."""
        page = (TOP / "docs" / "MUST_FAIL.md").read_text()
        self.assertEqual(clauses.edits(page), [])
        row = "| reads | `null_is_empty`, `only_the_first_part` | `size_at` |\n"
        told = clauses.edits(f"## zk_jute: values\n\n{row}\n## zk_answers\n\n| a | b | `any_operation_fits` |\n")
        self.assertEqual(told[0], "there is no edit zk_jute/only_the_first_part")
        self.assertIn("no table has the edit zk_answers/any_operation_fits", told)
        self.assertNotIn("no table has the edit zk_jute/null_is_empty", told)


CASES = """# Cases

`. refused side=C frame=9`: of no case.

Case `path_with_escapes`:

```
C: 00000011 00000001 00000003 00000004 2fc3a922 01
C: the connect request
```

`C 1 exists path="/\\c3\\a9\\22" watch=1`, with `watch=1`, `. whole unanswered=1`. Of no case: `watch=`, `4194304`.

| Case | The frame | offset | place | reason | |
|---|---|---|---|---|---|
| `watch_byte_of_two` | `0000000f 00000001 00000003 00000002 2f61 02` | 68 | 14 | BadBool | `. refused side=C frame=1` |
| `queue_of_one_is_full` | `--waiting 1` | 87 | 0 | QueueFull | |
| `build/watch_of_two` | `C 1 exists path="/a" watch=2` | | | | `line 1: column 28: Word` |

## Others

`. whole unanswered=9`: of no case.
"""
# What is replaced, by what, the line, and what the case then hasn't.
OTHERWISE = (
    ("2fc3a922 01", "2fc3a922 00", 8, "path_with_escapes: no C: 00000011 00000001 00000003 00000004 2fc3a922 00"),
    ("C: 00000011", "S: 00000011", 8, "path_with_escapes: no S: 00000011 00000001 00000003 00000004 2fc3a922 01"),
    ("C: 00000011", "C: 0000001", 8, "path_with_escapes: no C: 0000001 00000001 00000003 00000004 2fc3a922 01"),
    ("watch=1", "watch=0", 12, 'path_with_escapes: no C 1 exists path="/\\c3\\a9\\22" watch=0'),
    ("with `watch=1`", "with `watch=0`", 12, "path_with_escapes: no watch=0"),
    ("unanswered=1", "unanswered=2", 12, "path_with_escapes: no . whole unanswered=2"),
    ("Case `path_with_escapes`", "Case `path_not_utf8`", 12, "path_not_utf8: no . whole unanswered=1"),
    ("2f61 02", "2f61 03", 16, "watch_byte_of_two: no 0000000f 00000001 00000003 00000002 2f61 03"),
    ("| 68 |", "| 6 |", 16, "watch_byte_of_two: no offset=6"),
    ("BadBool", "BadByte", 16, "watch_byte_of_two: no reason=BadByte"),
    ("frame=1`", "frame=2`", 16, "watch_byte_of_two: no . refused side=C frame=2"),
    ("--waiting 1", "--waiting 2", 17, "queue_of_one_is_full: no --waiting 2"),
    ("column 28", "column 27", 18, "watch_of_two: no line 1: column 27: Word"),
)


class Cases(ToolCase):
    def compared(self, text):
        (self.folder / "PAGE.md").write_text(text)
        return [*stored_cases.compared(self.folder / "PAGE.md")]

    def test_what_a_page_shows_otherwise_than_the_case(self):
        self.assertEqual([good for good, _ in self.compared(CASES)], 15 * [True])
        for old, new, line, told in OTHERWISE:
            self.assertIn((False, f"PAGE.md:{line}: {told}"), self.compared(CASES.replace(old, new, 1)))

    def test_a_page_without_cases(self):
        (self.folder / "PAGE.md").write_text("`. whole unanswered=0`\n")
        for words, wanted in ((["PAGE.md"], (1, "0 passed, 0 failed\n")), ([], (0, None))):
            done = subprocess.run([sys.executable, "-m", "tests.pages.stored_cases", *(self.folder / word for word in words)],
                                  cwd=TOP, capture_output=True, text=True, check=False)
            self.assertEqual((done.returncode, done.stderr), (wanted[0], ""))
            self.assertIn(wanted[1], (None, done.stdout))


class Paths(ToolCase):
    def test_a_path_that_is_not_there_is_named(self):
        page = ("`tests/unit.py`, `tests/device.py`, `tools/build.py`, `dev/*.py`, `tools/NAME.py`, "
                "`tests/golden`, `bin/zkdump`, `crates/CRATE/must-fail/NAME.edit`, `crates/zk_c/out/libzk_c.a`, "
                "`crates/zk_gone/src`, `crates/zkdump/cases/build/gone.args`, "
                "`crates/zkdump/cases/build/no_lines.args`, `examples/python/build/lib`")
        self.assertEqual([*words.lost(TOP / "wireshark" / "README.md", page)], [
            f"wireshark/README.md: there is no {name}" for name in (
                "tests/device.py", "tools/build.py", "crates/zk_gone/src", "crates/zkdump/cases/build/gone.args")])

    def test_a_path_among_other_words_and_a_source_alone_are_named(self):
        page = ("`dev/gone.py --write`, `dev/names.py --write`, `cc -Iinclude bench/gone.c`, `gone.h`, `hand.h`, "
                "`crates/zk_*/src`, `gone.txt`, `zookeeper.c`, `/usr/share/tools/gone.py`\n\n"
                "    tools/gone.py FILE  # and tools/zkstat.py\n")
        self.assertEqual([*words.lost(TOP / "bench" / "README.md", page)], [
            f"bench/README.md: there is no {name}" for name in (
                "dev/gone.py", "bench/gone.c", "tools/gone.py", "gone.h")])


class Definitions(ToolCase):
    def test_a_definition_without_a_section_is_named(self):
        rests = "".join(f"| `crates/{name}` | `any` |\n" for name in (
            "zk_talk/specs/Good.antt", "zk_talk/specs/Held.antt", "zk_jute/specs/Item.antt", "zk_jute/specs/Names.antt",
            "zk_talk/src/limits.rt"))
        meaning = ("`crates/zk_talk/specs/Fault.antt`, `Good.antt`; `crates/zk_jute/specs/Held.antt`\n\n"
                   "`Names.antt` has more, and `crates/zk_jute/specs/Item.antt` the items.\n")
        self.assertEqual(proved.unexplained(rests, meaning),
                         ["crates/zk_jute/specs/Names.antt", "crates/zk_talk/specs/Held.antt"])
