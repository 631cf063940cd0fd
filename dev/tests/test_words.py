"""Tests of dev/words.py: which scripts and sources it reads, and what it finds there and in pages."""

import subprocess
import unittest.mock

from tests.tools.support import TOP, ToolCase

from .. import words

WORDS = " ".join(("so", "many"))     # in one string this file would be reported


class Sources(ToolCase):
    def test_comments_where_a_folder_above_is_named_as_one_of_what_is_made(self):
        for top in ("checkout", "build"):
            path = self.folder / top / "tests" / "calls.c"
            path.parent.mkdir(parents=True)
            path.write_text(f"int a;\n/* {WORDS}\n   or so\n   many */\n// so\n// many\n")
            with unittest.mock.patch.object(words, "TOP", self.folder / top):
                self.assertEqual([*words.in_sources()], [f"tests/calls.c:{line}: plainer words: {WORDS}"
                                                         for line in (2, 2, 5)])


class Pages(ToolCase):
    def test_dates(self):
        for text, found in (("measured on 28 November 2026", "28 November"), ("on November 28", "November 2"),
                            ("since 2026-11-28,", "2026-11-28"), ("as `2026-11-28T10:00:00.000Z`", None),
                            ("it may 2 times", None), ("    $ date\n    2026-11-28\n", None)):
            page = {words.TOP / "docs" / "LIBRARY.md": text + "\n"}
            with unittest.mock.patch.multiple(words, in_scripts=list, ways=list, in_sources=list, too_long=list,
                                               counted=list):
                self.assertEqual([*words.judged(page)], [f"docs/LIBRARY.md: a diary's words: {found}"] if found else [])

    def test_numbers_of_what_the_crates_have(self):
        hints = "#[inline(always)]\n    #[inline(always)]\n// #[inline]\n#[inline]\n"
        for name, text in (("crates/low/src/lib.rt", hints), ("crates/high/src/tests/more.rt", "#[inline(never)]\n"),
                           ("crates/low/must-fail/some.edit", "file: a\nold: b\nnew: c\n"),
                           ("docs/PERF.md", "the 2 must-fail edits\n"),
                           ("bench/HINTS.md", "It has 4 lines with a hint: 3 with `#[inline(always)]`, 1 with "
                                              "`#[inline(never)]`.\n")):
            (self.folder / name).parent.mkdir(parents=True, exist_ok=True)
            (self.folder / name).write_text(text)
        with unittest.mock.patch.object(words, "TOP", self.folder):
            self.assertEqual([*words.counted()], [
                "bench/HINTS.md: 3 with `#[inline(always)]`, and the crates have 2",
                r"bench/HINTS.md: nothing is (\d+) with `#\[inline\]`, and the crates have 1",
                "docs/PERF.md: the 2 must-fail edits, and the crates have 1"])


class Scripts(ToolCase):
    def test_every_script_of_the_repository_is_read(self):
        done = subprocess.run(["git", "ls-files", "-z"], cwd=TOP, capture_output=True, text=True, check=False)
        if done.returncode:
            self.skipTest("this is no repository of git")
        there = {TOP / name for name in done.stdout.split("\0") if name and (TOP / name).exists()}
        python = {path for path in there if path.is_file() and (
            path.suffix == ".py" or path.read_bytes().startswith(b"#!/usr/bin/env python3\n"))}
        self.assertEqual(python - {*words.scripts()}, {TOP / "dev" / "words.py"})

    def test_another_way_to_a_module(self):
        """A module that is found by a changed path, or run by its file, is another for each way to it."""
        for name, text in (("tests/good.py", "import sys\n\nfrom dev import words\n"),
                           ("tests/bad.py", f"import sys\nsys.{'path'}.append('dev')\n"),
                           ("bench/run", f"import os, {'run' + 'py'}\n")):
            (self.folder / name).parent.mkdir(parents=True, exist_ok=True)
            (self.folder / name).write_text(text)
        (self.folder / "release").touch()
        with unittest.mock.patch.object(words, "TOP", self.folder):
            self.assertEqual([*words.ways()], [f"bench/run:1: {words.WAY}", f"tests/bad.py:2: {words.WAY}"])

    def test_words_in_scripts_of_crates_and_without_a_suffix(self):
        for name in ("crates/zkdump/run_cases.py", "bench/run", "release"):
            (self.folder / name).parent.mkdir(parents=True, exist_ok=True)
            (self.folder / name).write_text(f"# {WORDS}\n'''so\n    many'''\n")
        with unittest.mock.patch.object(words, "TOP", self.folder):
            self.assertEqual([*words.in_scripts()], [f"{name}:{line}: plainer words: {WORDS}" for name in (
                "bench/run", "crates/zkdump/run_cases.py", "release") for line in (1, 2)])
