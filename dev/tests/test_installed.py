"""Tests of an installation as its users have it: its pages' links and commands, the tools' pages and completion."""

import os
import pathlib
import re
import shutil
import signal
import subprocess
import tempfile
import unittest
import unittest.mock

from packaging import install, make_library, make_manual, pages, tool_words
from tests.pages import commands
from tests.tools.support import PROGRAM, TOP, ToolCase

TARGET = re.compile(r"\]\(([^()\s]+)\)")
MAIN = ("README.md", "tools/README.md")     # the pages whose commands are run
# What is typed, and what bash then offers.
COMPLETED = (
    (("zkstat", "--js"), "--json"),
    (("zkstat", "--profile", ""), " ".join(tool_words.zkr.PROFILES)),
    (("zkrecord", "--format", "zkr"), "zkr1 zkr2"),
    (("zkrecord", "--no"), "--no-times"),
    (("pcap2zkr", "--ver"), "--version"),
    (("zkjson", "--slower", ""), ""),
    (("zkreport", "--te"), "--text"),
    (("/usr/bin/zkplay", "--conn"), "--connections"),
    (("zkstat", "--recording", ""), " files"),
    (("zkstat", "mi"), " files"),
)


class There(commands.Folder):
    """The folder of an installation's pages, in which their commands run; `home` is a folder for who runs them."""

    def __init__(self, top, home, seconds):
        self.path, self.seconds, self.begun = top / install.OWN, seconds, []
        (home / "bin").mkdir(parents=True)
        commands.capture(self.path / "port.pcap")
        self.environment = dict(os.environ, PATH=f"{top / 'bin'}{os.pathsep}{os.environ['PATH']}", LC_ALL="C.UTF-8",
                                HOME=str(home))

    def run(self, example):
        example.played = str(TOP / example.played)
        return super().run(example)


class Installed(ToolCase):
    @classmethod
    def setUpClass(cls):
        if not PROGRAM.exists():
            raise unittest.SkipTest("the program zkdump is not built")
        folder = tempfile.TemporaryDirectory()
        cls.addClassCleanup(folder.cleanup)
        cls.top = pathlib.Path(folder.name, "usr")
        with unittest.mock.patch.object(make_library, "missing", lambda: ["rt"]):
            cls.left = list(install.install(cls.top))
        cls.names = [name for name, _ in install.commands()]

    def setUp(self):
        super().setUp()
        signal.alarm(900)       # each runs many commands

    def test_no_link_leads_nowhere(self):
        own, found = self.top / install.OWN, 0
        for page in sorted(own.rglob("*.md")):
            for target in TARGET.findall(re.sub(r"`[^`\n]*`", "", page.read_text())):
                if not re.match(r"[a-z]+:", target):
                    found += 1
                    path = page.parent / target.partition("#")[0] if target[0] != "#" else page
                    self.assertTrue(path.exists(), f"{page.relative_to(own)}: {target}")
                    self.assertIn(own, [path.resolve(), *path.resolve().parents])
        self.assertGreater(found, 100)

    def test_what_a_link_becomes(self):
        files, called = ["README.md", "docs/A.md", "tools/zkstat.py"], {"zkstat": "zkstat", "record": "zkrecord"}
        for text, wanted in (
                ("a [b](docs/A.md#c) [`d`](docs/B.md), ![e](f.png) [g](https://h/i) [j](#k)\n",
                 "a [b](docs/A.md#c) `d`, e [g](https://h/i) [j](#k)\n"),
                ("    $ ./zkdump show < a.zkr [x](y)\n", "    $ zkdump show < a.zkr [x](y)\n"),
                ("    $ tools/record.py 1 2 3\n    record.py: here\n", "    $ zkrecord 1 2 3\n    zkrecord: here\n"),
                ("by `tools/zkstat.py a` and [it](tools/zkstat.py)\n", "by `zkstat a` and [it](tools/zkstat.py)\n"),
                ("by `./zkdump`\n", "by `./zkdump`\n"), ("```\n[a](b)\n```\n", "```\n[a](b)\n```\n"),
                ("    $ cp crates/zkdump/stdin a\n", "    $ cp examples/exists.zkr a\n")):
            page = pages.installed(f"# x\n{text}", "README.md", files, called)
            self.assertEqual(page, f"# x\n\n{pages.NOTE}{wanted}")
        page = pages.installed("[a](../docs/A.md) [b](A.md) [c](B.md) [d](../tools)\n", "docs/C.md", files, called)
        self.assertEqual(page, "[a](../docs/A.md) [b](A.md) c [d](../tools)\n")

    def test_the_commands_of_the_pages_run(self):
        for number, name in enumerate(MAIN):
            top = self.folder / f"{number}" / "usr"
            shutil.copytree(self.top, top, symlinks=True)
            folder = There(top, self.folder / f"home{number}", 120)
            self.addCleanup(folder.close)
            page = commands.Page((top / install.OWN / name).read_text())
            self.assertGreater(len(page.examples), 9)
            for example in page.examples:
                with self.subTest(page=name, line=example.at, command=example.command):
                    found, status = folder.run(example)
                    self.assertTrue(found is not None and status in (0, 1 if found else 0) and
                                    commands.fits(example.lines, found), (status, found, example.lines))

    def test_each_tool_says_its_version(self):
        version = (TOP / "VERSION").read_text().strip()
        for name in self.names:
            done = subprocess.run([self.top / "bin" / name, "--version"], capture_output=True, text=True, check=False)
            self.assertEqual((done.returncode, done.stdout, done.stderr), (0, f"{name} (zkdump) {version}\n", ""))

    def test_each_tool_has_a_page(self):
        """With a name of its own, which man finds, and with each of its options."""
        if make_manual.missing():
            self.skipTest("there is no scdoc")
        for name in self.names:
            page = (self.top / "share" / "man" / "man1" / f"{name}.1").read_text()
            self.assertRegex(page, rf"\n\.SH NAME\n\.P\n{name} - [a-zA-Z].*[a-z]\n")
            said = subprocess.run([self.top / "bin" / name, "--help"], capture_output=True, text=True, check=True)
            options = set(re.findall(r"(?<![\w-])--[a-z-]+", said.stdout.partition("\noptions:\n")[2]))
            shown = set(re.findall(r"\\fB(--[a-z-]+)\\fR", page.replace("\\-", "-")))
            self.assertLessEqual({"--help", "--version"}, shown, name)
            self.assertEqual(options & shown, shown, name)
            if shutil.which("lexgrog"):
                found = subprocess.run(["lexgrog", self.top / "share" / "man" / "man1" / f"{name}.1"],
                                       capture_output=True, text=True, check=False)
                self.assertEqual((found.returncode, found.stdout.count(f'"{name} - ')), (0, 1), found.stderr)
        page = (self.top / "share" / "man" / "man1" / "zkdump.1").read_text().replace("\\&", "")
        for words in ("zkdump show < FILE", "zcat FILE.gz | zkdump show"):
            self.assertIn(words, page)

    @unittest.skipUnless(shutil.which("bash"), "there is no bash")
    def test_completion(self):
        place = self.top / "share" / "bash-completion" / "completions"
        for words, wanted in COMPLETED:
            script = place / pathlib.Path(words[0]).name
            text = (f'. "{script}"; word=$1; shift; COMP_WORDS=("$@"); COMP_CWORD=$(($# - 1)); files=" files"; '
                    'compopt() { files=; }; _zkdump_tools "$1" "$word"; echo "${COMPREPLY[*]}$files"')
            self.assertEqual(self.bash(text, words[-1], *words), (0, wanted, ""), words)
        for name in self.names:
            self.assertEqual(self.bash(f'. "{place / name}"; complete -p {name} > /dev/null'), (0, "", ""), name)

    def bash(self, *words):
        done = subprocess.run(["bash", "-c", words[0], "bash", *words[1:]], capture_output=True, text=True, check=False)
        return done.returncode, done.stdout.rstrip("\n"), done.stderr
