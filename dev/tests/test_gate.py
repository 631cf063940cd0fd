"""Tests of ./test over a script in the place of rt: what it runs, and what it doesn't pass."""

import os
import re
import shutil
import signal
import subprocess
import unittest

from tests.tools.support import TOP, ToolCase

CRATES = "# each crate\nlow:\nhigh: low\nother:\nlow_tests: low\nzkdump: high\n"
PASSED, SKIPPED = "1 passed, 0 failed", "not run: the stored cases, since the program isn't built"
# The variables without those that name a repository, as a hook of git has them, or settings.
OWN = {**{name: value for name, value in os.environ.items() if not name.startswith("GIT_")},
       "GIT_CONFIG_GLOBAL": os.devnull}


class Quick(ToolCase):
    def setUp(self):
        super().setUp()
        shutil.copy(TOP / "test", self.folder)
        (self.folder / "crates.txt").write_text(CRATES)
        for name in ("low", "high", "other", "low_tests", "zkdump", "unlisted"):
            (self.folder / "crates" / name / "src").mkdir(parents=True)
        (self.folder / "crates" / "zkdump" / "stdin").write_text("the stored run")

    def quick(self, crate, script=""):
        """The status, and what was run, by the folder."""
        rt, ran = self.folder / "rt", self.folder / "ran"
        rt.write_text(f'#!/bin/sh\nfolder=${{PWD##*/}}\necho "$folder: $@" >> {ran}\n{script}\n')
        rt.chmod(0o700)
        ran.write_text("")
        done = subprocess.run([self.folder / "test", "--quick", crate], capture_output=True, text=True, check=False,
                              env={**os.environ, "PATH": f"{self.folder}:{os.environ['PATH']}"})
        self.told = done.stdout.splitlines()
        return done.returncode, ran.read_text().splitlines()

    def test_a_crate_and_those_that_use_it(self):
        self.assertEqual(self.quick("low"), (0, ["low: check", "high: check", "low_tests: test",
                                                 "zkdump: run -- check"]))
        self.assertEqual(self.quick("other"), (0, ["other: check"]))
        self.assertIn(SKIPPED, self.told)

    def test_the_program_is_not_proved_or_refuses_the_stored_run(self):
        built = self.folder / "crates" / "zkdump" / "out" / "zkdump"
        built.parent.mkdir()
        built.touch(0o700)          # of an earlier run
        cases = self.folder / "crates" / "zkdump" / "run_cases.py"
        cases.write_text(f"print('{PASSED}')\n")
        read = 'test "$folder" != zkdump || test "$(cat)" = "the stored run"'
        self.assertEqual(self.quick("zkdump", read), (0, ["zkdump: run -- check"]))
        self.assertNotIn(SKIPPED, self.told)
        self.assertEqual(self.quick("zkdump", 'test "$folder" != zkdump'), (1, ["zkdump: run -- check"]))
        for printed in ("", f"print('{PASSED}, or so')", f"print('{PASSED}')\nprint()", "print('1 passed, 1 failed')"):
            cases.write_text(printed)
            self.assertEqual(self.quick("zkdump", read), (1, ["zkdump: run -- check"]), printed)
            self.assertIn("== python3 crates/zkdump/run_cases.py check show build migrate ended with status 0 and "
                          "without its line, and its last lines are", self.told)

    def test_what_is_no_crate_of_the_list(self):
        for crate in ("low/", "unlisted", "lo", "", ".", "low high"):
            self.assertEqual(self.quick(crate), (2, []), crate)


class Install(ToolCase):
    """What --install does, over scripts in the place of Debian's."""

    def run_install(self, apt):
        """The status, what is printed, and the packages that apt-get was to install, each time that it was called."""
        shutil.copy(TOP / "test", self.folder)
        (self.folder / "CONTRIBUTING.md").write_text("words\n\n    apt-get install one two \\\n        three-dev\n\nmore\n")
        asked = self.folder / "asked"
        for name, script in (("dpkg-query", 'test "$4" != two || echo install ok installed'),
                             ("apt-get", f'echo "$@" | sed -n "s/.* --no-install-recommends //p" >> {asked}\n{apt}')):
            path = self.folder / name
            path.write_text(f"#!/bin/sh\n{script}\n")
            path.chmod(0o700)
        asked.write_text("")
        done = subprocess.run([self.folder / "test", "--install"], capture_output=True, text=True, check=False,
                              env={**os.environ, "PATH": f"{self.folder}:{os.environ['PATH']}"})
        return done.returncode, done.stdout, asked.read_text().splitlines()

    def test_what_is_missing_is_installed(self):
        self.assertEqual(self.run_install("exit 0"), (0, "", ["one three-dev"]))

    def test_what_can_not_be_installed_is_said(self):
        self.assertEqual(self.run_install('case "$*" in *three-dev) exit 100; esac'),
                         (1, "not installed, since apt-get failed: three-dev\n", ["one three-dev", "one", "three-dev"]))


@unittest.skipUnless(shutil.which("git"), "git is not on the PATH")
class Whole(ToolCase):
    def setUp(self):
        super().setUp()
        for name in ("test", ".gitignore", "dev/__init__.py", "dev/gate.py", "packaging/__init__.py",
                     "packaging/build_library.py", "tests/__init__.py", "bench/__init__.py"):
            (self.folder / name).parent.mkdir(exist_ok=True)
            shutil.copy(TOP / name, self.folder / name)
        for name in re.findall(r"^    step python3 (?:-m )?(\S+)", (TOP / "test").read_text(), re.M):
            path = self.folder / (name if "/" in name else f"{name.replace('.', '/')}/__main__.py")
            path.parent.mkdir(parents=True, exist_ok=True)
            path.write_text(f"print('{PASSED}')\n")
        for name in ("crates/zkdump/out/zkdump", "crates/zk_c/out/libzk_c.a", "crates/zk_c/out/plain/libzk_c.a", "bin/rt"):
            (self.folder / name).parent.mkdir(parents=True, exist_ok=True)
            (self.folder / name).write_text("#!/bin/sh\n[ \"$1\" != version ] || echo kit 1\n")
            (self.folder / name).chmod(0o700)
        self.git("init", "--quiet")
        self.git("add", ".")
        self.git("commit", "--quiet", "--message=one")

    def git(self, *words):
        who = ("-c", "user.name=one", "-c", "user.email=one@example.org")
        return subprocess.run(["git", *who, *words], cwd=self.folder, env=OWN, capture_output=True, text=True,
                              check=True).stdout.strip()

    def whole(self):
        """The status, and the line of the commit, if it is there. Each run has minutes, as it begins many programs."""
        signal.alarm(300)
        done = subprocess.run([self.folder / "test"], capture_output=True, text=True, check=False,
                              env={**OWN, "PATH": f"{self.folder / 'bin'}:{os.environ['PATH']}"})
        self.told, found = done.stdout.splitlines(), re.findall(r"^commit: (.*)$", done.stdout, re.M)
        return done.returncode, found[0] if found else None

    def test_the_commit(self):
        self.assertEqual(self.whole(), (0, self.git("rev-parse", "HEAD")))

    def test_a_tree_that_changes_meanwhile(self):
        (self.folder / "bin" / "rt").write_text("#!/bin/sh\ngit -c user.name=one -c user.email=one@example.org commit "
                                                "--quiet --allow-empty --message=two\n")
        self.git("commit", "--quiet", "--all", "--message=other")
        self.assertEqual(self.whole(), (0, "none, since the gate began with another"))
        (self.folder / "bin" / "rt").write_text("#!/bin/sh\ngit checkout --quiet .\n")
        self.assertEqual(self.whole(), (0, "none, since the gate began with another"))
        (self.folder / "bin" / "rt").write_text("#!/bin/sh\ntouch more\n")
        self.git("commit", "--quiet", "--all", "--message=third")
        self.assertEqual(self.whole(), (0, "none, since the tree has changes"))

    def test_what_is_left_out(self):
        """It is said at the end, with how many checks that is; a step that checks nothing has to say why."""
        nothing, lines = "0 passed, 0 failed", ("left out: 1,200 checks of one, since a is not here",
                                                "left out: 1 check of other, since b is not here")
        for name, printed in (("tests/library", (lines[0], "9 passed, 0 failed")), ("tests/wireshark", (lines[1], nothing)),
                              ("tests/release", ("left out: something or other", PASSED))):
            (self.folder / name / "__main__.py").write_text(f"print(*{printed}, sep='\\n')\n")
        self.git("commit", "--quiet", "--all", "--message=some")
        self.assertEqual(self.whole(), (0, self.git("rev-parse", "HEAD")))
        toolchain = self.told.index("== toolchain: kit 1")
        self.assertEqual(self.told[toolchain + 1:toolchain + 4], ["== left out: 1201 checks", *lines])
        self.assertEqual(len(self.told) - toolchain, 9)     # with those of the step that has the commit
        (self.folder / "tests" / "wireshark" / "__main__.py").write_text(f"print('{nothing}')\n")
        self.git("commit", "--quiet", "--all", "--message=nothing")
        self.assertEqual(self.whole(), (1, None))
        self.assertIn("== python3 -m tests.wireshark ended with status 0 and without a check, and its last lines are",
                      self.told)

    def test_a_step_that_says_nothing(self):
        (self.folder / "tests" / "program" / "failing_streams" / "__main__.py").write_text("")
        self.git("commit", "--quiet", "--all", "--message=other")
        self.assertEqual(self.whole(), (1, None))
