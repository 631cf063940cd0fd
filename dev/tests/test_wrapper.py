"""Tests of the script zkdump at the top and of packaging/build_program.py, in a copy of the repository's folders with a
toolchain that proves nothing."""

import os
import pathlib
import shutil
import signal
import subprocess
import sys
import time
import unittest

from tests.tools.support import TOP, ToolCase

from packaging import build_program

# Writes down where it was called and how, and when that ended. Like the toolchain, it refuses a crates.txt with a line
# of a crate that has no folder, and keeps every other call out of the crate and those that it uses, which are in the
# file uses; a library is there once it is built. At the last crate it makes a program that prints its words and its
# input.
RT = """#!/bin/sh
name=$(basename "$PWD")
echo "$name $*" >> "$CALLS"
echo "what the toolchain says"
for each in $(sed 's/#.*//; s/:.*//' ../../crates.txt); do
    [ -d ../$each/src ] || { echo "crates.txt: $each: there is no folder"; exit 2; }
done
for low in $(cat src/uses); do
    [ -e ../$low/out/rlib/made ] || { echo "$low is not built"; exit 1; }
    mkdir ../$low/taken || { echo "$low is taken"; exit 1; }
    taken="$taken ../$low/taken"
done
trap '[ -z "$taken" ] || rmdir $taken' EXIT
sleep ${SLEEPS:-0.05}
if [ "$name" = "$BROKEN" ]; then
    [ $1 != run ] || { mkdir -p out; rm -f out/zkdump; echo junk > out/zkdump; }
    exit 1
fi
case $1 in
    lib) mkdir -p out/rlib out/incremental; echo "$name" > out/rlib/made ;;
    run) cmp - stdin || exit 1
        mkdir -p out
        printf '#!/bin/sh\\necho "ran $*"; cat; exit 7\\n' > out/made
        chmod +x out/made
        mv out/made out/zkdump ;;
esac
echo "$name $1 ended" >> "$CALLS"
"""
USES = {"low": "", "left": "low", "right": "low", "zkdump": "left right"}
# What is called, and how, where there is one lane.
CALLS = ["low check", "low lib", "left check", "left lib", "right check", "right lib", "zkdump run"]


class WrapperCase(ToolCase):
    def setUp(self):
        super().setUp()
        self.top, self.calls = self.folder / "src" / "top", self.folder / "calls"
        for crate, uses in USES.items():
            source = self.top / "crates" / crate / "src"
            source.mkdir(parents=True)
            (source / "lib.rt").write_text("")
            (source / "uses").write_text(uses)
        (self.top / "crates" / "other" / "src").mkdir(parents=True)
        (self.top / "crates.txt").write_text("# crates\nother: low\n" + "".join(
            f"{crate}: {uses} clap\n" for crate, uses in reversed(USES.items())))
        shutil.copy(TOP / "crates" / "zkdump" / "stdin", self.top / "crates" / "zkdump")
        (self.top / "packaging").mkdir()
        shutil.copy(TOP / "zkdump", self.top)
        shutil.copy(TOP / "packaging" / "build_program.py", self.top / "packaging")
        (self.folder / "bin").mkdir()
        (self.folder / "bin" / "rt").write_text(RT)
        (self.folder / "bin" / "rt").chmod(0o755)
        self.path = f"{self.folder / 'bin'}:{os.environ['PATH']}"
        self.program = self.top / "crates" / "zkdump" / "out" / "zkdump"

    def environment(self, **more):
        return {"PATH": self.path, "CALLS": str(self.calls), **more}

    def zkdump(self, *words, script=None, **environment):
        """Runs the script: its status, output and standard error, and the calls of the toolchain, sorted by name."""
        self.calls.write_text("")
        done = subprocess.run([script or self.top / "zkdump", *words], input="input", capture_output=True, text=True,
                              env=self.environment(**environment), cwd="/", check=False)
        return done.returncode, done.stdout, done.stderr, self.made()

    def made(self):
        """The crates that the toolchain was called in, and how, without the number of jobs."""
        lines = self.calls.read_text().splitlines()
        return [" ".join(line.split()[:2]) for line in lines if not line.endswith("ended")]

    def newer(self, path):
        """Makes this newer than the program."""
        later = self.program.stat().st_mtime + 10
        os.utime(path, (later, later))

    def assert_works(self):
        """That the program is there, and is the one that was built."""
        done = subprocess.run([self.program, "check"], input="input", capture_output=True, text=True, check=False)
        self.assertEqual((done.returncode, done.stdout), (7, "ran check\ninput"))


class Wrapper(WrapperCase):
    def test_it_reports_what_it_proves_and_then_is_silent(self):
        status, out, err, calls = self.zkdump("show", "--limit", "64")
        self.assertEqual((status, out), (7, "ran show --limit 64\ninput"), err)
        self.assertEqual(sorted(calls), sorted(CALLS))
        for told in ("proving low, crate 1 of 4\n", "proving zkdump, crate 4 of 4\n", "low took "):
            self.assertIn(told, err)
        self.assertTrue(all(line.startswith("zkdump: ") for line in err.splitlines()))
        self.assertEqual(sorted(path.name for path in (self.top / "crates" / "zkdump").iterdir()),
                         ["out", "src", "stdin"])
        self.assertEqual(sorted(path.name for path in self.program.parent.iterdir()), ["took", "zkdump"])
        self.assertEqual(self.zkdump("check"), (7, "ran check\ninput", "", []))

    def test_a_folder_as_standard_input(self):
        done = subprocess.run([f"{self.top}/zkdump check < /"], shell=True, capture_output=True, text=True,
                              env=self.environment(), check=False)
        self.assertEqual(done.stdout, "ran check\n", done.stderr)
        self.assertIn("zkdump: low took ", done.stderr)

    def test_it_reports_how_long_it_took_the_last_time(self):
        self.assertRegex(self.zkdump()[2], r"(?m)^zkdump: all of it took \d+ s\.$")
        self.newer(self.top / "crates" / "low" / "src" / "lib.rt")
        self.assertRegex(self.zkdump()[2],
                         r"(?m)^zkdump: The last time this took \d+ s \(\d{4}-\d\d-\d\d, .*\d cores\); ")

    def test_through_a_symbolic_link(self):
        links = self.folder / "links"
        links.mkdir()
        (links / "zkdump").symlink_to(os.path.relpath(self.top / "zkdump", links))
        (links / "again").symlink_to("zkdump")
        self.assertEqual(self.zkdump("check", script=links / "again")[:2], (7, "ran check\ninput"))
        self.assertEqual(self.zkdump("check", script=links / "zkdump"), (7, "ran check\ninput", "", []))

    def test_what_it_is_built_anew_for(self):
        self.zkdump()
        low = self.top / "crates" / "low"
        built, more = low / "out" / "src", low / "src" / "more"
        for folder in (built, more):
            folder.mkdir(parents=True)
            (folder / "made.rt").write_text("")
        os.utime(self.program)
        for path in (built / "made.rt", built, self.top / "crates", low):
            self.newer(path)
        self.assertEqual(self.zkdump()[3], [])
        for path in (low / "src" / "lib.rt", self.top / "crates.txt", self.top / "crates" / "left" / "src", more):
            with self.subTest(path=path):
                self.newer(path)
                self.assertEqual(self.zkdump(BROKEN="low")[3], ["low check"])
                os.utime(path, (0, 0))
                self.assertEqual(self.zkdump()[3], [])
        (more / "made.rt").unlink()
        self.newer(more)
        self.assertEqual(sorted(self.zkdump()[3]), sorted(CALLS))

    def test_what_cannot_be_built(self):
        status, out, err, calls = self.zkdump(BROKEN="low")
        log = self.top / "crates" / "zkdump" / "build.log"
        self.assertEqual((status, out, calls), (3, "", ["low check"]))
        self.assertIn(f"could not be built, since low was not proved; {log} says why", err)
        self.assertRegex(log.read_text(), r"^== low: rt check --jobs \d+\nwhat the toolchain says\n$")
        self.assertEqual(self.zkdump(BROKEN="zkdump")[0], 3)

    def test_without_the_toolchain_or_a_tree_that_can_be_written(self):
        (self.top / "crates" / "zkdump" / "build.log").mkdir()
        status, out, err, _ = self.zkdump()
        self.assertEqual((status, out, err.count("\n")), (3, "", 1))
        self.assertIn(f"{self.top}/crates/zkdump cannot be written", err)
        folders = os.environ["PATH"].split(":")
        self.path = ":".join(folder for folder in folders if not os.path.exists(os.path.join(folder, "rt")))
        self.assertRegex(self.zkdump()[2],
                         "^zkdump: the program has to be built, and the command rt .* is not on .*\n$")

    def test_without_python_once_it_is_built(self):
        self.zkdump()
        self.path = str(self.folder / "few")
        os.mkdir(self.path)
        for tool in ("sh", "dirname", "readlink", "find", "head", "cat"):
            os.symlink(shutil.which(tool), f"{self.path}/{tool}")
        self.assertEqual(self.zkdump("check"), (7, "ran check\ninput", "", []))

    def test_two_in_a_pipe_build_once(self):
        self.calls.write_text("")
        script = self.top / "zkdump"
        done = subprocess.run(["sh", "-c", f"{script} show | {script} build"], input="input", capture_output=True,
                              text=True, check=False, env=self.environment())
        self.assertEqual((done.returncode, done.stdout), (7, "ran build\nran show\ninput"))
        if shutil.which("flock"):
            self.assertEqual(len(self.made()), len(CALLS))


class Replacing(WrapperCase):
    def test_a_build_that_fails_leaves_the_program_that_works(self):
        self.zkdump()
        for broken in ("right", "zkdump"):
            with self.subTest(broken=broken):
                self.newer(self.top / "crates" / "low" / "src" / "lib.rt")
                self.assertEqual(self.zkdump(BROKEN=broken)[:2], (3, ""))
                self.assert_works()

    def test_a_build_that_is_ended_leaves_the_program_that_works(self):
        self.zkdump()
        for number, crate in ((signal.SIGINT, "low"), (signal.SIGTERM, "zkdump"), (signal.SIGKILL, "zkdump")):
            with self.subTest(number=number, crate=crate):
                self.newer(self.top / "crates" / "low" / "src" / "lib.rt")
                self.calls.write_text("")
                build = subprocess.Popen([self.top / "zkdump"], env=self.environment(SLEEPS="0.2"),
                                         stdin=subprocess.DEVNULL, stdout=subprocess.DEVNULL, stderr=subprocess.DEVNULL)
                while f"{crate} " not in self.calls.read_text():
                    time.sleep(0.01)
                build.send_signal(number)
                build.wait()
                self.assert_works()
                time.sleep(0.3)
                for taken in self.top.glob("crates/*/taken"):
                    taken.rmdir()
        self.assertEqual(self.zkdump()[:2], (7, "ran \ninput"))

    def test_a_program_that_a_killed_build_left_half_made_is_put_back(self):
        self.zkdump()
        shutil.copy2(self.program, f"{self.program}.before")
        self.program.write_text("junk")
        self.newer(self.top / "crates" / "low" / "src" / "lib.rt")
        self.assertEqual(self.zkdump(BROKEN="zkdump")[0], 3)
        self.assert_works()


class Lanes(WrapperCase):
    def run_lanes(self, count, **environment):
        """Proves in `count` lanes; returns the calls and their ends, in order."""
        self.calls.write_text("")
        script = ("import sys; from packaging import build_program as b; "
                  f"b.Build.lane_count = lambda self: {count}; b.Build(b.pathlib.Path(sys.argv[1])).run()")
        done = subprocess.run([sys.executable, "-c", script, self.top], cwd=TOP, capture_output=True, text=True,
                              env=self.environment(**environment), check=False)
        self.assertEqual(done.returncode, 0, done.stderr)
        return self.calls.read_text().splitlines()

    def test_crates_that_do_not_use_each_other_go_side_by_side(self):
        lines = self.run_lanes(2, SLEEPS="0.3")
        self.assertEqual(sorted(self.made()), sorted(CALLS))
        ended = lines.index("left check ended"), lines.index("right check ended")
        begun = [at for at, line in enumerate(lines) if line.startswith(("left check --jobs", "right check --jobs"))]
        self.assertEqual(len(begun), 2)
        self.assertLess(max(begun), min(ended))
        self.assertEqual(lines.index("zkdump run -- check"), len(lines) - 2)

    def test_all_is_given_to_the_tree(self):
        self.run_lanes(2, SLEEPS="0.2")
        for crate in ("low", "left", "right"):
            self.assertEqual((self.top / "crates" / crate / "out" / "rlib" / "made").read_text(), f"{crate}\n")

    def test_one_lane(self):
        self.assertEqual([line for line in self.run_lanes(1) if line.endswith("ended")],
                         ["low check ended", "low lib ended", "left check ended", "left lib ended",
                          "right check ended", "right lib ended", "zkdump run ended"])

    def test_what_a_crate_uses(self):
        text = "# all\na: kit\nb staticlib may_abort=2: a # low\n\nc: a\nd: c b kit\ne: d\n"
        self.assertEqual(build_program.crates_below(text, "d"), {"a": [], "c": ["a"], "b": ["a"], "d": ["c", "b"]})
        found = list(build_program.crates_below((TOP / "crates.txt").read_text(), "zkdump"))
        self.assertEqual((found[-1], set(found) - {path.name for path in (TOP / "crates").iterdir()}),
                         ("zkdump", set()))
        # Each tool that may be run by its name is a user's command once it is installed.
        self.assertFalse(pathlib.Path(TOP / "packaging" / "build_program.py").stat().st_mode & 0o100)

    @unittest.skipUnless(shutil.which("rt"), "no toolchain is on this machine's PATH")
    def test_the_toolchain_takes_a_lane_of_this_repository(self):
        build = build_program.Build(TOP)
        build.give = lambda *_: None
        lane = build.lane(self.folder / "lane")
        done = subprocess.run(["rt", "check", "--only", ""], cwd=lane / "crates" / "zk_frames", capture_output=True,
                              text=True, check=False)
        self.assertEqual(done.returncode, 0, done.stdout + done.stderr)
