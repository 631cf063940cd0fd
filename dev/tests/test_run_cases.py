"""A test of crates/zkdump/run_cases.py: what can't be run fails."""

import shutil
import subprocess
import sys

from tests.tools.support import TOP, ToolCase


class Lacking(ToolCase):
    def test_a_recording_without_its_listing_and_a_case_without_its_arguments(self):
        script = self.folder / "crates" / "zkdump" / "run_cases.py"
        cases, captures = script.parent / "cases" / "check", self.folder / "captures"
        for folder in (cases, captures):
            folder.mkdir(parents=True)
        shutil.copy(TOP / "crates" / "zkdump" / "run_cases.py", script)
        (cases / "good.args").write_text("check\n")
        for path in (cases / "bad.in", cases / "bad.out", captures / "some.zkr"):
            path.touch()
        done = subprocess.run([sys.executable, script, "--program", "/bin/true", "check"], capture_output=True, text=True,
                              check=False)
        self.assertEqual((done.returncode, done.stderr), (1, ""))
        self.assertEqual(done.stdout.splitlines(), ["check/bad.in: it has no .args", "check/bad.out: it has no .args",
                                                    "captures/some.zkr: it has no listing", "1 passed, 3 failed"])
