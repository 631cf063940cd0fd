"""Tests of dev/architecture.py: a crate that the list of crates lacks is named, and an example that no test has."""

import contextlib
import importlib.util
import io
from unittest import mock

from tests.tools.support import TOP, ToolCase

MARKS = "<!-- The lines from here on are written by dev/architecture.py. -->\n<!-- Up to here. -->\n"
LIBRARY = """//! A crate.
//!
//! ```text
//! let one = one();
//! if one == 1 {
//!     two();
//! }
//! ```
mod one;
"""
TESTS = """//! Examples.
fn one() {
    let one = one();
    if one == 1 {
        two();
    }
}
"""
LACKING = "crates/low/src/lib.rt: no test has the lines of its example: "


class Crates(ToolCase):
    def setUp(self):
        super().setUp()
        self.write("dev/architecture.py", (TOP / "dev" / "architecture.py").read_text())
        self.write("docs/ARCHITECTURE.md", MARKS)
        self.write("crates/low/src/lib.rt", LIBRARY)
        self.write("crates/some_tests/src/lib.rt", "//! Tests.\n")
        self.write("crates/some_tests/src/tests/examples.rt", TESTS)
        self.write("crates.txt", "low:\nsome_tests: low\n")

    def write(self, name, text):
        path = self.folder / name
        path.parent.mkdir(parents=True, exist_ok=True)
        path.write_text(text)

    def run_script(self, *words):
        """The status of the script of this folder, and what it prints."""
        spec = importlib.util.spec_from_file_location("architecture", self.folder / "dev" / "architecture.py")
        script = importlib.util.module_from_spec(spec)
        spec.loader.exec_module(script)
        with contextlib.redirect_stdout(io.StringIO()) as out, mock.patch("sys.argv", ["architecture", *words]):
            status = script.main()
        return status, out.getvalue()

    def finds(self, *wrong):
        """The page is written, and then a check finds this and no more."""
        self.run_script()
        last = f"0 passed, {len(wrong)} failed" if wrong else "3 passed, 0 failed"
        told = "".join(f"{line}\n" for line in (*wrong, last))
        self.assertEqual(self.run_script("--check"), (1 if wrong else 0, told))

    def test_a_crate_that_the_list_lacks(self):
        self.finds()
        self.assertIn("\n\n    some_tests\n    low\n\n", (self.folder / "docs" / "ARCHITECTURE.md").read_text())
        self.write("crates.txt", "some_tests:\n")
        self.run_script()
        self.assertEqual(self.run_script("--check"), (1, "crates/low is not in crates.txt\n0 passed, 1 failed\n"))

    def test_an_example_that_no_test_has(self):
        """The crate's page has another, or the test; a block without a line is none, and each library has one."""
        self.write("crates/low/src/lib.rt", LIBRARY.replace("two()", "three()"))
        self.finds(f"{LACKING}let one = one();")
        self.write("crates/low/src/lib.rt", LIBRARY)
        self.write("crates/some_tests/src/tests/examples.rt", TESTS.replace("== 1", "== 2"))
        self.finds(f"{LACKING}let one = one();")
        self.write("crates/low/src/lib.rt", "//! A crate.\n//!\n//! ```text\n//! ```\n")
        self.finds(f"{LACKING}there are none")
        self.write("crates/low/src/lib.rt", "//! A crate.\n")
        self.finds("crates/low/src/lib.rt shows no example")

    def test_an_example_of_a_program_in_c(self):
        self.write("crates/low/src/lib.rt", LIBRARY.replace("one == 1", "(one == 1)"))
        self.finds(f"{LACKING}let one = one();")
        self.write("examples/one.c", TESTS.replace("one == 1", "(one == 1)"))
        self.finds()
