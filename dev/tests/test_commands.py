"""Tests of tests/pages/commands.py: what of a page it runs, and what it fails."""

import subprocess
import sys

from tests.tools.support import TOP, ToolCase

LISTENS = """
    $ tools/zkplay.py 2181 crates/zkdump/stdin
    listening on 127.0.0.1:2181
    played: 68 bytes of the client, 61 of the server
"""
PASSES = """
    $ tools/record.py 2182 localhost:2181 mine
    record.py: listens on 127.0.0.1:2182; Ctrl-C ends it
    mine-1.zkr 127.0.0.1:1 begun 2000-01-01T00:00:00.000Z
    mine-1.zkr 127.0.0.1:1 ended 2000-01-01T00:00:00.000Z client=68 server=61 closed=C
"""
OTHER_CLIENT = """
<!-- played: captures/kazoo_basic.zkr -->

    $ tools/zkplay.py 2181 crates/zkdump/stdin
    listening on 127.0.0.1:2181
    zkplay.py: client frame=0 offset=19 place=14: expected byte 0x75, got 0x27
"""
MARKED = "\n<!-- not run: no reason -->\n\n    $ exit 1\n    what it prints\n"


class RunExamples(ToolCase):
    def run_page(self, text):
        """The status, and what is printed of a page with this text."""
        page = self.folder / "page.md"
        page.write_text(text)
        done = subprocess.run([sys.executable, "-m", "tests.pages.commands", "--program", "/bin/true", page], cwd=TOP,
                              capture_output=True, text=True, check=False)
        return done.returncode, done.stdout

    def assert_counts(self, text, passed, failed):
        status, out = self.run_page(text)
        self.assertEqual((status, out.splitlines()[-1]), (int(failed > 0), f"{passed} passed, {failed} failed"), out)

    def test_commands_that_listen_have_a_client_and_those_that_ask_a_server(self):
        self.assert_counts(LISTENS + "\nwords\n" + PASSES + OTHER_CLIENT + "\nwords\n" + LISTENS, 4, 0)

    def test_files_of_one_command_are_there_for_the_next(self):
        self.assert_counts("    $ echo a > file\n    $ cat file\n    a\n    $ cat >> file <<x\n    > b\n    > x\n"
                           "    $ cat file port.pcap | head -n 2\n    a\n    b\n", 4, 0)

    def test_other_output(self):
        self.assert_counts("    $ echo a\n    b\n\n    $ echo a\n    a\n\n    $ echo a\n", 1, 2)
        self.assert_counts(PASSES.replace("68", "69"), 0, 1)

    def test_status(self):
        for end in ("exit 2", "exit 3", "kill -9 $$", "no_such_command 2> /dev/null"):
            self.assert_counts(f"    $ echo a; {end}\n    a\n", 0, 1)
        self.assert_counts("    $ echo a; exit 1\n    a\n", 1, 0)
        self.assert_counts("    $ test -f no\n", 0, 1)
        played = "tools/zkplay.py 2181 crates/zkdump/stdin"
        self.assert_counts(LISTENS.replace(played, f"sh -c '{played}; exit 2'"), 0, 1)
        self.assert_counts(LISTENS.replace(played, f"sh -c '{played}; sleep 2'"), 1, 0)

    def test_what_is_marked_is_reported_and_what_is_not_fails(self):
        status, out = self.run_page(MARKED)
        self.assertEqual((status, out.count("no reason"), out.splitlines()[-1]), (0, 1, "0 passed, 0 failed"))
        self.assert_counts(MARKED + "\n    $ echo a\n    b\n", 0, 1)
        for block in ("    a line of output\n", "```sh\necho a\n```\n", "```\nwords\n```\n",
                      "```c file.c words\nf();\n```\n", "- words\n\n  ```sh\n  echo a\n  ```\n"):
            self.assert_counts("words\n\n" + block + "\nwords\n\n    $ echo a\n    a\n", 1, 1)

    def test_code_of_rust(self):
        (self.folder / "code.rt").write_text("fn f() {\n    g();\n}\n")
        self.assert_counts(f"```rust {self.folder}/code.rt\nfn f() {{\n    g();\n```\n", 1, 0)
        self.assert_counts(f"```rust {self.folder}/code.rt\nfn f() {{\n    h();\n```\n", 0, 1)
        self.assert_counts(f"```rust {self.folder}/code.rt\n\n```\n", 0, 1)

    def test_code_of_no_file_and_code_without_an_end(self):
        self.assert_counts(f"```c {self.folder}/no.c\nf();\n```\n", 0, 1)
        self.assert_counts("words\n\n```\nwords\n", 0, 1)
