"""Tests of packaging/freeze.py: what may change in zk.h under one name of the shared library, and what may not."""

import contextlib
import io
import shutil
import sys
import unittest
import unittest.mock

from packaging import freeze, make_library
from tests.tools.support import ToolCase

# What is changed in the header, and what is then said of it.
CHANGES = (
    ("    int64_t zxid;\n    int32_t err;\n};\n", "    int64_t zxid;\n    int32_t err;\n    int32_t more;\n    int64_t time;\n};\n", []),
    ("    bool whole;\n", "    bool whole;\n    bool more;\n    uint64_t time;\n", ["zk_step", "zk_step.fault"]),
    ("    size_t used;\n    uint32_t status;\n    uint32_t went;\n", "    size_t used;\n    uint32_t went;\n    uint32_t status;\n",
     ["zk_passed.status", "zk_passed.went"]),
    ("    int32_t expected;\n", "    uint32_t expected;\n", ["zk_fault.expected"]),
    ("    ZK_ROOM = 68, ", "    ZK_ROOM = 71, ", ["ZK_ROOM"]),
    ("ZK_ASKED = 2, ", "ZK_ASKED = 3, ", ["ZK_ASKED"]),
    ("    ZK_FULL = 4,  ", "    ZK_MORE = 9,\n    ZK_FULL = 4,  ", []),
    ("uint32_t zk_talk_renew(struct zk_talk *talk);", "uint64_t zk_talk_renew(struct zk_talk *talk);", ["zk_talk_renew"]),
    ("zk_judge_first(const uint8_t *bytes, size_t length);", "zk_judge_first(const uint8_t *bytes, uint32_t length);",
     ["zk_judge_first"]),
    ("uint32_t zk_version(void);", "uint32_t zk_version(void);\n\nuint32_t zk_more(void);", []),
)


@unittest.skipUnless(shutil.which("cc"), "there is no compiler of C")
class Frozen(ToolCase):
    def setUp(self):
        super().setUp()
        self.header, self.frozen = self.folder / "zk.h", self.folder / "frozen.c"
        self.text = make_library.HEADER.read_text()
        self.header.write_text(self.text)
        for module, names in ((freeze, {"HEADER": self.header, "FROZEN": self.frozen, "TOP": self.folder}),
                              (make_library, {"HEADER": self.header})):
            patch = unittest.mock.patch.multiple(module, **names)
            patch.start()
            self.addCleanup(patch.stop)
        (self.folder / "VERSION").write_text("0.10.0\n")
        (self.folder / "CHANGELOG.md").write_text("## [Unreleased]\n")

    def run_with(self, word):
        said = io.StringIO()
        with unittest.mock.patch.object(sys, "argv", ["freeze.py", word]), contextlib.redirect_stderr(said):
            return freeze.main(), said.getvalue()

    def test_what_may_change(self):
        self.assertEqual(self.run_with("--write"), (0, ""))
        for old, new, wanted in CHANGES:
            self.assertEqual(self.text.count(old), 1, old)
            self.header.write_text(self.text.replace(old, new))
            told = [f"{name} isn't what 0.10.0 has: that needs another SONAME" for name in wanted]
            self.assertEqual(list(freeze.faults()), told, new)

    def test_a_closed_release_is_not_taken_back(self):
        self.run_with("--write")
        old, new, _ = CHANGES[1]
        self.header.write_text(self.text.replace(old, new))
        self.assertEqual(self.run_with("--check")[0], 1)
        (self.folder / "CHANGELOG.md").write_text("## [Unreleased]\n\n## [0.10.0] - 2026-12-01\n")
        before = self.frozen.read_text()
        self.assertEqual((self.run_with("--write")[0], self.frozen.read_text()), (1, before))
        for module in (freeze, make_library):
            patch = unittest.mock.patch.object(module, "SONAME", "libzk.so.3")
            patch.start()
            self.addCleanup(patch.stop)
        told = "freeze.py: frozen.c is of libzk.so.2, and programs need libzk.so.3: write it anew\n"
        self.assertEqual(self.run_with("--check"), (1, told))
        self.assertEqual(self.run_with("--write"), (0, ""))


if __name__ == "__main__":
    unittest.main()
