"""Tests of what tests/library/header.py finds in a header that is not the library's."""

import unittest.mock

from tests.tools.support import ToolCase

from tests.library import header


class Header(ToolCase):
    def test_what_is_changed_is_found(self):
        good = header.HEADER.read_text()
        for name, old, new in (
            ("nothing", "ZK_VERSION", "ZK_VERSION"),
            ("zk_talk_new", "*talk, uint32_t client, uint32_t server", "*talk, uint32_t server, uint32_t client"),
            ("zk_write_reply", "int32_t xid, int64_t zxid, int32_t err", "int32_t err, int64_t zxid, int32_t xid"),
            ("zk_talk_step", "side, const uint8_t *piece", "side, uint8_t *piece"),
            ("struct zk_fault", "uint32_t place;\n    uint32_t reason;", "uint32_t reason;\n    uint32_t place;"),
            ("ANSWERED", "ZK_ANSWERED = 3", "ZK_ANSWERED = 2"),
            ("SERVER", "ZK_SERVER = 1", "ZK_SERVER = 2"), ("REPLY", "ZK_REPLY = 4", "ZK_REPLY = 3"),
            ("KIND_BLOB", "ZK_KIND_BLOB = 5", "ZK_KIND_BLOB = 6"), ("UNSEEN", "ZK_UNSEEN = 5", "ZK_UNSEEN = 6"),
        ):
            with self.subTest(name):
                changed = self.folder / "zk.h"
                changed.write_text(good.replace(old, new, 1))
                with unittest.mock.patch.object(header, "HEADER", changed):
                    found = [name for name, good, _ in header.compare_header() if not good]
                self.assertEqual(found, [] if name == "nothing" else [name])
