"""The tables of zkstat: numbers as they are."""

import json

from .support import ToolCase

ASKED = 1_795_332_633_000


class Tables(ToolCase):
    run_tool = ToolCase.run_inside

    def test_long_latencies(self):
        """The greatest latency is exact, also one of more than ten digits: of hours, or up to 1970."""
        for ms, shown in ((0, "0"), (4.5, "4.5"), (1000, "1000"), (9_999_999.999, "9999999.999"),
                          (10_005_123.456, "10005123.456"), (1_795_332_632_999, "1795332632999"),
                          (2 ** 53 + 1, str(2 ** 53 + 1)), (10 ** 18 + 1, str(10 ** 18 + 1))):
            lines = "".join(json.dumps(each) + "\n" for each in (
                {"n": 1, "side": "C", "xid": 1, "op": "sync", "path": "/a", "at": ASKED},
                {"n": 2, "side": "S", "xid": 1, "op": "sync", "zxid": "0x5", "path": "/a", "at": ASKED + ms, "ms": ms,
                 "of": 1, "asked": "/a"}))
            status, out, err = self.run_tool("zkstat.py", stdin=lines.encode())
            self.assertEqual((status, err), (0, ""))
            _, operation, *_ = lines = out.splitlines()
            self.assertEqual(operation.split()[-4:], [shown] * 4)
            self.assertEqual(lines[-1].split()[1], shown)
            self.assertIn(f"  {shown}  no ending line", out)
