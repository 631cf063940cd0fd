"""Lines of a listing that no message has."""

from .support import ToolCase


class Lines(ToolCase):
    run_tool = ToolCase.run_inside

    def test_an_xid_that_is_missing_or_too_many_and_an_error_of_0(self):
        """Columns are those of zkdump build (docs/FORMATS.md, sections 9 and 10)."""
        request, connect = 'C 1 sync path="/a"', " version=0 zxid=0 timeout=1 session=0 passwd=~ ro=-"
        for lines, n, column in ((['C sync path="/a"'], 1, 3), ([request, 'S sync zxid=5 path="/a"'], 2, 3),
                                 ([f"C 1 connect{connect}"], 1, 5), ([request, "S 1 sync zxid=5 err=0"], 2, 21),
                                 ([request, "S 1 sync zxid=5 err=0/OK"], 2, 21),
                                 (['S 1 event zxid=5 kind=0 state=3 path="/a"'], 1, 5)):
            for tool in ("zkjson.py", "zkstat.py"):
                status, _, err = self.run_tool(tool, stdin="".join(f"{line}\n" for line in lines).encode())
                self.assertEqual((status, err), (1, f"{tool}: line {n}: from column {column} on this is no line as "
                                                    "zkdump show writes it\n"), lines)
        good = [f"C connect{connect}", request, 'S event zxid=5 kind=0 state=3 path="/a"']
        self.assertEqual(self.run_tool("zkjson.py", stdin="\n".join(good).encode())[0], 0)
