"""The lines of zkjson as input: what is said of them is what is said of their recording."""

import argparse
import json
import types

from .support import ToolCase
from tools.zkdump_tools import selection

SESSION = "0x100000000000001"
MESSAGES = [{"n": 3, "side": "C", "xid": 1, "op": "exists", "path": "/a", "watch": False},
            {"n": 4, "side": "S", "xid": 1, "op": "exists", "zxid": "0x5", "err": -101, "errName": "NONODE", "of": 3,
             "asked": "/a"},
            {"n": 5, "side": "C", "xid": 2, "op": "exists", "path": "/b", "watch": False}]
ENDING = {"ending": "whole", "unanswered": 1, "waiting": [5]}


class Joined(ToolCase):
    run_tool = ToolCase.run_inside

    def said(self, tool, *words, lines):
        text = "".join(json.dumps({"connection": "a.zkr", **each}) + "\n" for each in lines)
        path = self.folder / "a.json"
        path.write_text(text)
        status, out, err = self.run_tool(tool, *words, path)
        self.assertEqual((status, err), (0, ""))
        return out

    def test_a_session_that_the_facts_alone_say(self):
        """zkjson --op exists has left out the connect messages."""
        lines = [*MESSAGES, {**ENDING, "facts": {"session": SESSION}}]
        for session, asked in ((SESSION, 2), ("0x7", None)):
            found = json.loads(self.said("zkstat.py", "--json", "--session", session, lines=lines))
            self.assertEqual([(each["asked"], each["answered"], each["failed"]) for each in found["connections"]],
                             [(2, 1, 0)] if asked else [])
            self.assertEqual(found["operations"].get("exists", {}).get("asked"), asked)
            self.assertEqual([each["n"] for each in found["unanswered"]], [5] if asked else [])
        found = self.said("zkreport.py", "--text", "--session", SESSION, lines=lines)
        self.assertIn("1 connection, 1 session, 3 messages, 2 requests, 0 failed, 1 unanswered, 0 events\n", found)
        self.assertIn('        5  exists     "/b"\n', found)

    def test_connections_of_a_session_are_in_order(self):
        """Also where the first has no connect response, so that its session is not known before its ending."""
        asked = {"n": 1, "side": "C", "op": "connect", "version": 0, "zxid": "0x0", "timeout": 9, "session": "0x7",
                 "passwd": None, "ro": None}
        given = {"n": 2, "side": "S", "op": "connect", "version": 0, "timeout": 9, "session": "0x7", "passwd": None,
                 "ro": None, "of": 1}
        lines = [{"connection": name, **each} for name, more in (("b", []), ("a", [given]), ("c", []), ("d", [given]))
                 for each in (asked, *more, {"ending": "whole", "unanswered": 1 - len(more)})]
        found = self.said("zkreport.py", "--text", "--session", "0x7", lines=lines)
        rows = found.partition("\nConnections\n")[2].split("\n\n")[0].splitlines()[1:]
        self.assertEqual([row.split()[:3] for row in rows],
                         [[f"#{number}", "0x7", name] for number, name in enumerate("bacd", 1)])
        self.assertEqual(found, self.said("zkreport.py", "--text", lines=lines))

    def test_many_connections_whose_session_is_not_known(self):
        """Each is looked at a few times, however many there are, whether or not their endings are there."""
        looked = []

        class Connection:
            known, session = False, "0x7"

            def __init__(self, ending):
                self.word = ending

            @property
            def ending(self):
                looked.append(self)
                return self.word
        words = argparse.Namespace(**dict.fromkeys(("path", "op", "slower", "begin", "end")), session=["0x7"])
        for ending in (None, {"ending": "whole"}):
            messages = [(None, types.SimpleNamespace(connection=Connection(ending)), None) for _ in range(500)]
            looked.clear()
            self.assertEqual(list(selection.Selection(words).chosen(None, messages)), messages)
            self.assertLess(len(looked), 2000)

    def test_replies_with_a_time_before_their_request(self):
        """A reply has no ms where its time is before that of its request, or where one of them has no time."""
        request, reply, other = MESSAGES
        for at, replied, ms, backwards in ((10, 9.5, {}, 1), (10, 10, {"ms": 0}, 0), (10, 9.9999, {"ms": 0}, 0),
                                           (None, 9, {}, 0), (10, None, {}, 0)):
            times = [{} if each is None else {"at": each} for each in (at, replied)]
            lines = [{**request, **times[0]}, {**reply, **times[1], **ms}, other, ENDING]
            with self.subTest(at=at, replied=replied):
                found = json.loads(self.said("zkstat.py", "--json", lines=lines))
                self.assertEqual(found["connections"][0]["backwards"], backwards)
                self.assertEqual("1 replies have a time before" in self.said("zkstat.py", lines=lines), backwards > 0)
                self.assertEqual("1 replies have a time before" in self.said("zkreport.py", "--text", lines=lines),
                                 backwards > 0)

    def test_a_path_that_is_null(self):
        """It is shown as in a listing, which has another spelling for no path."""
        asked = {"n": 3, "side": "C", "xid": 1, "op": "sync", "path": None, "at": 5}
        answered = {"n": 4, "side": "S", "xid": 1, "op": "sync", "zxid": "0x5", "path": None, "at": 7, "ms": 2.0,
                    "of": 3}
        for lines in ([asked, {**answered, "asked": None}], [{**answered, "asked": None}]):
            found = json.loads(self.said("zkstat.py", "--json", lines=lines))
            self.assertEqual([each["path"] for each in found["slowest"]], ["~"])
        found = json.loads(self.said("zkstat.py", "--json", lines=[answered]))
        self.assertEqual([each["path"] for each in found["slowest"]], [None])
        found = json.loads(self.said("zkstat.py", "--json", lines=[asked, {**asked, "n": 4, "path": "~"}]))
        self.assertEqual([each["path"] for each in found["unanswered"]], ["~", '"~"'])

    def test_comparison_of_replies_without_their_requests(self):
        """As zkjson --slower leaves them."""
        paths = []
        for name, code in (("a", -101), ("b", -101), ("c", -4)):
            paths.append(self.folder / f"{name}.json")
            reply = {**MESSAGES[1], "err": code, "errName": "NONODE" if code == -101 else "CONNECTIONLOSS"}
            paths[-1].write_text("".join(json.dumps(each) + "\n" for each in (reply, {**ENDING, "waiting": []})))
        for other, status, said in ((1, 0, "no difference: 1 exchanges and events are the same\n"),
                                    (2, 1, "the first difference is a reply of connection #1, after 0 exchanges")):
            found, out, err = self.run_tool("zkreport.py", "--text", paths[0], "--against", paths[other])
            self.assertEqual((found, err), (status, ""))
            self.assertIn(said, out)

    def test_what_is_no_ending(self):
        """An ending has the fields of its line. Their order is no matter, and others are passed over."""
        refused = {"ending": "refused", "side": "C", "frame": 3, "offset": 90, "place": 4, "reason": "XidOp"}
        for made, shown in ((refused, "refused side=C frame=3 offset=90 place=4 reason=XidOp"),
                            (dict(sorted(refused.items()), host="here"),
                             "refused side=C frame=3 offset=90 place=4 reason=XidOp"),
                            ({"ending": "unread", "reason": "a reason"}, "unread: a reason"),
                            ({"ending": "unread"}, None), ({"ending": "unread", "reason": 5}, None),
                            ({"ending": "whole"}, None), ({"ending": "whole", "unanswered": "0"}, None),
                            ({"ending": "cut", "side": "S", "frame": 4}, None),
                            ({"ending": "cut", "side": 5, "frame": 4, "got": 2}, None),
                            ({"ending": "whole", "unanswered": True}, None), ({"ending": ["whole"]}, None)):
            with self.subTest(made=made):
                status, out, err = self.run_tool("zkstat.py", stdin=json.dumps(made).encode())
                self.assertEqual((status, err), (1, "zkstat.py: line 1: this is not an ending of zkjson\n")
                                 if shown is None else (1, ""))
                self.assertTrue(shown is None or f"  {shown}\n" in out, out)

    def test_a_recording_that_could_not_be_read(self):
        """Of zkjson --jobs it has one line; that it is missing is the status, as where the tool itself read it."""
        path = self.folder / "a.json"
        path.write_text(json.dumps({"connection": "bad.zkr", "ending": "unread", "reason": "Permission denied"}) + "\n")
        for tool, words in (("zkstat.py", []), ("zkstat.py", ["--jobs", "1"]), ("zkreport.py", ["--text"])):
            status, out, err = self.run_tool(tool, *words, path)
            self.assertEqual((status, err), (1, ""), (tool, words))
            self.assertRegex(out, "unread(: | reason=)Permission denied")
