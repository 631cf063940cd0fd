"""Small made-up conversations as lines of zkjson, for the tests of zkreport."""

import json

T = 1_700_000_000_000      # 2023-11-14T22:13:20.000Z
HOSTILE = '</script><img src=x onerror=alert(1)>&amp;"\'\\\x1b]0;owned\x07\x00\u202e\u2028`${1}\ud7ff\U0001f600'
NONODE, BADVERSION = {"err": -101, "errName": "NONODE"}, {"err": -103, "errName": "BADVERSION"}


class Lines:
    """The messages of a connection, as they are said. Times are milliseconds since T; None leaves them out."""

    def __init__(self):
        self.objects, self.asked = [], {}

    def put(self, at, **fields):
        made = {"n": len(self.objects) + 1, **fields}
        if at is not None:
            made["at"] = T + at
        self.objects.append(made)
        return made

    def ask(self, at, op, xid=None, **fields):
        made = self.put(at, side="C", **({} if xid is None else {"xid": xid}), op=op, **fields)
        self.asked[xid] = made

    def answer(self, at, xid=None, **fields):
        asked = self.asked[xid]
        made = self.put(at, side="S", **({} if xid is None else {"xid": xid}), op=asked["op"], **fields)
        if at is not None:
            made["ms"] = round(made["at"] - asked["at"], 3)
        made["of"] = asked["n"]
        if "path" in asked:
            made["asked"] = asked["path"]

    def event(self, at, kind, name, path):
        self.put(at, side="S", op="event", zxid="0xffffffffffffffff", kind=kind, kindName=name, state=3, path=path)

    def connect(self, at, took, asked="0x0", given="0x7", timeout=10_000):
        until = None if at is None else at + took
        self.ask(at, "connect", version=0, zxid="0x0", timeout=timeout, session=asked, passwd={"hex": "00" * 16},
                 ro=False)
        self.answer(until, version=0, timeout=timeout, session=given, passwd={"hex": "5e" * 16}, ro=False)

    def write(self, path, **ending):
        """Writes them to a file, with this ending."""
        path.write_text("".join(json.dumps(each) + "\n" for each in [*self.objects, ending]))
        return path


def first(path):
    """A connection that ends with a request unanswered, 5 s before the second one."""
    lines = Lines()
    lines.connect(0, 2)
    lines.ask(10, "exists", 1, path="/a", watch=True)
    lines.answer(11.25, 1, zxid="0x5", **NONODE)
    lines.ask(20, "create", 2, path="/a", blob="hello", acl=[], flags=0)
    lines.answer(50, 2, zxid="0x6", path="/a")
    lines.event(50, 1, "NodeCreated", "/a")
    lines.ask(60, "getData", 3, path="/a", watch=True)
    lines.answer(61, 3, zxid="0x6", blob="hello", stat={"czxid": "0x6", "version": 0})
    lines.ask(70, "setData", 4, path="/b/\x1b[2J", blob={"hex": "00ff"}, version=-1)
    return lines.write(path, ending="whole", unanswered=1, waiting=[10])


def second(path):
    """The same session again: it sets its watches again, and is closed."""
    lines = Lines()
    lines.connect(5070, 1.5, asked="0x7")
    lines.ask(5080, "setWatches", -8, zxid="0x6", dataWatches=["/a"], existWatches=[], childWatches=[])
    lines.answer(5084, -8, zxid="0x6")
    lines.ask(5090, "setData", 1, path="/a", blob="x", version=3)
    lines.answer(5190, 1, zxid="0x6", **BADVERSION)
    lines.ask(5195, "multi", 2, parts=[{"op": "delete", "path": "/a", "version": -1},
                                       {"op": "check", "path": "/b", "version": 1}])
    lines.answer(5196, 2, zxid="0x7", parts=[{"op": "fail", "err": 0, "errName": "OK"}, {"op": "fail", **NONODE}])
    lines.ask(5200, "closeSession", 3)
    lines.answer(5201, 3, zxid="0x7")
    return lines.write(path, ending="whole", unanswered=0, waiting=[])
