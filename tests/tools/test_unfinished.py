"""Tests of the facts that are written when a recording begins, and of what the tools say where no others took their
place; and of what zkfleet says of others by which bytes are missing."""

import json
import subprocess
import sys
import time

from tools.zkdump_tools import facts
from . import wire
from .captured import packed
from .proxied import TroubleCase
from .support import PROGRAM, TOOLS, TOP, ToolCase, pieces, zkr

RUN = TOP / "crates" / "zkdump" / "stdin"


class Unfinished(TroubleCase):
    """A recording whose recorder was ended by SIGKILL, so that nothing says how its connection went on."""

    def setUp(self):
        super().setUp()
        if not PROGRAM.exists():
            self.skipTest("the program zkdump is not built")
        self.port, self.path = self.begin("record.py"), self.folder / "r-1.zkr"

    def ended_by_force(self):
        """The recording of a client whose recorder was killed. In place of what the echo said, it has the first three
        pieces of the stored run, whose exists waits for its reply."""
        self.ask(self.client(self.port))
        self.tool.kill()
        self.tool.wait()
        said = pieces(RUN.read_bytes())[:3]
        self.path.write_bytes(b"ZKR1" + b"".join(side + len(data).to_bytes(4, "big") + data for side, _, data in said))
        (self.folder / "r-1.zkr.times").write_text("1795332633000\n1795332633004\n1795332634000\n")
        return self.path

    def test_while_it_is_made_and_after(self):
        """The facts are there with the recording, and say who speaks; they end with the connection."""
        client = self.client(self.port)
        self.ask(client)
        begun = json.loads((self.folder / "r-1.facts.json").read_text("ascii"))
        self.assertEqual((begun["unfinished"], begun["tool"], begun["client"], begun["server"]),
                         (True, "record", "%s:%d" % client.getsockname(), f"127.0.0.1:{self.echo.port}"))
        self.assertTrue(facts.facts_of(self.path).unfinished)
        client.close()
        self.lines(2)
        self.tool.terminate()
        self.tool.wait()
        found = json.loads((self.folder / "r-1.facts.json").read_text("ascii"))
        self.assertEqual((found.get("unfinished"), found["closed"], found["begun"]), (None, "C", begun["begun"]))
        self.assertEqual(sorted(path.name for path in self.folder.glob("r-1.facts*")), ["r-1.facts.json"])

    def test_each_tool_says_so(self):
        path = self.ended_by_force()
        status, out, _ = self.run_inside("zkstat.py", "--json", path)
        found = json.loads(out)
        self.assertEqual((status, found["unanswered"], [each["op"] for each in found["notCaptured"]]),
                         (1, [], ["exists"]))
        status, out, _ = self.run_inside("zkstat.py", path)
        row, = (line for line in out.splitlines() if line.startswith(str(path)) and " whole " in line)
        self.assertEqual((status, row.split()[-3:]), (1, ["whole", "unanswered=1", "unfinished"]))
        status, out, _ = self.run_inside("zkjson.py", path)
        ending = json.loads(out.splitlines()[-1])
        self.assertEqual((status, ending["waiting"], ending["notCaptured"], ending["facts"]["unfinished"]),
                         (1, [], [3], True))
        status, out, _ = self.run_inside("zkreport.py", "--text", path)
        self.assertEqual((status, "whole, unfinished" in out, "not known: the recording is unfinished" in out),
                         (1, True, True), out)
        status, out, _ = self.run_tool("zkfleet.py", "check", path)
        self.assertEqual((status, out.splitlines()[0], out.splitlines()[2:]),
                         (1, f"{path}: unfinished unanswered=1", ["       1 unfinished"]))
        capture = self.folder / "r.pcap"
        self.assertEqual(self.run_inside("zkr2pcap.py", path, capture)[0], 0)
        self.run_inside("pcap2zkr.py", capture, self.folder / "again")
        self.assertTrue(facts.facts_of(self.folder / "again-1.zkr").open)
        self.run_inside("zkskip.py", path, self.folder / "plain.zkr")
        self.assertTrue(facts.facts_of(self.folder / "plain.zkr").unfinished)


class Converted(ToolCase):
    """A recording whose converter was ended by SIGKILL in the middle of a capture."""

    def test_what_is_left_is_not_whole(self):
        if not PROGRAM.exists():
            self.skipTest("the program zkdump is not built")
        hello, welcome = (data for _, _, data in pieces(RUN.read_bytes())[:2])
        asked = [(b"C", bytes.fromhex("0000000f") + number.to_bytes(4, "big") + bytes.fromhex("00000003000000022f6100"))
                 for number in range(1, 4000)]
        sent = list(wire.conversation([zkr.Piece(side, None, data) for side, data in
                                       ((b"C", hello), (b"S", welcome), *asked)]))
        capture = wire.pcap(packed(sent[:-3]))      # without its end
        converter = subprocess.Popen([sys.executable, TOOLS / "pcap2zkr.py", "-", self.folder / "r"],
                                     stdin=subprocess.PIPE, stdout=subprocess.DEVNULL)
        self.addCleanup(converter.stdin.close)
        self.addCleanup(converter.wait)
        self.addCleanup(converter.kill)
        converter.stdin.write(capture)
        converter.stdin.flush()
        path, until = self.folder / "r-1.zkr", time.monotonic() + 30
        while not (path.exists() and path.stat().st_size) and time.monotonic() < until:
            time.sleep(0.02)
        converter.kill()
        converter.wait()
        made = path.read_bytes()
        self.assertTrue(0 < len(made) < 4 + len(hello) + len(welcome) + 24 * len(asked))
        found = facts.facts_of(path)
        self.assertEqual((found.unfinished, found.tool, found.client, found.connected),
                         (True, "pcap2zkr", "10.0.0.7:41822", wire.BEGUN))
        status, out, _ = self.run_inside("zkjson.py", path)
        ending = json.loads(out.splitlines()[-1])
        self.assertEqual((status, ending["waiting"], len(ending["notCaptured"]) > 1000, ending["facts"]["unfinished"]),
                         (1, [], True, True))
        status, out, _ = self.run_tool("zkfleet.py", "check", path)
        self.assertEqual((status, out.splitlines()[2:]), (1, ["       1 unfinished"]))


class Incomplete(ToolCase):
    """Recordings of connections of which bytes are missing."""

    def test_missing_bytes(self):
        if not PROGRAM.exists():
            self.skipTest("the program zkdump is not built")
        run, known = RUN.read_bytes(), facts.Facts(closed="C", part=2)
        made = {"a": (run, {}, "whole unanswered=0"),
                "b": (run, {"hole": ("S",)}, "incomplete unanswered=0 hole=S"),
                "c": (run, {"hole": ("C", "S")}, "incomplete unanswered=0 hole=C,S"),
                "d": (run, {"lost": {"C": 0, "S": 96}}, "incomplete unanswered=0 lost=C:0,S:96"),
                "e": (run, {"lost": {"C": 7, "S": 0}, "hole": ("C",)}, "incomplete unanswered=0 lost=C:7,S:0 hole=C"),
                "f": (run[:-1], {"hole": ("S",)},     # the last reply has 20 bytes
                      f"recording offset={len(run) - 20} reason=Short messages=3 hole=S")}
        for name, (data, missing, _) in made.items():
            path = self.folder / f"{name}.zkr"
            path.write_bytes(data)
            facts.write(path, known._replace(**missing))
        status, out, err = self.run_tool("zkfleet.py", "check", "--all", self.folder)
        self.assertEqual((status, err, out.replace(f"{self.folder}/", "").splitlines()),
                         (1, "", [*(f"{name}.zkr: {told}" for name, (_, _, told) in made.items()),
                                  f"6 recordings, {6 * len(run) - 1} bytes", "       4 incomplete",
                                  "       1 recording", "       1 whole"]))
        status, out, _ = self.run_tool("zkfleet.py", "check", "--json", self.folder / "e.zkr")
        self.assertEqual((status, *map(json.loads, out.splitlines())),
                         (1, {"recording": str(self.folder / "e.zkr"), "ending": "incomplete", "unanswered": 0,
                              "lost": "C:7,S:0", "hole": "C"},
                          {"recordings": 1, "bytes": len(run), "endings": {"incomplete": 1}, "refused": []}))
