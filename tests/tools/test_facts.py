"""Tests of the facts beside a recording: who writes them, what the tools make of them, and what they do without."""

import json
import os
import shutil
import signal
import subprocess
import sys

from tools.zkdump_tools import contents, facts
from . import test_pcap_pairs as made, wire
from .proxied import TroubleCase
from .support import CAPTURES, PROGRAM, TOOLS, TOP, ToolCase, sides

RUN = TOP / "crates" / "zkdump" / "stdin"
SESSION = "0x100000000000001"


class FactsCase(ToolCase):
    def facts(self, name):
        return json.loads((self.folder / f"{name}.facts.json").read_text("ascii"))

    def copy(self, name, times=range(4)):
        """A copy of the stored run, with times and facts; its session's password has the name."""
        path, beside = self.folder / f"{name}.zkr", self.folder / f"{name}.zkr.times"
        path.write_bytes(RUN.read_bytes().replace(bytes(range(16)), name.ljust(16).encode()))
        beside.write_text("".join(f"{1795332633000 + at}.500\n" for at in times), "ascii")
        facts.write(path, facts.Facts(tool="test", session=SESSION, closed="C"), beside)
        return path


class Format(FactsCase):
    def test_of_every_kind(self):
        found = facts.Facts("pcap2zkr", "10.0.0.7:1", "[::1]:2181", 1.5, 2.5, 3.5, 2, "0x5", "3.5", "C", "S", "C:EIO",
                            True,
                            True, True, {"C": 1, "S": 2}, ("C", "S"), {"C": 3, "S": 4}, 5, True)
        path = self.folder / "a.zkr"
        path.write_bytes(b"ZKR1")
        facts.write(path, found)
        self.assertEqual(facts.facts_of(path), found)
        line = (self.folder / "a.facts.json").read_text("ascii")
        self.assertEqual((line.count("\n"), line[-1]), (1, "\n"))
        self.assertEqual(os.stat(self.folder / "a.facts.json").st_mode & 0o777, 0o600)
        self.assertEqual(" ".join(found.words()), "closed=C reset=S broken=C:EIO open lost=C:1,S:2 skipped=C:3,S:4 "
                                                  "unasked=5 hole=C hole=S snapped")
        self.assertEqual(facts.Facts().to_object(), {})
        self.assertEqual(facts.from_object(found.to_object()), found)

    def test_a_link_to_a_recording(self):
        path, link, loop = self.copy("a"), self.folder / "latest.zkr", self.folder / "loop.zkr"
        link.symlink_to(path.name)
        loop.symlink_to("loop.zkr")
        self.assertEqual(facts.facts_of(path).session, SESSION)
        self.assertEqual(facts.facts_of(link), facts.facts_of(path))
        self.assertIsNone(facts.facts_of(loop))
        facts.write(link, facts.Facts(session="0x7"))
        self.assertEqual(facts.facts_of(link).session, "0x7")

    def test_the_mark(self):
        """A change in the first or in the last 65,536 bytes, or of the length, makes another mark."""
        path = self.folder / "a"
        seen = set()
        for data in (b"", b"a", bytes(200_000), b"a" + bytes(199_999), bytes(199_999) + b"a", bytes(200_001),
                     bytes(65_535) + b"a" + bytes(134_464)):
            path.write_bytes(data)
            seen.add(json.dumps(facts.mark_of(path)))
        self.assertEqual(len(seen), 7)

    def test_facts_that_do_not_fit_are_told_in_a_line_and_left_out(self):
        usual = self.run_inside("zkstat.py", self.without("r"))[1]
        for name, value, told in (
                ("recording", {"bytes": 9, "sha256": ""}, "it is of another recording, of 9 bytes"),
                ("recording", {"bytes": 153, "sha256": "0"}, "it is of another recording of the same length"),
                ("facts", 2, "it is not what these tools write beside a recording (version 1)"),
                ("recording", 3, "it is not what these tools write beside a recording (version 1)"),
                ("hole", ["X"], "'hole' has a value that it can't have"),
                ("hole", "S", "'hole' has a value that it can't have"),
                ("session", "5", "'session' has a value that it can't have"),
                ("lost", {"C": -1, "S": 0}, "'lost' has a value that it can't have"),
                ("part", 1.5, "'part' has a value that it can't have"),
                ("client", "\x1b[2J", "'client' has a value that it can't have"),
                ("closed", "X", "'closed' has a value that it can't have"),
                ("ended", -1, "'ended' has a value that it can't have")):
            path = self.without("r")
            facts.write(path, facts.Facts())
            self.change("r", **{name: value})
            with self.subTest(name=name, value=value):
                for tool in ("zkstat.py", "zkjson.py"):
                    status, out, err = self.run_inside(tool, path)
                    self.assertEqual((status, err), (0, f"{tool}: {self.folder}/r.facts.json is not used: {told}\n"))
                    if tool == "zkstat.py":
                        self.assertEqual(out, usual)
        for text in ("", "{", "[" * 70_000, '"x"', "\xff"):
            path = self.without("r")
            (self.folder / "r.facts.json").write_text(text, "latin-1")
            status, out, err = self.run_inside("zkstat.py", path)
            self.assertEqual((status, out, err.count("\n")), (0, usual, 1))

    def without(self, name):
        """A copy of the stored run without times and facts."""
        path = self.folder / f"{name}.zkr"
        shutil.copyfile(RUN, path)
        (self.folder / f"{name}.facts.json").unlink(missing_ok=True)
        return path

    def change(self, name, **members):
        found = {**self.facts(name), **members}
        (self.folder / f"{name}.facts.json").write_text(json.dumps(found), "ascii")


class Times(FactsCase):
    def test_times_of_another_recording(self):
        """Two connections of one client, a day apart: sides, xids and counts agree."""
        one, other = self.copy("one"), self.copy("other", range(10, 14))
        for words in (("--times", f"{other}.times", one), ("--times", f"{one}.times", other)):
            status, out, err = self.run_inside("zkstat.py", *words)
            self.assertEqual((status, out, err),
                             (1, "", f"zkstat.py: {words[1]} has the times of another recording than {words[2]}, as "
                              "the .facts.json beside them says: put those of this one there, or take it away\n"))
        shutil.copyfile(f"{other}.times", f"{one}.times")
        self.assertEqual(self.run_inside("zkjson.py", one)[0], 1)

    def test_times_that_fit(self):
        one, other = self.copy("one"), self.copy("other")
        self.assertEqual(self.run_inside("zkstat.py", one, other)[::2], (0, ""))
        elsewhere = self.folder / "elsewhere"
        shutil.copyfile(f"{one}.times", elsewhere)
        self.assertEqual(self.run_inside("zkstat.py", "--times", elsewhere, one)[::2], (0, ""))
        migrated = self.folder / "new.zkr"
        with open(one, "rb") as recording, open(migrated, "wb") as out:
            subprocess.run([PROGRAM, "migrate"], stdin=recording, stdout=out, check=True)
        self.assertEqual(self.run_inside("zkstat.py", "--times", f"{one}.times", migrated)[::2], (0, ""))


class Holes(FactsCase):
    """Conversations of which packets were not captured: every request was answered."""

    def recordings(self, depth, lost=11, name="r"):
        talk = made.Talk(depth, depth, 5000)
        sent = talk.segments()
        gone = talk.lottery(sent, lost)
        capture = self.folder / f"{name}.pcap"
        capture.write_bytes(wire.pcap([(each.milliseconds, wire.packet(each)) for at, each in enumerate(sent)
                                       if at not in gone]))
        self.run_inside("pcap2zkr.py", "--times", capture, self.folder / name)
        return capture, sorted(self.folder.glob(f"{name}-*.zkr"))

    def test_no_request_counts_as_unanswered(self):
        for depth in (1, 8, 200):
            with self.subTest(depth=depth):
                name = f"d{depth}"
                _, paths = self.recordings(depth, name=name)
                self.assertGreater(len(paths), 3)
                status, out, err = self.run_inside("zkstat.py", "--json", *paths)
                found = json.loads(out)
                self.assertEqual((status, err, found["unanswered"]), (1, "", []))
                self.assertEqual(found["operations"]["connect"]["asked"], 1)
                self.assertEqual({each["session"] for each in found["connections"]}, {"0x5"})
                asked, answered = (sum(each[word] for each in found["operations"].values())
                                   for word in ("asked", "answered"))
                self.assertEqual(asked - answered, len(found["notCaptured"]))
                self.assertGreater(len(found["notCaptured"]), 0)
                status, objects, _ = self.run_inside("zkjson.py", *paths)
                self.assertEqual(status, 1)
                endings = [json.loads(line) for line in objects.splitlines() if '"ending"' in line]
                self.assertEqual(sum(len(each["waiting"]) for each in endings), 0)
                self.assertEqual(sum(len(each.get("notCaptured", ())) for each in endings), len(found["notCaptured"]))
                status, out, err = self.run_inside("zkstat.py", "--json", stdin=objects.encode())
                self.assertEqual((status, json.loads(out)), (1, found))
                status, out, err = self.run_inside("zkstat.py", *paths)
                self.assertEqual((status, err), (1, ""))
                self.assertIn(" replies not captured, if there were any\n", out)
                rows = [line for line in out.splitlines() if line.startswith(str(self.folder)) and " whole " in line]
                self.assertEqual(len(rows), len(paths))
                self.assertTrue(all(" hole=" in row or " lost=" in row for row in rows), rows)
                self.assertIn("\nslowest: asked at ", out)

    def test_a_reply_that_is_left_out(self):
        """One of more bytes than are searched for a frame, after a loss: its request is not unanswered."""
        talk = made.Talk(1, 1, 20)
        n = max(answer for answer in talk.pairs)
        xid, zxid = talk.said[n].data[4:8], (500).to_bytes(8, "big")
        body = xid + zxid + bytes(4) + (70_000).to_bytes(4, "big") + bytes(70_000 + 68)
        talk.said[n] = talk.said[n]._replace(data=len(body).to_bytes(4, "big") + body)
        sent = talk.segments()
        gone = next(at for at, each in enumerate(sent) if each.data == talk.said[talk.pairs[n] - 1].data)
        capture = self.folder / "r.pcap"
        capture.write_bytes(wire.pcap([(each.milliseconds, wire.packet(each)) for at,
                                       each in enumerate(sent) if at != gone]))
        self.run_inside("pcap2zkr.py", capture, self.folder / "r")
        status, out, _ = self.run_inside("zkstat.py", "--json", *sorted(self.folder.glob("r-*.zkr")))
        found = json.loads(out)
        self.assertEqual((status, found["unanswered"], len(found["notCaptured"])), (1, [], 2))

    def test_the_session_where_the_connect_request_is_lost(self):
        sent = made.Talk(1, 1, 20).segments()
        capture = self.folder / "r.pcap"
        capture.write_bytes(wire.pcap([(each.milliseconds, wire.packet(each)) for each in sent[:3] + sent[4:]]))
        self.assertEqual(self.run_inside("pcap2zkr.py", capture, self.folder / "r")[0], 1)
        self.assertEqual(self.facts("r-1")["session"], "0x5")

    def test_each_part_has_its_number(self):
        for depth in (1, 8):
            _, paths = self.recordings(depth, name=f"p{depth}")
            self.assertGreater(len(paths), 3)
            numbers = {path.stem: facts.facts_of(path).part for path in paths}
            self.assertEqual(numbers, {stem: int(stem.partition(".")[2] or 1) for stem in numbers})

    def test_a_report(self):
        capture, paths = self.recordings(8)
        texts = []
        for words in ([capture], paths):
            page = self.folder / f"{len(texts)}.html"
            status, out, err = self.run_tool("zkreport.py", "--text", "-o", page, *words)
            self.assertEqual((status, err), (1, ""))
            self.assertRegex(out.partition("\n")[0],
                             r"^1 connection, 1 session, .* 0 failed, 0 unanswered, [1-9]\d* replies "
                             "not captured, 0 events$".replace("0 failed", r"\d+ failed"))
            self.assertIn("\nRequests whose replies, if there were any, were not captured\n", out)
            self.assertNotIn("\nUnanswered requests\n", out)
            self.assertIn('"lost":[', page.read_text())
            texts.append(out.partition("\nOperations\n")[2].partition("\n\n")[0])
        self.assertEqual(texts[0], texts[1])

    def test_without_facts_all_is_as_it_was(self):
        _, paths = self.recordings(8)
        for path in self.folder.glob("*.facts.json"):
            path.unlink()
        status, out, err = self.run_inside("zkstat.py", "--json", *paths)
        found = json.loads(out)
        self.assertEqual((status, err, "notCaptured" in found), (0, "", False))
        self.assertGreater(len(found["unanswered"]), 0)
        self.assertEqual(found["operations"]["connect"]["asked"], 1)

    def test_a_client_that_asked_for_another_session(self):
        """Its connect request is chosen with the session that the facts and the response have."""
        if not PROGRAM.exists():
            self.skipTest("the program zkdump is not built")
        path = self.copy("a")
        data, asked = bytearray(path.read_bytes()), 4 + 5 + 4 + 16      # of a head, a piece, a frame, and in the payload
        self.assertEqual(data[asked:asked + 8], bytes(8))
        data[asked:asked + 8] = (7).to_bytes(8, "big")
        path.write_bytes(data)
        os.unlink(facts.facts_path(path))
        facts.write(path, facts.Facts(session=SESSION), f"{path}.times")
        for session, wanted in ((SESSION, [1, 2, 3, 4]), ("0x7", [])):
            _, out, _ = self.run_inside("zkjson.py", "--session", session, path)
            self.assertEqual([each["n"] for each in map(json.loads, out.splitlines()) if "n" in each], wanted)

    def test_a_session_is_chosen_with_all_its_parts(self):
        _, paths = self.recordings(8)
        every = json.loads(self.run_inside("zkstat.py", "--json", *paths)[1])["operations"]
        for words, stdin in ((paths, b""), ([], self.run_inside("zkjson.py", *paths)[1].encode())):
            chosen = json.loads(self.run_inside("zkstat.py", "--json", "--session", "5", *words, stdin=stdin)[1])
            self.assertEqual(chosen["operations"], every)

    def test_numbers_whose_facts_are_there_are_passed_over(self):
        (self.folder / "r-1.facts.json").write_text("old")
        _, paths = self.recordings(1)
        self.assertNotIn(self.folder / "r-1.zkr", paths)
        self.assertEqual((self.folder / "r-1.facts.json").read_text(), "old")


class Recorded(TroubleCase):
    def test_record(self):
        port = self.begin("record.py", "--times")
        client = self.client(port)
        self.ask(client)
        client.close()
        self.lines(2)
        self.tool.terminate()
        self.tool.wait()
        found = json.loads((self.folder / "r-1.facts.json").read_text("ascii"))
        path = self.folder / "r-1.zkr"
        self.assertEqual((found["tool"], found["closed"], found["server"]),
                         ("record", "C", f"127.0.0.1:{self.echo.port}"))
        self.assertEqual((found["recording"], found["times"]), (facts.mark_of(path), facts.mark_of(f"{path}.times")))
        self.assertLess(found["begun"], found["ended"])

    def test_a_host_whose_name_is_not_ascii(self):
        """Its facts are read again. The name is that of this host, in wide letters, which a resolver makes narrow."""
        server = f"\uff4c\uff4f\uff43\uff41\uff4c\uff48\uff4f\uff53\uff54:{self.echo.port}"
        self.run_proxy([sys.executable, TOOLS / "record.py", "0", server, self.prefix], subprocess.PIPE)
        client = self.client(self.port())
        self.ask(client)
        client.close()
        self.lines(2)
        self.tool.terminate()
        self.tool.wait()
        self.assertEqual(facts.facts_of(self.folder / "r-1.zkr").server, server)

    def test_a_recording_that_could_not_go_on_has_a_hole(self):
        port = self.begin("record.py")
        client = self.client(port)
        self.ask(client)
        size = (self.folder / "r-1.zkr").stat().st_size
        subprocess.run(["prlimit", f"--pid={self.tool.pid}", f"--fsize={size}:"], check=True)
        self.ask(client)
        subprocess.run(["prlimit", f"--pid={self.tool.pid}", "--fsize=100000:"], check=True)
        client.close()
        self.tool.send_signal(signal.SIGTERM)
        self.assertEqual(self.tool.wait(), 3)
        self.assertEqual(json.loads((self.folder / "r-1.facts.json").read_text("ascii"))["hole"], ["C", "S"])


class Others(FactsCase):
    def test_zkplay_records_what_is_said(self):
        server = subprocess.Popen([sys.executable, TOOLS / "zkplay.py", "--record", self.folder / "s", "0", RUN],
                                  stdout=subprocess.PIPE, text=True)
        address = server.stdout.readline().split()[-1]
        status, _, err = self.run_tool("zkplay.py", "--client", "--record", self.folder / "c", address, RUN)
        self.assertEqual((status, err, server.wait()), (0, "", 0))
        server.stdout.close()
        for name in ("s-1", "c-1"):
            found, path = self.facts(name), self.folder / f"{name}.zkr"
            self.assertEqual(sides(path.read_bytes()), sides(RUN.read_bytes()))
            self.assertEqual((found["tool"], found["closed"], found["session"], found["server"]),
                             ("zkplay", "C", SESSION, address))
            self.assertEqual(found["times"], facts.mark_of(f"{path}.times"))
            self.assertEqual(self.run_inside("zkstat.py", path)[0], 0)

    def test_a_connect_response_alone_has_a_session(self):
        """With the boolean at its end or without; not a reply's header, and not what is cut or has bytes after it."""
        numbers, password = bytes(8) + (0x1234).to_bytes(8, "big"), b"\0\0\0\x10" + bytes(16)
        for rest, wanted in ((password, "0x1234"), (password + b"\1", "0x1234"), (b"\xff\xff\xff\xff", "0x1234"),
                             (b"", None), (b"\0\0\0", None), (password[:-1], None), (password + b"\1\1", None)):
            self.assertEqual(contents.session_in(numbers + rest), wanted, rest)

    def test_what_is_played_of_a_later_part_has_no_session(self):
        """Its connect response was made up: -1 is no session."""
        made_up, sent = (value.to_bytes(8, "big", signed=True) for value in (-1, 0x1234))
        for session, wanted in ((made_up, None), (sent, "0x1234"), (bytes(8), None)):
            self.assertEqual(contents.session_in(bytes(8) + session + b"\0\0\0\x10" + bytes(16)), wanted)

    def test_connections_of_the_same_ends(self):
        """Two that began at the same time are two, also where one was recorded twice."""
        captures = [path for path in CAPTURES if path.stem in ("kazoo_basic", "go_basic")]
        for number, path in enumerate((*captures, captures[0])):
            capture = self.folder / f"{number}.pcap"
            self.run_inside("zkr2pcap.py", path, capture)
            self.run_inside("pcap2zkr.py", "--times", capture, self.folder / str(number))
        names = [self.folder / f"{number}-1.zkr" for number in range(3)]
        self.assertEqual(len({facts.facts_of(name).connection()[:3] for name in names}), 1)
        for words, wanted in ((names[:2], "2 connections, 2 sessions, "), (names[::2], "2 connections, 1 session, "),
                              (names, "3 connections, 2 sessions, ")):
            for more in ((), ("--jobs", 2)):
                status, out, err = self.run_tool("zkreport.py", "--text", *words, *more)
                self.assertEqual((status, err, out[:len(wanted)]), (0, "", wanted))

    def test_zkskip_hands_them_on(self):
        path = self.copy("old")
        self.assertEqual(self.run_inside("zkskip.py", path, self.folder / "new.zkr")[0], 0)
        self.assertEqual(facts.facts_of(self.folder / "new.zkr"), facts.facts_of(path))

    def test_zkr2pcap_makes_no_end_where_none_was_seen(self):
        path, capture = self.copy("a"), self.folder / "a.pcap"
        (self.folder / "a.facts.json").unlink()
        facts.write(path, facts.Facts(open=True))
        self.assertEqual(self.run_inside("zkr2pcap.py", path, capture)[0], 0)
        self.run_inside("pcap2zkr.py", capture, self.folder / "again")
        self.assertTrue(self.facts("again-1")["open"])

    def test_every_capture_has_its_session(self):
        for path in CAPTURES:
            connected = path.with_suffix(".show").read_text("ascii").partition("\nS connect ")[2]
            listed = int((connected.partition(" session=")[2].split() or [0])[0]) & (1 << 64) - 1
            capture, name = self.folder / f"{path.stem}.pcap", self.folder / path.stem
            with self.subTest(path.stem):
                self.assertEqual(self.run_inside("zkr2pcap.py", path, capture)[0], 0)
                self.run_inside("pcap2zkr.py", capture, name)
                self.assertEqual(self.facts(f"{path.stem}-1").get("session"), f"0x{listed:x}" if listed else None)
