"""Tests of the scripts in tests/: what they don't pass."""

import shutil
import subprocess
import sys

from tests.tools.support import PROGRAM, TOP, ToolCase

# Tests of the plugin for Wireshark where it shows nothing, or a secret where it is to hide none: what they find.
PLUGIN = """import collections, types
from tests.wireshark import connections, dissection
del connections.WHOLE[1:]
class Plugin:
    def frames(self, capture, *words, hide=True):
        shown = {"packet": 1, "passwd": ["01"], "auth": ["02"], "data": ["736563726574"]}
        return [] if hide else [collections.defaultdict(list, shown)]
    def trouble(self):
        return ""
class Secretive(Plugin):
    def frames(self, capture, *words, hide=False):
        return super().frames(capture, hide=hide)
for plugin, name in ((Plugin, "one_pass_is_two_passes"), (Plugin, "disturbed"), (Secretive, "secrets_are_hidden"),
                     (Plugin, "secrets_that_are_not_read_are_hidden")):
    tests = dissection.Tests(plugin(), "", types.SimpleNamespace(seeds=1))
    print(*(bool(good) for good, _ in getattr(tests, f"test_{name}")()))
"""


class Judges(ToolCase):
    def run_inside(self, script, *words):
        """The status and the output of lines in Python that import a module of tests/."""
        done = subprocess.run([sys.executable, "-c", script, *words], cwd=TOP, capture_output=True, text=True,
                              check=False)
        return done.returncode, done.stdout + done.stderr[-500:]

    def run_devices(self, script):
        """What failing_streams.py prints of a case, of which it has to fail, over a script in the place of the program."""
        if not PROGRAM.exists() or not shutil.which("cc"):
            self.skipTest("the program zkdump is not built, or there is no compiler for C")
        program = self.folder / "zkdump"
        program.write_text(f"#!/bin/sh\n{script}\n")
        program.chmod(0o700)
        done = subprocess.run([sys.executable, "-m", "tests.program.failing_streams", "--only", "check/connect_answered",
                               "--program", program], cwd=TOP, capture_output=True, text=True, check=False)
        self.assertEqual(done.returncode, 1, done.stdout)
        return done.stdout.splitlines()

    def test_devices_where_no_read_fails(self):
        *failures, _ = self.run_devices(f'unset READ_ROOM\nexec {PROGRAM} "$@"')
        self.assertTrue(failures and all(", a failed read after " in line for line in failures), failures)

    def test_devices_where_each_run_refuses_its_arguments(self):
        self.assertEqual(self.run_devices("exit 2")[:-1], ["check/connect_answered: (b'', b'', 2)"])

    def test_damage_that_is_refused_at_a_byte_that_did_not_come(self):
        script = """from tests.program import damage
pieces = [(b"C", b"abcd"), (b"S", b"efg"), (b"C", b"hij")]
for side, offset in (("C", 4), ("C", 5), ("S", 3), ("C", 7), ("C", 8), ("S", 4), ("S", 99)):
    print(damage.fault_at(pieces, b". refused side=%s frame=0 offset=%d place=0" % (side.encode(), offset)))"""
        self.assertEqual(self.run_inside(script), (0, "4\n8\n7\n10\n0\n0\n0\n"))

    def test_payloads_of_which_each_is_short_at_its_first_byte(self):
        script = """import types
from dev import source
from tests.library import fields
class Caller:
    names = {"none": 0, **{name.lower(): number for name, number in source.field_names().items()}}
    def read(self, call, payload, size):
        return types.SimpleNamespace(kind=0, status=1, place=0, count=0), []
    def ask(self, what, call, payload):
        return types.SimpleNamespace(status=1, place=0)
class Right(Caller):
    def read(self, call, payload, size):
        kind, first = (call.split() + ["0"])[:2]
        operation = int.from_bytes(payload[4:8], "big", signed=True) if kind == "request" else int(first)
        found = fields.wanted(payload, len(payload), kind, operation, self.names)
        return types.SimpleNamespace(kind=0, status=1, place=0, count=len(found)), found
for caller in (Caller(), Right()):  # one without fields, and one with the right ones and the wrong faults
    results = [good for _, good, _ in fields.compare_damaged(caller, source.statuses())]
    print(results.count(False) > results.count(True) > 0)"""
        self.assertEqual(self.run_inside(script), (0, "True\nTrue\n"))

    def test_endings_by_their_numbers(self):
        script = """import collections, sys, types
from examples import talk
from tests.library import messages
fault = talk.Fault(frame=1, offset=61, side=1, place=0, reason=14, expected=1, got=2)
for ending in (talk.Ending(kind=1, unanswered=3), talk.Ending(kind=2, side=1, frame=4, got=5),
               talk.Ending(kind=3, fault=fault)):
    print(messages.line_of_ending(ending))
lanes = messages.Lanes()
for came, frames in (((b"", b""), [0, 0]), ((b"a", b"bc"), [2, 1]), ((b"", b"bc"), [2, 1]), ((b"", b""), [1, 0])):
    lanes.frames = frames
    print(messages.ending_so_far(came, lanes))
lanes.frames, lanes.lanes[-2] = [2, 1], collections.deque([1, 2])
print(messages.ending_so_far((b"", b""), lanes))"""
        self.assertEqual(self.run_inside(script), (0, """. whole unanswered=3
. cut side=S frame=4 got=5
. refused side=S frame=1 offset=61 place=0 reason=XidOrder expected=1 got=2
. whole unanswered=0
. cut side=C frame=2 got=1
. cut side=S frame=1 got=2
. whole unanswered=1
. whole unanswered=2
"""))

    def test_a_library_that_refuses_the_first_byte(self):
        script = """import pathlib, sys
from examples import talk
from tests.library import messages
class Library:
    zk_talk_new = zk_through_new = zk_through_join = lambda *_: 0
    zk_talk_step = zk_talk_pass = lambda *_: talk.Step(status=1)
    zk_through_step = lambda *_: talk.Passed(status=1)
    zk_talk_free = zk_through_free = lambda *_: None
for name in ("kazoo_basic", "refused_c_path_not_utf8"):
    path = pathlib.Path(f"captures/{name}.zkr")
    print(*(good for _, good, _ in messages.compare(talk, Library(), {}, [path])))"""
        self.assertEqual(self.run_inside(script), (0, "False False False False False\nFalse False False True False\n"))

    def test_a_plugin_that_shows_nothing(self):
        wanted = ("False False False", "True True False True True False False", "False True False True",
                  "False True False True False True False True False True False False False")
        self.assertEqual(self.run_inside(PLUGIN), (0, "".join(f"{line}\n" for line in wanted)))

    def test_no_program_that_must_not_compile(self):
        script = ("import pathlib, sys; from tests.library import must_not_compile as tested; "
                  "tested.ROOT = pathlib.Path(sys.argv[1]); sys.exit(tested.main())")
        self.assertEqual(self.run_inside(script, self.folder), (1, "0 passed, 0 failed\n"))

    def test_a_call_of_the_library_whose_result_is_no_type_of_the_header(self):
        source = self.folder / "src"
        source.mkdir()
        script = ("import pathlib, sys; from tests.library import header; header.CRATE = pathlib.Path(sys.argv[1]); "
                  "print(header.exported()[0])")
        for result, told in (("", "{'zk_x': ('void', ['uint32_t number'])}\n"),
                             (" -> bool", "{'zk_x': ('bool', ['uint32_t number'])}\n"),
                             (" -> *mut u8", "{'zk_x': ('void *', ['uint32_t number'])}\n"),
                             (" -> Other", "KeyError: 'Other'\n"), (" -> Option<u32>", "KeyError: 'Option<u32>'\n")):
            for end in ("\n    ensures all { }\n{\n}\n", " {\n}\n"):
                (source / "x.rt").write_text(f'pub extern "C" fn zk_x(number: u32){result}{end}')
                status, out = self.run_inside(script, self.folder)
                self.assertEqual((status, out[-len(told):]), (int("Error" in told), told))
