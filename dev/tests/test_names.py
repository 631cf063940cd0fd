"""Tests of dev/names.py: a row that is removed or changed is named, and a new operation is written everywhere."""

import re
import shutil
import signal
import subprocess
import sys

from tests.tools.support import TOP, ToolCase
from tests.unknown_operations import NUMBER

from .. import lists

FOLDERS = [f"crates/{name}/src" for name in ("zk_records", "zk_asks", "zk_answers", "zk_fields", "zk_items", "zk_lines",
                                             "zk_recordings", "zk_runs", "zk_talk", "zk_c")]
FILES = (*lists.PARTS, *lists.WHOLE, "dev/__init__.py", "dev/names.py", "dev/lists.py", "dev/constants.py", "dev/newer.py", "dev/source.py", "dev/formats.py",
         "docs/FORMATS.md", "docs/LIBRARY.md", "docs/REASONS.md", "docs/man/zkdump.1.scd", "docs/man/zkr.5.scd",
         "examples/python/libzk/_messages.py", "examples/python/libzk/_through.py", "examples/server.c",
         "crates/talk_tests/src/tests/earliest/asked.rt", "crates/talk_tests/src/tests/earliest/answered.rt",
         "wireshark/tree.c", "wireshark/message.h",
         "tools/zkdump_tools/forms.py", "tools/zkdump_tools/errors.py",
         "bench/make_recording.py")
ALL_PASSED = (0, ["36 passed, 0 failed"])
# A file, what is replaced in it and by what, and what is then said: `{line}` is the line of the change.
WRITTEN = (
    ("include/zk.h", '    case 8: return "getChildren";\n', "", 'lacks case 8: return "getChildren"'),
    ("include/zk.h", "    ZK_NAME_CTIME = 15,", "    ZK_NAME_CTIME = 16,",
     "has ZK_NAME_CTIME = 16; lacks ZK_NAME_CTIME = 15"),
    ("include/zk.h", 'case ZK_MISFIT: return "MISFIT";', 'case ZK_MISFIT: return "UNFIT";',
     'has case ZK_MISFIT: return "UNFIT"; lacks case ZK_MISFIT: return "MISFIT"'),
    ("examples/python/libzk/_names.py", '8: "getChildren", ', "", 'lacks 8: "getChildren"'),
    ("examples/python/libzk/_names.py", '-101: "NONODE"', '-101: "NO_NODE"',
     'has -101: "NO_NODE"; lacks -101: "NONODE"'),
    ("examples/rust/zk/src/names.rs", '        3 => "NodeDataChanged",\n', "", 'lacks 3 => "NodeDataChanged"'),
    ("wireshark/names.c", '{12, "getChildren2"}, ', "", 'lacks {12, "getChildren2"}'),
    ("wireshark/names.c", '{NUMBER(-103), "BADVERSION"}', '{NUMBER(-104), "BADVERSION"}',
     'has {NUMBER(-104), "BADVERSION"}; lacks {NUMBER(-103), "BADVERSION"}'),
    ("wireshark/names.c", ', {NUMBER(-125), "QUOTAEXCEEDED"}', "", 'lacks {NUMBER(-125), "QUOTAEXCEEDED"}'),
    ("wireshark/names.c", '{104, "getAllChildrenNumber"}, ', "", 'lacks {104, "getAllChildrenNumber"}'),
    ("wireshark/names.c", "return (op >= 15 &&", "return (op >= 16 &&",
     "has return (op >= 16 && op <= 22) || (op >= 102 && op <= 107); "
     "lacks return (op >= 15 && op <= 22) || (op >= 102 && op <= 107)"),
    ("wireshark/names.c", '{ZK_BAD_LENGTH, "BadLength"}, ', "", 'lacks {ZK_BAD_LENGTH, "BadLength"}'),
    ("tools/zkdump_tools/operations.py", 'WATCH, "names:texts"),', 'WATCH, "names:acls"),',
     'has Operation(8, "getChildren", "3.4", WATCH, "names:acls"); '
     'lacks Operation(8, "getChildren", "3.4", WATCH, "names:texts")'),
    ("tools/zkdump_tools/operations.py", '    Operation(11, "ping", "3.4", "", "", -2, False),\n', "",
     'lacks Operation(11, "ping", "3.4", "", "", -2, False)'),
    ("tools/zkdump_tools/zkcolumns/json.c", '    case ZK_NAME_WATCH: return ", \\"watch\\": ";\n', "",
     r'lacks case ZK_NAME_WATCH: return ", \"watch\": "'),
    ("wireshark/hole.c", "{8, true, true, 1}, ", "{8, true, true, 2}, ",
     "has {8, true, true, 2}; lacks {8, true, true, 1}"),
    ("bench/peer/peer.rs", "const GET_ACL: i32 = 6;", "const GET_ACL: i32 = 7;",
     "has const GET_ACL: i32 = 7; lacks const GET_ACL: i32 = 6"),
    ("tests/library/chosen.h", "PICK(1, 2, 3, 4,", "PICK(1, 2, 4,", "lacks 3"),
)
COMPARED = (
    ("docs/FORMATS.md", "| 9 | sync, `Sync` |", "| 10 | sync, `Sync` |",
     ("docs/FORMATS.md: no row of 9 sync among those of Op", "docs/FORMATS.md:{line}: the sources have no Op 10 sync")),
    ("docs/FORMATS.md", "buffer blob (data), int version", "int version, buffer blob (data)",
     ("docs/FORMATS.md:{line}: 5 setData has text path, int version, blob blob, "
      "and in the sources text path, blob blob, int version",
      "docs/FORMATS.md:*: 5 setData has text path, int version, blob blob, "
      "and in the sources text path, blob blob, int version",
      "docs/FORMATS.md:{line}: SetDataAsk has text path, int version, blob blob, "
      "and in the sources text path, blob blob, int version")),
    ("docs/FORMATS.md", "vector of ustring names (children), Stat (GetChildren2Response)",
     "vector of ustring names (paths), Stat (GetChildren2Response)",
     ("docs/FORMATS.md:{line}: names is paths in C, and in the sources children",)),
    ("docs/FORMATS.md", "(SyncRequest) | ustring path (SyncResponse)", "(SyncRequest) | string path (SyncResponse)",
     ("docs/FORMATS.md:{line}: this can't be read: string path (SyncResponse)",)),
    ("docs/FORMATS.md", "-103 | BADVERSION", "-104 | BADVERSION",
     ("docs/FORMATS.md: no row of -103 BADVERSION",
      "docs/FORMATS.md:{line}: -104 is BADVERSION, and in the sources nothing")),
    ("docs/FORMATS.md", "2 NodeDeleted", "2 NodeGone",
     ("docs/FORMATS.md:{line}: 2 is NodeGone, and in the sources NodeDeleted",)),
    ("docs/FORMATS.md", "| create, sync | ` path=`text |", "| create | ` path=`text |",
     ("docs/FORMATS.md: no row of the line of a reply of sync",)),
    ("docs/FORMATS.md", "`setACL path=`text` acl=`list of acl", "`setACL path=`text` acls=`list of acl",
     ("docs/FORMATS.md:{line}: a request of setACL is 'setACL path=text acls=list of acl version=num', "
      "and in the sources 'setACL path=text acl=list of acl version=num'",)),
    ("docs/FORMATS.md", "| setACL | `setACL", "| gone | `gone path=`text |\n| setACL | `setACL",
     ("docs/FORMATS.md:{line}: the sources have no operation gone",)),
    ("docs/REASONS.md", "| 9 | BadPart |", "| 9 | NoPart |",
     ("docs/REASONS.md:{line}: 9 is NoPart, and in the sources BadPart",)),
    ("docs/REASONS.md", "| 9 | BadPart |", "| nine | BadPart |",
     ("docs/REASONS.md: no row of 9 BadPart", "docs/REASONS.md:{line}: nine is BadPart, and in the sources nothing")),
    ("docs/REASONS.md", "| BadSide |", "| NoSide |",
     ("docs/REASONS.md:{line}: 3 is NoSide, and in the sources BadSide",)),
    ("docs/REASONS.md", "| 8 | Ending |", "| 9 | Ending |",
     ("docs/REASONS.md: no row of 8 Ending", "docs/REASONS.md:{line}: 9 is Ending, and in the sources nothing")),
    ("docs/REASONS.md", "| TooLong |", "| TooLarge |",
     ("docs/REASONS.md:{line}: 5 is TooLarge, and in the sources TooLong",)),
    ("tools/zkdump_tools/operations.py", 'Operation(13, "check", None, VERSION),', 'Operation(13, "check", None, PATH),',
     ("tools/zkdump_tools/operations.py: no row of the part 13 check with text path, int version",)),
    ("tools/zkdump_tools/errors.py", '-101: "NONODE"', '-101: "NO_NODE"',
     ("tools/zkdump_tools/errors.py: -101 is NO_NODE, and in the sources NONODE",)),
    ("tools/zkdump_tools/forms.py", '"cversion", "aversion"', '"aversion", "cversion"',
     ("tools/zkdump_tools/forms.py:{line}: STAT has czxid, mzxid, ctime, mtime, version, aversion, cversion, ephemeralOwner, "
      "dataLength, numChildren, pzxid, and in docs/FORMATS.md czxid, mzxid, ctime, mtime, version, cversion, aversion, "
      "ephemeralOwner, dataLength, numChildren, pzxid",)),
    ("tools/zkdump_tools/forms.py", '{"czxid", "mzxid", "ephemeralOwner",', '{"czxid", "mzxid", "ctime", "ephemeralOwner",',
     ("tools/zkdump_tools/forms.py:{line}: HEXADECIMAL has czxid, mzxid, ctime, ephemeralOwner, pzxid, "
      "and in docs/FORMATS.md czxid, mzxid, ephemeralOwner, pzxid",)),
    ("tools/zkdump_tools/forms.py", "version:number zxid:hexadecimal timeout", "version:number zxid:number timeout",
     ("tools/zkdump_tools/forms.py:{line}: CONNECT has version:number, zxid:number, timeout:number, session:hexadecimal, "
      "passwd:secret, ro:readonly, and in docs/FORMATS.md version:number, zxid:hexadecimal, timeout:number, "
      "session:hexadecimal, passwd:secret, ro:readonly",)),
    ("tools/zkdump_tools/forms.py", 'passwd:secret ro:readonly")', 'passwd:data ro:bit")',
     ("tools/zkdump_tools/forms.py:{line}: REPLIES[listing.CONNECT] has version:number, timeout:number, session:hexadecimal, "
      "passwd:data, ro:bit, and in docs/FORMATS.md version:number, timeout:number, session:hexadecimal, "
      "passwd:secret, ro:readonly",)),
    ("tools/zkdump_tools/forms.py", "kind:kind state:number", "kind:number state:number",
     ("tools/zkdump_tools/forms.py:{line}: REPLIES[listing.EVENT] has zxid:hexadecimal, kind:number, state:number, path:text, "
      "and in docs/FORMATS.md zxid:hexadecimal, kind:kind, state:number, path:text",)),
    ("tools/zkdump_tools/forms.py", '"zxid:hexadecimal err:err"', '"zxid:hexadecimal err:number"',
     ("tools/zkdump_tools/forms.py:{line}: FAILED has zxid:hexadecimal, err:number, "
      "and in docs/FORMATS.md zxid:hexadecimal, err:err",)),
    ("tools/zkdump_tools/forms.py", '"zxid:hexadecimal " +', '"zxid:number " +',
     ("tools/zkdump_tools/forms.py:{line}: REPLIES has zxid:number, and in docs/FORMATS.md zxid:hexadecimal",)),
    ("tools/zkdump_tools/forms.py", '"create": Form("path:text")', '"create": Form("path:data")',
     ("tools/zkdump_tools/forms.py:{line}: RESULTS has create, path:data, delete, setData, stat:stat, check, fail, err:err, "
      "and in docs/FORMATS.md create, path:text, delete, setData, stat:stat, check, fail, err:err",)),
    ("docs/FORMATS.md", "`S event zxid=`num` kind=`kcode", "`S event zxid=`num` kind=`text",
     ("docs/FORMATS.md:{line}: the line of the event has 'zxid=num kind=text state=num path=text', "
      "and its records 'zxid=num kind=num state=num path=text'",
      "tools/zkdump_tools/forms.py:*: REPLIES[listing.EVENT] has zxid:hexadecimal, kind:kind, state:number, path:text, "
      "and in docs/FORMATS.md zxid:hexadecimal, kind:number, state:number, path:text")),
    ("wireshark/tree.c", "[ZK_NAME_AUTH] = FIELD_AUTH, ", "", ("wireshark/tree.c: no row of ZK_NAME_AUTH",)),
    ("examples/python/libzk/_messages.py", "    BLOB = 5", "    BLOB = 6",
     ("examples/python/libzk/_messages.py:*: FieldKind.BLOB is 6, and ZK_KIND_BLOB 5",)),
    ("examples/python/libzk/_messages.py", "    BLOB = 5", "    BLOB = 6  # data",
     ("examples/python/libzk/_messages.py:*: FieldKind.BLOB is 6, and ZK_KIND_BLOB 5",)),
    ("examples/python/libzk/_messages.py", "    PART = 7\n", "",
     ("examples/python/libzk/_messages.py:*: FieldKind.PART is None, and ZK_KIND_PART 7",)),
    ("examples/python/libzk/_through.py", "    UNSEEN = 5", "    UNSEEN = 5\n    UNHEARD = 6",
     ("examples/python/libzk/_through.py:*: Went.UNHEARD is 6, and ZK_UNHEARD None",)),
    ("crates/zk_fields/src/kind.rt", "TEXT: u8 = 4", "TEXT: u8 = 5",
     ("include/zk.h: ZK_KIND_TEXT is 4, and in the sources 5",)),
    ("crates/talk_tests/src/tests/earliest/answered.rt", "Layout::Answered(Op::Sync),", "Layout::Answered(Op::Ping),",
     ("crates/talk_tests/src/tests/earliest/answered.rt: no bodies of Answered(Op::Sync)",)),
    ("bench/make_recording.py", "NODE_EXISTS = -101, -103, -110", "NODE_EXISTS = -101, -103, -111",
     ("bench/make_recording.py: NODE_EXISTS is -111, and in the sources -110",)),
    ("docs/FORMATS.md", "| `MultiHeader`, 9 bytes |", "| `MultiHeader`, 10 bytes |",
     ("docs/FORMATS.md:{line}: MultiHeader has 10 bytes, and in the sources 9",)),
    ("docs/FORMATS.md", "| -4 | auth |", "| -5 | auth |",
     ("docs/FORMATS.md: no row of -4 auth", "docs/FORMATS.md:{line}: -5 is auth, and in the sources nothing")),
    ("docs/FORMATS.md", "| -8 | setWatches |", "| -8 | sync |",
     ("docs/FORMATS.md:{line}: -8 is sync, and in the sources setWatches",)),
    ("docs/FORMATS.md", "| 1 to 1,048,576 | 65,536 |", "| 1 to 1,048,577 | 65,536 |",
     ("docs/FORMATS.md:{line}: waiting is ('1 to 1,048,577', '65,536'), "
      "and in the sources ('1 to 1,048,576', '65,536')",)),
    ("docs/FORMATS.md", "| 3.4, 3.5, 3.7 | 3.4 |", "| 3.4, 3.5, 3.7 | 3.5 |",
     ("docs/FORMATS.md:{line}: profile is ('3.4, 3.5, 3.7', '3.5'), and in the sources ('3.4, 3.5, 3.7', '3.4')",)),
    ("docs/FORMATS.md", "of payload, usually 4,194,304.", "of payload, usually 4,194,305.",
     ("docs/FORMATS.md: there is no 'is 64 to 16,777,216 bytes of payload, usually 4,194,304.'",)),
    ("docs/FORMATS.md", "The int, from 1 to 16,777,220,", "The int, from 1 to 16,777,216,",
     ("docs/FORMATS.md: there is no 'from 1 to 16,777,220, is the number of bytes'",)),
    ("docs/man/zkdump.1.scd", "16777216; 4194304 without", "16777216; 4194305 without",
     ("docs/man/zkdump.1.scd: there is no ': 64 to 16777216; 4194304 without the option'",)),
    ("docs/man/zkr.5.scd", "34 or 35 or 37, for", "34 or 36 or 37, for",
     ("docs/man/zkr.5.scd: there is no 'profile, 34 or 35 or 37, for ZooKeeper 3.4 or 3.5 or 3.7.'",)),
    ("docs/REASONS.md", "no bytes, or more than 16,777,220", "no bytes, or more than 16,777,216",
     ("docs/REASONS.md: there is no 'a piece claims no bytes, or more than 16,777,220'",)),
    ("docs/LIBRARY.md", ", `zk_read_event` |", " |", ("docs/LIBRARY.md: no zk_read_event",)),
    ("crates/zk_runs/src/words.rt", "USUAL_WAITING: u32 = 65_536", "USUAL_WAITING: u32 = 65_537",
     ("docs/FORMATS.md:*: waiting is ('1 to 1,048,576', '65,536'), and in the sources ('1 to 1,048,576', '65,537')",
      "docs/man/zkdump.1.scd: there is no ': 1 to 1048576; 65537 without the option'")),
    ("crates/zk_records/src/names.rt", '-102 => Some("NOAUTH"),', '-102 => Some("NORIGHT"),',
     ("include/zk.h:*: has ZK_ERR_NO_AUTH = -102; lacks ZK_ERR_NORIGHT = -102",
      "include/zk.h:*: has case -102: return \"NOAUTH\"; lacks case -102: return \"NORIGHT\"",
      "wireshark/names.c:*: has {NUMBER(-102), \"NOAUTH\"}; lacks {NUMBER(-102), \"NORIGHT\"}",
      'examples/python/libzk/_names.py:*: has -102: "NOAUTH"; lacks -102: "NORIGHT"',
      "examples/python/libzk/_names.py:*: has NO_AUTH = -102; lacks NORIGHT = -102",
      'examples/rust/zk/src/names.rs:*: has -102 => "NOAUTH"; lacks -102 => "NORIGHT"',
      "examples/rust/zk/src/names.rs:*: has NoAuth = -102; lacks Noright = -102",
      f"examples/go/names.go:*: has CodeNoAuth{' ' * 23}= -102; lacks CodeNoright{' ' * 22}= -102",
      "docs/FORMATS.md:*: -102 is NOAUTH, and in the sources NORIGHT",
      "tools/zkdump_tools/errors.py: -102 is NOAUTH, and in the sources NORIGHT")),
    ("crates/zk_answers/src/frame.rt", "    Sync { path: T },\n", "",
     ("the crates' sources have no Sync in AskOf or BodyOf",)),
    ("crates/zk_records/src/op.rt", "macro_rules! op_rows", "macro_rules! rows",
     ("the crates' sources have no op_rows!",)),
    ("include/zk.h", "/* Up to here. */\n", "", ("include/zk.h has 7 marks, not 8",)),
)
# A page, a row that it has, and what is put before this: another row of the same name.
TWICE = (
    ("docs/FORMATS.md", "| 9 | sync, `Sync` |", "| 9 | gone, `Gone` | nothing | nothing |\n", 9),
    ("docs/FORMATS.md", "| 2 | delete, `Delete` | `DeleteAsk`", "| 2 | gone, `Gone` | nothing | nothing |\n", 2),
    ("docs/FORMATS.md", "| `WatcherEvent` |", "| `WatcherEvent` | int type |\n", "WatcherEvent"),
    ("docs/FORMATS.md", "| -5 | MARSHALLINGERROR |", "| -103 | BADNUMBER | | |\n", -103),
    ("docs/FORMATS.md", "2 NodeDeleted", "2 NodeGone, ", 2),
    ("docs/FORMATS.md", "| setACL | `setACL", "| setACL | `setACL path=`text |\n", "setACL"),
    ("docs/REASONS.md", "| 9 | BadPart |", "| 9 | NoPart | | |\n", 9),
)
# A profile and an operation of it that no release has, whose reply has a list of texts: what is added, after what, to
# each file.
NEW = (
    ("crates/zk_records/src/profile.rt", "        match self {\n", "            Profile::V99 => 99,\n"),
    ("crates/zk_records/src/op.rt", "    Auth,\n", "    Invent,\n"),
    ("crates/zk_records/src/op.rt", '            CloseSession -11 "closeSession";\n',
     f'            V99: Invent {NUMBER} "invent";\n'),
    ("crates/zk_asks/src/frame.rt", "    SetWatches(SetWatchesAskOf<L>),\n", "    Invent(PathAskOf<T>),\n"),
    ("crates/zk_answers/src/frame.rt", "    SetWatches,\n", "    Invent { invented: L },\n"),
    ("crates/zk_fields/src/name.rt", "pub const ERR: u16 = 34;\n", f"pub const INVENTIONS: u16 = {NUMBER};\n"),
    ("crates/zk_answers/src/frame.rt", "            $($with)+:\n", "            Invent: invented INVENTIONS texts,\n"),
)
PAGE = (
    ("docs/FORMATS.md", "| 100 | auth,", f"| {NUMBER} | invent, `Invent`, of 9.9 | `PathAsk` (InventRequest) | "
     "vector of ustring invented (inventions; InventResponse) |\n"),
    ("docs/FORMATS.md", "| auth | `auth", "| invent | `invent path=`text |\n"),
    ("docs/FORMATS.md", " | 3.4 |\n", ", 9.9"),
    ("docs/FORMATS.md", ", for ZooKeeper 3.4 or 3.5 or 3.7", " or 99"),
    ("docs/FORMATS.md", ".\n- The side byte", " or 9.9"),
    ("docs/man/zkr.5.scd", ", for ZooKeeper 3.4 or 3.5 or 3.7", " or 99"),
    ("docs/man/zkr.5.scd", ".\n\nA piece is that", " or 9.9"),
    ("docs/FORMATS.md", "| multi | ` {`,", "| invent | ` invented=`list of text |\n"),
    ("crates/talk_tests/src/tests/earliest/asked.rt", "    (\n        Layout::Connect,",
     "    (Layout::Asked(Op::Invent), \"\"),\n"),
    ("crates/talk_tests/src/tests/earliest/answered.rt", "    (\n        Layout::Connected,",
     "    (Layout::Answered(Op::Invent), \"\"),\n"),
    ("wireshark/tree.c", "    [ZK_NAME_READ_ONLY]", "    [ZK_NAME_INVENTIONS] = FIELD_INVENTIONS,\n"),
)


class Names(ToolCase):
    def setUp(self):
        super().setUp()
        for name in (*FOLDERS, *FILES):
            to = self.folder / name
            to.parent.mkdir(parents=True, exist_ok=True)
            (shutil.copytree if (TOP / name).is_dir() else shutil.copy)(TOP / name, to)

    def run_names(self, word):
        """The status and the lines of dev/names.py. Each run has a minute, as a test has many."""
        signal.alarm(60)
        done = subprocess.run([sys.executable, "-m", "dev.names", word], cwd=self.folder, capture_output=True,
                              text=True, check=False)
        self.assertEqual(done.stderr, "")
        return done.returncode, done.stdout.splitlines()

    def change(self, name, old, new):
        """Replaces the first `old` in a file; returns what the file was, and the line of the change."""
        text = (self.folder / name).read_text()
        at = text.index(old)
        (self.folder / name).write_text(text[:at] + new + text[at + len(old):])
        return text, text.count("\n", 0, at) + 1

    def test_words(self):
        for words in ([], ["--check", "--write"], ["--help"]):
            done = subprocess.run([sys.executable, "-m", "dev.names", *words], cwd=self.folder, capture_output=True,
                                  text=True, check=False)
            self.assertEqual((done.returncode, done.stdout, done.stderr), (2, "", "python3 -m dev.names --write|--check\n"))

    def test_written(self):
        """A written row that is removed or changed is named, and written again."""
        self.assertEqual(self.run_names("--check"), ALL_PASSED)
        for name, old, new, told in WRITTEN:
            with self.subTest(name=name, old=old):
                text, line = self.change(name, old, new)
                status, lines = self.run_names("--check")
                self.assertEqual((status, lines[0]), (1, f"{name}:{line}: {told}"))
                self.run_names("--write")
                self.assertEqual((self.folder / name).read_text(), text)

    def test_compared(self):
        """A row that is compared with the sources, or a row of these, is named where it differs."""
        for name, old, new, told in COMPARED:
            with self.subTest(name=name, old=old):
                text, line = self.change(name, old, new)
                status, lines = self.run_names("--check")
                (self.folder / name).write_text(text)
                self.assertEqual((status, len(lines) - 1), (1, len(told)))
                for each, wanted in zip(lines, told):
                    wanted = re.escape(wanted).replace(re.escape("{line}"), str(line)).replace(r"\*", r"\d+")
                    self.assertRegex(each, f"^{wanted}$")

    def test_twice(self):
        """A row of a page is named where another one has its name."""
        for name, row, added, told in TWICE:
            with self.subTest(row=row):
                text, line = self.change(name, row, added + row)
                status, lines = self.run_names("--check")
                (self.folder / name).write_text(text)
                self.assertEqual((status, lines[1:]), (1, ["0 passed, 1 failed"]))
                self.assertRegex(lines[0], rf"^{name}:\d+: there is another row of {told}$")

    def test_new_operation(self):
        """Of a new operation each place that lacks it is named; what isn't written by hand is then written."""
        for name, after, added in NEW:
            self.change(name, after, after + added)
        _, lines = self.run_names("--check")
        said = [line for line in lines if re.search("(?i)invent|9.?9", line)]
        places = {re.match(r"[\w./]+", line)[0] for line in said}
        self.assertEqual(places, {"include/zk.h", "tools/zkdump_tools/operations.py", "tests/library/chosen.h", "docs/FORMATS.md",
                                  "examples/python/libzk/_names.py", "examples/rust/zk/src/names.rs",
                                  "tools/zkdump_tools/zkcolumns/json.c", "tools/zkdump_tools/zkcolumns/recording.c",
                                  "wireshark/names.c", "wireshark/tree.c",
                                  "bench/peer/peer.rs", "wireshark/register.c", "examples/go/libzk.go",
                                  "examples/go/names.go",
                                  "packaging/completion/zkdump.bash", "crates/talk_tests/src/tests/earliest/asked.rt",
                                  "crates/talk_tests/src/tests/earliest/answered.rt", "docs/man/zkr.5.scd"})
        for name, before, added in PAGE:
            self.change(name, before, added + before)
        self.assertEqual(self.run_names("--write"), ALL_PASSED)
        self.assertIn(f'    Operation({NUMBER}, "invent", "9.9", PATH, "invented:texts"),\n',
                      (self.folder / "tools" / "zkdump_tools" / "operations.py").read_text())
        self.assertEqual(self.run_names("--check"), ALL_PASSED)
