"""What dissection.py expects: the fields of zkjson's objects, the plugin's sources as functions, and captures."""

import collections
import contextlib
import ctypes
import io
import pathlib
import re
import subprocess

from .installed_plugin import SOURCES, TOP, packed, pieces_of, wire, zkr
from .. import unknown_operations
from ..program.harness import stored


def hexadecimal(value):
    return f"0x{int(value, 16):016x}"


def octets(value):
    """Data of zkjson's: null, a text, or an object with hexadecimal digits."""
    if value is None:
        return ""
    return value["hex"] if isinstance(value, dict) else value.encode().hex()


def bit(value):
    return str(int(value))


# By name of zkjson's, the plugin's field, and how it spells the value; and what replaces some of these elsewhere.
SAME = {"xid": ("xid", str), "zxid": ("zxid", hexadecimal), "version": ("version", str), "flags": ("flags", str),
        "watch": ("watch", bit), "timeout": ("timeout", str), "kind": ("event.kind", str),
        "state": ("event.state", str), "session": ("session", hexadecimal), "scheme": ("scheme", str),
        "blob": ("data", octets), "auth": ("auth", octets), "passwd": ("passwd", octets), "ro": ("read_only", bit),
        "path": ("path", str), "err": ("err", str), "ttl": ("ttl", str), "mode": ("watch.mode", str),
        "count": ("count", str), "code": ("code", str), "joining": ("joining", str), "leaving": ("leaving", str),
        "members": ("members", str), "config": ("config", str)}
OTHERWISE = {("C", "connect", "version"): "protocol_version", ("S", "connect", "version"): "protocol_version",
             ("C", "connect", "zxid"): "last_zxid", ("C", "setWatches", "zxid"): "relative_zxid",
             ("C", "auth", "kind"): "auth.type", ("C", "checkWatches", "kind"): "watch.type",
             ("C", "removeWatches", "kind"): "watch.type", ("S", "fail", "err"): "part.err"}
ENTRY = {"perms": "acl.perms", "scheme": "scheme", "id": "acl.id"}
LISTS = {"names": ("children", "child"), "dataWatches": ("data_watches", "watched"),
         "existWatches": ("exist_watches", "watched"), "childWatches": ("child_watches", "watched")}
STAT = {"czxid": hexadecimal, "mzxid": hexadecimal, "version": str, "cversion": str, "aversion": str,
        "numChildren": str, "dataLength": str, "pzxid": hexadecimal, "ephemeralOwner": hexadecimal}
PARTS = {"create": "1", "delete": "2", "setData": "5", "check": "13", "fail": "-1"}
CONNECTS = (("C", "00000000 0000000000000000 00007530 0000000000000000 00000010" + "00" * 17),
            ("S", "00000000 00007530 0100000000000001 00000010" + "00" * 17))
# Payloads after those of the connect messages: an operation of a later release, exists, one that no release has, the
# same under the xid of setWatches, a multi with a check and a createTTL, and an exists with a wrong byte. Of each the
# fields that are shown; and what is said of the refusal, which counts the client's frames of 49, 18, 19, 12, 40, 75 and
# 19 bytes.
CHECKED, END = "0000000d 00 ffffffff 00000002 2f61 00000000", "ffffffff 01 ffffffff"
LEFT_OUT = {"verdict": "3", "newer": ""}
LATER, NONE = unknown_operations.NAMED.number, str(unknown_operations.NUMBER)
NEWER = (
    ("C", f"00000001 {LATER:08x} 00000002 2f61", {**LEFT_OUT, "xid": "1", "op": str(LATER)}),
    ("C", "00000002 00000003 00000002 2f61 01", {"verdict": "0", "line": 'C 2 exists path="/a" watch=1'}),
    ("C", f"00000003 {unknown_operations.DIGITS}", {**LEFT_OUT, "xid": "3", "op": NONE}),
    ("C", f"fffffff8 {unknown_operations.DIGITS} 0000000000000005 {'00000000' * 5}", {**LEFT_OUT, "xid": "-8", "op": NONE}),
    ("S", "fffffff8 0000000000000005 00000000", {**LEFT_OUT, "xid": "-8", "op": NONE, "err": "0"}),
    ("S", "00000001 0000000000000005 00000000 00000000", {**LEFT_OUT, "xid": "1", "op": str(LATER), "err": "0"}),
    ("S", "00000002 0000000000000005 ffffff9b", {"verdict": "0", "line": "S 2 exists zxid=5 err=-101/NONODE"}),
    ("S", "00000003 0000000000000005 fffffffa", {**LEFT_OUT, "xid": "3", "op": NONE, "err": "-6"}),
    ("C", f"00000005 0000000e {CHECKED} 00000015 00 ffffffff 00000002 2f62 00000000 00000000 00000000 {'00' * 8} {END}",
     {**LEFT_OUT, "xid": "5", "op": "14"}),
    ("S", f"00000005 0000000000000005 00000000 0000000d 00 00000000 0000000f 00 00000000 00000002 2f62 {'00' * 68} {END}",
     {**LEFT_OUT, "xid": "5", "op": "14", "err": "0"}),
    ("C", "00000004 00000003 00000002 2f61 02", {"verdict": "1", "refused": ""}),
)
REFUSED = "side=C frame=6 offset=232 place=14 reason=BadBool"
# Payloads after those of the connect messages: an exists under xid 1 with a wrong byte, the client's 68th, and one under
# xid 2; the replies to both; a reply to nothing, whose last byte is the server's 101st; and an exists with its reply. Of
# each the fields that are shown.
PASSED_OVER = {"verdict": "1", "refused": "", "passed_over": ""}
RESUMED = (
    ("C", "00000001 00000003 00000002 2f61 02", PASSED_OVER),
    ("C", "00000002 00000003 00000002 2f61 01", {"verdict": "0", "line": 'C 2 exists path="/a" watch=1'}),
    ("S", "00000001 0000000000000005 ffffff9b", {"verdict": "4"}),
    ("S", "00000002 0000000000000005 ffffff9b", {"verdict": "0", "line": "S 2 exists zxid=5 err=-101/NONODE"}),
    ("S", "00000003 0000000000000005 ffffff9b", PASSED_OVER),
    ("C", "00000004 00000003 00000002 2f61 00", {"verdict": "0", "line": 'C 4 exists path="/a" watch=0'}),
    ("S", "00000004 0000000000000005 ffffff9b", {"verdict": "0", "line": "S 4 exists zxid=5 err=-101/NONODE"}),
)
REFUSED_TWICE = ["side=C frame=1 offset=68 place=14 reason=BadBool", "side=S frame=3 offset=101 place=0 reason=Unasked"]


def add_record(found, side, record):
    """The plugin's fields of a message or of a part of a multi."""
    for name, (field, spelled) in SAME.items():
        value = record.get(name, "absent")
        if value != "absent" and (value is not None or name != "ro"):  # which older peers omit
            found[OTHERWISE.get((side, record["op"], name), field)].append("" if value is None else spelled(value))
    for entry in record.get("acl") or ():
        for name, field in ENTRY.items():
            found[field].append(str("" if entry[name] is None else entry[name]))
    if "acl" in record:
        found["acl"].append("-1" if record["acl"] is None else str(len(record["acl"])))
    for name, (field, element) in LISTS.items():
        if name in record:
            found[field].append("-1" if record[name] is None else str(len(record[name])))
            found[element] += [str(text or "") for text in record[name] or ()]
    for name, spelled in STAT.items() if "stat" in record else ():
        found["stat." + re.sub(r"(?=[A-Z])", "_", name).lower()].append(spelled(record["stat"][name]))


def differences(wanted, found):
    """The fields of a message that aren't those of its object."""
    fields = collections.defaultdict(list)
    add_record(fields, wanted["side"], wanted)
    for part in wanted.get("parts", ()):
        fields["part.op"].append(PARTS[part["op"]])
        add_record(fields, wanted["side"], part)
    if "parts" in wanted:
        fields["part.op"].append("-1")  # the last header
    if wanted["side"] == "S" and "xid" in wanted and "err" not in wanted:
        fields["err"].append("0")
    if wanted["side"] == "S" and not fields["path"] and wanted.get("asked") is not None:
        fields["path"].append(wanted["asked"])
    for name, values in fields.items():
        shown = [value.replace(":", "") for value in found[name]] if name in ("data", "auth", "passwd") else found[name]
        if shown != values and all(map(str.isprintable, values)):
            yield name, values, shown


def cases():
    """The stored cases whose recordings are whole, by what is set: the greatest payload and the profile. Of each its
    name, its pieces, and what is said of its refusal, if it is refused. Words of four letters, and operations that the
    profile lacks, are not refused by the plugin; it takes no --waiting, and no limits of a ZKR2 head."""
    found = collections.defaultdict(list)
    for name, words, recording, ending in stored():
        options = dict(zip(words[1::2], words[2::2]))
        if ending.startswith(b". recording") or "--waiting" in options or recording.startswith(b"ZKR2"):
            continue
        pieces = []
        with contextlib.suppress(zkr.Damaged):  # after the refusal
            pieces.extend(zkr.Reader(io.BytesIO(recording)))
        client = b"".join(piece.data for piece in pieces if piece.side == zkr.CLIENT)
        refused = re.search(r" refused (.*)", ending.decode())
        if re.match(rb"[A-Za-z]{4}", client) or refused and "UnknownOp" in refused[1]:
            refused = None
        settings = int(options.get("--limit", zkr.USUAL_LIMIT)), options.get("--profile", "3.4")
        found[settings].append((name, pieces, [refused[1]] if refused else []))
    return found.items()


def names_of_the_header():
    """By the plugin's field, the names of numbers that include/zk.h has."""
    text, found = (TOP / "include" / "zk.h").read_text(), {}
    for field, function in (("op", "operation"), ("part.op", "operation"), ("err", "error"), ("part.err", "error"),
                            ("event.kind", "event")):
        body = text.partition(f"*zk_{function}_name(")[2].partition("default:")[0]
        found[field] = {int(number): name for number, name in re.findall(r'case (-?\d+): return "(\w+)"', body)}
    reasons = re.findall(r"ZK_([A-Z_]+) = (\d+)", text.partition("ZK_WELL = 0,")[2].partition("ZK_EMPTY")[0])
    found["reason"] = {int(number): name.title().replace("_", "") for name, number in reasons}
    return found


def shared(folder, name):
    """A source of the plugin as a shared library."""
    path = pathlib.Path(folder, f"{name}.so")
    subprocess.run(["cc", "-std=c11", "-shared", "-fPIC", "-O2", "-Wall", "-Wextra", "-Wpedantic", "-Werror",
                    f"-I{TOP / 'include'}", "-o", path, SOURCES / f"{name}.c"], check=True)
    return ctypes.CDLL(str(path))


def hole_of(folder):
    """hole_end, as a function of a side and bytes."""
    class End(ctypes.Structure):
        _fields_ = [("found", ctypes.c_bool), ("place", ctypes.c_size_t)]
    call = shared(folder, "hole").hole_end
    call.restype, call.argtypes = End, [ctypes.c_uint32, ctypes.c_char_p, ctypes.c_size_t, ctypes.c_uint32]

    def hole(side, data):
        end = call(b"CS".index(side), data, len(data), zkr.USUAL_LIMIT)
        return end.found, end.place
    return hole


def golden():
    """Captures of which it is stored what is shown of them: a name, the capture, and tshark's words."""
    def of(name, *more):
        return list(wire.conversation(pieces_of(TOP / "captures" / f"{name}.zkr"), *more))

    def capture(sent):
        return wire.pcap(packed(sent))
    columns = ("-o", 'gui.column.format:"No","%m","Info","%i"', "-Y")
    tree = ("-O", "zookeeper", "-V", "-Y")
    basic, again = of("kazoo_basic"), of("kazoo_auth", 1448, (700_000, 800_000))
    yield "multi", capture(of("kazoo_multi")), (*tree, "zookeeper.part.op && frame.number < 20")
    yield "access_lists", capture(of("kazoo_auth")), (*tree, "zookeeper.side && frame.number < 12")
    yield "watches", capture(of("kazoo_watches")), (*columns, "zookeeper.side")
    yield "refused", capture(of("refused_c_path_not_utf8")), (*tree, "zookeeper.side")
    yield "newer", capture(of("kazoo_create2_and_others")), (*columns, "zookeeper.side")
    yield "four_letters", capture(of("refused_kazoo_four_letter_word")), (*tree, "zookeeper.side")
    yield "hole", capture(basic[:20] + basic[23:30] + basic[31:]), (*columns, "zookeeper.side && frame.number < 40")
    yield "used_again", capture(basic[:8] + again), (*tree, "zookeeper.kind == 3 or zookeeper.kind == 1")
