"""Which bytes of a payload each field of the plugin for Wireshark marks, compared with the second reading of the
formats in tests/library/fields.py: of the payloads of its table, whole and truncated at each byte. tests/wireshark calls
it."""

import collections
import struct
import xml.etree.ElementTree

from ..library import fields
from dev import source
from .installed_plugin import joined, wire, zkr
from ..library.operation_samples import PROFILE

NAMES = {name.lower(): number for name, number in source.field_names().items()}
WORDS = {number: name for name, number in NAMES.items()}
NUMBERS = {number: name for name, number in fields.KINDS.items()}
STAT = {name for name, _ in fields.STAT}
# By name of the library's, that of the plugin's field, where it is another.
OTHERWISE = {"perms": "acl.perms", "id": "acl.id", "type": "auth.type", "state": "event.state", "zxid": "relative_zxid",
             "last_zxid_seen": "last_zxid", "time_out": "timeout", "session_id": "session", "err": "part.err",
             "mode": "watch.mode"}
HEADS = {"request": (("xid", 4), ("op", 4)), "reply": (("xid", 4), ("zxid", 8), ("err", 4)),
         "event": (("xid", 4), ("zxid", 8), ("err", 4))}
# What is shown below a number: its bits.
BITS = {"flags": ("ephemeral", "sequential"), "acl.perms": ("read", "write", "create", "delete", "admin")}
PART = (("part.op", 0, 4), ("part.done", 4, 1), ("part.header_err", 5, 4))
MORE = (("request 34", fields.MULTI + "00", f"TRAILING {len(bytes.fromhex(fields.MULTI))}", ""),)
BODIES = {1: b"\0\0\0\x02/a" + b"\xff" * 8 + bytes(4), 2: b"\0\0\0\x02/a" + bytes(4),
          5: b"\0\0\0\x02/a" + b"\xff" * 4 + bytes(4), 13: b"\0\0\0\x02/a" + bytes(4)}
HELLO, WELCOME = bytes.fromhex(fields.HELLO), bytes(12) + b"\0\0\0\0\0\0\0\x01" + bytes(4)


def rows():
    """Calls, payloads, where the fields end that are read, whether bytes follow that are too many, and whether the
    message is whole. Where a fault is another one, the payload is not truncated: its fault might be yet another."""
    for call, digits, message, _ in (*fields.TABLE, *MORE):
        reason, *more = message.split()
        payload = bytes.fromhex(digits)
        if reason in ("MISFIT", "RANGE"):
            continue
        good = reason in ("CONNECT", "REQUEST", "CONNECTED", "REPLY", "EVENT")
        end = len(payload) if good else int(more[0])
        trails = reason == "TRAILING"
        for length in range(len(payload) + 1) if good or trails else [len(payload)]:
            yield call, payload[:length], min(end, length), trails and length > end, (good or trails) and length >= end


def plugins(field, before, kind):
    """The plugin's name of a field, which follows this one, and the bytes that it marks."""
    place, length, _, number, sort, _ = field
    name, sort = WORDS[number], NUMBERS[sort]
    if sort in ("text", "blob") and length == 0:
        place, length = place - 4, 4  # its length alone
    if name == "version" and before and WORDS[before[3]] == "mtime" or name in STAT and name != "version":
        name = f"stat.{name}"
    elif name == "type" and kind == "event":
        name = "event.kind"
    elif name == "type" and place > 8:
        name = "watch.type"
    elif sort == "text" and name == "children":
        name = "child"
    elif sort == "text" and name.endswith("_watches"):
        name = "watched"
    return OTHERWISE.get(name, name), place, length


def meaning(name, place, length, payload):
    """A field, and what is below it: bits, or the text that data is."""
    content, found = payload[place:place + length], [(name, place, length)]
    if name == "data" and length and all(32 <= byte < 127 or byte in b"\t\r\n" for byte in content):
        return [*found, ("data.text", place, length)]
    if name == "flags" and not 0 <= int.from_bytes(content, "big", signed=True) <= 3:
        return found
    return found + [(f"{name}.{each}", place + 3, 1) for each in BITS.get(name, ())]


def wanted(call, payload, place, trails, whole):
    """What is marked of a payload: names, places and lengths."""
    kind, operation = (call.split() + ["0"])[:2]
    operation = int.from_bytes(payload[4:8], "big", signed=True) if kind == "request" else int(operation)
    found, end = [], 0
    for name, size in HEADS.get(kind, ()):
        if end + size <= len(payload):
            found.append((name, end, size))
            end += size
        else:
            break
    before = listed = None
    for field in fields.wanted(payload, place, kind, operation, NAMES):
        name, sort, end = WORDS[field[3]], NUMBERS[field[4]], field[0] + field[1]
        if sort == "part":
            found += [(name, field[0] + at, size) for name, at, size in PART]
        elif sort != "list" and not field[5]:
            found += meaning(*plugins(field, before, kind), payload)
        else:
            found.append(plugins(field, before, kind))
        if sort == "list":
            listed = name, len(found) - 1
        elif listed and (name == listed[0] or listed[0] == "acl" and name in ("perms", "scheme", "id")):
            of, begin, _ = found[listed[1]]
            found[listed[1]] = of, begin, end - begin  # a list with its elements
        else:
            listed = None
        before = field
    failed = kind == "reply" and payload[12:16] != bytes(4)
    if whole and operation == 14 and not failed:
        end += 9
        found += [(name, end - 9 + at, size) for name, at, size in PART]
    if trails:
        end = place
    if end < len(payload):
        found.append(("unread", end, len(payload) - end))
    return sorted(found)


def framed(payload):
    return struct.pack(">I", len(payload)) + payload


def connection(call, payload):
    """The pieces of a connection whose last frame is this."""
    kind, operation, *parts = call.split() + ["0"] * (" " not in call)
    side = zkr.CLIENT if kind in ("first", "request") else zkr.SERVER
    asked = [] if kind == "first" else [(zkr.CLIENT, HELLO)]
    if kind in ("request", "reply", "event"):
        asked.append((zkr.SERVER, WELCOME))
    if kind == "reply":
        body = b"".join(struct.pack(">iBi", int(part), 0, -1) + BODIES[int(part)] for part in parts)
        body += struct.pack(">iBi", -1, 1, -1) if operation == "14" else b""
        asked.append((zkr.CLIENT, payload[:4].ljust(4, b"\0") + struct.pack(">i", int(operation)) + body))
    return [zkr.Piece(side, None, framed(data)) for side, data in (*asked, (side, payload))]


def shown(text):
    """By client's port, what is marked of its last message that has bytes."""
    found = collections.defaultdict(list)
    for packet in xml.etree.ElementTree.fromstring(text).iter("packet"):
        ports = [int(packet.find(f".//field[@name='tcp.{end}port']").get("show")) for end in ("src", "dst")]
        for message in packet.findall("proto[@name='zookeeper']"):
            begin = int(message.get("pos")) + 4
            found[max(ports)].append(sorted(
                (name.partition(".")[2], int(field.get("pos")) - begin, int(field.get("size")))
                for field in message.iter("field") for name in [field.get("name", "")]
                if name.startswith("zookeeper.") and int(field.get("size")) > 0
                and int(field.get("pos")) >= begin and "generated" not in field.get("showname", "")))
    return {port: messages[-1] for port, messages in found.items()}


def compare(plugin):
    """Whether each payload's fields mark the bytes that they should."""
    for release, number in zkr.PROFILES.items():
        of = [row for row in rows() if row[0] == f"request {number}" or "request" not in row[0] and number == PROFILE]
        capture = joined(list(wire.conversation(connection(*row[:2]))) for row in of)
        found = shown(plugin.read(capture, "-o", "zookeeper.strict:FALSE", "-Y", "zookeeper.side", "-T", "pdml", "-J",
                                  "tcp zookeeper", profile=release))
        for at, row in enumerate(of):
            told, marked = wanted(*row), found.get(40_000 + at)
            marked = marked and [each for each in marked if each[0] not in ("reason", "place")]
            yield marked == told, f"{row[0]} {row[1].hex()}: {marked}, not {told}"
