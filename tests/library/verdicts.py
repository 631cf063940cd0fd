"""Judges payloads, lines and whole conversations by the library for C, against tables of what the formats say.

tests/library calls it. The rows were derived from docs/FORMATS.md and docs/CONVERSATION.md.
"""

import ctypes
import pathlib

from ..program import large_inputs

TOP = pathlib.Path(__file__).resolve().parents[2]

# Payloads, as in the tables PAYLOADS of crates/codec_tests/src/tests (asks.rt, answers.rt): the call, of a reply with the
# numbers of the operation and of its parts, the payload, the status and the place.
HELLO = "00000000 0000000000000000 00007530 0000000000000000 00000010 00000000000000000000000000000000"
WELCOME = "00000000 00007530 0100000000000001 00000010 000102030405060708090a0b0c0d0e0f"
SIXTEEN = "00000001 0000000000000005 00000000 0000000000000004 0000000000000004 00000000000003e8 00000000000003e8"
STAT = SIXTEEN + "00000000 00000000 00000000 0000000000000000 00000003 00000000 0000000000000004"
RESULTS = "00000001 0000000000000006 00000000 00000001 00 00000000 00000002 2f61 00000002 00 00000000 ffffffff 01" \
          "ffffffff"
JUDGED = (
    ("request", "fffffff8 00000065 0000000000000005 00000001 00000002 2f61 00000000 ffffffff", "WELL", 0),
    ("request", "fffffffc 00000064 00000000 00000006 646967657374 00000003 613a62", "WELL", 0),
    ("request", "ffffffff 00000003 00000002 2f61 01", "XID_OP", 4),
    ("request", "00000001 00000003 00000002 2f61 02", "BAD_BOOL", 14),
    ("request", "00000001 00000003 00000002 2f61 01 00", "TRAILING", 15),
    ("request", "00000001 0000000d 00000002 2f61 ffffffff", "UNKNOWN_OP", 4),
    ("request", "00000001 00000003 00000002 2fc3 00", "BAD_TEXT", 13),
    ("request", "00000001 0000000e 0000000e 00 ffffffff ffffffff 01 ffffffff", "BAD_PART", 8),
    ("first", HELLO, "WELL", 0),
    ("first", HELLO + "02", "BAD_BOOL", 44),
    ("first", HELLO + "0000", "TRAILING", 45),
    ("connected", WELCOME, "WELL", 0),
    ("connected", WELCOME + "02", "BAD_BOOL", 36),
    ("connected", WELCOME + "0000", "TRAILING", 37),
    ("reply 3", "00000001 0000000000000005 ffffff9b", "WELL", 0),
    ("reply 3", "00000001 0000000000000005 ffffff9b 00", "TRAILING", 16),
    ("reply 3", "00000001", "SHORT", 4),
    ("reply 3", STAT, "WELL", 0),
    ("reply 5", STAT, "WELL", 0),
    ("reply 7", STAT, "WELL", 0),
    ("reply 2", STAT, "TRAILING", 16),
    ("reply 1", STAT, "TRAILING", 20),
    ("reply 14 1 2", RESULTS, "WELL", 0),
    ("reply 14 2 1", RESULTS, "BAD_PART", 16),
    ("reply 14 1", RESULTS, "BAD_PART", 31),
    ("reply 14 1 2 13", RESULTS, "BAD_PART", 40),
    ("reply 14 13", "00000001 0000000000000006 00000000 ffffffff 00 ffffff99 ffffff9b ffffffff 01 ffffffff",
     "BAD_PART", 16),
    ("reply 3", "ffffffff ffffffffffffffff 00000000", "MISFIT", 0),
    ("reply 10", STAT, "RANGE", 0),
    ("reply 3 1", STAT, "RANGE", 0),
    ("reply 14 1 3", RESULTS, "RANGE", 0),
    ("event", "ffffffff ffffffffffffffff 00000000 00000003 00000003 00000002 2f61", "WELL", 0),
    ("event", "ffffffff ffffffffffffffff 00000001 00000003 00000003 00000002 2f", "EVENT_ERR", 12),
    ("event", "ffffffff ffffffffffffffff 00000000 00000003 00000003 00000002 2f61 00", "TRAILING", 30),
    ("event", STAT, "MISFIT", 0),
)

# Lines that are refused by docs/FORMATS.md, sections 10 and 11, and docs/CONVERSATION.md, section 24: how many of the
# lines that may be said were said before, the line, the status and the column. No payload is longer than 64 bytes, and
# one request may wait.
MAY_BE_SAID = (
    b"C connect version=0 zxid=0 timeout=30000 session=0 passwd=#00000000000000000000000000000000 ro=0",
    b"S connect version=0 timeout=30000 session=1 passwd=#000102030405060708090a0b0c0d0e0f ro=0",
    b'C 1 exists path="/a" watch=1',
    b"S 1 exists zxid=5 err=-101/NONODE",
)
REFUSED_LINES = (
    (0, b"", "LINE_WORD", 1),
    (0, b". whole unanswered=0", "LINE_WORD", 1),
    (0, b'C 1 exists path="/a" watch=2', "LINE_WORD", 28),
    (0, b"C connect versio=0", "LINE_WORD", 10),
    (0, b"C 1 multi x", "LINE_WORD", 10),
    (0, b"C 2147483648 ping", "LINE_NUMBER", 3),
    (0, b"S 1 delete zxid=5 err=0/OK", "LINE_NUMBER", 23),
    (0, b'C 1 sync path="a\tb"', "LINE_TEXT", 15),
    (0, b'C 1 setData path="/a" blob=#6 version=1', "LINE_BLOB", 28),
    (0, b"S 1 delete zxid=5 err=-101", "LINE_NAME", 23),
    (0, b"S 1 delete zxid=5 err=-101/NONODEX", "LINE_REST", 34),
    (0, b'C 1 exists path="/a" watch=1', "NOT_FIRST", 0),
    (0, MAY_BE_SAID[1], "UNASKED", 0),
    (1, MAY_BE_SAID[0], "NOT_FIRST", 0),
    (1, b'S event zxid=-1 kind=3/NodeDataChanged state=3 path="/a"', "NOT_FIRST", 0),
    (2, b"C 1 ping", "MISFIT", 0),
    (2, b'C 1 create2 path="/a" blob=~ acl=[31:"world":"anyone"] flags=0', "MISFIT", 0),
    (2, b'C 1 addWatch path="/a" mode=1', "MISFIT", 0),
    (2, b'C 1 addWatch path="/a" mode=~', "LINE_NUMBER", 29),
    (2, b'C 1 exists path="/%s" watch=1' % (b"a" * 51), "TOO_LONG", 0),
    (2, MAY_BE_SAID[3], "UNASKED", 0),
    (3, b'C 2 exists path="/a" watch=1', "QUEUE_FULL", 0),
    (3, b"S 2 exists zxid=5 err=-101/NONODE", "XID_ORDER", 0),
    (3, b"S 1 setData zxid=5 stat=(4,4,1000,1000,0,0,0,0,3,0,4)", "MISFIT", 0),
    (3, b"S -1 exists zxid=5 err=-101/NONODE", "MISFIT", 0),
)

# Payloads that are refused by docs/CONVERSATION.md, sections 9, 10 and 20: how many of those lines' payloads were said
# before, the side, the payload, the status and the place. The client's first payload is read as a connect request.
EXISTS = "00000001 00000003 00000002 2f61 01"
REFUSED_PAYLOADS = (
    (0, 0, EXISTS, "SHORT", 12),
    (0, 0, HELLO + "0000", "TRAILING", 45),
    (0, 1, WELCOME, "UNASKED", 0),
    (0, 1, "", "UNASKED", 0),
    (1, 0, HELLO, "UNKNOWN_OP", 4),
    (1, 1, WELCOME + "02", "BAD_BOOL", 36),
    (1, 1, WELCOME + "00" * 28, "TRAILING", 37),
    (2, 0, "00000001 0000000b", "XID_OP", 4),
    (2, 0, "00000001 0000000f 00000002 2f61 ffffffff 00000000 00000000", "UNKNOWN_OP", 4),
    (2, 0, "00000001 0000006a 00000002 2f61 00000001", "UNKNOWN_OP", 4),
    (2, 0, "00000001 00000003 00000034 2f" + "61" * 51 + "01", "TOO_LONG", 0),
    (2, 0, "00000001 00000003 00000034 2f" + "61" * 51 + "02", "BAD_BOOL", 64),
    (2, 1, WELCOME, "UNASKED", 0),
    (2, 1, "00000001 0000000000000005 ffffff9b 00", "UNASKED", 0),
    (2, 1, "ffffffff ffffffffffffffff 00000001 00000003 00000003 00000002 2f61", "EVENT_ERR", 12),
    (3, 0, "00000002 00000003 00000002 2f61 01", "QUEUE_FULL", 0),
    (3, 0, "00000002 00000003 00000034 2f" + "61" * 51 + "01", "TOO_LONG", 0),
    (3, 0, "00000002 00000003 00000002 2f61 02", "BAD_BOOL", 14),
    (3, 1, "00000002 0000000000000005 ffffff9b", "XID_ORDER", 0),
    (3, 1, "00000001 0000000000000005 00000000 0000", "SHORT", 16),
    (3, 1, "00000001 0000000000000005 ffffff9b 00", "TRAILING", 16),
)


def judge_payloads(library, numbers):
    """Whether each payload of the table is judged as it says."""
    for call, digits, status, place in JUDGED:
        payload = bytes.fromhex(digits)
        kind, *asked = call.split()
        before = (34,) if kind == "request" else ()
        if kind == "reply":
            operation, *parts = map(int, asked)
            before = (operation, (ctypes.c_int32 * (len(parts) + 1))(*parts), len(parts))
        answer = getattr(library, f"zk_judge_{kind}")(*before, payload, len(payload))
        yield (digits, (answer.status, answer.place) == (numbers[status], place),
               f"zk_judge_{call} {digits}: {answer.status} at {answer.place}, not {status} at {place}")


def refuse_lines(talk, library, numbers):
    """Whether each line of the table is refused as it says, and the next one that may be said is said after it."""
    for before, refused, status, column in REFUSED_LINES:
        wanted = [(0, 0)] * before + [(numbers[status], column), (0, 0)]
        with talk.Speaker(library, limit=64, waiting=1) as speaker:
            answers = [library.zk_speaker_say(speaker.handle, line, len(line))
                       for line in (*MAY_BE_SAID[:before], refused, MAY_BE_SAID[before])]
        found = [(answer.status, answer.column) for answer in answers]
        yield (refused.decode(), found == wanted,
               f"zk_speaker_say {refused.decode()}: statuses and columns {found}, not {wanted}")


def answered(library, handle, side, payload):
    """What is returned of a payload that is to be said: the status, the place, and the frame that is kept then."""
    answer, out = library.zk_speaker_say_payload(handle, side, payload, len(payload)), ctypes.create_string_buffer(max(96, len(payload) + 4))
    frame = library.zk_speaker_frame(handle, out, len(out))
    return answer.status, answer.place, out.raw[:frame.length]


def refuse_payloads(talk, library, numbers):
    """Whether each payload of the table is refused as it says; the payloads of the lines before it and of the next one
    that may be said are said, and their frames are the lines'."""
    with talk.Speaker(library, limit=64, waiting=1) as speaker:
        frames = [speaker.say(line) for line in MAY_BE_SAID]
    said = [("CS".index(chr(line[0])), frame[4:]) for line, frame in zip(MAY_BE_SAID, frames)]
    for before, side, digits, status, place in REFUSED_PAYLOADS:
        wanted = [*((0, 0, frame) for frame in frames[:before]), (numbers[status], place, b""), (0, 0, frames[before])]
        with talk.Speaker(library, limit=64, waiting=1) as speaker:
            found = [answered(library, speaker.handle, *asked)
                     for asked in (*said[:before], (side, bytes.fromhex(digits)), said[before])]
        yield (digits, found == wanted,
               f"zk_speaker_say_payload {side} {digits}: statuses, places and frames {found}, not {wanted}")


def list_whole(talk, library, numbers):
    """Whether each recording's listing comes by one call, or its length where there is no room; and pieces that aren't
    the bytes are refused."""
    for path in sorted((TOP / "captures").glob("*.zkr")):
        pieces, listing = list(talk.pieces(path.read_bytes())), path.with_suffix(".show").read_bytes()
        cut = (talk.Piece * (len(pieces) + 1))(*((side, len(piece)) for side, piece in pieces))
        content = b"".join(piece for _, piece in pieces)
        size, nothing = len(listing), bytes(len(listing))
        for room, count, status in ((size, 0, "WELL"), (size - 1, 0, "ROOM"), (size, 1, "RANGE")):
            out = ctypes.create_string_buffer(size)
            found = library.zk_listing(cut, len(pieces), content, len(content) - count, 4194304, 4194304, 65536, 34,
                                       out, room)
            wanted = (numbers[status], 0 if status == "RANGE" else size)
            good = (found.status, found.length) == wanted and out.raw == (listing if status == "WELL" else nothing)
            yield path.stem, good, f"zk_listing {path.stem}, a room of {room}: {found.status}, {found.length}"


def have_memory(talk, library):
    """Whether large inputs lack no memory: a listing of 10,000 messages and more, requests of more than a million
    bytes, said by their lines and by their payloads, and lines after one of 100 kB."""
    frames, lines = large_inputs.pings(5_000)
    listing = "\n".join([*lines, ". whole unanswered=0", ""]).encode()
    content, out = b"".join(frame for _, frame in frames), ctypes.create_string_buffer(len(listing))
    cut = (talk.Piece * len(frames))(*(("CS".index(side.decode()), len(frame)) for side, frame in frames))
    found = library.zk_listing(cut, len(frames), content, len(content), 64, 64, 1, 34, out, len(listing))
    wanted = (0, len(listing), True)
    yield "many", (found.status, found.length, out.raw == listing) == wanted, f"zk_listing of many: {found.status}"
    for sizes in ((1_048_577, 3_000_000), (50_000, *[3] * 50)):
        frames, lines = large_inputs.bodies(sizes)
        with talk.Speaker(library, limit=16777216, waiting=1) as by_line, \
                talk.Speaker(library, limit=16777216, waiting=1) as by_payload:
            for (side, frame), line in zip(frames, lines):
                status, place, said = answered(library, by_payload.handle, "CS".index(side.decode()), frame[4:])
                yield "line", by_line.say(line.encode()) == frame, f"zk_speaker_say {line[:30]}: another frame"
                yield "payload", status == place == 0, f"zk_speaker_say_payload {line[:30]}: {status} at {place}"


def compare(talk, library, numbers):
    """Whether each answer is as it should be. `numbers` are those of statuses by their names."""
    yield from judge_payloads(library, numbers)
    yield from refuse_lines(talk, library, numbers)
    yield from refuse_payloads(talk, library, numbers)
    yield from list_whole(talk, library, numbers)
    yield from have_memory(talk, library)
