"""Begins talks and speakers of the library for C anew, and compares each of their answers with those of new ones.

tests/library calls it. One talk, and one speaker, is begun anew after all that may have come: after each reason of
docs/REASONS.md that a step can return, after a message that was cut at each of its bytes, with requests waiting in each
lane, and after random conversations, which are damaged, cut and interleaved at random. Each time a stored conversation
follows, for both. No step can return NoMemory, since none allocates, and StreamEnd is 4 EiB away.
"""

import ctypes
import random

from ..unknown_operations import DIGITS
from .operation_samples import PROFILE

HELLO = "00000000 0000000000000000 00007530 0000000000000000 00000010 00000000000000000000000000000000 00"
WELCOME = "00000000 00007530 0100000000000001 00000010 000102030405060708090a0b0c0d0e0f 00"
EXISTS, SECOND, PING = "00000001 00000003 00000002 2f61 01", "00000002 00000003 00000002 2f61 01", "fffffffe 0000000b"
AUTH = "fffffffc 00000064 00000000 00000006 646967657374 00000003 613a62"
WATCHES = "fffffff8 00000065 0000000000000005 00000001 00000002 2f61 00000000 ffffffff"
MULTI = "00000003 0000000e 00000002 00 ffffffff 00000002 2f61 ffffffff 0000000d 00 ffffffff 00000002 2f61 00000001" \
        "ffffffff 01 ffffffff"
NO_NODE = "00000001 0000000000000005 ffffff9b"
EVENT = "ffffffff ffffffffffffffff 00000000 00000003 00000003 00000002 2f61"
BEGUN = (("C", HELLO), ("S", WELCOME))
ASKED = (*BEGUN, ("C", EXISTS))
LIMIT, WAITING = 262144, 4

# What came before a side's last message, that message, and the reason for which it is refused.
REFUSED = (
    (BEGUN, "C", EXISTS[:-2], "SHORT"), (ASKED, "S", NO_NODE[:-2], "SHORT"), ((), "C", "00", "SHORT"),
    (BEGUN, "C", EXISTS[:-2] + "02", "BAD_BOOL"), (ASKED[:1], "S", WELCOME[:-2] + "02", "BAD_BOOL"),
    (BEGUN, "C", "00000001 00000003 fffffffe", "BAD_LENGTH"), (BEGUN, "S", EVENT[:53] + "fffffffe", "BAD_LENGTH"),
    (BEGUN, "C", "00000001 00000003 00000002 2fff 01", "BAD_TEXT"), (BEGUN, "S", EVENT[:-2] + "ff", "BAD_TEXT"),
    (BEGUN, "C", EXISTS + "00", "TRAILING"), (ASKED, "S", NO_NODE + "00", "TRAILING"),
    (BEGUN, "C", f"00000001 {DIGITS} 00000002 2f61 00000000", "UNKNOWN_OP"),
    (BEGUN, "C", "ffffffff" + EXISTS[8:], "XID_OP"), (BEGUN, "C", "00000001 0000000b", "XID_OP"),
    (BEGUN, "C", "00000001 0000000e 0000000e 00 ffffffff ffffffff 01 ffffffff", "BAD_PART"),
    ((*BEGUN, ("C", MULTI)), "S", "00000003 0000000000000005 00000000 00000001 00 00000000", "BAD_PART"),
    (BEGUN, "S", EVENT[:26] + "00000001" + EVENT[34:], "EVENT_ERR"),
    (BEGUN, "C", None, "LENGTH_RANGE"), (ASKED, "S", None, "LENGTH_RANGE"),
    ((*BEGUN, *(("C", EXISTS),) * WAITING), "C", EXISTS, "QUEUE_FULL"),
    ((*ASKED, ("C", PING)), "C", MULTI, "QUEUE_FULL"),
    (BEGUN, "S", NO_NODE, "UNASKED"), ((), "S", WELCOME, "UNASKED"),
    ((*ASKED, ("C", SECOND)), "S", "00000002" + NO_NODE[8:], "XID_ORDER"),
)
# What waits, by lanes.
WAITS = ((EXISTS,), (PING, PING), (AUTH,), (WATCHES,), (EXISTS, PING, AUTH, WATCHES), (MULTI,), (MULTI, EXISTS))


def frame(digits):
    """A frame; of None just a length out of range."""
    payload = bytes.fromhex(digits) if digits is not None else b""
    return len(payload).to_bytes(4, "big") + payload if digits is not None else b"\xff\xff\xff\xff"


def bytes_of(messages):
    return [(0 if side == "C" else 1, frame(digits)) for side, digits in messages]


def numbers(answer):
    """The numbers of a struct, those of its fault included."""
    return tuple(numbers(value) if isinstance(value, ctypes.Structure) else value
                 for value in (getattr(answer, name) for name, *_ in answer._fields_))


class Answers:
    """All that the library returns of a handle."""

    def __init__(self, talk, library):
        self.talk, self.library, self.room = talk, library, 1 << 13
        self.text, self.fields = ctypes.create_string_buffer(self.room), (talk.Field * 64)()

    def written(self, call, *words):
        line = call(*words, self.text, self.room)
        return line.status, line.length, self.text.raw[:line.length] if line.status == 0 else b""

    def still(self, handle):
        """What a talk returns without another byte."""
        library = self.library
        yield numbers(library.zk_talk_waiting(handle))
        yield numbers(library.zk_talk_finish(handle))
        yield self.written(library.zk_talk_ending_line, handle)
        for side in (0, 1):
            yield numbers(library.zk_talk_held(handle, side))
            yield numbers(library.zk_talk_view(handle, side))
            read = library.zk_talk_fields(handle, side, self.fields, 64)
            yield numbers(read), [numbers(field) for field in self.fields[:min(read.count, 64)]]
            for call in (library.zk_talk_line, library.zk_talk_payload):
                yield self.written(call, handle, side)

    def heard(self, handle, pieces):
        """What a talk returns of these pieces: of each its side, its bytes, and whether no frame is kept."""
        yield from self.still(handle)
        for side, piece, passes in pieces:
            call = self.library.zk_talk_pass if passes else self.library.zk_talk_step
            while piece:
                step = call(handle, side, piece, len(piece))
                yield numbers(step)
                piece = piece[step.used:] if step.status == 0 else b""
                if step.whole:
                    yield from self.still(handle)
        yield from self.still(handle)

    def said(self, handle, lines):
        """What a speaker returns of these lines."""
        for line in lines:
            yield self.written(self.library.zk_speaker_frame, handle)
            yield numbers(self.library.zk_speaker_say(handle, line, len(line)))
        yield self.written(self.library.zk_speaker_frame, handle)


class Again:
    """A talk that is begun anew, again and again; and a talk that is made for each comparison."""

    def __init__(self, talk, library, waiting=WAITING):
        self.talk, self.library, self.answers = talk, library, Answers(talk, library)
        self.kept, self.waiting = talk.Talk(library, limit=LIMIT, waiting=waiting, profile=PROFILE), waiting

    def give(self, before):
        """Begins it anew, gives it bytes of both sides, and returns the status of the last step."""
        status = self.library.zk_talk_renew(self.kept.handle)
        for side, piece in before:
            status = self.library.zk_talk_step(self.kept.handle, side, piece, len(piece)).status
        return status

    def agree(self, told, pieces):
        """Begins it anew; whether it then returns what a new one does."""
        status = self.library.zk_talk_renew(self.kept.handle)
        found = list(self.answers.heard(self.kept.handle, pieces))
        with self.talk.Talk(self.library, limit=LIMIT, waiting=self.waiting, profile=PROFILE) as new:
            wanted = list(self.answers.heard(new.handle, pieces))
        other = next(((one, another) for one, another in zip(found, wanted) if one != another), "")
        return told, status == 0 and found == wanted, f"begun anew after {told}: status {status}, {other}"


def after_faults(again, numbers_of, follows):
    """After each reason, after each byte of a message, and with what waits."""
    for before, side, digits, reason in REFUSED:
        status = again.give(bytes_of((*before, (side, digits))))
        yield reason, status == numbers_of[reason], f"{side} {digits}: the status {status}, not {reason}"
        yield again.agree(f"{side} {digits}, {reason}", follows)
    for side, digits, before in (("C", MULTI, BEGUN), ("S", NO_NODE, ASKED), ("C", HELLO, ()),
                                 ("S", WELCOME, BEGUN[:1])):
        whole = frame(digits)
        for cut in range(len(whole) + 1):
            status = again.give([*bytes_of(before), (0 if side == "C" else 1, whole[:cut])])
            yield cut, status == 0, f"{side} {digits}, {cut} bytes: the status {status}"
            yield again.agree(f"{cut} bytes of {side} {digits}", follows)
    for waits in WAITS:
        status = again.give(bytes_of((*BEGUN, *(("C", digits) for digits in waits))))
        waiting = again.library.zk_talk_waiting(again.kept.handle).requests
        yield waits, (status, waiting) == (0, len(waits)), f"{waits}: the status {status}, {waiting} wait"
        yield again.agree(f"{waits}, which wait", follows)


def at_random(chance, recordings):
    """The pieces of a random conversation: the beginning of a recording, cut anew, some of them damaged, two of them
    changed with each other, or ended early."""
    pieces = [(side, bytearray(piece)) for side, piece in chance.choice(recordings)[:chance.randrange(2, 24)]]
    if chance.random() < 0.5:
        _, piece = chance.choice(pieces)
        piece[chance.randrange(len(piece))] = chance.choice((0, 1, 2, 127, 255, chance.randrange(256)))
    if chance.random() < 0.2:
        at = chance.randrange(len(pieces))
        pieces[at:at + 2] = reversed(pieces[at:at + 2])
    passes, whole = chance.random() < 0.3, []
    for side, piece in pieces:
        while piece:
            size = len(piece) if chance.random() < 0.5 else chance.randrange(1, len(piece) + 1)
            whole.append((side, bytes(piece[:size]), passes))
            del piece[:size]
    return whole[:chance.randrange(1, len(whole) + 1)] if chance.random() < 0.3 else whole


def conversations(again, recordings, count):
    """Random conversations, one after another, in one talk; and how many of them were refused."""
    chance, refused = random.Random(1), 0
    for number in range(count):
        yield again.agree(f"{number} random conversations", at_random(chance, recordings))
        refused += again.library.zk_talk_finish(again.kept.handle).kind == 3
    yield "refused", count // 5 < refused < count * 4 // 5, f"{refused} of {count} random conversations were refused"


def speakers(talk, library, listings):
    """Whether a speaker that is begun anew says the frames that a new one says, whatever it said or refused before."""
    answers, chance = Answers(talk, library), random.Random(1)
    with talk.Speaker(library, limit=LIMIT, waiting=WAITING, profile=PROFILE) as kept:
        for number in range(200):
            lines = chance.choice(listings)[:chance.randrange(1, 30)]
            if chance.random() < 0.5:
                lines[chance.randrange(len(lines))] = chance.choice((b"", b"C 1 ping", b"S 9 sync",
                                                                     chance.choice(lines)))
            status = library.zk_speaker_renew(kept.handle)
            found = list(answers.said(kept.handle, lines))
            with talk.Speaker(library, limit=LIMIT, waiting=WAITING, profile=PROFILE) as new:
                wanted = list(answers.said(new.handle, lines))
            good = (status, found) == (0, wanted) and found[0] == (0, 0, b"")
            yield number, good, f"a speaker begun anew, {number}: status {status}, lines {lines}"


def compare(talk, library, numbers_of, recordings):
    """Whether what is begun anew is as what is new. `numbers_of` are those of statuses by their names."""
    stored = [list(talk.pieces(path.read_bytes())) for path in recordings]
    listings = [[line for line in path.with_suffix(".show").read_bytes().splitlines() if line[:1] != b"."]
                for path in recordings]
    follows = [(side, piece, False) for side, piece in bytes_of((*ASKED, ("C", PING), ("S", NO_NODE), ("S", EVENT)))]
    found = library.zk_talk_renew(talk.Handle()), library.zk_speaker_renew(talk.Handle())
    yield "empty", found == (numbers_of["EMPTY"],) * 2, f"an empty handle is begun anew: {found}"
    again = Again(talk, library)
    with again.kept:
        yield from after_faults(again, numbers_of, follows)
    again = Again(talk, library, 1000)
    with again.kept:
        yield from conversations(again, stored, 1000)
    yield from speakers(talk, library, [lines for lines in listings if lines])
