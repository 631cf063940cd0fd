"""Passages: conversations that go on where their profile ends."""

import collections
import enum
from typing import Any, Callable, Deque, Iterable, Iterator, List, NamedTuple, Optional, Tuple

from . import _calls
from ._calls import library
from ._held import Conversation, address_of, refusal
from ._messages import Fault, Kind, Message, Refused, Side, bytes_of, written
from ._names import Profile


class Went(enum.IntEnum):
    """What became of bytes of a passage."""
    WITHIN = 0
    MESSAGE = 1
    ASKED = 2
    ANSWERED = 3
    FULL = 4
    UNSEEN = 5
    PASSED_OVER = -1


class Passed(NamedTuple):
    """What became of the `used` bytes of a step. WITHIN: no frame is whole. MESSAGE: a frame is, and `message` is its
    message. ASKED: a request is whole whose operation the profile lacks, and is left out; ANSWERED: so is the reply to
    one. Both have the request's xid, the number of its operation, the payload that is left out, and the number of the
    request's frame. FULL: nothing was used, and bytes of the other side come first. With this frame of the client more
    would wait than may; where all requests have their replies, it alone weighs more. Or the server's bytes have made room
    since, and the client's fit now. UNSEEN: a reply to a request that wasn't seen is whole, where the passage is `late` or
    has passed a frame over, with its xid, zxid, err and payload. PASSED_OVER: a frame is refused, where the passage
    `resumes`, with its `fault`."""
    went: Went
    used: int
    message: Optional[Message] = None
    xid: Optional[int] = None
    operation: Optional[int] = None
    payload: Optional[bytes] = None
    frame: Optional[int] = None
    zxid: Optional[int] = None
    err: Optional[int] = None
    fault: Optional[Fault] = None


def _makes_room(passed: Passed) -> bool:
    """Whether a request, or all of them, wait no more with this step of the server."""
    reply = passed.message is not None and passed.message.kind == Kind.REPLY
    return passed.went in (Went.ANSWERED, Went.PASSED_OVER) or reply


class Through(Conversation):
    """A passage: a conversation that goes on where its profile ends. The limits and `lines` are those of a talk.

    A `late` one is seen from the middle on: frame 0 of each side was made up, and each side's first byte is to begin a
    frame, the server's before it answers what the client's ask. Begun anew, it is not late.

    One that `resumes` goes on after a refusal, at the end of the refused frame, which is PASSED_OVER: from there on it is
    a late one. So frames and bytes are counted from there, no request waits, and a reply to an earlier one is UNSEEN. A
    frame that has no end is refused all the same: LENGTH_RANGE and STREAM_END."""
    _kind = "through"

    def __init__(self, client: int = 4194304, server: int = 4194304, waiting: int = 65536,
                 profile: Profile = Profile.NEWEST, lines: bool = False, late: bool = False, resumes: bool = False):
        super().__init__(library.zk_through_join if late else library.zk_through_new, library.zk_through_renew,
                         library.zk_through_free, (client, server, waiting, Profile(profile)))
        self._lines, self._resumes = lines, resumes
        self._begin()

    def _begin(self) -> None:
        self._full, self._came = False, (bytearray(), bytearray())  # of each side what it has begun of a frame
        self._later: Deque[Tuple[bytes, int]] = collections.deque()  # pieces of the client, and what was used of each

    def renew(self) -> None:
        super().renew()
        self._begin()

    def feed(self, side: Side, piece: bytes) -> List[Passed]:
        """What became of these bytes of a side, step by step. Where the last step is FULL, feed the other side's bytes,
        and then again those of this piece that weren't used: the server's up to the next reply, then the client's, and
        so on. `read` does this. A refusal has the messages before it."""
        return self._fed(self._take(Side(side), bytes_of(piece)))

    def skip(self, side: Side, piece: bytes) -> List[Passed]:
        """The same, and it makes no message and copies no payload: MESSAGE has none, and the side shows none."""
        return self._fed(self._take(Side(side), bytes_of(piece), 0, True))

    def offer(self, side: Side, frame: bytes) -> Passed:
        """Takes the side's next frame, whole, its length included, if it may come next, and returns what became of it: for
        who asks before a frame is sent. Where it is FULL or refused, also by one that `resumes`, the passage is as it was,
        so that another may be offered. It is RANGE if the bytes aren't one frame, or the side has begun another."""
        side, frame = Side(side), bytes_of(frame)
        step = library.zk_through_offer(self._handle, side, frame, len(frame))
        if step.status:
            raise refusal(step)
        passed = self._passed(side, step)
        self._full = self._full and not _makes_room(passed)
        return passed

    def _fed(self, steps: Iterator[Passed]) -> List[Passed]:
        every: List[Passed] = []
        try:
            for passed in steps:
                every.append(passed)
        except Refused as refused:
            refused.messages = tuple(passed.message for passed in every if passed.message)
            raise
        return every

    def read(self, pieces: Iterable[Tuple[Side, bytes]]) -> Iterator[Tuple[Side, Passed]]:
        """What became of the pieces that both sides sent, in the order in which these came: each step with its side.
        While more would wait than may, what the client sends is kept, and taken after each reply: the step before is
        FULL. A piece is taken as its steps are asked for."""
        for side, piece in pieces:
            if Side(side) == Side.CLIENT:
                self._later.append((bytes_of(piece), 0))
                if len(self._later) == 1:
                    yield from self._take_later()
            else:
                yield from self._take_replies(bytes_of(piece))

    def _take_later(self) -> Iterator[Tuple[Side, Passed]]:
        """Takes what the client sent, as far as it may come."""
        while self._later:
            piece, at = self._later.popleft()
            for passed in self._take(Side.CLIENT, piece, at):
                at += passed.used
                if passed.went == Went.FULL:
                    self._later.appendleft((piece, at))
                yield Side.CLIENT, passed
                if passed.went == Went.FULL:
                    return

    def _take_replies(self, piece: bytes) -> Iterator[Tuple[Side, Passed]]:
        """Takes what the server sent, and after each reply what the client sent before."""
        at = 0
        while True:
            for passed in self._take(Side.SERVER, piece, at):
                if passed.went != Went.FULL:
                    at += passed.used
                    yield Side.SERVER, passed
            if not self._full:
                yield from self._take_later()
            if at == len(piece):
                return

    def _take(self, side: Side, piece: bytes, at: int = 0, skips: bool = False) -> Iterator[Passed]:
        """What became of the bytes of a piece from `at` on. It ends with FULL where the other side's come first."""
        begin, length = address_of(piece), len(piece)
        take: Callable[..., Any] = library.zk_through_pass if skips else library.zk_through_step
        while True:
            step = take(self._handle, side, begin + at, length - at)
            if step.status:
                passed = self._pass_over(refusal(step))
            else:
                passed = self._passed(side, step, skips)
                self._came[side].extend(piece[at:at + step.used])
                if passed.went not in (Went.WITHIN, Went.FULL):
                    self._came[side].clear()
            at += passed.used
            if side == Side.CLIENT:
                self._full = passed.went == Went.FULL
            yield passed
            if passed.went == Went.FULL:
                return
            if self._full and side == Side.SERVER and _makes_room(passed):
                self._full = False
                if at < length:
                    yield Passed(Went.FULL, 0)
                    return
            if at == length:
                return

    def _pass_over(self, refused: Refused) -> Passed:
        """Goes on after a refusal, if the passage resumes and the refused frame has an end. What the other side has begun
        of a frame is given again."""
        fault = refused.fault
        resumed = library.zk_through_resume(self._handle) if self._resumes and fault else None
        if fault is None or resumed is None or resumed.status:
            raise refused
        self._came[fault.side].clear()
        other = Side(1 - fault.side)
        begun = bytes(self._came[other])
        library.zk_through_step(self._handle, other, begun, len(begun))
        return Passed(Went.PASSED_OVER, resumed.used, fault=fault)

    def _passed(self, side: Side, step: _calls.Passed, skips: bool = False) -> Passed:
        went, payload = Went(step.went), None
        if went in (Went.WITHIN, Went.FULL):
            return Passed(went, step.used)
        if went == Went.MESSAGE:
            return Passed(went, step.used, None if skips else self._shown(side, self._lines))
        if not skips:
            payload = written(lambda *out: library.zk_through_payload(self._handle, side, *out))
        if went == Went.UNSEEN:
            return Passed(went, step.used, None, step.xid, None, payload, None, step.zxid, step.err)
        return Passed(went, step.used, None, step.xid, step.operation, payload, step.frame)
