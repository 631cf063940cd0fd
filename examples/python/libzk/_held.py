"""Talks and speakers, and what passages have in common with them: what holds a handle."""

import ctypes
from typing import Any, Callable, Iterable, Iterator, List, NamedTuple, NoReturn, Optional, Tuple, TypeVar, Union

from . import _calls
from ._calls import library
from ._block import Room
from ._messages import RANGE, Fault, Message, Refused, Side, bytes_of, fault_of, message_of, written
from ._names import Profile

_WHOLE, _CUT = 1, 2
_Self = TypeVar("_Self", bound="Held")


class Waiting(NamedTuple):
    """How many requests wait for their replies, and their weight: 1 each, and 1 more for each part of a multi."""
    requests: int
    weight: int


class Cut(NamedTuple):
    """The side that ends within a frame, the frame's number, and how many bytes of it came, its length included."""
    side: Side
    frame: int
    got: int


class Ending(NamedTuple):
    """How a conversation would end: its line (docs/FORMATS.md, section 11), and what that has. `unanswered` is how many
    requests have no reply, where it is whole; else it is None, and either `cut` or `fault` isn't."""
    line: str
    unanswered: Optional[int]
    cut: Optional[Cut]
    fault: Optional[Fault]

    @property
    def whole(self) -> bool:
        return self.unanswered is not None


def refusal(step: Union[_calls.Step, _calls.Passed, _calls.Block]) -> Refused:
    """Why a step was refused."""
    return Refused(step.status, step.fault.place, fault=fault_of(step.fault))


def address_of(piece: bytes) -> int:
    """Where bytes lie."""
    return ctypes.cast(ctypes.c_char_p(piece), ctypes.c_void_p).value or 0


class Held:
    """What holds a handle: it is freed once, when it is closed or collected, and can't be copied."""

    def __init__(self, new: Callable[..., int], again: Callable[..., int], free: Callable[..., None],
                 limits: Tuple[int, int, int, int]):
        self._free, self._again, self._handle = free, again, _calls.Handle()
        status = new(self._handle, *limits) if all(0 <= limit < 1 << 32 for limit in limits) else RANGE
        if status:
            raise Refused(status)

    def renew(self) -> None:
        """Begins anew with the same limits, whatever came before: for one conversation after another."""
        status = self._again(self._handle)
        if status:
            raise Refused(status)

    def close(self) -> None:
        self._free(self._handle)

    def __enter__(self: _Self) -> _Self:
        return self

    def __exit__(self, *_: object) -> None:
        self.close()

    def __del__(self) -> None:
        if hasattr(self, "_handle"):  # it has none if its limits were refused before it was made
            self.close()

    def __reduce__(self) -> NoReturn:
        raise TypeError("a handle can't be copied")


class Conversation(Held):
    """What a talk and a passage have in common: calls of the same name."""
    _kind = ""

    def _call(self, name: str) -> Callable[..., Any]:
        call: Callable[..., Any] = getattr(library, f"zk_{self._kind}_{name}")
        return call

    def _shown(self, side: Side, lines: bool) -> Message:
        """The side's newest message."""
        view, line = self._call("view")(self._handle, side), None
        payload = written(lambda *out: self._call("payload")(self._handle, side, *out), max(view.size, 1))
        if lines:
            line = written(lambda *out: self._call("line")(self._handle, side, *out)).decode()
        return message_of(view, lambda *out: self._call("fields")(self._handle, side, *out), payload, line)

    def waiting(self) -> Waiting:
        """What waits for replies; after a fault, before the byte that decided it."""
        waiting = self._call("waiting")(self._handle)
        if waiting.status:
            raise Refused(waiting.status)
        return Waiting(waiting.requests, waiting.weight)

    def held(self, side: Side) -> int:
        """How many bytes the side has sent of a frame that isn't whole, or is refused, its length included."""
        held = self._call("held")(self._handle, Side(side))
        if held.status:
            raise Refused(held.status)
        count: int = held.bytes
        return count

    def ending(self) -> Ending:
        """How the conversation ends if nothing more comes."""
        ending = self._call("finish")(self._handle)
        if ending.status:
            raise Refused(ending.status)
        return Ending(written(lambda *out: self._call("ending_line")(self._handle, *out)).decode(),
                      ending.unanswered if ending.kind == _WHOLE else None,
                      Cut(Side(ending.side), ending.frame, ending.got) if ending.kind == _CUT else None,
                      fault_of(ending.fault))


class Talk(Conversation):
    """A conversation as it comes. `client` and `server` are the greatest payloads in bytes, `waiting` is how many
    requests may wait. With `lines` each message has its line."""
    _kind = "talk"

    def __init__(self, client: int = 4194304, server: int = 4194304, waiting: int = 65536,
                 profile: Profile = Profile.NEWEST, lines: bool = False):
        super().__init__(library.zk_talk_new, library.zk_talk_renew, library.zk_talk_free,
                         (client, server, waiting, Profile(profile)))
        self._lines, self._room = lines, Room()

    def feed(self, side: Side, piece: bytes) -> List[Message]:
        """The messages that these bytes of a side complete."""
        messages: List[Message] = []
        try:
            for message in self._messages(Side(side), bytes_of(piece)):
                messages.append(message)
        except Refused as refused:
            refused.messages = tuple(messages)
            raise
        return messages

    def _messages(self, side: Side, piece: bytes) -> Iterator[Message]:
        """The messages that the piece completes."""
        begin, length, at = address_of(piece), len(piece), 0
        while self._lines:  # a line is asked for while its message is the newest
            step = library.zk_talk_step(self._handle, side, begin + at, length - at)
            if step.status:
                raise refusal(step)
            at += step.used
            if step.whole:
                yield self._shown(side, True)
            if at == length:
                return
        while True:
            block = library.zk_talk_block(self._handle, side, begin + at, length - at, *self._room.words)
            at += block.used
            yield from self._room.messages(block.entries)
            if block.status:
                raise refusal(block)
            if block.more:  # than the room takes
                yield self._shown(side, False)
            if at == length:
                return

    def offer(self, side: Side, frame: bytes) -> Message:
        """Takes the side's next frame, whole, its length included, if it may come next, and returns its message: for who
        asks before a frame is sent. A refusal says why it may not, and leaves the talk as it was, so that another may be
        offered. It is RANGE if the bytes aren't one frame, or the side has begun another."""
        side, frame = Side(side), bytes_of(frame)
        step = library.zk_talk_offer(self._handle, side, frame, len(frame))
        if step.status:
            raise refusal(step)
        return self._shown(side, self._lines)

    def read(self, pieces: Iterable[Tuple[Side, bytes]]) -> Iterator[Tuple[Side, Message]]:
        """The messages of the pieces that both sides sent, in the order in which these came: each with its side, as it
        becomes whole."""
        for side, piece in pieces:
            side = Side(side)
            for message in self._messages(side, bytes_of(piece)):
                yield side, message

    def skip(self, side: Side, piece: bytes) -> int:
        """Takes bytes of a side and judges them as `feed`, but makes no message: how many they complete."""
        side, piece, count, at = Side(side), bytes_of(piece), 0, 0
        begin, length = address_of(piece), len(piece)
        while True:
            step = library.zk_talk_pass(self._handle, side, begin + at, length - at)
            if step.status:
                raise refusal(step)
            at, count = at + step.used, count + step.whole
            if at == length:
                return count


class Speaker(Held):
    """Makes the frames of what may be said next; the numbers are those of a talk. Each message of both sides has to be
    said, so that replies free the places of their requests."""

    def __init__(self, client: int = 4194304, server: int = 4194304, waiting: int = 65536,
                 profile: Profile = Profile.NEWEST):
        super().__init__(library.zk_speaker_new, library.zk_speaker_renew, library.zk_speaker_free,
                         (client, server, waiting, Profile(profile)))

    def say(self, line: str) -> bytes:
        """The frame of the line's message, which may come next."""
        text = line.encode(errors="surrogatepass")
        said = library.zk_speaker_say(self._handle, text, len(text))
        if said.status:
            raise Refused(said.status, said.column)
        return written(lambda *out: library.zk_speaker_frame(self._handle, *out), said.length)

    def say_payload(self, side: Side, payload: bytes) -> bytes:
        """The frame of the side's message of which the bytes are the payload, and which may come next."""
        payload = bytes_of(payload)
        said = library.zk_speaker_say_payload(self._handle, Side(side), payload, len(payload))
        if said.status:
            raise Refused(said.status, said.place)
        return written(lambda *out: library.zk_speaker_frame(self._handle, *out), 4 + len(payload))
