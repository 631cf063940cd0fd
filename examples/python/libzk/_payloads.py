"""Payloads by themselves: read into fields, judged, and written from fields; and the listing of a whole
conversation."""

import ctypes
from typing import Callable, List, Sequence, Tuple, Union

from . import _calls
from ._calls import library
from ._messages import (KINDS, LONGEST, RANGE, ROOM, TOO_LONG, Field, FieldKind, Message, Refused, Side, Value, bytes_of,
                        fields_in, number_of, read_into, written)
from ._names import OPERATIONS, Profile

Item = Union[Field, Tuple[FieldKind, Value]]


def _read(payload: bytes, read: Callable[..., _calls.Read]) -> Message:
    answer, fields = read_into(read)
    if answer.status:
        raise Refused(answer.status, answer.place, fields_in(fields, payload))
    return Message(KINDS[answer.kind], answer.xid, OPERATIONS.get(answer.operation, ""), answer.err, answer.zxid, payload,
                   _read=fields)


def _parts(parts: Sequence[Union[str, int]]) -> "Tuple[ctypes.Array[ctypes.c_int32], int]":
    return (ctypes.c_int32 * max(len(parts), 1))(*map(number_of, parts)), len(parts)


def read_first(payload: bytes) -> Message:
    """The connect request of this payload."""
    payload = bytes_of(payload)
    return _read(payload, lambda *out: library.zk_read_first(payload, len(payload), *out))


def read_request(profile: Profile, payload: bytes) -> Message:
    """The request of this payload."""
    payload, profile = bytes_of(payload), Profile(profile)
    return _read(payload, lambda *out: library.zk_read_request(profile, payload, len(payload), *out))


def read_connected(payload: bytes) -> Message:
    """The answer to a connect request."""
    payload = bytes_of(payload)
    return _read(payload, lambda *out: library.zk_read_connected(payload, len(payload), *out))


def read_reply(operation: Union[str, int], payload: bytes, parts: Sequence[Union[str, int]] = ()) -> Message:
    """The reply to a request of this operation, for a multi of these parts."""
    payload, number, numbers = bytes_of(payload), number_of(operation), _parts(parts)
    return _read(payload, lambda *out: library.zk_read_reply(number, *numbers, payload, len(payload), *out))


def read_event(payload: bytes) -> Message:
    """The event of this payload."""
    payload = bytes_of(payload)
    return _read(payload, lambda *out: library.zk_read_event(payload, len(payload), *out))


def _judged(answer: _calls.Payload) -> None:
    if answer.status:
        raise Refused(answer.status, answer.place)


def judge_first(payload: bytes) -> None:
    """Refuses what is no payload of a connect request; no field is read, as by all that judge."""
    payload = bytes_of(payload)
    _judged(library.zk_judge_first(payload, len(payload)))


def judge_request(profile: Profile, payload: bytes) -> None:
    """Refuses what is no payload of a request."""
    payload = bytes_of(payload)
    _judged(library.zk_judge_request(Profile(profile), payload, len(payload)))


def judge_connected(payload: bytes) -> None:
    """Refuses what is no payload of the answer to a connect request."""
    payload = bytes_of(payload)
    _judged(library.zk_judge_connected(payload, len(payload)))


def judge_reply(operation: Union[str, int], payload: bytes, parts: Sequence[Union[str, int]] = ()) -> None:
    """Refuses what is no payload of a reply to a request of this operation, for a multi of these parts."""
    payload = bytes_of(payload)
    _judged(library.zk_judge_reply(number_of(operation), *_parts(parts), payload, len(payload)))


def judge_event(payload: bytes) -> None:
    """Refuses what is no payload of an event."""
    payload = bytes_of(payload)
    _judged(library.zk_judge_event(payload, len(payload)))


def _item(index: int, kind: FieldKind, value: Value, content: bytearray) -> _calls.Field:
    """A field to write; the bytes of a text or a blob are appended to the content."""
    if value is None and kind in (FieldKind.TEXT, FieldKind.BLOB, FieldKind.LIST):
        return _calls.Field(kind=kind, null=1)
    if kind == FieldKind.PART and isinstance(value, str):
        value = number_of(value)
    if kind == FieldKind.TEXT and isinstance(value, str):
        value = value.encode(errors="surrogatepass")  # half of a pair, which the library refuses
    if isinstance(value, (bytes, bytearray, memoryview)) and kind in (FieldKind.TEXT, FieldKind.BLOB):
        place, length = len(content), memoryview(value).nbytes
        if place + length > LONGEST:  # which a field couldn't say
            raise Refused(TOO_LONG, index)
        content += bytes_of(value)
        return _calls.Field(kind=kind, place=place, length=length)
    if not isinstance(value, int) or kind in (FieldKind.TEXT, FieldKind.BLOB):
        raise TypeError(f"{value!r} is no value of the kind {kind.name}")
    if not -1 << 63 <= value < 1 << 63:
        raise Refused(RANGE, index)
    return _calls.Field(kind=kind, number=value)


def _write(items: Sequence[Item], write: Callable[..., _calls.Written]) -> bytes:
    content = bytearray()
    pairs = [(item.kind, item.value) if isinstance(item, Field) else item for item in items]
    fields = [_item(index, FieldKind(kind), value, content) for index, (kind, value) in enumerate(pairs)]
    given = ((_calls.Field * max(len(fields), 1))(*fields), len(fields), bytes(content), len(content))
    room = len(content) + 32 * len(fields) + 64
    out = ctypes.create_string_buffer(room)
    answer = write(*given, out, room)
    if answer.status == ROOM:
        out = ctypes.create_string_buffer(answer.length)
        answer = write(*given, out, answer.length)
    if answer.status:
        raise Refused(answer.status, answer.index)
    return out.raw[:answer.length]


def _fit(bits: int, *numbers: int) -> None:
    if not all(-1 << bits <= number < 1 << bits for number in numbers):
        raise Refused(RANGE)


def write_request(xid: int, operation: Union[str, int], items: Sequence[Item] = ()) -> bytes:
    """The frame of a request: of each field, in order, its kind and its value, as of a message's fields. A null is
    None, a list its count, a part of a multi its operation. Whether the frame may come next is judged by a talk."""
    _fit(31, xid)
    return _write(items, lambda *given: library.zk_write_request(xid, number_of(operation), *given))


def write_first(items: Sequence[Item]) -> bytes:
    """The frame of a connect request, of its fields as for a request."""
    return _write(items, library.zk_write_first)


def write_reply(xid: int, operation: Union[str, int], items: Sequence[Item] = (), zxid: int = 0, err: int = 0) -> bytes:
    """The frame of a reply to a request of this operation, of its fields as for a request. Of a multi a result has its
    part's operation, and an error -1 and its number; a reply whose `err` isn't 0 has no fields."""
    _fit(31, xid, err)
    _fit(63, zxid)
    return _write(items, lambda *given: library.zk_write_reply(xid, zxid, err, number_of(operation), *given))


def write_event(items: Sequence[Item], zxid: int = -1) -> bytes:
    """The frame of an event, of its fields as for a request."""
    _fit(63, zxid)
    return _write(items, lambda *given: library.zk_write_event(zxid, *given))


def write_connected(items: Sequence[Item]) -> bytes:
    """The frame of the answer to a connect request, of its fields as for a request."""
    return _write(items, library.zk_write_connected)


def listing(pieces: Sequence[Tuple[Side, bytes]], client: int = 4194304, server: int = 4194304, waiting: int = 65536,
            profile: Profile = Profile.NEWEST) -> List[str]:
    """The line of each message of a conversation, and of its ending; the pieces are in the order in which they came,
    and the limits are those of a talk."""
    if not all(0 <= limit < 1 << 32 for limit in (client, server, waiting)):
        raise Refused(RANGE)
    given = [(Side(side), bytes_of(piece)) for side, piece in pieces]
    cut = (_calls.Piece * max(len(given), 1))(*(_calls.Piece(side, len(piece)) for side, piece in given))
    content = b"".join(piece for _, piece in given)
    text = written(lambda *out: library.zk_listing(cut, len(given), content, len(content), client, server, waiting,
                                                   Profile(profile), *out), 64 + 4 * len(content))
    return text.decode().splitlines()
