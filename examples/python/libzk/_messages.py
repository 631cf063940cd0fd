"""What messages are made of, and why something is refused."""

import ctypes
import enum
import functools
import struct
from dataclasses import dataclass, field
from typing import Any, Callable, Dict, List, NamedTuple, Optional, Sequence, Tuple, Type, Union

from . import _calls
from ._names import FIELDS, OPERATIONS, STATUSES

ROOM, RANGE, XID_ORDER, LAST_REASON, TOO_LONG = 68, 67, 14, 15, 83
LONGEST = (1 << 31) - 1  # payload


class Side(enum.IntEnum):
    CLIENT = 0
    SERVER = 1


class Kind(enum.IntEnum):
    """Kinds of messages."""
    CONNECT = 1
    REQUEST = 2
    CONNECTED = 3
    REPLY = 4
    EVENT = 5


class FieldKind(enum.IntEnum):
    """Kinds of fields. The elements of a list follow it, and so does the record of a part of a multi."""
    INT = 1
    LONG = 2
    BOOL = 3
    TEXT = 4
    BLOB = 5
    LIST = 6
    PART = 7


Value = Union[int, bool, str, bytes, None]
KINDS = {kind.value: kind for kind in Kind}
_FIELD_KINDS = {kind.value: kind for kind in FieldKind}
_FIELD_NAMES = [FIELDS.get(number, "") for number in range(256)]
FIELD = struct.Struct("IIqHBB4x")  # struct zk_field


class Field(NamedTuple):
    """A field of a message. The value is None for null; of a list it is the count, and of a part the operation's
    number, -1 if the result is an error. Its content is the `length` bytes of the payload from `place` on."""
    name: str
    kind: FieldKind
    value: Value
    place: int
    length: int


class Right(NamedTuple):
    """An access right: what is permitted (Permission), and to whom."""
    perms: int
    scheme: str
    id: str


class _Record:
    """Fields, in order."""
    fields: Tuple[Field, ...]

    def __getitem__(self, name: str) -> Any:
        """The value of the first field of this name: of a list its elements, such as the names of children, or Rights."""
        for at, field in enumerate(self.fields):
            if field.name == name:
                return field.value if field.kind != FieldKind.LIST or field.value is None else self._elements(at)
        raise KeyError(name)

    def __contains__(self, name: object) -> bool:
        return any(field.name == name for field in self.fields)

    def _elements(self, at: int) -> List[Any]:
        """The elements of the list that begins there."""
        count = int(self.fields[at].value or 0)
        if self.fields[at].name != "acl":
            return [field.value for field in self.fields[at + 1:at + 1 + count]]
        values: List[Any] = [field.value for field in self.fields[at + 1:at + 1 + 3 * count]]
        return [Right(*values[each:each + 3]) for each in range(0, len(values), 3)]


@dataclass(frozen=True)
class Part(_Record):
    """A part of a multi, or its result: its operation, and the fields of its record. A result that is an error has the
    operation "" and the field err."""
    operation: str
    fields: Tuple[Field, ...]


@dataclass(frozen=True)
class Message(_Record):
    """A message. The operation of a reply is that of its request. `frame` is the number of its frame among those of its
    side, from 0, and `line` its line, if the talk has lines; both are None for a payload by itself. `answers` is the
    number of the client's frame that a reply answers, else None. The fields are made when they are asked for."""
    kind: Kind
    xid: int
    operation: str
    err: int
    zxid: int
    payload: bytes
    frame: Optional[int] = None
    line: Optional[str] = None
    answers: Optional[int] = None
    _read: bytes = field(default=b"", repr=False)

    @functools.cached_property
    def fields(self) -> Tuple[Field, ...]:  # type: ignore[override]
        return fields_in(self._read, self.payload)

    @property
    def parts(self) -> Tuple[Part, ...]:
        """The parts of a multi, or their results, each with its record."""
        begins = [at for at, field in enumerate(self.fields) if field.kind == FieldKind.PART]
        ends = [*begins[1:], len(self.fields)]
        return tuple(Part(OPERATIONS.get(int(self.fields[at].value or 0), ""), self.fields[at + 1:end])
                     for at, end in zip(begins, ends))


class Fault(NamedTuple):
    """Why a conversation is refused, and by which byte: the side that sent it, the number of its frame and of the byte
    among all of that side, and the place in the payload. `expected` and `got` are the xids of XID_ORDER, else None."""
    side: Side
    frame: int
    offset: int
    place: int
    reason: str
    expected: Optional[int]
    got: Optional[int]


class Refused(ValueError):
    """Bytes that are no message, or a call that can't be made: why, and the place in the payload, the column in a line
    or the index of a field.

    `fields` are those before the fault, `messages` those that came before it in the same piece, and `fault` that of
    the conversation, if a talk has refused it."""

    def __init__(self, status: int, place: int = 0, fields: Sequence[Field] = (), messages: Sequence[Message] = (),
                 fault: Optional[Fault] = None):
        self.status, self.place, self.fault = status, place, fault
        self.name = STATUSES.get(status, "")
        self.fields, self.messages = tuple(fields), tuple(messages)
        super().__init__(f"{self.name} at {place}")

    def __reduce__(self) -> "Tuple[Type[Refused], Tuple[int, int], Dict[str, Any]]":
        """What a copy is made of, as in another process."""
        return type(self), (self.status, self.place), vars(self)


def fault_of(fault: _calls.Fault) -> Optional[Fault]:
    """The fault of a conversation, if there is one."""
    if not fault.reason:
        return None
    order = (fault.expected, fault.got) if fault.reason == XID_ORDER else (None, None)
    return Fault(Side(fault.side), fault.frame, fault.offset, fault.place, STATUSES.get(fault.reason, ""), *order)


def bytes_of(buffer: bytes) -> bytes:
    """The bytes of any buffer, whatever its items are and however they lie. A number is no buffer."""
    return buffer if type(buffer) is bytes else memoryview(buffer).tobytes()


def number_of(operation: Union[str, int]) -> int:
    """The number of an operation or of a part of a multi, which may be said by itself."""
    if isinstance(operation, int):
        return operation
    for number, name in OPERATIONS.items():
        if name == operation:
            return number
    raise Refused(RANGE)


def fields_in(read: bytes, payload: bytes) -> Tuple[Field, ...]:
    """The fields that were read of a payload."""
    new, names, kinds, found = tuple.__new__, _FIELD_NAMES, _FIELD_KINDS, []
    text, blob, boolean = int(FieldKind.TEXT), int(FieldKind.BLOB), int(FieldKind.BOOL)
    for place, length, number, name, kind, null in FIELD.iter_unpack(read):
        value: Value = number
        if kind == text or kind == blob or null:
            value = None if null else payload[place:place + length]
            if kind == text and value is not None:
                value = value.decode()
        elif kind == boolean:
            value = number != 0
        found.append(new(Field, (names[name], kinds[kind], value, place, length)))
    return tuple(found)


def read_into(read: Callable[..., _calls.Read]) -> Tuple[_calls.Read, bytes]:
    """Reads into a room of fields, and once more if there are more of them."""
    room = (_calls.Field * 64)()
    answer = read(room, len(room))
    if answer.count > len(room):
        room = (_calls.Field * answer.count)()
        answer = read(room, len(room))
    return answer, ctypes.string_at(room, answer.count * FIELD.size)


def message_of(view: _calls.Message, read: Callable[..., _calls.Read], payload: bytes,
               line: Optional[str] = None) -> Message:
    """The message that a handle shows."""
    answer, fields = read_into(read)
    if answer.status:  # another thread has renewed or closed it
        raise Refused(answer.status, answer.place)
    return Message(KINDS[view.kind], view.xid, OPERATIONS.get(view.operation, ""), view.err, view.zxid, payload,
                   view.frame, line, view.answers or None, fields)


def written(write: Callable[..., _calls.Line], room: int = 4096) -> bytes:
    """What a call writes, in a room that is large enough."""
    out = ctypes.create_string_buffer(room)
    line = write(out, room)
    if line.status == ROOM:
        room = line.length
        out = ctypes.create_string_buffer(room)
        line = write(out, room)
    if line.status:
        raise Refused(line.status)
    return out.raw[:line.length]
