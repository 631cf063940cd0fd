"""Many messages by one call of the library."""

import ctypes
import struct
from typing import Iterator

from . import _calls
from ._messages import FIELD, KINDS, Message
from ._names import OPERATIONS

ENTRY = struct.Struct("IiiiqQQIIII")  # struct zk_entry
ENTRIES, BYTES, FIELDS = 128, 65536, 2048


class Room:
    """Where zk_talk_block writes what messages have. `words` are its last arguments."""

    def __init__(self) -> None:
        self._entries = (_calls.Entry * ENTRIES)()
        self._bytes, self._fields = (ctypes.c_char * BYTES)(), (_calls.Field * FIELDS)()
        at = ctypes.addressof
        self.words = (at(self._entries), ENTRIES, at(self._bytes), BYTES, at(self._fields), FIELDS)

    def messages(self, count: int) -> Iterator[Message]:
        """The first messages there."""
        if not count:
            return
        last = self._entries[count - 1]
        entries = ctypes.string_at(self._entries, count * ENTRY.size)
        payloads = ctypes.string_at(self._bytes, last.place + last.length)
        fields = ctypes.string_at(self._fields, (last.first + last.count) * FIELD.size)
        new, name, size = object.__new__, OPERATIONS.get, FIELD.size
        for kind, xid, operation, err, zxid, frame, answers, place, length, first, read in ENTRY.iter_unpack(entries):
            message = new(Message)  # what a frozen dataclass does in its __init__, in a third of the time
            message.__dict__.update({
                "kind": KINDS[kind], "xid": xid, "operation": name(operation, ""), "err": err, "zxid": zxid,
                "payload": payloads[place:place + length], "frame": frame, "line": None, "answers": answers or None,
                "_read": fields[first * size:(first + read) * size]})
            yield message
