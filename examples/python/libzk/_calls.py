"""The calls of libzk.so.2, as include/zk.h declares them.

The library is the one that the variable LIBZK names, or the installed one. No call lets another thread of Python run,
so a handle is never used twice at once. BYTES takes bytes, an array of ctypes, or an address.
"""

import ctypes
import os
from typing import Callable, Type

U8, U16, U32, U64 = ctypes.c_uint8, ctypes.c_uint16, ctypes.c_uint32, ctypes.c_uint64
I32, I64, SIZE, BYTES = ctypes.c_int32, ctypes.c_int64, ctypes.c_size_t, ctypes.c_void_p


class Handle(ctypes.Structure):
    """A talk, a passage or a speaker; all zeros where there is none."""
    _fields_ = [("held", ctypes.c_void_p), ("live", ctypes.c_bool)]


class Fault(ctypes.Structure):
    _fields_ = [("frame", U64), ("offset", U64), ("side", U32), ("place", U32), ("reason", U32), ("expected", I32),
                ("got", I32)]


class Step(ctypes.Structure):
    _fields_ = [("used", SIZE), ("status", U32), ("whole", ctypes.c_bool), ("fault", Fault)]


class Passed(ctypes.Structure):
    _fields_ = [("used", SIZE), ("status", U32), ("went", U32), ("xid", I32), ("operation", I32), ("fault", Fault),
                ("frame", U64), ("zxid", I64), ("err", I32)]


class Message(ctypes.Structure):
    _fields_ = [("status", U32), ("kind", U32), ("xid", I32), ("operation", I32), ("size", U32), ("err", I32),
                ("zxid", I64), ("frame", U64), ("answers", U64)]


class Ending(ctypes.Structure):
    _fields_ = [("status", U32), ("kind", U32), ("unanswered", U32), ("side", U32), ("got", U32), ("frame", U64),
                ("fault", Fault)]


class Waiting(ctypes.Structure):
    _fields_ = [("status", U32), ("requests", U32), ("weight", U32)]


class Held(ctypes.Structure):
    _fields_ = [("status", U32), ("bytes", U32)]


class Line(ctypes.Structure):
    _fields_ = [("status", U32), ("length", SIZE)]


class Say(ctypes.Structure):
    _fields_ = [("status", U32), ("length", SIZE), ("column", U32)]


class Payload(ctypes.Structure):
    _fields_ = [("status", U32), ("place", U32)]


class Field(ctypes.Structure):
    _fields_ = [("place", U32), ("length", U32), ("number", I64), ("name", U16), ("kind", U8), ("null", U8)]


class Read(ctypes.Structure):
    _fields_ = [("status", U32), ("place", U32), ("count", U32), ("kind", U32), ("xid", I32), ("operation", I32),
                ("err", I32), ("zxid", I64)]


class Written(ctypes.Structure):
    _fields_ = [("status", U32), ("length", SIZE), ("index", SIZE)]


class Piece(ctypes.Structure):
    _fields_ = [("side", U32), ("length", SIZE)]


class Entry(ctypes.Structure):
    _fields_ = [("kind", U32), ("xid", I32), ("operation", I32), ("err", I32), ("zxid", I64), ("frame", U64),
                ("answers", U64), ("place", U32), ("length", U32), ("first", U32), ("count", U32)]


class Block(ctypes.Structure):
    _fields_ = [("used", SIZE), ("entries", SIZE), ("status", U32), ("more", ctypes.c_bool), ("fault", Fault)]


HANDLE, FIELDS = ctypes.POINTER(Handle), ctypes.POINTER(Field)
PARTS, PIECES = ctypes.POINTER(I32), ctypes.POINTER(Piece)
VERSION = 10000  # of these calls, as ZK_VERSION_NUMBER of include/zk.h
CALLS = {
    "zk_version": (U32,),
    "zk_talk_new": (U32, HANDLE, U32, U32, U32, U32),
    "zk_talk_renew": (U32, HANDLE),
    "zk_talk_step": (Step, HANDLE, U32, BYTES, SIZE),
    "zk_talk_pass": (Step, HANDLE, U32, BYTES, SIZE),
    "zk_talk_offer": (Step, HANDLE, U32, BYTES, SIZE),
    "zk_talk_view_into": (None, HANDLE, U32, ctypes.POINTER(Message), SIZE),
    "zk_talk_line": (Line, HANDLE, U32, BYTES, SIZE),
    "zk_talk_payload": (Line, HANDLE, U32, BYTES, SIZE),
    "zk_talk_fields": (Read, HANDLE, U32, FIELDS, SIZE),
    "zk_talk_waiting": (Waiting, HANDLE),
    "zk_talk_held": (Held, HANDLE, U32),
    "zk_talk_finish_into": (None, HANDLE, ctypes.POINTER(Ending), SIZE),
    "zk_talk_ending_line": (Line, HANDLE, BYTES, SIZE),
    "zk_talk_free": (None, HANDLE),
    "zk_through_new": (U32, HANDLE, U32, U32, U32, U32),
    "zk_through_join": (U32, HANDLE, U32, U32, U32, U32),
    "zk_through_renew": (U32, HANDLE),
    "zk_through_step_into": (None, HANDLE, U32, BYTES, SIZE, ctypes.POINTER(Passed), SIZE),
    "zk_through_pass_into": (None, HANDLE, U32, BYTES, SIZE, ctypes.POINTER(Passed), SIZE),
    "zk_through_offer_into": (None, HANDLE, U32, BYTES, SIZE, ctypes.POINTER(Passed), SIZE),
    "zk_through_resume": (Step, HANDLE),
    "zk_through_view_into": (None, HANDLE, U32, ctypes.POINTER(Message), SIZE),
    "zk_through_line": (Line, HANDLE, U32, BYTES, SIZE),
    "zk_through_fields": (Read, HANDLE, U32, FIELDS, SIZE),
    "zk_through_payload": (Line, HANDLE, U32, BYTES, SIZE),
    "zk_through_waiting": (Waiting, HANDLE),
    "zk_through_held": (Held, HANDLE, U32),
    "zk_through_finish_into": (None, HANDLE, ctypes.POINTER(Ending), SIZE),
    "zk_through_ending_line": (Line, HANDLE, BYTES, SIZE),
    "zk_through_free": (None, HANDLE),
    "zk_speaker_new": (U32, HANDLE, U32, U32, U32, U32),
    "zk_speaker_renew": (U32, HANDLE),
    "zk_speaker_say": (Say, HANDLE, BYTES, SIZE),
    "zk_speaker_say_payload": (Payload, HANDLE, U32, BYTES, SIZE),
    "zk_speaker_frame": (Line, HANDLE, BYTES, SIZE),
    "zk_speaker_free": (None, HANDLE),
    "zk_judge_first": (Payload, BYTES, SIZE),
    "zk_judge_request": (Payload, U32, BYTES, SIZE),
    "zk_judge_connected": (Payload, BYTES, SIZE),
    "zk_judge_reply": (Payload, I32, PARTS, SIZE, BYTES, SIZE),
    "zk_judge_event": (Payload, BYTES, SIZE),
    "zk_read_first": (Read, BYTES, SIZE, FIELDS, SIZE),
    "zk_read_request": (Read, U32, BYTES, SIZE, FIELDS, SIZE),
    "zk_read_connected": (Read, BYTES, SIZE, FIELDS, SIZE),
    "zk_read_reply": (Read, I32, PARTS, SIZE, BYTES, SIZE, FIELDS, SIZE),
    "zk_read_event": (Read, BYTES, SIZE, FIELDS, SIZE),
    "zk_write_request": (Written, I32, I32, FIELDS, SIZE, BYTES, SIZE, BYTES, SIZE),
    "zk_write_first": (Written, FIELDS, SIZE, BYTES, SIZE, BYTES, SIZE),
    "zk_write_reply": (Written, I32, I64, I32, I32, FIELDS, SIZE, BYTES, SIZE, BYTES, SIZE),
    "zk_write_event": (Written, I64, FIELDS, SIZE, BYTES, SIZE, BYTES, SIZE),
    "zk_write_connected": (Written, FIELDS, SIZE, BYTES, SIZE, BYTES, SIZE),
    "zk_talk_block": (Block, HANDLE, U32, BYTES, SIZE, BYTES, SIZE, BYTES, SIZE, BYTES, SIZE),
    "zk_listing": (Line, PIECES, SIZE, BYTES, SIZE, U32, U32, U32, U32, BYTES, SIZE),
}


_FILLED = {"zk_talk_view": Message, "zk_through_view": Message, "zk_talk_finish": Ending, "zk_through_finish": Ending,
           "zk_through_step": Passed, "zk_through_pass": Passed, "zk_through_offer": Passed}


def _filled(call: Callable[..., None], kind: Type[ctypes.Structure]) -> Callable[..., ctypes.Structure]:
    """A call that returns the struct which this one fills; a newer library may have more of it."""
    size = ctypes.sizeof(kind)

    def filled(*words: object) -> ctypes.Structure:
        answer = kind()
        call(*words, answer, size)
        return answer
    return filled


def _typed(calls: ctypes.PyDLL) -> ctypes.PyDLL:
    """The library, if it isn't older than this package."""
    version = calls.zk_version() if hasattr(calls, "zk_version") else 9000
    if version < VERSION:
        numbers = [".".join(map(str, (n // 1000000, n // 1000 % 1000, n % 1000))) for n in (version, VERSION)]
        raise ImportError("libzk is {}, and this package needs {} or later".format(*numbers), name="libzk")
    for name, (result, *words) in CALLS.items():
        call = getattr(calls, name)
        call.restype, call.argtypes = result, words
        if name.endswith("_into"):
            setattr(calls, name[:-5], _filled(call, _FILLED[name[:-5]]))
    return calls


# A PyDLL keeps Python's lock while it calls.
library = _typed(ctypes.PyDLL(os.environ.get("LIBZK") or "libzk.so.2"))
