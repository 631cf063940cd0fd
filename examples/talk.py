#!/usr/bin/env python3
"""The proved library by ctypes, in one file: the listing of a recording, and back. python/ has a package.

    talk.py LIBRARY RECORDING     the listing
    talk.py LIBRARY --say LISTING the recording of a listing's messages, a piece a frame

LIBRARY is libzk.so.2 (docs/LIBRARY.md).
"""

import ctypes
import functools
import io
import sys

CLIENT, SERVER = 0, 1
ROOM_IS_SHORT = 68


class Handle(ctypes.Structure):
    _fields_ = [("held", ctypes.c_void_p), ("live", ctypes.c_bool)]


class Fault(ctypes.Structure):
    _fields_ = [("frame", ctypes.c_uint64), ("offset", ctypes.c_uint64), ("side", ctypes.c_uint32),
                ("place", ctypes.c_uint32), ("reason", ctypes.c_uint32), ("expected", ctypes.c_int32),
                ("got", ctypes.c_int32)]


class Step(ctypes.Structure):
    _fields_ = [("used", ctypes.c_size_t), ("status", ctypes.c_uint32), ("whole", ctypes.c_bool), ("fault", Fault)]


class Passed(ctypes.Structure):
    _fields_ = [("used", ctypes.c_size_t), ("status", ctypes.c_uint32), ("went", ctypes.c_uint32),
                ("xid", ctypes.c_int32), ("operation", ctypes.c_int32), ("fault", Fault), ("frame", ctypes.c_uint64),
                ("zxid", ctypes.c_int64), ("err", ctypes.c_int32)]


class Ending(ctypes.Structure):
    _fields_ = [("status", ctypes.c_uint32), ("kind", ctypes.c_uint32), ("unanswered", ctypes.c_uint32),
                ("side", ctypes.c_uint32), ("got", ctypes.c_uint32), ("frame", ctypes.c_uint64), ("fault", Fault)]


class Message(ctypes.Structure):
    _fields_ = [("status", ctypes.c_uint32), ("kind", ctypes.c_uint32), ("xid", ctypes.c_int32),
                ("operation", ctypes.c_int32), ("size", ctypes.c_uint32), ("err", ctypes.c_int32),
                ("zxid", ctypes.c_int64), ("frame", ctypes.c_uint64), ("answers", ctypes.c_uint64)]


class Waiting(ctypes.Structure):
    _fields_ = [("status", ctypes.c_uint32), ("requests", ctypes.c_uint32), ("weight", ctypes.c_uint32)]


class Held(ctypes.Structure):
    _fields_ = [("status", ctypes.c_uint32), ("bytes", ctypes.c_uint32)]


class Line(ctypes.Structure):
    _fields_ = [("status", ctypes.c_uint32), ("length", ctypes.c_size_t)]


class Payload(ctypes.Structure):
    _fields_ = [("status", ctypes.c_uint32), ("place", ctypes.c_uint32)]


class Piece(ctypes.Structure):
    _fields_ = [("side", ctypes.c_uint32), ("length", ctypes.c_size_t)]


class Say(ctypes.Structure):
    _fields_ = [("status", ctypes.c_uint32), ("length", ctypes.c_size_t), ("column", ctypes.c_uint32)]


class Field(ctypes.Structure):
    _fields_ = [("place", ctypes.c_uint32), ("length", ctypes.c_uint32), ("number", ctypes.c_int64),
                ("name", ctypes.c_uint16), ("kind", ctypes.c_uint8), ("null", ctypes.c_uint8)]


class Read(ctypes.Structure):
    _fields_ = [("status", ctypes.c_uint32), ("place", ctypes.c_uint32), ("count", ctypes.c_uint32),
                ("kind", ctypes.c_uint32), ("xid", ctypes.c_int32), ("operation", ctypes.c_int32), ("err", ctypes.c_int32),
                ("zxid", ctypes.c_int64)]


class Written(ctypes.Structure):
    _fields_ = [("status", ctypes.c_uint32), ("length", ctypes.c_size_t), ("index", ctypes.c_size_t)]


class Refused(Exception):
    """A status, and the place of the fault where there is one."""

    def __str__(self):
        where = "".join(f", at {place}" for place in self.args[1:][-1:])
        return f"the library refuses this: status {self.args[0]} of zk.h{where}"


def filled(call, kind, *words):
    """The struct that a call fills, of the size that it has here."""
    answer = kind()
    call(*words, answer, ctypes.sizeof(kind))
    return answer


class Library:
    """The calls, with their types."""

    def __init__(self, path):
        calls = ctypes.CDLL(path)
        handle, number, size = ctypes.POINTER(Handle), ctypes.c_uint32, ctypes.c_size_t
        payload, room = (ctypes.c_char_p, size), (ctypes.POINTER(Field), size)
        for name, result, words in (
            ("zk_talk_new", number, (handle, number, number, number, number)),
            ("zk_talk_renew", number, (handle,)),
            ("zk_talk_step", Step, (handle, number, ctypes.c_void_p, size)),
            ("zk_talk_pass", Step, (handle, number, ctypes.c_void_p, size)),
            ("zk_talk_offer", Step, (handle, number, ctypes.c_void_p, size)),
            ("zk_talk_view", Message, (handle, number)),
            ("zk_talk_line", Line, (handle, number, ctypes.c_char_p, size)),
            ("zk_talk_payload", Line, (handle, number, ctypes.c_char_p, size)),
            ("zk_talk_fields", Read, (handle, number, *room)),
            ("zk_talk_waiting", Waiting, (handle,)),
            ("zk_talk_held", Held, (handle, number)),
            ("zk_talk_finish", Ending, (handle,)),
            ("zk_talk_ending_line", Line, (handle, ctypes.c_char_p, size)),
            ("zk_talk_free", None, (handle,)),
            ("zk_through_new", number, (handle, number, number, number, number)),
            ("zk_through_join", number, (handle, number, number, number, number)),
            ("zk_through_renew", number, (handle,)),
            ("zk_through_step", Passed, (handle, number, ctypes.c_void_p, size)),
            ("zk_through_pass", Passed, (handle, number, ctypes.c_void_p, size)),
            ("zk_through_offer", Passed, (handle, number, ctypes.c_void_p, size)),
            ("zk_through_resume", Step, (handle,)),
            ("zk_through_view", Message, (handle, number)),
            ("zk_through_payload", Line, (handle, number, ctypes.c_char_p, size)),
            ("zk_through_waiting", Waiting, (handle,)),
            ("zk_through_held", Held, (handle, number)),
            ("zk_through_finish", Ending, (handle,)),
            ("zk_through_ending_line", Line, (handle, ctypes.c_char_p, size)),
            ("zk_through_free", None, (handle,)),
            ("zk_speaker_new", number, (handle, number, number, number, number)),
            ("zk_speaker_renew", number, (handle,)),
            ("zk_speaker_say", Say, (handle, ctypes.c_char_p, size)),
            ("zk_speaker_say_payload", Payload, (handle, number, ctypes.c_char_p, size)),
            ("zk_speaker_frame", Line, (handle, ctypes.c_char_p, size)),
            ("zk_speaker_free", None, (handle,)),
            ("zk_judge_first", Payload, (ctypes.c_char_p, size)),
            ("zk_judge_request", Payload, (number, ctypes.c_char_p, size)),
            ("zk_judge_connected", Payload, (ctypes.c_char_p, size)),
            ("zk_judge_reply", Payload, (ctypes.c_int32, ctypes.POINTER(ctypes.c_int32), size, ctypes.c_char_p, size)),
            ("zk_judge_event", Payload, (ctypes.c_char_p, size)),
            ("zk_read_first", Read, (*payload, *room)),
            ("zk_read_request", Read, (number, *payload, *room)),
            ("zk_read_connected", Read, (*payload, *room)),
            ("zk_read_reply", Read, (ctypes.c_int32, ctypes.POINTER(ctypes.c_int32), size, *payload, *room)),
            ("zk_read_event", Read, (*payload, *room)),
            ("zk_write_request", Written, (ctypes.c_int32, ctypes.c_int32, *room, *payload, *payload)),
            ("zk_write_first", Written, (*room, *payload, *payload)),
            ("zk_write_reply", Written, (ctypes.c_int32, ctypes.c_int64, ctypes.c_int32, ctypes.c_int32, *room, *payload,
                                         *payload)),
            ("zk_write_event", Written, (ctypes.c_int64, *room, *payload, *payload)),
            ("zk_write_connected", Written, (*room, *payload, *payload)),
            ("zk_listing", Line, (ctypes.POINTER(Piece), size, ctypes.c_char_p, size, number, number, number, number,
                                  ctypes.c_char_p, size)),
        ):
            if result in (Message, Ending, Passed):  # structs that may grow
                call = getattr(calls, f"{name}_into")
                call.restype, call.argtypes = None, (*words, ctypes.POINTER(result), size)
                call = functools.partial(filled, call, result)
            else:
                call = getattr(calls, name)
                call.restype, call.argtypes = result, words
            setattr(self, name, call)


class Talk:
    """A conversation as it comes; `with Talk(library) as talk:` frees its memory."""

    def __init__(self, library, limit=4194304, waiting=65536, profile=34):
        self.library, self.handle, self.text = library, Handle(), ctypes.create_string_buffer(4096)
        status = library.zk_talk_new(self.handle, limit, limit, waiting, profile)
        if status != 0:
            raise Refused(status)

    def __enter__(self):
        return self

    def __exit__(self, *_):
        self.library.zk_talk_free(self.handle)

    def lines(self, side, piece):
        """The line of each message that the piece completes."""
        begin, at = ctypes.cast(piece, ctypes.c_void_p).value, 0
        while at < len(piece):
            step = self.library.zk_talk_step(self.handle, side, begin + at, len(piece) - at)
            if step.status != 0:
                raise Refused(step.status, step.fault.frame, step.fault.offset, step.fault.place)
            at += step.used
            if step.whole:
                yield self.written(lambda out, room: self.library.zk_talk_line(self.handle, side, out, room))

    def ending_line(self):
        return self.written(lambda out, room: self.library.zk_talk_ending_line(self.handle, out, room))

    def written(self, write):
        line = write(self.text, len(self.text))
        if line.status == ROOM_IS_SHORT:
            self.text = ctypes.create_string_buffer(line.length)
            line = write(self.text, len(self.text))
        if line.status != 0:
            raise Refused(line.status)
        return self.text.raw[:line.length]


def pieces(recording):
    """The side and the bytes of each piece of a recording of format ZKR1."""
    if recording[:4] != b"ZKR1":
        raise ValueError("the file is no recording of format ZKR1")
    at = 4
    while at < len(recording):
        side, length = b"CS".find(recording[at:at + 1]), int.from_bytes(recording[at + 1:at + 5], "big")
        if side < 0 or not 1 <= length <= 16777220 or len(recording) < at + 5 + length:
            raise ValueError("the recording is damaged")
        yield (CLIENT, SERVER)[side], recording[at + 5:at + 5 + length]
        at += 5 + length


def listing(library, recording):
    with Talk(library) as talk:
        try:
            for side, piece in pieces(recording):
                yield from talk.lines(side, piece)
        except Refused as refused:
            if len(refused.args) == 1:  # no byte is refused, but a call has failed
                raise
        yield talk.ending_line()


class Speaker:
    """Lines to frames; `with Speaker(library) as speaker:` frees its memory."""

    def __init__(self, library, limit=4194304, waiting=65536, profile=34):
        self.library, self.handle = library, Handle()
        status = library.zk_speaker_new(self.handle, limit, limit, waiting, profile)
        if status != 0:
            raise Refused(status)

    def __enter__(self):
        return self

    def __exit__(self, *_):
        self.library.zk_speaker_free(self.handle)

    def say(self, line):
        """The frame of the line's message, if that may come next."""
        answer = self.library.zk_speaker_say(self.handle, line, len(line))
        if answer.status != 0:
            raise Refused(answer.status, answer.column)
        frame = ctypes.create_string_buffer(answer.length)
        self.library.zk_speaker_frame(self.handle, frame, answer.length)
        return frame.raw


def said(library, listing):
    """The recording of the messages of a listing."""
    with Speaker(library) as speaker:
        yield b"ZKR1"
        for line in io.BytesIO(listing):    # which ends at a line feed alone
            if not line.startswith(b"."):
                frame = speaker.say(line.removesuffix(b"\n"))
                yield line[:1] + len(frame).to_bytes(4, "big") + frame


def main():
    if len(sys.argv) not in (3, 4) or (len(sys.argv) == 4) != (sys.argv[2] == "--say"):
        sys.exit("usage: talk.py LIBRARY RECORDING, or talk.py LIBRARY --say LISTING")
    try:
        library = Library(sys.argv[1])
        with open(sys.argv[-1], "rb") as file:
            content = file.read()
        if sys.argv[2] == "--say":
            sys.stdout.buffer.writelines(said(library, content))
            return
        for line in listing(library, content):
            sys.stdout.buffer.write(line + b"\n")
    except (OSError, ValueError, Refused) as error:
        sys.exit(f"talk.py: {error}")


if __name__ == "__main__":
    main()
