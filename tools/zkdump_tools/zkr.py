"""Recordings of one connection, read, cut into frames and written: what the tools of this folder share.

A recording of the first format is the bytes ZKR1 and then pieces: a byte for the side (C or S), four bytes for the
number of bytes, and the bytes (docs/FORMATS.md, section 12). One of the second format has after its head ZKR2 four
ints: the greatest payload of the client's frames and of the server's, how many requests may wait, and the profile
(34, 35 or 37). Its pieces have eight bytes between the side and the number of bytes: milliseconds since 1970.

The times of a recording's pieces may also be in a file beside it, RECORDING.times: a line for each piece, its
milliseconds since 1970 in decimal, with a fraction. All times in this module are such numbers of milliseconds.
"""

import argparse
import datetime
import errno
import functools
import os
import pathlib
import re
import struct
from typing import NamedTuple, Optional

from . import facts, files, frames, program
from .newfile import NewFile, flush
from .operations import PROFILES
from .running import (Progress, allow_many_files, complain, hold_standard_streams, drop_standard_output,  # noqa: F401
                      report, shown, standard_input, tool)

CLIENT, SERVER = b"C", b"S"
OTHER = {CLIENT: SERVER, SERVER: CLIENT}
# The first bytes of a recording; and those of a capture, of pcap, of pcapng, or packed with gzip.
MARKS = (b"ZKR1", b"ZKR2")
CAPTURES = (b"\xa1\xb2\xc3\xd4", b"\xd4\xc3\xb2\xa1", b"\xa1\xb2\x3c\x4d", b"\x4d\x3c\xb2\xa1", b"\x0a\x0d\x0d\x0a",
            b"\x1f\x8b")
LARGEST_PIECE = 16_777_220
TIME = re.compile(r"(?:0|[1-9]\d{0,18})(?:\.\d{1,9})?\n?", re.ASCII)      # a number of JSON
LONGEST_TIME = 32
LIMITS, USUAL_LIMIT = range(64, 16_777_217), 4_194_304
WAITINGS, USUAL_WAITING = range(1, 1_048_577), 65_536
RELEASES = {number: release for release, number in PROFILES.items()}
NEWEST = [*PROFILES][-1]        # the release by which tools read where none is named
# The head of a piece, before its bytes: the side, the time in a ZKR2 recording, and the number of bytes.
PIECE_HEADS = {"zkr1": struct.Struct(">ci"), "zkr2": struct.Struct(">cqi")}
# A connect request and a connect response that no peer sends: every number is -1, and the password is null.
MADE_UP = {CLIENT: struct.pack(">iiqiqi", 28, -1, -1, -1, -1, -1), SERVER: struct.pack(">iiiqi", 20, -1, -1, -1, -1)}


# The reasons of docs/FORMATS.md, section 12, in words.
DAMAGES = {
    "BadHead": "this is no recording, which begins with ZKR1 or ZKR2",
    "BadLimits": "the recording's head has a limit or a profile that isn't allowed",
    "BadSide": "the recording is damaged: a piece begins with neither C nor S",
    "BadTime": "the recording is damaged: a piece has a time before 1970",
    "BadSize": "the recording is damaged: a piece has no bytes, or too many",
    "Short": "the recording ends within a piece, or within its head",
}


class Damaged(ValueError):
    """A recording that is damaged: at which offset of the file, and why (the reasons of docs/FORMATS.md)."""

    def __init__(self, offset, reason):
        super().__init__(f"{DAMAGES[reason]} (offset={offset} reason={reason})")
        self.offset, self.reason = offset, reason


class Head(NamedTuple):
    """The head, before the pieces. The numbers are those of a ZKR2 head; a ZKR1 head has none, so they are the
    defaults."""
    form: str = "zkr1"
    client_limit: int = USUAL_LIMIT
    server_limit: int = USUAL_LIMIT
    waiting: int = USUAL_WAITING
    profile: int = PROFILES["3.4"]

    def to_bytes(self):
        if self.form == "zkr1":
            return b"ZKR1"
        return b"ZKR2" + struct.pack(">iiii", *self[1:])

    def piece(self, side, milliseconds, data):
        """The bytes of one piece, of 1 to LARGEST_PIECE bytes."""
        if self.form == "zkr1":
            return struct.pack(">cI", side, len(data)) + data
        return struct.pack(">cqI", side, max(0, int(milliseconds)), len(data)) + data


LARGEST_FRAMES = Head(client_limit=LIMITS[-1], server_limit=LIMITS[-1])


class Piece(NamedTuple):
    """Bytes of one side that were taken together, and when; None if that isn't known."""
    side: bytes
    milliseconds: Optional[float]
    data: bytes


class Reader:
    """Reads a recording from a stream of bytes. `head` is its head; iterating gives its pieces one by one.

    Where the recording is damaged, Damaged is raised once everything before the damage was yielded, including the bytes
    of a piece that is cut short.
    """

    def __init__(self, stream):
        self.stream, self.offset = stream, 0
        mark = stream.read(4)
        if mark not in MARKS:
            raise Damaged(0, "BadHead")
        self.offset, self.head = 4, Head()
        if mark == b"ZKR2":
            self.head = Head("zkr2", *(self.head_number(allowed) for allowed in (LIMITS, LIMITS, WAITINGS, RELEASES)))

    def number(self, form):
        size = struct.calcsize(form)
        data = self.stream.read(size)
        if len(data) < size:
            raise Damaged(self.offset, "Short")
        self.offset += size
        return struct.unpack(form, data)[0]

    def head_number(self, allowed):
        found = self.number(">i")
        if found not in allowed:
            raise Damaged(self.offset - 4, "BadLimits")
        return found

    def __iter__(self):
        form, stream = PIECE_HEADS[self.head.form], self.stream
        while begin := stream.read(form.size):
            side, *times, size = form.unpack(begin) if len(begin) == form.size else (None, 0)
            if side not in (CLIENT, SERVER) or times and times[0] < 0 or not 1 <= size <= LARGEST_PIECE:
                raise self.damage(begin)
            self.offset += form.size
            data = stream.read(size)
            if data:
                yield Piece(side, times[0] if times else None, data)
            if len(data) < size:
                raise Damaged(self.offset, "Short")
            self.offset += size

    def count(self):
        """How many pieces there are from here to the end, or to where the recording is damaged. None is read."""
        form, stream, pieces = PIECE_HEADS[self.head.form], self.stream, 0
        at, end = stream.tell(), stream.seek(0, os.SEEK_END)
        stream.seek(at)
        while len(begin := stream.read(form.size)) == form.size:
            side, *times, size = form.unpack(begin)
            at += form.size
            if side not in (CLIENT, SERVER) or times and times[0] < 0 or not 1 <= size <= LARGEST_PIECE or at == end:
                break
            pieces += 1
            at += size
            stream.seek(size, os.SEEK_CUR)
        return pieces

    def damage(self, begin):
        """The damage of a piece's head, as far as the head is there."""
        if begin[:1] not in (CLIENT, SERVER):
            return Damaged(self.offset, "BadSide")
        at = 1
        if self.head.form == "zkr2" and len(begin) >= 9:
            if begin[1] & 0x80:
                return Damaged(self.offset + 1, "BadTime")
            at = 9
        return Damaged(self.offset + at, "Short" if len(begin) < PIECE_HEADS[self.head.form].size else "BadSize")


def is_recording(path):
    """Whether there is a file at this path that begins as a recording does."""
    return begins_with(path, MARKS)


def begins_with(path, marks):
    """Whether there is a file at this path that begins with one of these."""
    try:
        with open(path, "rb") as file:
            return file.read(4).startswith(marks)
    except OSError:
        return False


def real_path(path):
    """The path of a file without links: the same for all paths of the file."""
    try:
        return os.path.realpath(path)
    except ValueError:      # no file can have this path
        return path


def times_path(path):
    """The file of the times of the recording at this path."""
    return f"{path}.times"


def read_times(path):
    """The times in a file of times, one for each piece of its recording, as the file spells them."""
    with files.open_again(path, mode="r", encoding="ascii", errors="replace") as lines:
        for number, line in enumerate(iter(lambda: lines.readline(LONGEST_TIME), ""), 1):
            if not TIME.fullmatch(line):
                raise ValueError(f"{path}: line {number} is not a time: a line has milliseconds since 1970, as "
                                 "1795332633004.5")
            yield line.removesuffix("\n")


def times_beside(path, beside=None):
    """The times of the pieces of the recording at this path, in the file `beside`, by default the one beside it. A
    ValueError where that has another number of times than the recording has pieces."""
    beside = beside or times_path(path)
    times = sum(1 for _ in read_times(beside))
    with files.open_again(path, files.RECORDING) as recording:
        pieces = Reader(recording).count()
    if times != pieces:
        raise ValueError(f"{beside} has {times} times, and {path} {pieces} pieces: these are not the times of this "
                         "recording")
    return read_times(beside)


class Cutter(frames.Cutter):
    """Cuts the sides of a recording with this head into frames."""

    def __init__(self, head=Head()):
        super().__init__({CLIENT: head.client_limit, SERVER: head.server_limit})


class Writer:
    """A new recording, with a file of times where `times` is true. The bytes given to `piece` are in the file once it
    returns; `gather` says how many bytes may be gathered first. An OSError leaves whole pieces, and a time for each.
    The facts that are `known`, if any, are beside it first, and say that it is unfinished."""

    def __init__(self, path, head, times, gather=0, known=None):
        self.path, self.head, self.gather, self.timed = path, head, gather, times or head.form == "zkr2"
        self.usual = PIECE_HEADS["zkr1"].pack if head.form == "zkr1" else None
        self.count = {CLIENT: 0, SERVER: 0}
        for each in (path, facts.facts_path(path)):
            if os.access(each, os.F_OK):
                raise FileExistsError(errno.EEXIST, "File exists", each)
        self.files, self.begun, self.times = [], False, None
        try:
            if known:
                self.begin(known)
            self.recording = NewFile(path)
            self.files.append(self.recording)
            if times:
                self.times = NewFile(times_path(path))
                self.files.append(self.times)
            self.recording.waiting += head.to_bytes()
            if not gather:
                self.flush()
        except OSError:
            self.remove()
            raise

    def begin(self, known):
        """Writes the facts that are known from the beginning on."""
        try:
            facts.begin(self.path, known)
        except OSError as error:
            raise OSError(error.errno, error.strerror, self.path) from error
        self.begun = True

    def piece(self, side, milliseconds, data):
        """Writes any number of bytes of a side as pieces. Their time is the same in both files, to a microsecond."""
        size, waiting = len(data), self.recording.waiting
        if self.usual and 0 < size <= LARGEST_PIECE:    # the loop below in a shorter form
            if not self.gather:
                self.put(self.usual(side, size) + data, milliseconds)
                self.count[side] += size
                return
            waiting += self.usual(side, size)
            waiting += data
            if self.times:
                self.times.waiting += b"%.3f\n" % milliseconds
            self.gathered(side, size)
            return
        if self.timed:
            milliseconds = round(milliseconds, 3)
        for at in range(0, len(data), LARGEST_PIECE):
            self.recording.waiting += self.head.piece(side, milliseconds, data[at:at + LARGEST_PIECE])
            if self.times:
                self.times.waiting += b"%.3f\n" % milliseconds
        self.gathered(side, size)

    def put(self, piece, milliseconds):
        """Writes a piece and its time, with nothing that waits in between."""
        self.recording.put(piece)
        if self.times:
            try:
                self.times.put(b"%.3f\n" % milliseconds)
            except OSError:
                self.recording.take_back(len(piece))
                raise

    def gathered(self, side, size):
        """Counts bytes of a side that wait to be written, and writes all if it is enough."""
        self.count[side] += size
        if len(self.recording.waiting) >= self.gather:
            try:
                self.flush()
            except OSError:
                self.count[side] -= size
                raise

    def flush(self):
        """Writes what waits to the recording and to its times."""
        flush(self.files)

    def close(self):
        """Writes what waits, and closes the files; where nothing could ever be written, they are removed."""
        try:
            self.flush()
        finally:
            self.remove(all_of_it=not self.recording.size)

    def write_facts(self, found):
        """Writes the facts of the recording, which is closed."""
        facts.write(self.path, found, self.times and self.times.path, self.begun)

    def remove(self, all_of_it=True):
        """Closes the recording and its times, and removes them and its facts."""
        for file in self.files:
            file.file.close()
            if all_of_it:
                pathlib.Path(file.path).unlink(missing_ok=True)
        if all_of_it and self.begun:
            pathlib.Path(facts.facts_path(self.path)).unlink(missing_ok=True)


class Series:
    """The recordings PREFIX-1.zkr, PREFIX-2.zkr and so on; a number whose file is there already is passed over."""

    def __init__(self, prefix, head, times, gather=0):
        self.prefix, self.head, self.times, self.gather, self.number = prefix, head, times, gather, 0

    def next(self, known=None):
        """The next recording, beside which are the facts that are `known`, if any."""
        while True:
            self.number += 1
            try:
                return Writer(f"{self.prefix}-{self.number}.zkr", self.head, self.times, self.gather, known)
            except FileExistsError:
                continue


def clock(milliseconds):
    """A time as it is printed: date and time of day in UTC; after the year 9999 its milliseconds since 1970."""
    whole, part = divmod(int(milliseconds // 1), 1000)      # also before 1970
    try:
        return f"{second(whole)}.{part:03}Z"
    except OverflowError:
        return f"{int(milliseconds)} ms"


@functools.lru_cache(maxsize=16)
def second(seconds):
    """The date and the time of day of a whole second; the times that are printed come in order."""
    return f"{datetime.datetime(1970, 1, 1) + datetime.timedelta(seconds=seconds):%Y-%m-%dT%H:%M:%S}"


class Words(argparse.ArgumentParser):
    """The arguments of a command: what is wrong with them is reported in one line, with status 2."""

    def __init__(self, description):
        super().__init__(description=description, allow_abbrev=False,
                         formatter_class=argparse.RawDescriptionHelpFormatter)
        self.add_argument("--version", action=program.Version, nargs=0, help="print the version, and end")

    def error(self, message):
        complain(" ".join(message.split()))
        self.exit(2)

    def add_number(self, word, allowed, **more):
        """An option whose value is a number in the range `allowed`."""
        def number(text):
            if not (text.isascii() and text.isdigit() and text == str(int(text)) and int(text) in allowed):
                raise argparse.ArgumentTypeError(f"{text!r} is not a number from {allowed[0]} to {allowed[-1]}")
            return int(text)
        self.add_argument(word, type=number, metavar="N", **more)

    def add_format(self):
        """The options that say how recordings are written."""
        self.add_argument("--no-times", dest="times", action="store_false", help="write no RECORDING.times, which has "
                          "a line for each piece: its milliseconds since 1970")
        self.add_argument("--times", action="store_true", default=True, help=argparse.SUPPRESS)     # it is usual
        self.add_argument("--format", choices=("zkr1", "zkr2"), default="zkr1",
                          help="zkr2 has a time in each piece, and in its head these three numbers:")
        self.add_number("--limit", LIMITS, help=f"the greatest payload of a frame ({USUAL_LIMIT})")
        self.add_number("--waiting", WAITINGS, help=f"how many requests may wait ({USUAL_WAITING})")
        self.add_argument("--profile", choices=PROFILES, help="the release whose operations are used (3.4)")

    def head_of(self, words):
        """The head that these arguments choose."""
        asked = {"--limit": words.limit, "--waiting": words.waiting, "--profile": words.profile}
        if words.format == "zkr1":
            for option, value in asked.items():
                if value is not None:
                    self.error(f"{option} is for --format zkr2: add that, or leave it out")
            return Head()
        limit = words.limit or USUAL_LIMIT
        return Head("zkr2", limit, limit, words.waiting or USUAL_WAITING, PROFILES[words.profile or "3.4"])
