"""Reads the listings that `zkdump show` writes (docs/FORMATS.md, sections 9 and 11), line by line.

A line becomes a Message, which has what the line begins with. A Listing yields the messages of one connection,
each with its line and with the request that it answers, and what is known of the connection itself is in its
Connection. Joined, in joined.py, gives the same of the lines that zkjson makes; inputs.py opens either.
"""

import codecs
import collections
import contextlib
import math
import re

from . import errors, operations

BLOCK = 1 << 16
STANDARD_INPUT = "-"
OWN_LANES = (None, "-2", "-4", "-8")
NO_FRAME = (None, None, None)
EVENT_XID = -1
NOT_DONE = ("OK", "RUNTIMEINCONSISTENCY")   # the results of a failed multi's parts that did not fail themselves
CONNECT, EVENT = "connect", "event"
ASKED = {CONNECT, *(operation.name for operation in operations.ALL if operation.release)}
UNREAD = "unread"       # in place of the ending of one of many recordings, which can't be read
STOPPED = ("cut", "refused", "recording")       # the endings of what wasn't read to its end
# What becomes of a request that waits at the end of what was read.
UNANSWERED, NOT_CAPTURED, NOT_KNOWN = FATES = "unanswered", "notCaptured", "notKnown"
# From these milliseconds on a float has not each microsecond (columns/recording.c), and not each millisecond.
COARSE, TOO_COARSE = 8e12, 2.0 ** 53

# Spellings of a line. A number has no more digits than a long has.
NUMBER = r"(?:0|-?[1-9]\d{0,18})"
TEXT = '(?:~|"[ !#-~]*")'
NAME = r"(?:/([A-Za-z]+))?"
# How a message's line begins: its side, xid and operation, and its path, its error or an event's kind.
HEAD = rf"([CS]) (?:({NUMBER}) )?([A-Za-z][A-Za-z0-9]*)"
BEGINNING = re.compile(rf"{HEAD}(?: path=({TEXT})(?= |$)| zxid={NUMBER} (?:err|kind)=({NUMBER}){NAME}(?= |$)|"
                       r"(?= (?!path=|zxid=\S* (?:err|kind)=)|$))", re.ASCII)
ONLY_HEAD = re.compile(HEAD, re.ASCII)
# A line of passages.py, of a message that zkdump show doesn't read: its operation by name or number, and no path.
BY_NUMBER = re.compile(rf"([CS]) ({NUMBER}) \?([A-Za-z0-9-]+)( path=)?(?: zxid={NUMBER}(?: err=({NUMBER}){NAME})?)?",
                       re.ASCII)
FAILED_PART = re.compile(rf"[{{;]fail err=({NUMBER}){NAME}", re.ASCII)
RESULT = re.compile(rf"[{{;](?=[A-Za-z])(?:fail err=({NUMBER}){NAME})?", re.ASCII)
QUOTED = re.compile('"[^"]*"')
NO_ESCAPE = re.compile(r"\\(?![0-9a-f]{2})", re.ASCII)
PATHS = re.compile(rf' path=({TEXT})|"[^"]*"', re.ASCII)
EVENT_PATH = re.compile(rf" path=({TEXT})$", re.ASCII)
DIGITS = re.compile("#([0-9a-f]*)(.?)", re.ASCII | re.DOTALL)
SESSION = re.compile(rf" session=({NUMBER})(?= |$)", re.ASCII)
# What follows the operation in the connect messages that pcap2zkr makes up, by the side.
MADE_UP = {"C": " version=-1 zxid=-1 timeout=-1 session=-1 passwd=~ ro=-",
           "S": " version=-1 timeout=-1 session=-1 passwd=~ ro=-"}
ZXID = re.compile(rf" zxid=({NUMBER})(?= |$)", re.ASCII)
ENDING = re.compile(rf"\. (?:whole unanswered={NUMBER}|cut side=[CS] frame={NUMBER} got={NUMBER}|"
                    rf"refused side=[CS] frame={NUMBER} offset={NUMBER} place={NUMBER} reason=\w+"
                    rf"(?: expected={NUMBER} got={NUMBER})?|recording offset={NUMBER} reason=\w+)", re.ASCII)


class NoListing(ValueError):
    """A line that `zkdump show` doesn't write, or doesn't write there."""


def check_values(line, n):
    """Refuses line n where a text of it isn't UTF-8, or data are no bytes; these lie after its beginning, too."""
    if "\\" in line:
        for found in QUOTED.finditer(line):
            try:
                if NO_ESCAPE.search(line, *found.span()):
                    raise ValueError("no escape")
                for _ in parts_of_text(line, *found.span()):
                    pass
            except ValueError:
                raise no_line(n, found.start()) from None
    if "#" in line and [1 for digits, after in DIGITS.findall(line) if len(digits) % 2 or after not in ("", " ")]:
        for found in DIGITS.finditer(QUOTED.sub(lambda text: "~" * len(text[0]), line)):
            if len(found[1]) % 2:
                raise no_line(n, line.rfind(" ", 0, found.start()))
            if found[2] not in ("", " "):
                raise no_line(n, found.end(1))


def no_line(n, at):
    """The error for line n, which can be parsed up to the place `at`."""
    return NoListing(f"line {n}: from column {at + 1} on this is no line as zkdump show writes it")


class Connection:
    """What is known of a connection, as far as its messages are read.

    `name` is what it is called, and `session` the number of its session in hexadecimal: that of the connect response,
    else that which the client asked for, else None. `begun` and `ended` are the least and the greatest time of its
    messages, in milliseconds since 1970; `ending` is its ending line, its numbers as numbers; and `backwards` counts
    the replies whose time is before that of their request. `known` says that the session no longer changes. `facts` has
    the facts beside its recording, or None.
    """

    def __init__(self, name, facts=None):
        self.name, self.facts, self.session = name, facts, facts and facts.session
        self.known = bool(self.session)
        self.begun = self.ended = self.ending = None
        self.backwards = 0

    def connect(self, made, session):
        """Takes a connect message, and its session as a number: where it is known, a request doesn't change it."""
        if session and not made.made_up and not (self.known and made.side == "C"):
            self.session = hexadecimal(session)
        self.known |= made.side == "S"

    def has_hole(self):
        """Whether bytes of it are known not to be in its recording, or that couldn't be read."""
        return bool(self.ending) and self.ending["ending"] == UNREAD or bool(self.facts) and self.facts.has_hole()

    def has_stopped(self):
        """Whether it wasn't read to its end: a refusal, a cut frame or a damage ended the reading."""
        return bool(self.ending) and self.ending["ending"] in STOPPED

    def is_incomplete(self):
        """Whether some of it is missing, or wasn't read."""
        return self.has_hole() or self.has_stopped()

    def fate(self):
        """What became of the requests that wait at its end: their replies may have been lost, or come later."""
        if self.facts and self.facts.loses_replies():
            return NOT_CAPTURED
        return NOT_KNOWN if self.has_stopped() else UNANSWERED

    def timed(self, moment):
        """Takes a message's time."""
        self.begun = moment if self.begun is None else min(self.begun, moment)
        self.ended = moment if self.ended is None else max(self.ended, moment)


class Message:
    """How a message's line begins: its number, its side, and its xid, operation and path as the line has them; None for
    what it has not.

    `fate` is what became of a request that waits: UNANSWERED, NOT_CAPTURED if its reply may be among bytes that are
    missing, or NOT_KNOWN if the reading stopped before its reply could come. `decoded` says that all of it was read,
    and not its header alone, with its operation by name or number (passages.py). `connection` is the Connection that it
    belongs to; `made_up` says that pcap2zkr made it up, at the beginning of what follows a loss. `error` is the name of a reply's error, or its number: of a failed multi, that of the part that
    failed; and of an event, its kind. `at` is the message's time as it is spelled, `moment` the same as a number of
    milliseconds since 1970, from TOO_COARSE on of whole ones, and `microseconds`, or `ms`, how long a reply took,
    unless its time is before that of its request. `end` is the place after the operation in the line; `parts` is for
    the readers of the rest of it, and `chosen` for selection.py.
    """

    at = moment = microseconds = chosen = None
    fate, decoded, made_up = UNANSWERED, True, False
    parts = ()
    ms = property(lambda self: None if self.microseconds is None else milliseconds(self.microseconds))

    def __init__(self, connection, n, side, xid, op, path, error, end=0):
        self.connection, self.n, self.side, self.xid, self.op, self.path = connection, n, side, xid, op, path
        self.error, self.end = error, end


def hexadecimal(number):
    """A session or a zxid as ZooKeeper's logs print it."""
    return f"0x{number & 0xffff_ffff_ffff_ffff:x}"


def milliseconds(microseconds):
    """Microseconds as milliseconds: a float, and where that has not each millisecond a whole number."""
    return microseconds / 1000 if microseconds < 1000 * TOO_COARSE else microseconds // 1000


def billionths(at):
    """A time as it is spelled, in billionths of a millisecond."""
    whole, _, part = str(at).partition(".")
    return int(whole + part.ljust(9, "0"))


def error_of(number, name):
    """The name of an error, or its number; None where a line has neither."""
    return name or number and errors.name(int(number)) or None


def error_of_parts(names):
    """The error of a multi, of the names of its parts' errors: that of the part that failed itself."""
    return next((name for name in names if name not in NOT_DONE), names[-1] if names else None)


def failed_parts(errors):
    """The numbers of a multi's parts that failed themselves, from 0, of the errors of all its results, None for none;
    where none did, that of the last one with an error."""
    found = [number for number, error in enumerate(errors) if error]
    return [number for number in found if errors[number] not in NOT_DONE] or found[-1:]


def unescaped(spelled):
    """The bytes that a part of a text spells; the part has no half of an escape."""
    if "\\" not in spelled:
        return spelled.encode()
    return spelled.replace("\\", "\\x").encode().decode("unicode_escape").encode("latin-1")


def text(spelled):
    """A text of a line; None for null."""
    if "\\" not in spelled:
        return None if spelled == "~" else spelled[1:-1]
    return "".join(parts_of_text(spelled, 0, len(spelled)))


def parts_of_text(line, at, end):
    """The text in the line, with its quotes, from one place to the other: in parts, none of them long."""
    decoder, at, end = codecs.getincrementaldecoder("utf-8")(), at + 1, end - 1
    while at < end:
        to = min(at + BLOCK, end)
        if to < end:
            escape = line.rfind("\\", to - 2, to)
            to = to if escape < 0 else escape
        yield decoder.decode(unescaped(line[at:to]), to == end)
        at = to


def spelled(value):
    """A text as a line has it; None for null."""
    if value is None:
        return "~"
    if value.isascii() and value.isprintable() and '"' not in value and "\\" not in value:
        return f'"{value}"'
    return '"' + "".join(chr(each) if 0x20 <= each <= 0x7e and each not in b'"\\' else f"\\{each:02x}"
                         for each in value.encode(errors="surrogatepass")) + '"'


def ending_of(line, n):
    """An ending line, its numbers as numbers."""
    if not ENDING.fullmatch(line):
        raise NoListing(f"line {n}: this begins with a dot, and is no last line as zkdump show writes it")
    word, *fields = line[2:].split(" ")
    made = {"ending": word}
    for name, _, value in (field.partition("=") for field in fields):
        made[name] = value if name in ("side", "reason") else int(value)
    return made


def lines_of(stream, before_read=lambda: None):
    """The lines of a stream of bytes, each as soon as it is there. Before each read `before_read` is called."""
    begun = bytearray()
    while before_read() or (block := stream.read1(BLOCK)):
        first, end, rest = block.partition(b"\n")
        begun += first
        if not end:
            continue
        line = begun.decode(errors="surrogateescape")
        begun = bytearray()
        yield line
        whole, end, rest = rest.rpartition(b"\n")
        begun += rest
        if end:
            yield from whole.decode(errors="surrogateescape").split("\n")
    if begun:
        yield begun.decode(errors="surrogateescape")


class Conversations:
    """What a Listing and a Joined have in common: `name` names the conversation, and `file` what is read."""

    def __init__(self, name, lines, progress):
        self.name, self.lines, self.progress, self.file = name, lines, progress, STANDARD_INPUT

    @contextlib.contextmanager
    def complaints(self):
        """Names the file that could not be parsed, if it has a name."""
        try:
            yield
        except ValueError as error:
            raise error if self.file == STANDARD_INPUT else NoListing(f"{self.file}: {error}") from None


class Listing(Conversations):
    """The listing of one connection, message by message.

    Iterating gives the line of each message, the message, and the request that it answers, or None. `connection` is
    what is known of the connection, and `left()` returns the requests that wait. `times` gives the time of each
    message, where it isn't None (times.Times); `progress` is updated with the number of lines. `proved` says that the
    lines are those of zkdump itself, whose values need no check; `facts` are those of the recording.
    """

    def __init__(self, name, lines, times, progress, proved=False, facts=None):
        super().__init__(name, lines, progress)
        self.connection, self.times, self.proved = Connection(name, facts), times, proved
        self.plain = collections.deque()        # the requests that wait, in the lanes in which a server answers them
        self.lanes = {xid: collections.deque() for xid in OWN_LANES}    # (docs/CONVERSATION.md)

    def __iter__(self):
        connection, plain, lanes, lines, n = self.connection, self.plain, self.lanes, iter(self.lines), 0
        frames, foreign = self.times and self.times.frames, self.times and self.times.foreign
        begun, ended = math.inf, -math.inf
        for n, line in enumerate(lines, 1):
            found = BEGINNING.match(line)
            if not found or connection.ending:
                found = BY_NUMBER.fullmatch(line) if self.proved else None
                if not found or connection.ending:
                    self.end(line, n)
                    continue
            side, xid, op, path, number, name = found.groups()
            if not self.proved:
                if (xid is None) != (op == CONNECT or op == EVENT and side == "S"):
                    raise no_line(n, found.start(3))
                if number == "0" and op != EVENT:
                    raise no_line(n, found.start(5))
                check_values(line, n)
            if number and not name and op != EVENT:
                name = errors.NAMES.get(int(number))
            made = Message(connection, n, side, xid, op, path, name or number, found.end(3))
            if found.re is BY_NUMBER:
                made.decoded = False
            if frames:
                of_side, of_xid, at = next(frames, NO_FRAME)
                if of_side != side or of_xid != int(xid or EVENT_XID) and op != CONNECT or foreign \
                        and not self.times.is_of(line, made):
                    self.times.refuse(n, of_side, lines)
                if at is not None:
                    made.at = at
                    moment = float(at)
                    if moment >= TOO_COARSE:
                        moment = billionths(at) // 10**9
                    made.moment = moment
                    if moment > ended:
                        connection.ended = ended = moment
                    if moment < begun:
                        connection.begun = begun = moment
            lane, asked = plain if xid not in lanes else lanes[xid], None
            if side == "C":
                if op not in ASKED and made.decoded:
                    raise no_line(n, made.end)
                lane.append(made)
            elif op != EVENT:
                asked = self.take_reply(line, made, lane)
            if op == CONNECT:
                session = SESSION.search(line, made.end)
                made.made_up = line[made.end:] == MADE_UP[side]
                connection.connect(made, session and int(session[1]))
            yield line, made, asked
            if n % 1000 == 0:
                self.progress.show(f"{n:,} lines")
        if frames:
            self.times.compare(connection.ending)
        self.progress.end()

    def take_reply(self, line, made, lane):
        """Takes from its lane the request that a reply answers, and how long that took."""
        if not lane or lane[0].xid != made.xid or lane[0].op != made.op:
            raise NoListing(f"line {made.n}: the request of this reply is missing before it: name the whole listing")
        asked = lane.popleft()
        if made.moment is not None and asked.moment is not None:
            if made.moment < COARSE:
                microseconds = round((made.moment - asked.moment) * 1000)
            else:
                microseconds = round(billionths(made.at) - billionths(asked.at), -6) // 10**6
            if microseconds < 0:
                self.connection.backwards += 1
            else:
                made.microseconds = microseconds
        if made.op == "multi" and made.error is None and made.decoded:
            made.error = error_of_parts([error_of(number, name)
                                         for number, name in FAILED_PART.findall(QUOTED.sub("", line))])
        return asked

    def end(self, line, n):
        """Takes an ending line, as the last one."""
        if self.connection.ending:
            raise NoListing(f"line {n}: a line after the last one of a connection: name the listings of two "
                            "connections each by itself")
        if not line.startswith("."):
            head = ONLY_HEAD.match(line)
            raise no_line(n, head.end() if head else 0)
        self.connection.ending = ending_of(line, n)
        if self.connection.has_stopped():
            self.connection.ending["messages"] = n - 1

    def connections(self):
        """The connections that were read: the one."""
        return [self.connection]

    def left(self):
        """The requests that still wait, in the order in which they came."""
        left = sorted((made for lane in (self.plain, *self.lanes.values()) for made in lane), key=lambda made: made.n)
        for made in left:
            made.fate = self.connection.fate()
        return left

    def paths(self, line, made):
        """The paths of the line of a request or an event: of a multi, those of its parts."""
        if not made.decoded:
            return []
        if made.op == EVENT:
            return EVENT_PATH.findall(line, made.end)
        return [path for path in PATHS.findall(line) if path] if made.op == "multi" else [made.path]

    def results(self, line):
        """The errors of the results in the line of a multi's reply, each its name or its number, or None."""
        return [error_of(number, name) for number, name in RESULT.findall(QUOTED.sub("", line))]

    def zxid(self, line):
        """The zxid of a reply's line as ZooKeeper's logs print it; None if it has none."""
        found = ZXID.search(line)
        return found and hexadecimal(int(found[1]))
