"""Reads the lines that zkjson makes: messages of one connection or of several, in any order of the connections."""

import json
import math
import re

from . import errors, facts, listing

WORD = re.compile(r"[A-Za-z0-9-]+", re.ASCII)
SESSION = re.compile("0x[0-9a-f]{1,16}", re.ASCII)
MOST = 1 << 64
ALL_ONES = listing.hexadecimal(-1)
MADE_UP = {"C": {"version": -1, "zxid": ALL_ONES, "timeout": -1, "session": ALL_ONES, "passwd": None, "ro": None},
           "S": {"version": -1, "timeout": -1, "session": ALL_ONES, "passwd": None, "ro": None}}
NEEDED = object()
# Of a time that a float has not exactly, what is before the point.
WHOLE_AT = re.compile(r'"at":\s*(\d+)\.\d+\s*[,}]', re.ASCII)
# The fields of an ending, as an ending line has them in order; these two are texts.
ENDING_FIELDS = ("unanswered", "side", "frame", "offset", "place", "reason", "expected", "got")
ENDING_TEXTS = ("side", "reason")
FATES = (listing.NOT_CAPTURED, listing.NOT_KNOWN)       # beside `waiting`, the numbers of the requests of each fate


def no_constant(name):
    raise ValueError(f"{name} is not a number of JSON")


DECODER = json.JSONDecoder(parse_constant=no_constant)


def object_of(line):
    """The object of a line."""
    try:
        made, end = DECODER.raw_decode(line)
    except json.JSONDecodeError as error:
        raise ValueError(f"this is not JSON from column {error.colno} on") from None
    except RecursionError:
        raise ValueError("this is nested too deeply") from None
    if not isinstance(made, dict) or line[end:].strip():
        raise ValueError("this is not an object of zkjson")
    return made


def value(made, name, kinds, otherwise=NEEDED):
    """The value that an object has under this name, which has to be of one of these kinds."""
    found = made.get(name, otherwise)
    if found is NEEDED:
        raise ValueError(f"this object has no {name!r}")
    if found is not otherwise and (type(found) not in kinds or str not in kinds and not -MOST < found < MOST):
        raise ValueError(f"zkjson doesn't write this value of {name!r}")
    return found


def word(made, name, otherwise=NEEDED):
    found = value(made, name, (str,), otherwise)
    if found is not otherwise and not WORD.fullmatch(found):
        raise ValueError(f"zkjson doesn't write this value of {name!r}")
    return found


def error_of(made, number="err"):
    """The name of the error that an object has, or its number; None if it has none."""
    found = value(made, number, (int,), None)
    usual = None if found is None else errors.name(found) if number == "err" else str(found)
    return word(made, number + "Name", usual)


def ending_of(made):
    """The ending that an object has, with the fields of an ending line."""
    found = {name: made[name] for name in ("ending", *ENDING_FIELDS) if name in made}
    word, *fields = found.items()
    if word[1] == listing.UNREAD and type(found.get("reason")) is str:
        return found
    line = " ".join([f". {word[1]}", *(f"{name}={value}" for name, value in fields)])
    if not listing.ENDING.fullmatch(line) or any(
            type(value) is not (str if name in ENDING_TEXTS else int) for name, value in fields):
        raise ValueError("this is not an ending of zkjson")
    if "messages" in made:
        found["messages"] = value(made, "messages", (int,))
    return found


def parts_of(made):
    """The parts of a multi."""
    parts = made.get("parts", [])
    if type(parts) is not list or not all(type(part) is dict for part in parts):
        raise ValueError("zkjson doesn't write this value of 'parts'")
    return parts


def errors_of(made):
    """The errors of a multi's results, None for none."""
    return list(map(error_of, parts_of(made)))


class Joined(listing.Conversations):
    """The lines of zkjson, message by message, with the interface of a Listing; `name` is the connection of objects
    that name none.

    A reply belongs to the request whose number it has, so lines may have been left out. If the request is not there,
    one is returned that is made of what the reply has of it.
    """

    def __init__(self, name, lines, progress):
        super().__init__(name, lines, progress)
        self.names = {}     # what is known of each connection

    def __iter__(self):
        for n, line in enumerate(self.lines, 1):
            try:
                made = object_of(line)
                known = self.known(made)
                if "ending" in made:
                    known.end(made)
                    continue
                message = known.message(made, line)
                asked = known.asked(message, made)
            except ValueError as error:
                raise listing.NoListing(f"line {n}: {error}") from None
            yield line, message, asked
            if n % 1000 == 0:
                self.progress.show(f"{n:,} lines")
        self.progress.end()

    def known(self, made):
        """What is known of the connection of an object."""
        name = value(made, "connection", (str,), self.name)
        if name not in self.names:
            self.names[name] = Known(name)
        return self.names[name]

    def connections(self):
        """The connections that were read."""
        return [known.connection for known in self.names.values()]

    def left(self):
        """The requests to which no reply has come."""
        return [made for known in self.names.values() for made in known.left()]

    def paths(self, line, made):
        """The paths of a request's line: of a multi, those of its parts."""
        if made.op != "multi" or not made.decoded:
            return [made.path]
        return [path_of(part, "path") for part in parts_of(object_of(line))]

    def results(self, line):
        """The errors of the results in the line of a multi's reply, each its name or its number, or None."""
        return errors_of(object_of(line))

    def zxid(self, line):
        """The zxid of a reply's line; None if it has none."""
        found = object_of(line).get("zxid")
        return found if isinstance(found, str) and SESSION.fullmatch(found) else None


class Known:
    """What is known of one of the connections."""

    def __init__(self, name):
        self.connection, self.last, self.requests = listing.Connection(name), 0, {}
        self.waiting, self.fates = None, {}

    def message(self, made, line):
        """The message of an object, which a line has."""
        connection, n = self.connection, value(made, "n", (int,))
        if connection.ending or n <= self.last:
            raise ValueError(f"message {n} of connection {json.dumps(connection.name)} comes after its message "
                             f"{self.last} or its ending: two recordings have this name, or lines are not in order")
        self.last = n
        side, op = value(made, "side", (str,)), word(made, "op")
        if side not in ("C", "S"):
            raise ValueError("zkjson doesn't write this value of 'side'")
        error = error_of(made) if op != listing.EVENT else error_of(made, "kind")
        decoded = value(made, "decoded", (bool,), True)
        if op == "multi" and side == "S" and not error and decoded:
            error = listing.error_of_parts([each for each in errors_of(made) if each])
        at, ms = value(made, "at", (int, float), None), value(made, "ms", (int, float), None)
        if not all(number is None or number >= 0 and math.isfinite(number) for number in (at, ms)):
            raise ValueError("zkjson doesn't write this value of 'at' or of 'ms'")
        xid = value(made, "xid", (int,), None)
        xid = None if xid is None else str(xid)
        message = listing.Message(connection, n, side, xid, op, path_of(made, "path"), error)
        message.decoded = decoded
        if op == listing.CONNECT:
            message.made_up = all(made.get(name) == found for name, found in MADE_UP[side].items())
            connection.connect(message, session_of(made))
            # Of a part the session comes with the ending, as where the connect messages were left out.
            connection.known &= not message.made_up
        if at is not None:
            if at >= listing.TOO_COARSE:
                at = int((WHOLE_AT.search(line) or (0, at))[1])
            message.moment = at
            connection.timed(at)
        message.microseconds = None if ms is None else round(ms * 1000)
        return message

    def asked(self, message, made):
        """The request that a reply answers; None for a request and for an event."""
        if message.op == listing.EVENT:
            return None
        if message.side == "C":
            self.requests[message.n] = message
            return None
        of = value(made, "of", (int,))
        asked = self.requests.pop(of, None)
        if asked is None:
            asked = listing.Message(self.connection, of, "C", message.xid, message.op, path_of(made, "asked"), None)
            asked.decoded = message.decoded
            if message.moment is not None and message.microseconds is not None:
                # (to the microsecond, as times are)
                asked.moment = round(message.moment - message.microseconds / 1000, 3) \
                    if message.moment < listing.TOO_COARSE else message.moment + -message.microseconds // 1000
        elif message.microseconds is None and None not in (message.moment, asked.moment):
            self.connection.backwards += message.moment < asked.moment
        return asked

    def end(self, made):
        """Takes the ending."""
        if self.connection.ending:
            raise ValueError("this connection has ended before: two recordings have this name, so read each by itself")
        lists = {fate: made[fate] for fate in FATES if type(made.get(fate)) is list}
        waiting = made.get("waiting")
        self.connection.ending = ending_of(made)
        if made.get("facts") is not None:
            self.take_facts(made["facts"])
        if type(waiting) is list:
            self.fates = {each: fate for fate, found in lists.items() for each in found if type(each) is int}
            self.waiting = {each for each in waiting if type(each) is int} | self.fates.keys()

    def take_facts(self, found):
        """Takes the facts of the recording, which an ending has."""
        if not isinstance(found, dict):
            raise ValueError("this is not an ending of zkjson")
        self.connection.facts = facts.from_object(found)
        self.connection.session = self.connection.session or self.connection.facts.session

    def left(self):
        """The requests to which no reply has come: those that the ending lists, if it does."""
        left = [made for made in self.requests.values() if self.waiting is None or made.n in self.waiting]
        for made in left:
            made.fate = self.fates.get(made.n) or self.connection.fate()
        return left


def path_of(made, name):
    """A path as a line has it; None if there is none."""
    return listing.spelled(value(made, name, (str, type(None)))) if name in made else None


def session_of(made):
    """The session of a connect message, as a number."""
    found = made.get("session")
    if not isinstance(found, str) or not SESSION.fullmatch(found):
        raise ValueError("zkjson doesn't write this value of 'session'")
    return int(found, 16)
