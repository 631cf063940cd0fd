"""Chooses messages: by path, session, operation, time of day, and how long a reply took."""

import argparse
import collections
import datetime
import itertools
import operator
import re

from . import columns, listing, operations, passages, zkr

MILLISECONDS = re.compile(r"\d{1,19}", re.ASCII)
MICROSECONDS = re.compile(r"[.,]\d{6}", re.ASCII)
LATENCY = re.compile(r"\d{1,15}(?:\.\d{1,9})?", re.ASCII)
SESSION = re.compile(r"0x[0-9A-Fa-f]{1,16}|-?\d{1,20}", re.ASCII)
OPERATION = re.compile(r"-?\d{1,10}", re.ASCII)
# The operations by their names, with the numbers that they have in columns.
OPERATIONS = {**{name: operation.number for name, operation in operations.BY_NAME.items()},
              listing.CONNECT: columns.CONNECT, listing.EVENT: columns.EVENT}


def microseconds(text):
    """A time of day as microseconds since 1970."""
    if MILLISECONDS.fullmatch(text):
        return int(text) * 1000
    try:
        found = datetime.datetime.fromisoformat(re.sub("[Zz]$", "+00:00", text))
    except ValueError:
        raise argparse.ArgumentTypeError(f"{text!r} is not a time: write it as 2026-11-22T20:31:07.120Z, or in "
                                         "milliseconds since 1970") from None
    if not found.tzinfo:
        found = found.replace(tzinfo=datetime.timezone.utc)
    return (found - datetime.datetime(1970, 1, 1, tzinfo=datetime.timezone.utc)) // datetime.timedelta(microseconds=1)


def begin(text):
    """Where the times from this one on begin, in milliseconds since 1970."""
    return listing.milliseconds(microseconds(text))


def end(text):
    """Where the times up to this one end, in milliseconds since 1970: one without microseconds with all that are in its
    millisecond."""
    found = microseconds(text)
    return listing.milliseconds(found + (1 if found % 1000 or MICROSECONDS.search(text) else 1000))


def latency(text):
    """A number of milliseconds, as whole microseconds: what takes more of either takes more of the other."""
    if not LATENCY.fullmatch(text):
        raise argparse.ArgumentTypeError(f"{text!r} is not a number of milliseconds: write it as 250 or 0.5")
    whole, _, part = text.partition(".")
    return int(whole + part[:3].ljust(3, "0"))


def session(text):
    """A session's number in hexadecimal or decimal, as a listing.Connection has it; a negative one as in a line."""
    if not SESSION.fullmatch(text) or not -1 << 63 <= int(text, 0) < 1 << 64:
        raise argparse.ArgumentTypeError(f"{text!r} is not a session: write it as 0x100003780a6001f, or in decimal")
    return listing.hexadecimal(int(text, 0))


def operation(text):
    """An operation's name, or its number where it has none."""
    if OPERATION.fullmatch(text):
        return passages.name_of(int(text))
    if text not in OPERATIONS:
        raise argparse.ArgumentTypeError(f"{text!r} is not an operation: choose from {', '.join(OPERATIONS)}, or name "
                                         "its number")
    return text


def path(text):
    """A path as a line has it, without the quotes."""
    return listing.spelled(text)[1:-1].rstrip("/")


def add_words(parser):
    """Adds the arguments that choose messages."""
    parser.add_argument("--path", metavar="PATH", type=path, action="append",
                        help="choose requests for this path and those below it; may be given several times")
    parser.add_argument("--session", metavar="ID", type=session, action="append",
                        help="choose connections of this session, in hexadecimal or decimal")
    parser.add_argument("--op", metavar="NAME", type=operation, action="append",
                        help="choose an operation by name or number, or event")
    parser.add_argument("--slower", metavar="MS", type=latency, help="choose replies that took more milliseconds")
    parser.add_argument("--from", metavar="TIME", type=begin, dest="begin",
                        help="choose what was asked at this time or later; TIME as in 2026-11-22T20:31:07.120Z, or in "
                        "milliseconds since 1970")
    parser.add_argument("--to", metavar="TIME", type=end, dest="end", help="choose what was asked at this time or "
                        "earlier")


def ended_of(held):
    """The first connections, and the last one, of those of which messages are held back, where these have ended: to
    look at each of them whenever one begins would take too long."""
    has_ended = operator.attrgetter("ending")
    return dict.fromkeys((*itertools.takewhile(has_ended, held),
                          *filter(has_ended, itertools.islice(reversed(held), 1))))


class LeftOut:
    """What choices left out since what they choose by isn't known of it: how many connections have messages without
    times, and how many requests are shown by number alone, without a path."""

    def __init__(self, untimed=0, pathless=0):
        self.untimed, self.pathless = untimed, pathless

    def merge(self, other):
        self.untimed, self.pathless = self.untimed + other.untimed, self.pathless + other.pathless

    def complain(self):
        """Reports it; whether there was anything."""
        if self.untimed:
            zkr.complain(f"connections with messages without times: {self.untimed}; --slower, --from and --to left "
                         "these out: record with --times")
        if self.pathless:
            zkr.complain(f"requests that are shown by number alone: {self.pathless}; --path left these out, since "
                         "their paths are not read")
        return bool(self.untimed or self.pathless)


class Selection:
    """What the arguments choose: requests with their replies, or with --slower replies and nothing else."""

    def __init__(self, words):
        self.paths, self.sessions, self.operations = words.path, words.session, words.op
        self.slower, self.begin, self.end = words.slower, words.begin, words.end
        self.is_late = int in map(type, (self.begin, self.end))     # columns don't choose by such times
        self.needs_times = (self.slower, self.begin, self.end) != (None,) * 3
        self.by_message = bool(self.needs_times or self.paths or self.operations)
        self.all = not self.by_message and not self.sessions
        # Since the last take_left_out: the connections with a message without a time, where times choose, and the
        # number of requests without a path, where paths do, by connection.
        self.untimed, self.pathless = set(), collections.Counter()

    def chosen(self, talk, messages=None):
        """The chosen ones of `messages`, by default those that iterating over `talk` yields."""
        messages = talk if messages is None else messages
        found = self.of_messages(talk, messages) if self.by_message else messages
        return self.of_sessions(found) if self.sessions else found

    def left(self, talk):
        """The chosen ones of the requests that wait."""
        return [made for made in talk.left() if (made.chosen and self.slower is None or not self.by_message)
                and (not self.sessions or made.connection.session in self.sessions)]

    def take_left_out(self):
        """What the choices left out of the connections that were read since the last call, as a LeftOut."""
        def is_chosen(connection):
            return not self.sessions or connection.session in self.sessions
        found = LeftOut(sum(map(is_chosen, self.untimed)),
                        sum(count for each, count in self.pathless.items() if is_chosen(each)))
        self.untimed, self.pathless = set(), collections.Counter()
        return found

    def of_messages(self, talk, messages):
        for line, made, asked in messages:
            if self.needs_times and made.moment is None:
                self.untimed.add(made.connection)
            if asked:
                if asked.chosen is None:    # the request itself isn't there
                    self.choose(asked, [asked.path])
                took = made.microseconds
                if asked.chosen and (self.slower is None or took is not None and took > self.slower):
                    yield line, made, asked
                continue
            self.choose(made, talk.paths(line, made) if self.paths else ())
            if made.chosen and self.slower is None:
                yield line, made, asked
            elif made.chosen and made.op == "multi":
                made.parts = talk.paths(line, made)     # for its reply, which comes alone

    def choose(self, made, paths):
        """Says of a request or an event for these paths whether it is chosen."""
        made.chosen = self.takes(made, paths)
        if self.paths and not made.decoded and self.takes(made, None):
            self.pathless[made.connection] += 1

    def of_sessions(self, found):
        """Holds messages back until the session of their connection is known, or the connection has ended."""
        held = {}
        for each in found:
            connection = each[1].connection
            if not connection.known:
                if connection not in held:
                    yield from self.released(held, ended_of(held))
                held.setdefault(connection, []).append(each)
                continue
            if connection in held:
                yield from self.released(held, [connection])
            if connection.session in self.sessions:
                yield each
        yield from self.released(held, list(held))

    def released(self, held, connections):
        """The chosen ones of the messages that are held back of these connections."""
        for connection in connections:
            early = held.pop(connection)
            if connection.session in self.sessions:
                yield from early

    def options(self, _):
        """The arguments of columns.Columns; None where the plain form has to read."""
        return None if self.is_late else [word for path in self.paths or () for word in ("--path", listing.unescaped(path))]

    def arrays(self, talk):
        """The chosen messages of columns: each block, and an array of them. It is the fast form of `chosen`."""
        held, codes = [], [OPERATIONS[name] if name in OPERATIONS else int(name) for name in self.operations or ()]
        for block in talk.blocks():
            held.append(block)
            if self.needs_times and columns.numpy.isnan(block.array()["moment"]).any():
                self.untimed.add(talk.connection)
            if not self.sessions or talk.connection.known:
                yield from self.arrays_of(held, talk, codes)
                held = []
        yield from self.arrays_of(held, talk, codes)
        for made in talk.left():
            made.chosen = (made.chosen or not self.paths) and self.takes(made, None)

    def arrays_of(self, blocks, talk, codes):
        if self.sessions and talk.connection.session not in self.sessions:
            return
        for block in blocks:
            array = block.array()
            yield block, array[self.mask(array, codes, talk.connection)] if self.by_message else array

    def mask(self, array, codes, connection):
        """Which messages are chosen, but for sessions."""
        numpy, is_reply = columns.numpy, array["of"] > 0
        mask = self.mask_of_times(array, is_reply)
        if self.operations:
            mask &= numpy.isin(array["operation"], codes)
        if self.paths:
            by_number = mask & ~is_reply & (array["flags"] & columns.BY_NUMBER > 0)
            self.pathless[connection] += int(by_number.sum())
            mask &= array["flags"] & columns.CHOSEN > 0
        if self.slower is not None:
            mask &= is_reply & (array["microseconds"] > self.slower)
        return mask

    def mask_of_times(self, array, is_reply):
        """Which messages are of requests within the times."""
        numpy = columns.numpy
        mask = numpy.ones(len(array), bool)
        at = numpy.where(is_reply, array["asked_moment"], array["moment"])
        if self.begin is not None or self.end is not None:
            mask &= at == at
        if self.begin is not None:
            mask &= at >= self.begin
        if self.end is not None:
            mask &= at < self.end
        return mask

    def takes(self, made, paths):
        """Whether a request or an event for these paths is chosen; None where the paths are."""
        if self.operations and made.op not in self.operations:
            return False
        if self.begin is not None or self.end is not None:
            if made.moment is None:
                return False
            at = made.moment
            if self.begin is not None and at < self.begin or self.end is not None and at >= self.end:
                return False
        return not self.paths or paths is None or any(path and self.takes_path(path) for path in paths)

    def takes_path(self, spelled):
        return any(spelled.startswith(path, 1) and spelled[len(path) + 1:len(path) + 2] in ('"', "/")
                   for path in self.paths)
