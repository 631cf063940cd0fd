"""Reads the conversations of a report once, and counts what its tables and pictures show."""

import collections
import json

from . import kept, paths, sources, watching
from .. import errors, listing, selection, zkjson
from ..histogram import Histogram

CLOSE = "closeSession"
HEARD = {listing.CONNECT, CLOSE}         # the operations that a Heard takes
NO_CONNECTION = '{"connection": 0'
MOST_WATCHES = 20_000
MOST_SILENT = 200       # connections without a message that are kept


class Operation:
    """What is counted of an operation. `slowest` is the latency, the connection and the number of its slowest request,
    or of its first where there are no times. `answers` has the errors that are no failures; `first` has the first
    request that was answered with each error."""

    def __init__(self):
        self.asked = self.answered = 0
        self.left = dict.fromkeys(listing.FATES, 0)     # requests without a reply, by what became of them
        self.errors, self.answers, self.latencies = collections.Counter(), collections.Counter(), Histogram()
        self.slowest, self.first = None, {}

    unanswered = property(lambda self: self.left[listing.UNANSWERED])

    def failed(self):
        return sum(self.errors.values())

    def ms(self, percent):
        """The latency that `percent` of a hundred replies didn't exceed; None if there are none."""
        found = self.latencies.percentile(percent)
        return None if found is None else listing.milliseconds(found)

    def longest(self):
        return None if self.latencies.greatest is None else listing.milliseconds(self.latencies.greatest)

    def merge(self, other):
        self.asked, self.answered = self.asked + other.asked, self.answered + other.answered
        self.left = {fate: count + other.left[fate] for fate, count in self.left.items()}
        self.errors.update(other.errors)
        self.answers.update(other.answers)
        self.latencies.merge(other.latencies)
        if other.slowest and (self.slowest is None or other.slowest[0] > self.slowest[0]):
            self.slowest = other.slowest
        for error, link in other.first.items():
            self.first.setdefault(error, link)


class Path(list):
    """Of a path: how many requests named it, how many failed, the longest latency, and the connection and the number of
    the request that took it."""

    def __init__(self):
        super().__init__([0, 0, -1, None, None])

    def most(self):
        return self[0]


class Watch(list):
    """Of a connection's watches at a path: how many were set and set again, the events by kind, and a message of it."""

    def __init__(self):
        super().__init__([0, 0, {}, None])

    def most(self):
        return max(self[0], sum(self[2].values()))


class Heard:
    """What the connect messages of a connection say, and whether the client closed the session, whatever is chosen.

    `asked_session` is the session that the client asked for, "0x0" for a new one; `session` and `timeout` are what the
    server gave, where "0x0" is a session that it no longer knew. Each is None where its message isn't there, or was
    made up by pcap2zkr. `is_closed` says that the client asked to close the session."""

    asked_session = session = timeout = None
    is_closed = False

    def take(self, line, made):
        """Takes a connect message, or one that closes the session."""
        self.is_closed |= made.op == CLOSE
        if made.op == listing.CONNECT and not made.made_up:
            fields = object_of(line, made)
            if made.side == "C":
                self.asked_session = fields.get("session")
            else:
                self.session, self.timeout = fields.get("session"), fields.get("timeout")


class Connection:
    """What is found of one connection, or of a part of it. Times are milliseconds since 1970, and None if there are
    none. `label` is what it is called: the number of the connection, and of a later part that of the part; `first` is
    the part that the connection begins with. `about` is the source that says what is known beside the messages: its
    own, or one that is made of the facts that its ending has in the lines of zkjson."""

    label = first = None

    def __init__(self, number, source, name):
        self.number, self.source, self.about, self.name = number, source, source, name
        self.heard, self.known, self.is_silent = Heard(), None, False
        self.messages = self.events = 0
        self.last = None        # the number of its last message
        self.operations = collections.defaultdict(Operation)

    def total(self, name):
        return sum(getattr(operation, name) for operation in self.operations.values())

    def failed(self):
        return sum(operation.failed() for operation in self.operations.values())

    def ending(self):
        """The ending of its listing, or None."""
        return self.known and self.known.ending

    def session_id(self):
        """The session as ZooKeeper's logs print it; None if nothing says which it is."""
        if self.first:
            return self.first.session_id()
        for number in (self.heard.session, self.heard.asked_session):
            if number not in (None, "0x0"):
                return number
        known = self.known or self.about.facts      # it knows the connect messages, too, if they aren't chosen
        return known and known.session

    def span(self):
        """When it begins and ends: the least and the greatest of the times of its capture, if any, and of its messages,
        whether or not they are chosen. Without a beginning there is only an end."""
        both = [each for each in (self.about, self.known) if each]
        begun = min((each.begun for each in both if each.begun is not None), default=None)
        ended = max((each.ended for each in both if each.ended is not None), default=begun)
        return begun, ended if begun is None else max(begun, ended)

    def is_refused(self):
        """Whether the server no longer knew the session."""
        return self.heard.session == "0x0"


class Run:
    """What is found of all connections of a report. `whole` counts connections, whatever their parts, and `silent`
    those without a message; of these only the first are kept. `with_holes` names the connections of which bytes are
    missing, also where nothing of them is chosen; `stopped` has those that were not read to their end, each with its
    name and its ending. `by_number` counts the requests that are shown by number alone, by operation."""

    def __init__(self):
        self.connections, self.by_source, self.warnings, self.whole, self.silent = [], {}, [], 0, 0
        self.sources, self.with_holes, self.stopped = [], [], []
        self.by_number, self.left_out = collections.Counter(), selection.LeftOut()
        self.kept, self.density = kept.Kept(), kept.Density()
        self.parts, self.abouts = {}, []    # of the lines of zkjson: as Source.take_facts has them, and of whom
        self.paths = kept.Counted(Path)
        self.watches = kept.Counted(Watch, MOST_WATCHES)

    def read(self, source, opener, chosen, tracing=None):
        """Reads what is chosen of a source. `tracing` gets the requests and events, for a trace."""
        readings, heard, whole = {}, collections.defaultdict(Heard), self.whole
        self.sources.append(source)

        def messages(talk):
            for line, made, asked in talk:
                if made.op in HEARD:
                    heard[made.connection].take(line, made)
                if chosen.slower is not None and made.side == "C":     # its reply comes alone
                    watching.note(line, made)
                yield line, made, asked

        def name_of(known):
            return source.name if known.name == source.path else known.name

        def reading(known):
            if known not in readings:
                readings[known] = Reading(self, self.connection(source, name_of(known)), tracing)
                readings[known].connection.known, readings[known].connection.heard = known, heard[known]
            return readings[known]
        with opener.conversation(source) as talk:
            last = current = None
            for line, made, asked in chosen.chosen(talk, messages(talk)):
                if made.connection is not last:
                    last, current = made.connection, reading(made.connection)
                current.take(talk, line, made, asked)
            for made in chosen.left(talk):
                reading(made.connection).left(made)
            every = talk.connections()
            silent = [known for known in every if known not in readings] if chosen.all else []
            holed = [name_of(known) for known in every if known.has_hole()]
        self.with_holes += holed or [source.name] * source.has_hole()
        self.stopped += [(name_of(known), known.ending) for known in every if known.has_stopped()]
        self.left_out.merge(chosen.take_left_out())
        if chosen.all and not readings:
            silent = silent or [None]
        for known in silent:
            self.silent += 1
            found = reading(known).connection if known else self.connection(source, source.name)
            found.is_silent = True
            if self.silent > MOST_SILENT:
                self.connections.pop()
        if source.has_objects:
            self.whole = whole
            self.take_facts(source, every, readings)
        for each in readings.values():
            each.end()

    def take_facts(self, source, every, readings):
        """Takes the facts that the endings of these connections have, also those of which nothing is chosen: they say
        which parts there are."""
        for known in every:
            if known.facts:
                self.abouts.append(about := sources.Source(source.path, source.name))
                about.take_facts(known.facts, self.parts)
                if known in readings:
                    readings[known].connection.about = about
        for each in readings.values():
            self.place(each.connection)

    def silent_left_out(self):
        """How many connections without a message are not kept."""
        return max(0, self.silent - MOST_SILENT)

    def connection(self, source, name):
        """The next connection, or the next part of one. Of a part of which nothing is chosen there is none: the next
        one takes its place."""
        found = Connection(len(self.connections), source, name)
        self.place(found)
        self.connections.append(found)
        return found

    def place(self, connection):
        """Says what a connection is called and which part is its first: the first that there is, or that was placed."""
        about = connection.about
        connection.first = first = self.by_source.get(about.first or (about if about.is_of_parts else None))
        self.whole += first is None
        connection.label = first.label.partition(".")[0] if first else f"#{self.whole}"
        connection.label += f".{about.part}" if first or about.first else ""
        self.by_source[about] = first or connection
        if about.first and not first:
            self.by_source[about.first] = connection


class Reading:
    """The reading of one connection."""

    def __init__(self, run, connection, tracing):
        self.run, self.connection, self.tracing = run, connection, tracing

    def take(self, talk, line, made, asked):
        """Takes the next message, and the request that it answers."""
        self.connection.messages += 1
        self.connection.last = made.n
        if made.made_up:
            return
        if asked:
            self.reply(talk, line, made, asked)
        elif made.op == listing.EVENT:
            self.event(line, made)
        else:
            self.request(talk, line, made)

    def request(self, talk, line, made):
        made.seen = True
        self.name(made)
        watching.note(line, made)
        if made.op == "multi":
            self.name_parts(talk.paths(line, made), made)

    def name(self, made):
        """Counts the path of a request, which stays with it in place of its spelling."""
        made.path = path = paths.path_of(made.path)
        if path is not None:
            self.name_path(path, made)

    def name_parts(self, spelled, made):
        """Counts the paths of a multi's parts, which stay with it."""
        made.part_paths = list(map(paths.path_of, spelled))
        for path in made.part_paths:
            if path is not None:
                self.name_path(path, made)

    def name_path(self, path, made):
        entry = self.run.paths.entry(path)
        entry[0] += 1
        if entry[4] is None:
            entry[3:] = self.connection.number, made.n

    def set_again(self, path, made):
        """Counts a watch that a client sets again after a reconnection."""
        entry = self.watch(path, made)
        entry[0] += 1
        entry[1] += 1

    def watch(self, path, made):
        entry = self.run.watches.entry((self.connection.number, path))
        if entry[3] is None:
            entry[3] = made.n
        return entry

    def reply(self, talk, line, made, asked):
        run, connection, error, microseconds = self.run, self.connection, made.error, made.microseconds
        if not hasattr(asked, "seen"):      # the request itself isn't there, or not chosen
            self.name(asked)
            self.name_parts(asked.parts, asked)
        ms, has_failed = made.ms, errors.is_failure(made.op, error)
        self.count_by_number(made)
        operation = connection.operations[made.op]
        operation.asked += 1
        operation.answered += 1
        if microseconds is not None:
            operation.latencies.add(microseconds)
        if operation.slowest is None or (ms or 0) > operation.slowest[0]:
            operation.slowest = ms or 0, connection.number, asked.n
        if error:
            (operation.errors if has_failed else operation.answers)[error] += 1
            operation.first.setdefault(error, (connection.number, asked.n))
        if run.kept.takes(ms, has_failed):
            run.kept.put(kept.Request(connection.number, asked.n, made.n, asked.moment, ms, made.op, error, asked.path))
        if ms is not None and asked.moment is not None:
            run.density.add(connection.number, asked.moment, ms, int(has_failed))
        if asked.path is not None:
            self.judge_path(asked.path, asked, ms, has_failed)
        elif made.op == "multi":
            self.judge_parts(talk.results(line) if error else (), asked, ms, has_failed)
        elif made.op == "setWatches" and error is None:
            for path in getattr(asked, "watched", ()):
                self.set_again(path, asked)
        if getattr(asked, "is_watching", False) and not has_failed:    # exists watches a node that isn't there, too
            self.watch(asked.path, asked)[0] += 1
        if self.tracing:
            self.tracing.request(connection, asked, made)

    def count_by_number(self, made):
        if not made.decoded:
            self.run.by_number[made.op] += 1

    def judge_parts(self, errors, asked, ms, has_failed):
        """Counts what became of the paths of a multi's parts; where it has no results, all failed."""
        failed = set(listing.failed_parts(errors)) if errors else range(len(asked.part_paths)) if has_failed else ()
        for number, path in enumerate(asked.part_paths):
            if path is not None:
                self.judge_path(path, asked, ms, number in failed)

    def judge_path(self, path, asked, ms, has_failed):
        entry = self.run.paths.entries.get(path)
        if entry:
            entry[1] += has_failed
            if ms is not None and ms > entry[2]:
                entry[2:] = ms, self.connection.number, asked.n

    def event(self, line, made):
        self.connection.events += 1
        path = paths.path_of(made.path if line.startswith("{") else line.partition(" path=")[2])
        entry = self.watch(path, made)
        entry[2][made.error] = entry[2].get(made.error, 0) + 1
        entry[3] = made.n
        if self.tracing:
            self.tracing.event(self.connection, made, path)

    def left(self, made):
        """Takes a request without a reply."""
        connection = self.connection
        if made.made_up:
            return
        operation = connection.operations[made.op]
        operation.asked += 1
        request = kept.Request(connection.number, made.n, None, made.moment, None, made.op, None, made.path)
        operation.left[made.fate] += 1
        self.count_by_number(made)
        self.run.kept.put_left(made.fate, request)
        if made.moment is not None and made.fate == listing.UNANSWERED:
            self.run.density.add(connection.number, made.moment, None, 2)
        if self.tracing:
            self.tracing.request(connection, made, None)

    def end(self):
        if self.tracing:
            self.tracing.end(self.connection)


def object_of(line, made, asked=None):
    """A message as an object, with the names of zkjson."""
    if line.startswith("{"):
        found = json.loads(line)
    else:
        made.connection.json = NO_CONNECTION
        found = json.loads("".join(zkjson.pieces(line, made, asked)))
    found.pop("connection", None)
    return found
