"""Writes requests as trace events of Chrome, which Perfetto opens too.

A session is a process and a connection a thread of it. Requests are asynchronous events, since several may be under way
at once; events of watches are instants. Times are microseconds since 1970.
"""

import json

from . import paths
from .. import listing, zkr

MOST = 2 ** 53
FACTS = {listing.UNANSWERED: "answered", listing.NOT_CAPTURED: "captured", listing.NOT_KNOWN: "known"}


class Trace:
    """A trace that is written to a new file, as it is given what happens."""

    def __init__(self, out):
        self.out, self.ids, self.sessions, self.places = out, 0, {}, {}
        self.out.waiting += b'{"displayTimeUnit":"ms","traceEvents":[\n'
        self.before = b""
        self.events = 0

    def put(self, **event):
        self.out.waiting += self.before + json.dumps(event, separators=(",", ":")).encode()
        self.before = b",\n"
        if len(self.out.waiting) > 1 << 16:
            self.out.flush()

    def request(self, connection, asked, made):
        """Takes a request and its reply, or None if it has none, or it isn't known whether it has one. A reply with a
        time before its request's ends it at once: an end before its beginning would be shown as none."""
        if asked.moment is None or made and made.moment is None:
            return
        self.ids += 1
        self.events += 1
        name = asked.op if not (made and made.error) else f"{asked.op} {made.error}"
        where = {"cat": "request", "name": name, "id": self.ids, **self.place(connection)}
        facts = {"message": asked.n, "xid": asked.xid, "path": None if asked.path is None else paths.shown(asked.path)}
        self.put(ph="b", ts=microseconds(asked.moment), args=facts, **where)
        if made:
            end, facts = max(made.moment, asked.moment), {"message": made.n, "error": made.error}
        else:
            end = max(connection.known.ended, asked.moment)
            facts = {FACTS[asked.fate]: False}
        self.put(ph="e", ts=microseconds(end), args=facts, **where)

    def event(self, connection, made, path):
        """Takes an event of a watch."""
        if made.moment is None:
            return
        self.events += 1
        self.put(ph="i", s="t", cat="watch", name=f"event {made.error}", ts=microseconds(made.moment),
                 args={"message": made.n, "path": None if path is None else paths.shown(path)},
                 **self.place(connection))

    def place(self, connection):
        """The process and the thread of a connection: of all its messages those of the first, since in lines of zkjson
        it may be the ending that has the session."""
        if connection not in self.places:
            session = connection.session_id() or (connection.first or connection).number
            process = self.sessions.setdefault(session, len(self.sessions) + 1)
            self.places[connection] = {"pid": process, "tid": connection.number + 1}
        return self.places[connection]

    def end(self, connection):
        """Takes the end of a connection, once all its messages are taken."""
        where = self.place(connection)
        begun, ended = connection.span()
        if begun is not None:
            self.put(ph="X", cat="connection", name=f"connection {connection.name}", ts=microseconds(begun),
                     dur=microseconds(ended - begun), **where)
        self.put(ph="M", name="process_name", args={"name": f"session {connection.session_id() or 'unknown'}"}, **where)
        self.put(ph="M", name="thread_name", args={"name": f"{connection.label} {connection.name}"}, **where)

    def close(self):
        """Ends the trace, which has to have something in it."""
        if not self.events:
            raise ValueError("there are no times, which a trace needs: record with --times")
        self.out.waiting += b"\n]}\n"


def microseconds(milliseconds):
    """Milliseconds as whole microseconds, which the readers of traces have to have exactly."""
    found = round(milliseconds * 1000)
    if found >= MOST:
        raise ValueError(f"{zkr.clock(milliseconds)} is too late for a trace, whose readers round times from June "
                         "2255 on: times are milliseconds since 1970")
    return found
