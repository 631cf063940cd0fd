"""Compares two runs: what was asked and answered, without xids, zxids, sessions and times.

The connections of both are compared in pairs, in their order. Of each pair the requests are compared in their order,
each with its reply, however many others were under way; and the events of watches, in theirs. Pings are left out, since
they depend on time alone. Where all messages are compared, so is how the two end. Credentials are compared, but a text
that is shown has none.
"""

import collections
import itertools
import json
import re

from . import gather, messages, summary, text

STAT = re.compile(r'"[^"]*"|stat=\((?:-?\d+,){4}((?:-?\d+,){3})(-?\d+),(-?\d+,-?\d+),-?\d+\)')
CONNECT_FIELDS = re.compile(r" (?:zxid=-?\d+|session=-?\d+|passwd=\S+)")
ZXID = re.compile(r" zxid=-?\d+")
CREDENTIALS = re.compile(r"(auth .* auth=)#([0-9a-f]*)")
TIMED_FIELDS = {"n", "xid", "zxid", "session", "passwd", "at", "ms", "of", "asked", "connection", "czxid", "mzxid",
                "pzxid", "ctime", "mtime"}
LEFT_OUT = ("ping",)
SHOWN = 160


class Exchange:
    """A request and its reply, as they are compared, with the numbers of their messages."""

    __slots__ = ("request", "n", "reply", "answer")

    def __init__(self, request, n):
        self.request, self.n, self.reply, self.answer = request, n, None, None

    def texts(self):
        return self.request, self.answer


def plain(line, made, as_objects):
    """A message without what differs from run to run."""
    if as_objects:
        return json.dumps(plain_object(gather.object_of(line, made)), sort_keys=True)
    rest = line[made.end:]
    if made.op == "connect":
        return f"{made.op}{CONNECT_FIELDS.sub('', rest)}"
    if made.side == "S":
        rest = STAT.sub(plain_stat, ZXID.sub("", rest, count=1))
    elif made.op == "setWatches":
        rest = ZXID.sub("", rest, count=1)
    return made.op + rest


def plain_stat(found):
    """A stat with its versions, whether it has an owner, its length and its number of children; a text as it is."""
    if found[1] is None:
        return found[0]
    return f"stat=({found[1]}{'0' if found[2] == '0' else 'owner'},{found[3]})"


def plain_object(value):
    if isinstance(value, list):
        return [plain_object(each) for each in value]
    if not isinstance(value, dict):
        return value
    fields = {name: plain_object(each) for name, each in value.items() if name not in TIMED_FIELDS}
    if "ephemeralOwner" in fields:
        fields["ephemeralOwner"] = fields["ephemeralOwner"] != "0x0"
    return fields


def without_credentials(shown):
    """The text of a message, with the number of their bytes in place of credentials."""
    if shown and shown.startswith('{"auth": '):
        made = json.loads(shown)
        return json.dumps({**made, "auth": messages.left_out(made["auth"])})
    found = shown and CREDENTIALS.fullmatch(shown)
    return f"{found[1]}.. {len(found[2]) // 2} bytes" if found else shown


class Side:
    """What is compared of one connection of a run: `events` has those so far."""

    def __init__(self, talk, chosen, as_objects):
        self.talk, self.chosen, self.as_objects, self.events = talk, chosen, as_objects, []

    def exchanges(self):
        """The exchanges, in the order of their requests."""
        waiting, by_request = collections.deque(), {}
        for line, made, asked in self.chosen.chosen(self.talk):
            if made.op in LEFT_OUT:
                continue
            if made.side == "C":
                by_request[made] = exchange = Exchange(plain(line, made, self.as_objects), made.n)
                waiting.append(exchange)
            elif asked:
                exchange = by_request.pop(asked, None)
                if exchange is None:        # the request itself isn't there
                    exchange = Exchange(json.dumps({"op": asked.op, "path": asked.path}), asked.n)
                    waiting.append(exchange)
                exchange.reply, exchange.answer = made.n, plain(line, made, self.as_objects)
                while waiting and waiting[0].answer is not None:
                    yield waiting.popleft()
            else:
                self.events.append((plain(line, made, self.as_objects), made.n))
        yield from waiting

    def ending(self):
        """How the connection ends, once its messages are read; None where that isn't compared, or not known."""
        found = next((each.ending for each in self.talk.connections()), None) if self.chosen.all else None
        words = (f"{name}={found[name]}" for name in ("side", "reason") if name in found)
        return found and " ".join([found["ending"], *words])


def connections_of(run):
    """The sources of a run, each with its connection; None where nothing of that is chosen."""
    found = {}
    for connection in run.connections:
        if found.setdefault(connection.source, connection) is not connection:
            raise ValueError(f"{connection.source.path} has several connections: --against compares files of one each")
    return [(source, found.get(source)) for source in run.sources]


class Comparison:
    """The comparison of two runs. `first` is the first difference, or None."""

    def __init__(self, ours, theirs, opener, chosen):
        self.equal, self.first = 0, None
        as_objects = any(source.has_objects for source in (*ours.sources, *theirs.sources))
        for (source, mine), (its, other) in itertools.zip_longest(*map(connections_of, (ours, theirs)),
                                                                  fillvalue=(None, None)):
            if mine is other is None:
                continue
            if source is None or its is None:
                names = ((each and each.name, None) for each in (mine, other))
                self.differ(mine, (mine or other).label, "connection", *names)
                continue
            with opener.conversation(source) as one, opener.conversation(its) as two:
                self.compare(mine, mine.label if mine else source.name,
                             *(Side(talk, chosen, as_objects) for talk in (one, two)))

    def compare(self, connection, label, mine, other):
        """Compares a pair of connections; `label` is what the first is called."""
        for one, two in itertools.zip_longest(mine.exchanges(), other.exchanges()):
            if one and two and one.texts() == two.texts():
                self.equal += 1
            elif one and two and one.request == two.request:
                self.differ(connection, label, "reply", *((each.answer, each.reply or each.n) for each in (one, two)))
            else:
                requests = ((each.request, each.n) if each else (None, None) for each in (one, two))
                self.differ(connection, label, "request", *requests)
        for one, two in itertools.zip_longest(mine.events, other.events, fillvalue=(None, None)):
            if one[0] == two[0]:
                self.equal += 1
            else:
                self.differ(connection, label, "event", one, two)
        endings = mine.ending(), other.ending()
        if None not in endings and len(set(endings)) > 1:
            self.differ(connection, label, "ending", *((each, None) for each in endings))

    def differ(self, connection, label, kind, one, two):
        """Takes a difference from this connection; None where the run has none."""
        if self.first is None:
            self.first = {"connection": connection and connection.number, "label": label, "kind": kind,
                          "equal": self.equal, "messages": [one[1], two[1]],
                          "texts": around(without_credentials(one[0]), without_credentials(two[0]))}


def around(one, two):
    """Both texts around the first place where they differ."""
    if one is None or two is None:
        return [each and each[:SHOWN] + cut(each, SHOWN) for each in (one, two)]
    at = next((at for at, (a, b) in enumerate(zip(one, two)) if a != b), min(len(one), len(two)))
    begin = max(0, at - SHOWN // 2) if at > SHOWN // 2 else 0
    return [(".." if begin else "") + each[begin:begin + SHOWN] + cut(each, begin + SHOWN) for each in (one, two)]


def cut(whole, at):
    return f".. ({len(whole)} characters)" if len(whole) > at else ""


def tables(found, other, comparison):
    """What is shown of a comparison: the first difference, and the counts of both runs by operation."""
    rows = []
    for name in dict.fromkeys((*found.operations, *other.operations)):
        counts = [side.operations.get(name) or gather.Operation() for side in (found, other)]
        row = [name]
        for value in (lambda each: each.asked, gather.Operation.failed, lambda each: each.unanswered):
            row += [value(each) for each in counts]
        for percent in (50, 99):
            row += [each.ms(percent) for each in counts]
        rows.append([*row, None, None])
    return {"equal": comparison.equal, "first": comparison.first, "rows": rows,
            "columns": COLUMNS}


COLUMNS = [summary.Column("op", "operation", "op")] + [
    summary.Column(f"{name}{side}", f"{heading}, {where}", kind)
    for name, heading, kind in (("asked", "asked", "count"), ("failed", "failed", "count"),
                                ("unanswered", "unanswered", "count"), ("p50", "p50 ms", "ms"), ("p99", "p99 ms", "ms"))
    for side, where in (("", "here"), ("Other", "there"))]


def lines_of(compared):
    """The lines of a comparison's first difference."""
    first = compared["first"]
    if first is None:
        yield f"no difference: {compared['equal']} exchanges and events are the same"
        return
    kind = f"an {first['kind']}" if first["kind"].startswith("e") else f"a {first['kind']}"
    yield (f"the first difference is {kind} of connection {first['label']}, after {first['equal']} exchanges and "
           "events that are the same:")
    for name, n, each in zip(("here", "there"), first["messages"], first["texts"]):
        where = f" message {n}" if n else ""
        yield f"    {name}{where}: {'nothing' if each is None else text.printable(each)}"
