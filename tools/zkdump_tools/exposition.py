"""What zkstat has found, as CSV for spreadsheets, and in the text format of Prometheus."""

import csv
import io

from . import tables

TABLES = ("operations", "errors", "events", "connections", "unanswered", "slowest", "every", "paths", "clients")
COUNTS = {"asked": "Requests.", "answered": "Requests with a reply.",
          "failed": "Requests whose reply says that they failed."}
LATENCY = "zkstat_latency_seconds"


def ms(counts):
    """The cells of latencies, empty where there are none."""
    return {f"{name}_ms": tables.exact(counts["ms"][name]) if counts["ms"] else "" for name in tables.TIMES}


def counted(counts):
    return {name: counts[name] for name in tables.COUNTS}


def operations(found):
    for name, counts in found["operations"].items():
        yield {"operation": name, **counted(counts), **ms(counts)}


def errors(found):
    for outcome, which in (("failed", "errors"), ("answer", "answers")):
        for name, counts in found["operations"].items():
            for error, count in counts[which].items():
                yield {"operation": name, "error": error, "outcome": outcome, "count": count}


def events(found):
    for kind, count in found["events"].items():
        yield {"event": kind, "count": count}


def connections(found):
    for each in found["connections"]:
        yield {"connection": each["connection"], "session": each["session"], "begun": each["begun"],
               "ended": each["ended"], **counted(each), **ms(each),
               "ending": tables.ending(each["ending"], each.get("facts"))}


def unanswered(found):
    for fate in tables.FATES:
        for each in found.get(fate, ()):
            yield {"fate": fate, **{name: each.get(name) for name in ("connection", "n", "xid", "op", "path")}}


def slowest(found):
    for each in found["slowest"]:
        yield {**{name: each[name] for name in ("time", "ms", "connection", "n", "op", "error", "zxid", "path")},
               "ms": tables.exact(each["ms"])}


# By table, its columns where it has no row, and its rows.
COLUMNS = {
    "operations": ("operation", *tables.COUNTS, *(f"{name}_ms" for name in tables.TIMES)),
    "errors": ("operation", "error", "outcome", "count"), "events": ("event", "count"),
    "connections": ("connection", "session", "begun", "ended", *tables.COUNTS,
                    *(f"{name}_ms" for name in tables.TIMES), "ending"),
    "unanswered": ("fate", "connection", "n", "xid", "op", "path"),
    "slowest": ("time", "ms", "connection", "n", "op", "error", "zxid", "path"),
    "every": ("begun", "asked", "failed", "askedASecond", "failedASecond"), "paths": ("path", "asked", "failed"),
    "clients": ("client", "connections", *tables.COUNTS),
}
ROWS = {"operations": operations, "errors": errors, "events": events, "connections": connections,
        "unanswered": unanswered, "slowest": slowest, "every": lambda found: found["every"]["rows"],
        "paths": lambda found: found["paths"]["rows"], "clients": lambda found: found["clients"]}


def csv_of(found, table):
    """A table as CSV by RFC 4180, but for the ends of lines: a line with the columns' names, and one for each row; what
    a row lacks is empty."""
    out = io.StringIO()
    rows = csv.DictWriter(out, COLUMNS[table], lineterminator="\n")
    rows.writeheader()
    rows.writerows(ROWS[table](found))
    return out.getvalue()


def label(value):
    """The value of a label, as the format spells it."""
    return '"' + value.replace("\\", r"\\").replace('"', r"\"").replace("\n", r"\n") + '"'


def family(name, kind, said, samples):
    """The lines of a family of metrics: `samples` has of each the end of its name, its labels and its value."""
    yield f"# HELP {name} {said}"
    yield f"# TYPE {name} {kind}"
    for end, labels, value in samples:
        shown = ",".join(f"{each}={label(text)}" for each, text in labels.items())
        yield f"{name}{end}{'{' + shown + '}' if shown else ''} {value}"


def latencies(found):
    for name, counts in found.items():
        if counts["ms"]:
            for percent in tables.PERCENTS:
                yield "", {"operation": name, "quantile": str(percent / 100)}, tables.seconds(counts["ms"][f"p{percent}"])
            yield "_count", {"operation": name}, counts["timed"]


def prometheus(found):
    """The lines of the counters and the latencies, in Prometheus's text format."""
    names = found["operations"]
    for name, said in COUNTS.items():
        yield from family(f"zkstat_{name}_total", "counter", said,
                          (("", {"operation": op}, counts[name]) for op, counts in names.items()))
    for which, said in (("errors", "Failed requests by error."), ("answers", "Errors that are answers, no failures.")):
        yield from family(f"zkstat_{which}_total", "counter", said,
                          (("", {"operation": op, "error": error}, count) for op, counts in names.items()
                           for error, count in counts[which].items()))
    yield from family("zkstat_events_total", "counter", "Events of watches.",
                      (("", {"kind": kind}, count) for kind, count in found["events"].items()))
    yield from family("zkstat_without_reply_total", "counter", "Requests without a reply, by what is known of it.",
                      (("", {"fate": fate}, len(found.get(fate, ()))) for fate in tables.FATES))
    yield from family("zkstat_connections_total", "counter", "Connections.", [("", {}, len(found["connections"]))])
    yield from family(LATENCY, "summary", "From a request's last byte to its reply's.", latencies(names))
    yield from family("zkstat_latency_max_seconds", "gauge", "The longest latency.",
                      (("", {"operation": op}, tables.seconds(counts["ms"]["max"])) for op, counts in names.items()
                       if counts["ms"]))
