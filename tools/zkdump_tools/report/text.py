"""The tables of a report as text for a terminal, in printable ASCII."""

from .. import tables, zkr
from . import paths, summary

NUMBERS = ("count", "ms", "length", "connection")
ROWS, WHOLE = 20, ("sessions", "connections", "operations", "errors")


def several(count, what):
    """That many of what is called so, as `1 session` or `2 sessions`."""
    return f"{count} {what}" if count == 1 else f"{count} {what}s"


def lines_of(found, top=ROWS):
    """The lines of all tables of a summary, of most of them the first `top` rows."""
    counts = found.counts
    yield (f"{several(found.run.whole, 'connection')}, {several(len(found.sessions), 'session')}, "
           f"{several(counts['messages'], 'message')}, {several(counts['asked'], 'request')}, {counts['failed']} failed, "
           f"{counts['unanswered']} unanswered, "
           + (f"{counts['notCaptured']} replies not captured, " if counts["notCaptured"] else "")
           + (f"{counts['notKnown']} not known, " if counts["notKnown"] else "")
           + several(counts["events"], "event"))
    if found.begun is not None:
        yield f"from {zkr.clock(found.begun)} to {zkr.clock(found.ended)}"
    if 0 < counts["timed"] < counts["answered"]:
        yield f"{counts['timed']} of {counts['answered']} replies timed"
    for warning in found.run.warnings:
        yield f"not read: {printable(warning)}"
    yield from map(printable, found.headlines())
    left_out, short = found.rows_left_out(), found.short()
    for name, rows in found.tables.items():
        if rows:
            yield ""
            yield summary.HEADINGS[name]
            shown = rows if name in WHOLE else rows[:top]
            yield from table(found.columns[name], shown)
            more = left_out.get(name, 0) + len(rows) - len(shown)
            if more and name != "slowest":
                yield f"and {'at least ' if name in short else ''}{more} more"
    for name, most in short.items():
        yield f"Counts of {name} may be up to {most} too low: there were too many {name} to count each."


def table(columns, rows):
    """The lines of one table."""
    cells = [[cell(column.kind, value) for column, value in zip(columns, row)] for row in rows]
    left = {at for at, column in enumerate(columns) if column.kind not in NUMBERS}
    for line in tables.aligned([[column.heading for column in columns], *cells], left):
        yield line.rstrip()


def cell(kind, value):
    """A value as a table has it."""
    if value is None or value == {}:
        return "-"
    if kind == "time":
        return zkr.clock(value)
    if kind == "ms":
        return tables.exact(value)
    if kind == "length":
        return f"{tables.seconds(value)} s"
    if kind == "counts":
        return " ".join(f"{printable(name)}={count}" for name, count in value.items())
    if kind == "path":
        return paths.shown(value)
    return printable(str(value))


def printable(text):
    """A text in printable ASCII."""
    return text if text.isascii() and text.isprintable() else ascii(text)[1:-1]
