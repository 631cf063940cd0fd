"""The tables that zkstat writes for a person, in printable characters."""

import json
import re

from . import facts, listing, passages, zkr

PERCENTS = (50, 95, 99)
COUNTS = ("asked", "answered", "failed")
TIMES = (*(f"p{percent}" for percent in PERCENTS), "max")
SHOWN = 10
FATES = {listing.UNANSWERED: "requests unanswered", listing.NOT_CAPTURED: "replies not captured, if there were any",
         listing.NOT_KNOWN: "requests of which it isn't known whether they were answered: the reading stopped"}
PLAIN = re.compile("[!-~]+")


def plain(value):
    """A name as a cell of a table."""
    return value if PLAIN.fullmatch(value) else json.dumps(value)


def exact(ms):
    """Milliseconds to the microsecond, without zeros at the end."""
    return str(ms) if isinstance(ms, int) else f"{ms:.3f}".rstrip("0").rstrip(".")


def seconds(ms):
    """Milliseconds as seconds to the microsecond, without zeros at the end."""
    microseconds = ms * 1000 if isinstance(ms, int) else round(ms * 1000)
    whole, part = divmod(abs(microseconds), 10**6)
    return f"{'-' * (microseconds < 0)}{whole}.{part:06}".rstrip("0").rstrip(".")


def cells(counts):
    """The cells of what is counted of an operation or a connection."""
    times = [exact(counts["ms"][each]) if counts["ms"] else "-" for each in TIMES]
    return [str(counts[each]) for each in COUNTS] + times


def aligned(rows, left):
    """The lines of a table. The cells in the columns `left` are aligned to the left; the last column is not padded. A
    row that is a text is a line as it is."""
    widths = [max(map(len, column)) for column in zip(*(row for row in rows if not isinstance(row, str)))]
    for row in rows:
        if isinstance(row, str):
            yield row
        else:
            yield "  ".join(cell.ljust(width) if at in left else cell.rjust(width)
                            for at, (cell, width) in enumerate(zip(row, widths)))


def lines(found):
    """The lines of what zkstat has found."""
    heads = [*COUNTS, *(f"{each} ms" for each in TIMES)]
    operations = found["operations"]
    yield from aligned([["operation", *heads], *([name, *cells(counts)] for name, counts in operations.items())], {0})
    for name, counts in operations.items():
        for error, count in counts["errors"].items():
            yield f"{count:>8} errors: {name} {error}"
    for name, counts in operations.items():
        for error, count in counts["answers"].items():
            yield f"{count:>8} answers: {name} {error}"
    for kind, count in found["events"].items():
        yield f"{count:>8} events: {kind}"
    timed, answered = (sum(counts[each] for counts in operations.values()) for each in ("timed", "answered"))
    yield f"{timed:>8} of {answered} replies timed"
    if backwards := sum(each["backwards"] for each in found["connections"]):
        yield f"{backwards:>8} replies have a time before that of their request"
    for fate, what in FATES.items():
        if fate in found:
            yield from unanswered(found[fate], what)
    if "byNumber" in found:
        yield f"{len(found['byNumber']):>8} {by_number(found['byNumber'])}"
    if stopped := sum(bool(each["ending"]) and each["ending"]["ending"] in listing.STOPPED
                      for each in found["connections"]):
        yield f"{stopped:>8} of {len(found['connections'])} connections not read to the end"
    yield ""
    yield from connections(found["connections"], heads)
    if found["slowest"]:
        yield ""
        yield from slowest(found["slowest"])


def unanswered(waiting, what):
    yield f"{len(waiting):>8} {what}"
    for made in waiting[:SHOWN]:
        name = "" if made["connection"] == "-" else plain(made["connection"]) + " "
        request = " ".join(str(made[each]) for each in ("xid", "op", "path") if each in made)
        yield f"    {name}message {made['n']}: {request}"
    if len(waiting) > SHOWN:
        yield f"    and {len(waiting) - SHOWN} more"


def by_number(counts):
    """What is said, after their number, of operations that are shown by number alone, each with that of its requests."""
    what = "operations are" if len(counts) > 1 else "operation is"
    return f"{what} shown by number alone: " + ", ".join(
        f"{passages.called(name)} ({count})" for name, count in passages.ordered(counts).items())


def connections(found, heads):
    rows = [["connection", "session", "begun", "ended", *heads, "ending"]]
    for each in found:
        if each["gap"] is not None:
            length = abs(each["gap"])
            shown = f"{length:.6f}".rstrip("0").rstrip(".") if length < 2 ** 33 else repr(length)
            rows.append(f"    the same session, {shown} s {'later' if each['gap'] >= 0 else 'before that ended'}")
        rows.append([plain(each["connection"]), each["session"] or "-", each["begun"] or "-", each["ended"] or "-",
                     *cells(each), ending(each["ending"], each.get("facts"))])
    return aligned(rows, {0, 1, 2, 3, len(rows[0]) - 1})


def ending(found, known):
    """An ending line without its point, and the words of what is known of the recording."""
    words = facts.from_object(known).words() if known else []
    if not found:
        return " ".join(["no ending line", *words])
    (_, word), *fields = found.items()
    if word == "unread":
        return f"unread: {zkr.shown(found['reason'])}"
    return " ".join([word, *(f"{name}={value}" for name, value in fields), *words])


def slowest(found):
    rows = [["slowest: asked at", "ms", "connection", "message", "operation", "error", "zxid", "path"]]
    for each in found:
        rows.append([each["time"] or "-", exact(each["ms"]), plain(each["connection"]), str(each["n"]), each["op"],
                     each["error"] or "-", each["zxid"] or "-", each["path"] or "-"])
    return aligned(rows, {0, 2, 4, 5, 6, 7})
