"""Counts requests and failures by intervals of time, by the first parts of their paths, and by the client's address."""

import argparse
import collections
import re

from . import errors, listing, tables, zkr

EVERY = re.compile(r"([1-9]\d{0,8})(ms|s|m|h)?", re.ASCII)
UNITS = {"ms": 1, "s": 1000, "m": 60_000, "h": 3_600_000}       # milliseconds
LONGEST = 900               # characters of the first parts of a path; zkstat keeps some more of it
BROKEN = re.compile(r"\\[0-9a-f]?$")       # an escape that was cut
MOST_PATHS = 40_000


def every(text):
    """A length of time, in milliseconds."""
    found = EVERY.fullmatch(text)
    if not found:
        raise argparse.ArgumentTypeError(f"{text!r} is not a length of time: write it as 10s, 500ms, 5m or 1h")
    return int(found[1]) * UNITS[found[2] or "s"]


def add_words(parser):
    """Adds the arguments that ask for it."""
    parser.add_argument("--every", metavar="TIME", type=every, help="count requests and failures by intervals of this "
                        "length, as 10s, 500ms, 5m or 1h")
    parser.add_number("--depth", range(1, 101), help="count requests and failures by the first N parts of their paths")
    parser.add_argument("--clients", action="store_true", help="count by the address of the client, which the facts "
                        "beside a recording have")


def first_parts(spelled, depth):
    """The first parts of a path, of its spelling in a line."""
    parts = spelled[1:-1].split("/", depth + 1)[:depth + 1]
    front = "/".join(parts)
    return f'"{front}"' if len(front) <= LONGEST else f'"{BROKEN.sub("", front[:LONGEST])}".. and more'


class Breakdown:
    """How many requests there were, and how many failed, by the beginning of each interval in milliseconds since 1970,
    and by the first parts of paths: a part of a multi counts as a request for its path. `untimed` counts requests
    without a time; `short` those of paths that were too many to count each."""

    def __init__(self, words):
        self.every, self.depth, self.has_clients = words.every, words.depth, words.clients
        self.intervals, self.paths = collections.defaultdict(lambda: [0, 0]), collections.defaultdict(lambda: [0, 0])
        self.untimed = self.short = 0

    def is_asked(self):
        """Whether it has to see each message."""
        return bool(self.every or self.depth)

    def request(self, talk, line, made):
        """Takes a request, of whose parts the paths stay with it."""
        if self.depth and made.op == "multi":
            made.parts = talk.paths(line, made)

    def reply(self, talk, line, made, asked):
        """Counts a request with its reply."""
        failed = errors.is_failure(made.op, made.error)
        self.count(asked, failed)
        if self.depth and made.op == "multi":
            results = talk.results(line) if failed else ()
            bad = set(listing.failed_parts(results)) if results else range(len(asked.parts)) if failed else ()
            for number, path in enumerate(asked.parts):
                self.count_path(path, number in bad)
        elif self.depth:
            self.count_path(asked.path, failed)

    def left(self, made):
        """Counts a request without a reply."""
        self.count(made, False)
        for path in (made.parts if made.op == "multi" else [made.path]) if self.depth else ():
            self.count_path(path, False)

    def count(self, asked, failed):
        if not self.every:
            return
        if asked.moment is None:
            self.untimed += 1
            return
        self.add(self.intervals, int(asked.moment // self.every) * self.every, 1, failed)

    def count_path(self, path, failed):
        if path and path != "~":
            self.add_path(first_parts(path, self.depth), 1, failed)

    def add_path(self, front, asked, failed):
        if front not in self.paths and len(self.paths) >= MOST_PATHS:
            self.short += asked
        else:
            self.add(self.paths, front, asked, failed)

    @staticmethod
    def add(counts, key, asked, failed):
        entry = counts[key]
        entry[0] += asked
        entry[1] += failed

    def partial(self):
        """What was counted, for `merge` in another process."""
        return dict(self.intervals), dict(self.paths), self.untimed, self.short

    def merge(self, partial):
        intervals, paths, untimed, short = partial
        for begin, counts in intervals.items():
            self.add(self.intervals, begin, *counts)
        for front, counts in paths.items():
            self.add_path(front, *counts)
        self.untimed, self.short = self.untimed + untimed, self.short + short

    def summary(self, rows):
        """What was counted; `rows` are those of the connections."""
        found = {}
        if self.every:
            found["every"] = {"milliseconds": self.every, "untimed": self.untimed, "rows": [
                {"begun": zkr.clock(begin), "asked": asked, "failed": failed,
                 "askedASecond": rate(asked, self.every), "failedASecond": rate(failed, self.every)}
                for begin, (asked, failed) in sorted(self.intervals.items())]}
        if self.depth:
            ordered = sorted(self.paths.items(), key=lambda item: (-item[1][0], item[0]))
            found["paths"] = {"depth": self.depth, "short": self.short, "rows": [
                {"path": front, "asked": asked, "failed": failed} for front, (asked, failed) in ordered]}
        if self.has_clients:
            found["clients"] = list(clients(rows))
        return found


def rate(count, milliseconds):
    return round(1000 * count / milliseconds, 3)


def address(client):
    """The address of a client, without its port."""
    return client.rpartition(":")[0] or client


def clients(rows):
    """The row of each client's address, the busiest first; None is that of the connections of which it isn't known. The
    parts of a connection are one."""
    found = collections.defaultdict(lambda: [set(), 0, 0, 0])
    for number, each in enumerate(rows):
        known = each.get("facts", {})
        client = known.get("client")
        entry = found[client and address(client)]
        entry[0].add((client, known.get("server"), known["connected"]) if "connected" in known else number)
        for at, name in enumerate(tables.COUNTS, 1):
            entry[at] += each[name]
    for client, (connections, *counts) in sorted(found.items(), key=lambda item: (-item[1][1], item[0] or "")):
        yield {"client": client, "connections": len(connections), **dict(zip(tables.COUNTS, counts))}


def lines(found, top):
    """The lines of these tables; of paths and clients the first `top` rows."""
    if "every" in found:
        kept = found["every"]
        yield ""
        yield from tables.aligned([["asked from", "asked", "failed", "asked/s", "failed/s"], *(
            [each["begun"], str(each["asked"]), str(each["failed"]), tables.exact(each["askedASecond"]),
             tables.exact(each["failedASecond"])] for each in kept["rows"])], {0})
        if kept["untimed"]:
            yield f"{kept['untimed']:>8} requests have no time"
    if "paths" in found:
        rows = found["paths"]["rows"]
        yield ""
        yield from tables.aligned([["asked", "failed", f"path, {found['paths']['depth']} deep"], *(
            [str(each["asked"]), str(each["failed"]), each["path"]] for each in rows[:top])], {2})
        yield from more(rows, top)
        if found["paths"]["short"]:
            yield f"{found['paths']['short']:>8} requests of other paths: there were too many to count each"
    if "clients" in found:
        yield ""
        yield from tables.aligned([["client", "connections", *tables.COUNTS], *(
            [tables.plain(each["client"]) if each["client"] else "-", str(each["connections"]),
             *(str(each[name]) for name in tables.COUNTS)] for each in found["clients"][:top])], {0})
        yield from more(found["clients"], top)


def more(rows, top):
    if len(rows) > top:
        yield f"and {len(rows) - top} more"
