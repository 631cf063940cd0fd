"""Adds what was found of each of many files, by another process, to what was found of those before."""

from .. import listing
from . import gather, kept


class Merged:
    """What is found of files, one after the other: `run` is as gather.Run finds it of all of them. Density, which only
    a page shows, is left out."""

    def __init__(self):
        self.run, self.parts = gather.Run(), {}

    def add(self, other):
        """Adds the run of one file."""
        for source in (*other.sources, *other.abouts):
            source.join(self.parts)
        numbers = self.add_connections(other)
        run = self.run
        run.warnings += other.warnings
        run.with_holes += other.with_holes
        run.stopped += other.stopped
        run.by_number.update(other.by_number)
        run.left_out.merge(other.left_out)
        add_kept(run.kept, other.kept, numbers)
        for path, entry in other.paths.entries.items():
            add_path(run.paths.entry(path), entry, numbers)
        run.paths.short += other.paths.short
        for (connection, path), entry in other.watches.entries.items():
            run.watches.entry((numbers[connection], path))[:] = entry
        run.watches.short += other.watches.short

    def add_connections(self, other):
        """Adds the connections; by the number that each has there, the number that it has here."""
        run, numbers, silent = self.run, {}, 0
        for each in other.connections:
            numbers[each.number] = len(run.connections)
            each.number = len(run.connections)
            run.place(each)
            run.connections.append(each)
            for operation in each.operations.values():
                if operation.slowest:
                    operation.slowest = moved(operation.slowest, numbers, 1)
                operation.first = {error: moved(link, numbers, 0) for error, link in operation.first.items()}
            if each.is_silent:
                silent += 1
                run.silent += 1
                if run.silent > gather.MOST_SILENT:
                    run.connections.pop()
        run.silent += other.silent - silent
        run.whole += other.silent - silent
        return numbers

    def add_unread(self, source, reason):
        """Adds a file that can't be read, as a connection."""
        connection = self.run.connection(source, source.name)
        connection.known = listing.Connection(source.path)
        connection.known.ending = {"ending": listing.UNREAD, "reason": reason}


def moved(link, numbers, at):
    """A tuple with a connection's number in this place."""
    return (*link[:at], numbers[link[at]], *link[at + 1:])


def of_request(request, numbers):
    return request._replace(connection=numbers[request.connection])


def in_order(slowest):
    """The requests of a kept.Slowest, in the order in which they came."""
    return [request for *_, request in sorted(slowest.heap, key=lambda entry: -entry[1])]


def add_kept(mine, other, numbers):
    for request in in_order(other.slowest):
        mine.slowest.put(of_request(request, numbers))
    for request in in_order(other.failed):
        if left_out := mine.failed.put(of_request(request, numbers)):
            mine.others.put(left_out)
    for request in other.others.kept:
        mine.others.put(of_request(request, numbers))
    mine.answered += other.answered
    mine.least = mine.slowest.least()
    for fate, have in mine.left.items():
        have += [of_request(request, numbers) for request in other.left[fate][:kept.MOST_UNANSWERED - len(have)]]
        mine.left_count[fate] += other.left_count[fate]


def add_path(mine, entry, numbers):
    count, failed, longest, connection, n = entry
    mine[0] += count
    mine[1] += failed
    if n is not None and (longest > mine[2] or mine[4] is None):
        mine[2:] = longest, numbers[connection], n
