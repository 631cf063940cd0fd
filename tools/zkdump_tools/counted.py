"""Counts the messages of a block of columns for zkstat, in arrays of numpy.

It is the fast form of what Statistics.read in zkstat.py does with one message after the other: whatever depends on an
order, as that of equally frequent errors, comes in the order of the messages.
"""

import collections

from . import columns, listing
from .histogram import Histogram

LEAST = -1 << 31        # the least number of an operation or an error


def grouped(numpy, keys):
    """The different keys in the order in which each comes first, and how often each comes."""
    found, first, counts = numpy.unique(keys, return_index=True, return_counts=True)
    order = first.argsort()
    return zip(found[order].tolist(), counts[order].tolist())


class Latencies:
    """Latencies by operation: how many there are in each class of equivalent ones, by the rule of Histogram."""

    def __init__(self):
        self.counts, self.greatest = {}, {}
        self.long = collections.defaultdict(Histogram)      # those that an array has no exact number for

    def add(self, numpy, talk, block, timed):
        long = timed["microseconds"] >= columns.MOST_EXACT
        if long.any():
            for record in map(columns.Record._make, timed[long].tolist()):
                self.long[record.operation].add(talk.message(block, record).microseconds)
            timed = timed[~long]
        for number in numpy.unique(timed["operation"]).tolist():
            latencies = timed["microseconds"][timed["operation"] == number]
            exact = latencies.astype("i8")
            shift = numpy.maximum(numpy.frexp(latencies)[1] - Histogram.BITS, 0)
            counts = numpy.bincount((shift << Histogram.BITS - 1) + (exact >> shift))
            known = self.counts.get(number, counts[:0])
            if len(known) > len(counts):
                known, counts = counts, known
            counts[:len(known)] += known
            self.counts[number] = counts
            self.greatest[number] = max(int(exact.max()), self.greatest.get(number, 0))

    def histograms(self):
        """The operations, each with its histogram."""
        for number, counts in self.counts.items():
            made, half = Histogram(), 1 << Histogram.BITS - 1
            for place in counts.nonzero()[0].tolist():
                shift = max(0, place // half - 1)
                made.counts[place - shift * half << shift] = int(counts[place])
            made.greatest = self.greatest[number]
            yield number, made
        yield from self.long.items()


def read(found, talk):
    """Counts what is chosen of columns: `found` is a zkstat.Statistics."""
    latencies = Latencies()
    for block, array in found.selection.arrays(talk):
        if len(array):
            add_block(found, talk, block, array, latencies)
    for number, made in latencies.histograms():
        for each in (found.operations[talk.operations[number]], found.counts_of(talk.connection)):
            each.latencies.merge(made)


def add_block(found, talk, block, array, latencies):
    """Counts messages of a block."""
    numpy, counts = columns.numpy, found.counts_of(talk.connection)
    array = array[array["flags"] & columns.MADE_UP == 0]
    events = array[array["operation"] == columns.EVENT]
    for kind, count in grouped(numpy, events["error"]):
        found.events[talk.kinds.get(kind) or str(kind)] += count
    replies = array[array["of"] > 0]
    for number, count in grouped(numpy, replies["operation"]):
        for each in (found.operations[talk.operations[number]], counts):
            each.asked += count
            each.answered += count
    by_number = replies[replies["flags"] & columns.BY_NUMBER > 0]
    for number, count in grouped(numpy, by_number["operation"]):
        found.by_number[talk.operations[number]] += count
    failed = replies[replies["flags"] & columns.ERROR > 0]
    keys = (failed["operation"].astype("i8") << 32) + (failed["error"].astype("i8") - LEAST)
    for key, count in grouped(numpy, keys):
        number, error = key >> 32, (key & (1 << 32) - 1) + LEAST
        op, name = talk.operations[number], talk.errors.get(error) or str(error)
        for each in (found.operations[op], counts):
            each.of_error(op, name)[name] += count
    timed = replies[replies["microseconds"] == replies["microseconds"]]
    if len(timed):
        latencies.add(numpy, talk, block, timed)
        add_slowest(numpy, found, talk, block, timed)


def add_slowest(numpy, found, talk, block, timed):
    """Keeps those that may be of the slowest, the first of equally slow ones."""
    is_exact = timed["microseconds"].max() < columns.MOST_EXACT
    slow = timed[timed["microseconds"] > found.least] if is_exact else timed
    if is_exact and len(slow) > found.most:
        slow = slow[numpy.sort(numpy.argsort(-slow["microseconds"], kind="stable")[:found.most])]
    for row in slow.tolist():
        record = columns.Record._make(row)
        if is_exact and record.microseconds <= found.least:
            continue
        made = talk.message(block, record)
        if made.microseconds > found.least:
            asked = listing.Message(talk.connection, record.of, "C", made.xid, made.op, block.path(record), None)
            asked.moment = talk.asked_moment(block, record)
            zxid = None if record.operation == columns.CONNECT else listing.hexadecimal(record.zxid)
            found.add_slow(zxid, made, asked)
