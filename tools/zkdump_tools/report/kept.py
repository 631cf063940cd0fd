"""What a report keeps of many requests: all of a few, and of more the slowest, the failed and counts.

Each class here needs a fixed amount of memory at most, however long the run is.
"""

import collections
import heapq
import itertools
import math
import random
from typing import NamedTuple, Optional

from .. import errors, listing

SLOWEST, SLOWEST_FAILED, OTHER_FAILED, MOST_UNANSWERED = 8_000, 1_000, 4_000, 2_000
MOST_PATHS = 40_000
BINS_OF_TEN, LEAST_EXPONENT, BINS = 8, -3, 64       # of latencies: from 1 microsecond on, eight for a factor of ten
MOST_BUCKETS, MOST_CELLS = 256, 40_000


class Request(NamedTuple):
    """A request that is kept: its connection's number, the numbers of its message and of its reply's, the time of the
    request, the latency in milliseconds, and its operation, error and path."""
    connection: int
    n: int
    reply: Optional[int]
    at: Optional[float]
    ms: Optional[float]
    op: str
    error: Optional[str]
    path: object      # as report.paths has it

    def has_failed(self):
        return errors.is_failure(self.op, self.error)


class Slowest:
    """The slowest of the requests, `most` of them; of equally slow ones the first."""

    def __init__(self, most):
        self.most, self.heap, self.count = most, [], 0

    def put(self, request):
        """Takes a request, and returns the one that is left out for it, or None."""
        self.count += 1
        entry = (request.ms or 0, -self.count, request)
        if len(self.heap) < self.most:
            heapq.heappush(self.heap, entry)
            return None
        return heapq.heappushpop(self.heap, entry)[2]

    def least(self):
        """What a latency has to exceed to be taken."""
        return self.heap[0][0] if len(self.heap) == self.most else -1

    def requests(self):
        return [entry[2] for entry in self.heap]


class Chance:
    """Requests that are chosen by chance, `most` of them, each with the same chance; the same in each run."""

    def __init__(self, most):
        self.most, self.kept, self.count, self.random = most, [], 0, random.Random(most)

    def put(self, request):
        self.count += 1
        if len(self.kept) < self.most:
            self.kept.append(request)
        elif (at := self.random.randrange(self.count)) < self.most:
            self.kept[at] = request


class Kept:
    """The requests that are kept of a run: the slowest, of the failed ones the slowest and others by chance, and those
    without a reply."""

    def __init__(self):
        self.slowest, self.failed, self.others = Slowest(SLOWEST), Slowest(SLOWEST_FAILED), Chance(OTHER_FAILED)
        self.left = {fate: [] for fate in listing.FATES}        # those without a reply, by what became of them
        self.left_count = dict.fromkeys(listing.FATES, 0)
        self.least, self.answered = -1, 0

    def takes(self, ms, has_failed):
        """Whether an answered request of this latency is to be put."""
        self.answered += not has_failed
        return has_failed or (ms or 0) > self.least

    def put(self, request):
        if not request.has_failed():
            self.slowest.put(request)
            self.least = self.slowest.least()
        elif other := self.failed.put(request):
            self.others.put(other)

    def put_left(self, fate, request):
        """Takes a request without a reply."""
        self.left_count[fate] += 1
        if len(self.left[fate]) < MOST_UNANSWERED:
            self.left[fate].append(request)

    def lost_fates(self):
        """What became of requests of which it isn't known whether they were answered."""
        return [fate for fate, found in self.left.items() if found and fate != listing.UNANSWERED]

    def requests(self):
        return [*self.slowest.requests(), *self.failed.requests(), *self.others.kept,
                *itertools.chain.from_iterable(self.left.values())]

    def is_complete(self):
        """Whether every request of the run is kept."""
        return (self.answered == len(self.slowest.heap) and self.others.count == len(self.others.kept)
                and all(self.left_count[fate] == len(found) for fate, found in self.left.items()))


class Density:
    """How many requests there were by connection, time and latency, in cells whose width grows with the run, and how
    many of them failed or had no reply by connection and time."""

    def __init__(self):
        self.width, self.low, self.high, self.bins = 1, None, None, {}
        self.cells, self.troubles = collections.Counter(), collections.Counter()

    def add(self, connection, at, ms, trouble):
        """Counts a request. `ms` is None if it has no reply; `trouble` is 1 if it failed, 2 if it has none."""
        bucket = int(at) // self.width
        if self.low is None:
            self.low = self.high = bucket
        elif bucket < self.low or bucket > self.high:
            self.low, self.high = min(bucket, self.low), max(bucket, self.high)
        while self.high - self.low >= MOST_BUCKETS or len(self.cells) > 4 * MOST_CELLS and self.high > self.low:
            self.widen()
            bucket = int(at) // self.width
        if ms is not None:
            row = self.bins.get(ms)
            if row is None:
                if len(self.bins) > MOST_CELLS:
                    self.bins.clear()
                row = self.bins[ms] = bin_of(ms)
            self.cells[connection, bucket, row] += 1
        if trouble:
            self.troubles[connection, bucket, trouble] += 1

    def widen(self):
        """Makes each cell twice as wide."""
        self.width, self.low, self.high = 2 * self.width, self.low // 2, self.high // 2
        self.cells, self.troubles = halved(self.cells), halved(self.troubles)

    def finish(self):
        while len(self.cells) > MOST_CELLS and self.high > self.low:
            self.widen()


def halved(cells):
    """Cells that are twice as wide."""
    made = collections.Counter()
    for (connection, bucket, row), count in cells.items():
        made[connection, bucket // 2, row] += count
    return made


def bin_of(ms):
    """The bin of a latency; the first one has the latencies below all bins."""
    if ms <= 0:
        return 0
    return min(BINS - 1, max(0, int(BINS_OF_TEN * (math.log10(ms) - LEAST_EXPONENT))))


class Counted:
    """Counts by key of many keys. If there are more than `most`, the rarest are forgotten: `short` is how much too
    small a count can be then. An entry's `most` is the greatest of its counts."""

    def __init__(self, new, most=MOST_PATHS):
        self.new, self.most, self.entries, self.short = new, most, {}, 0

    def entry(self, key):
        found = self.entries.get(key)
        if found is None:
            if len(self.entries) >= self.most:
                self.forget()
            found = self.entries[key] = self.new()
        return found

    def forget(self):
        """Forgets the rarer half."""
        least = sorted(entry.most() for entry in self.entries.values())[self.most // 2]
        self.entries = {key: entry for key, entry in self.entries.items() if entry.most() > least}
        self.short += least

    def most_common(self, number):
        return sorted(self.entries.items(), key=lambda item: -item[1][0])[:number]
