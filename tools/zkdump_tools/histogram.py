"""Latencies, counted as HdrHistogram counts them, in a memory that doesn't grow with their number."""

import collections


class Histogram:
    """HdrHistogram's rule for whole numbers from 0 on, with three significant digits.

    A number below 2,048 is counted as itself. One of more than 11 bits is counted together with all those that have the
    same first 11 bits; these are equivalent, and differ by less than a thousandth. A percentile is the greatest of the
    numbers that are equivalent to the one at its rank, but never above the greatest number that was added, which is
    kept as it is.
    """

    BITS = 11

    def __init__(self):
        self.counts = collections.Counter()     # by the least of the equivalent numbers
        self.greatest = None

    def add(self, number):
        shift = number.bit_length() - self.BITS
        self.counts[number >> shift << shift if shift > 0 else number] += 1
        if self.greatest is None or number > self.greatest:
            self.greatest = number

    def merge(self, other):
        """Adds everything that another histogram has."""
        self.counts.update(other.counts)
        if other.counts:
            self.greatest = max(other.greatest, self.greatest or 0)

    def total(self):
        return sum(self.counts.values())

    def percentile(self, percent):
        """The number that `percent` of a hundred don't exceed; None if there are none."""
        due = max(1, -(-percent * self.total() // 100))
        for least in sorted(self.counts):
            due -= self.counts[least]
            if due <= 0:
                shift = max(0, least.bit_length() - self.BITS)
                return min(least + (1 << shift) - 1, self.greatest)
        return None
