"""Tests of latencies as HdrHistogram counts them."""

import random

from .support import ToolCase

from tools.zkdump_tools.histogram import Histogram

# By HdrHistogram's rule with three significant digits: the greatest number that is equivalent to this one. Up to 2,047
# a number is alone; from 2,048 on two are equivalent, from 4,096 on four, and so on.
EQUIVALENT = {0: 0, 1: 1, 1999: 1999, 2047: 2047, 2048: 2049, 2049: 2049, 2050: 2051, 4095: 4095, 4096: 4099,
              4099: 4099, 4100: 4103, 8191: 8191, 8192: 8199, 10_000: 10_007, 1_000_000: 1_000_447,
              2**40: 2**40 + 2**30 - 1}
# The numbers at the ranks 1, 5, 6, 10 and 10 of these ten.
TEN, OF_TEN = (5, 1, 9, 7, 3, 2, 8, 4, 10, 6), {1: 1, 50: 5, 51: 6, 95: 10, 100: 10}


class Histograms(ToolCase):
    def test_equivalent_numbers(self):
        for number, greatest in EQUIVALENT.items():
            histogram = Histogram()
            histogram.add(number)
            histogram.add(2**50)
            self.assertEqual(histogram.percentile(50), greatest)

    def test_ranks(self):
        histogram = Histogram()
        for number in TEN:
            histogram.add(number)
        self.assertEqual({percent: histogram.percentile(percent) for percent in OF_TEN}, OF_TEN)
        self.assertEqual((histogram.total(), histogram.greatest), (10, 10))

    def test_no_percentile_is_above_the_greatest(self):
        histogram = Histogram()
        histogram.add(4500)
        self.assertEqual((histogram.percentile(50), histogram.greatest), (4500, 4500))
        self.assertIsNone(Histogram().percentile(50))

    def test_percentiles_of_many_differ_by_less_than_a_thousandth_and_few_are_counted(self):
        chance, histogram = random.Random(1), Histogram()
        numbers = [int(chance.lognormvariate(8, 3)) for _ in range(100_000)]
        for number in numbers:
            histogram.add(number)
        numbers.sort()
        for percent in (50, 95, 99):
            exact = numbers[percent * 1000 - 1]
            self.assertTrue(exact <= histogram.percentile(percent) <= exact * 1.001)
        self.assertLess(len(histogram.counts), 30_000)
