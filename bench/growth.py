"""Shows how the time and the memory of zkdump's commands grow with the size of the input.

    python3 -m bench.growth [--program PATH] [--quick] [--only WORD] [--core N]

Each row is a size of one of these: the parts of one multi; the requests that wait at once, up to the usual limit, and
above it; the names of one list; the bytes of one path; the bytes of one frame that come in pieces of one byte; and the
megabytes of a long recording. All but the last are repeated in their recording up to the same total, so that linear
work takes the same time at each size. `build` reads the recording's listing. The cost of a recording of no pieces, and
of its listing, is subtracted.

It prints a table: the size, and for each command CPU seconds (the least of three runs), nanoseconds for each (part,
request, name or byte), and the greatest memory. The status is 1 if twice the size takes more than three times the time,
beyond noise, if a longer recording takes a megabyte more memory, or if a run doesn't report its recording as whole.
With --quick sizes and totals are smaller.
"""

import functools
import itertools
import math
import pathlib
import sys
import tempfile
from typing import Callable, NamedTuple

from . import make_recording as making
from . import timing

NOISE = 0.02  # seconds
GROWTH = math.log2(1.5)  # the power of a size with which the time of each one may grow
MORE_MEMORY = 1.0  # megabytes
COMMANDS = ("check", "show", "build", "migrate")
STAT = bytes(68)


def exchange(operation, asked, answered, size=making.LARGEST_READ):
    """One request and its reply, in pieces of this size."""
    return (making.pieces(b"C", making.frame(making.request(1, operation, asked)), size)
            + making.pieces(b"S", making.frame(making.reply(1, answered)), size))


def multi(parts):
    """One multi of all kinds of parts in turn, and its results."""
    kinds = itertools.islice(itertools.cycle((
        (making.CREATE, making.text("/a") + making.blob(b"") + making.ANYONE + bytes(4), making.text("/a")),
        (making.DELETE, making.text("/a") + bytes(4), b""),
        (making.SET_DATA, making.text("/a") + making.blob(b"") + bytes(4), STAT),
        (making.CHECK, making.text("/a") + bytes(4), b""))), parts)
    asked, answered = zip(*((making.part(kind, ask), making.part(kind, result, 0)) for kind, ask, result in kinds))
    return exchange(making.MULTI, b"".join(asked) + making.END_OF_PARTS, b"".join(answered) + making.END_OF_PARTS)


def queue(requests):
    """`requests` requests, and then their replies."""
    asked = making.frame(making.request(1, making.EXISTS, making.text("/a") + b"\0"))
    answered = making.frame(making.reply(1, error=making.NO_NODE))
    return making.pieces(b"C", asked * requests) + making.pieces(b"S", answered * requests)


def names(count):
    """One getChildren, whose reply has `count` names."""
    listed = making.texts([f"n{number:07}" for number in range(count)])
    return exchange(making.GET_CHILDREN, making.text("/a") + b"\0", listed)


def path(size):
    """One sync of a path of `size` bytes, every fourth of which a line escapes."""
    spelled = making.blob(b'/ab"' * (size // 4))
    return exchange(making.SYNC, spelled, spelled)


def bytewise(size):
    """One getData, whose reply has `size` bytes, in pieces of one byte."""
    return exchange(making.GET_DATA, making.text("/a") + b"\0", making.blob(bytes(size)) + STAT, 1)


class Shape(NamedTuple):
    """What the recordings of one kind are made of, and the options that they are read with."""
    name: str
    make: Callable[[int], bytes]
    sizes: tuple
    quick: tuple
    total: int              # units in each recording
    quick_total: int
    words: tuple = ()


SHAPES = (
    Shape("parts of one multi", multi, (1_000, 8_000, 65_535), (500, 4_000, 32_000), 262_140, 64_000),
    Shape("requests that wait", queue, (1_024, 8_192, 65_536), (512, 4_096, 32_768), 1 << 19, 1 << 17),
    Shape("more that wait", queue, (1_024, 32_768, 1_048_576), (1_024, 131_072), 1 << 20, 1 << 17,
          ("--waiting", "1048576")),
    Shape("names of one list", names, (10_000, 100_000, 1_000_000), (4_000, 40_000, 400_000), 2_000_000, 400_000,
          ("--limit", "16777216")),
    Shape("bytes of one path", path, (1 << 10, 1 << 15, 1 << 20), (1 << 10, 1 << 15, 1 << 20), 1 << 24, 1 << 22),
    Shape("bytes that come singly", bytewise, (1 << 8, 1 << 14, 1 << 20), (1 << 8, 1 << 13, 1 << 18), 1 << 22, 1 << 18),
)
LONG = "MB of a recording"
# The system reports up to 0.9 MB less for a run of a few milliseconds than for a longer one.
MEGABYTES, QUICK_MEGABYTES = (10, 40, 160), (10, 30, 90)


def repeated(shape, total, recording, size):
    """Writes a recording that repeats a shape up to the total; returns the number of units."""
    times = max(1, total // size)
    part = shape.make(size)
    with open(recording, "wb") as out:
        out.write(making.HEAD + making.CONNECT)
        for _ in range(times):
            out.write(part)
    return times * size


def long(recording, megabytes):
    return making.write(recording, "small", megabytes)[0]


class Measured(NamedTuple):
    size: float
    units: int
    cost: timing.Cost

    def fault(self, before, flat):
        """What is wrong, given what was measured at smaller sizes."""
        if self.cost.status:
            return f"status {self.cost.status}"
        for other in before:
            factor = self.units / other.units * (self.size / other.size) ** GROWTH
            if self.cost.cpu > other.cost.cpu * factor + NOISE:
                return "too slow"
            if flat and self.cost.peak > other.cost.peak + MORE_MEMORY:
                return "more memory"
        return ""

    def columns(self):
        return f"{self.cost.cpu:.3f} | {self.cost.cpu / self.units * 1e9:,.1f} | {self.cost.peak:.1f}"


class Growth:
    """The runs, and the counts of rows and of failures."""

    def __init__(self, program, folder):
        self.program, self.recording, self.rows, self.failed = program, folder / "recording", 0, 0
        self.listing = folder / "listing"
        self.recording.write_bytes(making.HEAD)
        self.listing.write_bytes(timing.WHOLE)
        self.empty = {command: self.least(command).cpu for command in COMMANDS}

    def least(self, *words):
        """The run with the least time of three, with the status of one that failed."""
        read = self.listing if words[0] == "build" else self.recording
        costs = [timing.run([self.program, *words], read) for _ in range(3)]
        return min(costs)._replace(status=next((cost.status for cost in costs if cost.status), 0))

    def is_whole(self):
        """Whether the listing has messages, and ends as that of a whole conversation."""
        with open(self.listing, "rb") as listing:
            listing.seek(max(0, self.listing.stat().st_size - 1 - len(timing.WHOLE)))
            return listing.read() == b"\n" + timing.WHOLE

    def series(self, name, sizes, write, words=(), flat=False):
        """The rows of one shape; `write` makes the recording of a size, and returns its number of units."""
        before = {command: [] for command in COMMANDS}
        for size in sizes:
            units, row, faults = write(self.recording, size), f"| {name} | {size:,} |", []
            if status := timing.run([self.program, "show", *words], self.recording, self.listing).status:
                faults.append(f"the listing: status {status}")
            elif not self.is_whole():
                faults.append("the listing: not whole")
            for command in COMMANDS:
                cost = self.least(command, *words)
                measured = Measured(size, units, cost._replace(cpu=max(0.0, cost.cpu - self.empty[command])))
                row += f" {measured.columns()} |"
                if fault := measured.fault(before[command], flat):
                    faults.append(f"{command}: {fault}")
                before[command].append(measured)
            self.rows, self.failed = self.rows + 1, self.failed + bool(faults)
            print(row, ", ".join(faults), "|", flush=True)


def main():
    parser = timing.words(__doc__)
    parser.add_argument("--quick", action="store_true", help="smaller sizes")
    parser.add_argument("--only", default="", help="the rows that have this word in their name")
    words = timing.parsed(parser)
    if not any(words.only in name for name in (*(shape.name for shape in SHAPES), LONG)):
        parser.error(f"no row has this word: {words.only}")
    print("| What grows | Size |" + "".join(f" {command} CPU s | ns each | Peak MB |" for command in COMMANDS) + " |")
    print("|---|" + "---|" * (2 + 3 * len(COMMANDS)))
    with tempfile.TemporaryDirectory() as folder:
        growth = Growth(words.program, pathlib.Path(folder))
        for shape in SHAPES:
            if words.only in shape.name:
                sizes, total = (shape.quick, shape.quick_total) if words.quick else (shape.sizes, shape.total)
                growth.series(shape.name, sizes, functools.partial(repeated, shape, total), shape.words)
        if words.only in LONG:
            growth.series(LONG, QUICK_MEGABYTES if words.quick else MEGABYTES, long, flat=True)
    print(f"\nThe load was {timing.load()} at the end.\n{growth.rows - growth.failed} passed, {growth.failed} failed")
    return 1 if growth.failed else 0


if __name__ == "__main__":
    sys.exit(main())
