"""Runs the proved program over large inputs: few reads and writes are made, and no memory is lacking that isn't refused.

    large_inputs.py [--only WORD] [--program PATH]

Each command runs over inputs that are made here, with the bytes that are expected.

- small: over 10 MB of small messages each command reads and writes in blocks, not by bytes: no more calls than one for
  each 16 KiB and a few;
- body: one of more than a million bytes is listed, checked, built and migrated;
- lines: after a line of 100 kB each line of `build` is read;
- pieces: a recording of a thousand thousand pieces of one byte.

It prints what differs, and as its last line N passed, M failed. The status is 0 if nothing differs.
"""

import argparse
import itertools
import struct
import sys

from .harness import BUILT, Program, recording

CONNECT = bytes(24) + struct.pack(">i", 16) + bytes(16)
CONNECTED = bytes(8) + struct.pack(">qi", 1, 16) + bytes(16)
HELLO = "version=0 zxid=0 timeout=0 session=0 passwd=#" + 32 * "0"
WELCOME = "version=0 timeout=0 session=1 passwd=#" + 32 * "0"
BLOCK, FEW = 16_384, 40
OPTIONS = ["--limit", "16777216"]


def framed(payload):
    return len(payload).to_bytes(4, "big") + payload


def opened(frames, lines):
    """A connect request and its answer in front."""
    return ([(b"C", framed(CONNECT)), (b"S", framed(CONNECTED)), *frames],
            [f"C connect {HELLO} ro=-", f"S connect {WELCOME} ro=-", *lines])


def pings(count):
    """Pings, each with its reply."""
    ask, answer = framed(struct.pack(">ii", -2, 11)), framed(struct.pack(">iqi", -2, 7, 0))
    return opened([(b"C", ask), (b"S", answer)] * count, ["C -2 ping", "S -2 ping zxid=7"] * count)


def bodies(sizes):
    """setData requests with blobs of these sizes, each with a reply that says that there is no such node."""
    frames, lines = [], []
    for xid, size in enumerate(sizes, 1):
        blob = bytes(i % 251 for i in range(size))
        ask = struct.pack(">iii", xid, 5, 2) + b"/a" + struct.pack(">i", size) + blob + struct.pack(">i", -1)
        frames += [(b"C", framed(ask)), (b"S", framed(struct.pack(">iqi", xid, xid, -101)))]
        lines += [f'C {xid} setData path="/a" blob=#{blob.hex()} version=-1', f"S {xid} setData zxid={xid} err=-101/NONODE"]
    return opened(frames, lines)


def single_bytes(frames):
    """The recording of these frames with a piece for each byte."""
    return recording([(side, data[i:i + 1]) for side, data in frames for i in range(len(data))])


def cases():
    """A name, the command, the input, and the output that is wanted; None where it is as long as the input or longer."""
    for name, (frames, lines) in (("small", pings(400_000)), ("body", bodies((3_000_000, 1_048_577))),
                                  ("lines", bodies((50_000, *[3] * 300)))):
        whole, listing = recording(frames), "\n".join([*lines, ". whole unanswered=0", ""]).encode()
        yield name, "show", whole, listing
        yield name, "check", whole, b". whole unanswered=0\n"
        yield name, "build", listing, whole
        yield name, "migrate", whole, None
    frames, _lines = pings(41_666)
    yield "pieces", "check", single_bytes(frames), b". whole unanswered=0\n"


def calls():
    """How many reads and how many writes the runs so far made: the kernel counts those of children that have ended."""
    with open("/proc/self/io") as file:
        counts = dict(line.split(": ") for line in file)
    return int(counts["syscr"]), int(counts["syscw"])


def run(program, name, command, data, wanted):
    """What is wrong with one run."""
    before = calls()
    output, errors, status = program.run([command, *OPTIONS], data)
    made = [now - then for now, then in zip(calls(), before)]
    if (errors, status) != (b"", 0):
        yield f"{name} {command}: {errors[:100]}, status {status}"
    if wanted is not None and output != wanted:
        yield f"{name} {command}: other bytes than are wanted: {len(output)}, and {len(wanted)} are"
    if wanted is None and not output.startswith(b"ZKR2"):
        yield f"{name} {command}: no recording of the second format"
    for what, count, size in zip(("reads", "writes"), made, (len(data), len(output))):
        if name != "pieces" and count > size // BLOCK + FEW:
            yield f"{name} {command}: {count} {what} for {size} bytes"


def main():
    parser = argparse.ArgumentParser(description=__doc__.split("\n")[0])
    parser.add_argument("--only", default="", metavar="WORD")
    parser.add_argument("--program", default=BUILT, metavar="PATH")
    given = parser.parse_args()
    program = Program(given.program)
    wrong = [list(run(program, *case)) for case in cases() if given.only in f"{case[0]} {case[1]}"]
    for line in itertools.chain.from_iterable(wrong):
        print(line)
    failed = sum(map(bool, wrong))
    print(f"{len(wrong) - failed} passed, {failed} failed")
    return int(failed > 0)


if __name__ == "__main__":
    sys.exit(main())
