"""Runs examples/late.c: a reader that comes late, and goes on after a refusal. examples.py calls it."""

import pathlib
import re
import struct
import subprocess

from ..stored_listings import listings_of
from .example_proxy import pieces

CAPTURES = pathlib.Path(__file__).resolve().parents[2] / "captures"
ASKED, ANSWERED = "{:08x} 00000003 00000002 2f61 01", "{:08x} 0000000000000005 ffffff9b"
# How many bytes of the second exists come before a reply to the first, which has a byte after its header; and the lines.
BEGUN = 9
RESUMED = """C 1 exists path="/a" watch=1
S refused TRAILING at 16, passed over
C 2 exists path="/a" watch=1
S 2 exists zxid=5 err=-101/NONODE
C refused BAD_BOOL at 14, passed over
S 3 zxid=5 err=-101, not seen asked
C 4 exists path="/a" watch=1
. whole unanswered=1
"""


def wait_late(folder, program):
    """Whether a reader that comes late reports that more requests wait than may, and that it reads no further."""
    path = pathlib.Path(folder, "waiting.zkr")
    frames = b"".join(struct.pack(">IiiI2sB", 15, xid, 3, 2, b"/a", 0) for xid in range(1, 65538))
    path.write_bytes(b"ZKR1C" + len(frames).to_bytes(4, "big") + frames)
    found = subprocess.run([program, path, "0"], capture_output=True, text=True)
    good = (found.returncode, found.stderr) == (2, "late: more requests wait than may\n")
    yield "late, waiting", good, f"late: status {found.returncode}, {found.stderr}{found.stdout[-100:]}"


def unseen(line):
    """What a reader that didn't see its request has of a reply's line."""
    words = dict(re.findall(r" (zxid|err)=(-?\d+)", line))
    return f"S {line.split()[1]} zxid={words['zxid']} err={words.get('err', 0)}, not seen asked"


def come_late(program):
    """Whether a reader that comes late lists what is left of a recording, and a reply as one whose request isn't there."""
    for path in sorted(CAPTURES.glob("[!r]*.zkr")):
        listing = listings_of(path)[-1][1]
        lines = listing.read_text().splitlines()
        if len(list(pieces(path.read_bytes()))) != len(lines) - 1:
            continue
        for count in range(2, min(9, len(lines) - 1)):
            before, wanted = lines[2:count], lines[count:]
            xids = [line.split()[1] for line in before if line.startswith("C ")]
            for xid in filter(lambda xid: not any(line.startswith(f"S {xid} ") for line in before), xids):
                at = next((i for i, line in enumerate(wanted) if line.startswith(f"S {xid} ")), None)
                if at is not None:
                    wanted[at] = unseen(wanted[at])
            found = subprocess.run([program, path, str(count)], capture_output=True, text=True)
            good = (found.returncode, found.stdout.splitlines()) == (0, wanted)
            yield path.stem, good, f"late {path.stem} {count}: status {found.returncode}, {found.stdout[:300]}"


def framed(digits):
    payload = bytes.fromhex(digits)
    return len(payload).to_bytes(4, "big") + payload


def go_on(folder, program):
    """Whether it passes over what is refused, with what the other side has begun, and stops at a length that no frame has."""
    second = framed(ASKED.format(2))
    said = [(b"C", framed(ASKED.format(1))), (b"C", second[:BEGUN]), (b"S", framed(ANSWERED.format(1) + "00")),
            (b"C", second[BEGUN:]), (b"S", framed(ANSWERED.format(2))), (b"C", framed(ASKED.format(3)[:-2] + "02")),
            (b"S", framed(ANSWERED.format(3))), (b"C", framed(ASKED.format(4)))]
    path = pathlib.Path(folder, "resumed.zkr")
    for more, lines in ((b"", RESUMED), (b"\xff" * 4, RESUMED[:RESUMED.index(". ")] + ". refused side=C reason=LENGTH_RANGE\n")):
        whole = said + [(b"C", more)] * bool(more)
        path.write_bytes(b"ZKR1" + b"".join(side + len(data).to_bytes(4, "big") + data for side, data in whole))
        found = subprocess.run([program, path, "0"], capture_output=True, text=True)
        good = (found.returncode, found.stdout) == (0, lines)
        yield "late, refused", good, f"late, refused: status {found.returncode}, {found.stdout}{found.stderr}"
