"""What the tests of pcap2zkr.py share: captures made of recordings, and what it makes of them."""

import contextlib
import io
import subprocess
import sys
import unittest.mock

from . import wire
from .support import CAPTURES, TOOLS, TOP, ToolCase, pieces, sides, zkr
from tools.zkdump_tools import pcap2zkr

WITHIN = """
import resource, signal, sys
from tools.zkdump_tools import pcap2zkr
signal.signal(signal.SIGXFSZ, signal.SIG_IGN)
resource.setrlimit(resource.{limit}, ({most}, {most}))
sys.argv[0] = {tool!r}
try:
    sys.exit(pcap2zkr.main())
finally:
    with open("/proc/self/status") as lines:
        print(*[line for line in lines if "VmHWM" in line], file=sys.stderr, end="")
"""
SMALL = [path for path in CAPTURES if path.stat().st_size < 60_000]


def packed(sent, **more):
    return [(each.milliseconds, wire.packet(each, **more)) for each in sent]


def capture_of(sent, **more):
    return wire.pcap(packed(sent, **more))


def disturbed(sent, chance):
    """These segments as they are captured on a bad network and a busy machine: some twice, some again with other cuts,
    and each up to eight places out of order. The first three stay where they are."""
    begin, rest, last = sent[:3], [], {}
    for each in sent[3:]:
        rest.append(each)
        if each.data and chance.random() < 0.2:
            rest.append(each)
        before = last.get(each.side)
        # Bytes that are known to have come are not sent again.
        if each.data and before and before.number + len(before.data) == each.number \
                and before.acknowledged == each.acknowledged and chance.random() < 0.5:
            cut = chance.randrange(len(before.data) + 1)
            rest.append(each._replace(number=before.number + cut, data=before.data[cut:] + each.data))
        last[each.side] = each
    mixed = []
    for at in range(0, len(rest), 8):
        window = rest[at:at + 8]
        newest = max((each for each in window if each.data), default=None)
        chance.shuffle(window)
        mixed += window
        if newest:  # asks whether the other end is alive
            mixed.append(newest._replace(number=newest.number + len(newest.data) - 1, data=b"\0"))
    return begin + mixed


class PcapCase(ToolCase):
    def convert(self, capture, *words):
        """Converts a capture: the status, the lines printed, and the recordings."""
        source = self.folder / "capture"
        source.write_bytes(capture)
        for old in self.folder.glob("r-*"):
            old.unlink()
        with contextlib.redirect_stdout(io.StringIO()) as out, contextlib.redirect_stderr(io.StringIO()) as err:
            words = ["pcap2zkr.py", *map(str, words), str(source), str(self.folder / "r")]
            with unittest.mock.patch("sys.argv", words):
                status = pcap2zkr.main()
        self.complaint = err.getvalue()
        paths = sorted(self.folder.glob("r-*.zkr"), key=lambda path: [int(part) for part in path.stem[2:].split(".")])
        return status, out.getvalue().splitlines(), [path.read_bytes() for path in paths]

    def convert_within(self, capture, limit, most, *words):
        """Converts a capture where a resource of the system has this limit: the status, the number of lines printed,
        the complaint, and the greatest memory, in MB."""
        source, tool = self.folder / "capture", str(TOOLS / "pcap2zkr.py")
        source.write_bytes(capture)
        done = subprocess.run([sys.executable, "-c", WITHIN.format(limit=limit, most=most, tool=tool), *words,
                               source, self.folder / "r"], cwd=TOP, capture_output=True, text=True, timeout=60, check=False)
        *complaint, memory = done.stderr.splitlines()
        return done.returncode, done.stdout.count("\n"), complaint, int(memory.split()[1]) / 1024

    def assert_whole(self, capture, source, *words):
        status, told, made = self.convert(capture, *words)
        client, server = sides(source)
        self.assertEqual((status, len(told), len(made), self.complaint), (0, 1, 1, ""), told)
        self.assertEqual(sides(made[0]), (client, server))
        self.assertRegex(told[0], rf"r-1\.zkr \S+ > \S+ begun \S+Z ended \S+Z client={len(client)} "
                         rf"server={len(server)} packets=\d+-\d+ resent=\d+ closed=C$")
        return made[0]

    def assert_causal(self, made, sent):
        """That nothing comes in the recording before what its sender had acknowledged, as far as the recording has it."""
        least, has = {zkr.CLIENT: [], zkr.SERVER: []}, {zkr.CLIENT: 0, zkr.SERVER: 0}
        for piece in pieces(made):
            has[piece.side] += len(piece.data)
        first = {each.side: each.number + 1 for each in sent[:2]}
        for each in sent[3:]:
            if each.data:
                least[each.side].append((each.number - first[each.side],
                                         each.acknowledged - first[zkr.OTHER[each.side]]))
        written = {zkr.CLIENT: 0, zkr.SERVER: 0}
        for piece in pieces(made):
            end = written[piece.side] + len(piece.data)
            while least[piece.side] and least[piece.side][0][0] < end:
                other, acknowledged = zkr.OTHER[piece.side], least[piece.side].pop(0)[1]
                self.assertGreaterEqual(written[other], min(acknowledged, has[other]))
            written[piece.side] = end
