"""Random captures of several connections of today's clients, of which packets of both sides were not captured: what
pcap2zkr.py makes of them, held against the conversations that were made (lossy.py).

`python3 -m tests.tools.test_pcap_lossy BEGIN END` tries the seeds from BEGIN to before END, and prints what is wrong.
"""

import collections
import pathlib
import random
import signal
import sys
import unittest.mock

from . import lossy, wire
from .captured import PcapCase
from .support import sides
from tools.zkdump_tools import facts, pcap2zkr
from tools.zkdump_tools.report import sources

SEEDS, FIRST_PORT = 120, 40_000


class Made:
    """A random capture by a seed: its packets, and the Loss of each connection by its client's port."""

    def __init__(self, seed):
        self.chance, self.packets, self.losses = random.Random(seed), [], {}
        chance = self.chance
        self.share, self.burst = chance.choice([0, 0.01, 0.05, 0.05, 0.2, 0.4]), chance.choice([1, 1, 3])
        self.late, self.most = chance.random() < 0.2, chance.choice([1 << 25, 1 << 25, 1 << 25, 10_000, 1_000])
        for port in range(FIRST_PORT, FIRST_PORT + chance.choice([1, 1, 2, 4])):
            talk = lossy.Talk(chance, chance.choice([6, 20, 60, 150]), chance.choice([1, 2, 8, 40]))
            sent = talk.segments(wire.BEGUN + chance.randrange(100))
            captured = self.captured(sent)
            self.losses[port] = lossy.Loss(talk, sent, captured)
            self.packets += [(sent[at].milliseconds, wire.packet(sent[at], client=port)) for at in sorted(captured)]
        self.packets.sort(key=lambda each: each[0])

    def captured(self, sent):
        """The numbers of the segments that are captured."""
        found, gone = set(), 0
        for at in range(self.chance.randrange(len(sent)) if self.late else 0, len(sent)):
            if not gone and self.chance.random() < self.share:
                gone = self.chance.randrange(self.burst) + 1
            if gone:
                gone -= 1
            else:
                found.add(at)
        return found


class Lossy(PcapCase):
    def faults(self, seed):
        """What is wrong with what is made of the capture of this seed."""
        made, parts, joined, counted, found = Made(seed), {}, {}, collections.Counter(), []
        with unittest.mock.patch.object(pcap2zkr, "MOST_WAITING", made.most):
            _, lines, _ = self.convert(wire.pcap(made.packets), "--late", "--times")
        by_port = collections.defaultdict(list)
        for line in lines:
            port = int(line.split()[1].rpartition(":")[2])
            by_port[port].append(line)
            counted[port] += sources.source_of(line, "x.pcap", f"{self.folder}/r", parts).first is None
        for port, loss in made.losses.items():
            recordings = [self.recording(line.split()[0], joined) for line in by_port[port] if line[0] != "-"]
            said = lossy.Check(loss, [each[1:] for each in recordings], by_port[port]).faults
            if counted[port] != (loss.begins() is not None):
                said.append(f"counts as {counted[port]} connections by its lines")
            if sum(each[0].first is None for each in recordings) > 1:
                said.append("counts as several connections by its recordings")
            if len(loss.captured) == len(loss.sent) and not self.is_all(loss, [each[1] for each in recordings]):
                said.append("not all of it is in one recording, though nothing was lost")
            found += [f"seed {seed}, port {port}: {each}" for each in said]
        return found

    def recording(self, path, joined):
        """A recording as a report takes it, its bytes, its times and its facts."""
        source, known = sources.Source(path, path), facts.facts_of(path)
        source.take_facts(known, joined)
        times = pathlib.Path(f"{path}.times").read_text("ascii").split()
        return source, pathlib.Path(path).read_bytes(), list(map(float, times)), known

    def is_all(self, loss, made):
        every = tuple(b"".join(each.data for each in loss.talk.messages if each.side == side)
                      for side in (lossy.CLIENT, lossy.SERVER))
        return [sides(each) for each in made] == [every]

    def test_seeds(self):
        for seed in range(SEEDS):
            self.assertEqual(self.faults(seed), [])


def main():
    case, seeds, bad = Lossy(), range(*map(int, sys.argv[1:3])), 0
    case.setUp()
    signal.alarm(0)
    for seed in seeds:
        found = case.faults(seed)
        bad += bool(found)
        print(*found, sep="\n", end="\n" * bool(found))
    print(f"{bad} of {len(seeds)} seeds have faults")
    case.doCleanups()


if __name__ == "__main__":
    main()
