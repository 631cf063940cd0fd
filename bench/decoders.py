"""Measures zkdump beside other decoders, over three long recordings.

    python3 -m bench.decoders [--program PATH] [--jars FOLDER] [--megabytes N] [--times N] [--least] [--core N]

The recordings are small, big and listing (make_recording.py). The decoders are cat, which decodes nothing; peer.rs,
written by hand for this, where rustc is there; JuteDecode.java, ZooKeeper's own record classes, where there are javac
and the jars of Debian's libzookeeper-java and libslf4j-java; and zkdump's check, and show, which writes to /dev/null.
Each runs --times times (7), in turns and on one core, after a run whose count of messages, or last line, is checked.

It prints a table: megabytes (1,000,000 bytes) read in a CPU second, that rate divided by the peer's, CPU seconds (the
program's own and the system's), the program's own alone, and the greatest memory. Seconds are medians, or with --least,
which is for machines that others use too, the least ones.
"""

import os
import pathlib
import shutil
import statistics
import subprocess
import sys
import tempfile

from . import make_recording, timing

HERE = pathlib.Path(__file__).resolve().parent
JARS = ("zookeeper-jute.jar", "zookeeper.jar", "slf4j-api.jar", "slf4j-nop.jar")
PEER = "peer.rs"


def peer(folder):
    """The command of the peer, if it counts the messages of the stored recordings as their listings do."""
    if not shutil.which("rustc"):
        print(f"{PEER} is left out: rustc is not on the PATH")
        return None
    program = folder / "peer"
    subprocess.run(["rustc", "-O", "-C", "codegen-units=1", "--edition", "2021", HERE / "peer" / PEER, "-o", program],
                   check=True)
    for listing in sorted((timing.TOP / "captures").glob("*.show*")):
        release = ".".join(listing.suffix[len(".show"):])
        timing.run([program, *(["--profile", release] if release else [])], listing.with_suffix(".zkr"), folder / "answer")
        lines = listing.read_bytes().count(b"\n") - 1
        if (folder / "answer").read_text() != f"{lines} messages\n":
            sys.exit(f"{PEER} does not count {lines} messages, as {listing} has")
    return [program]


def jute(folder, jars):
    """The command of Java's decoder."""
    paths = [jars / name for name in JARS]
    if not shutil.which("javac") or not all(map(os.path.exists, paths)):
        print(f"JuteDecode.java is left out: javac is not on the PATH, or {jars} lacks one of {', '.join(JARS)}")
        return None
    among = ":".join(map(str, [*paths, folder]))
    subprocess.run(["javac", "-cp", among, "-d", folder, HERE / "JuteDecode.java"], check=True)
    return ["java", "-cp", among, "JuteDecode"]


class Decoder:
    """A command, how its output ends (None if that isn't checked), and the costs of its runs over one recording."""

    def __init__(self, name, command, ending):
        self.name, self.command, self.ending, self.costs = name, command, ending, []

    def check(self, recording, answer):
        cost = timing.run(self.command, recording, answer)
        with open(answer, "rb") as told:
            told.seek(0, os.SEEK_END)
            told.seek(-min(told.tell(), len(self.ending)), os.SEEK_CUR)
            if cost.status or told.read() != self.ending:
                sys.exit(f"{self.name} has status {cost.status}, and doesn't end with {self.ending}")

    def run(self, recording):
        self.costs.append(timing.good_run(self.command, recording))

    def figures(self, middle):
        """CPU seconds, the program's own, and the greatest memory."""
        return middle([cost.cpu for cost in self.costs]), middle([cost.user for cost in self.costs]), max(
            cost.peak for cost in self.costs)


def decoders(folder, words):
    """What can be run here: names, commands, and how their output ends; None is the number of messages."""
    commands = (("cat", ["cat"], b""), (PEER, peer(folder), None), ("JuteDecode.java", jute(folder, words.jars), None),
                ("zkdump check", [words.program, "check"], timing.WHOLE),
                ("zkdump show", [words.program, "show"], timing.WHOLE))
    return [decoder for decoder in commands if decoder[1]]


def measure(mix, commands, folder, words):
    """Prints the rows of one mix."""
    recording = folder / "recording"
    size, messages = make_recording.write(recording, mix, words.megabytes)
    each = [Decoder(name, command, b"%d messages\n" % messages if ending is None else ending)
            for name, command, ending in commands]
    for decoder in each:
        decoder.check(recording, folder / "answer")
    for _ in range(words.times):
        for decoder in each:
            decoder.run(recording)
    rows = {decoder.name: decoder.figures(min if words.least else statistics.median) for decoder in each}
    print(f"| **{mix}**, {size / 1e6:.0f} MB, {messages:,} messages | | | | | |")
    for name, (cpu, user, peak) in rows.items():
        ratio = f"{rows[PEER][0] / cpu:.2f}" if PEER in rows else ""
        print(f"| {name} | {size / cpu / 1e6:,.0f} | {ratio} | {cpu:.3f} | {user:.3f} | {peak:.1f} |", flush=True)


def main():
    parser = timing.words(__doc__)
    parser.add_argument("--jars", type=pathlib.Path, default="/usr/share/java", help="where the jars are")
    parser.add_argument("--megabytes", type=float, default=200, help="of each recording")
    parser.add_argument("--times", type=int, default=7)
    parser.add_argument("--least", action="store_true", help="the least times in place of medians")
    words = timing.parsed(parser)
    before = timing.load()
    with tempfile.TemporaryDirectory() as name:
        folder = pathlib.Path(name)
        commands = decoders(folder, words)
        print("| Decoder | MB/s | / peer | CPU s | own s | Peak MB |\n|---|---|---|---|---|---|")
        for mix in make_recording.MIXES:
            measure(mix, commands, folder, words)
    print(f"\n{'Least' if words.least else 'Medians'} of {words.times} runs; {os.cpu_count()} cores, one used; "
          f"the load was {before} before, and {timing.load()} at the end")
    return 0


if __name__ == "__main__":
    sys.exit(main())
