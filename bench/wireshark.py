"""Measures what the plugin for Wireshark costs: tshark's time and memory over a long capture, with it and without it.

    python3 -m bench.wireshark [--libzk PATH] [--messages N] [--connections N] [--times N] [--core N]

The plugin is built as tests/wireshark builds it, with the proved library of this repository or another libzk.a. The
first capture is one connection with N messages (100,000), a packet each. tshark lists it, or makes a statistic of it.
The second has N connections (3,000) of two messages each: what memory a connection takes more where the library judges
it. What a passage of the plugin's size allocates is asked of the C library. Each run is one of --times (3), on one core;
the least time counts, and the greatest memory. The plugin has to judge every message of the first capture.

It prints a table: CPU seconds, messages a second, and the greatest memory.
"""

import argparse
import itertools
import os
import pathlib
import subprocess
import sys
import tempfile

from . import make_recording, timing

from tests.wireshark import installed_plugin
from tests.wireshark.installed_plugin import wire, zkr

# tshark's words, by what is said of them; None where the plugin isn't there.
RUNS = (("tshark without the plugin", None), ("with it", ()), ("with it, no verdict", ("-o", "zookeeper.strict:FALSE")),
        ("with it, response times", ("-q", "-z", "zookeeper,srt")), ("with it, two passes, all fields", ("-2", "-V")))

PASSAGE = r"""
#include <malloc.h>
#include <stdio.h>
#include "verdict.h"
static size_t used(void) { struct mallinfo2 now = mallinfo2(); return now.uordblks + now.hblkhd; }
int main(void) {
    struct zk_through through = ZK_ZEROS;
    size_t before = used();
    uint32_t status = zk_through_new(&through, 4194304, 4194304, VERDICT_WAITING, ZK_PROFILE_37);
    printf("%zu bytes\n", used() - before);
    zk_through_free(&through);
    return (int)status;
}
"""


def passage(folder, libzk):
    """What a passage takes at once."""
    program, include = folder / "passage", f"-I{installed_plugin.TOP / 'include'}"
    subprocess.run(["cc", "-x", "c", "-", "-x", "none", include, f"-I{installed_plugin.SOURCES}", "-o", program, libzk],
                   input=PASSAGE.encode(), check=True)
    return subprocess.run([program], capture_output=True, text=True, check=True).stdout.strip()


def long_capture(folder, count):
    """A capture of one connection with at least this number of messages, and their number."""
    recording, per_megabyte = folder / "recording", 9_900
    make_recording.write(recording, "small", count // per_megabyte + 1)
    cutter, frames = zkr.Cutter(), []
    for piece in installed_plugin.pieces_of(recording):
        frames += [zkr.Piece(frame.side, None, len(frame.payload).to_bytes(4, "big") + frame.payload)
                   for frame in cutter.take(piece)]
    frames = frames[:count]
    return installed_plugin.capture_of(frames), len(frames)


def short_connections(count):
    """A capture of this number of connections, each of a connect request and its response."""
    recording = installed_plugin.TOP / "captures" / "kazoo_basic.zkr"
    sent = list(wire.conversation(list(itertools.islice(installed_plugin.pieces_of(recording), 2))))
    return wire.pcap([packet for at in range(count) for packet in installed_plugin.packed(sent, client=2200 + at)])


class Measured:
    """tshark over a capture, as the user that may load plugins of its own folder, on this core."""

    def __init__(self, plugin, folder, times):
        self.plugin, self.times, self.empty, self.capture = plugin, times, folder / "empty", folder / "capture.pcap"
        self.empty.mkdir()

    def command(self, words):
        home = self.empty if words is None else self.plugin.home
        drop = ["setpriv", f"--reuid={installed_plugin.NOBODY}", f"--regid={installed_plugin.NOBODY}", "--clear-groups"]
        return [*(drop if os.geteuid() == 0 else []), "env", f"HOME={home}", "tshark", "-r", self.capture,
                *(words or ())]

    def check(self, count):
        """Whether the library judges this number of messages, and refuses none."""
        words = ("-Y", "zookeeper.verdict == 0", "-T", "fields", "-e", "zookeeper.verdict")
        found = subprocess.run(self.command(words), capture_output=True, text=True, check=False).stdout
        if found != "0\n" * count:
            sys.exit(f"of {count} messages {found.count('0')} are judged")

    def run(self, words):
        """The least CPU seconds, and the greatest memory."""
        command = self.command(words)
        costs = [timing.run(command, os.devnull) for _ in range(self.times)]
        if failed := [cost.status for cost in costs if cost.status]:
            sys.exit(f"tshark ended with status {failed[0]}: {words}")
        return min(cost.cpu for cost in costs), max(cost.peak for cost in costs)

    def take(self, capture):
        self.capture.write_bytes(capture)
        self.capture.chmod(0o644)


def main():
    parser = argparse.ArgumentParser(description=__doc__, formatter_class=argparse.RawDescriptionHelpFormatter)
    parser.add_argument("--libzk", type=lambda path: pathlib.Path(path).resolve())
    parser.add_argument("--messages", type=int, default=100_000)
    parser.add_argument("--connections", type=int, default=3_000)
    parser.add_argument("--times", type=int, default=3)
    parser.add_argument("--core", type=int, help="the core that all runs use (the last one)")
    words = parser.parse_args()
    if missing := installed_plugin.missing(words.libzk):
        sys.exit(f"{', '.join(missing)} is not here")
    os.sched_setaffinity(0, {max(os.sched_getaffinity(0)) if words.core is None else words.core})
    with tempfile.TemporaryDirectory() as folder:
        measured = Measured(installed_plugin.Plugin(folder, words.libzk), pathlib.Path(folder), words.times)
        measured.empty.chmod(0o755)
        capture, count = long_capture(pathlib.Path(folder), words.messages)
        measured.take(capture)
        measured.check(count)
        print(f"| {count:,} messages, a packet each | CPU s | messages/s | Peak MB |\n|---|---|---|---|")
        for name, options in RUNS:
            cpu, peak = measured.run(options)
            print(f"| {name} | {cpu:.2f} | {count / cpu:,.0f} | {peak:.0f} |", flush=True)
        measured.take(short_connections(words.connections))
        (_, judged), (_, other) = measured.run(()), measured.run(("-o", "zookeeper.strict:FALSE"))
        each = (judged - other) * 1e3 / words.connections
        told = f"{judged:.0f}, {other:.0f}: {each:.1f} KB each"
        print(f"| {words.connections:,} connections: judged, not judged | | | {told} |")
        libzk = words.libzk or pathlib.Path(folder, "libzk.a")
        print(f"| a passage | | | {passage(pathlib.Path(folder), libzk)} |")
    print(f"\nThe load was {timing.load()} at the end.")


if __name__ == "__main__":
    main()
