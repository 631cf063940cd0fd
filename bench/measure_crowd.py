"""Measures how a proxy of the tools takes many clients that come at once, while others are busy.

    measure_crowd.py [--busy N] [--pause MS] [--new N] [--times N] [TOOLS ..]

N clients ask through record.py, each again MS milliseconds after its answer. Then others come all at once, and each
asks too. It prints, in milliseconds, how long their first answers took from the beginning of their connections, and how
long those to the busy clients took before and meanwhile: by the clock, and in the processor time that the proxy used
until then, which others on the machine disturb less, and which the system counts in steps of some milliseconds. Server
and clients are crowd.c, which `cc` compiles. TOOLS are folders of tools, as those of two checkouts; they are measured
by turns, `--times` each, and each row has the medians of its runs. The recordings are below TMPDIR, and removed at the
end: on ext4 without a journal a new file takes longer, up to 0.5 ms, for minutes after many were removed.
TMPDIR=/dev/shm leaves the disk out.
"""

import argparse
import os
import pathlib
import statistics
import subprocess
import sys
import tempfile

from .measure_record import begin, end

HERE = pathlib.Path(__file__).resolve().parent
ALONE = 2000                # the milliseconds that the busy clients are alone
FIGURES = {"first": (0.5, 1), "before": (0.5, 0.99, 1), "meanwhile": (0.5, 0.99, 1)}
NAMES = {0.5: "p50", 0.99: "p99", 1: "at most"}


def measured(crowd, tools, words, folder):
    """A run: by the clock and by the processor, the figures of a row. The recordings stay in the folder."""
    command = [crowd, *map(str, (words.busy, words.pause, words.new, ALONE))]
    with subprocess.Popen(command, stdin=subprocess.PIPE, stdout=subprocess.PIPE, text=True) as clients:
        server = int(clients.stdout.readline())
        recorder, port = begin(tools / "record.py", server, tempfile.mkdtemp(dir=folder))
        told, _ = clients.communicate(f"{port} {recorder.pid}\n")
    end(recorder)
    if clients.returncode:
        raise SystemExit(f"crowd has ended with status {clients.returncode}")
    took = {name: ([], []) for name in FIGURES}
    for name, *values in map(str.split, told.splitlines()):
        for row, value in zip(took[name], values):
            row.append(float(value))
    return [[value for name, places in FIGURES.items() for value in spread(took[name][unit], places)]
            for unit in range(2)]


def spread(took, places):
    """Of these times those at these places, of which 0 is the least time and 1 the greatest."""
    ordered = sorted(took) or [float("nan")]
    return [ordered[min(len(ordered) - 1, int(len(ordered) * place))] for place in places]


def main():
    parser = argparse.ArgumentParser(description=__doc__, formatter_class=argparse.RawDescriptionHelpFormatter)
    parser.add_argument("--busy", type=int, default=300)
    parser.add_argument("--pause", type=float, default=0)
    parser.add_argument("--new", type=int, default=1000)
    parser.add_argument("--times", type=int, default=3)
    parser.add_argument("tools", metavar="TOOLS", nargs="*", type=pathlib.Path, default=[HERE.parent / "tools"])
    words = parser.parse_args()
    runs = [[] for _ in words.tools]
    with tempfile.TemporaryDirectory() as folder:
        crowd = pathlib.Path(folder, "crowd")
        subprocess.run(["cc", "-O2", "-std=c11", "-pthread", "-o", crowd, HERE / "crowd.c"], check=True)
        for _ in range(words.times):
            for row, tools in zip(runs, words.tools):
                row.append(measured(crowd, tools, words, folder))
    columns = [f"{name} {NAMES[place]}" for name, places in FIGURES.items() for place in places]
    print("| | by | " + " | ".join(columns) + " |\n|" + "---|" * (2 + len(columns)))
    for tools, row in zip(words.tools, runs):
        for by, found in zip(("clock", "processor"), zip(*row)):
            print(f"| {tools} | {by} |", " | ".join(f"{statistics.median(each):,.0f}" for each in zip(*found)), "|")
    print(f"load {os.getloadavg()[0]:.1f}, {os.cpu_count()} processors")
    return 0


if __name__ == "__main__":
    sys.exit(main())
