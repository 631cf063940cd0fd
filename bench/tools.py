"""Measures the tools over one recording: the processor time of each, and its greatest memory.

    tools.py [--megabytes N] [--python PATH] [--jobs N] [FOLDER]

It makes a recording of small messages (make_recording.py), one message a piece, with its times, and a capture of it, in
FOLDER or in a temporary folder. A row has a tool, the seconds of its processes in user and system mode per million
messages, the same where it reads the lines of zkdump show (ZKCOLUMNS is empty), and its greatest memory. With --jobs it
measures zkstat over 8 copies for each of N processes instead: by one process and by N, in seconds of the clock. PATH is
a Python that has numpy (/usr/bin/python3).
"""

import argparse
import os
import pathlib
import random
import resource
import shutil
import subprocess
import sys
import tempfile
import time

from tools.zkdump_tools import zkr

TOP = pathlib.Path(__file__).resolve().parent.parent
TOOLS = TOP / "tools"

PROGRAM = TOP / "crates" / "zkdump" / "out" / "zkdump"
RUNS = (("check", None), ("zkstat.py", ("{timed}",)), ("zkstat.py", ("--path", "/", "{timed}")),
        ("zkjson.py", ("{timed}",)), ("zkreport.py", ("--text", "{timed}")),
        ("zkreport.py", ("-o", "{page}", "{timed}")), ("pcap2zkr.py", ("--times", "{capture}", "{made}")))


def make(folder, megabytes):
    """The recording with its times, and the capture; how many messages there are."""
    subprocess.run([sys.executable, TOP / "bench" / "make_recording.py", "small", str(megabytes), folder / "small.zkr"],
                   check=True, stdout=subprocess.DEVNULL)
    chance, moment, count, cutter = random.Random(5), 1763843467120.0, 0, zkr.Cutter(zkr.LARGEST_FRAMES)
    with open(folder / "small.zkr", "rb") as source, open(folder / "timed.zkr", "wb") as made, \
            open(folder / "timed.zkr.times", "w", encoding="ascii") as times:
        reader = zkr.Reader(source)
        made.write(reader.head.to_bytes())
        for piece in reader:
            for frame in cutter.take(piece):
                moment += chance.random() * 0.8
                made.write(reader.head.piece(frame.side, 0, len(frame.payload).to_bytes(4, "big") + frame.payload))
                times.write(f"{moment:.3f}\n")
                count += 1
    subprocess.run([sys.executable, TOOLS / "zkr2pcap.py", folder / "timed.zkr", folder / "timed.pcap"], check=True)
    return count


def spent(words, **more):
    """The processor time of a command, and its greatest memory in megabytes of 1,000,000 bytes."""
    before = resource.getrusage(resource.RUSAGE_CHILDREN)
    done = subprocess.run(["/usr/bin/env", "time", "-f", "%M", *map(str, words)], stdout=subprocess.DEVNULL,
                          stderr=subprocess.PIPE, text=True, check=False, **more)
    if done.returncode:
        raise SystemExit(f"{' '.join(map(str, words))} ended with status {done.returncode}: {done.stderr.strip()}")
    after = resource.getrusage(resource.RUSAGE_CHILDREN)
    return after.ru_utime + after.ru_stime - before.ru_utime - before.ru_stime, int(done.stderr.split()[-1]) * 1024 / 1e6


def one_core(python, folder, count):
    print(f"{count} messages; seconds per million, the same over lines, megabytes")
    for tool, words in RUNS:
        found = []
        for environment in ({}, {"ZKCOLUMNS": ""}):
            for name in (*folder.glob("page*"), *folder.glob("made*")):
                name.unlink()
            names = {name: folder / name for name in ("page", "made")}
            names.update(timed=folder / "timed.zkr", capture=folder / "timed.pcap")
            if words is None:
                with open(folder / "timed.zkr", "rb") as recording:
                    found.append(spent([PROGRAM, "check"], stdin=recording))
            else:
                command = [python, TOOLS / tool, *(word.format(**names) for word in words)]
                found.append(spent(command, env={**os.environ, **environment}))
        figures = [f"{seconds / count * 1e6:8.2f}" for seconds, _ in found]
        print(f"{' '.join([tool, *(words or ())[:-1]]):<24}", *figures, f"{found[0][1]:6.0f}", flush=True)


def many_cores(python, folder, jobs):
    fleet = folder / "fleet"
    fleet.mkdir(exist_ok=True)
    for number in range(8 * jobs):
        for end in ("", ".times"):
            shutil.copy(folder / f"timed.zkr{end}", fleet / f"{number}.zkr{end}")
    outputs = []
    for count in (1, jobs):
        begun = time.monotonic()
        outputs.append(subprocess.run([python, TOOLS / "zkstat.py", "--json", "--jobs", str(count), fleet],
                                      stdout=subprocess.PIPE, check=True).stdout)
        print(f"{count} processes: {time.monotonic() - begun:.2f} s", flush=True)
    if outputs[0] != outputs[1]:
        sys.exit("OTHER OUTPUT")
    print("the same output")


def main():
    parser = argparse.ArgumentParser(description=__doc__, formatter_class=argparse.RawDescriptionHelpFormatter)
    parser.add_argument("--megabytes", type=int, default=100)
    parser.add_argument("--python", default="/usr/bin/python3")
    parser.add_argument("--jobs", type=int)
    parser.add_argument("folder", nargs="?", type=pathlib.Path)
    words = parser.parse_args()
    with tempfile.TemporaryDirectory() as temporary:
        folder = words.folder or pathlib.Path(temporary)
        folder.mkdir(exist_ok=True)
        count = make(folder, words.megabytes)
        if words.jobs:
            many_cores(words.python, folder, words.jobs)
        else:
            one_core(words.python, folder, count)


if __name__ == "__main__":
    main()
