"""Measures the library for C: what the fields of messages cost, its size, and a client's round trip.

    python3 -m bench.measure_library [--program PATH] [--library PATH] [--messages N] [--rounds N] [--core N]

The small mix (make_recording.py) of --messages messages (1,000,000) is read by `zkdump check`, and in C by zk_talk_step
alone, by zk_talk_step and zk_talk_fields, and by a decoder by hand (hand.h), whose fields have to be the same. Of each
the instructions are counted, by perf where it can count them, else by valgrind's callgrind, and the CPU seconds of the
fastest of five runs. Allocations are counted between the first message and the last.

A client reads a node --rounds times (20,000), one request at a time: examples/client.c, and apache.c where Debian's
libzookeeper-mt-dev is there. The server is tests/library/small_server.py.
"""

import os
import pathlib
import re
import shutil
import subprocess
import sys
import tempfile

from packaging import make_library
from packaging.build_library import LIBRARY
from . import make_recording, timing

TOP = timing.TOP
HERE = TOP / "bench"

WAYS = ("step", "fields", "hand")
TIMES = 5


def compiled(program, source, *words):
    flags = ("-O2", "-std=c11", f"-I{TOP / 'include'}", f"-I{HERE}")
    if any(pathlib.Path(word).name == "libzk_c.a" for word in words):  # the proved library alone
        flags += ("-DZK_BY_VALUE",)
    subprocess.run(["cc", *flags, "-o", program, source, *words], check=True)
    return program


def counter(folder):
    """The words that count a command's instructions, and the expression that finds their number."""
    words = ["perf", "stat", "-x,", "-e", "instructions:u"]
    if shutil.which("perf"):
        found = subprocess.run([*words, "true"], capture_output=True, text=True)
        if re.search(r"^\d+,.*instructions", found.stderr, re.M):
            return "perf stat", words, r"^(\d+),.*instructions"
    if shutil.which("valgrind"):
        words = ["valgrind", "--tool=callgrind", f"--callgrind-out-file={folder / 'callgrind'}"]
        return "callgrind", words, r"Collected : (\d+)"
    return "nothing", [], ""


def instructions(count, command, recording):
    """How many instructions the command takes; 0 where they can't be counted."""
    _, words, number = count
    if not words:
        return 0
    with open(recording, "rb") as source:
        found = subprocess.run([*words, *map(str, command)], stdin=source, capture_output=True, text=True, check=True)
    return int(re.search(number, found.stderr, re.M)[1])


def answer(command, recording):
    """What a way prints: the messages, the fields, their sum, the seconds and the allocations."""
    with open(recording, "rb") as source:
        return subprocess.run(command, stdin=source, capture_output=True, text=True, check=True).stdout.split()


def measure_fields(folder, archive, program, wanted):
    """Prints the rows of all ways."""
    recording, count = folder / "recording", counter(folder)
    _, messages = make_recording.write(folder / "some", "small", 5)
    size, messages = make_recording.write(recording, "small", 5 * wanted / messages)
    wrapped = compiled(folder / "fields", HERE / "fields.c", archive, "-Wl,--wrap=malloc,--wrap=realloc")
    rows = [("zkdump check", [program, "check"])] + [(way, [wrapped, way]) for way in WAYS]
    answers = {way: answer([wrapped, way, "sum"], recording) for way in WAYS}
    if answers["fields"][:3] != answers["hand"][:3] or int(answers["step"][0]) != messages:
        sys.exit(f"the decoder by hand finds {answers['hand'][:3]}, and the library {answers['fields'][:3]}")
    print(f"small, {size / 1e6:.0f} MB, {messages:,} messages, {int(answers['fields'][1]):,} fields; "
          f"instructions counted by {count[0]}\n")
    print("| Way | Instructions a message | / check | CPU s | Allocations |\n|---|---|---|---|---|")
    first = None
    for name, command in rows:
        counted = instructions(count, command, recording) / messages
        first = first or counted
        seconds = min(timing.good_run(command, recording).cpu for _ in range(TIMES))
        growths = answers[name][4] if name in answers else ""
        print(f"| {name} | {counted:.0f} | {counted / (first or 1):.2f} | {seconds:.3f} | {growths} |", flush=True)
    print(f"\na talk of the usual limits asks for {int(answers['step'][5]):,} bytes when it is made")


def measure_sizes(archive, shared):
    """Prints what the library takes of a disk, and of a program."""
    found = subprocess.run(["size", shared], capture_output=True, text=True, check=True).stdout.splitlines()[-1].split()
    print(f"libzk.a {archive.stat().st_size:,} bytes; {shared.name} {shared.stat().st_size:,} bytes, "
          f"of these {int(found[0]):,} of code and constants")


def clients(folder, archive, port, rounds):
    """The clients that can be run here: names, and words."""
    made = compiled(folder / "client", TOP / "examples" / "client.c", archive)
    yield "examples/client.c", [made, "127.0.0.1", port, "/a", "data", str(rounds)]
    if not pathlib.Path("/usr/include/zookeeper/zookeeper.h").exists():
        print("apache.c is left out: Debian's libzookeeper-mt-dev isn't there")
        return
    made = compiled(folder / "apache", HERE / "apache.c", "-lzookeeper_mt")
    yield "the Apache client for C", [made, f"127.0.0.1:{port}", "/a", str(rounds)]


def measure_rounds(folder, archive, rounds):
    """Prints the mean round trip of each client."""
    server = subprocess.Popen([sys.executable, "-m", "tests.library.small_server"], cwd=TOP, stdout=subprocess.PIPE, text=True)
    try:
        port = server.stdout.readline().strip()
        for name, words in clients(folder, archive, port, rounds):
            said = [subprocess.run(words, capture_output=True, text=True, check=True).stdout for _ in range(TIMES)]
            taken = min(float(re.search(r"getData: ([\d.]+) microseconds", each)[1]) for each in said)
            print(f"{name}: {taken:.1f} microseconds a round trip, the least mean of {TIMES} runs of {rounds:,}")
    finally:
        server.terminate()
        server.wait()


def main():
    parser = timing.words(__doc__)
    parser.add_argument("--library", type=pathlib.Path, default=LIBRARY, help="the proved library")
    parser.add_argument("--messages", type=int, default=1_000_000)
    parser.add_argument("--rounds", type=int, default=20_000)
    cores = os.sched_getaffinity(0)
    words = timing.parsed(parser)
    before = timing.load()
    with tempfile.TemporaryDirectory() as name:
        folder = pathlib.Path(name)
        archive, shared = make_library.make(folder, words.library)
        measure_fields(folder, archive, words.program, words.messages)
        measure_sizes(archive, shared)
        os.sched_setaffinity(0, cores)
        measure_rounds(folder, archive, words.rounds)
    print(f"\nThe load was {before} before, and {timing.load()} at the end")
    return 0


if __name__ == "__main__":
    sys.exit(main())
