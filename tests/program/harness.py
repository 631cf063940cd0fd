"""The program as the scripts beside this file run it, and the recordings that they make for it."""

import functools
import os
import pathlib
import signal
import tempfile

TOP = pathlib.Path(__file__).resolve().parents[2]
BUILT = TOP / "crates" / "zkdump" / "out" / "zkdump"
HEAD = b"ZKR1"


class Program:
    """Runs one program, again and again. Its input, output and errors are in three files that stay open, so a run
    takes hardly more time than the program itself."""

    def __init__(self, path, seconds=60):
        self.path = os.path.abspath(path)
        self.seconds = seconds
        self.runs = 0
        self.peak = 0
        self.environment = {}
        self.files = [tempfile.TemporaryFile() for _ in range(3)]
        self.actions = [(os.POSIX_SPAWN_DUP2, file.fileno(), number) for number, file in enumerate(self.files)]

    def run(self, words, data):
        """Standard output, standard error and status; the status is negative where a signal ended the run, and None
        where the run did not end in time."""
        for file, content in zip(self.files, (data, b"", b"")):
            number = file.fileno()
            os.ftruncate(number, 0)
            os.lseek(number, 0, os.SEEK_SET)
            os.pwrite(number, content, 0)
        process = os.posix_spawn(self.path, [self.path, *words], self.environment, file_actions=self.actions)
        late = []
        signal.signal(signal.SIGALRM, lambda *_: (late.append(1), os.kill(process, signal.SIGKILL)))
        signal.setitimer(signal.ITIMER_REAL, self.seconds)
        _, status, usage = os.wait4(process, 0)
        signal.setitimer(signal.ITIMER_REAL, 0)
        self.runs += 1
        self.peak = max(self.peak, usage.ru_maxrss)
        output, errors = (os.pread(file.fileno(), os.fstat(file.fileno()).st_size, 0) for file in self.files[1:])
        return output, errors, None if late else os.waitstatus_to_exitcode(status)


def last_line(listing):
    return listing.rstrip(b"\n").rsplit(b"\n", 1)[-1]


def piece(side, data):
    return side + len(data).to_bytes(4, "big") + data


def recording(pieces):
    """The recording of these pieces, each a side and its bytes; pieces of no bytes are left out."""
    return HEAD + b"".join(piece(side, data) for side, data in pieces if data)


@functools.lru_cache(256)
def split(data):
    """The whole pieces of a recording, and the bytes after them, which are empty where it isn't damaged."""
    pieces, at = [], len(HEAD)
    if data[:at] != HEAD:
        return [], data
    while len(data) - at >= 5 and data[at:at + 1] in (b"C", b"S"):
        size = int.from_bytes(data[at + 1:at + 5], "big")
        if not 1 <= size <= 16_777_220 or len(data) - at - 5 < size:
            break
        pieces.append((data[at:at + 1], data[at + 5:at + 5 + size]))
        at += 5 + size
    return pieces, data[at:]


def sides(pieces):
    """The bytes of the client and those of the server."""
    return [b"".join(data for who, data in pieces if who == side) for side in (b"C", b"S")]


def stored():
    """The recordings of the stored cases and of real clients: a name, the program's arguments, the recording and the
    line that a plain `check` writes of it, without what --earliest adds below it."""
    for args in sorted((TOP / "crates/zkdump/cases/check").glob("*.args")):
        source, wanted = args.with_suffix(".in"), args.with_suffix(".out")
        if source.exists() and wanted.exists():
            words = [word for word in args.read_text().split() if word != "--earliest"]
            line = wanted.read_bytes().partition(b". earliest=")[0]
            yield args.stem, words, source.read_bytes(), last_line(line)
    for path in sorted((TOP / "captures").glob("*.zkr")):
        yield path.stem, ["check"], path.read_bytes(), last_line(path.with_suffix(".show").read_bytes())
