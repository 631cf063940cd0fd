"""Does the same work with many recordings: over the cores of this machine, or over the workers of a Dask scheduler.

Recordings that follow one another are a chunk, whatever the number of workers. A tool's function `partial` gives what
is found of a chunk, and the tool merges that in the order of the recordings, so what it prints is the same for any
number of workers. A chunk whose worker dies is done again, recording by recording. One that can't be read has an Unread
for its result, and so has one whose worker died three times.
"""

import collections
import concurrent.futures
import importlib.util
import multiprocessing
import os
import pathlib
import signal
import sys
import time
from concurrent.futures.process import BrokenProcessPool
from typing import NamedTuple

from . import zkr

PACKAGE = pathlib.Path(__file__).resolve().with_name("__init__.py")
AHEAD = 4           # for each worker, how many chunks may be done before one that comes first
LEAST_CHUNK, CHUNKS, MOST_IN_CHUNK = 1 << 23, 2048, 1024
UNITS = ((1 << 30, "GB"), (1 << 20, "MB"), (1 << 10, "kB"))


class Unread(NamedTuple):
    """In place of a result: why there is none."""
    reason: str


class Died(Exception):
    """The worker of a recording has died."""


def add_words(parser):
    """Adds the arguments that say who does the work."""
    parser.add_number("--jobs", range(1, 1025), help="read recordings at once, by N processes")
    parser.add_argument("--scheduler", metavar="ADDRESS", help="the same by the workers of this Dask scheduler, which "
                        "have to see the recordings and these tools by the same paths")


def is_asked(words):
    """Whether these arguments ask for it, or name a folder or a list, whose recordings are read one by one."""
    return bool(words.jobs or words.scheduler or any(map(names_several, words.inputs)))


def names_several(path):
    """Whether an input is a folder, or @LIST."""
    return path.startswith("@") or os.path.isdir(path)


def expanded(inputs):
    """The files that these inputs name, each once, whatever links lead to it. A ValueError where an input has none."""
    found = {}
    for each in inputs:
        for path in files_of(each):
            found.setdefault(zkr.real_path(path), path)
    return list(found.values())


def files_of(path):
    if path.startswith("@"):
        return paths_of(path[1:])
    return recordings_in(path) if os.path.isdir(path) else [path]


def paths_of(name):
    """The paths in a list."""
    if zkr.is_recording(name):
        raise ValueError(f"{name} is a recording, and a list has a path on each line: leave out the @")
    if zkr.begins_with(name, zkr.CAPTURES):
        raise ValueError(f"{name} is a capture, or packed with gzip, and a list has a path on each line: pcap2zkr.py "
                         "makes recordings of a capture")
    with open(name, encoding="utf-8", errors="surrogateescape") as lines:
        found = [line.rstrip("\n") for line in lines if line.strip()]
    if not found:
        raise ValueError(f"{name} is empty: a list has a path on each line")
    return found


def recordings_in(folder):
    """The recordings in a folder and below it, also where a link leads. A folder that can't be read is one of them, and
    so becomes a row."""
    found, seen = [], {zkr.real_path(folder)}
    for place, folders, names in os.walk(folder, onerror=lambda error: found.append(error.filename), followlinks=True):
        found += [os.path.join(place, name) for name in names if name.endswith(".zkr")
                  or name.endswith(".zkr.gz") and name[:-len(".gz")] not in names]
        below = {zkr.real_path(os.path.join(place, name)): name for name in sorted(folders, reverse=True)}
        folders[:] = sorted(name for path, name in below.items() if path not in seen)
        seen.update(below)
    if not found:
        raise ValueError(f"{folder} has no recordings: NAME.zkr in it or in folders below")
    return sorted(found)


class Strict(zkr.Words):
    """Arguments in a worker, which has no one to complain to."""

    def error(self, message):
        raise ValueError(message)


def work(tool, options, paths):
    """What a worker does: the partial result of a chunk, by the module of this name."""
    return importlib.import_module(tool).partial(options, paths)


def attempt(function, path):
    """What a function returns for a recording, or an Unread."""
    try:
        if pathlib.Path(path).is_fifo():
            raise ValueError("this is a pipe, which may never end: name a file")
        return function(path)
    except OSError as error:
        other = error.filename not in (None, path)
        return Unread(f"{os.fsdecode(error.filename)}: {error.strerror}" if other else error.strerror or str(error))
    except ValueError as error:
        return Unread(str(error).removeprefix(f"{path}: "))
    except MemoryError:
        return Unread("out of memory")


def executor():
    """One process, which Ctrl-C ends without a word."""
    return concurrent.futures.ProcessPoolExecutor(1, multiprocessing.get_context("forkserver"), signal.signal,
                                                  (signal.SIGINT, signal.SIG_DFL))


class Processes:
    """Processes of this machine. Each is an executor of its own, so that of a dead one it is known what it did."""

    tries = 3

    def __init__(self, count):
        self.count, self.most, self.idle, self.busy = count, count, [], {}

    def submit(self, tool, options, paths):
        process = self.idle.pop() if self.idle else executor()
        try:
            future = process.submit(work, tool, options, paths)
        except BrokenProcessPool:       # it died while it was idle
            process = executor()
            future = process.submit(work, tool, options, paths)
        self.busy[future] = process
        return future

    def wait(self):
        """The futures that are done, one at least."""
        done, _ = concurrent.futures.wait(self.busy, return_when=concurrent.futures.FIRST_COMPLETED)
        for future in done:
            process = self.busy.pop(future)
            if not isinstance(future.exception(), BrokenProcessPool):
                self.idle.append(process)
        return done

    def result(self, future):
        try:
            return future.result()
        except BrokenProcessPool:
            raise Died from None

    def close(self):
        for process in (*self.idle, *self.busy.values()):
            process.shutdown(cancel_futures=True)


class Here:
    """This process: what it is given is done at once."""

    tries = count = most = 1

    def __init__(self):
        self.number, self.task = 0, None

    def submit(self, *task):
        self.number, self.task = self.number + 1, task
        return self.number

    def wait(self):
        return [self.number]

    def result(self, _):
        return work(*self.task)

    def close(self):
        pass


class Dask:
    """The workers of a Dask scheduler, which does a dead worker's tasks again by itself, three times."""

    tries = 1

    def __init__(self, address):
        try:
            import distributed
        except ImportError:
            raise OSError("--scheduler needs Dask: on Debian the package python3-distributed") from None
        self.distributed, self.busy = distributed, set()
        self.client = distributed.Client(address)
        self.count = max(1, sum(self.client.nthreads().values()))
        self.most = 2 * self.count

    def submit(self, tool, options, paths):
        def task(package, path, *words):        # a function within a function is sent as its code
            if package not in sys.modules:
                found = importlib.util.spec_from_file_location(package, path)
                sys.modules[package] = importlib.util.module_from_spec(found)
                found.loader.exec_module(sys.modules[package])
            return importlib.import_module(f"{package}.fleet").work(*words)
        future = self.client.submit(task, __package__, str(PACKAGE), tool, options, paths, pure=False)
        self.busy.add(future)
        return future

    def wait(self):
        done = self.distributed.wait(self.busy, return_when="FIRST_COMPLETED").done
        self.busy -= done
        return done

    def result(self, future):
        try:
            return future.result()
        except self.distributed.scheduler.KilledWorker:
            raise Died from None

    def close(self):
        self.client.close()


def of_inputs(parser, words, tool, *more, together=False):
    """The partial results of the inputs of a tool, whose workers get its arguments and `more`."""
    if getattr(words, "recording", None) or getattr(words, "times", None):
        parser.error("--jobs, --scheduler and folders take the times beside each recording: leave out --recording and "
                     "--times-file")
    if not words.inputs:
        parser.error("--jobs and --scheduler need files: name them, or their folder")
    return results(words, tool, [*sys.argv[1:], *more], expanded(words.inputs), together)


def amount(size):
    """A number of bytes, as it is shown."""
    for unit, name in UNITS:
        if size >= unit:
            return f"{size / unit:.1f} {name}"
    return f"{size} bytes"


class Shown:
    """Shows how many recordings and bytes are done, and the time that is left."""

    def __init__(self, what, paths):
        self.progress, self.begun, self.done, self.bytes = zkr.Progress(what), time.monotonic(), 0, 0
        self.sizes = dict(zip(paths, map(size_of, paths)))
        self.all = sum(self.sizes.values())

    def add(self, paths):
        self.done, self.bytes = self.done + len(paths), self.bytes + sum(self.sizes[path] for path in paths)
        self.progress.show(self.text)

    def text(self):
        spent = time.monotonic() - self.begun
        left = spent * (self.all - self.bytes) / self.bytes if self.bytes else 0
        return (f"{self.done:,} of {len(self.sizes):,} recordings, {amount(self.bytes)} of {amount(self.all)}, "
                f"{int(left) // 3600}:{int(left) // 60 % 60:02}:{int(left) % 60:02} left")


def size_of(path):
    try:
        return os.stat(path).st_size
    except (OSError, ValueError):
        return 0


def chunks(paths, sizes):
    """The recordings in chunks, so that there are some thousands at most."""
    largest, found, size = max(LEAST_CHUNK, sum(sizes.values()) // CHUNKS), [], 0
    for path in paths:
        size += sizes[path]
        if not found or size > largest or len(found[-1]) == MOST_IN_CHUNK:
            found.append([])
            size = sizes[path]
        found[-1].append(path)
    return found


class Task(NamedTuple):
    """Recordings that are done together: those of a chunk, or one of these; `tries` is how often it was done before."""
    chunk: int
    part: int
    paths: list
    tries: int = 0


def results(words, tool, options, paths, together=True):
    """The partial results of these recordings, each with the paths of its recordings, in their order. Where they aren't
    done `together`, each is a chunk."""
    shown = Shown(tool.rpartition(".")[2], paths)
    parts = chunks(paths, shown.sizes) if together else [[path] for path in paths]
    waiting, busy, found = collections.deque(Task(number, 0, each) for number, each in enumerate(parts)), {}, {}
    engine, first = Dask(words.scheduler) if words.scheduler else Processes(words.jobs) if words.jobs else Here(), 0
    try:
        while first < len(parts):
            while waiting and len(busy) < engine.most and waiting[0].chunk < first + AHEAD * engine.count:
                task = waiting.popleft()
                found.setdefault(task.chunk, {0: None})
                busy[engine.submit(tool, options, task.paths)] = task
            for future in engine.wait():
                task = busy.pop(future)
                try:
                    found[task.chunk][task.part] = task.paths, engine.result(future)
                except Died:
                    if again := tasks_again(task, engine.tries):
                        found[task.chunk].update((each.part, None) for each in again)
                        waiting.extendleft(reversed(again))
                        continue
                    died = Unread("each process that read it died, maybe for lack of memory")
                    found[task.chunk][task.part] = task.paths, died
                shown.add(task.paths)
            while first in found and None not in found[first].values():
                yield from (found[first][part] for part in sorted(found[first]))
                del found[first]
                first += 1
        shown.progress.end()
    finally:
        engine.close()


def tasks_again(task, tries):
    """What is done again of a task whose worker has died."""
    if len(task.paths) > 1:
        return [Task(task.chunk, part, [path]) for part, path in enumerate(task.paths)]
    return [task._replace(tries=task.tries + 1)] if task.tries + 1 < tries else []
