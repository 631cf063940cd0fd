"""Proves and builds the program zkdump, and then runs it with these arguments: what ./zkdump calls.

    build_program.py FOLDER [ARGUMENT ..]

FOLDER is the repository. Crates are proved in the order of crates.txt's uses; those that don't use each other are
proved side by side, as far as there are processors and memory. `rt check` keeps every other `rt` out of the crates that
it uses, so each further check has a copy of the sources, a lane; what it has proved is then copied to all lanes. The
old program stays until the new one is built. The progress is reported on standard error.
"""

import concurrent.futures
import fcntl
import os
import pathlib
import shutil
import signal
import subprocess
import sys
import tempfile
import threading
import time

PROGRAM = "zkdump"
CHECK_MEMORY = 4 << 30      # the most memory of a check, and the part of it that each of its jobs takes
JOB_MEMORY = 3 << 29
MOST_LANES = 4


def say(text):
    print(f"zkdump: {text}", file=sys.stderr, flush=True)


def crates_below(text, top):
    """`top` and the crates that it is built on: what each uses of them, by name; lowest first. `text` is a
    crates.txt."""
    uses = {}
    for line in text.splitlines():
        words, colon, used = line.partition("#")[0].partition(":")
        if colon and words.split():
            uses[words.split()[0]] = used.split()
    found = {}

    def add(name):
        if name in uses and name not in found:
            for below in uses[name]:
                add(below)
            found[name] = [below for below in uses[name] if below in uses]
    add(top)
    return found


def memory_left():
    """The bytes of memory that are available; enough for one check, where the system doesn't say."""
    try:
        with open("/proc/meminfo", encoding="ascii") as lines:
            return next(int(line.split()[1]) * 1024 for line in lines if line.startswith("MemAvailable:"))
    except (OSError, StopIteration):
        return CHECK_MEMORY


class Failed(Exception):
    """A crate that was not proved."""


class Build:
    """The crates, the lanes in which they are proved, and the progress."""

    def __init__(self, top):
        self.top, self.crate = top, top / "crates" / PROGRAM
        self.log, self.took = self.crate / "build.log", self.crate / "out" / "took"
        self.uses = crates_below((top / "crates.txt").read_text(), PROGRAM)
        self.processors = len(os.sched_getaffinity(0))
        self.jobs = max(1, min(self.processors, memory_left() // JOB_MEMORY))
        self.begun, self.writing, self.children, self.is_over = 0, threading.Lock(), set(), False

    def lane_count(self):
        """How many checks may run side by side."""
        return max(1, min(self.processors // 2, memory_left() // CHECK_MEMORY, MOST_LANES))

    def chain_size(self, name):
        """How many bytes of sources are on the longest chain of crates from this one up."""
        above = [self.chain_size(other) for other, used in self.uses.items() if name in used]
        return sum(file.stat().st_size for file in self.sources(name)) + max(above, default=0)

    def sources(self, name):
        folder = self.top / "crates" / name
        return [file for part in ("src", "specs", "proofs") for file in (folder / part).rglob("*") if file.is_file()]

    def run(self):
        """Proves all, and builds the program."""
        started = time.monotonic()
        say("the program is not built, or older than a source, so all is proved and built first.")
        say(f"The last time this took {self.took.read_text().strip()}; crates that are proved already take seconds."
            if self.took.is_file() else "The first time this takes long: README.md says how long.")
        self.log.write_text("")
        for left in self.out().glob("lanes-*"):
            shutil.rmtree(left, ignore_errors=True)
        with tempfile.TemporaryDirectory(prefix="lanes-", dir=self.out()) as room:
            self.prove_all([self.top, *(self.lane(pathlib.Path(room) / str(number))
                                        for number in range(1, self.lane_count()))])
        self.replace_program()
        seconds = round(time.monotonic() - started)
        self.took.write_text(f"{seconds} s ({time.strftime('%F')}, {os.uname().nodename}, {self.processors} cores)\n")
        self.log.unlink()
        say(f"all of it took {seconds} s.")

    def out(self):
        (self.crate / "out").mkdir(exist_ok=True)
        return self.crate / "out"

    def lane(self, folder):
        """A copy of the sources of all crates below the program, with their lines of crates.txt, since `rt` needs a
        folder for each line."""
        folder.mkdir()
        lines = (self.top / "crates.txt").read_text().splitlines(keepends=True)
        (folder / "crates.txt").write_text("".join(line for line in lines if line.split(":")[0].strip() in self.uses))
        for name in self.uses:
            shutil.copytree(self.top / "crates" / name, folder / "crates" / name, symlinks=True,
                            ignore=lambda at, names: {"out", "build.log"}.intersection(names))
            self.give(name, self.top, folder)
        return folder

    def give(self, name, lane, other):
        """Copies to another lane what was proved of a crate in this one: its library, and what a later check begins
        with. It keeps every `rt` out of the crate meanwhile, as `rt` itself does. What can't be copied, `rt` makes
        again."""
        made, to = lane / "crates" / name, other / "crates" / name
        held = [os.open(folder, os.O_RDONLY) for folder in (made, to)]
        try:
            for each in held:
                fcntl.flock(each, fcntl.LOCK_EX)
            for part in ("out/rlib", "out/incremental"):
                shutil.rmtree(to / part, ignore_errors=True)
                if (made / part).is_dir():
                    shutil.copytree(made / part, to / part, symlinks=True, copy_function=self.link_or_copy)
        except OSError:
            for part in ("out/rlib", "out/incremental"):
                shutil.rmtree(to / part, ignore_errors=True)
        finally:
            for each in held:
                os.close(each)

    @staticmethod
    def link_or_copy(one, other):
        """Links a file, if it is one of those that `rt` replaces and never changes; else copies it."""
        try:
            if one.endswith(".oantt") or "/out/rlib/" in one:
                os.link(one, other)
                return
        except OSError:
            pass
        shutil.copy2(one, other)

    def prove_all(self, lanes):
        """Proves all crates below the program. A crate begins once all that it uses are proved and a lane is free, the
        one with the longest chain above it first. It gets all jobs but those of the other crates that are being proved
        or begin with it, which get one each."""
        free, done, running = list(lanes), set(), {}
        left = sorted([name for name in self.uses if name != PROGRAM], key=self.chain_size, reverse=True)
        with concurrent.futures.ThreadPoolExecutor(len(lanes)) as pool:
            try:
                while left or running:
                    ready = [name for name in left if done.issuperset(self.uses[name])][:len(free)]
                    for at, name in enumerate(ready):
                        left.remove(name)
                        lane = free.pop(0)
                        others = len(ready) - 1 - at
                        jobs = max(1, self.jobs - sum(it[2] for it in running.values()) - others)
                        running[pool.submit(self.prove, name, lane, jobs)] = name, lane, jobs
                    for ended in concurrent.futures.wait(running, return_when=concurrent.futures.FIRST_COMPLETED).done:
                        name, lane, _ = running.pop(ended)
                        ended.result()
                        for other in lanes:
                            if other is not lane:
                                self.give(name, lane, other)
                        done.add(name)
                        free.append(lane)
                        free.sort(key=lanes.index)
            except BaseException:
                self.end_children()
                raise

    def prove(self, name, lane, jobs):
        """Proves a crate in a lane, and has its library built there for the crates above."""
        begun = self.report_begin(name)
        words = "--jobs", str(jobs)
        self.call(name, lane, "check", *words)
        if any(name in used for used in self.uses.values()):
            self.call(name, lane, "lib", *words)
        say(f"{name} took {round(time.monotonic() - begun)} s")

    def report_begin(self, name):
        with self.writing:
            self.begun += 1
            say(f"proving {name}, crate {self.begun} of {len(self.uses)}")
        return time.monotonic()

    def call(self, name, lane, *words, file=os.devnull):
        """Runs `rt` in a crate's folder with this file as its input, and writes what it prints to the log."""
        with tempfile.TemporaryFile() as said, open(file, "rb") as stdin:
            child = subprocess.Popen(["rt", *words], cwd=lane / "crates" / name, stdin=stdin, stdout=said,
                                     stderr=subprocess.STDOUT, start_new_session=True)
            with self.writing:
                self.children.add(child)
                if self.is_over:
                    self.end(child)
            status = child.wait()
            with self.writing:
                self.children.remove(child)
                said.seek(0)
                with open(self.log, "ab") as log:
                    log.write(f"== {name}: rt {' '.join(words)}\n".encode())
                    shutil.copyfileobj(said, log)
        if status:
            raise Failed(name)

    @staticmethod
    def end(child):
        if child.poll() is None:
            os.killpg(child.pid, signal.SIGTERM)

    def end_children(self):
        """Ends the checks that still run, after one has failed or a signal came."""
        with self.writing:
            self.is_over = True
            children = list(self.children)
            for child in children:
                self.end(child)
        for child in children:
            child.wait()

    def replace_program(self):
        """Proves the program's own crate, builds it, and has it check the stored run, since the status of `rt run` is
        that of the program. If anything fails, the program that was there is put back."""
        program, before = self.out() / PROGRAM, self.out() / f"{PROGRAM}.before"
        if before.exists():
            os.replace(before, program)
        if program.exists():
            shutil.copy2(program, before)
        begun = self.report_begin(PROGRAM)
        try:
            self.call(PROGRAM, self.top, "run", "--", "check", file=self.crate / "stdin")
            program.touch()
        except BaseException:
            self.end_children()
            if before.exists():
                os.replace(before, program)
            raise
        if before.exists():
            before.unlink()
        say(f"{PROGRAM} took {round(time.monotonic() - begun)} s")


def main():
    if len(sys.argv) < 2 or not os.path.isfile(f"{sys.argv[1]}/crates.txt"):
        say("usage: build_program.py FOLDER [ARGUMENT ..], where FOLDER is the repository")
        return 2

    def stop(*_):
        raise KeyboardInterrupt
    for number in (signal.SIGTERM, signal.SIGHUP):
        signal.signal(number, stop)
    try:
        build = Build(pathlib.Path(sys.argv[1]).resolve())
        build.run()
    except KeyboardInterrupt:
        say("ended before the program was built; what was proved so far is kept, for the next ./zkdump")
        return 130
    except Failed as error:
        say(f"the program could not be built, since {error} was not proved; {build.log} says why")
        return 3
    except OSError as error:
        say(f"the program could not be built: {error.filename}: {error.strerror}")
        return 3
    for number in (signal.SIGTERM, signal.SIGHUP):
        signal.signal(number, signal.SIG_DFL)
    program = str(build.out() / PROGRAM)
    os.closerange(3, 256)
    os.execv(program, [program, *sys.argv[2:]])


if __name__ == "__main__":
    sys.exit(main())
