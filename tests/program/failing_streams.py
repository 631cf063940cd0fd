"""Runs the proved program over the worked examples, on a standard input and output that pass few bytes, or fail.

    devices.py [--only WORD] [--program PATH]

tests/program/device.c, which a C compiler makes a library of, takes the place of the C library's read and write. For each
stored case of show, check, build and migrate (crates/zkdump/cases)

- steps: with reads and writes of 1 and of 7 bytes the run does the same as with all bytes at once;
- reads: if a read fails after a prefix of the input, with an input or output error or as interrupted, the run ends
  with status 3 and `zkdump: read failed`, and what it wrote is a prefix of what it writes otherwise. `show` has written
  the line of each message that is whole in the prefix, and nothing else, and `build` and `migrate` the pieces. If the
  prefix decides everything, the run is the usual one;
- writes: if a write fails, or takes no byte, after a prefix of the output, the run ends with status 3 and
  `zkdump: write failed`, and has written that prefix.

It prints what differs and one last line. The status is 0 if nothing differs. Without a C compiler it reports that, and
runs nothing.
"""

import argparse
import errno
import os
import pathlib
import shutil
import subprocess
import sys
import tempfile

from .. import left_out
from .harness import BUILT, TOP, Program

CASES = TOP / "crates" / "zkdump" / "cases"
PART = "standard input and output that fail"
READ_FAILED, WRITE_FAILED = b"zkdump: read failed\n", b"zkdump: write failed\n"
TRIES = 8  # prefixes of a case that are tried
ERRORS = (errno.EIO, errno.EINTR)


def compiled(folder):
    """The library of device.c, or None if there is no C compiler."""
    for compiler in filter(None, (os.environ.get("CC"), "cc", "gcc", "clang")):
        if shutil.which(compiler):
            library = os.path.join(folder, "device.so")
            source = pathlib.Path(__file__).with_name("device.c")
            subprocess.run([compiler, "-O2", "-Wall", "-Wextra", "-Werror", "-shared", "-fPIC", "-o", library, source],
                           check=True)
            return library
    return None


def content(path):
    return path.read_bytes() if path.exists() else b""


def prefixes(size):
    """The lengths of some prefixes of `size` bytes, each shorter than `size`: the shortest and the longest are among
    them."""
    return sorted({*range(0, size, max(1, size // TRIES)), size - 1} - {-1})


class Devices:
    """The runs of one program, and what was found of them."""

    def __init__(self, program, library):
        self.program, self.library = Program(program), library
        self.passed, self.failures = 0, []

    def run(self, words, data, **device):
        self.program.environment = {"LD_PRELOAD": self.library, **{name: str(value) for name, value in device.items()}}
        return self.program.run(words, data)

    def hold(self, name, found, right):
        self.passed += bool(right)
        if not right:
            self.failures.append(f"{name}: {found}")

    def steps(self, name, words, data, ample):
        for most in (1, 7):
            found = self.run(words, data, READ_MOST=most, WRITE_MOST=most)
            self.hold(f"{name}, {most} at a time", found, found == ample)

    def reads(self, name, words, data, ample):
        for size in prefixes(len(data)):
            # (the last line of `build` may lack its line feed where the input ends, and nowhere else)
            part = self.run(words, data[:data.rfind(b"\n", 0, size) + 1 if words[0] == "build" else size])
            for error in ERRORS:
                found = self.run(words, data, READ_ROOM=size, READ_ERROR=error)
                output, errors, status = found
                if (errors, status) == (READ_FAILED, 3):
                    right = ample[0].startswith(output) and output == self.written(words[0], part[0])
                else:
                    # (where the prefix decides everything)
                    right = found == ample == self.run(words, data[:size])
                self.hold(f"{name}, a failed read after {size} bytes", found, right)

    @staticmethod
    def written(command, output):
        """What a run has written when the read after a prefix fails, given what a run over the prefix alone writes."""
        if command == "show":
            # (the line of the ending isn't)
            return output[:output.rstrip(b"\n").rfind(b"\n") + 1]
        return b"" if command == "check" else output

    def writes(self, name, words, data, ample):
        for size in prefixes(len(ample[0])):
            for error in (0, *ERRORS):
                found = self.run(words, data, WRITE_ROOM=size, WRITE_ERROR=error)
                self.hold(f"{name}, a failed write after {size} bytes", found,
                          found == (ample[0][:size], WRITE_FAILED, 3))


def main():
    parser = argparse.ArgumentParser(description="Few bytes at a time, and reads and writes that fail.")
    parser.add_argument("--only", default="", help="the cases that have this word in their name")
    parser.add_argument("--program", default=str(BUILT))
    options = parser.parse_args()
    if not os.access(options.program, os.X_OK):
        parser.error(f"{options.program} is not a program: build it with ./zkdump")
    cases = [args for args in sorted(CASES.glob("*/*.args")) if options.only in f"{args.parent.name}/{args.stem}"]
    if not cases:
        parser.error(f"no case has this word: {options.only}")
    with tempfile.TemporaryDirectory() as folder:
        library = compiled(folder)
        if library is None:
            left_out.say(PART, "a compiler for C is not here")
            print("0 passed, 0 failed")
            return 0
        devices = Devices(options.program, library)
        for args in cases:
            name, words = f"{args.parent.name}/{args.stem}", args.read_text().splitlines()
            data = content(args.with_suffix(".in"))
            ample, status = devices.run(words, data), int(content(args.with_suffix(".status")) or 0)
            devices.hold(name, ample, ample[2] == status)
            if status != 2:
                for look in (devices.steps, devices.reads, devices.writes):
                    look(name, words, data, ample)
    name, good, told = left_out.compared(PART, devices.passed + len(devices.failures))
    if not options.only:
        devices.hold(name, told, good)
    print("\n".join(devices.failures[:30]), end="\n" if devices.failures else "")
    print(f"{devices.passed} passed, {len(devices.failures)} failed")
    return 1 if devices.failures else 0


if __name__ == "__main__":
    sys.exit(main())
