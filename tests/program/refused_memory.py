"""Runs the proved program and the library's calls over the stored cases, with each growth of memory refused in turn.

    refusals.py [--jobs N] [--only WORD] [--program PATH] [--tests PATH]

tests/program/refuse.c, which a C compiler makes a library of, takes the place of the C library's functions that allocate, and
refuses the Nth call of a run. tests/program/grow.c calls each of them; what is run imports no other by which memory grows
(GROWING). For each stored case (crates/zkdump/cases) and N counting up from 1 until a run meets no refusal

- show, check, build, migrate: over the stored cases, `build` over the listings of those of show, too, and `check` over a
  list that is longer than what is read at once, in long pieces and in short ones, the run does the same as with ample
  memory; or it ends with status 3, `zkdump: out of memory` on standard error, and a prefix of the output that it has
  with ample memory;
- calls: over the recordings of the first format that check is stored with, a test of the library
  (crates/talk_tests/src/tests/growth.rt) passes, with the example on its standard input: each call of read_all, Talk::new,
  Talk::take, Speaker::new, Speaker::say, MessageRef::to_message, line_of, line_of_ref, read_line and ending_line that
  runs out of memory returns, when it is called again, what it returns with ample memory; and Talk::step and Talk::view,
  which are called once, never allocate;
- few: `build` over lines of small messages, in ASCII and outside it, and of listings (bench/costs_inputs.py) grows no more
  than a few times for each 65,536 bytes that it reads, however many messages or names they have.

The program is crates/zkdump/out/zkdump, and the tests are crates/talk_tests/out/talk_tests_tests, where no others are
named; `./test` builds both there, and so do `./zkdump` and, in crates/talk_tests, `rt test`. It prints the other runs
and one last line. The status is 0 if there are none. Without a C compiler it reports that, and runs nothing.
"""

import argparse
import concurrent.futures
import math
import os
import pathlib
import shutil
import subprocess
import sys
import tempfile
import time

from bench import costs_inputs
from .. import left_out
from .harness import BUILT, HEAD, TOP, Program

CASES = TOP / "crates" / "zkdump" / "cases"
PART = "memory that is refused"
TESTS = TOP / "crates" / "talk_tests" / "out" / "talk_tests_tests"
CALLS = "tests::growth::asked_again"
KINDS = ("show", "check", "build", "migrate", "calls", "few")
# A mix, and more bytes of a recording than a message of it has.
MIXES = {
    "small": (costs_inputs.making.Small, 150),
    "outside ASCII": (costs_inputs.Foreign, 150),
    "listing": (costs_inputs.making.Listing, 210_000),
}
LINES = (("small", 1_000), ("small", 10_000), ("outside ASCII", 1_000), ("outside ASCII", 10_000), ("listing", 20),
         ("listing", 100))
BLOCK = 65_536
# The C library's functions by which a program's memory grows.
GROWING = {"malloc", "calloc", "realloc", "reallocarray", "memalign", "aligned_alloc", "posix_memalign", "valloc",
           "pvalloc", "brk", "sbrk", "mmap", "mmap64", "mremap", "shmat", "syscall",
           *(f"__libc_{name}" for name in ("malloc", "calloc", "realloc", "memalign", "valloc", "pvalloc"))}
OUT_OF_MEMORY = b"zkdump: out of memory\n"


class Refusing(Program):
    """A program of which one growth is refused, by a library that is loaded before the C library."""

    def __init__(self, path, library):
        super().__init__(path)
        self.library = library
        self.note = tempfile.TemporaryFile()
        self.actions.append((os.POSIX_SPAWN_DUP2, self.note.fileno(), 3))

    def run_without(self, growth, words, data):
        """The result of a run whose call number `growth` is refused, and whether the run made that call."""
        os.ftruncate(self.note.fileno(), 0)
        self.environment = {"LD_PRELOAD": self.library, "REFUSED_GROWTH": str(growth)}
        found = self.run(words, data)
        self.environment = {}
        return found, os.fstat(self.note.fileno()).st_size > 0


def is_right(found, ample, kind):
    """Whether the result of a run with a refused growth is allowed."""
    if found == ample:
        return True
    output, errors, status = found
    return kind != "calls" and (errors, status) == (OUT_OF_MEMORY, 3) and ample[0].startswith(output)


def test(task):
    """One run, with each of its growths refused in turn."""
    path, library, kind, name, words, data = task
    program = Refusing(path, library)
    ample = program.run(words, data)
    failures, growth = [], 0
    if kind == "calls" and ample[2] != 0:
        failures.append(f"{kind} {name}: with ample memory: {ample}")
    while True:
        growth += 1
        found, was_refused = program.run_without(growth, words, data)
        if not was_refused:
            break
        if not is_right(found, ample, kind):
            failures.append(f"{kind} {name}: without growth {growth}: {found}, with it {ample}")
    if found != ample:
        failures.append(f"{kind} {name}: with no growth refused: {found}, and again {ample}")
    if growth == 1:
        failures.append(f"{kind} {name}: no growth was refused")
    return growth - len(failures), failures


def lines_of(program, mix, count):
    """The first lines of a recording of the mix."""
    kind, size = MIXES[mix]
    recording = costs_inputs.conversation(kind, size * count)
    lines = program.run(["show"], recording)[0].splitlines(keepends=True)[:count]
    return b"".join(lines), len(lines)


def few(task):
    """A run of `build` over many lines, of which one growth more than a few would be refused."""
    path, library, mix, count = task
    program = Refusing(path, library)
    lines, found = lines_of(program, mix, count)
    most = 64 + 24 * math.ceil(len(lines) / BLOCK)
    if found != count:
        return 0, [f"few {mix}: {found} lines, not {count}"]
    (output, errors, status), was_refused = program.run_without(most + 1, ["build"], lines)
    if was_refused or status or errors or not output.startswith(HEAD):
        return 0, [f"few {mix}: {count} lines, more than {most} growths, or {status} {errors}"]
    return 1, []


def content(path):
    return path.read_bytes() if path.exists() else b""


def runs():
    """What is run: a kind, a name, the arguments and the standard input."""
    for kind in ("show", "check", "build", "migrate"):
        for args in sorted((CASES / kind).glob("*.args")):
            yield kind, args.stem, args.read_text().splitlines(), content(args.with_suffix(".in"))
    for args in sorted((CASES / "show").glob("*.args")):
        words = ["build", *args.read_text().splitlines()[1:]]
        if content(args.with_suffix(".out")):
            yield "build", f"show/{args.stem}", words, content(args.with_suffix(".out"))
    names = costs_inputs.names("member-%010d")
    yield "check", "a long list", ["check"], costs_inputs.children(names, 2)
    yield "check", "a long list in short pieces", ["check"], costs_inputs.children(names, 2, 1_460)
    for args in sorted((CASES / "check").glob("*.args")):
        if content(args.with_suffix(".in")).startswith(b"ZKR1"):
            yield "calls", args.stem, [CALLS], content(args.with_suffix(".in"))


def compiled(folder):
    """The library of refuse.c and the program of grow.c, or None if there is no C compiler."""
    for compiler in filter(None, (os.environ.get("CC"), "cc", "gcc", "clang")):
        if shutil.which(compiler):
            made = []
            for name, *words in (("refuse", "-shared", "-fPIC"), ("grow",)):
                made.append(os.path.join(folder, name))
                source = pathlib.Path(__file__).with_name(f"{name}.c")
                subprocess.run([compiler, "-O2", "-fno-builtin", *words, "-o", made[-1], source], check=True)
            return made
    return None


def symbols(path, kind):
    """The names of a file's dynamic symbols of this kind."""
    found = subprocess.run(["nm", "-D", f"--{kind}-only", path], capture_output=True, text=True, check=True).stdout
    return {line.split()[-1].partition("@")[0] for line in found.splitlines()}


def growths(library, grow, programs):
    """A line, or none, for each of what memory could grow by unrefused: an import of a program; and a function of the
    library that doesn't refuse its call, or gives no memory."""
    if not shutil.which("nm"):
        left_out.say("what the programs grow by", "nm is not here", len(programs) + 1 + len(GROWING))
        return
    refused = symbols(library, "defined") & GROWING
    for path in programs:
        more = sorted((symbols(path, "undefined") & GROWING) - refused)
        yield f"{path} grows by {', '.join(more)}, which tests/program/refuse.c doesn't refuse" if more else None
    yield None if refused <= symbols(grow, "undefined") else f"tests/program/grow.c doesn't call all of {sorted(refused)}"
    program, given = Refusing(grow, library), [b"g"] * len(refused)
    for growth in range(1, len(given) + 2):
        wanted = b"".join([*given[:growth - 1], b"r", *given[growth:]][:len(given)])
        found = program.run_without(growth, [], b"")
        good = found == ((wanted, b"", 0), growth <= len(given))
        yield None if good else f"of the calls of tests/program/grow.c, number {growth} is to be refused: {found}"


def main():
    parser = argparse.ArgumentParser(description="Each growth refused in turn, over the proved program and tests.")
    parser.add_argument("--jobs", type=int, default=os.cpu_count() or 1)
    parser.add_argument("--only", choices=KINDS)
    parser.add_argument("--program", default=str(BUILT))
    parser.add_argument("--tests", default=str(TESTS))
    options = parser.parse_args()
    programs = [(options.program, "./zkdump")] if options.only != "calls" else []
    programs += [(options.tests, "rt test in crates/talk_tests")] if options.only in (None, "calls") else []
    for path, made in programs:
        if not os.access(path, os.X_OK):
            parser.error(f"{path} is not a program: build it with {made}")
    begin = time.monotonic()
    with tempfile.TemporaryDirectory() as folder, concurrent.futures.ProcessPoolExecutor(options.jobs) as pool:
        made = compiled(folder)
        if made is None:
            left_out.say(PART, "a compiler for C is not here")
            print("0 passed, 0 failed")
            return 0
        library, grow = made
        found = list(growths(library, grow, [path for path, _ in programs]))
        passed, failures = found.count(None), list(filter(None, found))
        tasks = [(options.tests if one[0] == "calls" else options.program, library, *one) for one in runs()]
        for good, bad in pool.map(test, [task for task in tasks if options.only in (None, task[2])]):
            passed, failures = passed + good, failures + bad
        counted = [(options.program, library, *one) for one in LINES if options.only in (None, "few")]
        for good, bad in pool.map(few, counted):
            passed, failures = passed + good, failures + bad
    if options.only is None:
        _, good, told = left_out.compared(PART, passed + len(failures))
        passed, failures = passed + good, failures + ([] if good else [told])
    print("\n".join(failures[:50]), end="\n" if failures else "")
    print(f"{passed + len(failures)} runs in {time.monotonic() - begin:.0f} s")
    print(f"{passed} passed, {len(failures)} failed")
    return 1 if failures else 0


if __name__ == "__main__":
    sys.exit(main())
