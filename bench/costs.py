"""Counts the instructions of the proved programs over small inputs, and compares them with those that are kept.

    python3 -m bench.costs [--update] [--install] [--checkout FOLDER] [WORD ..]

Each row is a program and an input (costs_inputs.py). callgrind counts the instructions of its run, less those of a run
that does less, over nothing or of one turn of a job, so that the start and the making of a job's input aren't among
them: function by function, and one that has more in that other run counts as none. Other work changes nothing, so runs
go side by side. costs.txt has a number for each row, and costs_functions.txt the functions that had a hundredth of it
or more. A row fails if it has 2% more than its number, or 2% less, so that what was gained is kept. --update writes the
numbers of those rows and of new ones, and leaves the others; all are written if the tools are others than before.

With words, only rows whose names have one of them are counted. --checkout names another checkout of this repository
whose programs are counted in place of those built here. --install installs Debian's valgrind first; without valgrind
nothing is counted. The last line is `N passed, M failed`.
"""

import argparse
import collections
import concurrent.futures
import hashlib
import os
import pathlib
import platform
import re
import shutil
import subprocess
import sys
import tempfile
from typing import NamedTuple, Optional

from packaging.build_library import kit
from tests import left_out
from . import costs_inputs, measure_library

TOP = pathlib.Path(__file__).resolve().parent.parent
KEPT = TOP / "bench" / "costs.txt"
ALLOWED = 2  # how many hundredths of its number a row may differ from it
NOTHING = "nothing"  # the input of no pieces
PART = 100  # a function is kept with its row if it has one part in this many
MOST = 8  # runs at once: each takes some 200 MB
PACKAGES = ("valgrind", "libc6-dbg")
CALLGRIND = ("--tool=callgrind", "--compress-strings=no", "--compress-pos=no")
LIBRARY_PROGRAMS = ("handle", "fields")  # C that calls the library
SURROUNDINGS = {"PATH": os.defpath, "LC_ALL": "C"}  # of each run


class Run(NamedTuple):
    """A program, its words, the file that it reads, and the status that it ends with."""
    program: str
    words: tuple
    read: str = os.devnull
    status: int = 0


class Row(NamedTuple):
    """A run, and another one of the same program that does less, whose instructions are subtracted."""
    name: str
    run: Run
    less: Optional[Run] = None


def job(name, turns):
    return Row(f"job {name}", Run("bench_jobs", (name, "1", str(1 + turns))), Run("bench_jobs", (name, "1", "1")))


def command(word, name):
    """A command of zkdump over an input; build reads the lines of it."""
    end = ".lines" if word == "build" else ""
    return Row(f"{word} {name}", Run("zkdump", (word,), name + end), Run("zkdump", (word,), NOTHING + end))


def writing(name):
    """What show does more than check, in the functions of which it has more."""
    return Row(f"show less check {name}", *(Run("zkdump", (word,), name) for word in ("show", "check")))


def steps(way):
    program = "fields" if way in ("passage", "fields") else "handle"
    return Row(f"library, {way}", *(Run(program, (way,), name) for name in ("small", NOTHING)))


def talks(way, times):
    """Talks that read a short recording: each is opened and closed, or is the same one begun anew."""
    return Row(f"library, {way}", *(Run("handle", (way, "1", str(many)), "short") for many in (1 + times, 1)))


START = Run("zkdump", ("check",), NOTHING)
CUTS = ("small", "big", "listing", "one message a piece", "outside ASCII")
BUILT = ("small", "big", "listing", "outside ASCII")  # the lines of one message a piece are those of small
TEXTS = tuple(f"texts of {least} to {most} bytes" for least, most in costs_inputs.LENGTHS)
ROWS = (
    *map(job, ("check", "single", "show", "build", "clients", "archive"), (20, 8, 8, 2, 256, 16)),
    Row("check nothing", START),
    *(command(word, name) for word in ("check", "show") for name in CUTS),
    *(command("check", name) for name in (*costs_inputs.LISTS, *TEXTS)),
    *(writing(f"runs of {size} to escape") for size in costs_inputs.ESCAPED),
    *(command("build", name) for name in (*BUILT, "Cyrillic", TEXTS[-1], "containers")),
    *(command("migrate", name) for name in ("small", "listing", "one message a piece")),
    Row("check --earliest refused", Run("zkdump", ("check", "--earliest"), "refused", 1), START),
    *map(steps, ("step", "passage", "view", "fields")),
    Row("library, say", *(Run("handle", ("say",), f"{name}.lines") for name in ("small", NOTHING))),
    talks("open", 400),
    talks("renew", 400),
)


class Cost(NamedTuple):
    """How many instructions a row has, and how many of them each function has without those that it calls."""
    count: int
    functions: dict


# ---- counting


class NotThere(Exception):
    """What isn't there, in one line."""


def place_programs(folder, checkout, names):
    """Puts these programs into the folder: there they are run by the same words wherever it is."""
    for name in sorted(names):
        crate = "zk_c" if name in LIBRARY_PROGRAMS else name
        built = checkout / "crates" / crate / "out" / ("libzk_c.a" if crate == "zk_c" else name)
        if not built.exists():
            raise NotThere(f"{built} is not there: {'rt lib' if crate == 'zk_c' else 'rt run'} in its crate builds it")
        if crate == "zk_c":
            measure_library.compiled(folder / name, TOP / "bench" / f"{name}.c", built, kit() / "c" / "liblibc_c.a",
                                     "-Wl,--wrap=malloc,--wrap=realloc", "-pthread")
        else:
            shutil.copy(built, folder)


def place_inputs(folder, rows):
    """Writes the inputs of these rows, and listings where a row reads one."""
    names = {run.read for row in rows for run in (row.run, row.less) if run} - {os.devnull}
    for name in sorted({name.partition(".")[0] for name in names}):
        (folder / name).write_bytes(costs_inputs.INPUTS[name]())
    for name in sorted(name for name in names if name.endswith(".lines")):
        with open(folder / name.partition(".")[0], "rb") as source, open(folder / name, "wb") as lines:
            subprocess.run(["./zkdump", "show"], cwd=folder, stdin=source, stdout=lines, check=True)


def digest():
    """A sum of all inputs."""
    total = hashlib.sha256()
    for name, make in costs_inputs.INPUTS.items():
        total.update(name.encode() + hashlib.sha256(make()).digest())
    return total.hexdigest()[:16]


def name_of(function, place):
    """A function's name without what it is generic in, or where it has none the file that it is in."""
    if function.startswith("0x"):
        return place
    return re.sub(r"::<.*|'\d+$", "", function)


def read_functions(path):
    """The instructions of each function, without those that it calls, as callgrind wrote them."""
    found, place, passed = collections.Counter(), "", False
    with open(path, encoding="utf-8", errors="replace") as lines:
        for line in lines:
            key, equals, value = line.rstrip("\n").partition("=")
            if key == "ob":
                place = os.path.basename(value)
            elif key == "fn":
                function = name_of(value, place)
            elif key == "calls":
                passed = True  # the next line is of the called function
            elif line[0].isdigit() and not equals:
                if not passed:
                    found[function] += int(line.split()[1])
                passed = False
    return found


def count(run, number, folder):
    """The instructions of each function in a run; none if the run fails."""
    words = [shutil.which("valgrind"), *CALLGRIND, f"--callgrind-out-file=callgrind.{number}", f"./{run.program}"]
    with open(folder / run.read, "rb") as source:
        done = subprocess.run([*words, *run.words], cwd=folder, env=SURROUNDINGS, stdin=source, capture_output=True)
    good = done.returncode == run.status and done.stdout
    return read_functions(folder / f"callgrind.{number}") if good else collections.Counter()


def count_all(rows, folder):
    """The rows' costs, counted side by side; that of a run that fails is nothing."""
    runs = list(dict.fromkeys(run for row in rows for run in (row.run, row.less) if run))
    with concurrent.futures.ThreadPoolExecutor(min(MOST, len(os.sched_getaffinity(0)))) as pool:
        found = dict(zip(runs, pool.map(lambda run: count(run, runs.index(run), folder), runs)))
    costs = {}
    for row in rows:
        failed = not found[row.run] or row.less and not found[row.less]
        functions = collections.Counter() if failed else found[row.run] - found.get(row.less, collections.Counter())
        costs[row.name] = Cost(sum(functions.values()), functions)
    return costs


# ---- what is kept


def tools():
    """What the numbers depend on: the toolchain, the C library, valgrind and the C compiler."""
    def said(*words):
        return subprocess.run(words, capture_output=True, text=True, check=True).stdout.split("\n")[0].strip()
    library = " ".join(platform.libc_ver())
    return ", ".join((said("rt", "version"), library, said("valgrind", "--version"), said("cc", "--version")))


HEAD = """\
# Instructions of the proved programs, by callgrind: bench/costs.py compares them, and bench/README.md has the rules.
# tools: {}
# inputs: {}
"""


class Kept:
    """The numbers in costs.txt and costs_functions.txt, and what they were counted with."""

    def __init__(self, path):
        self.path, self.functions_path = path, path.with_name(f"{path.stem}_functions.txt")
        self.tools = self.inputs = ""
        self.costs = {}
        if path.exists():
            lines = path.read_text().splitlines()
            self.tools, self.inputs = (line.partition(": ")[2] for line in lines[1:3])
            functions = dict(line.split(" = ") for line in self.functions_path.read_text().splitlines())
            for line in lines[3:]:
                number, name = line.split(None, 1)
                parts = (part.rsplit(" ", 1) for part in functions.get(name, "").split("; ") if part)
                self.costs[name] = Cost(to_number(number), {part: to_number(many) for part, many in parts})

    def write(self):
        rows = [(row.name, self.costs[row.name]) for row in ROWS if row.name in self.costs]
        self.path.write_text(HEAD.format(self.tools, self.inputs)
                             + "".join(f"{cost.count:>12,}  {name}\n" for name, cost in rows))
        self.functions_path.write_text("".join(f"{name} = {'; '.join(parts(cost))}\n" for name, cost in rows))


def to_number(text):
    return int(text.replace(",", ""))


def parts(cost):
    """The functions that have a part of a cost, the greatest first."""
    return [f"{name} {many:,}" for name, many in sorted(cost.functions.items(), key=lambda each: (-each[1], each[0]))
            if many * PART >= cost.count]


def gained_most(kept, now):
    """The function that gained most, and what it had and has; one that isn't kept had less than a part."""
    def gain(name):
        return now.functions[name] - kept.functions.get(name, 0 if now.functions[name] * PART < kept.count else -1)
    name = max(now.functions, key=gain)
    before = f"{kept.functions[name]:,}" if name in kept.functions else f"less than {-(-kept.count // PART):,}"
    return f"{name} had {before}, and has {now.functions[name]:,}"


def differs(kept, now):
    """1 where the row has too many instructions, -1 where it has fewer than are kept, else 0."""
    more = 100 * (now.count - kept.count)
    return (more > ALLOWED * kept.count) - (more < -ALLOWED * kept.count)


def percent(kept, now):
    return 100 * (now.count / kept.count - 1)


def fault(name, kept, now):
    """What is wrong with a row; empty if nothing is."""
    if not now.count:
        return f"{name}: a run failed"
    if kept is None:
        return f"{name}: {now.count:,} instructions, and costs.txt has no number"
    change = f"{name}: {kept.count:,} instructions came to {now.count:,} ({percent(kept, now):+.1f}%)"
    if differs(kept, now) > 0:
        return f"{change}; {gained_most(kept, now)}"
    return f"{change}: keep the gain by bench/costs.py --update" if differs(kept, now) < 0 else ""


def compare(rows, kept, costs):
    """Prints the rows, and returns what is wrong with them."""
    faults = []
    for row in rows:
        before, now = kept.costs.get(row.name), costs[row.name]
        print(f"{now.count:>12,}  {row.name}" + (f" ({percent(before, now):+.2f}%)" if before else ""))
        if found := fault(row.name, before, now):
            faults.append(found)
    return faults


def update(kept, costs, used, sums):
    """Keeps the rows that are new or differ; all of them, if other tools were used than before."""
    anew = kept.tools != used
    kept.tools, kept.inputs = used, sums
    for name, now in costs.items():
        if now.count and (anew or name not in kept.costs or differs(kept.costs[name], now)):
            kept.costs[name] = now
    kept.write()


def main():
    parser = argparse.ArgumentParser(description=__doc__, formatter_class=argparse.RawDescriptionHelpFormatter)
    parser.add_argument("--update", action="store_true")
    parser.add_argument("--install", action="store_true")
    parser.add_argument("--checkout", type=pathlib.Path, default=TOP)
    parser.add_argument("words", nargs="*", metavar="WORD")
    words = parser.parse_args()
    rows = [row for row in ROWS if not words.words or any(word in row.name for word in words.words)]
    for word in words.words:
        if not any(word in row.name for row in rows):
            parser.error(f"no row has this word: {word}")
    if words.install:
        subprocess.run(["apt-get", "install", "-y", "--no-install-recommends", *PACKAGES], check=True)
    if not shutil.which("valgrind"):
        left_out.say("the instructions of small inputs", "valgrind is not here", len(rows))
        print("0 passed, 0 failed")
        return 0
    kept, used, sums = Kept(KEPT), tools(), digest()
    if words.update and words.words and kept.tools != used:
        parser.error("the tools are others than before: all rows are written, so give no words")
    for what, here, there in (("tools", used, kept.tools), ("inputs", sums, kept.inputs)):
        if there not in ("", here):
            print(f"costs.txt was counted with other {what}: {there}; these are {here}")
    try:
        with tempfile.TemporaryDirectory() as name:
            folder = pathlib.Path(name)
            place_programs(folder, words.checkout.resolve(), {"zkdump", *(row.run.program for row in rows)})
            place_inputs(folder, rows)
            costs = count_all(rows, folder)
    except NotThere as why:
        print(f"costs.py: {why}\n0 passed, {len(rows)} failed")
        return 1
    if words.update:
        update(kept, costs, used, sums)
    faults = compare(rows, kept, costs)
    print(*faults, f"{len(rows) - len(faults)} passed, {len(faults)} failed", sep="\n")
    return 1 if faults else 0


if __name__ == "__main__":
    sys.exit(main())
