#!/usr/bin/env python3
"""Runs the program over stored cases and recordings, and compares every byte that it writes.

    run_cases.py [--program PATH] [--minutes N] check|show|build|migrate ..

For each word given, the cases of the folder cases/WORD beside this file, and then the recordings of
the folder captures/ at the top of the repository. The program is the script zkdump at the top, unless
--program names another. It prints each case that differs and one last line. The exit status is 0 where
none differs, 1 where one does, 2 for invalid arguments.

A case NAME is the files

    NAME.args    the program's arguments, one a line
    NAME.in      its standard input         (no file: nothing)
    NAME.out     its standard output        (no file: nothing)
    NAME.err     its standard error         (no file: nothing)
    NAME.status  its exit status            (no file: 0)

A recording is NAME.zkr, NAME.show is its listing, and NAME.show35 and NAME.show37, where it has them, are the listings
with --profile 3.5 and with --profile 3.7.
check has to print the last line of the listing, and show all of it. build, given the listing, has to make a recording
that shows the same messages; where the conversation is whole, it has one piece for each message and the bytes of each
side. migrate has to make a recording that shows the same listing without options, and that it migrates to itself. The
status of check and show is 0 where the listing ends in ". whole", else 1. With build, the listings of the cases of show
are built and shown again, too, and two lines of four megabytes; and each line of build/refused_lines.txt is refused at
the column and for the reason that its row begins with.
"""

import argparse
import pathlib
import subprocess
import sys

HERE = pathlib.Path(__file__).resolve().parent
TOP = HERE.parent.parent
WORDS = ("check", "show", "build", "migrate")


class Runner:
    """Runs one program, and counts what differs."""

    def __init__(self, program, seconds):
        self.program = program
        self.seconds = seconds
        self.total = 0
        self.differing = 0

    def run(self, words, data):
        """Standard output, standard error and status; None where the program did not end in time."""
        try:
            done = subprocess.run([self.program, *words], input=data, capture_output=True,
                                  timeout=self.seconds, check=False)
        except subprocess.TimeoutExpired:
            return None
        return done.stdout, done.stderr, done.returncode

    def expect(self, name, words, data, wanted):
        """Counts a run, and prints how it differs from what is expected; returns whether it is the same."""
        self.total += 1
        found = self.run(words, data)
        if found == wanted:
            return True
        self.differing += 1
        print(f"{name}: {difference(wanted, found)}")
        return False

    def hold(self, name, same, told="differs"):
        """Counts a comparison."""
        self.total += 1
        if not same:
            self.differing += 1
            print(f"{name}: {told}")


def difference(wanted, found):
    """The first of the three results that differs, as a text."""
    if found is None:
        return "the program did not end in time"
    for what, due, got in zip(("standard output", "standard error", "status"), wanted, found):
        if due == got:
            continue
        if isinstance(due, int):
            return f"status {got}, and {due} was expected"
        at = next((k for k, (a, b) in enumerate(zip(due, got)) if a != b), min(len(due), len(got)))
        return (f"{what} differs at byte {at}\n    expected {due[max(0, at - 30):at + 90]!r}"
                f"\n    found    {got[max(0, at - 30):at + 90]!r}")
    return "differs"


def stored(path, missing):
    return path.read_bytes() if path.exists() else missing


def run_cases(runner, folder):
    for path in lacking(folder, ".args", (".in", ".out", ".err", ".status")):
        runner.hold(f"{folder.name}/{path.name}", False, "it has no .args")
    for args in sorted(folder.glob("*.args")):
        words = args.read_text().splitlines()
        wanted = (stored(args.with_suffix(".out"), b""), stored(args.with_suffix(".err"), b""),
                  int(stored(args.with_suffix(".status"), b"0")))
        runner.expect(f"{folder.name}/{args.stem}", words, stored(args.with_suffix(".in"), b""), wanted)


def sides(recording):
    """The bytes of each side of an undamaged recording, and how many pieces it has."""
    joined = {b"C": b"", b"S": b""}
    at, pieces = 4, 0
    while at < len(recording):
        size = int.from_bytes(recording[at + 1:at + 5], "big")
        joined[recording[at:at + 1]] += recording[at + 5:at + 5 + size]
        at, pieces = at + 5 + size, pieces + 1
    return joined, pieces


def build_again(runner, name, options, listing):
    """Builds a recording of the lines of a listing's messages, and expects that it shows them again; gives it."""
    ending = listing.rstrip(b"\n").rfind(b"\n") + 1
    lines = listing[:ending]
    made = runner.run(["build", *options], lines)
    built = made[0] if made else b""
    if runner.expect(f"{name}, built", ["build", *options], lines, (built, b"", 0)):
        shown = runner.run(["show", *options], built)
        runner.hold(f"{name}, shown again", shown is not None and shown[0].startswith(lines + b". whole ")
                    and shown[1:] == (b"", 0))
    return built


def build_whole(runner, name, options, recording, listing):
    """Builds a whole recording from its listing: one piece for each message, and the bytes of each side."""
    built = build_again(runner, name, options, listing)
    runner.expect(f"{name}, with its ending", ["build", *options], listing, (built, b"", 0))
    wanted = (sides(recording)[0], listing.count(b"\n") - 1)
    runner.hold(f"{name}, side by side", sides(built) == wanted)


def profile_of(recording):
    """The option for the profile that a recording's head has; none where it has none."""
    number = int.from_bytes(recording[16:20], "big") if recording.startswith(b"ZKR2") else 0
    return ["--profile", f"{number // 10}.{number % 10}"] if number in (34, 35, 37) else []


def run_listings(runner, folder):
    """The listings of the cases of show, built and shown again under the profile that the case or its recording has."""
    for args in sorted(folder.glob("*.args")):
        listing = stored(args.with_suffix(".out"), b"")
        if listing:
            options = args.read_text().splitlines()[1:]
            if "--profile" not in options:
                options += profile_of(stored(args.with_suffix(".in"), b""))
            build_again(runner, f"{folder.name}/{args.stem}", options, listing)


def run_long_lines(runner):
    """A path and data of four megabytes of a line, built and shown again."""
    first = (HERE / "cases" / "show" / "auth_answered.out").read_bytes()
    connected = b"".join(first.splitlines(keepends=True)[:2])
    for name, front, byte, back in (("path", b'C 1 sync path="', b"a", b'"'),
                                    ("data", b"C 1 setData path=~ blob=#", b"7", b" version=0")):
        line = front + byte * 4_000_000 + back + b"\n"
        build_again(runner, f"a line of four megabytes ({name})", [], connected + line + b". whole unanswered=1\n")


def run_refused_lines(runner, path):
    """Lines that are refused, each after the column and the reason, and a blank."""
    for row in path.read_text().splitlines():
        column, reason, line = row.split(" ", 2)
        wanted = (b"ZKR1", f"line 1: column {column}: {reason}\n".encode(), 1)
        runner.expect(f"build: {line}", ["build"], line.encode() + b"\n", wanted)


def migrate_again(runner, name, options, recording, listing, status):
    """Migrates an undamaged recording: it is listed as it was, and migrated to itself, whatever the options."""
    made = runner.run(["migrate", *options], recording)
    migrated = made[0] if made else b""
    if runner.expect(name, ["migrate", *options], recording, (migrated, b"", 0)):
        runner.hold(f"{name}, its head", migrated.startswith(b"ZKR2"))
        runner.expect(f"{name}, shown", ["show"], migrated, (listing, b"", status))
        runner.expect(f"{name}, again", ["migrate", "--limit", "64"], migrated, (migrated, b"", 0))


def run_capture(runner, path, word, options):
    """Runs a recording against its listing, which is the file PATH."""
    recording, listing = path.with_suffix(".zkr").read_bytes(), path.read_bytes()
    last = listing.rstrip(b"\n").rsplit(b"\n", 1)[-1] + b"\n"
    whole = last.startswith(b". whole ")
    name = f"captures/{path.name} ({word})"
    if word == "migrate":
        migrate_again(runner, name, options, recording, listing, 0 if whole else 1)
    elif word != "build":
        wanted = last if word == "check" else listing
        runner.expect(name, [word, *options], recording, (wanted, b"", 0 if whole else 1))
    elif whole:
        build_whole(runner, name, options, recording, listing)
    else:
        build_again(runner, name, options, listing)


def lacking(folder, has, ends):
    """The files of a folder that end so, beside which no file ends as it has to: they would not be run."""
    return [path for path in sorted(folder.iterdir()) if path.suffix in ends and not path.with_suffix(has).exists()]


def run_captures(runner, folder, word):
    for path in lacking(folder, ".show", (".zkr",)):
        runner.hold(f"captures/{path.name}", False, "it has no listing")
    for path in sorted(folder.glob("*.show*")):
        release = ".".join(path.suffix[len(".show"):])
        run_capture(runner, path, word, ["--profile", release] if release else [])


def main():
    parser = argparse.ArgumentParser(description="Runs the program over stored cases and recordings.")
    parser.add_argument("words", nargs="+", choices=WORDS)
    parser.add_argument("--program", default=str(TOP / "zkdump"))
    parser.add_argument("--minutes", type=float, default=2.0, help="for one run of the program")
    options = parser.parse_args()
    runner = Runner(options.program, options.minutes * 60)
    for word in options.words:
        run_cases(runner, HERE / "cases" / word)
        run_captures(runner, TOP / "captures", word)
        if word == "build":
            run_listings(runner, HERE / "cases" / "show")
            run_long_lines(runner)
            run_refused_lines(runner, HERE / "cases" / "build" / "refused_lines.txt")
    print(f"{runner.total - runner.differing} passed, {runner.differing} failed")
    return 1 if runner.differing else 0


if __name__ == "__main__":
    sys.exit(main())
