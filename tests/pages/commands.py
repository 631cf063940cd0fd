"""Runs the commands that documents show, and compares what they print.

    python3 -m tests.pages.commands [--program PATH] [--seconds N] PAGE ..

A command is a line of four blanks, "$ " and the command; "> " in place of "$ " continues it. The lines of four blanks
after it are what it prints, on standard output and standard error together. It has to end with the status 0, or with 1
where it prints something, such as why a recording is refused. " .. " in such a line, or " .." at its end,
matches any text; a line of ".." alone matches any lines. A time of day with its date matches any time, a client's port
at 127.0.0.1 any port, and what a watched reply NONODE took any number.

The commands of a page run one after another with sh, in a new folder that has links to what is at the repository's top,
so that files which they make are there for the next. The folder is their HOME, too, and has an empty folder bin.
There ./zkdump, and zkdump on the PATH, are the script of that name, or what --program names.

There is no ZooKeeper and no client of one, so tools/zkplay.py takes the place of both. It plays a recording: that of
the stored run, or the one that a line `<!-- played: FILE -->` before the block names.

- localhost:2181 in a command is a server that plays it.
- Where 2181 or 2182 is a word by itself, the command is one that listens. A client connects to that port and plays the
  recording, and then Ctrl-C ends the command, unless it has ended by itself.
- Both ports are replaced by free ones, and in what is printed these by them again.
- port.pcap in the folder is what tcpdump would have captured of the stored run.

What isn't run is marked with a line `<!-- not run: WHY -->` before its block. Any other block of four blanks that
does not begin with a command fails, and so does any block of code but for those of Rust and C: a block that begins with
"```rust FILE" or "```c FILE" must be in that file, line for line, but for how far it is indented.

It prints what differs, what is marked, and one last line, N passed, M failed. The status is 0 if nothing differs, 1
if something does, 2 for invalid arguments or if a page cannot be read.
"""

import argparse
import os
import pathlib
import re
import signal
import socket
import subprocess
import sys
import tempfile
import textwrap
import time

from ..tools import wire
from ..tools.support import pieces

TOP = pathlib.Path(__file__).resolve().parents[2]
INDENT = "    "
# A block of code, to its end or that of the page: the file that it names, and its lines.
FENCE = re.compile(r"^ {0,3}```(?:(?:rust|c) (\S+)\n|[^\n]*\n?)(.*?)(?:^ {0,3}``` *$|\Z)", re.M | re.S)
MARK = re.compile(r"<!-- (not run|played): (.*) -->")
STORED_RUN = "crates/zkdump/stdin"
PLAYER = TOP / "tools" / "zkplay.py"
SERVER, LISTENS = "localhost:2181", re.compile(r"(?<= )218[12](?= |$)")
ANY = (re.compile(r"\b\d{4}-\d\d-\d\dT\d\d:\d\d:\d\d\.\d{3}Z"), re.compile(r"(?<=\b127\.0\.0\.1:)(?!218[12]\b)\d+"),
       re.compile(r"(?<=\bNONODE ms=)\d+(\.\d+)?$"))


class Example:
    """A command, the number of its line, the lines that it prints, and the recording that is played to it."""

    def __init__(self, at, command, played):
        self.at, self.command, self.played = at, command, played
        self.lines = []


class Page:
    """The commands of a page, in order; the blocks that are marked as not run, each with its line and why; and the
    lines of those that are neither."""

    def __init__(self, text):
        self.examples, self.marked, self.unmarked = [], [], []
        for fence in re.finditer(FENCE, text):
            if not fence[1]:
                self.unmarked.append(text.count("\n", 0, fence.start()) + 1)
        marks, inside = {}, False
        for at, line in enumerate(FENCE.sub(lambda fence: "\n" * fence[0].count("\n"), text).splitlines(), 1):
            mark = MARK.fullmatch(line)
            if mark:
                marks[mark[1]] = mark[2]
            elif line.startswith(INDENT):
                self.take(at, line[len(INDENT):], not inside, marks)
            elif line or inside:
                marks = {}
            inside = line.startswith(INDENT)

    def take(self, at, line, begins, marks):
        """Takes a line of a block."""
        if "not run" in marks:
            if begins:
                self.marked.append((at, line, marks["not run"]))
        elif line.startswith("$ "):
            self.examples.append(Example(at, line[2:], marks.get("played", STORED_RUN)))
        elif begins:
            self.unmarked.append(at)
        elif self.examples and line.startswith("> ") and not self.examples[-1].lines:
            self.examples[-1].command += "\n" + line[2:]
        elif self.examples:
            self.examples[-1].lines.append(line)


def fits_line(wanted, found):
    """Whether the line is the expected one, where ".." and what is in ANY match any text."""
    for each in ANY:
        wanted, found = each.sub("..", wanted), each.sub("..", found)
    parts = re.split(r"(?<= )\.\.(?= |$)", wanted)
    return re.fullmatch(".*".join(map(re.escape, parts)), found) is not None


def fits(wanted, found):
    """Whether these are the expected lines, where a line of ".." matches any."""
    if not wanted:
        return not found
    if wanted[0] == "..":
        return any(fits(wanted[1:], found[k:]) for k in range(len(found) + 1))
    return bool(found) and fits_line(wanted[0], found[0]) and fits(wanted[1:], found[1:])


def free_port():
    """A port that nobody listens on."""
    with socket.create_server(("127.0.0.1", 0)) as listener:
        return listener.getsockname()[1]


def capture(path):
    """The capture of the stored run."""
    sent = wire.conversation(pieces((TOP / STORED_RUN).read_bytes()))
    path.write_bytes(wire.pcap((each.milliseconds, wire.packet(each)) for each in sent))


class Folder:
    """A folder to run commands in; what is still running is ended with it."""

    def __init__(self, path, program, seconds):
        self.path = pathlib.Path(path)
        self.seconds = seconds
        self.begun = []
        for entry in TOP.iterdir():
            if entry.name not in (".git", "zkdump"):
                (self.path / entry.name).symlink_to(entry)
        (self.path / "zkdump").symlink_to(program)
        (self.path / "bin").mkdir()
        capture(self.path / "port.pcap")
        self.environment = dict(os.environ, PATH=f"{self.path}{os.pathsep}{os.environ['PATH']}", LC_ALL="C.UTF-8",
                                HOME=str(self.path))

    def begin(self, command, output, **more):
        """Begins a command with this standard output."""
        process = subprocess.Popen(command, cwd=self.path, env=self.environment, stdin=subprocess.DEVNULL,
                                   stdout=output, start_new_session=True, **more)
        self.begun.append(process.pid)
        return process

    def run(self, example):
        """The lines that the command prints, and its status; None and None if it did not end in time."""
        command, ports = example.command, {}
        if SERVER in command:
            server = self.begin([PLAYER, "0", example.played], subprocess.PIPE, text=True)
            ports["2181"] = server.stdout.readline().rpartition(":")[2].strip()
            command = command.replace(SERVER, f"localhost:{ports['2181']}")
        listens = LISTENS.search(command)
        if listens:
            ports[listens[0]] = str(free_port())
            command = "exec " + LISTENS.sub(ports[listens[0]], command)
        with tempfile.TemporaryFile() as output:
            process = self.begin(["sh", "-c", command], output, stderr=output)
            try:
                if listens:
                    self.play(ports[listens[0]], example.played, process, SERVER in example.command)
                process.wait(self.seconds)
            except subprocess.TimeoutExpired:
                return None, None
            output.seek(0)
            found = output.read().decode(errors="replace")
        for port, free in ports.items():
            found = re.sub(rf"\b{free}\b", port, found)
        return found.splitlines(), process.returncode

    def play(self, port, played, process, goes_on):
        """Plays a client to the command that listens on this port, once it does, and then ends it where it goes on."""
        until = time.monotonic() + self.seconds
        refused = 3
        while refused == 3 and process.poll() is None and time.monotonic() < until:
            refused = self.begin([PLAYER, "--client", f"127.0.0.1:{port}", played], subprocess.DEVNULL,
                                 stderr=subprocess.DEVNULL).wait(self.seconds)
        try:
            process.wait(1 if goes_on else self.seconds)
        except subprocess.TimeoutExpired:
            process.send_signal(signal.SIGINT)

    def close(self):
        for group in self.begun:
            try:
                os.killpg(group, signal.SIGTERM)
            except ProcessLookupError:
                pass


def shown(lines):
    return "".join(f"\n        {line}" for line in lines)


def run_commands(name, text, program, seconds):
    """Runs the page's commands; returns how many print what is expected, and how many don't."""
    passed = failed = 0
    page = Page(text)
    for at, line, why in page.marked:
        print(f"{name}:{at}: not run, as the page says ({why}): {line}")
    for at in page.unmarked:
        failed += 1
        print(f"{name}:{at}: this block is not run, and the page doesn't say why")
    with tempfile.TemporaryDirectory(prefix="examples-") as path:
        folder = Folder(path, program, seconds)
        for example in page.examples:
            found, status = folder.run(example)
            if found is not None and status in (0, 1 if found else 0) and fits(example.lines, found):
                passed += 1
                continue
            failed += 1
            outcome = "did not end in time" if found is None else f"ends with status {status} and prints{shown(found)}"
            print(f"{name}:{example.at}: $ {example.command}\n    {outcome}\n    expected{shown(example.lines)}")
        folder.close()
    return passed, failed


def plain(text):
    """The lines of code without their blanks on the left, and without empty lines."""
    return [line.strip() for line in text.splitlines() if line.strip()]


def are_in(lines, others):
    return lines != [] and any(others[k:k + len(lines)] == lines for k in range(len(others)))


def compare_code(page, text):
    """Looks for the page's code in the files that it names."""
    passed = failed = 0
    for block in filter(lambda fence: fence[1], FENCE.finditer(text)):
        source = TOP / block[1]
        if source.is_file() and are_in(plain(block[2]), plain(source.read_text())):
            passed += 1
        else:
            failed += 1
            print(f"{page}: this code is not in {block[1]}:\n{textwrap.indent(block[2], INDENT)}")
    return passed, failed


def main():
    parser = argparse.ArgumentParser(description="Runs the commands that documents show.")
    parser.add_argument("pages", nargs="+", metavar="PAGE")
    parser.add_argument("--program", default=str(TOP / "zkdump"))
    parser.add_argument("--seconds", type=float, default=120.0, help="for one command")
    options = parser.parse_args()
    program = pathlib.Path(options.program).resolve()
    passed = failed = 0
    for page in options.pages:
        try:
            text = pathlib.Path(page).read_text()
        except OSError as error:
            parser.error(f"{page}: {error.strerror}")
        for good, bad in (run_commands(page, text, program, options.seconds), compare_code(page, text)):
            passed, failed = passed + good, failed + bad
    print(f"{passed} passed, {failed} failed")
    return 1 if failed else 0


if __name__ == "__main__":
    sys.exit(main())
