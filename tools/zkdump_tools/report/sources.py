"""Where a report's connections come from: captures, recordings, and listings or the lines of zkjson."""

import argparse
import contextlib
import datetime
import os
import pathlib
import re
import signal
import subprocess
import sys
import tempfile

from .. import facts, inputs, listing, packed, packets, zkr

TOOLS = pathlib.Path(__file__).resolve().parents[2]
LISTINGS = re.compile(rb"[CS] |\. |\{")
CAPTURED = re.compile(r"(.+) (\S+) > (\S+) begun (\S+)(?: ended (\S+))?((?: \S+)*)")
PART = re.compile(r"-\d+(?:\.(\d+))?\.zkr")
ENDED = {"closed", "reset", "open"}


class Source:
    """A file, and what is known of its connection beside it. Lines of zkjson may have several connections.

    `path` is None if nothing is recorded. Of a capture there are the ends of the connection, when it began and
    ended, and in `notes` the other words of pcap2zkr's line, each with its value, or with None. What follows a loss is
    a separate part: `first` is the part that the connection begins with.
    """

    def __init__(self, path, name, mark=b""):
        self.path, self.name, self.has_objects = path, name, mark.startswith(b"{")
        self.server = self.begun = self.ended = self.first = self.facts = None
        self.part, self.notes, self.is_of_parts = 1, {}, False

    def take_words(self, words):
        """Takes what is known of the connection, as pcap2zkr prints it; a word that comes twice has both values."""
        for word, equals, value in (each.partition("=") for each in words):
            self.notes[word] = ",".join(filter(None, (self.notes.get(word), value))) if equals else None

    def has_hole(self):
        """Whether bytes of the connection are known to be missing."""
        return not facts.MISSING.isdisjoint(self.notes)

    def take_facts(self, known, parts):
        """Takes the facts of the recording, or None. `parts` has the first part of each connection that has several,
        and which parts there are."""
        self.facts = known
        if known:
            self.server, self.begun, self.ended, self.part = known.server, known.begun, known.ended, known.part
            self.take_words(known.words())
            self.is_of_parts = known.connected is not None
            self.join(parts)

    def join(self, parts):
        """Joins the parts of its connection; where this part is there already, another connection begins."""
        if not self.is_of_parts:
            return
        first, numbers = parts.get(self.facts.connection(), (self, set()))
        if self.part in numbers:
            first, numbers = self, set()
        numbers.add(self.part)
        parts[self.facts.connection()] = first, numbers
        self.first = None if first is self else first


class Opener:
    """Opens sources, by the words of zkreport."""

    def __init__(self, parser, words):
        self.parser, self.progress = parser, zkr.Progress("zkreport")
        self.words = argparse.Namespace(recording=None, times=None, zkdump=words.zkdump, profile=words.profile,
                                        limit=words.limit)

    @contextlib.contextmanager
    def conversation(self, source):
        """The messages of a source: a Listing, or a Joined. What is wrong with them is reported with the file's
        name."""
        if source.path is None:
            yield Nothing(source.name, (), self.progress)
            return
        with contextlib.ExitStack() as opened:
            try:
                talk = inputs.conversation(self.parser, self.words, source.path, opened, True, self.progress,
                                           lambda: None, lambda _: ["--lines"], source.facts)
            except zkr.Damaged as damage:
                raise ValueError(f"{source.path}: {damage}") from None
            talk.file = source.path
            with talk.complaints():
                yield talk


class Nothing(listing.Conversations):
    """No messages."""

    def __iter__(self):
        return iter(())

    def left(self):
        return []

    def connections(self):
        return []


def sources_of(paths, folder, port, warnings):
    """The sources of all these files, in order. Recordings that are made of captures go to the folder; what could not
    be read of a capture goes to the warnings."""
    parts = {}
    for path in paths:
        if path == listing.STANDARD_INPUT:
            yield from captured(path, path, os.path.join(tempfile.mkdtemp(dir=folder), "capture"), port, warnings)
            continue
        if pathlib.Path(path).is_fifo():
            raise ValueError(f"{path} is a pipe, and a report reads its files more than once: name a file, or - for a "
                             "capture on standard input")
        path = packed.in_folder(path, folder)
        with open(path, "rb") as stream:
            mark = stream.read(4)
        name = os.path.basename(path)
        if mark in zkr.MARKS:
            found = Source(path, name.removesuffix(".zkr"))
            found.take_facts(facts.facts_of(path), parts)
            yield found
        elif mark.startswith(zkr.CAPTURES):
            yield from captured(path, name, os.path.join(tempfile.mkdtemp(dir=folder), "capture"), port, warnings)
        elif LISTINGS.match(mark):
            yield Source(path, name.removesuffix(".show"), mark)
        else:
            raise ValueError(f"{path} is no capture, no recording, no listing of zkdump show, and has no lines of "
                             "zkjson")


def captured(path, name, prefix, port, warnings):
    """The connections of a capture: recordings that begin with the prefix."""
    words = [sys.executable, TOOLS / "pcap2zkr.py", "--times", "--late", "--port", str(port), path, prefix]
    done = to_a_signal(words) if path == listing.STANDARD_INPUT else \
        subprocess.run(words, stdout=subprocess.PIPE, stderr=subprocess.PIPE, check=False)
    lines, error = (os.fsdecode(each).strip() for each in (done.stdout, done.stderr))
    lines, troubles = lines.splitlines(), [error.removeprefix("pcap2zkr.py: ")] if error else []
    if done.returncode < 0:
        troubles.append(f"{path}: pcap2zkr.py was ended by signal {-done.returncode}, maybe before the capture's end")
    if not lines:
        raise ValueError("; ".join(troubles) or f"{path}: the capture has no connection to port {port}")
    warnings += troubles
    parts = {}
    for line in lines:
        yield source_of(line, name, prefix, parts)


def to_a_signal(words):
    """Runs a converter of standard input to its end, or to a signal, which ends it alone: what it has read by then is
    reported."""
    running, signals = [], []

    def end(number, _):
        signals.append(number)
        for converter in running:
            converter.terminate()
    before = {number: signal.signal(number, end) for number in packets.ENDING}
    try:
        with subprocess.Popen(words, stdout=subprocess.PIPE, stderr=subprocess.PIPE,
                              start_new_session=True) as converter:
            running.append(converter)
            if signals:
                converter.terminate()
            out, error = converter.communicate()
    finally:
        for number, handler in before.items():
            signal.signal(number, handler)
    return subprocess.CompletedProcess(words, converter.returncode, out, error)


def source_of(line, name, prefix, parts):
    """What a line of pcap2zkr says. The lines of a connection are those with its ends, up to the one that says how it
    ended: `parts` has by these ends the first part of each that hasn't ended yet, and which part the last one was."""
    recording, client, server, begun, ended, words = CAPTURED.fullmatch(line).groups()
    found = Source(None if recording == "-" else recording, f"{name} {client}")
    found.server, found.begun, found.ended = server, milliseconds(begun), ended and milliseconds(ended)
    found.take_words(words.split())
    if found.path:
        found.facts = facts.facts_of(found.path) if os.path.exists(found.path) else None
        if found.facts:     # whose times have microseconds
            found.begun, found.ended = found.facts.begun, found.facts.ended
    first, last = parts.pop((client, server), (found, 0))
    found.first = None if first is found else first
    found.part = int(PART.fullmatch(recording.removeprefix(prefix))[1] or 1) if found.path else last + 1
    if ENDED.isdisjoint(found.notes):
        parts[client, server] = first, found.part
    return found


def milliseconds(text):
    """Milliseconds since 1970 of a time as zkr.clock spells it."""
    moment = datetime.datetime.fromisoformat(text.removesuffix("Z"))
    return (moment - datetime.datetime(1970, 1, 1)) / datetime.timedelta(milliseconds=1)
