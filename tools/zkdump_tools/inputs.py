"""Opens what a tool is to read: listings, recordings, and lines that zkjson has made, with the times of messages."""

import argparse
import contextlib
import itertools
import os
import stat
import subprocess

from . import columns, facts, joined, listing, packed, passages, program, zkr
from .times import times_of

UNREAD = object()


def add_words(parser):
    """Adds the arguments that say what is read."""
    parser.add_argument("inputs", metavar="FILE", nargs="*", help="listings, or recordings, whose listings zkdump show "
                        "makes; or a folder of recordings, or @LIST, a file with a path on each line, of which what "
                        "can't be read becomes a row; without one, a listing on standard input")
    parser.add_argument("--recording", metavar="FILE", help="the recording that the listing is of, for its times")
    parser.add_argument("--times-file", metavar="FILE", dest="times", help="the times of its pieces (RECORDING.times)")
    parser.add_argument("--times", dest="times", help=argparse.SUPPRESS)    # as it was called
    passages.add_words(parser)
    program.add_program(parser)


def refuse_repetition(parser, paths):
    """Refuses arguments that name a file twice, whatever links lead to it."""
    seen = set()
    for path in paths:
        if zkr.real_path(path) in seen:
            parser.error(f"{path} is named twice, and its messages would count twice: name it once")
        seen.add(zkr.real_path(path))


def conversations(parser, words, objects, progress, before_read=lambda: None, fast=None):
    """The conversations that these arguments name, each a Listing, or a Joined where `objects` allows those, or Columns
    where that can be and `fast` gives their options. Before each read `before_read` is called; `progress` is updated
    with the number of lines."""
    if words.recording and len(words.inputs) > 1:
        parser.error("--recording names the recording of one listing: name one listing, or none for standard input")
    if words.times and not words.recording and len(words.inputs) != 1:
        parser.error("--times has the times of one recording: name just that recording")
    refuse_repetition(parser, words.inputs)
    for path in words.inputs or [listing.STANDARD_INPUT]:
        try:
            with packed.recording(path) as file, contextlib.ExitStack() as opened:
                talk = conversation(parser, words, file, opened, objects, progress, before_read, fast)
                talk.file = path
                if file != path:
                    talk.name = talk.connection.name = path
                yield talk
        except zkr.Damaged as damage:
            raise ValueError(f"{words.recording or path}: {damage}") from None


def conversation(parser, words, path, opened, objects, progress, before_read, fast=None, known=UNREAD):
    """The conversation of one input, whose files `opened` closes; `known` are the facts of the recording, where they were
    read before."""
    stream = opened.enter_context(zkr.standard_input() if path == listing.STANDARD_INPUT else open(path, "rb"))
    times, name = None, words.recording or path
    source = "standard input" if path == listing.STANDARD_INPUT else path
    mark = stream.peek(4)[:4]
    is_recording = mark in zkr.MARKS
    if mark.startswith(zkr.CAPTURES):
        raise listing.NoListing(f"{source} is a capture, or packed with gzip: pcap2zkr.py makes recordings of a "
                                "capture, and gunzip unpacks other files")
    if known is UNREAD:
        known = facts.facts_of(name) if words.recording or is_recording and path != listing.STANDARD_INPUT else None
    if is_recording:
        if path == listing.STANDARD_INPUT or words.recording:
            parser.error(f"{path} is a recording, and --recording is for a listing: leave it out"
                         if words.recording else "standard input is a recording: name its file as the argument")
        if stat.S_ISFIFO(os.fstat(stream.fileno()).st_mode):
            raise listing.NoListing(f"{path} is a pipe, and a recording is read more than once: name a file")
        if found := columns_of(words, path, fast, known, progress):
            return found
        lines = lines_of_show(parser, words, path, before_read)
        times = times_of(parser, path, words.times, False, opened)
    else:
        if words.recording:
            times = times_of(parser, words.recording, words.times, True, opened)
        elif words.times:
            parser.error(f"--times is for a recording, and {source} is a listing: add --recording with its recording")
        lines = listing.lines_of(stream, before_read)
    first = next(lines, None)
    if first is None:
        raise listing.NoListing(f"{source} is empty: a listing has at least its last line, as zkdump show writes it")
    lines = itertools.chain([first], lines)
    if objects and first.startswith("{"):
        return joined.Joined(name, lines, progress)
    return listing.Listing(name, lines, times, progress, is_recording, known)


def columns_of(words, path, fast, known, progress):
    """The columns of a recording; None where the plain form has to read it."""
    options = fast and fast(path)
    if options is None:
        return None
    lacking = columns.lacks(words, "--lines" not in options)
    if not lacking:
        times = columns.times_options(path, words.times)
        options = [*(times or ()), *options]
        return None if times is None else columns.opened(words, path, known, progress, options)
    if os.path.getsize(path) >= columns.WORTH_A_LINE and not columns.said:
        columns.said = True
        zkr.report(f"this takes longer than it could, since {lacking} (tools/README.md, \"The fast way\")")
    return None


def messages_of(parser, words, path, progress):
    """The messages of a recording, whatever its times and its facts, as columns where that can be."""
    if not columns.lacks(words, False) and (found := columns.opened(words, path, None, progress, ["--lines"])):
        return found
    return listing.Listing(path, lines_of_show(parser, words, path, lambda: None), None, progress, True)


def lines_of_show(parser, words, path, before_read):
    """The lines of a recording, as zkdump show writes them; where that ends at what it doesn't read, those of a passage
    from there on."""
    program.need(parser, words.zkdump)
    bounds, count = passages.Bounds.of(words), 0
    if not passages.has_other_head(path, words):
        shown = lines_of_program(words.zkdump, path, bounds, before_read)
        for line in shown:
            if line.startswith(".") and passages.may_go_on(line):
                shown.close()
                break
            count += 1
            yield line
        else:
            return
    yield from itertools.islice(passages.lines(words.zkdump, path, bounds, before_read), count, None)


def lines_of_program(zkdump, path, bounds, before_read):
    """The lines of a recording, as far as zkdump show reads it."""
    with open(path, "rb") as recording:
        show = subprocess.Popen([zkdump, "show", *bounds.options()], stdin=recording, stdout=subprocess.PIPE)
    with passages.ended(show, path):
        yield from listing.lines_of(show.stdout, before_read)
