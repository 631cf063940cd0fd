"""Reports what happened on many connections, as a page for a browser, as text, or as a trace.

    zkreport.py [-o REPORT.html] [--text] [--trace TRACE.json] [--against OTHER] [--port N] [CHOICE ..] INPUT ..
    zkreport.py --text --jobs N|--scheduler ADDRESS [--port N] [CHOICE ..] INPUT ..

An INPUT is a capture of tcpdump or Wireshark, a recording, or a listing of one, also as the lines of zkjson; or a folder
of recordings, in it and below it, or @LIST, a file with a path on each line. A capture has any number of connections. -
is a capture on standard input, as of tcpdump -w -: it is reported at its end, or once Ctrl-C or SIGTERM ends the reading.
Captures have times; recordings have them within (ZKR2) or beside (RECORDING.times). Requests of operations that the
profile lacks count, too: they are shown by number, without their paths.

-o writes one page that needs no other file and no network: the sessions in time, the latency of requests, and tables,
each row of which leads to the messages around it. --text writes the tables to standard output. --trace writes the
requests as trace events, which Perfetto (ui.perfetto.dev) and Chrome open. --against compares the run with another one,
without xids, zxids, sessions and times; it is given once for each file of the other run. The status is 1 if the runs
differ, if the reading stops before a connection's end, or if bytes of one are missing; requests whose replies may come
later or be among these bytes count by themselves.

The page has no passwords of sessions and no credentials, but it has data of nodes: its owner alone may read it.
"""

import contextlib
import itertools
import os
import tempfile

from . import fleet, listing, passages, program, selection, tables, zkr
from .inputs import refuse_repetition
from .report import against, gather, merged, messages, page, sources, summary, text, trace

NAMED = 6       # the files that a page's title names


class Reader:
    """Reads runs: what the arguments choose in files."""

    def __init__(self, parser, words, folder):
        self.port, self.folder, self.chosen = words.port, folder, selection.Selection(words)
        self.opener, self.top = sources.Opener(parser, words), words.top

    def run(self, inputs, tracing=None):
        """What is found of all connections of these files."""
        run = gather.Run()
        for source in sources.sources_of(inputs, self.folder, self.port, run.warnings):
            run.read(source, self.opener, self.chosen, tracing)
        return run

    def read(self, inputs, tracing=None):
        """The summary of all connections of these files."""
        return summary.Summary(self.run(inputs, tracing), self.top)

    def windows(self, found, links):
        """The messages around these; of a short run all."""
        windows = messages.Windows(links, self.chosen.all and found.counts["messages"] <= messages.ALL)
        for source, connections in itertools.groupby(found.run.connections, key=lambda each: each.source):
            windows.read(source, list(connections), self.opener)
        return windows.to_json()

    def compare(self, found, inputs):
        """Compares the run with that of the other files; what is missing of these is reported with the run."""
        other = self.read(inputs)
        found.run.warnings += [*other.run.warnings, *(f"{name}: bytes of it are missing"
                                                      for name in other.run.with_holes),
                               *(f"{name}: not read to the end: {tables.ending(ending, None)}"
                                 for name, ending in other.run.stopped)]
        comparison = against.Comparison(found.run, other.run, self.opener, self.chosen)
        return against.tables(found, other, comparison)


@contextlib.contextmanager
def new_file(path):
    """A new file to write to, or None if there is no path. It is removed if writing it fails."""
    if path is None:
        yield None
        return
    out = zkr.NewFile(path)
    try:
        yield out
        out.flush()
    except BaseException:
        os.unlink(path)
        raise
    finally:
        out.file.close()


def page_of(reader, found, compared, name):
    """The page. The connections are read again, for the messages that the tables lead to."""
    links = found.links()
    if compared and compared["first"] and (here := compared["first"]["messages"][0]):
        links[compared["first"]["connection"], here] = None
    return page.page(name, found, reader.windows(found, links), compared)


def title(inputs):
    """What the page is called: the names of its files, or of the first ones."""
    names = list(dict.fromkeys(os.path.basename(path) for path in inputs))
    more = len(names) - NAMED
    return ", ".join(names[:NAMED]) + (f" and {more} more" if more > 0 else "")


def write_text(found, compared, top):
    """Writes the tables, and what was compared, to standard output."""
    lines = list(text.lines_of(found, top))
    if compared:
        lines += ["", "Compared", *against.lines_of(compared), *text.table(compared["columns"], compared["rows"])]
    print("\n".join(lines))


def words_of(arguments=None, kind=zkr.Words):
    parser = kind(__doc__)
    parser.add_argument("inputs", metavar="INPUT", nargs="+", help="a capture, a recording, a listing, a folder of "
                        "recordings, or @LIST")
    parser.add_argument("-o", "--output", metavar="FILE", help="the page to write")
    parser.add_argument("--text", action="store_true", help="write the tables to standard output")
    parser.add_number("--top", range(1, 1001), default=text.ROWS, help="how many rows of the slowest requests, the "
                      f"busiest paths and the like --text has ({text.ROWS})")
    parser.add_argument("--trace", metavar="FILE", help="the trace to write")
    parser.add_argument("--against", metavar="OTHER", action="append", help="a file of the run to compare with")
    parser.add_number("--port", range(1, 65536), default=2181, help="the server's port in captures (2181)")
    passages.add_words(parser)
    program.add_program(parser)
    selection.add_words(parser)
    fleet.add_words(parser)
    words = parser.parse_args(arguments)
    if not (words.output or words.text or words.trace):
        parser.error("choose what to write: -o FILE, --text or --trace FILE")
    if words.against and (words.session, words.slower, words.begin, words.end) != (None,) * 4:
        parser.error("--against compares what --path and --op choose: leave out the other choices")
    if words.output or words.trace or words.against:
        if words.jobs or words.scheduler:
            parser.error("--jobs and --scheduler are for --text: leave out -o, --trace and --against")
        if any(map(fleet.names_several, words.inputs)):
            words.inputs = fleet.expanded(words.inputs)
    if listing.STANDARD_INPUT in words.inputs and (fleet.is_asked(words) or
                                                   listing.STANDARD_INPUT in (words.against or ())):
        parser.error("- is a capture on standard input, which is read once: leave out --jobs, --scheduler, folders and "
                     "lists, and the other -")
    if not fleet.is_asked(words):
        refuse_repetition(parser, words.inputs)
        refuse_repetition(parser, words.against or ())
    return parser, words


def partial(options, paths):
    """What is found of one file; or an Unread."""
    def one(path):
        parser, words = words_of(options, fleet.Strict)
        with tempfile.TemporaryDirectory(prefix="zkreport-") as folder:
            return Reader(parser, words, folder).run([path])
    return fleet.attempt(one, *paths)


def read_all(parser, words):
    """The summary of many files; what can't be read is a connection without a message. And whether there was such."""
    found, unread = merged.Merged(), False
    for (path,), result in fleet.of_inputs(parser, words, __name__):
        if isinstance(result, fleet.Unread):
            found.add_unread(sources.Source(path, os.path.basename(path)), result.reason)
            unread = True
        else:
            found.add(result)
    return summary.Summary(found.run, words.top), unread


def is_incomplete(found):
    """Whether something is missing of what was to be read; reports what the choices left out."""
    left_out = found.run.left_out.complain()
    return left_out or found.run.warnings or found.run.with_holes or found.run.stopped


def main():
    parser, words = words_of()
    if fleet.is_asked(words):
        found, unread = read_all(parser, words)
        write_text(found, None, words.top)
        return 1 if unread or is_incomplete(found) else 0
    with contextlib.ExitStack() as stack:
        reader = Reader(parser, words, stack.enter_context(tempfile.TemporaryDirectory(prefix="zkreport-")))
        out, traced = (stack.enter_context(new_file(path)) for path in (words.output, words.trace))
        tracing = trace.Trace(traced) if traced else None
        found = reader.read(words.inputs, tracing)
        if tracing:
            tracing.close()
        compared = reader.compare(found, words.against) if words.against else None
        if out:
            # The name of a file may be no UTF-8.
            out.waiting += page_of(reader, found, compared, title(words.inputs)).encode(errors="backslashreplace")
    if words.text:
        write_text(found, compared, words.top)
    return 1 if is_incomplete(found) or compared and compared["first"] else 0
