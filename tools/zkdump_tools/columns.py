"""Reads recordings as columns, which the program zkcolumns writes (zkcolumns/columns.c): a record for each message.

It is the fast form of listing.Listing, which reads the lines of `zkdump show`, and says the same. Where the program
isn't there, the plain form is used (program.py).
"""

import collections
import importlib
import json
import os
import struct
import subprocess

from . import errors, facts, forms, listing, operations, passages, program, zkr

numpy = None        # loaded where something is counted: it takes longer than most listings, and 15 MB

HEAD, PATCH = struct.Struct("=IIIIQQQQddqq"), struct.Struct("=QII")
NAMES, MESSAGES, END = range(3)
NOT_READ = 4                    # the status of a recording whose trouble the plain form reports
ERROR, XID, PATH, NULL_PATH, CHOSEN, WATCH, MADE_UP, BY_NUMBER = (1 << bit for bit in range(8))
CLIENT = ord("C")
CONNECT, EVENT = -1 << 31, (-1 << 31) + 1      # in place of an operation's number
# The fields of a record, as zkcolumns/state.h has them.
FIELDS = (("n", "u8"), ("of", "u8"), ("moment", "f8"), ("asked_moment", "f8"), ("microseconds", "f8"), ("zxid", "i8"),
          ("text", "u8"), ("text_length", "u4"), ("at_length", "u4"), ("path", "u4"), ("path_length", "u4"),
          ("xid", "i4"), ("operation", "i4"), ("error", "i4"), ("flags", "u2"), ("side", "u1"), ("spare", "u1"))
LETTERS = {"u8": "Q", "f8": "d", "i8": "q", "u4": "I", "i4": "i", "u2": "H", "u1": "B"}
RECORD = struct.Struct("=" + "".join(LETTERS[kind] for _, kind in FIELDS))
Record = collections.namedtuple("Record", [name for name, _ in FIELDS])
TEXT, WHOLE_TEXT, DATA = 1, 2, 3
MOST_EXACT = 2 ** 52            # microseconds that counted.py counts in arrays
MOST_WHOLE = 2 ** 53            # microseconds of which a double has each; longer ones have no fractions (recording.c)
# The names that the library may lack, for texts; what isn't in its list of names is in these.
NAMES_OPTIONS = ("--operations", ",".join(f"{each.number}={each.name}" for each in operations.ALL),
                 "--errors", ",".join(f"{number}={name}" for number, name in errors.NAMES.items()))
PIPE_SIZE, F_SETPIPE_SZ = 1 << 20, 1031
WORTH_A_LINE = 1 << 23          # the size of a recording of which a line says what would be faster
said = False


def lacks(words, counted):
    """What is missing for columns, or None; where they are `counted`, that is numpy too."""
    if lacking := program.lacks_columns(words.zkdump):
        return lacking
    return "Python's numpy is not installed" if counted and not has_numpy() else None


def has_numpy():
    """Whether numpy is there; then it is loaded."""
    global numpy
    if numpy is None:
        try:
            numpy = importlib.import_module("numpy")
        except ImportError:
            return False
    return True


class Block:
    """Messages of a recording: `records` as bytes, `paths`, and `text` with the `patches` that Python has to write."""

    def __init__(self, records, patches, paths, text):
        self.records, self.patches, self.paths, self.text = records, patches, paths, text
        self.moved = []     # the places of patches, and how much longer the text is after each

    def array(self):
        """The records as an array of numpy."""
        return numpy.frombuffer(self.records, dtype=list(FIELDS))

    def tuples(self):
        return map(Record._make, RECORD.iter_unpack(self.records))

    def path(self, record):
        """The path of a record as a line spells it; None if it has none."""
        if not record.flags & PATH:
            return None
        if record.flags & NULL_PATH:
            return "~"
        return listing.spelled(self.paths[record.path:record.path + record.path_length].decode())

    def patch(self):
        """Writes what the program left to Python."""
        if not self.patches:
            return
        parts, at, longer = [], 0, 0
        for place, length, kind in PATCH.iter_unpack(self.patches):
            value = PATCHES[kind](self.text[place:place + length])
            parts += self.text[at:place], value
            at, longer = place + length, longer + len(value) - length
            self.moved.append((place, longer))
        self.text, self.patches = b"".join((*parts, self.text[at:])), b""

    def lines(self, array):
        """The lines of these records, of which `array` are all or some."""
        self.patch()
        if len(array) == len(self.records) // RECORD.size:
            return self.text
        begins = array["text"].astype("i8")
        ends = begins + array["text_length"]
        if self.moved:
            places, longer = map(numpy.array, zip(*self.moved))
            longer = numpy.concatenate(([0], longer))
            begins, ends = (each + longer[numpy.searchsorted(places, each)] for each in (begins, ends))
        return b"".join([self.text[begin:end] for begin, end in zip(begins.tolist(), ends.tolist())])


def exact(moment, whole):
    """A time, None for none; where a float isn't exact, of the whole milliseconds."""
    return None if moment != moment else moment if moment < listing.TOO_COARSE else int(whole)


def took(microseconds, moment, asked):
    """How long a reply took; what a float has not exactly is of whole milliseconds."""
    return int(microseconds) if microseconds < MOST_WHOLE else (int(moment) - int(asked)) * 1000


def text_of(value):
    return "".join(forms.pieces_of_text(value, 0, len(value)))


PATCHES = {TEXT: lambda found: text_of(listing.spelled(found.decode())).encode(),
           WHOLE_TEXT: lambda found: forms.text(listing.spelled(found.decode())).encode(),
           DATA: lambda found: forms.data("#" + found.hex()).encode()}


class Operations(dict):
    """The names of operations; one that has none is called by its number."""

    def __missing__(self, number):
        return passages.name_of(number)


class Columns(listing.Listing):
    """The messages of a recording, in blocks; or one by one, as those of a Listing are, where `lines` was asked for."""

    def __init__(self, path, words, known, progress, options):
        super().__init__(path, (), None, progress, True, known)
        self.file, self.waiting, self.usual = path, [], (self.connection.known, self.connection.session)
        self.program = subprocess.Popen([program.found_columns(), *passages.Bounds.of(words).options(), *NAMES_OPTIONS,
                                         *options, path], stdout=subprocess.PIPE, stderr=subprocess.PIPE)
        try:
            import fcntl
            fcntl.fcntl(self.program.stdout, F_SETPIPE_SZ, PIPE_SIZE)
        except OSError:
            pass        # a smaller pipe is slower, and no more
        first = self.next_block()
        if first:
            names = json.loads(first[1].text)
            self.operations, self.kinds = (
                kind((int(number), name) for number, name in names[each].items() if number)
                for each, kind in (("operations", Operations), ("events", dict)))
            self.errors = errors.NAMES

    def exactly(self, size):
        found = self.program.stdout.read(size)
        if len(found) != size:
            raise EOFError
        return found

    def next_block(self):
        """The kind of the next block, and the block; None if the program has written none."""
        head = self.program.stdout.read(HEAD.size)
        if len(head) == HEAD.size:
            kind, records, patches, known, paths, text, session, backwards, *times = HEAD.unpack(head)
            try:
                block = Block(*(self.exactly(size) for size in
                                (records * RECORD.size, patches * PATCH.size, paths, text)))
            except EOFError:
                kind = None
            if kind is not None:
                connection = self.connection
                connection.known, connection.backwards = bool(known) or self.usual[0], backwards
                if session and (known or not self.usual[0]):
                    connection.session = listing.hexadecimal(session)
                connection.begun, connection.ended = map(exact, times[:2], times[2:])
                if kind == END:
                    self.close()
                return kind, block
        self.close()
        return None

    def close(self):
        """Waits for the program's end."""
        self.program.stdout.close()
        self.trouble = self.program.stderr.read().decode(errors="replace").strip()
        self.program.stderr.close()
        self.status = self.program.wait()

    def blocks(self):
        """The blocks of messages, in order. Then the connection has its ending, and the waiting requests are known."""
        n = 0
        try:
            while found := self.next_block():
                kind, block = found
                if kind == END:
                    self.end(block.text.decode(), n + 1)
                    self.waiting = [self.message(block, record) for record in block.tuples()]
                    self.progress.end()
                    break
                n += len(block.records) // RECORD.size
                yield block
                self.progress.show(f"{n:,} lines")
            if self.status:
                raise OSError(f"{self.file}: {self.program.args[0]} has ended with status {self.status}: "
                              f"{self.trouble}")
        finally:
            if not self.program.stdout.closed:      # whoever reads has enough
                self.program.kill()
                self.close()

    def error(self, record):
        """The name of a record's error or kind, or its number."""
        if not record.flags & ERROR:
            return None
        names = self.kinds if record.operation == EVENT else self.errors
        return names.get(record.error) or str(record.error)

    def message(self, block, record):
        """A message, as a Listing has it. A reply has no path."""
        made = listing.Message(self.connection, record.n, chr(record.side),
                               str(record.xid) if record.flags & XID else None, self.operations[record.operation],
                               None if record.of else block.path(record), self.error(record))
        made.decoded = not record.flags & BY_NUMBER
        if record.moment == record.moment:
            made.moment = exact(record.moment, block.text[record.text:record.text + record.at_length] or record.moment)
        if record.microseconds == record.microseconds:
            made.microseconds = took(record.microseconds, made.moment, self.asked_moment(block, record))
        made.chosen, made.made_up = bool(record.flags & CHOSEN), bool(record.flags & MADE_UP)
        return made

    def asked_moment(self, block, record):
        """The time of the request of a reply; where a float isn't exact, of whole milliseconds."""
        return exact(record.asked_moment, block.text[record.text + record.at_length:
                                                     record.text + record.text_length] or record.asked_moment)

    def left(self):
        """The requests that still wait, in the order in which they came."""
        for made in self.waiting:
            made.fate = self.connection.fate()
        return self.waiting

    def __iter__(self):
        requests, connection, operations, nothing, letters = {}, self.connection, self.operations, None, ("S", "C")
        for block in self.blocks():
            text, paths = block.text.decode(), block.paths
            for record in RECORD.iter_unpack(block.records):
                (n, of, moment, _, microseconds, _, begin, length, at_length, place, size, xid, op, _, flags, side,
                 _) = record
                name, xid, path = operations[op], str(xid) if flags & XID else nothing, nothing
                if flags & PATH and not of:
                    path = "~" if flags & NULL_PATH else listing.spelled(paths[place:place + size].decode())
                made = listing.Message(connection, n, letters[side == CLIENT], xid, name, path,
                                       self.error(Record._make(record)) if flags & ERROR else nothing,
                                       len(name) + (len(xid) + 3 if xid else 2))
                if flags & BY_NUMBER:
                    made.decoded = False
                    made.end += 1       # a question mark is before the operation
                middle = begin + at_length
                if moment == moment:
                    made.at = text[begin:middle]
                    made.moment = moment if moment < listing.TOO_COARSE else int(made.at)
                asked = nothing
                if of:
                    asked = requests.pop(of)
                    if microseconds == microseconds:
                        made.microseconds = took(microseconds, made.moment, asked.moment)
                elif side == CLIENT:
                    requests[n] = made
                if flags & MADE_UP:
                    made.made_up = True
                yield text[middle:begin + length], made, asked
        self.waiting = list(requests.values())


def opened(words, path, known, progress, options):
    """The columns of a recording, of which these facts are known; None where the plain form has to read it."""
    found = Columns(path, words, known, progress, options)
    if found.program.returncode is not None and found.status:
        if found.status != NOT_READ:
            raise OSError(f"{path}: {found.program.args[0]} has ended with status {found.status}: {found.trouble}")
        return None
    return found


def times_options(path, beside):
    """The arguments that name a recording's times, as times.times_of finds them; None where the plain form has to say
    what is wrong with them."""
    if not beside and not os.path.exists(zkr.times_path(path)):
        return []
    beside = beside or zkr.times_path(path)
    try:
        return None if facts.are_of(path, beside)[0] is False else ["--times", beside]
    except (OSError, ValueError):
        return None
