"""The process that reads a connection, between pipes for which nothing waits: zkcolumns, where it is there, which is the
proved library's passage (zkcolumns/follow.c), and else `zkdump show`. Both have the same lines.

It writes a message's line as soon as its last byte has come, before the next read, and it waits if the reader of its lines
does. A refusal has its line, too. Then both sides begin anew after the refused frame, and a pair that nobody sent is given
first, so that each reply is known by its turn from there on. Replies to earlier requests aren't given.
"""

import functools
import os
import struct
import subprocess

from . import program, zkr
from .loop import BLOCK, READ, WRITE

HEAD = zkr.Head()
FOLLOW = "--follow"
GO_ON = HEAD.piece(b"R", 0, b"")        # what zkcolumns waits for after a refusal
ASKED = {zkr.CLIENT: struct.pack(">iiiiB", 13, 1, 3, 0, 0), zkr.SERVER: struct.pack(">iiqi", 16, 1, -1, -101)}


def command(words):
    """The program that reads each connection, with its options, by these arguments: zkcolumns, where it runs."""
    options = ["--profile", words.profile, "--limit", str(words.limit)]
    if not program.lacks_columns(words.zkdump):
        found = [program.found_columns(), *options, "--waiting", str(zkr.USUAL_WAITING), FOLLOW]
        if not program.trouble_of(*found):
            return found
    return [words.zkdump, "show", *options]


def begun(watch, who):
    """A process of the watch's command."""
    return (Follower if watch.command[-1] == FOLLOW else Lister)(watch, who)


class Lister:
    """A process `show`, which `watch` serves: `who.write()` is called once more can be written to it, and `who.read()`
    once it has written something. `waiting` is what waits to be written to it; `is_read` is true once it has ended, and
    all its lines were read. An OSError: there is no such process."""

    name, made_up = "zkdump show", zkr.MADE_UP

    def __init__(self, watch, who):
        self.watch, self.who, self.is_read = watch, who, False
        self.waiting, self.begun = bytearray(HEAD.to_bytes()), bytearray()
        self.process = subprocess.Popen(watch.command, stdin=subprocess.PIPE, stdout=subprocess.PIPE, bufsize=0,
                                        start_new_session=True)
        self.stdin, self.stdout = self.process.stdin, self.process.stdout
        for file in (self.stdin, self.stdout):
            os.set_blocking(file.fileno(), False)
        self.listen()

    def listen(self, listens=True):
        """Waits for lines, or no longer does."""
        self.watch.wait_for(self.stdout, READ if listens else 0, self)

    def give(self, side, data):
        """Adds bytes of a side to what waits."""
        for at in range(0, len(data), zkr.LARGEST_PIECE):
            self.waiting += HEAD.piece(side, 0, data[at:at + zkr.LARGEST_PIECE])

    def step(self, file, _events):
        (self.who.write if file is self.stdin else self.who.read)()

    def write(self, is_all):
        """Writes what waits, as far as it is taken, and closes the pipe after it where that is all."""
        if self.stdin.closed:
            return
        try:
            while self.waiting and (count := self.stdin.write(self.waiting[:BLOCK])):
                del self.waiting[:count]
        except BrokenPipeError:
            self.waiting.clear()
        self.watch.wait_for(self.stdin, WRITE if self.waiting else 0, self)
        if is_all and not self.waiting:
            self.stdin.close()

    def lines(self):
        """The lines that have come and were not read yet; the last of all may have no end."""
        data = self.stdout.read(BLOCK)
        if data is None:
            return []
        *ends, rest = data.split(b"\n")
        self.is_read = not data
        if self.is_read and self.begun:
            ends = [b""]
        lines = []
        for end in ends:
            lines.append(bytes(self.begun + end))
            self.begun.clear()
        self.begun += rest
        return lines

    def leave(self, then=lambda status: None):
        """Writes and reads no more; once the process has ended, `then` is called with its status."""
        self.waiting.clear()
        for file in (self.stdin, self.stdout):
            self.watch.wait_for(file, 0)
            file.close()
        self.reap(then)

    def reap(self, then):
        status = self.process.poll()
        if status is None:
            self.watch.after(0.01, functools.partial(self.reap, then))
        else:
            then(status)

    def anew(self):
        """What reads on after a refused frame, of which `show` reads no more: another process, to which the pair
        `made_up` is given first."""
        self.leave()
        return type(self)(self.watch, self.who)

    def kill(self):
        """Ends the process at once."""
        self.waiting.clear()
        self.process.kill()


class Follower(Lister):
    """A process zkcolumns, which reads on after a refused frame: by zk_through_resume (docs/LIBRARY.md)."""

    name, made_up = "zkcolumns", ASKED

    def anew(self):
        """Has it read on from here. It drops what it was given before, also what waits to be written."""
        self.waiting += GO_ON
        return self
