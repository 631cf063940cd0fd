"""A loop that serves files and processes, in which nothing waits: not for an end that doesn't read, not for a file or
a process, and not for the reader of its lines, which a thread writes. Signals end it."""

import os
import selectors
import signal
import socket
import time

from .printer import Printer

BLOCK = 65536
READ, WRITE = selectors.EVENT_READ, selectors.EVENT_WRITE
LAST_WORDS = 30             # the seconds that what is served has to end, unless a second signal comes
ENDING = (signal.SIGINT, signal.SIGTERM, signal.SIGHUP)


class Loop:
    """Serves until a signal comes, or until it is `over`. `others` says in a few words what goes on where lines are
    lost."""

    others = "the connections go on"

    def __init__(self, name):
        self.ready, self.waits, self.due = selectors.DefaultSelector(), set(), {}
        self.signals, self.over = 0, False
        self.heard, self.bell = socket.socketpair()
        self.bell.setblocking(False)
        self.complaints = Printer(2, f"{name}: ")
        self.lines = Printer(1, failed=self.not_printed)

    def busy(self):
        """Whether something is left to do once it is over."""
        return False

    def say(self, text):
        """Writes a line on standard output. Where nobody reads it any more, the rest continues."""
        if not self.lines.print(text):
            self.complaints.print_once(f"nobody reads standard output, so lines are lost; {self.others}")

    def not_printed(self, error):
        """Called in a thread where a line could not be written."""
        self.complaints.print_once(f"standard output: {error.strerror}; lines are lost, and {self.others}")

    def wait_for(self, file, events, who=None):
        """Waits for these events of a file, in place of those before: `who.step(file, events)` is then called."""
        if events and file in self.waits:
            self.ready.modify(file, events, who)
        elif events:
            self.ready.register(file, events, who)
            self.waits.add(file)
        elif file in self.waits:
            self.ready.unregister(file)
            self.waits.discard(file)

    def after(self, seconds, call):
        """Calls `call` once, after `seconds`."""
        self.due[call] = time.monotonic() + seconds

    def hear_signals(self):
        """Counts signals from here on, which then end nothing by themselves."""
        signal.set_wakeup_fd(self.bell.fileno())
        for number in ENDING:
            signal.signal(number, lambda *_: None)
        self.wait_for(self.heard, READ, self)

    def step(self, _file, _events):
        """Counts signals."""
        self.signals += len(self.heard.recv(BLOCK))

    def serve(self, seconds):
        """Serves what is ready; it waits for that, for `seconds` at most."""
        if self.due:
            left = max(0, min(self.due.values()) - time.monotonic())
            seconds = left if seconds is None else min(seconds, left)
        for key, events in self.ready.select(seconds):
            if key.fileobj in self.waits:
                key.data.step(key.fileobj, events)

    def call_what_is_due(self):
        """Calls what was to be called by now."""
        now = time.monotonic()
        for call in [call for call, moment in self.due.items() if moment <= now]:
            del self.due[call]
            call()

    def turn(self, seconds=None):
        """Does what is ready or due; it waits for that, for `seconds` at most."""
        self.serve(seconds)
        self.call_what_is_due()

    def stop(self):
        """Gives what is served time for its last lines."""
        until, self.signals = time.monotonic() + LAST_WORDS, 0
        while self.busy() and time.monotonic() < until and not self.signals:
            self.turn(0.05)

    def end_lines(self):
        """Writes the last lines. It serves nothing then."""
        self.lines.end()
        self.complaints.end()
        signal.set_wakeup_fd(-1)
        for each in (self.ready, self.heard, self.bell):
            each.close()
