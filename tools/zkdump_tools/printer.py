"""Lines that a proxy prints, written so that no connection ever waits for their reader."""

import os
import select
import threading
import time

MOST_HELD = 1 << 20
GATHERING = 0.005           # the seconds in which lines are gathered: each time that it wakes delays the connections


class Printer(threading.Thread):
    """Writes lines to the file of this number, each after `head`, in a thread of its own. It holds MOST_HELD bytes that
    nobody reads, and its longest line; what comes after them is lost, and so is what can't be written, for which
    `failed(error)` is called."""

    def __init__(self, number, head="", failed=lambda error: None):
        super().__init__(daemon=True)
        self.number, self.head, self.failed = number, head, failed
        self.lines, self.held, self.longest, self.ends, self.change = [], 0, 0, False, threading.Condition()
        self.printed = {}
        self.start()

    def print(self, text):
        """Writes a line, and returns whether it was taken."""
        line = f"{self.head}{text}\n".encode(errors="backslashreplace")
        with self.change:
            if self.held - self.longest >= MOST_HELD:
                return False
            self.lines.append(line)
            self.held += len(line)
            self.longest = max(self.longest, len(line))
            self.change.notify_all()
        return True

    def print_once(self, text, seconds=60):
        """Writes a line that may come thousands of times: once in `seconds`."""
        now = time.monotonic()
        if now - self.printed.get(text, -seconds) >= seconds:
            self.printed[text] = now
            self.print(text)

    def is_full(self):
        """Whether no more should come until some is read."""
        return self.held >= MOST_HELD

    def run(self):
        while True:
            with self.change:
                self.change.wait_for(lambda: self.lines or self.ends)
                lines, self.lines = self.lines, []
            if not lines:
                return
            data = b"".join(lines)
            try:
                self.write(memoryview(data))
            except OSError as error:
                self.failed(error)
            with self.change:
                self.held -= len(data)
                self.longest = max(map(len, self.lines), default=0)
                self.change.notify_all()
            time.sleep(GATHERING)

    def write(self, data):
        while data:
            try:
                data = data[os.write(self.number, data):]
            except BlockingIOError:
                select.select([], [self.number], [])

    def wait(self, seconds=1):
        """Waits until all lines are written, but no longer than that."""
        with self.change:
            self.change.wait_for(lambda: not self.held, seconds)

    def end(self, seconds=2):
        """Writes what is held, as far as it is read within that time."""
        with self.change:
            self.ends = True
            self.change.notify()
        self.join(seconds)
