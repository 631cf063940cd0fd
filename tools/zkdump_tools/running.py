"""How a tool of this folder runs: its standard streams, its status, its messages on standard error."""

import errno
import fcntl
import os
import resource
import sys
import time

USUAL_FILES = 1 << 16       # open files for which a table of descriptors has room from the start


def allow_many_files():
    """Lets this process have as many open files as the system allows it. The table of their descriptors gets its size
    at once, while there is one thread: where it grows later, Linux has a process of several threads wait, for some
    20 ms each time."""
    _, most = resource.getrlimit(resource.RLIMIT_NOFILE)
    resource.setrlimit(resource.RLIMIT_NOFILE, (most, most))
    try:
        os.close(fcntl.fcntl(0, fcntl.F_DUPFD, min(most, USUAL_FILES) - 1))
    except OSError:
        pass        # it is in use, where there are that few


def shown(text):
    """A text with an escape for each unprintable character."""
    return text if text.isprintable() else "".join(each if each.isprintable() else ascii(each)[1:-1] for each in text)


def described(trouble):
    """Trouble in words, with the file that it is about."""
    if not isinstance(trouble, OSError) or not trouble.strerror:
        return str(trouble)
    file = "" if trouble.filename is None else f"{os.fsdecode(trouble.filename)}: "
    # Every file that a tool writes is named, but for standard output.
    if not file and trouble.errno in (errno.ENOSPC, errno.EDQUOT, errno.EFBIG):
        file = "standard output: "
    return file + trouble.strerror


def name():
    """What this tool is called as."""
    return os.path.basename(sys.argv[0])


def complain(trouble):
    """Reports trouble in one line on standard error, if that can be written."""
    report(f"{name()}: {described(trouble)}")


def report(line):
    """Writes a line on standard error, if that can be written."""
    try:
        if sys.stderr:
            print(shown(line), file=sys.stderr, flush=True)
    except OSError:
        pass


def standard_input():
    """The bytes of standard input."""
    if sys.stdin is None:
        raise OSError(errno.EBADF, "standard input is closed, or a folder")
    return sys.stdin.buffer


def hold_standard_streams():
    """Keeps the numbers of closed standard streams from files that are opened later."""
    while (held := os.open(os.devnull, os.O_RDWR)) < 3:
        pass
    os.close(held)


def drop_standard_output():
    """Drops standard output, whose reader has gone."""
    os.dup2(os.open(os.devnull, os.O_WRONLY), sys.stdout.fileno())


def tool(main):
    """Runs a tool's main function. An error is reported in one line; the status is then 1 if it is in the input, and
    3 if it is the system's."""
    hold_standard_streams()
    try:
        if sys.stdout is None:
            raise OSError(errno.EBADF, "standard output is closed")
        status = main()
        sys.stdout.flush()
        return status
    except BrokenPipeError:
        drop_standard_output()
        return 3
    except KeyboardInterrupt:
        return 130
    except (ValueError, OSError, MemoryError) as error:
        complain("out of memory" if isinstance(error, MemoryError) else error)
        status = 1 if isinstance(error, ValueError) else 3
    try:
        if sys.stdout:
            sys.stdout.flush()
    except OSError:
        drop_standard_output()
    return status


class Progress:
    """Shows the progress of long work on standard error: on a terminal alone, and only where `may` is true."""

    def __init__(self, what, may=True):
        self.what, self.shown = what, False
        self.due = time.monotonic() + 1 if may and sys.stderr and sys.stderr.isatty() else float("inf")

    def show(self, amount):
        """Shows the amount that is done, once a second; `amount` is a text, or a function that returns it."""
        if time.monotonic() >= self.due:
            self.due, self.shown = time.monotonic() + 1, True
            text = amount() if callable(amount) else amount
            print(f"\r{self.what}: {text}\033[K", end="", file=sys.stderr, flush=True)

    def end(self):
        """Clears the line."""
        if self.shown:
            print("\r\033[K", end="", file=sys.stderr, flush=True)
