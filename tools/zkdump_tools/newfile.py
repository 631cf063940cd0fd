"""Files that a tool makes."""

import io
import os


def for_the_owner(path, flags):
    return os.open(path, flags, 0o600)


class NewFile:
    """A file that wasn't there yet, and that its owner alone may read: recordings have passwords."""

    def __init__(self, path):
        self.path, self.waiting, self.size = path, bytearray(), 0
        self.file = io.FileIO(path, "xb", opener=for_the_owner)

    def put(self, data):
        """Writes these bytes, or after an OSError none of them."""
        if not self.waiting:
            try:
                if self.file.write(data) == len(data):
                    self.size += len(data)
                    return
            except OSError:
                pass            # it comes again where they wait
            self.take_back()
        self.waiting += data
        self.flush()

    def write(self):
        """Writes what waits. After an OSError, which names the file, the file may have a part of it."""
        data, at = memoryview(self.waiting), 0
        try:
            while at < len(data):
                at += self.file.write(data[at:])
        except OSError as error:
            raise OSError(error.errno, error.strerror, self.path) from error

    def end(self, written):
        """Ends a write: what waited was written, or else none of it is to stay in the file, or to wait."""
        size, self.waiting = len(self.waiting), bytearray()
        if written:
            self.size += size
        else:
            self.take_back()

    def take_back(self, count=0):
        """Takes back the bytes of a write that was not whole, and `count` before them."""
        self.size -= count
        self.file.truncate(self.size)
        self.file.seek(self.size)

    def flush(self):
        """Writes what waits, or after an OSError none of it."""
        flush([self])


def flush(files):
    """Writes what waits, to all of these files, or after an OSError to none of them."""
    written = False
    try:
        for file in files:
            file.write()
        written = True
    finally:
        for file in files:
            file.end(written)
