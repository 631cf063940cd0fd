"""Opens a recording, and what is beside it, which are read more than once. No pipe is waited for: nothing may come."""

import os
import stat

KINDS = {stat.S_IFIFO: "pipe", stat.S_IFCHR: "device", stat.S_IFBLK: "device"}
RECORDING, BESIDE = "a recording", "what is beside a recording"


class NoFile(ValueError):
    """What is no file that can be read more than once, but of this `kind`."""

    def __init__(self, path, what, kind):
        super().__init__(f"{os.fspath(path)} is a {kind}, and {what} is read more than once: name a file")
        self.kind = kind


def without_waiting(path, flags):
    return os.open(path, flags | os.O_NONBLOCK)


def open_again(path, what=BESIDE, mode="rb", **more):
    """The file at this path, open to be read; NoFile where it is none."""
    file = open(path, mode, opener=without_waiting, **more)
    kind = stat.S_IFMT(os.fstat(file.fileno()).st_mode)
    if kind == stat.S_IFREG:
        return file
    file.close()
    raise NoFile(path, what, KINDS.get(kind, "thing of its own kind"))
