"""Recordings that are packed with gzip: each is unpacked to a folder of its own, with what is beside it. What unpacks
them is loaded where there is one, since it takes longer to load than many recordings to read."""

import contextlib
import os
import shutil

from . import facts, zkr

GZIP, SUFFIX, BLOCK = b"\x1f\x8b", ".gz", 1 << 20


def is_packed(path):
    """Whether there is a file at this path that is a packed recording, and no pipe, capture or other packed file."""
    if not os.path.isfile(path) or not zkr.begins_with(path, GZIP):
        return False
    import gzip
    import zlib
    try:
        with gzip.open(path) as file:
            return file.read(4) in zkr.MARKS
    except (OSError, EOFError, zlib.error):
        return False


def unpack(path, folder):
    """Unpacks a packed recording to this folder, and returns where it is. Its times and its facts are those beside a
    recording of its name without .gz, and may be packed, too. An OSError where it is damaged or cut."""
    import gzip
    import zlib
    made = os.path.join(folder, os.path.basename(path).removesuffix(SUFFIX))
    try:
        with gzip.open(path) as packed, open(made, "xb") as out:
            shutil.copyfileobj(packed, out, BLOCK)
    except (EOFError, zlib.error, gzip.BadGzipFile) as damage:
        raise ValueError(f"{path}: it can't be unpacked: {damage}") from None
    for name in (zkr.times_path, facts.facts_path):
        beside, to = name(path.removesuffix(SUFFIX)), name(made)
        if os.path.lexists(beside):
            os.symlink(os.path.abspath(beside), to)
        elif os.path.isfile(beside + SUFFIX):
            with gzip.open(beside + SUFFIX) as packed, open(to, "xb") as out:
                shutil.copyfileobj(packed, out, BLOCK)
    return made


@contextlib.contextmanager
def recording(path):
    """The path of a recording that isn't packed: this one, or while the context lasts an unpacked one."""
    if not is_packed(path):
        yield path
        return
    import tempfile
    with tempfile.TemporaryDirectory(prefix="zkdump-") as folder:
        made = unpack(path, folder)
        try:
            yield made
        except zkr.Damaged:
            raise
        except ValueError as error:
            raise ValueError(str(error).replace(made, path)) from None


def in_folder(path, folder):
    """The path of a recording that isn't packed, as `recording` has it, in a new folder within this one."""
    if not is_packed(path):
        return path
    import tempfile
    return unpack(path, tempfile.mkdtemp(dir=folder))
