"""Continues a tool by a Python that has numpy, where its own has none and it would then be faster.

So that a command of an installation is as fast whatever `python3` of the PATH runs it, as one of pyenv or of a virtual
environment. The environment variable ZKPYTHON names the Python, or is empty for none; else they are those of PLACES.
"""

import importlib.util
import os
import shutil
import subprocess
import sys

from . import columns, zkr

PLACES = ("python3", "/usr/bin/python3")
WORTH_IT = 1 << 22      # the bytes of recordings from which on it is faster, although a Python begins twice more
HAS_NUMPY = "import sys, importlib.util as util; sys.exit(sys.version_info < (3, 9) or not util.find_spec('numpy'))"


def found():
    """Another Python that has numpy, or None."""
    named = os.environ.get("ZKPYTHON")
    for path in PLACES if named is None else filter(None, [named]):
        python = shutil.which(path)
        if python and not same(python, sys.executable) and subprocess.run(
                [python, "-c", HAS_NUMPY], stdin=subprocess.DEVNULL, stderr=subprocess.DEVNULL, check=False,
                stdout=subprocess.DEVNULL).returncode == 0:
            return python
    return None


def same(one, other):
    return os.path.realpath(one) == os.path.realpath(other or "")


def is_worth_it(words):
    """Whether these arguments name much to read, all by this machine, for which numpy alone is missing."""
    if getattr(words, "scheduler", None) or columns.lacks(words, False) or importlib.util.find_spec("numpy"):
        return False
    sizes = (os.path.getsize(path) for path in words.inputs if os.path.isfile(path) and zkr.is_recording(path))
    return bool(words.jobs) or sum(sizes) >= WORTH_IT


def continue_with_numpy(words):
    """Begins the tool again by another Python, where that is worth it. Nothing may be read or written before."""
    script = getattr(sys.modules["__main__"], "__file__", None)
    if script and same(script, sys.argv[0]) and is_worth_it(words):
        if python := found():
            os.execv(python, [python, *sys.argv])
