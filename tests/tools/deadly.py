"""In the place of a tool, for test_fleet.py: a recording that ends each process that reads it."""

import os
import signal


def partial(options, paths):
    if "b" in paths:
        os.kill(os.getpid(), signal.SIGKILL)
    return options, paths
