"""Runs a tool over a Dask cluster on this machine, and kills one of its workers meanwhile.

    cluster.py [--workers N] [--after SECONDS] TOOL WORD ..

Standard output and the status are the tool's.
"""

import argparse
import os
import signal
import subprocess
import sys
import time

import distributed


def main():
    parser = argparse.ArgumentParser()
    parser.add_argument("--workers", type=int, default=2)
    parser.add_argument("--after", type=float, default=1.5)
    parser.add_argument("tool")
    parser.add_argument("words", nargs=argparse.REMAINDER)
    words = parser.parse_args()
    with distributed.LocalCluster(n_workers=words.workers, threads_per_worker=1, processes=True, dashboard_address=None,
                                  silence_logs=50) as cluster:
        with subprocess.Popen([sys.executable, words.tool, *words.words, "--scheduler",
                               cluster.scheduler_address]) as tool:
            time.sleep(words.after)
            os.kill(next(iter(cluster.workers.values())).pid, signal.SIGKILL)
        return tool.returncode


if __name__ == "__main__":
    sys.exit(main())
