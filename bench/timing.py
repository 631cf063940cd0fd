"""Runs a command over a recording, and measures what it costs: what run.py and growth.py share.

Times are CPU seconds, which other work on the machine disturbs less than the time on the clock. For a program of one
thread on a quiet machine both are the same. The system counts their sum exactly, and samples what share of it is the
program's own (user) and what the system's.
"""

import argparse
import ctypes
import os
import pathlib
import subprocess
import sys
from typing import NamedTuple

TOP = pathlib.Path(__file__).resolve().parent.parent
BUILT = TOP / "crates" / "zkdump" / "out" / "zkdump"
LONGEST = 120  # CPU seconds, after which a run is ended
WHOLE = b". whole unanswered=0\n"

# A process that this script itself started would count the script's memory as its own. So a shell starts it and ends,
# and the orphan becomes a child of the script. The command begins once the shell has ended, which otherwise might reap
# it. The shell has 1 MB, so less than that is not seen.
START = f"""
in=$0 out=$1; shift; exec 3<&0
{{ read -r begin <&3; ulimit -t {LONGEST}; exec "$@" < "$in" > "$out" 2> /dev/null 3<&-; }} &
echo $!
"""
PR_SET_CHILD_SUBREAPER = 36
ctypes.CDLL(None).prctl(PR_SET_CHILD_SUBREAPER, 1, 0, 0, 0)


class Cost(NamedTuple):
    cpu: float     # seconds, the program's own and the system's
    user: float    # seconds, the program's own
    peak: float    # megabytes of memory, at most
    status: int    # negative where a signal ended the run


def run(command, recording, output=os.devnull):
    """One run, with the recording as standard input."""
    words = ["sh", "-c", START, str(recording), str(output), *map(str, command)]
    with subprocess.Popen(words, stdin=subprocess.PIPE, stdout=subprocess.PIPE) as shell:
        process = int(shell.stdout.readline())
        shell.stdout.close()
        shell.wait()
        shell.stdin.close()
        _, status, usage = os.wait4(process, 0)
    return Cost(usage.ru_utime + usage.ru_stime, usage.ru_utime, usage.ru_maxrss * 1024 / 1e6,
                os.waitstatus_to_exitcode(status))


def good_run(command, recording):
    """One run, whose status has to be 0: what fails early has no figures."""
    cost = run(command, recording)
    if cost.status:
        sys.exit(f"{' '.join(map(str, command))} ended with status {cost.status}")
    return cost


def words(description):
    """A parser of the arguments that both commands have."""
    parser = argparse.ArgumentParser(description=description, formatter_class=argparse.RawDescriptionHelpFormatter)
    parser.add_argument("--program", type=pathlib.Path, default=os.environ.get("ZKDUMP", BUILT),
                        help="the zkdump to measure, in place of $ZKDUMP or the one that was built here")
    parser.add_argument("--core", type=int, help="the core that all runs use (the last one)")
    return parser


def parsed(parser):
    """The parsed arguments; the program is there, and this process and its runs are bound to one core."""
    found = parser.parse_args()
    if not os.access(found.program, os.X_OK):
        sys.exit(f"{found.program} is not there: build it with ./zkdump")
    os.sched_setaffinity(0, {max(os.sched_getaffinity(0)) if found.core is None else found.core})
    return found


def load():
    return f"{os.getloadavg()[0]:.1f}"
