"""What a passed gate says at its end of what it has passed: the commit, and the checksums of the program and the
libraries.

    gate.py [--commit|COMMIT]

./test prints these lines last, and ./release takes a log only where they are its last lines still. With --commit the
commit alone is printed, which ./test gives at its end as COMMIT: if that is another one then, the lines have none.
"""

import hashlib
import subprocess
import sys

from packaging.build_library import LIBRARY, PLAIN, TOP

PROGRAM = TOP / "crates" / "zkdump" / "out" / "zkdump"


def git(*words):
    return subprocess.run(["git", *words], cwd=TOP, capture_output=True, text=True, check=True).stdout.strip()


def commit():
    return "none, since the tree has changes" if git("status", "--porcelain") else git("rev-parse", "HEAD")


def lines(begun=None):
    """These lines; `begun` is the commit with which the gate began."""
    now = commit()
    same = begun in (None, now) or now.startswith("none")
    yield f"commit: {now if same else 'none, since the gate began with another'}"
    for path in (PROGRAM, LIBRARY, PLAIN):
        yield f"sha256 of {path.relative_to(TOP)}: {hashlib.sha256(path.read_bytes()).hexdigest()}"


def faults(log):
    """Why the log is not of a gate that passed for this commit, program and library."""
    wanted = list(lines())
    found = log.splitlines()[-len(wanted):]
    for line in wanted:
        if line not in found:
            name, _, value = line.partition(": ")
            other = next((each.partition(": ")[2] for each in found if each.startswith(f"{name}: ")), None)
            yield f"the log ends without {line!r}: name what ./test printed when it passed" if other is None else \
                f"the log is of another {name}: {other}, not {value}; run ./test again"


if __name__ == "__main__":
    try:
        print(commit() if sys.argv[1:] == ["--commit"] else "\n".join(lines(*sys.argv[1:2])))
    except (OSError, subprocess.CalledProcessError) as error:
        sys.exit(f"gate.py: {error}")
