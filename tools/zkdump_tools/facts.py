"""The facts of a recording: what is known of it that its bytes don't say.

They are in NAME.facts.json beside NAME.zkr: one line with an object of JSON. Its `facts` is the version of this format,
1. `recording` marks the recording that they are of, and `times` the file of its times, if they have one: each has the
number of its bytes, `bytes`, and `sha256`, the SHA-256 of its first and its last 65,536 bytes, one after the other. The
other members are the fields of Facts, but for those that have their usual value. Facts that were written when the
recording began mark 0 bytes.
"""

import json
import math
import os
import re
from typing import NamedTuple, Optional

from . import files, running
from .newfile import NewFile
from .operations import PROFILES

VERSION, MARKED, LONGEST = 1, 1 << 16, 1 << 16
SIDES = ("C", "S")
NO_BYTES = {"C": 0, "S": 0}
MISSING = {"lost", "hole", "unfinished"}     # the facts by which bytes are missing, or may be
PRINTABLE, LONGEST_NAME = re.compile("[!-~]{1,200}"), 300
SESSION = re.compile("0x[0-9a-f]{1,16}")


class Facts(NamedTuple):
    """What is known of a recording, or of a connection that has none. Times are milliseconds since 1970.

    A connection that was not captured whole has several recordings: `part` counts them, from 1, and the `client`, the
    `server`, when the connection began, `connected`, and its `session`, in hexadecimal, are the same in all. Of the
    last part, `closed` is the side that ended the connection first, `reset` that which reset it, `broken` the side and
    the error that broke it; or it is still `open`. `late` says that it began before the capture, and `snapped` that
    packets were not captured whole. `lost` counts the bytes of each side that are missing before the recording, and
    `hole` names the sides of which bytes are missing after it. `skipped` counts captured bytes that are left out, and
    `unasked` replies that are, where it begins with connect messages that were made up; `overlooked` says that replies
    to its requests may be among what is left out, or was lost before a later recording. `unfinished` says that the
    recording is still being made, or that its end could not be written.
    """
    tool: Optional[str] = None
    client: Optional[str] = None
    server: Optional[str] = None
    connected: Optional[float] = None
    begun: Optional[float] = None
    ended: Optional[float] = None
    part: int = 1
    session: Optional[str] = None
    profile: Optional[str] = None
    closed: Optional[str] = None
    reset: Optional[str] = None
    broken: Optional[str] = None
    open: bool = False
    late: bool = False
    snapped: bool = False
    lost: dict = NO_BYTES
    hole: tuple = ()
    skipped: Optional[dict] = None
    unasked: int = 0
    overlooked: bool = False
    unfinished: bool = False

    def connection(self):
        """What is the same of all parts of a connection. Where two recordings have the same, and the same `part`, they
        are of two connections, or of one that was recorded twice."""
        return self.client, self.server, self.connected, self.session

    def has_hole(self):
        """Whether bytes are missing before or after it, or may be."""
        return bool(self.hole) or any(self.lost.values()) or self.unfinished

    def loses_replies(self):
        """Whether replies to the requests that wait at its end may be among bytes that are missing or left out."""
        return "S" in self.hole or self.overlooked or self.unfinished

    def words(self):
        """What pcap2zkr and record.py print of it."""
        words = [f"{name}={value}" for name in ("closed", "reset", "broken") if (value := getattr(self, name))]
        words += ["open"] * self.open + ["unfinished"] * self.unfinished
        if any(self.lost.values()):
            words.append(f"lost={counts(self.lost)}")
        elif self.late:
            words.append("late")
        if self.skipped is not None:
            words += [f"skipped={counts(self.skipped)}", f"unasked={self.unasked}"]
        return words + [f"hole={side}" for side in self.hole] + ["snapped"] * self.snapped

    def to_object(self):
        """The members that have another value than usual, as JSON has them."""
        made = {name: value for name, value in self._asdict().items() if value != self._field_defaults[name]}
        return {**made, "hole": list(self.hole)} if self.hole else made


def counts(found):
    return ",".join(f"{side}:{found[side]}" for side in SIDES)


def is_text(value):
    return isinstance(value, str) and bool(PRINTABLE.fullmatch(value))


def is_address(value):
    """Whether this is a text as record.py takes an address: the name of a host may have letters of any script."""
    return isinstance(value, str) and 0 < len(value) <= LONGEST_NAME and value.isprintable()


def is_number(value):
    return type(value) in (int, float) and math.isfinite(value) and value >= 0


def is_count(value):
    return type(value) is int and 0 <= value < 1 << 63


def is_mark(value):
    return isinstance(value, dict) and is_count(value.get("bytes"))


def are_counts(value):
    return isinstance(value, dict) and set(value) == set(SIDES) and all(map(is_count, value.values()))


CHECKS = {
    **dict.fromkeys(("tool", "broken"), is_text), **dict.fromkeys(("client", "server"), is_address),
    **dict.fromkeys(("connected", "begun", "ended"), is_number), **dict.fromkeys(("part", "unasked"), is_count),
    **dict.fromkeys(("open", "late", "snapped", "overlooked", "unfinished"),
                    lambda value: type(value) is bool),
    **dict.fromkeys(("closed", "reset"), lambda value: value in SIDES and isinstance(value, str)),
    **dict.fromkeys(("lost", "skipped"), are_counts),
    "session": lambda value: isinstance(value, str) and bool(SESSION.fullmatch(value)),
    "profile": lambda value: value in list(PROFILES),
    "hole": lambda value: isinstance(value, list) and value in ([], ["C"], ["S"], ["C", "S"]),
}


def from_object(made):
    """The facts of an object, whose members that are no facts are passed over; a ValueError where one can't be."""
    found = {name: made[name] for name in CHECKS if name in made}
    for name, value in found.items():
        if not CHECKS[name](value):
            raise ValueError(f"{name!r} has a value that it can't have")
    return Facts(**{**found, "hole": tuple(found.get("hole", ()))})


def facts_path(path):
    """The file of the facts of the recording at this path."""
    return f"{os.fspath(path).removesuffix('.zkr')}.facts.json"


def mark_of(path):
    """What marks a file: the number of its bytes, and the SHA-256 of its first and its last ones."""
    import hashlib      # it takes longer to load than most recordings without facts to read
    with files.open_again(path, files.RECORDING) as file:
        size, digest = file.seek(0, os.SEEK_END), hashlib.sha256()
        for at in (0, max(0, size - MARKED)):
            file.seek(at)
            digest.update(file.read(MARKED))
    return {"bytes": size, "sha256": digest.hexdigest()}


def begin(path, facts):
    """Writes the facts of the recording at this path before it is there. Until others take their place, they say that
    it is unfinished."""
    put(facts_path(path), {"bytes": 0}, None, facts._replace(unfinished=True))


def write(path, facts, times=None, begun=False):
    """Writes the facts of the recording at this path, which is complete, and whose times are in that file, if any. They
    take the place of those that were written when it began, if they were; else the file must not exist."""
    marks, to = (mark_of(path), times and mark_of(times)), facts_path(path)
    if not begun:
        put(to, *marks, facts)
        return
    try:
        put(f"{to}.new", *marks, facts)
    except OSError as error:
        raise OSError(error.errno, error.strerror, to) from error
    os.replace(f"{to}.new", to)


def put(path, mark, times, facts):
    """Writes facts to a file that must not exist, and that its owner alone may read."""
    made = {"facts": VERSION, "recording": mark, "times": times, **facts.to_object()}
    new = NewFile(path)
    new.waiting += json.dumps(made).encode("ascii") + b"\n"
    try:
        new.flush()
    except OSError:
        os.unlink(new.path)
        raise
    finally:
        new.file.close()


def read(path):
    """The object of the facts beside the recording at this path, or to which that links; None if there are none. A
    ValueError where these are not such facts."""
    try:
        with files.open_again(facts_path(path), mode="r", encoding="ascii", errors="replace") as file:
            line = file.read(LONGEST + 1)
    except files.NoFile as found:
        raise ValueError(f"it is a {found.kind}, and no file") from None
    except FileNotFoundError:
        linked = os.path.realpath(path)
        return read(linked) if os.path.islink(path) and linked != os.fspath(path) else None
    try:
        made = json.loads(line) if len(line) <= LONGEST else None
    except (ValueError, RecursionError):
        made = None
    if not isinstance(made, dict) or made.get("facts") != VERSION or not is_mark(made.get("recording")):
        raise ValueError(f"it is not what these tools write beside a recording (version {VERSION})")
    return made


def facts_of(path):
    """The facts of the recording at this path; None where it has none, or where they don't fit it, which is
    reported."""
    try:
        made = read(path)
        if made is None:
            return None
        found, mark = from_object(made), mark_of(path)
        if made["recording"] != mark and not found.unfinished:
            size = made["recording"].get("bytes")
            raise ValueError(f"it is of another recording, of {size} bytes" if size != mark["bytes"] else
                             "it is of another recording of the same length")
        return found
    except (ValueError, OSError) as error:
        running.complain(f"{facts_path(path)} is not used: {getattr(error, 'strerror', None) or error}")
        return None


def are_of(path, times):
    """Whether the file of times is that of the recording at this path, by the facts beside either; None where they
    don't say. The second value is the recording whose times they are, by the facts beside them."""
    own, its, said, other = mark_of(path), mark_of(times), None, None
    for recording in dict.fromkeys((os.fspath(path), os.fspath(times).removesuffix(".times"))):
        try:
            made = read(recording) or {}
        except (ValueError, OSError):
            continue
        if made.get("times") and own == made["recording"]:
            said = made["times"] == its
        elif made.get("times") == its:
            said, other = False, recording
    return said, other
