"""What a recording's bytes say of it as a whole, and whether a file of times is of it."""

import itertools

from . import facts, files, zkr

LARGEST_CONNECTED = 1 << 10
MADE_UP = b"\xff" * 8       # the session in a connect response that pcap2zkr makes up


def session_of(path):
    """The session that the connect response in the recording at this path has, in hexadecimal; None if it has none."""
    cutter = zkr.Cutter(zkr.LARGEST_FRAMES)
    try:
        with open(path, "rb") as recording:
            for piece in zkr.Reader(recording):
                frames = cutter.take(piece) if piece.side == zkr.SERVER else ()
                if frames:
                    return session_in(frames[0].payload)
                if len(cutter.held[zkr.SERVER]) > LARGEST_CONNECTED:
                    break
    except zkr.Damaged:
        pass
    return None


def session_in(payload):
    """The session of a connect response; None where it has none, or where this is no connect response: a server that
    turns a client down may send a reply's header."""
    session, password = payload[8:16], int.from_bytes(payload[16:20], "big", signed=True)
    is_connected = len(payload) - max(0, password) in (20, 21)
    return f"0x{int.from_bytes(session, 'big'):x}" if is_connected and any(session) and session != MADE_UP else None


def times_beside(path, beside=None):
    """The times of the pieces of the recording at this path, in the file `beside`, by default the one beside it. A
    ValueError where that has another number of times than the recording has pieces, or is of another recording."""
    beside = beside or zkr.times_path(path)
    times = zkr.times_beside(path, beside)
    said, other = facts.are_of(path, beside)
    if said is False and not (other and have_the_same_pieces(path, other)):
        raise ValueError(f"{beside} has the times of another recording than {path}, as the .facts.json beside them "
                         "says: put those of this one there, or take it away")
    return times


def have_the_same_pieces(path, other):
    """Whether these recordings differ in their format at most, as after a migration."""
    try:
        with files.open_again(path, files.RECORDING) as one, files.open_again(other, files.RECORDING) as two:
            return all(mine and its and mine[::2] == its[::2]
                       for mine, its in itertools.zip_longest(zkr.Reader(one), zkr.Reader(two)))
    except (OSError, ValueError):
        return False
