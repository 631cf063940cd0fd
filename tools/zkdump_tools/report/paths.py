"""Paths as a report keeps them: a text, or the front of a long one with its length."""

import hashlib
from typing import NamedTuple

from .. import listing

LONGEST, FRONT = 300, 100       # characters of a path's spelling in a line, and of the front of a longer one


class Cut(NamedTuple):
    """The front of a long path, its length in bytes, and a number that differs from those of other paths of that
    front."""
    front: str
    size: int
    key: int


def path_of(spelled):
    """A path of its spelling in a line; None for null, and if there is none."""
    if spelled is None or spelled == "~":
        return None
    if len(spelled) <= LONGEST:
        return listing.text(spelled)
    digest = hashlib.blake2b(spelled.encode(), digest_size=8).digest()
    return Cut(front_of(spelled, FRONT), length_of(spelled), int.from_bytes(digest, "big"))


def front_of(spelled, most):
    """The first characters of a text, of its spelling."""
    return next(listing.parts_of_text(spelled, 0, len(spelled)), "")[:most]


def length_of(spelled):
    """How many bytes a text has, of its spelling."""
    return len(spelled) - 2 - 2 * spelled.count("\\")


def shown(path):
    """A path as a line spells it; a long one with its length after it."""
    return f"{listing.spelled(path.front)}.. {path.size} bytes" if isinstance(path, Cut) else listing.spelled(path)
