"""What a request watches, in its line as `zkdump show` or zkjson writes it."""

import json

from .. import listing, operations
from . import paths

WATCHING = {operation.name for operation in operations.ALL if "watch:bit" in operation.request.split()}
WATCH_LISTS = ("dataWatches", "existWatches", "childWatches")


def note(line, made):
    """Notes what a request watches, which its reply sets: the node of its path or not, or the paths of a setWatches."""
    if made.op in WATCHING:
        made.is_watching = is_watching(line)
    elif made.op == "setWatches":
        made.watched = watched_paths(line)


def is_watching(line):
    """Whether a request asks for a watch: the field is the last one of its line."""
    return line.endswith(" watch=1") or line.startswith("{") and "true" in line and bool(json.loads(line).get("watch"))


def watched_paths(line):
    """The paths of a setWatches: it has no other texts."""
    if line.startswith("{"):
        made = json.loads(line)
        return [paths.path_of(listing.spelled(path)) for name in WATCH_LISTS for path in made.get(name) or ()
                if path is not None]
    return [paths.path_of(found) for found in listing.QUOTED.findall(line)]
