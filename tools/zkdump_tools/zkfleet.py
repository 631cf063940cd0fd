"""Checks many recordings at once, by zkdump check.

    zkfleet.py check [--jobs N | --scheduler ADDRESS] [--all] [--json] [--profile RELEASE] [--limit N] DIR|LIST ..

A DIR has recordings, NAME.zkr in it and below it; a LIST has a path on each line; a recording may be named, too. Each
recording that isn't whole has a line with its ending and how many messages were read until then, or why it couldn't be
read; with --all each has one. Where its facts say that bytes are missing, the line has hole=S (after it) or lost=C:0,S:96
(before it), and the ending is `incomplete` in place of whole, or `unfinished`. Then come the counts of endings, and of
refusals by reason and place. Requests of operations that the profile lacks are passed over, and counted at the end. The
status is 1 if one wasn't whole.
"""

import collections
import json
import os
import subprocess
import sys

from . import facts, fleet, inputs, listing, packed, passages, program, tables, zkr

PLACES = ("side", "reason", "place")
INCOMPLETE = "incomplete"       # in place of whole, where the facts say that bytes are missing


def words_of(arguments=None, kind=zkr.Words):
    parser = kind(__doc__)
    parser.add_argument("command", choices=("check",))
    parser.add_argument("inputs", metavar="DIR|LIST", nargs="+",
                        help="a folder of recordings, or a list of their paths")
    parser.add_argument("--all", action="store_true", help="write a line for whole recordings, too")
    parser.add_argument("--json", action="store_true",
                        help="write one object of JSON a recording, and one of the counts")
    passages.add_words(parser)
    program.add_program(parser)
    fleet.add_words(parser)
    return parser, parser.parse_args(arguments)


def partial(options, paths):
    """What `check` finds of each recording, or an Unread."""
    parser, words = words_of(options, fleet.Strict)

    def one(path):
        with packed.recording(path) as file:
            return finished(check(parser, words, file), file)
    return [fleet.attempt(one, path) for path in paths]


def finished(found, path):
    """What was found of a recording, with what its facts say of missing bytes. Where it is whole, it has another
    ending then."""
    ending, *more = found
    known = facts_of_missing(path)
    if not known:
        return found
    missing = {name: value for name, value in (("lost", facts.counts(known.lost) if any(known.lost.values()) else ""),
                                               ("hole", ",".join(known.hole))) if value}
    if ending["ending"] == "whole":
        ending = {**ending, "ending": "unfinished" if known.unfinished else INCOMPLETE}
    return {**ending, **missing}, *more


def facts_of_missing(path):
    """The facts of a recording, where they are of it and say that bytes are missing; else None."""
    try:
        if facts.MISSING.isdisjoint(facts.read(path) or ()):
            return None
    except (OSError, ValueError):
        return None
    known = facts.facts_of(path)
    return known if known and known.has_hole() else None


def check(parser, words, path):
    """The ending of a recording, its size, and how many requests of it are shown by number alone, by operation."""
    if not passages.has_other_head(path, words):
        with open(path, "rb") as recording:
            checked = subprocess.run([words.zkdump, "check", *passages.Bounds.of(words).options()], stdin=recording,
                                     stdout=subprocess.PIPE, stderr=subprocess.PIPE, check=False)
        if checked.returncode not in (0, 1):
            raise ValueError(checked.stderr.decode(errors="replace").strip() or
                             f"zkdump check has ended with status {checked.returncode}")
        ending = listing.ending_of(checked.stdout.decode().rstrip("\n"), 1)
        if ending["ending"] == "whole":
            return ending, os.stat(path).st_size, {}
    return read(parser, words, path)


def read(parser, words, path):
    """The same, of a recording that zkdump alone doesn't read to its end: how far it can be read."""
    talk, by_number = inputs.messages_of(parser, words, path, zkr.Progress("zkfleet", False)), collections.Counter()
    for _, made, _ in talk:
        if made.side == "C" and not made.decoded:
            by_number[made.op] += 1
    return talk.connection.ending, os.stat(path).st_size, by_number


def endings(words):
    """Each recording with what `check` finds, or with an Unread."""
    for paths, found in fleet.results(words, __name__, sys.argv[1:], paths_of(words.inputs)):
        yield from zip(paths, [found] if isinstance(found, fleet.Unread) else found)


class Counts:
    """How the recordings end."""

    def __init__(self):
        self.recordings = self.bytes = 0
        self.endings, self.refused, self.by_number = (collections.Counter() for _ in range(3))

    def add(self, ending, size, by_number):
        self.recordings, self.bytes = self.recordings + 1, self.bytes + size
        self.by_number.update(by_number)
        self.endings[ending["ending"]] += 1
        if ending["ending"] == "refused":
            self.refused[tuple(ending[name] for name in PLACES)] += 1

    def rows(self):
        """The refusals, the most frequent first."""
        return sorted(self.refused.items(), key=lambda item: (-item[1], item[0]))

    def summary(self):
        return {"recordings": self.recordings, "bytes": self.bytes, "endings": dict(sorted(self.endings.items())),
                "refused": [{**dict(zip(PLACES, key)), "count": count} for key, count in self.rows()],
                **({"byNumber": passages.ordered(self.by_number)} if self.by_number else {})}

    def lines(self):
        yield f"{self.recordings} recordings, {self.bytes} bytes"
        for name, count in sorted(self.endings.items()):
            yield f"{count:>8} {name}"
        for key, count in self.rows():
            yield f"{count:>8} refused: " + " ".join(f"{name}={value}" for name, value in zip(PLACES, key))
        if self.by_number:
            yield f"{len(self.by_number):>8} {tables.by_number(self.by_number)}"


def paths_of(inputs):
    """The recordings that these inputs name."""
    return fleet.expanded(each if is_no_list(each) else f"@{each}" for each in inputs)


def is_no_list(path):
    return path.startswith("@") or path.endswith(".zkr") or os.path.isdir(path) or zkr.is_recording(path) \
        or packed.is_packed(path)


def main():
    parser, words = words_of()
    if not words.scheduler:
        program.prove_runs(parser, words.zkdump)
        words.jobs = words.jobs or os.cpu_count() or 1
    found = Counts()
    for path, result in endings(words):
        unread = isinstance(result, fleet.Unread)
        ending, size, by_number = ({"ending": listing.UNREAD, "reason": result.reason}, 0, {}) if unread else result
        found.add(ending, size, by_number)
        if words.all or ending["ending"] != "whole":
            print(json.dumps({"recording": path, **ending}) if words.json else
                  f"{tables.plain(path)}: {tables.ending(ending, None)}")
    print(json.dumps(found.summary()) if words.json else "\n".join(found.lines()))
    return 0 if set(found.endings) <= {"whole"} else 1
