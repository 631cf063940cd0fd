"""The messages around those that a report's tables lead to, as objects of zkjson with long values cut."""

import collections
import json
import re
import secrets

from .. import listing
from . import gather, paths

AROUND = 5
ALL = 2_000                  # a run of no more messages has all of them in its page
SECRET = ("passwd", "auth")  # their values are left out: a report is handed on
LONG_LINE, LONG_VALUE = 1 << 16, 1 << 14
BUDGET = 1_700_000
# What may be shown of a value: characters of a text, bytes of data, elements of a list. The first that fits is taken.
SHOWN = ((1_000, 1_024, 100), (300, 256, 20), (120, 64, 8), (80, 16, 3), (40, 8, 1))


class Shortening:
    """Cuts the long values of a line before it is parsed. A value that was cut ends with a mark, which no recording can
    know, and with its length in bytes."""

    def __init__(self):
        self.mark = secrets.token_hex(16)
        self.long = re.compile(rf'"[^"]{{{LONG_VALUE},}}"|#[0-9a-f]{{{LONG_VALUE},}}')
        self.cut = re.compile(rf"(.*){self.mark}:(\d+)", re.S)

    def line(self, line):
        return line if len(line) <= LONG_LINE or line.startswith("{") else self.long.sub(self.shorter, line)

    def shorter(self, found):
        spelled = found[0]
        if spelled.startswith('"'):
            front = listing.spelled(paths.front_of(spelled, SHOWN[0][0]))
            return f'{front[:-1]}{self.mark}:{paths.length_of(spelled)}"'
        return f"{spelled[:1 + 2 * SHOWN[0][1]]}{f'{self.mark}:{len(spelled) // 2}'.encode().hex()}"

    def whole(self, text):
        """What is left of a text, and the length that it had, or None if it was not cut."""
        found = self.cut.fullmatch(text)
        return (found[1], int(found[2])) if found else (text, None)

    def value(self, name, value, shown):
        """A value of an object of zkjson. What is cut becomes an object with its length, of a text or data in bytes."""
        most_text, most_data, most_elements = shown
        if isinstance(value, str):
            text, size = self.whole(value)
            most = most_data if name == "blob" else most_text
            if len(text) > most or size is not None:
                return {"text": text[:most], "size": len(text.encode(errors="replace")) if size is None else size}
            return text
        if isinstance(value, list):
            value, more = (value[:-1], value[-1]["more"]) if is_cut(value) else (value, 0)
            more += max(0, len(value) - most_elements)
            return [self.value(name, each, shown) for each in value[:most_elements]] + [{"more": more}] * (more > 0)
        if isinstance(value, dict):
            if "hex" in value:
                return self.data(value, most_data)
            if "text" in value and "size" in value:
                return {"text": value["text"][:most_data if name == "blob" else most_text], "size": value["size"]}
            return {key: self.value(key, left_out(part) if key in SECRET else part, shown)
                    for key, part in value.items()}
        return exact(value)

    def data(self, value, most):
        """Data that are no text, cut; `size` may be there already."""
        found = bytes.fromhex(value["hex"])
        front, mark, size = found.partition(self.mark.encode() + b":")
        size = value.get("size", int(size) if mark else len(front))
        return {"hex": front[:most].hex(), "size": size} if size > most else {"hex": front.hex()}


def exact(value):
    """A number as JSON that a browser reads exactly: one that it would round is the text of its digits."""
    return str(value) if type(value) is int and abs(value) >= listing.TOO_COARSE else value


def is_cut(value):
    """Whether a list ends with an object that says how much more there was."""
    return bool(value) and isinstance(value[-1], dict) and "more" in value[-1]


def left_out(value):
    """What is shown in place of a password: how many bytes it has."""
    if value is None or isinstance(value, dict) and "secret" in value:
        return value
    size = len(value["hex"]) // 2 if isinstance(value, dict) and "hex" in value else len(str(value).encode())
    return {"secret": size}


class Window:
    """The messages around the linked ones of one connection."""

    def __init__(self, linked, everything, object_of):
        self.linked, self.everything, self.object_of = linked, everything, object_of
        self.before, self.until, self.last = collections.deque(maxlen=AROUND), 0, max(linked, default=0)
        self.found = []

    def take(self, line, made, asked):
        """Takes the next message, and the request that it answers."""
        linked = self.linked
        if self.everything or made.n in linked or asked and asked.n in linked:
            self.found.extend(self.object_of(*each) for each in self.before)
            self.before.clear()
            self.found.append(self.object_of(line, made, asked))
            self.until = made.n + AROUND
            linked -= {asked.n, made.n} if asked else {made.n} if made.op == listing.EVENT else set()
        elif made.n <= self.until:
            self.found.append(self.object_of(line, made, asked))
        else:
            self.before.append((line, made, asked))

    def is_over(self, n):
        """Whether no message after message n is needed."""
        return not self.everything and not self.linked and n > max(self.last, self.until)


class Windows:
    """The messages around the linked ones, connection by connection."""

    def __init__(self, links, everything):
        self.linked = collections.defaultdict(set)
        for connection, n in links:
            self.linked[connection].add(n)
        self.everything, self.shortening, self.windows = everything, Shortening(), {}

    def read(self, source, connections, opener):
        """Reads a source again, which has these connections."""
        by_name = {each.known.name: Window(self.linked[each.number], self.everything, self.object)
                   for each in connections if each.known}
        self.windows.update((each.number, by_name[each.known.name]) for each in connections if each.known)
        wanted = {name for name, window in by_name.items() if not window.is_over(1)}
        if not wanted:
            return
        with opener.conversation(source) as talk:
            for line, made, asked in talk:
                name = made.connection.name
                if name not in wanted:
                    continue
                if made.path and len(made.path) > LONG_VALUE:
                    made.path = self.shortening.line(made.path)
                window = by_name[name]
                window.take(self.shortening.line(line), made, asked)
                if window.is_over(made.n):
                    wanted.discard(name)
                    if not wanted:
                        break

    def object(self, line, made, asked):
        found = gather.object_of(line, made, asked)
        if type(made.moment) is int:
            found["at"] = made.moment       # a float in the line has not its whole milliseconds
        return self.shortening.value(None, found, SHOWN[0])

    def to_json(self):
        """By connection, its messages: each value is cut to what all of them have room for."""
        found = {number: window.found for number, window in self.windows.items() if window.found}
        for shown in SHOWN:
            text = json.dumps({number: [self.shortening.value(None, each, shown) for each in found]
                               for number, found in found.items()}, separators=(",", ":"))
            if len(text) <= BUDGET:
                break
        return text
