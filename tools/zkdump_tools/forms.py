"""The forms of a listing's lines (docs/FORMATS.md, section 9), and the JSON that zkjson makes of them.

A form is a row of fields, each with a name and a kind. A short line is matched as a whole. A long one is parsed step by
step and becomes pieces of JSON, none of them long, so that it takes no more memory than the line. A line that doesn't
match is parsed in the same way, to find the place.
"""

import codecs
import functools
import json
import re

from . import errors, listing, operations
from .listing import BLOCK, NUMBER, TEXT

READABLE, ASCII = json.JSONEncoder(ensure_ascii=False).encode, json.JSONEncoder().encode
BLANKS = {9: " ", 10: " ", 13: " "}
STAT = ("czxid", "mzxid", "ctime", "mtime", "version", "cversion", "aversion", "ephemeralOwner", "dataLength",
        "numChildren", "pzxid")
HEXADECIMAL = {"czxid", "mzxid", "ephemeralOwner", "pzxid"}
STAT_FORM = "{" + ", ".join(f'"{name}": "0x%x"' if name in HEXADECIMAL else f'"{name}": %d' for name in STAT) + "}"
MASK = 0xffff_ffff_ffff_ffff
USUAL = 64      # lists up to this length are often repeated
BITS = {"0": "false", "1": "true", "-": "null"}


class NoField(ValueError):
    """No field, or one in a wrong place; `at` is the place."""

    def __init__(self, at):
        super().__init__(at)
        self.at = at


def readable(value):
    """A text as JSON, without unprintable characters."""
    return (READABLE if value.isprintable() else ASCII)(value)


def text(spelled):
    """A text of a line as JSON: the same, where it has no escape."""
    if "\\" in spelled:
        return readable(listing.text(spelled))
    return "null" if spelled == "~" else spelled


def pieces_of_text(line, at, end):
    """The text in the line from one place to the other, as pieces of JSON."""
    if line[at] == "~":
        yield "null"
        return
    yield '"'
    for part in listing.parts_of_text(line, at, end):
        yield readable(part)[1:-1]
    yield '"'


def data(spelled, secret=False):
    """Bytes of a line as JSON: as a text where they are UTF-8 that can be printed, else in hexadecimal."""
    if spelled == "~":
        return "null"
    found = bytes.fromhex(spelled[1:])
    try:
        value = None if secret else found.decode()
    except UnicodeDecodeError:
        value = None
    if value is None or not printable(value):
        return f'{{"hex": "{spelled[1:]}"}}'
    return READABLE(value)


def printable(value):
    return value.isprintable() or value.translate(BLANKS).isprintable()


def parts_of_data(line, at, end):
    """The text that the line has as hexadecimal digits, in parts; a ValueError where it can't be printed."""
    decoder = codecs.getincrementaldecoder("utf-8")()
    for begin in range(at, end, BLOCK):
        part = decoder.decode(bytes.fromhex(line[begin:min(begin + BLOCK, end)]), begin + BLOCK >= end)
        if not printable(part):
            raise ValueError("this can't be printed")
        yield part


def pieces_of_data(line, at, end, secret=False):
    """Bytes in the line, as pieces of JSON."""
    if line[at] == "~":
        yield "null"
        return
    if (end - at) % 2 == 0:
        raise NoField(at)
    try:
        for _ in parts_of_data(line, at + 1, end):
            pass
    except ValueError:
        secret = True
    yield '{"hex": "' if secret else '"'
    if secret:
        yield from (line[begin:min(begin + BLOCK, end)] for begin in range(at + 1, end, BLOCK))
    else:
        yield from (READABLE(part)[1:-1] for part in parts_of_data(line, at + 1, end))
    yield '"}' if secret else '"'


@functools.lru_cache(4096)
def hexadecimal(digits):
    """A session or a zxid as ZooKeeper's logs print it."""
    return f'"{listing.hexadecimal(int(digits))}"'


def stat(spelled):
    """A Stat: its numbers under their names."""
    numbers = tuple(map(int, spelled[1:-1].split(",")))
    if len(numbers) != len(STAT):
        raise ValueError("a Stat has eleven numbers")
    if "-" in spelled:
        numbers = tuple(number & MASK if name in HEXADECIMAL else number for name, number in zip(STAT, numbers))
    return STAT_FORM % numbers


def code(field):
    """A number, and under a name of its own the name that it has."""
    def json_of(spelled):
        number, _, name = spelled.partition("/")
        name = name or field == "err" and errors.NAMES.get(int(number))
        return f'{number}, "{field}Name": "{name}"' if name else number
    return json_of


def acl(found):
    return f'{{"perms": {found[1]}, "scheme": {text(found[2])}, "id": {text(found[3])}}}'


class Kind:
    """A kind of value: its pattern, what makes JSON of a short one, and, where one may be long, of any in pieces."""

    def __init__(self, pattern, json_of, pieces=None):
        self.pattern, self.match, self.json, self.found = pattern, re.compile(pattern, re.ASCII).match, json_of, pieces

    def pieces(self, line, at):
        """The value at this place of the line, as pieces of JSON; returns the place after it."""
        found = self.match(line, at)
        if not found:
            raise NoField(at)
        if self.found:
            yield from self.found(line, at, found.end())
        else:
            yield self.json(found[0])
        return found.end()


class List:
    """A list of values: `plain` matches the lists that JSON spells as the line does, and `element` one value."""

    pattern = r'(?:~|\[[^"\]]*(?:"[ !#-~]*"[^"\]]*)*\])'

    def __init__(self, element, json_of, plain):
        self.element, self.json_of, self.plain = re.compile(element, re.ASCII), json_of, re.compile(plain, re.ASCII)

    def json(self, spelled):
        if self.plain.fullmatch(spelled):
            return spelled
        return self.usual(spelled) if len(spelled) <= USUAL else "".join(self.pieces(spelled, 0))

    @functools.lru_cache(1024)
    def usual(self, spelled):
        return "".join(self.pieces(spelled, 0))

    def pieces(self, line, at):
        """The list at this place of the line, as pieces of JSON; returns the place after it."""
        if line.startswith("~", at):
            yield "null"
            return at + 1
        if line.startswith("[]", at):
            yield "[]"
            return at + 2
        sign = "["
        while line.startswith("[" if sign == "[" else ",", at):
            found = self.element.match(line, at + 1)
            if not found:
                break
            yield sign + self.json_of(found)
            at, sign = found.end(), ", "
        if sign == "[" or not line.startswith("]", at):
            raise NoField(at)
        yield "]"
        return at + 1


DATA = "(?:~|#[0-9a-f]*)"
PLAIN = Kind(NUMBER, str)
KINDS = {
    "number": PLAIN, "long": PLAIN, "hexadecimal": Kind(NUMBER, hexadecimal), "bit": Kind("[01]", BITS.get),
    "readonly": Kind("[01-]", BITS.get), "stat": Kind(r"\([\d,-]+\)", stat),
    "err": Kind(rf"{NUMBER}(?:/[A-Za-z]+)?", code("err")), "kind": Kind(rf"{NUMBER}(?:/[A-Za-z]+)?", code("kind")),
    "text": Kind(TEXT, text, pieces_of_text), "data": Kind(DATA, data, pieces_of_data),
    "secret": Kind(DATA, functools.partial(data, secret=True), functools.partial(pieces_of_data, secret=True)),
    "texts": List(TEXT, lambda found: text(found[0]), r'\[(?:"[ !#-\[\]-~]*"(?:,"[ !#-\[\]-~]*")*)?\]'),
    "acls": List(rf"({NUMBER}):({TEXT}):({TEXT})", acl, r"\[\]"),
}


class Form:
    """A row of fields; `fields` has of each NAME:KIND."""

    def __init__(self, fields=""):
        self.fields = [(f" {name}=", f', "{name}": ', KINDS[kind])
                       for name, kind in (field.split(":") for field in fields.split())]
        pattern = "".join(f"{before}({kind.pattern})" for before, _, kind in self.fields)
        self.match = re.compile(pattern, re.ASCII).match
        self.form = "".join(f"{name}%s" for _, name, _ in self.fields)
        self.made = [(number, kind.json) for number, (*_, kind) in enumerate(self.fields)
                     if kind is not PLAIN]

    def json(self, line, at):
        """The fields at this place of the line, as JSON, and the place after them; a ValueError where they aren't
        there."""
        found = self.match(line, at)
        if not found:
            raise NoField(at)
        values = list(found.groups())
        for number, json_of in self.made:
            values[number] = json_of(values[number])
        return self.form % tuple(values), found.end()

    def pieces(self, line, at):
        """The fields at this place of the line, as pieces of JSON; returns the place after them."""
        for before, name, kind in self.fields:
            try:
                if not line.startswith(before, at):
                    raise NoField(at)
                yield name
                at = yield from kind.pieces(line, at + len(before))
            except ValueError:
                raise NoField(at) from None
        return at


# The parts of a multi, and their results, are no fields of its line.
UNSPELLED = re.compile(r"\w+:(?:parts|results)")
CONNECT = "version:number zxid:hexadecimal timeout:number session:hexadecimal passwd:secret ro:readonly"
READ = [operation for operation in operations.ALL if operation.release]
REQUESTS = {listing.CONNECT: Form(CONNECT),
            **{operation.name: Form(UNSPELLED.sub("", operation.request)) for operation in READ}}
REPLIES = {operation.name: Form("zxid:hexadecimal " + UNSPELLED.sub("", operation.reply)) for operation in READ}
REPLIES[listing.CONNECT] = Form("version:number timeout:number session:hexadecimal passwd:secret ro:readonly")
REPLIES[listing.EVENT] = Form("zxid:hexadecimal kind:kind state:number path:text")
FAILED = Form("zxid:hexadecimal err:err")
ASKED_BY_NUMBER, ANSWERED_BY_NUMBER = Form(), Form("zxid:hexadecimal")
PARTS = {name: Form(operations.BY_NAME[name].request) for name in ("create", "delete", "setData", "check")}
RESULTS = {"create": Form("path:text"), "delete": Form(), "setData": Form("stat:stat"), "check": Form(),
           "fail": Form("err:err")}
