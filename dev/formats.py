"""Reads the tables of docs/FORMATS.md, the specification, for dev/names.py and the tests: the fields of records,
operations and parts, the names of numbers, and the spelling of lines. A table is found by its head.

A row is the line of the page and what it says; a field its name in zk_records, its name in C, and its kind (source.py).
"""

import pathlib
import re
from typing import List, NamedTuple, Optional

PAGE = pathlib.Path(__file__).resolve().parents[1] / "docs" / "FORMATS.md"
KINDS = {"int": "int", "long": "long", "boolean": "bool", "ustring": "text", "buffer": "blob", "Stat": "stat",
         "Id": "id", "vector of ustring": "texts", "vector of ACL": "acl"}
FIELD = re.compile(rf"({'|'.join(KINDS)})(?: ([a-z]\w*))?(?: \(([^)]*)\))?$")


class Field(NamedTuple):
    name: str
    in_c: str
    kind: str


# What may follow the record of a connect request or response; section 3 has it in words.
READ_ONLY = Field("read_only", "read_only", "bool")


class Row(NamedTuple):
    """A row of a table of operations or parts: the line, the number, the name, the variant, the first release whose
    profile has it, the record of the request, and the fields of the request and the reply."""
    line: int
    number: int
    name: str
    variant: str
    release: str
    record: Optional[str]
    request: List[Field]
    reply: List[Field]


def matched(pattern, text, line):
    """What a cell's text is found to be; a ValueError where it is something else."""
    found = re.match(pattern, text)
    if found is None:
        raise ValueError(f"docs/FORMATS.md:{line}: this can't be read: {text}")
    return found


def once(found, page="docs/FORMATS.md"):
    """What is found by name, each with its line first; a ValueError where a name is there twice."""
    by_name = {}
    for name, row in found:
        if name in by_name:
            raise ValueError(f"{page}:{row[0]}: there is another row of {name}")
        by_name[name] = row
    return by_name


def rows(*head, page=PAGE):
    """The rows of a page's tables whose heads begin with these cells: the line of each, and its cells."""
    inside = None
    for number, line in enumerate(page.read_text().splitlines(), 1):
        if not line.startswith("|"):
            inside = None
            continue
        cells = [cell.strip() for cell in re.split(r"(?<!\\)\|", line)[1:-1]]
        if inside is None:
            inside = cells[:len(head)] == list(head)
        elif inside and not line.startswith("|---"):
            yield number, cells


def fields(text, line):
    """The fields that a cell spells. Jute's name, in brackets where it differs, is that in C where it is in lower
    case."""
    text = re.sub(r"\w+ vectors of (\w+): (.*)", lambda found: ", ".join(
        f"vector of {found[1]} {name}" for name in found[2].split(", ")), text)
    for spelled in [] if text == "nothing" else re.split(r", (?![^(]*\))", text):
        found = matched(FIELD, spelled, line)
        jute = (found[3] or "").partition(";")[0]
        name = found[2] or found[1].lower()
        yield Field(name, jute if re.fullmatch("[a-z]+", jute) else name, KINDS[found[1]])


def records():
    """The line and the fields of each record that section 3 has, and of those that the operations have."""
    found = [(matched(r"`(\w+)`", cells[0], line)[1], (line, list(fields(cells[1], line))))
             for line, cells in rows("Record", "Fields in order")]
    for variant in ("Op", "PartOp"):
        for line, cells in rows("Number", f"Name and `{variant}`"):
            record = re.match(r"`(\w+)` \(\w+\): (.*)", cells[2])
            if record:
                found.append((record[1], (line, list(fields(record[2], line)))))
    return once(found)


def table(variant):
    """The operations (of the variants of Op) or the parts of a multi (PartOp)."""
    known = records()
    for line, (number, named, asked, answered) in rows("Number", f"Name and `{variant}`"):
        name, variant_of, release = matched(r"(\w+), `(\w+)`(?:, of ([\d.]+))?$", named, line).groups()
        record = re.match(rf"`({'|'.join(known)})`", asked)
        if asked == "section 6":
            forms = [Field("parts", "parts", "parts")], [Field("results", "results", "results")]
        else:
            forms = known[record[1]][1] if record else list(fields(asked, line)), list(fields(answered, line))
        yield Row(line, int(number), name, variant_of, release or "3.4", record and record[1], *forms)


def errors():
    """The line and the name of each number of an error."""
    for line, cells in rows("Number", "Name", "Number"):
        for number, name in zip(cells[::2], cells[1::2]):
            if number:
                yield int(number), (line, name)


def events():
    """The same of each type of an event."""
    for line, text in enumerate(PAGE.read_text().splitlines(), 1):
        if text.startswith("Types of events"):
            yield from ((int(number), (line, name)) for number, name in re.findall(r"(-?\d+) (\w+)[,.]", text))


def spelled(head):
    """By operation, the line and the words of its row in the table of requests' lines (`ask`) or replies' (`Tail`)."""
    for line, (names, text) in rows("Operation", head):
        text = "" if text == "nothing" else re.sub(r"^`(?= )|`", "", text)
        yield from ((name, (line, text)) for name in names.split(", "))


def messages():
    """By message, the line of its row in the tables of whole lines, and the name and the item of each of its fields."""
    for line, (message, text) in rows("Message", "Line"):
        yield message, (line, re.findall(r"(\w+)=(\w+)", text.replace("`", "")))


def items(of):
    """The items of fields: the name of each in C, and its kind, or of a list the items of its elements. A Stat's are
    those of its fields; the parts of a multi are one."""
    known, found = records(), []
    for field in of:
        if field.kind in ("stat", "id"):
            found += items(known[field.kind.title()][1])
        elif field.kind in ("texts", "acl"):
            found.append((field.in_c, [(field.in_c, "text")] if field.kind == "texts" else items(known["Acl"][1])))
        else:
            found.append((field.in_c, field.kind))
    return found
