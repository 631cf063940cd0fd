"""Writes the names of operations, errors, events, fields, statuses and profiles where they are listed, from the crates'
sources, and the forms of operations for the tools and the measured peer.

    python3 -m dev.names --write|--check

The sources are the one table (source.py reads them). The files that it writes, or of which it writes what is between
two marks, are those of lists.py. In a table that has more numbers than the sources, such as those of later
releases, the other rows stay as they are. The rest is only compared: the tables of docs/FORMATS.md, which the tests
take their forms from (formats.py), docs/REASONS.md, and rows and constants of other code.

With --check nothing is written, and each row that is wrong is named. The status is 0 if all is current, 1 if it isn't,
2 for wrong arguments.
"""

import difflib
import math
import re
import sys

from . import formats, lists, newer, source
from .source import TOP

ENTRY = re.compile(r'-?\d+: "\w+"|\{[\w()-]+, "\w+"\}|\{-?\d+, (?:true|false)[^}]*\}'
                   r"|(?<=[( ])-?\d+(?=, -?[\dI])|ZK_(?!NAME_)\w+ = -?\d+")
# A kind of field in a line.
LINES = {"int": "num", "long": "num", "bool": "bit", "texts": "list of text", "acl": "list of acl"}
# How many bytes a field of a kind has.
SIZES = {"int": 4, "long": 8, "bool": 1}
# Items of more than a kind: numbers that may have a name, and a bit that may be absent.
ITEMS = {"kcode": "num", "ecode": "num", "ro": "bit"}
# The enumerations of the package for Python: how each name begins in the header; and what the package alone has.
ENUMERATIONS = {"Side": "ZK_", "Profile": "ZK_PROFILE_", "Kind": "ZK_", "FieldKind": "ZK_KIND_", "Went": "ZK_"}
OF_PYTHON = ("Went", "PASSED_OVER"), ("Profile", "NEWEST")
CONSTANTS = ("bench/make_recording.py", "wireshark/message.h", "examples/server.c")


def differences(name, found, wanted):
    """What a file lacks, and what it has instead, by the line."""
    def entries(lines):
        return [entry for line in lines for entry in ENTRY.findall(line) or [line.strip().rstrip(",;")]]
    for tag, a, b, c, d in difflib.SequenceMatcher(None, found, wanted, autojunk=False).get_opcodes():
        if tag != "equal":
            has, lacks = entries(found[a:b]), entries(wanted[c:d])
            more = [entry for entry in has if entry not in lacks]
            less = [entry for entry in lacks if entry not in has]
            told = [f"{word} {', '.join(each)}" for word, each in (("has", more), ("lacks", less)) if each]
            yield f"{name}:{a + 1}: {'; '.join(told) or 'its lines are laid out otherwise'}"


# ---- What is compared


def spelled(fields):
    return ", ".join(f"{kind} {name}" for name, kind in fields) or "nothing"


def compare_in_c(line, fields):
    """The names in C of fields in a line of the page."""
    known = source.names_in_c()
    for field in fields:
        name = known.get(field.name, field.name.upper()).lower()
        if field.name != field.kind != "id" and field.in_c != name:
            yield f"docs/FORMATS.md:{line}: {field.name} is {field.in_c} in C, and in the sources {name}"


def compare_rows(variant, wanted):
    """The page's operations or parts with those of the sources."""
    rows = formats.once((row.number, row) for row in formats.table(variant))
    for each in wanted:
        row = rows.pop(each.number, None)
        if row is None:
            yield f"docs/FORMATS.md: no row of {each.number} {each.name} among those of {variant}"
            continue
        page, ours = ([of.name, of.variant, of.release or "3.4", str(of.record)] for of in (row, each))
        page.append(spelled((field.name, field.kind) for field in row.request))
        ours.append(spelled(each.request))
        if variant == "Op":
            page.append(spelled((field.name, field.kind) for field in row.reply))
            ours.append(spelled(each.reply))
        yield from (f"docs/FORMATS.md:{row.line}: {each.number} {each.name} has {there}, and in the sources {here}"
                    for there, here in zip(page, ours) if there != here)
        yield from compare_in_c(row.line, row.reply)
    yield from (f"docs/FORMATS.md:{row.line}: the sources have no {variant} {row.number} {row.name}"
                for row in rows.values())


def compare_records():
    """The page's records with those of the sources."""
    ours = source.records()
    for name, (line, fields) in formats.records().items():
        here, there = spelled(ours.get(name, [])), spelled((field.name, field.kind) for field in fields)
        if here != there:
            yield f"docs/FORMATS.md:{line}: {name} has {there}, and in the sources {here}"
        yield from compare_in_c(line, fields)


def compare_codes(page, found, wanted):
    """Names of numbers in a page, each with its line."""
    found = formats.once(found, page)
    yield from (f"{page}: no row of {number} {name}" for number, name in wanted.items() if number not in found)
    yield from (f"{page}:{line}: {number} is {name}, and in the sources {wanted.get(number, 'nothing')}"
                for number, (line, name) in found.items() if wanted.get(number) != name)


def on_page(name):
    """The fields of a record of the page."""
    return [(field.name, field.kind) for field in formats.records().get(name, (0, []))[1]]


def messages():
    """The messages whose fields are no operation's: the name on the page, that of the form in zkdump_tools/forms.py, and the
    fields by the page's records."""
    read_only, header = (formats.READ_ONLY.name, formats.READ_ONLY.kind), on_page("ReplyHeader")[1:]
    return (("connect request", "CONNECT", [*on_page("ConnectRequest"), read_only]),
            ("connect response", "REPLIES[listing.CONNECT]", [*on_page("ConnectResponse"), read_only]),
            ("event", "REPLIES[listing.EVENT]", [*header[:1], *on_page("WatcherEvent")]),
            ("reply with an error", "FAILED", header),
            ("reply", "REPLIES", header[:1]))


def compare_lines():
    """How the page spells the lines of messages: those of requests and replies by the sources, the others by its
    records."""
    asks, tails = formats.once(formats.spelled("ask")), formats.once(formats.spelled("Tail"))
    for each in source.operations():
        for what, rows, begin, fields in (("request", asks, each.name, each.request), ("reply", tails, "", each.reply)):
            line, there = rows.pop(each.name, (None, ""))
            here = begin + "".join(f" {source.in_line(name)}={LINES.get(kind, kind)}" for name, kind in fields)
            if line is None:
                yield f"docs/FORMATS.md: no row of the line of a {what} of {each.name}"
            elif each.name != "multi" and re.sub(r"^name\b", each.name, there) != here:
                yield f"docs/FORMATS.md:{line}: a {what} of {each.name} is {there!r}, and in the sources {here!r}"
    yield from (f"docs/FORMATS.md:{line}: the sources have no operation {name}"
                for rows in (asks, tails) for name, (line, _) in rows.items())
    lines = formats.once(formats.messages())
    for message, _, fields in messages():
        line, items = lines.get(message, (0, []))
        there = " ".join(f"{name}={ITEMS.get(item, item)}" for name, item in items)
        here = " ".join(f"{source.in_line(name)}={LINES.get(kind, kind)}" for name, kind in fields)
        if there != here:
            yield f"docs/FORMATS.md:{line}: the line of the {message} has {there!r}, and its records {here!r}"


def reasons(*head):
    """The line and the name of each number of a reason in a table of docs/REASONS.md; where the table has no numbers, of
    each place in it."""
    for place, (line, cells) in enumerate(formats.rows(*head, page=TOP / "docs" / "REASONS.md"), 1):
        number, name = cells[:2] if head[0] == "Number" else (str(place), cells[0])
        yield int(number) if number.isdecimal() else number, (line, name)


def compare_faults(head, *enum):
    """A table of docs/REASONS.md with an enum of the sources. NoMemory has a row only where rows have numbers."""
    wanted = [name for name in source.faults(*enum) if head[0] == "Number" or name != "NoMemory"]
    return compare_codes("docs/REASONS.md", reasons(*head), dict(enumerate(wanted, 1)))


def compare_parts():
    """The parts of a multi in zkdump_tools/operations.py, which are no operations."""
    known = lists.of_tools()["BY_NUMBER"]
    for each in source.parts():
        row = known.get(each.number)
        if row is None or (row.name, row.request) != (each.name, lists.form(each.request)):
            yield (f"tools/zkdump_tools/operations.py: no row of the part {each.number} {each.name} with "
                   f"{spelled(each.request)}")


def compare_errors():
    """The names of errors for readers, in zkdump_tools/errors.py: all of the sources', and of later releases more."""
    found = source.python_names("tools/zkdump_tools/errors.py")["NAMES"]
    yield from (f"tools/zkdump_tools/errors.py: {number} is {found.get(number)}, and in the sources {name}"
                for number, name in source.names()["error"].items() if found.get(number) != name)


def compare_bodies():
    """The layouts of which crates/talk_tests/make_bodies.py has written bodies; the results of multis have none."""
    for what in ("Asked", "Answered"):
        name = f"crates/talk_tests/src/tests/earliest/{what.lower()}.rt"
        text = (TOP / name).read_text()
        yield from (f"{name}: no bodies of {what}(Op::{each.variant})" for each in source.operations()
                    if f"Layout::{what}(Op::{each.variant})," not in text and (what, each.name) != ("Answered", "multi"))


def wanted_forms():
    """What zkdump_tools/forms.py should have besides the forms of operations, by the page: names of fields, or each with its
    kind."""
    stat, lines, found = on_page("Stat"), dict(formats.messages()), {}
    found["STAT"] = [source.in_line(name) for name, _ in stat]
    found["HEXADECIMAL"] = [source.in_line(name) for name, kind in stat if lists.is_id(name, kind)]
    for message, form, fields in messages():
        items = [item for _, item in lines.get(message, (0, []))[1]]
        found[form] = lists.form((name, item if item in ITEMS else kind)
                                 for (name, kind), item in zip(fields, items)).split()
    results = [(part.name, lists.form((field.name, field.kind) for field in part.reply).split())
               for part in formats.table("PartOp")]
    results.append(("fail", found["FAILED"][-1:]))
    found["RESULTS"] = [word for name, form in results for word in (name, *form)]
    return found


def compare_forms():
    """The forms that zkdump_tools/forms.py has, besides those of operations: the names and the kinds of their fields."""
    text = (TOP / "tools" / "zkdump_tools" / "forms.py").read_text()
    for name, wanted in wanted_forms().items():
        row = re.search(rf"^{re.escape(name)} = (.*?)\n(?=\S|\Z)", text, re.M | re.S)
        found = ["".join(pair) for pair in re.findall(r'"(\w+)"|(\w+:\w+)', row[1] if row else "")]
        if found != wanted:
            line = text.count("\n", 0, row.start()) + 1 if row else 0
            yield (f"tools/zkdump_tools/forms.py:{line}: {name} has {', '.join(found)}, and in docs/FORMATS.md "
                   f"{', '.join(wanted)}")


def compare_field_rows():
    """The plugin's table of the names of fields."""
    rows = re.findall(r"\[ZK_NAME_(\w+)\] =", (TOP / "wireshark" / "tree.c").read_text())
    yield from (f"wireshark/tree.c: no row of ZK_NAME_{name}" for name in source.field_names()
                if name not in rows and name != "NONE")


def compare_enumerations():
    """The enumerations of the package for Python with the header's, and the header's kinds of fields with the sources'."""
    every = [dict(re.findall(r"\b(ZK_\w+) = (-?\d+)", each)) for each in re.findall(
        r"\benum \{(.*?)\}", source.plain((TOP / "include" / "zk.h").read_text()), re.S)]
    header = {name: number for each in every for name, number in each.items()}
    yield from (f"include/zk.h: ZK_KIND_{name} is {header.get('ZK_KIND_' + name)}, and in the sources {number}"
                for name, number in source.kinds().items() if header.get("ZK_KIND_" + name) != number)
    found = {}
    for path in sorted((TOP / "examples" / "python" / "libzk").glob("*.py")):
        text = path.read_text()
        for each in re.finditer(r"^class (\w+)\(enum.IntEnum\):\n(?:^(?:    .*)?\n)*", text, re.M):
            rows = {name: number for name, number in re.findall(r"^    V?(\w+) = (\S+)", each[0], re.M)
                    if (each[1], name) not in OF_PYTHON}
            found[each[1]] = f"{path.relative_to(TOP)}:{text.count(chr(10), 0, each.start()) + 1}", rows
    for kind, begin in ENUMERATIONS.items():
        where, rows = found.get(kind, ("examples/python/libzk", {}))
        if not rows:
            yield f"{where}: no enumeration {kind}"
        wanted = next((each for each in every if not each.keys().isdisjoint(begin + name for name in rows)), {})
        yield from (f"{where}: {kind}.{name} is {rows.get(name)}, and {begin}{name} {wanted.get(begin + name)}"
                    for name in {**rows, **{name[len(begin):]: 0 for name in wanted}}
                    if rows.get(name) != wanted.get(begin + name))


def constants(name):
    """The constants of a file: where each is, its name, and its number."""
    text = (TOP / name).read_text()
    if name.endswith(".py"):
        known = source.python_names(name)
        yield from ((name, each, number) for each, number in known.items() if isinstance(number, int))
        return
    for found in re.finditer(r"\b(?:OP_)?([A-Z][A-Z_0-9]*)(?:: i32)? = (-?\d+)\b", text):
        yield f"{name}:{text.count(chr(10), 0, found.start()) + 1}", found[1], int(found[2])


def compare_constants():
    """Constants that are named as operations or errors."""
    numbers = {name.upper(): number for kind in ("error", "operation") for number, name in source.names()[kind].items()}
    for where, each, number in (found for name in CONSTANTS for found in constants(name)):
        wanted = numbers.get(each.replace("_", ""), number)
        if number != wanted:
            yield f"{where}: {each} is {number}, and in the sources {wanted}"


def compare_sizes():
    """The sizes that the page gives records."""
    for line, cells in formats.rows("Record", "Fields in order"):
        name, size = re.match(r"`(\w+)`[^,]*(?:, (\d+) bytes)?", cells[0]).groups()
        here = sum(SIZES.get(kind, math.inf) for _, kind in source.records().get(name, ()))
        if size and int(size) != here:
            yield f"docs/FORMATS.md:{line}: {name} has {size} bytes, and in the sources {here}"


def compare_xids():
    """The xids that the page gives operations; the others in its table are events' and all others'."""
    rows = formats.rows("xid", "Meaning")
    found = [(int(xid), (line, meaning)) for line, (xid, meaning) in rows if xid[-1].isdigit()]
    wanted = {each.xid: each.name for each in source.operations() if each.xid}
    wanted.update({xid: "an event; never a request (**own**)" for xid in source.OWN_XIDS if xid not in wanted})
    return compare_codes("docs/FORMATS.md", found, wanted)


def compare_ranges():
    """The numbers of options, of a frame's and of a piece's size, and the profiles."""
    ranges, usual, profiles = source.ranges(), source.usual(), source.profiles()
    wanted = {name: (" to ".join(ranges[name]), usual[name]) for name in ("limit", "waiting")}
    wanted["profile"] = ", ".join(profiles), usual["profile"]
    found = {re.sub(r"\W|N|P", "", cells[0]): (line, tuple(cells[2:4])) for line, cells in formats.rows(
        "Option", "Meaning", "Range", "Without it")}
    yield from compare_codes("docs/FORMATS.md", found.items(), wanted)
    told = f"{' or '.join(map(str, profiles.values()))}, for ZooKeeper {' or '.join(profiles)}."
    manual = {name: " to ".join(numbers).replace(",", "") for name, numbers in ranges.items()}
    for page, text in (
            ("FORMATS.md", f"is {wanted['limit'][0]} bytes of payload, usually {usual['limit']}."),
            ("FORMATS.md", f"from {' to '.join(ranges['size'])}, is the number of bytes"),
            ("FORMATS.md", f"is {told}"),
            ("REASONS.md", f"a piece claims no bytes, or more than {ranges['size'][1]}"),
            *(("man/zkdump.1.scd", f": {manual[name]}; {usual[name].replace(',', '')} without the option")
              for name in ("limit", "waiting")),
            ("man/zkdump.1.scd", f"; {usual['profile']} without the option"),
            *(("man/zkr.5.scd", text) for text in (f"client, {manual['limit']};", f"wait, {manual['waiting']};",
                                                   f"follow, {manual['size']};", f"profile, {told}"))):
        if text not in (TOP / "docs" / page).read_text():
            yield f"docs/{page}: there is no {text!r}"


def compare_calls():
    """The calls that the crate for C exports, and the header's for names, with those of docs/LIBRARY.md."""
    calls = [*source.calls(), *(f"zk_{kind}_name" for kind in newer.names())]
    there = set(re.findall(r"`(\w+)`", (TOP / "docs" / "LIBRARY.md").read_text()))
    yield from (f"docs/LIBRARY.md: no {name}" for name in calls if name not in there)


def compared():
    """What is wrong with each thing that is compared."""
    names = source.names()
    yield compare_rows("Op", source.operations())
    yield compare_rows("PartOp", source.parts())
    yield compare_records()
    yield compare_codes("docs/FORMATS.md", formats.errors(), names["error"])
    yield compare_codes("docs/FORMATS.md", formats.events(), names["event"])
    yield compare_lines()
    yield compare_codes("docs/REASONS.md", reasons("Number", "Reason", "Place"), source.reasons())
    yield compare_faults(("Reason", "Offset"), "zk_recordings", "parts", "Damage")
    yield compare_faults(("Number", "Reason", "When"), "zk_items", "fault", "LineReason")
    yield compare_faults(("Reason", "It means"), "zk_talk", "say", "SayFault")
    yield compare_parts()
    yield compare_errors()
    yield compare_bodies()
    yield compare_forms()
    yield compare_field_rows()
    yield compare_enumerations()
    yield compare_constants()
    yield compare_sizes()
    yield compare_xids()
    yield compare_ranges()
    yield compare_calls()


def judged(writes):
    """A list for each file and each comparison: what is wrong."""
    for name in (*lists.PARTS, *lists.WHOLE):
        path = TOP / name
        found = path.read_text().splitlines()
        wanted = lists.current(name, found)
        if writes and found != wanted:
            path.write_text("\n".join([*wanted, ""]))
        yield [] if writes else list(differences(name, found, wanted))
    yield from map(list, compared())


def main():
    if sys.argv[1:] not in (["--write"], ["--check"]):
        print(__doc__.split("\n\n")[1].strip(), file=sys.stderr)
        return 2
    try:
        results = list(judged(sys.argv[1] == "--write"))
    except (source.Missing, ValueError) as error:
        results = [[str(error)]]
    wrong = [line for result in results for line in result]
    print("\n".join([*wrong, f"{sum(not result for result in results)} passed, {len(wrong)} failed"]))
    return 1 if wrong else 0


if __name__ == "__main__":
    sys.exit(main())
