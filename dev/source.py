"""What the crates' sources say of the protocol's numbers and records, for dev/names.py and the tests: operations and
the parts of a multi, with the fields of their requests and replies; errors, events, names of fields, statuses, and
profiles.

A field is a pair: its name in zk_records, and its kind, which is int, long, bool, text, blob, texts, acl, stat, id,
parts or results. What isn't found in the sources is a Missing.
"""

import functools
import pathlib
import re
from typing import List, NamedTuple, Optional, Tuple

TOP = pathlib.Path(__file__).resolve().parent.parent
KINDS = {"i32": "int", "i64": "long", "bool": "bool", "T": "text", "B": "blob", "L": "texts", "A": "acl", "W": "id",
         "Stat": "stat"}
OWN_XIDS = (-1, -2, -4, -8)


class Missing(Exception):
    """The sources don't have what is read here."""


class Operation(NamedTuple):
    """An operation, or a part of a multi: its number, its name, and its variant of Op or PartOp. `record` is that of
    its request, None if it has none; `release` the first whose profile has it, None for a part; `xid` the xid of its
    own, if it has one, and `ordinary` says whether it may have another."""
    number: int
    name: str
    variant: str
    record: Optional[str]
    request: List[Tuple[str, str]]
    reply: List[Tuple[str, str]] = []
    release: Optional[str] = None
    xid: Optional[int] = None
    ordinary: bool = True


def python_names(name):
    """What a module in Python has by name, as its file is at this moment."""
    found = {"__name__": name}
    exec(compile((TOP / name).read_text(), name, "exec"), found)
    return found


def plain(text):
    """C or Rattle without its comments."""
    return re.sub(r"/\*.*?\*/|//[^\n]*", "", text, flags=re.S)


@functools.lru_cache(maxsize=None)
def text_of(crate, *names):
    """The text of these files of a crate, of all if none is named, without comments."""
    folder = TOP / "crates" / crate / "src"
    paths = [folder / f"{name}.rt" for name in names] or sorted(folder.glob("*.rt"))
    return "".join(plain(path.read_text()) for path in paths)


def body(text, head):
    """What a public item has, up to the brace at the left margin."""
    found = re.search(rf"^pub {head}\b(.*?)^\}}", text, re.M | re.S)
    if found is None:
        raise Missing(f"the crates' sources have no {head}")
    return found[1]


def some(found, what):
    if not found:
        raise Missing(f"the crates' sources have no {what}")
    return dict(found)


def fields(text):
    return [(name, KINDS.get(kind, kind)) for name, kind in re.findall(r"(\w+): (\w+)", text)]


def records():
    """The fields of each record."""
    return some([(name, fields(inside)) for name, inside in re.findall(
        r"^pub struct (\w+?)(?:Of)?(?:<[^>]*>)? \{(.*?)^\}", text_of("zk_records"), re.M | re.S)], "records")


def table(macro):
    """A table of zk_records' op.rt, without comments."""
    found = re.search(rf"^macro_rules! {macro} \{{(.*?)^\}}", text_of("zk_records", "op"), re.M | re.S)
    if found is None:
        raise Missing(f"the crates' sources have no {macro}!")
    return found[1]


def numbers(kind):
    """The number and the name of each variant of Op (`op_rows`) or PartOp (`part_codes`)."""
    return some([(variant, (int(number), name)) for variant, number, name in re.findall(
        r'(\w+) (-?\d+) "(\w+)"', table(kind))], f"rows in {kind}")


def releases():
    """The first release whose profile has the operation of each variant."""
    groups = re.findall(r"\bV(\d)(\d):([^:;]*)", table("op_rows"))
    return some([(variant, f"{major}.{minor}") for major, minor, rows in groups
                 for variant in re.findall(r"(\w+) -?\d", rows)], "profiles of operations")


def profiles():
    """The number of each profile, by its release."""
    rows = re.findall(r"Profile::V(\d)(\d) => (\d+)", text_of("zk_records", "profile"))
    return some(sorted((f"{major}.{minor}", int(number)) for major, minor, number in rows), "profiles")


def xids():
    """By variant, the rule of its xids; by "", that of all others."""
    return some(re.findall(r"(?:Op::(\w+)|_) => (xid .*?),$", body(text_of("zk_asks", "allowed_xids"), "fn allowed"), re.M),
                "rules of xids")


def allows(rule, xid):
    return all((xid == int(number)) == (sign == "==") for sign, number in re.findall(r"xid (==|!=) (-?\d+)", rule))


def variants(crate, name):
    """The variants of an enum in frame.rt, each with the name of what it holds, and the fields of its own."""
    rows = re.findall(r"^    (\w+)(?:\((\w+?)(?:Of)?(?:<[^>]*>)?\)| \{([^}]*)\})?,$",
                      body(text_of(crate, "frame"), f"enum {name}"), re.M)
    return some([(variant, (held, fields(spelled))) for variant, held, spelled in rows], f"variants of {name}")


@functools.lru_cache(maxsize=None)
def operations():
    """The operations in the order of their numbers, closeSession's last."""
    of_record, release, rules = records(), releases(), xids()
    asks, bodies = variants("zk_asks", "AskOf"), variants("zk_answers", "BodyOf")
    found = []
    for variant, (number, name) in numbers("op_rows").items():
        if not (variant in asks and variant in bodies):
            raise Missing(f"the crates' sources have no {variant} in AskOf or BodyOf")
        held, rule = asks[variant][0], rules.get(variant, rules[""])
        own = [xid for xid in OWN_XIDS if allows(rule, xid)]
        found.append(Operation(
            number, name, variant, held if held in of_record else None,
            [("parts", "parts")] if held == "M" else of_record.get(held, []),
            [("results", "results")] if bodies[variant][0] else bodies[variant][1],
            release[variant], own[0] if own else None, allows(rule, 1)))
    return sorted(found, key=lambda each: (each.number < 0, each.number))


def parts():
    """The parts of a multi, in the order of their numbers. Their replies are not read."""
    of_record, held = records(), variants("zk_asks", "PartOf")
    return [Operation(number, name, variant, held[variant][0], of_record[held[variant][0]])
            for variant, (number, name) in numbers("part_codes").items()]


def codes(kind):
    """The name of each number of an error (`code`) or of an event's type (`event`)."""
    rows = re.findall(r'(-?\d+) => Some\("(\w+)"\)', body(text_of("zk_records", "names"), f"fn {kind}_name"))
    return some([(int(number), name) for number, name in rows], f"names of {kind}")


def field_names():
    """The number of each name of a field; NONE is 0."""
    rows = re.findall(r"const (\w+): u16 = (\d+);", text_of("zk_fields", "name"))
    return some([(name, int(number)) for name, number in rows], "names of fields")


def kinds():
    """The number of each kind of a field, by its name in C without ZK_KIND_."""
    rows = re.findall(r"const (\w+): u8 = (\d+);", text_of("zk_fields", "kind"))
    return some([(name.replace("BOOLEAN", "BOOL"), number) for name, number in rows], "kinds of fields")


def names_in_c():
    """By the name of a field in zk_records, the one that zk_fields gives it."""
    shown = re.findall(r"fields_of!\((\w+), named, self\)", text_of("zk_fields", "record"))
    rows = dict(re.findall(r"\((\w+), \$then:ident.*?\$then!\(\$\(\$with\)\*:(.*?)\)\s", text_of("zk_records", "fields"), re.S))
    pairs = {*re.findall(r"([a-z]\w*) ([A-Z]\w+) [a-z]", " ".join(rows[name] for name in shown)),
             *re.findall(r": ([a-z]\w*) ([A-Z]\w+) [a-z]", text_of("zk_answers", "frame")),
             *re.findall(r"(\w+)\.show\(([A-Z_]+),", text_of("zk_fields", "body"))}
    return some([pair for pair in sorted(pairs) if pair[1] != "NONE"], "names in C")


@functools.lru_cache(maxsize=None)
def names_in_lines():
    """By the name of a field in zk_records, the one that zk_lines has in a line."""
    words = dict(re.findall(r'Word::(\w+) => b" (\w+)="', body(text_of("zk_lines", "word"), "fn word_bytes")))
    pairs = [*re.findall(r"\((\w+)\) => \{\s*Word::(\w+)", text_of("zk_lines", "word")), ("read_only", "ReadOnly")]
    return some([(name, words[word]) for name, word in pairs], "words of fields")


def in_line(name):
    """The name of a field in a line, or as the parts of a Stat, which a line doesn't name, are called elsewhere."""
    return names_in_lines().get(name) or re.sub(r"_(\w)", lambda found: found[1].upper(), name)


def statuses():
    """The number of each status, by its name in C without ZK_; that of a null pointer is the header's own."""
    text = text_of("zk_c")
    found = {name: int(number) for name, number in re.findall(r"const (\w+): u32 = (\d+);", text)}
    lines = re.findall(r"LineReason::(\w+) => (\d+)", text)
    found.update(("LINE_" + name.upper(), int(number)) for name, number in lines)
    for inside in re.findall(r"fn (?:reason|say)_number.*?\n\}", text, re.S):
        for name, number in re.findall(r"(?:Reason|SayFault)::(\w+).*? => (\d+)", inside):
            found[re.sub(r"(?<=[a-z])(?=[A-Z])", "_", name).upper()] = int(number)
    return some(found.items(), "statuses")


def calls():
    """The names of the calls that zk_c exports."""
    return list(some([(name, None) for name in re.findall(r'extern "C" fn (\w+)', text_of("zk_c"))], "calls of C"))


def reasons():
    """The name of each reason, by its number."""
    rows = re.findall(r"Reason::(\w+).*? => (\d+)", body(text_of("zk_c", "number"), "fn reason_number"))
    return some([(int(number), name) for name, number in rows], "reasons")


def faults(crate, name, enum):
    """The names of an enum of faults in a file of a crate, in their order."""
    rows = re.findall(r"^    (\w+)", body(text_of(crate, name), f"enum {enum}"), re.M)
    return list(some([(row, None) for row in rows], f"variants of {enum}"))


def spelled(numbers):
    return [f"{int(number.replace('_', '')):,}" for number in numbers]


def ranges():
    """The least and the greatest number, as pages spell them, of the options and of a piece's size."""
    limits = re.findall(r"\b(\d+)\.\.=([\d_]+)", text_of("zk_talk", "limits"))
    size = re.findall(r"Part::Size => is_within\((\d+), ([\d_]+),", text_of("zk_recordings", "parts"))
    if len(limits) != 2 or not size:
        raise Missing("the crates' sources have no ranges of limits and sizes")
    return {name: spelled(numbers) for name, numbers in zip(("limit", "waiting", "size"), (*limits, *size))}


def usual():
    """What an option is that isn't given, as pages spell it."""
    found = re.findall(r'const USUAL_(\w+): \S+ = "?([\d_.]+)', text_of("zk_runs", "words"))
    rows = [(name.lower(), value if "." in value else spelled([value])[0]) for name, value in found]
    return some(rows, "usual options")


@functools.lru_cache(maxsize=None)
def names():
    """By kind, the name of each number: of operation, error, event, field and status."""
    ordered = {each.number: each.name for each in sorted([*operations(), *parts()], key=lambda each: each.number)}
    named = {number: name.lower() for name, number in field_names().items() if name != "NONE"}
    told = {number: name for name, number in statuses().items()}
    return {"operation": ordered, "error": codes("code"), "event": codes("event"), "field": named,
            "status": dict(sorted({**told, 70: "NULL"}.items()))}
