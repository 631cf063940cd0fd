"""The constants and names of numbers that callers of the library have, for dev/names.py to write: in zk.h, and in the
packages for Python, Rust and Go. Each function takes the lines that are there, and returns those that should be."""

from typing import NamedTuple

from . import newer, source


class Kind(NamedTuple):
    """A kind of numbers: its types in C and Rust, the table in Python, what it is of, how its constants begin in C, and
    its type in Python and Rust, and how its constants begin in Go."""
    name: str
    in_c: str
    in_rust: str
    table: str
    of: str
    begin: str
    kind: str
    in_go: str


KINDS = (
    Kind("operation", "int32_t", "i32", "OPERATIONS", "an operation, or of a part of a multi", "ZK_OP_", "Operation", "Op"),
    Kind("error", "int32_t", "i32", "ERRORS", "a reply's err", "ZK_ERR_", "Code", "Code"),
    Kind("event", "int64_t", "i64", "EVENTS", "an event's type", "ZK_EVENT_", "EventType", "Event"),
    Kind("state", "int64_t", "i64", "STATES", "an event's state", "ZK_STATE_", "State", "State"),
    Kind("flags", "int64_t", "i64", "FLAGS", "the flags of a create request", "ZK_CREATE_", "CreateFlags", "Create"),
    Kind("field", "uint16_t", "u16", "FIELDS", "a field's name", "ZK_NAME_", "", ""),
    Kind("status", "uint32_t", "u32", "STATUSES", "a status", "ZK_", "Status", "Status"))
NUMBERED = [kind for kind in KINDS if kind.kind]


def in_order(kind, names):
    return sorted(names.items(), reverse=kind == "error")


def rows(kind):
    """The number and the name of each of a kind."""
    return in_order(kind.name, newer.names()[kind.name])


def newest_profile():
    return [*source.profiles().values()][-1]


def wrapped(words, width, begin="    "):
    """Words in lines of at most this width."""
    lines = [begin + words[0]]
    for word in words[1:]:
        if len(lines[-1]) + 1 + len(word) <= width:
            lines[-1] += f" {word}"
        else:
            lines.append(begin + word)
    return lines


def header_constants(_):
    """The enums of zk.h, but for statuses and the names of fields."""
    found = []
    for kind in NUMBERED:
        if kind.name != "status":
            words = [f"{kind.begin}{newer.upper(kind.name, name)} = {number}," for number, name in rows(kind)]
            of = kind.of[0].upper() + kind.of[1:]
            found += [f"/* {of}. */", "enum {", *wrapped([*words[:-1], words[-1].rstrip(",")], 118), "};", ""]
    words = [f"ZK_PERMISSION_{name.upper()} = {number}," for number, name in newer.PERMISSIONS.items()]
    return [*found, "/* What an access right permits. */", "enum {", *wrapped([*words[:-1], words[-1].rstrip(",")], 118), "};"]


def header_functions(_):
    found = []
    for kind in KINDS:
        begin = kind.begin if kind.name in ("field", "status") else ""
        of = kind.of + (": that of its number above, without its beginning" if kind.name == "status" else "")
        cases = [f'    case {begin + name.upper() if begin else number}: return "{name}";' for number, name in rows(kind)]
        found += [f"/* Of {of}. */", f"ZK_ALSO const char *zk_{kind.name}_name({kind.in_c} number) {{",
                  "    switch (number) {", *cases, '    default: return "";', "    }", "}", ""]
    return found[:-1]


def columns_names(_):
    """The names of zkcolumns: those that lines have."""
    found = ["/* Names that lines have, which are fewer than those of zk.h; written by dev/names.py. */", "#ifndef IN_LINES_H",
             "#define IN_LINES_H", "", '#include "zk.h"']
    for kind in KINDS[:3]:
        newer_numbers = sorted(newer.names()[kind.name].keys() - source.names()[kind.name].keys())
        words = [f"case {number}:" for number in newer_numbers]
        lacks = ["    switch (number) {", *wrapped(words, 118), '        return "";', "    }"] if words else []
        found += ["", f"/* Of {kind.of}. */", f"static inline const char *line_{kind.name}_name({kind.in_c} number) {{",
                  *lacks, f"    return zk_{kind.name}_name(number);", "}"]
    return [*found, "", "#endif"]


def python_names(_):
    found = ['"""Names and constants of numbers (include/zk.h), and profiles, written by dev/names.py."""', "", "import enum",
             "from typing import Dict"]
    for kind in KINDS:
        words = [f'{number}: "{name}",' for number, name in rows(kind)]
        found += ["", f"{kind.table}: Dict[int, str] = {{", *wrapped(words, 110), "}"]
    profiles = [f"    V{number} = {number}" for number in source.profiles().values()]
    found += ["", "", "class Profile(enum.IntEnum):", '    """The operations of a release."""', *profiles,
              f"    NEWEST = {newest_profile()}"]
    for kind in NUMBERED:
        constants = [f"    {newer.upper(kind.name, name)} = {number}" for number, name in rows(kind)]
        found += ["", "", f"class {kind.kind}(enum.IntEnum):", f'    """The number of {kind.of}."""', *constants]
    constants = [f"    {name.upper()} = {number}" for number, name in newer.PERMISSIONS.items()]
    return [*found, "", "", "class Permission(enum.IntFlag):", '    """What an access right permits."""', *constants]


def rust_names(_):
    profiles = [f"    V{number} = {number}," for number in source.profiles().values()]
    found = ['//! Names and constants of numbers, and profiles; written by dev/names.py.', "",
             "/// The operations of a release.", "#[derive(Clone, Copy, Debug, PartialEq, Eq)]", "pub enum Profile {",
             *profiles, "}", "", "impl Profile {", "    /// The one that has the most operations.",
             f"    pub const NEWEST: Profile = Profile::V{newest_profile()};", "}"]
    for kind in KINDS:
        words = [f'        {number} => "{name}",' for number, name in rows(kind)]
        found += ["", f'/// Of {kind.of}; "" where the number has none.',
                  f"pub fn {kind.name}_name(number: {kind.in_rust}) -> &'static str {{",
                  "    match number {", *words, '        _ => "",', "    }", "}"]
    for kind in NUMBERED:
        constants = [f"        {newer.camel(kind.name, name)} = {number}," for number, name in rows(kind)]
        found += ["", "crate::numbered! {", f"    /// The number of {kind.of}.",
                  f"    {kind.kind}: {kind.in_rust}, {kind.name}_name {{", *constants, "    }", "}"]
    constants = [f"    pub const {name.upper()}: i32 = {number};" for number, name in newer.PERMISSIONS.items()]
    return [*found, "", "/// What an access right permits.", "pub mod permission {", *constants, "}"]


def go_constants(of, names):
    """The rows of constants, laid out as by gofmt."""
    width = max(len(name) for name, _ in names)
    return ["", f"// {of}.", "const (", *(f"\t{name:{width}} = {number}" for name, number in names), ")"]


def go_names(_):
    found = ["package libzk", "", "// Constants of numbers, and their names; written by dev/names.py.", "", "// #include <zk.h>",
             'import "C"']
    for kind in NUMBERED:
        spelled = newer.camel if kind.name in ("error", "status") else lambda _, name: name[0].upper() + name[1:]
        names = [(kind.in_go + spelled(kind.name, name), number) for number, name in rows(kind)]
        found += go_constants(f"The numbers of {kind.of}", names)
    found += go_constants("What an access right permits", [(f"Permit{name.capitalize()}", number)
                                                           for number, name in newer.PERMISSIONS.items()])
    sentinels = [(f"Err{newer.camel('status', name)}", f"Fault{{Status: {number}}}") for number, name in rows(KINDS[-1]) if number]
    width = max(len(name) for name, _ in sentinels)
    found += ["", "// The faults of each status, for errors.Is.", "var (", *(f"\t{name:{width}} = {fault}" for name, fault in sentinels), ")"]
    for kind in NUMBERED:
        name, of = kind.name[0].upper() + kind.name[1:], kind.in_c[:-2]
        found += ["", f'// {name}Name returns the name of {kind.of}, or "".', f"func {name}Name(number {of}) string {{",
                  f"\treturn C.GoString(C.zk_{kind.name}_name(C.{kind.in_c}(number)))", "}"]
    return found
