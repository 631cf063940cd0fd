"""The lists of names that dev/names.py writes: each function takes the lines that are there, and returns those that
should be, by the crates' sources (source.py)."""

import ast
import re

from . import constants, source
from .constants import in_order

BEGIN, END = "The lines from here on are written by dev/names.py", "Up to here."
# A kind of field, or an item of a line, in zkdump_tools/operations.py and zkdump_tools/forms.py.
TOOLS = {"int": "number", "bool": "bit", "blob": "data", "acl": "acls", "ro": "readonly", "kcode": "kind",
         "ecode": "err"}
# A kind of field in bench/peer/peer.rs.
RUST = {"int": "i32", "long": "i64", "bool": "bool", "text": "Text<'a>", "blob": "Blob<'a>", "texts": "Names<'a>",
        "acl": "Acl<'a>", "stat": "Stat"}
ODD_OPERATIONS = ("0", "10", "-1", "INT32_MIN", "INT32_MAX")
NOT_ALONE = {"NONE", "PERMS", "ID", "ERR"}      # fields that zkdump_tools/zkcolumns/json.c writes elsewhere


def by_number(numbers):
    """Numbers of operations in order, those below 0 last."""
    return sorted(numbers, key=lambda number: (number < 0, number))


def runs(numbers):
    """The first and the last of each of these numbers that follow one another."""
    ordered = by_number(numbers)
    return zip((number for number in ordered if number - 1 not in numbers),
               (number for number in ordered if number + 1 not in numbers))


def wrapped(words, width, more=4):
    """Words in lines of at most this width: the first line is indented by four places, the others by `more`."""
    lines = [f"    {words[0]}"]
    for word in words[1:]:
        if len(lines[-1]) + 1 + len(word) <= width:
            lines[-1] += f" {word}"
        else:
            lines.append(" " * more + word)
    return lines


def header_profiles(_):
    rows = [f"ZK_PROFILE_{number} = {number}" for number in source.profiles().values()]
    return [f"enum {{ {', '.join(rows)} }};"]


def header_enum(_):
    rows = [f"    ZK_NAME_{name} = {number}," for name, number in source.field_names().items()]
    return ["enum {", *rows[:-1], rows[-1].rstrip(","), "};"]


def go_profiles(_):
    rows = [(f"Profile{number}", f"C.ZK_PROFILE_{number}") for number in source.profiles().values()]
    rows.append(("ProfileNewest", rows[-1][0]))
    width = max(len(name) for name, _ in rows)
    return [f"\t{name:{width}} Profile = {value}" for name, value in rows]


def plugin_profiles(_):
    """Each profile, with the operations that it has and those before it lack."""
    rows = []
    for release, number in source.profiles().items():
        more = [each.name for each in source.operations() if each.release == release and release != "3.4"]
        more[2:] = ["others"] if len(more) > 2 else []
        names = f" ({', '.join(more)})" if more else ""
        rows.append(f'{{"{release}", "ZooKeeper {release}{names}", ZK_PROFILE_{number}}},')
    return ["static const enum_val_t profiles[] = {", *wrapped([*rows, "{NULL, NULL, 0},"], 120), "};"]


def completed_profiles(_):
    return [f'    --profile) words="{" ".join(source.profiles())}" ;;']


def known_profiles(_):
    """Whether a number is that of a profile, in C."""
    rows = " || ".join(f"number == {number}" for number in source.profiles().values())
    return ["static bool is_profile(uint32_t number) {", f"    return {rows};", "}"]


def random_profiles(lines):
    numbers = [*source.profiles().values()]
    none = [number for number in range(numbers[0] - 1, numbers[-1] + 2) if number not in numbers]
    wrong, right = f"0, {', '.join(map(str, none))}, UINT32_MAX", ", ".join(map(str, numbers))
    return [f"enum {{ NEWEST = {numbers[-1]} }};", "", "static uint32_t any_profile(void) {",
            f"    return one_in(20) ? (uint32_t)PICK({wrong}) : (uint32_t)PICK({right});", "}", "",
            *known_profiles(lines)]


def with_others(names, there):
    """These names, and of those that are there the ones that have another number and another name."""
    known = {*names.values()}
    return {**{number: name for number, name in there.items() if number not in names and name not in known}, **names}


def of_tools():
    """What zkdump_tools/operations.py has by name, its operations of later releases too."""
    return source.python_names("tools/zkdump_tools/operations.py")


def plugin_names(lines):
    found = []
    for table, kind in (("op", "operation"), ("error", "error"), ("event_kind", "event")):
        there = "\n".join(lines).partition(f"{table}_names[] = {{")[2].partition("};")[0]
        rows = re.findall(r'\{(?:NUMBER\()?(-?\d+)\)?, "(\w+)"\}', there)
        if kind == "operation":
            rows += [(each.number, each.name) for each in of_tools()["ALL"]]
        elif kind == "error":       # those that zkdump_tools/errors.py has, for the same readers
            rows = list(source.python_names("tools/zkdump_tools/errors.py")["NAMES"].items())
        names = with_others(source.names()[kind], {int(number): name for number, name in rows})
        entries = [f'{{{number if number >= 0 else f"NUMBER({number})"}, "{name}"}},'
                   for number, name in in_order(kind, names)]
        found += [f"const value_string {table}_names[] = {{", *wrapped([*entries, "{0, NULL},"], 120), "};", ""]
    statuses = {number: name for name, number in source.statuses().items()}
    entries = [f'{{ZK_{statuses[number]}, "{name}"}},' for number, name in sorted(source.reasons().items())]
    return [*found, "const value_string reason_names[] = {", *wrapped([*entries, "{0, NULL},"], 120), "};"]


def is_id(name, kind):
    """Whether a field is a zxid or a session, which the tools write in hexadecimal."""
    return kind == "long" and re.search("zxid|session|owner", name) is not None


def form(fields):
    """Fields as zkdump_tools/operations.py and zkdump_tools/forms.py have them."""
    words = []
    for name, kind in fields:
        shown = "hexadecimal" if is_id(name, kind) else "secret" if name == "passwd" else TOOLS.get(kind, kind)
        words.append(f"{source.in_line(name)}:{shown}")
    return " ".join(words)


def operation_row(each, constants):
    """The row of an operation in zkdump_tools/operations.py, in one line or in two."""
    forms = [constants.get(text, f'"{text}"') for text in (form(each.request), form(each.reply))]
    begin = f'    Operation({each.number}, "{each.name}", "{each.release}",'
    more = [*forms, *([] if each.xid is None else [str(each.xid)]), *([] if each.ordinary else ["False"])]
    end = f"{', '.join(more)}),"
    return [f"{begin} {end}"] if len(begin) + 1 + len(end) <= 120 else [begin, " " * 14 + end]


def operation_rows(lines):
    there = {}
    for call in ast.parse("\n".join(["(", *lines, ")"])).body[0].value.elts:
        number, name = map(ast.literal_eval, call.args[:2])
        there[number] = name, lines[call.lineno - 2:call.end_lineno - 1]
    found = {each.number: each for each in source.operations()}
    constants = {value: name for name, value in of_tools().items() if name.isupper() and isinstance(value, str)}
    every = with_others({number: each.name for number, each in found.items()},
                        {number: name for number, (name, _) in there.items()})
    return [line for number in by_number(every)
            for line in (operation_row(found[number], constants) if number in found else there[number][1])]


def hole_shapes(_):
    """The sizes of requests, of all operations that zkdump_tools/operations.py has."""
    known, words = of_tools(), []
    for each in known["ALL"]:
        path = each.request.startswith(known["PATH"])
        least, exactly = known["least"](each.request.replace(known["PATH"], "", 1) if path else each.request)
        if each.name != "check":
            flags = f"{str(path).lower()}, {str(exactly).lower()}"
            words.append(f"{{{each.number}, {flags}, {least if path else 8 + least}}},")
    return ["static const struct shape shapes[] = {", *wrapped(words, 120), "};"]


def newer_ranges(_):
    """Of the numbers of all operations that zkdump_tools/operations.py has, those that are not of 3.4."""
    newer = {each.number for each in of_tools()["ALL"] if each.release != "3.4" and each.name != "check"}
    ranges = " ||\n".join(f"(op >= {least} && op <= {most})" for least, most in runs(newer))
    return wrapped(f"return {ranges};".splitlines(), 120, 11)


def arm(patterns, given):
    """An arm of a match, laid out as by rustfmt: where one pattern is a range or long, each has a line."""
    whole = f"        {' | '.join(patterns)} => {given},"
    words = [f"    {patterns[0]}", *(f"| {pattern}" for pattern in patterns[1:]), f"=> {given},"]
    if any(len(pattern) > 20 or ".." in pattern for pattern in patterns):
        words[-2:] = [f"{words[-2]} {words[-1]}"]
        return [whole] if len(whole) <= 100 else wrapped(words, 0, 8)
    return [whole] if len(whole) <= 100 else wrapped(words, 95, 8)


def match(head, arms, otherwise):
    """A function of Rust that is one match."""
    return ["", f"fn {head} {{", f"    match {head.partition('(')[2].partition(':')[0]} {{",
            *(line for patterns, given in arms for line in arm(patterns, given)), f"        _ => {otherwise}",
            "    }", "}"]


def peer_operations(_):
    """The operations of bench/peer/peer.rs: their constants, the profiles that have them, and how bodies are read."""
    names = {each.number: re.sub(r"(?<=[a-z])(?=[A-Z])", "_", each.variant).upper()
             for each in (*source.operations(), *source.parts())}
    found = [f"const {names[number]}: i32 = {number};" for number in by_number(names)]
    releases, bodies = {}, {"request": {}, "reply": {}}
    for each in source.operations():
        releases.setdefault(each.release, set()).add(each.number)
        for what, forms in bodies.items():
            kinds = [RUST[kind] for _, kind in getattr(each, what) if each.name != "multi"]
            if kinds:
                form = kinds[0] if len(kinds) == 1 else f"({', '.join(kinds)})"
                forms.setdefault(f"read::<{form}>(bytes)", []).append(names[each.number])
    arms = []
    for release, numbers in releases.items():
        patterns = []
        for least, most in runs(numbers):
            every = [names[number] for number in range(least, most + 1)]
            patterns += [f"{every[0]}..={every[-1]}"] if len(every) > 2 else every  # which is faster
        arms.append((patterns, "true" if release == "3.4" else f"profile >= {release.replace('.', '')}"))
    found += match("is_operation(number: i32, profile: u32) -> bool", arms, "false,")
    for what, forms in bodies.items():
        found += match(f"body_of_{what}<'a>(operation: i32, bytes: &mut &'a [u8]) -> Answer<()>",
                       ((patterns, form) for form, patterns in forms.items()), "Ok(()), // without a body")
    return found


def random_operations(_):
    known = map(str, by_number(source.names()["operation"]))
    words = [f"{number}," for number in (*known, *ODD_OPERATIONS)]
    words[-1] = words[-1].replace(",", ");")
    return wrapped(["return (int32_t)PICK(" + words[0], *words[1:]], 120, 25)


def json_keys(_):
    named, keys = {name: own for own, name in source.names_in_c().items()}, {}
    for name in source.field_names():
        if name not in NOT_ALONE:
            keys.setdefault(source.in_line(named.get(name, name.lower())), []).append(name)
    stat = {source.records()["Stat"][0][0]: '\\"stat\\": {'}
    return [f"    {' '.join(f'case ZK_NAME_{name}:' for name in of)} return \", {stat.get(key, '')}\\\"{key}\\\": \";"
            for key, of in keys.items()]


# By file, what writes all of it, or each of its marked parts.
WHOLE = {"examples/python/libzk/_names.py": constants.python_names, "examples/rust/zk/src/names.rs": constants.rust_names,
         "examples/go/names.go": constants.go_names, "tools/zkdump_tools/zkcolumns/in_lines.h": constants.columns_names}
PARTS = {"include/zk.h": (header_profiles, header_enum, constants.header_constants, constants.header_functions),
         "tools/zkdump_tools/operations.py": (operation_rows,),
         "wireshark/names.c": (plugin_names, newer_ranges), "wireshark/hole.c": (hole_shapes,),
         "tools/zkdump_tools/zkcolumns/json.c": (json_keys,), "tools/zkdump_tools/zkcolumns/recording.c": (known_profiles,),
         "tests/library/chosen.h": (random_profiles, random_operations),
         "examples/go/libzk.go": (go_profiles,), "wireshark/register.c": (plugin_profiles,),
         "packaging/completion/zkdump.bash": (completed_profiles,),
         "bench/peer/peer.rs": (peer_operations,)}


def current(name, lines):
    """The lines that a file should have, by those that it has."""
    if name in WHOLE:
        return WHOLE[name](lines)
    found, marks = [], [at for at, line in enumerate(lines) if BEGIN in line or END in line]
    if len(marks) != 2 * len(PARTS[name]):
        raise source.Missing(f"{name} has {len(marks)} marks, not {2 * len(PARTS[name])}")
    at = 0
    for made, begin, end in zip(PARTS[name], marks[::2], marks[1::2]):
        found += [*lines[at:begin + 1], *made(lines[begin + 1:end])]
        at = end
    return found + lines[at:]
