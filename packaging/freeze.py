"""Lays down what programs that were compiled with a release's zk.h rely on, as static assertions in C: tests/library/frozen.c.

    python3 -m packaging.freeze --write|--check

The file has the size of each struct, the place and the type of each of its fields, the number of each constant, and
the parameters of each call. It compiles only with a header that has the same; more calls and constants do no harm, nor do
more fields at the end of a struct that may grow. It is written for each release. What a closed release has laid down is
taken back only with another name of the shared library (SONAME in make_library.py): --write refuses that, and with
--check nothing is written. The status is 0 if all is well, 1 if it isn't, 2 for wrong arguments.
"""

import pathlib
import re
import subprocess
import sys
import tempfile

from .build_library import TOP
from .make_library import HEADER, SONAME, NotMade, calls, run

FROZEN = TOP / "tests" / "library" / "frozen.c"
HEAD = """/* What programs rely on that were compiled with zk.h of {version}, and need {soname}. Written by packaging/freeze.py. */
#include <stddef.h>
#include <zk.h>

#define SAME(has, type) __builtin_types_compatible_p(__typeof__(has), type)
#define STRUCT(name, size) _Static_assert(sizeof(struct name) == (size), #name)
#define GROWN(name, size) _Static_assert(sizeof(struct name) >= (size), #name)
#define FIELD(name, field, place, type) \\
    _Static_assert(offsetof(struct name, field) == (place) && SAME(((struct name *)0)->field, type), #name "." #field)
#define CONSTANT(name, number) _Static_assert((name) == (number), #name)
#define CALL(name, type) _Static_assert(SAME(name, type), #name)
"""


def plain():
    """The header without comments."""
    return re.sub(r"/\*.*?\*/", "", HEADER.read_text(), flags=re.S)


def structs():
    """The fields of each struct, each with its type."""
    return {name: [re.fullmatch(r"(.*?)(\w+)", field.strip()).groups() for field in body.split(";") if field.strip()]
            for name, body in re.findall(r"^struct (zk_\w+) \{(.*?)^\};", plain(), re.S | re.M)}


def constants():
    """The names of the enums' constants, and of those that are defined as numbers, but for the version's."""
    enums = [name for body in re.findall(r"^enum(?: \w+)? \{(.*?)\};", plain(), re.S | re.M)
             for name in re.findall(r"\b(ZK_\w+)\b(?=\s*=)", body)]
    return dict.fromkeys(enums)


def numbers(wanted):
    """The values of these expressions."""
    lines = "".join(f'printf("%lld\\n", (long long)({one}));\n' for one in wanted)
    with tempfile.TemporaryDirectory() as folder:
        source, program = pathlib.Path(folder, "probe.c"), pathlib.Path(folder, "probe")
        source.write_text(f"#include <stddef.h>\n#include <stdio.h>\n#include <zk.h>\nint main(void) {{\n{lines}}}\n")
        run("cc", "-w", f"-I{HEADER.parent}", "-o", program, source)
        return dict(zip(wanted, run(program).split()))


def wrapped(words):
    """Words in lines of at most 120 columns."""
    line = ""
    for word in words:
        if line and len(line) + 1 + len(word) > 120:
            yield line
            line = word
        else:
            line = f"{line} {word}".lstrip()
    yield line


def lines():
    """The file."""
    every, declared = structs(), calls()
    filled = {f"struct {kind}" for kind in every if any(f"struct {kind} *out, size_t size" in words
                                                       for _, words in declared.values())}
    wanted = [f"sizeof(struct {name})" for name in every]
    wanted += [f"offsetof(struct {name}, {field})" for name, fields in every.items() for _, field in fields]
    known = numbers([*wanted, *constants()])
    yield HEAD.format(version=(TOP / "VERSION").read_text().strip(), soname=SONAME)
    for name, fields in every.items():
        size = known[f"sizeof(struct {name})"]
        yield f"{'GROWN' if f'struct {name}' in filled else 'STRUCT'}({name}, {size});"
        yield from wrapped([f"FIELD({name}, {field}, {known[f'offsetof(struct {name}, {field})']}, {kind.strip()});"
                            for kind, field in fields])
    yield ""
    yield from wrapped([f"CONSTANT({name}, {known[name]});" for name in constants()])
    yield ""
    also = re.findall(r"^ZK_ALSO ([\w ]+[ *])(zk_\w+)\(([^)]*)\) \{$", HEADER.read_text(), re.M)
    for name, (result, words) in {**declared, **{name: (result.strip(), words) for result, name, words in also}}.items():
        if f"{name}_into" not in declared:
            yield f"#undef {name}\nCALL({name}, {result}({words}));"


def faults():
    """Why the header isn't what the file says, or the file that of another shared library."""
    found = re.search(r"with zk.h of (\S+), and need (\S+?)\. ", FROZEN.read_text())
    if not found or found[2] != SONAME:
        yield f"{FROZEN.relative_to(TOP)} is of {found and found[2]}, and programs need {SONAME}: write it anew"
        return
    done = subprocess.run(["cc", "-std=c11", "-fsyntax-only", f"-I{HEADER.parent}", FROZEN], capture_output=True, text=True)
    for line in re.findall(r'error: static assertion failed: "(.*)"', done.stderr) or [done.stderr] * bool(done.returncode):
        yield f"{line} isn't what {found[1]} has: that needs another SONAME"


def is_closed():
    """Whether the file is of a release that CHANGELOG.md has closed."""
    found = re.search(r"with zk.h of (\S+),", FROZEN.read_text())
    return bool(found) and f"## [{found[1]}] - " in (TOP / "CHANGELOG.md").read_text()


def main():
    if sys.argv[1:] not in (["--write"], ["--check"]):
        print(__doc__.split("\n\n")[1].strip(), file=sys.stderr)
        return 2
    try:
        wrong = list(faults()) if FROZEN.exists() else []
        if sys.argv[1] == "--write" and not (wrong and SONAME in FROZEN.read_text() and is_closed()):
            FROZEN.write_text("\n".join([*lines(), ""]))
            wrong = list(faults())
    except (NotMade, OSError) as fault:
        wrong = [str(fault)]
    for line in wrong:
        print(f"freeze.py: {line}", file=sys.stderr)
    return 1 if wrong else 0


if __name__ == "__main__":
    sys.exit(main())
