"""Compares the library for C with its header, and runs what links it.

    python3 -m tests.library [--library PATH] [--calls N] [--seed N]

Each call that crates/zk_c/src exports is in include/zk.h with the same parameters, each struct that C sees with the
same fields, and each number by the same name. What the last release's header had is there still (frozen.c). Payloads, lines and conversations are judged as tables say (verdicts.py).
The fields of payloads, and of recordings' messages, are compared with a second reading of docs/FORMATS.md (fields.py,
messages.py), and those of requests written again (written_frames.py). Handles that are begun anew are compared with new ones
(reused_handles.py), and passages with a model of them (passages.py). The examples and the tests in C are compiled and run
(examples.py): listings of every recording, a proxy and a client over sockets, null pointers, handles that go from
thread to thread, the memory that stays of closed ones, and --calls (1,000,000) calls at random between guard pages,
from a seed. The packages for Python, Rust and Go are built, and run their own tests (packages.py). What is skipped,
since a compiler or a module is missing, is reported.

Where no other is named, the library is proved and built here for any x86-64 and for x86-64-v2, over the libraries below
it that `rt ci` left; where it left none, `rt lib` proves these too. The calls of both are compared with the tables, and
the rest runs over the one for any x86-64. It prints what failed and one last line. The status is 0 where nothing did.
"""

import argparse
import pathlib
import re
import sys
import tempfile

from dev import newer, source
from examples import talk
from packaging import freeze, make_library
from packaging.build_library import CRATE, built
from .. import left_out
from . import examples, fields, messages, packages, passages, reused_handles, verdicts, written_frames

TOP = pathlib.Path(__file__).resolve().parents[2]

HEADER = TOP / "include" / "zk.h"
C_TYPES = {"u8": "uint8_t", "u16": "uint16_t", "u32": "uint32_t", "u64": "uint64_t", "i32": "int32_t", "i64": "int64_t",
           "usize": "size_t", "bool": "bool",
           "*mut u8": "void *", "TalkBox": "void *", "TalkHandle": "struct zk_talk", "SpeakerBox": "void *",
           "SpeakerHandle": "struct zk_speaker", "SayAnswer": "struct zk_say", "FaultNumbers": "struct zk_fault",
           "PassageBox": "void *", "ThroughHandle": "struct zk_through", "PassedAnswer": "struct zk_passed",
           "StepAnswer": "struct zk_step", "EndingAnswer": "struct zk_ending", "MessageAnswer": "struct zk_message",
           "LineAnswer": "struct zk_line", "Piece": "struct zk_piece", "PayloadAnswer": "struct zk_payload",
           "Field": "struct zk_field", "ReadAnswer": "struct zk_read", "WriteAnswer": "struct zk_written",
           "WaitingAnswer": "struct zk_waiting", "HeldAnswer": "struct zk_held"}
INSIDE = {"TalkBox", "PassageBox", "SpeakerBox"}
OWN = {"struct zk_builder", "struct zk_entry", "struct zk_block"}  # of the header's functions, and of no call
NAMED = {"uint32_t", "int32_t", "int64_t"}  # parameters of these types have the crate's names
FIELDS = TOP / "crates" / "zk_fields" / "src"
LINKED = "what is linked with libzk"        # in CHECKS of left_out.py


def c_words(name, word):
    """The C types of one parameter of an export; a number has its name, too."""
    slice = re.fullmatch(r"&(mut )?\[(\w+)\]", word)
    if slice:
        return [("" if slice[1] else "const ") + C_TYPES[slice[2]] + " *", "size_t"]
    if word.startswith("&mut "):
        return [C_TYPES[word[5:]] + " *"]
    return [named(C_TYPES[word], name)]


def named(kind, name):
    return f"{kind} {name}" if kind in NAMED else kind


def joined(text):
    return re.sub(r" ?\* ?", " *", " ".join(text.split()))


def exported():
    """What the crate exports: of each call its result and the C types of its parameters; the fields of each struct that
    C sees."""
    calls, structs = {}, {}
    for path in [*sorted((CRATE / "src").glob("*.rt")), FIELDS / "field.rt"]:
        text = source.plain(path.read_text())
        for name, words, result in re.findall(r'extern "C" fn (\w+)\((.*?)\)(?: -> ([^\n{]+?))? *[\n{]', text,
                                              flags=re.S):
            given = re.findall(r"(\w+): ([^,]+)", words)
            calls[name] = (C_TYPES[result] if result else "void",
                           [c for word, kind in given if kind != "Global" for c in c_words(word, kind.strip())])
        for name, body in re.findall(r"#\[repr\(C\)\][^{]*struct (\w+) \{(.*?)\n\}", text, flags=re.S):
            if name not in INSIDE:
                fields = re.findall(r"^\s+(?:pub )?(\w+): ([^,\n]+),", body, flags=re.M)
                structs[C_TYPES[name]] = [(field, C_TYPES[kind]) for field, kind in fields]
    return calls, structs


def went_numbers():
    """The number of each thing that a passage's step does."""
    text = (CRATE / "src" / "passed.rt").read_text()
    return {name.upper(): int(n) for name, n in re.findall(r"StepOutcome::(\w+)(?:\(\w+\)| \{[^}]*\})? => \((\d+),", text)}


def package_numbers():
    """The numbers of sides and kinds in the package for Python, whose tests compare them with the library's."""
    text = "".join((TOP / "examples/python/libzk" / name).read_text() for name in ("_messages.py", "_through.py"))
    for kind, body in re.findall(r"^class (\w+)\(enum\.IntEnum\):\n((?:    .*\n)+)", text, re.M):
        for name, number in re.findall(r"^    (\w+) = (\d+)$", body, re.M):
            yield f"KIND_{name}" if kind == "FieldKind" else name, int(number)


def declared():
    """The same of the header."""
    text = source.plain(HEADER.read_text())
    calls, structs = {}, {}
    for result, name, words in re.findall(r"^([a-z][\w ]*?[ *])(zk_\w+)\(([^)]*)\);", text, flags=re.M | re.S):
        given = [re.fullmatch(r"(.*?)(\w+)", word.strip()).groups() for word in words.split(",") if word != "void"]
        calls[name] = (joined(result), [named(joined(kind), word) for kind, word in given])
    for name, body in re.findall(r"^(struct zk_\w+) \{(.*?)\n\};", text, flags=re.M | re.S):
        fields = re.findall(r"^\s+(.*?)(\w+);", body, flags=re.M)
        structs[name] = [(field, joined(kind)) for kind, field in fields]
    numbers = {name: int(n) for name, n in re.findall(r"ZK_(\w+) = (\d+)", text)}
    return calls, structs, numbers


def header_names(numbers):
    """What the header's functions for names return."""
    number = {f"ZK_{name}": n for name, n in numbers.items()}
    functions = re.findall(r"const char \*zk_(\w+)_name\((.*?)^\}", HEADER.read_text(), flags=re.M | re.S)
    return {kind: {number[of] if of in number else int(of): name
                   for of, name in re.findall(r'case (\S+): return "(\w+)";', body)} for kind, body in functions}


def compare_header():
    """A line for each difference between the crate and its header."""
    (calls, structs), (c_calls, c_structs, c_numbers) = exported(), declared()
    for kind, ours, theirs in (("call", calls, c_calls), ("struct", structs, c_structs)):
        for name in sorted({*ours, *theirs} - OWN):
            found, wanted = theirs.get(name), ours.get(name)
            if name.endswith("_into"):  # over the call that returns the struct
                result, words = ours.get(name[:-5], ("", []))
                wanted = "void", [*words, f"{result} *", "size_t"]
            yield name, wanted == found, f"{kind} {name}: the crate has {wanted}, the header {found}"
    ours, theirs = newer.names(), header_names(c_numbers)
    for kind in sorted({*ours, *theirs}):
        yield (kind, ours.get(kind) == theirs.get(kind),
               f"names of {kind}: {ours.get(kind)}, the header {theirs.get(kind)}")
    numbers = {**source.statuses(), **went_numbers(), **dict(package_numbers())}
    numbers.update((f"NAME_{name}", number) for name, number in source.field_names().items())
    for name, number in sorted(numbers.items()):
        yield (name, c_numbers.get(name) == number,
               f"number {name}: the crate has {number}, the header {c_numbers.get(name)}")


def frozen():
    """Whether programs that were compiled with the last release's header go on with this one (packaging/freeze.py)."""
    found = list(freeze.faults())
    yield "frozen", not found, "\n".join(found[:5])


def compare_calls(shared):
    """Whether the calls answer what the tests' tables say, and read recordings' messages as the formats say."""
    statuses = source.statuses()
    names = {name.lower(): number for name, number in source.field_names().items()}
    library = talk.Library(str(shared))
    yield from verdicts.compare(talk, library, declared()[2])
    yield from fields.compare(talk, library, names, statuses)
    recordings = sorted((TOP / "captures").glob("*.zkr"))
    yield from messages.compare(talk, library, names, recordings)
    yield from written_frames.compare(talk, library, names, statuses, recordings)
    yield from reused_handles.compare(talk, library, declared()[2], recordings)
    yield from passages.compare(talk, library)


def check(folder, options):
    """What is linked with the library, and what loads it."""
    lacking = make_library.missing()
    cc = examples.compiler()
    if lacking or not cc:
        left_out.say(LINKED, left_out.lacking(lacking or ["a compiler for C"]))
        return
    yield from frozen()
    archive, shared = make_library.make(folder, options.library)
    for each in (shared, *folder.glob(f"{make_library.FAST}/{make_library.SONAME}")):
        yield from compare_calls(each)
    yield from examples.check(folder, archive, shared, cc)
    yield examples.call_at_random(folder, options.seed, options.calls)
    linked = {name: of for name, of in declared()[0].items() if name in make_library.exports()}
    yield from packages.check(folder, archive, shared, linked, header_names(declared()[2]))


def main():
    parser = argparse.ArgumentParser(description="The library for C: its header, and the examples that link it.")
    parser.add_argument("--library", type=pathlib.Path)
    parser.add_argument("--calls", type=int, default=1_000_000)
    parser.add_argument("--seed", type=int, default=1)
    options = parser.parse_args()
    if options.library is None:
        built()
    results = list(compare_header())
    with tempfile.TemporaryDirectory() as folder:
        linked = list(check(pathlib.Path(folder), options))
    results += [*linked, left_out.compared(LINKED, len(linked))] if linked else []
    failures = [told for _, good, told in results if not good]
    print("\n".join(failures[:50]), end="\n" if failures else "")
    print(f"{len(results) - len(failures)} passed, {len(failures)} failed")
    return 1 if failures else 0


if __name__ == "__main__":
    sys.exit(main())
