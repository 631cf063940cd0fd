"""Checks what the pages say of clauses and names against the sources.

    python3 -m tests.pages.clauses [PAGE..]

A page names clauses of a function as `call` (clause, ..) or, within brackets, as (`call`, clause, ..; ..), and calls of
a trait or type as `Type` (call, ..). Each such word must be the name of a clause of a function of that name in
crates/*/src, or of a call of that type; and what a table's last column names under one of the heads CARRYING a function
or type. What any code of a page spells as `Type::call` or `crate::call` must be a function there, a variant, or spelled
so by a source in Rattle or Rust, and a name of small letters with an underscore a word of some source, or a file's.
The tables of MUST_FAIL.md, each under the heading of a crate, must have that crate's must-fail edits in their second
column, all of them and no others. Without arguments it reads the pages of words.py.

It prints what is wrong and one last line. The status is 0 if nothing is, and something was there to be checked.
"""

import collections
import pathlib
import re
import sys

from dev import words
from dev.contracts import BOUNDS, CLAUSE, TAIL, balanced, blocks, generics

TOP = words.TOP

FUNCTION = re.compile(r"\bfn (\w+)")
WORDS = r"[a-z]\w*(?:, [a-z]\w*)*"
NAMES = r"`[\w:]+`(?:(?:, | and )`[\w:]+`)*"
OUTSIDE = re.compile(rf"({NAMES}) \(({WORDS})\)")
CARRYING = ("Contracts that carry it", "Clauses")
INSIDE = re.compile(rf"\(({NAMES}, {WORDS}(?:; {NAMES}, {WORDS})*)\)")
SPELLED = re.compile(r"`((?:\w+::)+\w+|[a-z0-9_]*[a-z0-9]_[a-z0-9_]+)`")
OWNER = re.compile(r"^(?:pub )?(impl|trait|enum)\b([^\n{;]*)\{", re.M)
NOT_CODE = {".antt": re.compile(r"--.*"), ".py": re.compile(r"#.*"), "": re.compile(r"#.*")}
COMMENT = re.compile(r"/\*.*?\*/|//[^\n]*", re.S)
TARGETS = TOP / "packaging" / "zkConfig.cmake.in"


def clauses_at(text, at):
    """The names of the clauses of the function whose name ends here."""
    start = generics(text, at)
    if text[start] != "(":
        return set()
    end = balanced(text, start, "()")
    tail = TAIL.search(text, end)
    at, found = BOUNDS.match(text, tail.start()).end(), set()
    while clause := CLAUSE.match(text, at):
        at = balanced(text, clause.end() - 1, "{}")
        found.add((clause[2] or "").strip())
    return found


def known():
    """By each name of a function, with its type and without, the names of its clauses; by each name of a type its
    calls."""
    clauses, members = collections.defaultdict(set), collections.defaultdict(set)
    for path in sorted((TOP / "crates").glob("*/src/*.rt")):
        text = re.sub(r"//.*", "", path.read_text())
        inside = [(owner, start, end) for owner, _, start, end in blocks(text) if owner]
        for function in FUNCTION.finditer(text):
            owners = {owner for owner, start, end in inside if start < function.start() < end}
            found = clauses_at(text, function.end())
            for name in [function[1], *(f"{owner}::{function[1]}" for owner in owners)]:
                clauses[name] |= found
            for owner in owners:
                members[owner].add(function[1])
    return clauses, members


def named(page):
    """What a page claims: names of functions or types, and the words that it lists for them."""
    for names, words in OUTSIDE.findall(page):
        yield re.findall(r"`([\w:]+)`", names), words.split(", ")
    for inside in INSIDE.findall(page):
        for part in inside.split("; "):
            names = re.findall(r"`([\w:]+)`", part)
            yield names, re.sub(rf"^{NAMES}, ", "", part).split(", ")


def carried(page):
    """The functions and types that such columns name."""
    inside = False
    for line in page.splitlines():
        last = line.rsplit("|", 2)[1].strip() if line.startswith("|") else ""
        inside = line.startswith("|") and (inside or last in CARRYING)
        yield from re.findall(r"`([\w:]+)`", last) if inside else ()


def owned(path, text):
    """The functions and variants of a source in Rattle or Rust, each by its type, trait or crate: `type::name`."""
    parts = path.relative_to(TOP).parts
    if parts[0] == "crates":
        yield from (f"{parts[1]}::{name}" for name in FUNCTION.findall(text))
    for head in OWNER.finditer(text):
        inside = text[head.end():balanced(text, head.end() - 1, "{}")]
        names = re.findall(r"^\s*([A-Z]\w*)", inside, re.M) if head[1] == "enum" else FUNCTION.findall(inside)
        # (a type `AskOf` has the name `Ask`, too)
        owners = {owner for word in re.findall(r"\w+", head[2]) for owner in (word, re.sub("Of$", "", word))}
        yield from (f"{owner}::{name}" for owner in owners for name in names)


def in_sources():
    """What a page may spell: the words of all sources, the names of files and crates, and what each type and crate has."""
    found = {path.name.partition(".")[0] for path in [*words.files(), *TOP.glob("crates/*")]}
    found.update(re.findall(r"\w+::\w+", TARGETS.read_text()))
    for path in words.sources():
        text = NOT_CODE.get(path.suffix, COMMENT).sub("", path.read_text(errors="replace"))
        found.update(re.findall(r"\w+", text))
        if path.suffix in (".rt", ".rs"):
            found.update(owned(path, text))
            found.update(re.findall(r"\b(?=(\w+::\w+))", text))
    return found


def spelled(page):
    """The names that a page spells in code, but for those that end one."""
    prose = words.FENCE.sub("", words.GENERATED.sub("", page))
    return {"::".join(name.split("::")[-2:]) for name in SPELLED.findall(prose) if not name.startswith("_")}


def edits(page):
    """What the page of edits names that is none, and the edits that it lacks."""
    named = {f"{crate}/{edit}" for crate, rows in re.findall(r"^## (zk\w+)(.*?)(?=^## |\Z)", page, re.M | re.S)
             for column in re.findall(r"^\| [^|]* \| ([^|]*) \|", rows, re.M) for edit in re.findall(r"`(\w+)`", column)}
    there = {f"{edit.parts[-3]}/{edit.stem}" for edit in TOP.glob("crates/*/must-fail/*.edit")}
    return [*(f"there is no edit {name}" for name in sorted(named - there)),
            *(f"no table has the edit {name}" for name in sorted(there - named))]


def main():
    pages = [pathlib.Path(word) for word in sys.argv[1:]] or words.pages()
    clauses, members = known()
    wrong, right, there = [], 0, in_sources()
    for path in pages:
        page, where = path.read_text(), words.name_of(path) if TOP in path.parents else path.name
        names = spelled(page)
        right += len(names & there)
        wrong += (f"{where}: no source has {name}" for name in sorted(names - there))
        wrong += (f"{where}: {told}" for told in (edits(page) if path.name == "MUST_FAIL.md" else ()))
        for name in carried(page):
            if name in clauses or name in members:
                right += 1
            else:
                wrong.append(f"{where}: there is no function or type {name}")
        for names, listed in named(page):
            for name in names:
                for word in listed:
                    if word in clauses.get(name, ()) or word in members.get(name, ()):
                        right += 1
                    else:
                        wrong.append(f"{where}: `{name}` has no clause {word}")
    print("\n".join([*wrong, f"{right} passed, {len(wrong)} failed"]))
    return 1 if wrong or not right else 0


if __name__ == "__main__":
    sys.exit(main())
