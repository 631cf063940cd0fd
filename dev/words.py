"""Checks how the pages and scripts are written, and the pages' links.

    python3 -m dev.words [--check]

It prints the number of words of each page's longest sentence. With --check it prints only what is wrong: a sentence
above the page's limit, a word of DIALECT more often than its number allows, a date, a machine or an hour outside of
bench/README.md and CHANGELOG.md, a link between pages whose file or heading isn't there, a path of the repository or
the name of a source in code that isn't there, and a word of DIALECT in a script's comments or texts, which are its
messages and help, or in a comment of a crate's sources, or of C, Rust, Go or JavaScript. There a fast form "stands for"
a plain one. So is a script that changes the path on which Python looks for modules, or runs one by its file: modules
are named from the top (`python3 -m dev.words`, `from dev import words`). So is a source or script of more than 400
lines that CONTRIBUTING.md doesn't name, or a shorter one that it names; and a number of hints to inline, or of
must-fail edits, that isn't that of the crates.

A sentence ends with a full stop, a question or an exclamation mark; a table's cell, an item of a list and a heading are
sentences of their own. Code within a sentence is one word; blocks of code are none.

The status is 0 if nothing is wrong, 1 if something is, 2 for invalid arguments.
"""

import os
import pathlib
import re
import sys
import tokenize

TOP = pathlib.Path(__file__).resolve().parent.parent

# The greatest number of words in one sentence.
SHORT, LONG = 40, 60
PLAIN = {"README.md": SHORT, "tools/README.md": SHORT, "docs/LIBRARY.md": SHORT}

# Words that are rarely the plainest, and how often all pages together may have them.
DIALECT = {
    r"so many": 0,
    r"(?:wants?|wanted|want of) memory|memory is wanted": 0,
    r"says? no more": 0,
    r"where (?:it|they) lies?": 0,
    r"(?:is|are|was|were) told": 0,
    r"tells?": 2,
    r"wants?": 4,
    r"stands?": 28,
    r"comes? to": 6,
    r"behind": 3,
}
MONTHS = "January|February|March|April|May|June|July|August|September|October|November|December"
DIARY = re.compile(rf"\b\d{{1,2}} (?:{MONTHS})|\b(?:{MONTHS}) \d|\b\d{{4}}-\d\d-\d\d\b"
                   r"|\b(?:this|that) machine\b|\b(?:hours?|minutes?) on\b|\bat a load of\b")

# How a script finds a module in a way of its own, and what is said of it.
OWN_WAY, WAY = re.compile(r"\bsys\.path\b|\brunpy\b"), "a module is named from the top, as python3 -m dev.words"

# A number that a page has: the page, the words around it, the files of the crates that it is of, and what it counts
# there.
COUNTED = (
    ("bench/HINTS.md", r"has (\d+) lines with a hint", "src/**/*.rt", r"^\s*#\[inline.*\]"),
    ("bench/HINTS.md", r"(\d+) with `#\[inline\(always\)\]`", "src/**/*.rt", r"^\s*#\[inline\(always\)\]"),
    ("bench/HINTS.md", r"(\d+) with `#\[inline\(never\)\]`", "src/**/*.rt", r"^\s*#\[inline\(never\)\]"),
    ("bench/HINTS.md", r"(\d+) with `#\[inline\]`", "src/**/*.rt", r"^\s*#\[inline\]"),
    ("docs/PERF.md", r"the (\d+) must-fail edits", "must-fail/*.edit", r"\A."),
)

# The greatest number of lines of a source, the page that names those with more, what a source's name ends with, and the
# folders that have none.
MOST_LINES, RULES = 400, "CONTRIBUTING.md"
SOURCES = ("", ".antt", ".c", ".css", ".go", ".h", ".html", ".java", ".js", ".py", ".rs", ".rt", ".sh")
COMMENTED = ("crates/*/src/**/*.rt", "include/*.h", *(
    f"{folder}/**/*.{suffix}" for suffix in ("c", "h", "rs", "go", "js")
    for folder in ("bench", "examples", "tests", "tools", "wireshark")))
TEXTS, MADE = ("COPYING", "LICENSE", ".git"), {".git", "__pycache__", "build", "dist", "out", "target"}

GENERATED = re.compile(r"<!-- The lines from here on are written by .*?<!-- Up to here. -->", re.S)
FENCE = re.compile(r"^```.*?^```$", re.M | re.S)
LINK = re.compile(r"\[([^\]]*)\]\(([^)\s]+)\)")
# Code in a line, or a line of it; a path in it that begins with a folder of the repository, or that is the name of a
# source alone; the words in one that stand for any name, and the names of sources that others have.
CODE = re.compile(r"`([^`\n]+)`|^    (.*)", re.M)
PATH = re.compile(r"(?<![\w./*}-])(?:bench|captures|crates|dev|docs|examples|include|packaging|tests|tools"
                  r"|wireshark)/[\w./-]*\w/?(?![\w*{])")
NAME = re.compile(rf"(?<![\w./*-])[\w-]+(?:{'|'.join(map(re.escape, SOURCES[1:]))})(?![\w./-])")
ANY_NAME, OF_OTHERS = {"CRATE", "NAME", "mine"}, {"zkr_of.py", "zookeeper.c"}
ENDS = re.compile(r"(?<=[.?!])[\"')*]*\s+")


def name_of(path):
    return str(path.relative_to(TOP))


def is_made(name):
    """Whether a path of the repository is what is made there, or in it. Among crates a folder `build` is not."""
    made = MADE.intersection(name.split("/"))
    return bool(made - {"build"} if name.startswith("crates/") else made)


def pages():
    """The pages that are read: those at the top, of docs/, and each folder's README."""
    return sorted({*TOP.glob("*.md"), *TOP.glob("docs/*.md"), *TOP.glob("*/README.md"), *TOP.glob("bench/*.md"),
                   *TOP.glob("crates/*/cases/README.md")} - {TOP / "CHANGELOG.md"})


def prose(text):
    """The page without blocks of code, comments and what scripts write."""
    text = re.sub(r"<!--.*?-->", "", FENCE.sub("", GENERATED.sub("", text)), flags=re.S)
    return "\n".join(line for line in text.splitlines() if not line.startswith("    "))


def plain(text):
    """The page's prose in one line, without the code in it."""
    return " ".join(re.sub(r"`[^`]*`", "", prose(text)).split())


def blocks(text):
    """Its paragraphs, items, cells and headings, each as one text."""
    lines = []
    for line in prose(text).splitlines():
        if re.match(r"\s*(#|\||[-*] |\d+\. )", line) or not line.strip() or not lines:
            lines.append(line.strip())
        elif lines[-1]:
            lines[-1] += " " + line.strip()
        else:
            lines.append(line.strip())
    for line in lines:
        cells = re.split(r"(?<!\\)\|", re.sub(r"`[^`]*`", "code", line)) if line.startswith("|") else [line]
        yield from (re.sub(r"^\s*(#+|[-*]|\d+\.) ", "", cell) for cell in cells)


def sentences(text):
    """Each sentence, and the number of its words."""
    for block in blocks(text):
        block = LINK.sub(r"\1", re.sub(r"`[^`]*`", "code", block))
        for sentence in ENDS.split(block):
            yield sentence, len(re.findall(r"[\w'\"(*]+\S*", sentence))


def anchors(text):
    """The names of its headings, as links spell them."""
    return {re.sub(r"[^\w\- ]", "", head.replace("`", "")).strip().lower().replace(" ", "-")
            for head in re.findall(r"^#+ (.*)$", text, re.M)}


def lost(path, text):
    """The links of a page that lead nowhere: no file, no heading, or no function of the name that is linked. And the
    paths of the repository that it names and that aren't there, but for those of what is made."""
    for name, target in LINK.findall(FENCE.sub("", text)):
        file, _, anchor = target.partition("#")
        if re.match(r"\w+:", target):
            continue
        to = (path.parent / file).resolve() if file else path
        code = re.fullmatch(r"`(?:\w+::)*(\w+)`", name) if file.endswith(".rt") else None
        if (not to.exists() or (anchor and anchor not in anchors(to.read_text()))
                or (code and not re.search(rf"\b(?:fn|macro_rules!) {code[1]}\b", to.read_text()))):
            yield f"{name_of(path)}: the link {name} to {target} leads nowhere"
    code = CODE.findall(text)
    alone = {name for span, _ in code for name in NAME.findall(span)} - OF_OTHERS
    known = {source.name for source in sources()} if alone else ()
    for name in (*(name for both in code for name in PATH.findall("".join(both))), *sorted(alone)):
        is_there = (TOP / name).exists() or (path.parent / name).exists() or name in known
        if not is_there and not is_made(name) and ANY_NAME.isdisjoint(re.split(r"[/.]", name)):
            yield f"{name_of(path)}: there is no {name}"


def scripts():
    """The scripts in Python, except this one, which has the words themselves."""
    folders = ("bench", "dev", "examples", "packaging", "tests", "tools")
    found = {path for folder in folders for path in (TOP / folder).rglob("*.py")} | {*TOP.glob("crates/*/*.py")}
    return sorted({*found, TOP / "bench" / "run", TOP / "release"} - {pathlib.Path(__file__).resolve()})


def in_scripts():
    """The words of DIALECT in the comments and texts of scripts."""
    kinds = tokenize.COMMENT, tokenize.STRING, getattr(tokenize, "FSTRING_MIDDLE", tokenize.STRING)
    dialect = re.compile(rf"\b(?:{'|'.join(DIALECT)})\b", re.I)
    for path in scripts():
        with tokenize.open(path) as script:
            for token in tokenize.generate_tokens(script.readline):
                if token.type in kinds:
                    yield from (f"{name_of(path)}:{token.start[0]}: plainer words: {found[0]}"
                                for found in dialect.finditer(" ".join(token.string.split())))


def ways():
    """The lines of scripts that find a module in a way of their own."""
    for path in scripts():
        yield from (f"{name_of(path)}:{line}: {WAY}" for line, text in enumerate(path.read_text().splitlines(), 1)
                    if OWN_WAY.search(text))


def in_sources():
    """The words of DIALECT in the comments of sources, those of crates and those in C, Rust, Go and JavaScript; names
    in backticks are code."""
    dialect = re.compile(rf"\b(?:{'|'.join(DIALECT)})\b(?! for)", re.I)
    for path in sorted({path for pattern in COMMENTED for path in TOP.glob(pattern)
                        if not is_made(name_of(path))}):
        text = path.read_text()
        for block in re.finditer(r"(?:^[ \t]*//.*\n)+|//.*\n|/\*(?:.|\n)*?\*/", text, re.M):
            words = re.sub(r"//[/!]?|^ \*(?!/)|/\*", " ", block[0], flags=re.M)
            for found in dialect.finditer(" ".join(re.sub(r"`[^`]*`", "code", words).split())):
                yield f"{name_of(path)}:{text.count(chr(10), 0, block.start()) + 1}: plainer words: {found[0]}"


def files():
    """The files of the repository, without what is made."""
    for place, folders, names in os.walk(TOP):
        folders[:] = [name for name in folders if not is_made(name_of(pathlib.Path(place, name)))]
        yield from (pathlib.Path(place, name) for name in names)


def sources():
    """Its sources."""
    return (path for path in files() if path.suffix in SOURCES and path.name not in TEXTS)


def long_sources():
    """The sources of more than MOST_LINES lines."""
    return (name_of(path) for path in sources() if len(path.read_bytes().splitlines()) > MOST_LINES)


def too_long():
    """The long sources that the page of rules doesn't name, and what it names that is none."""
    rule = re.search(rf"more than {MOST_LINES} lines, but for (.*?)\. ", (TOP / RULES).read_text())
    named, found = set(re.findall(r"`([^`]+)`", rule[1] if rule else "")), set(long_sources())
    yield from (f"{name}: more than {MOST_LINES} lines, and {RULES} doesn't name it" for name in sorted(found - named))
    yield from (f"{RULES}: {name} is no source of more than {MOST_LINES} lines" for name in sorted(named - found))


def counted():
    """The numbers of COUNTED that are others, or that a page doesn't have."""
    for page, words, names, line in COUNTED:
        found = re.search(words, (TOP / page).read_text())
        count = sum(len(re.findall(line, path.read_text(), re.M)) for path in TOP.glob(f"crates/*/{names}"))
        if found is None or int(found[1]) != count:
            yield f"{page}: {found[0] if found else 'nothing is ' + words}, and the crates have {count}"


def judged(texts):
    """What is wrong."""
    for path, text in texts.items():
        name = name_of(path)
        for sentence, size in sentences(text):
            if size > PLAIN.get(name, LONG):
                yield f"{name}: a sentence of {size} words: {sentence[:90]}"
        if name != "bench/README.md":
            yield from (f"{name}: a diary's words: {found[0]}" for found in DIARY.finditer(plain(text)))
        yield from lost(path, text)
    every = " ".join(map(plain, texts.values()))
    for word, limit in DIALECT.items():
        count = len(re.findall(rf"\b(?:{word})\b", every, re.I))
        if count > limit:
            yield f"the pages have \"{word}\" {count} times, and at most {limit} are allowed"
    yield from in_scripts()
    yield from ways()
    yield from in_sources()
    yield from too_long()
    yield from counted()


def main():
    if sys.argv[1:] not in ([], ["--check"]):
        print(__doc__.split("\n\n")[1].strip(), file=sys.stderr)
        return 2
    texts = {path: path.read_text() for path in pages()}
    if not sys.argv[1:]:
        for path, text in texts.items():
            print(f"{max(size for _, size in sentences(text)):4}  {name_of(path)}")
    wrong = list(judged(texts))
    print("\n".join([*wrong, f"{0 if wrong else len(texts)} passed, {len(wrong)} failed"]))
    return 1 if wrong else 0


if __name__ == "__main__":
    sys.exit(main())
