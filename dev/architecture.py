"""Draws the layers of the crates in docs/ARCHITECTURE.md, and says there what each crate has.

    python3 -m dev.architecture [--check]

A crate or a file is described by its own text: the first paragraph of the `//!` comment of lib.rt or main.rt, and of
the other src/*.rt, or the comment that a file of specs/ begins with. What a crate uses is in crates.txt. The lines are
written between two marks of the page. With --check nothing is written, and it fails where the page isn't current,
where a file has no such comment, or where crates.txt lacks a crate.

A library's lib.rt shows an example, a block of code in its comment. Its lines have to be lines, one after another, of a
test or a program: of a file examples.rt of the crates of tests, or of examples/*.c. How far they are indented makes no
difference.

The status is 0 if the page is current or was written, 1 if something is wrong, 2 for invalid arguments.
"""

import pathlib
import re
import sys

TOP = pathlib.Path(__file__).resolve().parent.parent
BEGIN, END = "<!-- The lines from here on are written by dev/architecture.py. -->", "<!-- Up to here. -->"
HEAD = {".rt": r"(?://!(?: .*)?\n)+", ".antt": r"(?:-- .*\n)+"}
ROOTS = ("lib.rt", "main.rt")
EXAMPLE = re.compile(r"^//! ```\w*\n(.*?)^//! ```$", re.M | re.S)
RUN = ("crates/*_tests/src/tests/examples.rt", "examples/*.c")


def crates():
    """The crates, from the lowest on, each with what it uses."""
    for line in (TOP / "crates.txt").read_text().splitlines():
        if line and not line.startswith("#"):
            name, _, used = line.partition(":")
            yield name.split()[0], used.split()


def head(path):
    """A file's own description, in one line."""
    found = re.match(HEAD[path.suffix], path.read_text())
    lines = [re.sub(r"^(//!|--) ?", "", line) for line in found[0].splitlines()] if found else []
    first = " ".join(lines[:lines.index("")] if "" in lines else lines)
    return first.replace("|", "\\|")


def root(crate):
    """The file that a crate begins with."""
    return next(path for name in ROOTS if (path := TOP / "crates" / crate / "src" / name).exists())


def files(crate):
    """The files of a crate, without its root and without Lib.antt."""
    folder = TOP / "crates" / crate
    sources = sorted(path for path in folder.glob("src/**/*.rt") if path.name not in ROOTS)
    return [*sources, *sorted(path for path in folder.glob("specs/**/*.antt") if path.stem != "Lib")]


def layers():
    """The crates in rows, as a block of text: each uses crates of the rows below it alone, and one of the next."""
    height = {}
    for crate, used in crates():
        height[crate] = 1 + max((height[name] for name in used if name in height), default=0)
    rows = [[crate for crate in height if height[crate] == row] for row in range(max(height.values()), 0, -1)]
    return "\n".join(f"    {'  '.join(row)}" for row in rows)


def crate_table():
    """What each crate has, and what it uses."""
    rows = [f"| [{crate}](../{root(crate).relative_to(TOP)}) | {head(root(crate))} "
            f"| {', '.join(f'`{name}`' for name in used) or 'nothing'} |" for crate, used in crates()]
    return "\n".join(["| Crate | What it has | Uses |", "|---|---|---|", *rows])


def lines(text):
    """The lines of code, without the blanks on their left."""
    return [line.strip() for line in text.splitlines() if line.strip()]


def are_in(wanted, found):
    return wanted != [] and any(found[at:at + len(wanted)] == wanted for at in range(len(found)))


def examples():
    """What is wrong with the examples of the libraries' own pages."""
    run = [lines(path.read_text()) for pattern in RUN for path in sorted(TOP.glob(pattern))]
    for crate, _ in crates():
        if root(crate).name != ROOTS[0] or crate.endswith("_tests"):
            continue
        where, shown = root(crate).relative_to(TOP), EXAMPLE.findall(root(crate).read_text())
        if not shown:
            yield f"{where} shows no example"
        for example in (lines(re.sub("^//!", "", each, flags=re.M)) for each in shown):
            if not any(are_in(example, found) for found in run):
                yield f"{where}: no test has the lines of its example: {example[0] if example else 'there are none'}"


PAGE = TOP / "docs" / "ARCHITECTURE.md"


def main():
    if sys.argv[1:] not in ([], ["--check"]):
        print(__doc__.split("\n\n")[1].strip(), file=sys.stderr)
        return 2
    every = [path for crate, _ in crates() for path in (root(crate), *files(crate))]
    wrong = [f"{path.relative_to(TOP)} doesn't say what it has" for path in every if not head(path)]
    wrong += [f"crates/{name} is not in crates.txt" for name in sorted(
        {path.parent.name for path in TOP.glob("crates/*/src")} - {crate for crate, _ in crates()})]
    wrong += examples()
    page = PAGE.read_text()
    before, _, rest = page.partition(BEGIN)
    current = f"{before}{BEGIN}\n\n{layers()}\n\n{crate_table()}\n\n{END}{rest.partition(END)[2]}"
    if "--check" not in sys.argv:
        PAGE.write_text(current)
    elif page != current:
        wrong.append(f"{PAGE.relative_to(TOP)} isn't current: run python3 -m dev.architecture")
    print("\n".join([*wrong, f"{0 if wrong else len(every)} passed, {len(wrong)} failed"]))
    return 1 if wrong else 0


if __name__ == "__main__":
    sys.exit(main())
