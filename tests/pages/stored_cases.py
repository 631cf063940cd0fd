"""Compares what pages show of the stored cases (crates/zkdump/cases) with the cases.

    python3 -m tests.pages.stored_cases [PAGE..]

In docs/EXAMPLES.md and the page beside the cases, the code in a paragraph, in a row of a table, or in a block is of the
cases that are named there, or last above it under the same heading. At the beginning of EXAMPLES.md it is of the case
FIRST. Each of these has to be in one of them:

- `C: 0000000f ..` or `S: ..`, among that side's bytes, and digits alone in its recording, but for a decimal number;
- a message's line, an ending's, one of standard error, or a word of a line as `blob=~`; so is what a table has under
  the heads COLUMNS;
- options, among its arguments.

It prints what is wrong and one last line. The status is 0 if nothing is, and something was there to be compared.
"""

import functools
import pathlib
import re
import sys

TOP = pathlib.Path(__file__).resolve().parents[2]
CASES = TOP / "crates" / "zkdump" / "cases"
PAGES = (TOP / "docs" / "EXAMPLES.md", CASES / "README.md")
FIRST = "exists_of_a_missing_node"
# A heading, a block of code, a row of a table, or a paragraph.
PART = re.compile(r"^#.*|^```\n(?:.*\n)*?```$|^\|.*|(?:^(?![#|`]).+\n?)+|^`(?!``).*(?:\n.+)*", re.M)
COLUMNS = {"offset", "place", "reason"}


def content(path):
    return path.read_bytes() if path.exists() else b""


@functools.lru_cache(maxsize=None)
def case(name):
    """What the cases of this name have, in all folders: the bytes of the client and of the server, and the recordings,
    in hexadecimal digits; their lines; and their arguments."""
    sides, whole, lines, words = {"C": "", "S": ""}, "", [], []
    for args in CASES.glob(f"*/{name}.args"):
        words.append(" ".join(args.read_text().split()))
        for path in (args.with_suffix(end) for end in (".in", ".out", ".err")):
            data = content(path)
            if not data.startswith(b"ZKR"):
                lines += data.decode().split("\n")
                continue
            whole += f"{data.hex()} "
            at, head = (4, 5) if data[:4] == b"ZKR1" else (20, 13)
            while at + head <= len(data):
                size = int.from_bytes(data[at + head - 4:at + head], "big")
                sides[chr(data[at])] = sides.get(chr(data[at]), "") + data[at + head:at + head + size].hex()
                at += head + size
            sides = {side: f"{digits} " for side, digits in sides.items()}
    return sides, whole, lines, words


def has_bytes(there, digits):
    """Whether these digits begin at a byte of one of the words."""
    return any(at % 2 == 0 for word in there.split() for at in (found.start() for found in re.finditer(
        f"(?={re.escape(digits)})", word)))


def has(name, code):
    """Whether the case has what a page shows; None for code that shows nothing of a case."""
    sides, whole, lines, words = case(name)
    if re.match(r"[CS]: [0-9a-f]{4}", code) and ".." not in code:
        return has_bytes(sides[code[0]], code[3:].replace(" ", ""))
    if re.fullmatch(r"(?![1-9]\d*$)[0-9a-f ]{6,}", code):
        return has_bytes(whole, code.replace(" ", ""))
    if re.match(r"[CS] |\. |line \d+: (?!column [A-Z])", code):
        return any(re.match(rf"{re.escape(code)}(?!\w)", line) for line in lines)
    if re.match(r"\w+=.", code):
        return any(f" {code} " in f"{line} " for line in lines)
    if re.match(r"--\w", code):
        return any(code in f"{each} " for each in words)
    return None


def shown(text):
    """What a page shows: the number of the line, the names of the cases, and the code."""
    names = {path.stem for path in CASES.glob("*/*.args")}
    current, heads = {FIRST} if "## The frames that many examples share" in text else set(), []
    for part in PART.finditer(text):
        at = text.count("\n", 0, part.start()) + 1
        if part[0].startswith("#"):
            current = current & {FIRST}
            continue
        if part[0].startswith("```"):
            code = [(line, at + number) for number, line in enumerate(part[0].splitlines()[1:-1], 1)]
        else:
            code = [(span, at) for span in re.findall(r"`([^`\n]+)`", part[0])]
        named = {span.rpartition("/")[2] for span, _ in code} & names
        current = named or current
        yield from ((place, sorted(current), span) for span, place in code)
        if part[0].startswith("|"):
            cells = [cell.strip() for cell in part[0].split("|")[1:-1]]
            heads = heads if named or cells[0].startswith("---") else cells
            yield from ((at, sorted(current), f"{head}={cell}") for head, cell in zip(heads, cells)
                        if named and head in COLUMNS and cell)


def compared(path):
    """Whether each thing that a page shows is a case's, and what to print otherwise."""
    where = path.relative_to(TOP) if TOP in path.parents else path.name
    for at, names, code in shown(path.read_text()):
        found = {has(name, code) for name in names} - {None}
        if found:
            yield True in found, f"{where}:{at}: {' and '.join(names)}: no {code}"


def main():
    results = [each for path in [pathlib.Path(word) for word in sys.argv[1:]] or PAGES for each in compared(path)]
    wrong = [told for good, told in results if not good]
    print("\n".join([*wrong, f"{len(results) - len(wrong)} passed, {len(wrong)} failed"]))
    return 1 if wrong or not results else 0


if __name__ == "__main__":
    sys.exit(main())
