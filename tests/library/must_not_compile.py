"""Programs that must not compile, before any proof.

    python3 -m tests.library.must_not_compile

refused_programs/NAME.txt is the text of a crate that uses the repository's crates. Its lines with `// refused: CODE`, and
no others, must be refused with that code. refused_programs/NAME.edit changes a crate of the repository, as a must-fail
edit does. Each new text, and no other line, must be refused with the code in its line `refused: CODE`. It prints what
fails and `N passed, M failed`; its status is 1 if one failed or there is none.
"""
import re
import shutil
import subprocess
import sys
import tempfile
from pathlib import Path

from packaging import build_library

ROOT = Path(__file__).resolve().parents[2]


def uses(crates):
    """By each crate of a list of crates the libraries that its line names."""
    lines = [line.split("#")[0].partition(":") for line in crates.read_text().splitlines()]
    return {crate.split()[0]: libraries.split() for crate, colon, libraries in lines if colon}


def check(crate):
    """What the checker reports of the crate before any proof; it reads those below it as sources."""
    every, home = uses(crate.parent.parent / "crates.txt"), build_library.kit()
    below, left, kits = {}, list(every[crate.name]), {"core", "std"}
    while left:
        name = left.pop()
        if name not in every:
            kits.add(name)
        elif name not in below:
            below[name] = ",".join(["core", "std", *every[name]])
            left += every[name]
    words = [home / "bin" / "rattle", "check", "--crate-name", crate.name, "src/lib.rt", "--only", "",
             "--antt-project", home / "rattle" / "logic" / "antt-project.json", "--logic-built", home / "logic_built",
             "-L", f"dependency={home / 'rlibs'}"]
    for name in sorted(kits):
        words += ["--extern", f"{name}={home / 'rlibs' / name}.rlib"]
    # (each library comes after those that it uses, as in the list of crates)
    for name in (one for one in every if one in below):
        words += ["--lib", f"{name}:{below[name]}={crate.parent / name / 'src' / 'lib.rt'}"]
    said = subprocess.run(words, cwd=crate, stdout=subprocess.PIPE, stderr=subprocess.STDOUT, text=True, check=False)
    return said.stdout


def copied(folder):
    """A copy of the repository's crates."""
    shutil.copytree(ROOT / "crates", folder / "crates", ignore=shutil.ignore_patterns("out", "must-fail", "cases"))
    return shutil.copy(ROOT / "crates.txt", folder)


def errors(crate):
    """The lines of the crate that are refused, each with its file and its code."""
    said = re.findall(r"^src/([\w/]+\.rt):(\d+):\d+: error\[([\w-]+)\]", check(crate), re.M)
    return sorted({(name, int(line), code) for name, line, code in said})


def program(top, text):
    """What is refused of a program, and what its comments expect."""
    libraries = " ".join(sorted(set(re.findall(r"^use (\w+)::", text, re.M))))
    with open(top / "crates.txt", "a") as crates:
        crates.write(f"probe: {libraries}\n")
    source = top / "crates" / "probe" / "src"
    source.mkdir(parents=True)
    (source / "lib.rt").write_text(text)
    lines = enumerate(text.splitlines(), 1)
    wanted = [("lib.rt", number, code) for number, line in lines for code in re.findall(r"// refused: ([\w-]+)", line)]
    return errors(source.parent), wanted


def edit(top, text):
    """What is refused of a crate that is edited, and what the edit expects."""
    crate, wanted = top / "crates" / re.search(r"^crate: (.*)$", text, re.M)[1], []
    for name, old, new, code in re.findall(r"^file: src/(.*)\nold: (.*)\nnew: (.*)\nrefused: (.*)$", text, re.M):
        before, found, after = (crate / "src" / name).read_text().partition(old)
        if not found or old in after:
            return [], [("the old text is not there exactly once", 0, name)]
        (crate / "src" / name).write_text(before + new + after)
        wanted.append((name, before.count("\n") + 1, code))
    return errors(crate), sorted(wanted)


def main():
    failed = 0
    folder = ROOT / "tests" / "library" / "refused_programs"
    programs = sorted([*folder.glob("*.txt"), *folder.glob("*.edit")])
    for path in programs:
        with tempfile.TemporaryDirectory() as temporary:
            copied(Path(temporary))
            got, wanted = {".txt": program, ".edit": edit}[path.suffix](Path(temporary), path.read_text())
        if not wanted or got != wanted:
            failed += 1
            print(f"{path.name}: refused {got}, expected {wanted}")
    print(f"{len(programs) - failed} passed, {failed} failed")
    return 1 if failed or not programs else 0


if __name__ == "__main__":
    sys.exit(main())
