"""The proved library for C, built twice over one proof: for any x86-64, and for x86-64-v2; and the toolchain's folder.
As a script it proves and builds both."""

import os
import pathlib
import subprocess
import tempfile

TOP = pathlib.Path(__file__).resolve().parent.parent
CRATE = TOP / "crates" / "zk_c"
LIBRARY = CRATE / "out" / "libzk_c.a"            # for x86-64-v2, as `rt lib` makes it
PLAIN = CRATE / "out" / "plain" / "libzk_c.a"    # for any x86-64
LEVELS = {LIBRARY: (), PLAIN: ("--cpu", "x86-64")}


def kit():
    """The toolchain's folder."""
    page = subprocess.run(["rt", "doc"], capture_output=True, text=True, check=True).stdout.strip()
    return pathlib.Path(page).parent


def below(name):
    """The libraries that a crate uses, directly or through others: the repository's and the toolchain's, by
    crates.txt."""
    uses = {}
    for line in (TOP / "crates.txt").read_text().splitlines():
        crate, colon, libraries = line.split("#")[0].partition(":")
        if colon:
            uses[crate.split()[0]] = libraries.split()
    own = {one: TOP / "crates" / one / "out" / "rlib" / f"{one}.rlib" for one in uses if one in uses[name]}
    found, left = {}, list(own)
    while left:
        one = left.pop()
        if one not in found:
            found[one] = TOP / "crates" / one / "out" / "rlib" / f"{one}.rlib"
            left += [low for low in uses[one] if low in uses]
    return own, found, [one for one in uses[name] if one not in uses]


def words(own, every, others):
    """The command that proves and builds the library, but for where and for which processors."""
    home = kit()
    yield from (home / "bin" / "rattle", "build", "--crate-name", "zk_c", "src/lib.rt", "--crate-type", "staticlib",
                "--links", "zk_c=", "--jobs", str(min(4, os.cpu_count() or 1)), "--toolchain", home / "toolchain",
                "--antt-project", home / "rattle" / "logic" / "antt-project.json", "--logic-built", home / "logic_built",
                "--backend", "llvm", "-L", f"dependency={home / 'rlibs'}")
    for name in ["std", *others]:
        yield from ("--extern", f"{name}={home / 'rlibs' / name}.rlib")
    for name, path in own.items():
        yield from ("--extern", f"{name}={path}")
    for path in every.values():
        yield from ("-L", f"dependency={path.parent}")


def built():
    """Both libraries, proved and built. Where the libraries below aren't proved yet, `rt lib` proves them first."""
    own, every, others = below("zk_c")
    if not all(path.is_dir() for path in every.values()):
        subprocess.run(["rt", "lib"], cwd=CRATE, check=True, stdout=subprocess.DEVNULL)
        build(list(words(own, every, others)), CRATE / "out" / "incremental")
        return
    with tempfile.TemporaryDirectory() as kept:
        build(list(words(own, every, others)), kept)


def build(command, kept):
    """Builds both libraries over one folder of kept work: the second build proves nothing again."""
    for path, level in LEVELS.items():
        path.parent.mkdir(parents=True, exist_ok=True)
        subprocess.run([*command, *level, "--incremental", kept, "-o", path], cwd=CRATE, check=True,
                       stdout=subprocess.DEVNULL)


if __name__ == "__main__":
    built()
