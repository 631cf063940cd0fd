"""Builds the packages of examples/ and runs their own tests, where their tools are: Python, Rust and Go.

tests/library calls it. Nothing is taken from a network. The library is found in each way that docs/LIBRARY.md names.
The names of numbers that a package has are compared with the header's. It declares every call of the header, with as
many parameters. mypy, clippy and `go vet` find nothing to mend.
"""

import os
import pathlib
import re
import shutil
import subprocess
import sys

from .. import left_out

TOP = pathlib.Path(__file__).resolve().parents[2]
HEADER, EXAMPLES = TOP / "include" / "zk.h", TOP / "examples"
PYTHON, RUST, GO = (EXAMPLES / name for name in ("python", "rust", "go"))


def run(name, *words, **environment):
    """Whether a command ends with the status 0, and its output."""
    given = {name: environment.pop(name) for name in ("user", "group", "extra_groups") if name in environment}
    folder = environment.pop("folder")
    found = subprocess.run(words, cwd=folder, env={**os.environ, **environment}, capture_output=True, text=True, **given)
    said = found.stdout + found.stderr
    return (name, found.returncode == 0, f"{name}: status {found.returncode}, {said[-2000:]}"), said


def pythons(*modules):
    """The interpreters of Python that have these modules."""
    find = "import importlib.util as util, sys; sys.exit(not all(map(util.find_spec, sys.argv[1:])))"
    for path in (sys.executable, "/usr/bin/python3"):
        if shutil.which(path) and subprocess.run([path, "-c", find, *modules]).returncode == 0:
            yield path


def another(python):
    """The words by which a command is run by a user who can't write everywhere, if root runs these tests and that user
    has this Python."""
    who = {"user": "nobody", "group": "nogroup", "extra_groups": []}
    try:
        return who if os.geteuid() == 0 and subprocess.run([python, "-c", ""], **who).returncode == 0 else {}
    except (OSError, LookupError):
        return {}


def check_python(folder, shared):
    """The wheel is made and installed in a folder, and the tests run over it."""
    python = next(pythons("pip", "setuptools", "wheel"), None)
    if python is None:
        left_out.say("examples/python", "no Python here has pip, setuptools and wheel", 6)
        return
    source, into = folder / "python", folder / "site"
    shutil.copytree(PYTHON, source)
    for path in (source, *source.rglob("*")):  # as one that is installed, for users who can't write there
        path.chmod(path.stat().st_mode & ~0o222)
    who = another(python)
    folder.chmod(0o755)
    into.mkdir()
    into.chmod(0o777)
    result, _ = run("pip install", python, "-m", "pip", "install", "--quiet", "--no-index", "--no-build-isolation",
                    "--no-deps", "--disable-pip-version-check", "--target", into, source, folder=folder, HOME=str(into), **who)
    yield result
    for path in (source, *source.rglob("*")):
        path.chmod(path.stat().st_mode | 0o200)
    tested = {"folder": folder, "PYTHONPATH": str(into), "LIBZK": str(shared)}
    with_kazoo = next(pythons("kazoo"), None)
    if with_kazoo is None:
        left_out.say("examples/python/tests over the serializers of kazoo", "kazoo is not here", 2)
    for each in sorted({python, with_kazoo or python}):
        words = (each, "-m", "unittest", "discover", PYTHON / "tests")
        result, said = run(f"tests of examples/python by {each}", *words, **tested)
        yield result
        yield "some", "Ran 0 tests" not in said, "examples/python has no tests"
    if not shutil.which("mypy"):
        left_out.say("the types of examples/python", "mypy is not here", 1)
        return
    result, _ = run("types of examples/python", "mypy", "--strict", "--cache-dir", folder / "mypy", source / "libzk",
                    folder=folder)
    yield result


def described(folder, archive):
    """A folder in which pkg-config finds the library of this one."""
    named = folder / "described"
    named.mkdir(exist_ok=True)
    (named / "zk.pc").write_text(f"Name: zk\nDescription: libzk\nVersion: 0\nCflags: -I{HEADER.parent}\n"
                                 f"Libs: -L{archive.parent} -lzk\n")
    return named


def check_rust(folder, archive):
    """Both crates are built, and the tests and the examples of their documentation run."""
    if not shutil.which("cargo"):
        left_out.say("examples/rust", "cargo is not here", 6)
        return
    made = {"CARGO_TARGET_DIR": str(folder / "target"), "LIBZK_DIR": str(archive.parent), "CARGO_NET_OFFLINE": "true",
            "RUSTFLAGS": "-D warnings"}
    words = ("--offline", "--locked", "--workspace")
    result, said = run("tests of examples/rust", "cargo", "test", *words, folder=RUST, **made)
    yield result
    yield "some", len(re.findall(r"^test .* ok$", said, re.M)) > 16, f"examples/rust has few tests: {said[-500:]}"
    if subprocess.run(["cargo", "clippy", "--version"], capture_output=True).returncode == 0:
        result, _ = run("clippy of examples/rust", "cargo", "clippy", *words, "--all-targets", folder=RUST, **made)
        yield result
    else:
        left_out.say("examples/rust by clippy", "clippy is not here", 1)
    if shutil.which("pkg-config"):
        del made["LIBZK_DIR"]
        result, _ = run("examples/rust by pkg-config", "cargo", "test", *words, "--tests", folder=RUST, **made,
                        PKG_CONFIG_PATH=str(described(folder, archive)))
        yield result
        (folder / "moved").mkdir()
        (folder / "moved" / "zk.pc").write_text("Name: zk\nDescription: libzk\nVersion: 0\nLibs: -L/moved\\ to -lzk\n")
        result, _ = run("examples/rust, moved", "cargo", "check", *words, folder=RUST, **made,
                        PKG_CONFIG_PATH=str(folder / "moved"))
        yield result
        found = [path.read_text() for path in folder.glob("target/debug/build/zk-sys-*/output")]
        good = any("native=/moved to\n" in text for text in found)
        yield "moved", good, f"examples/rust: the library isn't looked for where another PKG_CONFIG_PATH says: {found}"


def check_go(folder, archive):
    """The package is built and vetted, and its tests run."""
    if not shutil.which("go"):
        left_out.say("examples/go", "go is not here", 4)
        return
    made = {"GOFLAGS": "-mod=mod", "GOPROXY": "off", "GOCACHE": str(folder / "cache"), "GODEBUG": "cgocheck=1",
            "LD_LIBRARY_PATH": str(archive.parent)}
    named = {"CGO_CFLAGS": f"-I{HEADER.parent} -O2", "CGO_LDFLAGS": f"-L{archive.parent}"}
    result, said = run("tests of examples/go", "go", "test", "-count=1", "-v", "./...", folder=GO, **made, **named)
    yield result
    yield "some", said.count("--- PASS") > 12, f"examples/go has few tests: {said[-500:]}"
    result, _ = run("go vet of examples/go", "go", "vet", "./...", folder=GO, **made, **named)
    yield result
    if shutil.which("pkg-config"):
        result, _ = run("examples/go by pkg-config", "go", "test", "-count=1", "-tags", "pkgconfig", "./...", folder=GO,
                        **made, PKG_CONFIG_PATH=str(described(folder, archive)))
        yield result


def pairs(text):
    """Numbers and names as Python and Rust have them."""
    return {int(number): name for number, name in re.findall(r'(-?\d+)(?::| =>) "(\w+)"', text)}


def compare_names(names):
    """Whether each package has the header's names; Go's are the header's functions."""
    python = (PYTHON / "libzk" / "_names.py").read_text()
    rust = (RUST / "zk" / "src" / "names.rs").read_text()
    tables = dict(re.findall(r"^(\w+): Dict\[int, str\] = \{(.*?)^\}", python, re.M | re.S))
    words = {"operation": "OPERATIONS", "error": "ERRORS", "event": "EVENTS", "field": "FIELDS", "status": "STATUSES",
             "state": "STATES", "flags": "FLAGS"}
    functions = dict(re.findall(r"^pub fn (\w+)_name\(.*?\n(.*?)^\}", rust, re.M | re.S))
    for kind, wanted in names.items():
        for package, text in (("python", tables[words[kind]]), ("rust", functions[kind])):
            yield kind, pairs(text) == wanted, f"examples/{package}: names of {kind}: {pairs(text)}, not {wanted}"


def compare_calls(calls):
    """Whether each package declares every call, with as many parameters as in the header; Go's calls are the
    header's."""
    python = re.findall(r'"(zk_\w+)": \((.*)\),$', (PYTHON / "libzk" / "_calls.py").read_text(), re.M)
    rust = re.findall(r"pub fn (zk_\w+)\((.*?)\)\s*(?:->|;)", (RUST / "zk-sys" / "src" / "lib.rs").read_text(), re.S)
    found = [("python", name, words.rstrip(",").count(",")) for name, words in python]
    found += [("rust", name, words.count(":")) for name, words in rust]
    also = {name: words.count(",") + 1 for name, words in re.findall(
        r"^ZK_ALSO [\w ]+[ *](zk_\w+)\(([^)]*)\) \{$", HEADER.read_text(), re.M)}
    yield from ((name, count == also[name], f"examples/{package}: {name} has {count} parameters, and {also[name]} in the header")
                for package, name, count in found if name in also)
    for package, name, count in (row for row in found if row[1] not in also):
        wanted = len(calls[name][1]) if name in calls else None
        yield name, count == wanted, f"examples/{package}: {name} has {count} parameters, and {wanted} in the header"
    go = re.findall(r"\bC\.(zk)(?:_safe)?(_(?!\w+_name)\w+)\(", "".join(path.read_text() for path in sorted(GO.glob("*.go"))))
    go = [f"{name}_into" if f"{name}_into" in calls else name for name in map("".join, go)]  # by the header's functions
    for package, declared in (("python", [name for name, _ in python]), ("rust", [name for name, _ in rust]), ("go", go)):
        other = ({*declared} - also.keys()) ^ {*calls}
        yield package, not other, f"examples/{package} lacks calls of the header, or has others: {sorted(other)}"


def compare_versions():
    """Whether each package has the version of the release, and compares its number with that of the library."""
    wanted = (TOP / "VERSION").read_text().strip()
    number = re.findall(r"^#define ZK_VERSION_NUMBER (\d+)$", HEADER.read_text(), re.M)
    for path, row in ((PYTHON / "libzk" / "_calls.py", r"^VERSION = (\d+)"),
                      (RUST / "zk-sys" / "src" / "lib.rs", r"^pub const VERSION: u32 = ([\d_]+);")):
        found = [digits.replace("_", "") for digits in re.findall(row, path.read_text(), re.M)]
        yield path.name, found == number, f"{path.relative_to(TOP)}: the number {found}, not {number}"
    for path in (PYTHON / "pyproject.toml", RUST / "zk-sys" / "Cargo.toml", RUST / "zk" / "Cargo.toml"):
        found = re.findall(r'^version = "(.*)"', path.read_text(), re.M)
        yield path.name, found == [wanted], f"{path.relative_to(TOP)}: the version {found}, not {wanted}"


def check(folder, archive, shared, calls, names):
    """What is wrong with the packages, and what isn't."""
    yield from compare_versions()
    yield from compare_names(names)
    yield from compare_calls(calls)
    yield from check_python(folder, shared)
    yield from check_rust(folder, archive)
    yield from check_go(folder, archive)
