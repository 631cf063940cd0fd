"""Installs what was built, or removes it.

    python3 -m packaging.install [--destdir FOLDER] [--prefix PREFIX] [--libdir LIB] [--remove]

PREFIX is /usr/local if no other is named, and LIB is a folder below it, lib if no other is named. LIB may have PREFIX
before it. Everything goes below FOLDER, for whoever makes a package. The program has to be built. Any other part that
can't be made is left out, which is reported. The same arguments with --remove take away what was installed.
"""

import argparse
import os
import pathlib
import shutil
import subprocess
import sys
import tempfile
from typing import NamedTuple, Union

from . import make_columns, make_completion, make_library, make_manual, pages, tool_words
from .build_library import LIBRARY, PLAIN, TOP

PROGRAM = TOP / "crates" / "zkdump" / "out" / "zkdump"
VERSION = (TOP / "VERSION").read_text().strip()
OWN = "share/zkdump"
# Templates, and the folder below LIB that each is filled in for.
TEMPLATES = {"zk.pc": "pkgconfig", "zkConfig.cmake": "cmake/zk", "zkConfigVersion.cmake": "cmake/zk"}


class Made(NamedTuple):
    """A file that is made when it is installed."""
    name: str


class Link(NamedTuple):
    """A symbolic link."""
    to: str


def commands():
    """The tools that are commands: the name of each link among the programs, and its script."""
    for path in sorted((TOP / "tools").glob("*.py")):
        if os.access(path, os.X_OK):
            yield path.stem if "zk" in path.stem else f"zk{path.stem}", path


def is_made_or_test(name):
    """Whether a file or folder of this name is made by a tool, or has tests."""
    return (name in ("tests", "__pycache__", "out", "target", "build") or name.startswith(".")
            or name.endswith((".egg-info", ".log")))


def folder_files(name, pattern):
    """The files of a folder of the repository that users need."""
    for path in sorted((TOP / name).rglob(pattern)):
        if path.is_file() and not any(map(is_made_or_test, path.relative_to(TOP).parts)):
            yield path


def layout(libdir="lib"):
    """Where each file is below the prefix, in order, and what it is: a file of the repository, Made or Link."""
    files: "dict[str, Union[pathlib.Path, Made, Link]]" = {
        "bin/zkdump": PROGRAM,
        "include/zk.h": make_library.HEADER,
        f"{libdir}/libzk.so": Link(make_library.SONAME),
        f"{OWN}/BUILD": Made("BUILD"),
        f"lib/zkdump/{make_columns.NAME}": Made(make_columns.NAME),
        "share/bash-completion/completions/zkdump": TOP / "packaging" / "completion" / "zkdump.bash",
    }
    libraries = [f"{folder}{name}" for folder in ("", f"{make_library.FAST}/") for name in ("libzk.a", make_library.SONAME)]
    files.update((f"{libdir}/{name}", Made(name)) for name in libraries)
    files.update((f"{libdir}/{folder}/{name}", Made(name)) for name, folder in TEMPLATES.items())
    files.update((f"share/man/man{page[-1]}/{page}", Made(page)) for page in make_manual.PAGES)
    completions = "share/bash-completion/completions"
    files[f"{completions}/{make_completion.NAME}"] = Made(make_completion.NAME)
    for name, script in commands():
        files[f"bin/{name}"] = Link(f"../{OWN}/tools/{script.name}")
        files[f"share/man/man1/{name}.1"] = Made(f"{name}.1")
        files[f"{completions}/{name}"] = Link(make_completion.NAME)
    files[f"{OWN}/{pages.RUN}"] = TOP / "crates" / "zkdump" / "stdin"
    files.update((f"{OWN}/{name}", TOP / name)
                 for name in ("README.md", "CHANGELOG.md", "SECURITY.md", "LICENSE", "VERSION"))
    for folder, pattern in (("docs", "*.md"), ("docs", "*.png"), ("tools", "*"), ("examples", "*"), ("wireshark", "*"),
                            ("captures", "*")):
        files.update((f"{OWN}/{path.relative_to(TOP)}", path) for path in folder_files(folder, pattern))
    return dict(sorted(files.items()))


def toolchain():
    """The toolchain's line."""
    if not shutil.which("rt"):
        return "not known"
    return subprocess.run(["rt", "version"], capture_output=True, text=True, check=True).stdout.strip()


def make(folder, libdir, gate):
    """Makes in a folder the files that are made. A line for each part that is left out."""
    lacking = make_library.missing() or [str(path.relative_to(TOP)) for path in (LIBRARY, PLAIN) if not path.exists()]
    if lacking:
        lacking = ", ".join(lacking)
        yield f"the libraries, zk.pc, the CMake files and {make_columns.NAME}, since {lacking} is missing"
    else:
        make_library.make(folder)
        make_columns.make(folder, folder / make_library.FAST / "libzk.a")
        for name, below in TEMPLATES.items():
            text = (TOP / "packaging" / f"{name}.in").read_text()
            values = {"UP": os.path.relpath(".", f"{libdir}/{below}"), "LIBDIR": libdir, "VERSION": VERSION,
                      "MAJOR": VERSION.split(".")[0], "SONAME": make_library.SONAME}
            for word, value in values.items():
                text = text.replace(f"@{word}@", value)
            (folder / name).write_text(text)
    if make_manual.missing():
        yield f"the manual pages, since {make_manual.missing()[0]} is missing"
    else:
        make_manual.make(folder, VERSION, [*commands()])
    tools = [tool_words.tool_of(*each) for each in commands()]
    (folder / make_completion.NAME).write_text(make_completion.text(tools))
    (folder / "BUILD").write_text(f"zkdump {VERSION}\ntoolchain: {toolchain()}\n{gate}")


def install(top, libdir="lib", gate=""):
    """Installs below this folder; BUILD ends with what the gate printed. A line for each part that is left out."""
    with tempfile.TemporaryDirectory() as temporary:
        folder = pathlib.Path(temporary)
        yield from make(folder, libdir, gate)
        files = layout(libdir)
        # Links come last: one to a file that is left out is left out, too.
        for where, what in sorted(files.items(), key=lambda item: isinstance(item[1], Link)):
            to = pathlib.Path(top, where)
            if isinstance(what, Made):
                source = folder / what.name
            elif isinstance(what, Link):
                source = to.parent / what.to
            else:
                source = what
            if not source.exists():
                continue
            to.parent.mkdir(parents=True, exist_ok=True)
            to.unlink(missing_ok=True)
            if isinstance(what, Link):
                to.symlink_to(what.to)
                continue
            if where.startswith(f"{OWN}/") and where.endswith(".md"):
                to.write_text(page(where, source, files))
            else:
                shutil.copyfile(source, to)
            to.chmod(0o755 if os.access(source, os.X_OK) else 0o644)


def page(where, source, files):
    """The text of a page as it is installed at this place."""
    there = [name[len(OWN) + 1:] for name in files if name.startswith(f"{OWN}/")]
    called = {script.stem: name for name, script in commands()}
    return pages.installed(source.read_text(), where[len(OWN) + 1:], there, called)


def remove(top, libdir="lib"):
    """Takes away what was installed below this folder, and the folders that are the installation's alone."""
    for where in layout(libdir):
        pathlib.Path(top, where).unlink(missing_ok=True)
    for own in (OWN, "lib/zkdump", f"{libdir}/cmake/zk"):
        shutil.rmtree(pathlib.Path(top, own), ignore_errors=True)


def main():
    parser = argparse.ArgumentParser(description="Installs what was built, or removes it.")
    parser.add_argument("--destdir", default="")
    parser.add_argument("--prefix", default="/usr/local")
    parser.add_argument("--libdir", default="lib")
    parser.add_argument("--remove", action="store_true")
    words = parser.parse_args()
    words.prefix = words.prefix or "/"
    libdir = os.path.relpath(os.path.join(words.prefix, words.libdir), words.prefix)
    if libdir.split(os.sep)[0] in (os.curdir, os.pardir):
        parser.error(f"LIB is no folder below {words.prefix}: {words.libdir!r}")
    top = os.path.join(words.destdir, words.prefix.lstrip("/")) if words.destdir else words.prefix
    if not words.remove and not PROGRAM.exists():
        print("install.py: the program is not built: build it with ./zkdump", file=sys.stderr)
        return 1
    os.umask(0o022)
    try:
        if words.remove:
            remove(top, libdir)
        else:
            for line in install(top, libdir):
                print(f"left out: {line}")
    except (make_library.NotMade, OSError, subprocess.CalledProcessError) as fault:
        print(f"install.py: {fault}", file=sys.stderr)
        return 1
    return 0


if __name__ == "__main__":
    sys.exit(main())
