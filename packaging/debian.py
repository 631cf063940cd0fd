"""The Debian packages: zkdump, libzk2 and libzk-dev, of what is installed below /usr."""

import fnmatch
import hashlib
import os
import pathlib
import re
import shutil
import subprocess

from . import archive, make_columns
from .build_library import TOP
from .install import OWN, VERSION, install
from .make_library import FAST, SONAME

LIBDIR = "lib/x86_64-linux-gnu"
SHARED = SONAME.replace(".so.", "")  # as Debian names it
PROGRAMS = ("zkdump", make_columns.NAME)
TOOLS = ("dpkg-deb", "objdump")
PYTHON = "/usr/bin/python3"     # that of Debian's packages, which has numpy where python3-numpy is installed
# Which files below /usr a package has, by the first row that fits; and its fields.
FILES = ((SHARED, f"{LIBDIR}/{SONAME}"), (SHARED, f"{LIBDIR}/{FAST}/{SONAME}"), ("libzk-dev", f"{LIBDIR}/*"),
         ("libzk-dev", "include/*"),
         ("libzk-dev", "share/man/man3/*"), ("libzk-dev", f"{OWN}/examples/*"),
         ("libzk-dev", f"{OWN}/wireshark/*"), ("zkdump", "*"))
FIELDS = {
    "zkdump": """Section: net
Depends: {libc}
Recommends: python3, python3-numpy
Suggests: python3-distributed
Description: proved dissector of conversations on ZooKeeper's client port
 It shows, checks, builds and migrates recordings of what a ZooKeeper client
 and its server said to each other, and has tools that record them. It needs
 a processor with SSE4.1 and POPCNT (x86-64-v2).
""",
    SHARED: """Section: libs
Depends: {libc}
Multi-Arch: same
Description: proved codec of ZooKeeper's client protocol, shared library
 It reads, judges and makes conversations on ZooKeeper's client port. It runs
 on any x86-64, and faster on one with SSE4.1 (x86-64-v2), whose own copy the
 loader chooses.
""",
    "libzk-dev": """Section: libdevel
Depends: {shared} (= {version})
Suggests: zkdump
Description: proved codec of ZooKeeper's client protocol, for development
 It reads, judges and makes conversations on ZooKeeper's client port. This
 package has the header, the static library for any x86-64 and one for
 x86-64-v2, examples, and the source of a plugin for Wireshark.
""",
}
COPYRIGHT = """Format: https://www.debian.org/doc/packaging-manuals/copyright-format/1.0/
Upstream-Name: zkdump

Files: *
Copyright: the authors of zkdump
License: Apache-2.0
 On Debian systems the text of this license is in
 /usr/share/common-licenses/Apache-2.0.

Files: wireshark/*
Copyright: the authors of zkdump
License: GPL-2.0-or-later
 On Debian systems the text of this license is in
 /usr/share/common-licenses/GPL-2.
"""
# The tools' compiled files are removed with them.
REMOVAL = f"""#!/bin/sh
set -e
tools=$DPKG_ROOT/usr/{OWN}/tools
[ ! -d "$tools" ] || find "$tools" -name __pycache__ -exec rm -rf {{}} +
"""


def missing():
    """The tools that are needed and not there."""
    return [tool for tool in TOOLS if not shutil.which(tool)]


def libc(*paths):
    """The version of the C library that is needed, by the versions of the names that these files use."""
    text = "".join(subprocess.run(["objdump", "-T", path], capture_output=True, text=True,
                                  check=True).stdout for path in paths)
    newest = max((tuple(map(int, version.split("."))) for version in re.findall(r"\bGLIBC_([\d.]+)", text)),
                 default=(2, 2))
    return f"libc6 (>= {'.'.join(map(str, newest))})"


def name_python(tools):
    """Has the tools in this folder run by Debian's Python, whatever python3 the PATH has."""
    for path in tools.glob("*.py"):
        first, end, rest = path.read_text().partition("\n")
        path.write_text(first.replace(" exec python3 ", f" exec {PYTHON} ") + end + rest)


def split(whole, folder):
    """Moves each file of what is installed to its package's folder."""
    for path in sorted(path for path in whole.rglob("*") if path.is_symlink() or path.is_file()):
        where = str(path.relative_to(whole))
        package = next(package for package, pattern in FILES if fnmatch.fnmatch(where, pattern))
        to = folder / package / "usr" / where
        to.parent.mkdir(parents=True, exist_ok=True)
        if where.startswith("share/man/") and path.is_symlink():
            to.with_name(f"{to.name}.gz").symlink_to(f"{os.readlink(path)}.gz")
        elif where.startswith("share/man/"):
            archive.compress(path, f"{to}.gz")
        else:
            shutil.move(path, to)


def describe(package, folder):
    """Writes a package's control files, copyright and changelog."""
    page, control = folder / "usr/share/doc" / package, folder / "DEBIAN"
    page.mkdir(parents=True)
    control.mkdir()
    (page / "copyright").write_text(COPYRIGHT)
    archive.compress(TOP / "CHANGELOG.md", page / "CHANGELOG.md.gz")
    files = [path for path in sorted(folder.rglob("*")) if path.is_file() and not path.is_symlink()]
    used = [path for path in files if path.name in PROGRAMS and path.parent.name in ("bin", "zkdump")
            or ".so." in path.name]
    fields = FIELDS[package].format(libc=libc(*used) if used else "", version=VERSION, shared=SHARED)
    (control / "control").write_text(f"Package: {package}\nSource: zkdump\nVersion: {VERSION}\nArchitecture: amd64\n"
                                     "Maintainer: the maintainers of zkdump\nPriority: optional\n"
                                     f"Installed-Size: {sum(-(-path.stat().st_size // 1024) for path in files)}\n{fields}")
    (control / "md5sums").write_text("".join(
        f"{hashlib.md5(path.read_bytes()).hexdigest()}  {path.relative_to(folder)}\n" for path in files))
    if package == SHARED:
        (control / "shlibs").write_text(f"libzk {SONAME.rpartition('.')[2]} {SHARED} (>= {VERSION})\n")
        (control / "triggers").write_text("activate-noawait ldconfig\n")
    if package == "zkdump":
        (control / "prerm").write_text(REMOVAL)


def settle(folder):
    """Sets one time and plain modes for all files of a package."""
    for path in [folder, *folder.rglob("*")]:
        if not path.is_symlink():
            path.chmod(0o755 if path.is_dir() or os.access(path, os.X_OK) or path.name == "prerm" else 0o644)
        os.utime(path, (archive.time(), archive.time()), follow_symlinks=False)


def packages(work, to, gate=""):
    """Makes the packages, by way of the folder work. A line for each part that is left out."""
    whole, folder = pathlib.Path(work, "usr"), pathlib.Path(work, "packages")
    yield from install(whole, LIBDIR, gate)
    name_python(whole / OWN / "tools")
    split(whole, folder)
    for package in FIELDS:
        if not (folder / package).exists():
            continue
        describe(package, folder / package)
        settle(folder / package)
        subprocess.run(["dpkg-deb", "--root-owner-group", "-Zgzip", "--build", folder / package,
                        pathlib.Path(to, f"{package}_{VERSION}_amd64.deb")], check=True, stdout=subprocess.DEVNULL,
                       env={**os.environ, "SOURCE_DATE_EPOCH": str(archive.time())})
