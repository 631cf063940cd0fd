"""Makes the libraries that a program links, out of the proved ones.

    make_library.py [--library PATH] [--allocator PATH] FOLDER

FOLDER/libzk.a is one archive of one object: the proved library and the toolchain's functions by which it allocates.
FOLDER/libzk.so.2 is the same as a shared library, whose names have the version LIBZK_2. Both export the functions of
include/zk.h and no other name, and need nothing but the C library and any x86-64. FOLDER/glibc-hwcaps/x86-64-v2 has both
for processors of that level: there the loader of glibc 2.33 and later looks first where the processor is one.

They are made of what packaging/build_library.py builds. With --library, both are made of this one alone, for the
processors that it is for. The status is 1 if a library can't be made.
"""

import argparse
import pathlib
import re
import shutil
import subprocess
import sys

from .build_library import LIBRARY, PLAIN, TOP, kit

HEADER = TOP / "include" / "zk.h"
MAP = TOP / "packaging" / "zk.map"
SONAME = "libzk.so.2"
FAST = "glibc-hwcaps/x86-64-v2"
TOOLS = ("cc", "ld", "objcopy", "nm", "ar", "rt")


class NotMade(Exception):
    """Why a library can't be made, in one line."""


def run(*words):
    found = subprocess.run(words, capture_output=True, text=True)
    if found.returncode != 0:
        raise NotMade(f"{words[0]}: {found.stderr.strip() or found.returncode}")
    return found.stdout


def missing():
    """The tools that are needed and not there."""
    return [tool for tool in TOOLS if not shutil.which(tool)]


def calls():
    """The functions that the header declares, each with its result and its parameters."""
    return {name: (result.strip(), " ".join(words.split())) for result, name, words in re.findall(
        r"^([a-z][\w ]*[ *])(zk_\w+)\(([^)]*)\);", HEADER.read_text(), flags=re.M)}


def exports():
    """The functions that the libraries have: where a call fills a struct that may grow, the one that returns it isn't
    among them; the header's functions that are marked as ZK_ALSO are."""
    declared = calls()
    also = re.findall(r"^ZK_ALSO [\w ]+[ *](zk_\w+)\(", HEADER.read_text(), flags=re.M)
    return {*declared, *also} - {name.replace("_into", "") for name in declared if name.endswith("_into")}


def beside():
    """The source in C of what the libraries have besides the proved calls: those that fill a struct of the caller's
    size, each over the one that returns it, and the header's functions that are marked so."""
    every = calls()
    filled = {name: every[f"{name}_into"] for name in every if f"{name}_into" in every}
    yield from ("#define ZK_ALSO", "#include <string.h>", "#include <zk.h>", *(f"#undef {name}" for name in filled))
    for name, (_, words) in filled.items():
        given = [word.split()[-1].lstrip("*") for word in words.split(", ")[:-2]]
        kind = every[name][0]
        yield f"""void {name}_into({words}) {{
    {kind} answer = {name}({', '.join(given)});
    if (size == sizeof answer) *out = answer;
    else {{
        memset(out, 0, size);
        memcpy(out, &answer, size < sizeof answer ? size : sizeof answer);
    }}
}}"""


def names(path, *words):
    """The names of symbols of a file, without their versions."""
    return {line.split()[-1].split("@")[0] for line in run("nm", *words, path).splitlines() if line and line[-1] != ":"}


def make(folder, library=None, allocator=None):
    """Makes the libraries in the folder, and returns the two that are for any x86-64."""
    folder = pathlib.Path(folder)
    if library is not None:
        return make_one(folder, library, allocator)
    for each in (PLAIN, LIBRARY):
        if not each.exists():
            raise NotMade(f"{each.relative_to(TOP)} is not built: packaging/build_library.py builds it")
    (folder / FAST).mkdir(parents=True, exist_ok=True)
    make_one(folder / FAST, LIBRARY, allocator)
    return make_one(folder, PLAIN, allocator)


def make_one(folder, library, allocator=None):
    """Makes the archive and the shared library of a proved one."""
    whole, archive, shared = folder / "zk.o", folder / "libzk.a", folder / SONAME
    source, more = folder / "beside.c", folder / "beside.o"
    source.write_text("\n".join([*beside(), ""]))
    run("cc", "-std=c11", "-O2", "-fPIC", "-fno-stack-protector", "-U_FORTIFY_SOURCE", f"-I{HEADER.parent}",
        "-fno-tree-switch-conversion", "-c", "-o", more, source)  # a table of pointers would be data
    run("ld", "-r", "--force-group-allocation", "-o", whole, more, "--whole-archive", library, "--no-whole-archive",
        allocator or kit() / "c" / "liblibc_c.a")
    lacking = exports() - names(whole, "--defined-only", "--extern-only") | {*calls()} & names(whole, "--undefined-only")
    if lacking:
        raise NotMade(f"the library lacks {', '.join(sorted(lacking))}")
    run("objcopy", "--strip-debug", *(f"--keep-global-symbol={name}" for name in exports()), whole)
    for path in (source, more):
        path.unlink()
    archive.unlink(missing_ok=True)
    run("ar", "rcsD", archive, whole)
    run("cc", "-shared", "-o", shared, whole, f"-Wl,-soname,{SONAME}", f"-Wl,--version-script={MAP}", "-Wl,-z,defs",
        "-Wl,-z,relro", "-Wl,-z,now", "-Wl,-z,noexecstack", "-Wl,--as-needed", "-Wl,--strip-all")
    shared.chmod(0o644)
    whole.unlink()
    return archive, shared


def main():
    parser = argparse.ArgumentParser(description=f"Makes libzk.a and {SONAME} out of the proved libraries.")
    parser.add_argument("--library", type=pathlib.Path)
    parser.add_argument("--allocator", type=pathlib.Path)
    parser.add_argument("folder", type=pathlib.Path)
    words = parser.parse_args()
    try:
        make(words.folder, words.library, words.allocator)
    except (NotMade, OSError) as fault:
        print(f"make_library.py: {fault}", file=sys.stderr)
        return 1
    return 0


if __name__ == "__main__":
    sys.exit(main())
