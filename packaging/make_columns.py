"""Makes zkcolumns, the program by which the tools read recordings fast, of its sources in tools and the proved library for
x86-64-v2, on which the program zkdump runs, too.

    make_columns.py [FOLDER]

FOLDER is tools/zkdump_tools/zkcolumns/out if no other is named. The status is 1 if it can't be made.
"""

import pathlib
import sys
import tempfile

from . import make_library
from .build_library import TOP

SOURCES = TOP / "tools" / "zkdump_tools" / "zkcolumns"
STRICT = ("-std=c11", "-D_POSIX_C_SOURCE=200809L", "-Wall", "-Wextra", "-Wpedantic", "-Wconversion", "-Werror")
NAME = "zkcolumns"


def make(folder, library, *flags):
    """Makes the program in the folder, over libzk.a at this path."""
    program = pathlib.Path(folder, NAME)
    make_library.run("cc", *STRICT, *(flags or ("-O2", "-s")), f"-ffile-prefix-map={SOURCES}=.", f"-I{TOP / 'include'}",
                     "-Wl,--build-id=none", "-o", program, *sorted(SOURCES.glob("*.c")), library, "-lm")
    return program


def main():
    folder = pathlib.Path(sys.argv[1]) if len(sys.argv) == 2 else SOURCES / "out"
    try:
        folder.mkdir(exist_ok=True)
        with tempfile.TemporaryDirectory() as work:
            make_library.make(work)
            make(folder, pathlib.Path(work, make_library.FAST, "libzk.a"))
    except (make_library.NotMade, OSError) as fault:
        print(f"make_columns.py: {fault}", file=sys.stderr)
        return 1
    return 0


if __name__ == "__main__":
    sys.exit(main())
