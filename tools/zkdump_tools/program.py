"""Where the programs zkdump and zkcolumns are, for the tools that run them. The environment variable ZKCOLUMNS names
zkcolumns, or is empty for none."""

import argparse
import os
import pathlib
import shutil
import subprocess

OWN = ("share", "zkdump", "tools")     # where installed tools are, below the prefix
TOOLS = pathlib.Path(__file__).resolve().parents[1]


def beside(installed, built):
    """The path of what was installed with these tools, below their prefix, or of what was built with them."""
    return TOOLS.parents[len(OWN) - 1] / installed if TOOLS.parts[-len(OWN):] == OWN else TOOLS.parent / built


def found():
    """The program that was installed or built with these tools, or else the name of the one on the PATH."""
    path = beside("bin/zkdump", "crates/zkdump/out/zkdump")
    return str(path) if path.exists() else "zkdump"


def found_columns():
    """The path of zkcolumns, or None."""
    if (named := os.environ.get("ZKCOLUMNS")) is not None:
        return named or None
    path = beside("lib/zkdump/zkcolumns", "tools/zkdump_tools/zkcolumns/out/zkcolumns")
    return str(path) if os.access(path, os.X_OK) else None


def lacks_columns(zkdump):
    """Why zkcolumns can't be used in place of this program zkdump, or None."""
    if zkdump != found():
        return "--zkdump names another program"
    return None if found_columns() else "zkcolumns is not built or installed"


def version():
    """The version of the release that these tools are of."""
    return (TOOLS.parent / "VERSION").read_text("ascii").strip()


class Version(argparse.Action):
    """Prints the version of the release that the tool is of, and ends it."""

    def __call__(self, parser, *_):
        print(f"{parser.prog.removesuffix('.py')} (zkdump) {version()}")
        parser.exit()


def add_program(parser):
    """The option that names the program."""
    parser.add_argument("--zkdump", metavar="PATH", default=found(),
                        help="the program (that which was built or installed with this tool, else zkdump on the PATH)")


def need(parser, path):
    """Ends the tool with an error if there is no program at this path."""
    if not shutil.which(path):
        parser.error(f"there is no program {path}: build or install zkdump, or name it with --zkdump PATH")


def trouble_of(*command):
    """Why this command, which lists a recording, doesn't run here; nothing if it lists one of no pieces."""
    try:
        with subprocess.Popen(command, stdin=subprocess.PIPE, stdout=subprocess.PIPE,
                              stderr=subprocess.DEVNULL) as listing:
            try:
                listing.stdin.write(b"ZKR1")
                listing.stdin.close()
            except BrokenPipeError:
                pass
            line = listing.stdout.read(len(b". whole"))
            if line:
                listing.kill()
        return "" if line == b". whole" else f"it writes no listing, and its status is {listing.returncode}"
    except OSError as error:
        return error.strerror


def prove_runs(parser, path):
    """Ends the tool with an error if there is no program at this path, or it can't read a recording of no pieces."""
    need(parser, path)
    if trouble := trouble_of(path, "show"):
        parser.error(f"{path} is not a zkdump that runs here: {trouble}; name another with --zkdump PATH")
