"""All files of a release: the archive, the Debian packages, and SHA256SUMS."""

import pathlib
import tempfile

from . import archive, debian
from .install import VERSION, install

NAME = f"zkdump-{VERSION}-linux-x86_64"


def make(to, gate=""):
    """Makes them in a folder. A line for each part that is left out."""
    with tempfile.TemporaryDirectory() as work:
        top = pathlib.Path(work, NAME)
        yield from install(top, "lib", gate)
        archive.pack(top, to / f"{NAME}.tar.gz")
        if debian.missing():
            yield f"the Debian packages, since {', '.join(debian.missing())} is missing"
        else:
            yield from debian.packages(work, to, gate)
    made = sorted(path for path in to.iterdir() if path.suffix in (".gz", ".deb"))
    (to / "SHA256SUMS").write_text(archive.sums(made))
