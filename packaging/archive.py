"""Archives of a folder that are the same for the same files: names in order, one time, owner root."""

import gzip
import hashlib
import os
import pathlib
import shutil
import subprocess
import tarfile

from .build_library import TOP


def time():
    """The time of every file in what is released: SOURCE_DATE_EPOCH, or the time of the last commit; where there is
    no repository, that of the file VERSION."""
    said = os.environ.get("SOURCE_DATE_EPOCH")
    if not said and shutil.which("git"):
        said = subprocess.run(["git", "log", "-1", "--format=%ct"], cwd=TOP, capture_output=True, text=True).stdout
    return int(said or (TOP / "VERSION").stat().st_mtime)


def compress(path, to):
    """The file, compressed by gzip, under another name."""
    with open(to, "wb") as file, gzip.GzipFile("", "wb", 9, file, 0) as packed:
        packed.write(pathlib.Path(path).read_bytes())


def pack(folder, to):
    """The folder, which is the top of what it is unpacked to, as a compressed archive."""
    folder = pathlib.Path(folder)

    def plain(member):
        member.uid = member.gid = 0
        member.uname = member.gname = "root"
        member.mtime = time()
        if member.isdir():
            member.mode = 0o755
        return member

    with open(to, "wb") as file, gzip.GzipFile("", "wb", 9, file, 0) as packed, \
            tarfile.open(fileobj=packed, mode="w", format=tarfile.PAX_FORMAT) as archive:
        for path in sorted([folder, *folder.rglob("*")]):
            archive.add(path, str(path.relative_to(folder.parent)), recursive=False, filter=plain)


def sums(paths):
    """The lines of SHA256SUMS."""
    return "".join(f"{hashlib.sha256(path.read_bytes()).hexdigest()}  {path.name}\n" for path in sorted(paths))
