"""Makes a release of the program and the library that the gate built, and uses it as one who installs it would.

    python3 -m tests.release

The number in VERSION is that of zk.h and of zk_version, and none below the newest of CHANGELOG.md. The header compiles without a warning as C11 and as C++17.
The archive is unpacked: its program prints the listing of a recording, and examples/listing.c, linked with each of its
libraries, too. The libraries export the header's functions and no other name. The Debian packages are installed below a
folder, used and removed. A second release has the same bytes. What is skipped, since a tool is missing, is reported.

It prints what failed and one last line. The status is 0 where nothing did.
"""

import importlib.machinery
import importlib.util
import os
import pathlib
import re
import shutil
import struct
import subprocess
import sys
import tarfile
import tempfile

from dev import gate, source
from packaging import debian, distribution, install, make_library
from .. import left_out

TOP = pathlib.Path(__file__).resolve().parents[2]

RECORDING = TOP / "captures" / "kazoo_basic.zkr"
LISTING = RECORDING.with_suffix(".show").read_bytes()
STRICT = ("-Wall", "-Wextra", "-Wpedantic", "-Werror")
# The functions of the C library that are called, and the data outside of handles: a byte that is never written.
CALLED = {"malloc", "realloc", "free", "memcpy", "memmove", "memset"}
KEPT = {"nothing"}
# Instructions of x86-64-v2, as a compiler uses them.
LATER = re.compile(r"\t(pshufb|palignr|ptest|popcnt|pmul[hl][dr]\w*|p(?:min|max)(?:s[bd]|u[wd])|pblend\w+|p(?:insr|extr)[bdq]|"
                   r"pmov[sz]x\w+|pabs[bdw]|phadd\w+|round[sp][sd]|crc32\w*|pcmpgtq|pcmpeqq|packusdw)\b")
# How many checks these have.
PACKAGES, LIBRARIES = 6, 20
# A program that takes each kind of answer, in C and in C++.
USES = """#include <zk.h>
int main(void) {
    struct zk_talk talk = ZK_ZEROS;
    struct zk_through through = ZK_ZEROS;
    struct zk_speaker speaker = ZK_ZEROS;
    struct zk_step step = zk_talk_step(&talk, ZK_CLIENT, NULL, 0);
    struct zk_passed passed = zk_through_step(&through, ZK_CLIENT, NULL, 0);
    struct zk_say say = zk_speaker_say(&speaker, NULL, 0);
    bool empty = step.status == ZK_EMPTY && passed.status == ZK_EMPTY && say.status == ZK_EMPTY;
    return empty && sizeof ZK_VERSION > 1 ? 0 : 1;
}
"""
CMAKE = """cmake_minimum_required(VERSION 3.13)
project(uses C)
find_package(zk @VERSION@ REQUIRED)
add_executable(shared uses.c)
target_link_libraries(shared zk::zk)
add_executable(static uses.c)
target_link_libraries(static zk::static)
"""
# What is typed, and what bash offers for its last word, up to the cursor | where that is within it; after < also files.
COMPLETED = (
    (("zkdump", ""), "show check build migrate"),
    (("zkdump", "sh"), "show"),
    (("zkdump", "show", ""), "--limit --waiting --profile"),
    (("zkdump", "check", "--e"), "--earliest"),
    (("zkdump", "show", "--profile", ""), " ".join(source.profiles())),
    (("zkdump", "show", "--profile", "="), " ".join(source.profiles())),
    (("zkdump", "show", "--profile", "=", "3.5"), "3.5"),
    (("zkdump", "show", "--limit", ""), ""),
    (("zkdump", "show", "<", "c"), ""),
    (("zkdump", "ch|xx"), "check"),
    (("zkdump", "check", "--e|arliest"), "--earliest"),
    (("zkdump", "show", "<", "a file.zkr", "--p"), "--profile"),
    (("zkdump", "<", "a file.zkr", ""), "show check build migrate"),
    (("zkdump", "<", "a file.zkr", "check", "--e"), "--earliest"),
    (("zkdump", "<", "a file.zkr", "show", "--e"), ""),
)


def run(*words, **options):
    """The run of a command, which is ended after a minute."""
    try:
        return subprocess.run(words, capture_output=True, timeout=60, **options)
    except subprocess.TimeoutExpired:
        return subprocess.CompletedProcess(words, None, b"", b"it did not end")


def skip(what, *tools, checks=1):
    """Whether a tool is missing; if one is, that is reported."""
    lacking = [tool for tool in tools if not shutil.which(tool)]
    if lacking:
        left_out.say(f"a release: {what}", left_out.lacking(lacking), checks)
    return bool(lacking)


def lists(name, *words, **environment):
    """Whether the program prints the listing; the recording is its standard input and its last argument."""
    with open(RECORDING, "rb") as source:
        found = run(*words, stdin=source, env={**os.environ, **environment})
    good = (found.returncode, found.stdout) == (0, LISTING)
    return name, good, f"{name}: status {found.returncode}, {found.stderr[-300:]}"


def ends_well(name, *words, **options):
    found = run(*words, **options)
    return name, found.returncode == 0, f"{name}: status {found.returncode}, {(found.stdout + found.stderr)[-500:]}"


def numbers():
    """The version, where else it is written."""
    text = (TOP / "include" / "zk.h").read_text()
    header = re.findall(r'^#define ZK_VERSION "(.*)"$', text, re.M)
    yield "zk.h", header == [install.VERSION], f"zk.h has the version {header}, VERSION {install.VERSION}"
    digits = [*map(int, install.VERSION.split("."))]
    number = digits[0] * 1000000 + digits[1] * 1000 + digits[2]
    for name, row, of in (("zk.h", r"^#define ZK_VERSION_NUMBER (\d+)$", text),
                          ("version.rt", r"^    ([\d_]+)$", (TOP / "crates/zk_c/src/version.rt").read_text())):
        found = [int(each) for each in re.findall(row, of, re.M)]
        yield name, found == [number], f"{name} has the number {found}, and VERSION {number}"
    changes = re.findall(r"^## \[(.*?)\](?: - (\d{4}-\d\d-\d\d))?$", (TOP / "CHANGELOG.md").read_text(), re.M)
    closed = [[*map(int, name.split("."))] for name, date in changes[1:] if date]
    good = changes[0] == ("Unreleased", "") and len(closed) == len(changes) - 1 and closed == sorted(closed, reverse=True)
    yield "CHANGELOG.md", good and closed[0] <= digits, f"CHANGELOG.md has {changes}, and VERSION {install.VERSION}"
    found = run(sys.executable, TOP / "release", install.VERSION + "0")
    yield "another version", found.returncode == 2, f"release: status {found.returncode} for another version"
    found = run(sys.executable, TOP / "release", "--log", "/no/such/log")
    told = found.stderr.decode().splitlines()[-1:]
    yield ("no such log", (found.returncode, told) == (2, ["release: error: /no/such/log: No such file or directory"]),
           f"release: status {found.returncode}, {told}, where the log isn't there")


def logs():
    """Whose log the release takes: that of a gate which passed for this commit, program and library."""
    loader = importlib.machinery.SourceFileLoader("release", str(TOP / "release"))
    release = importlib.util.module_from_spec(importlib.util.spec_from_loader("release", loader))
    loader.exec_module(release)
    lines = list(gate.lines())
    passed = "\n".join(["== step", "9 passed, 0 failed", "== python3 -m dev.gate (after 9 s)", *lines, ""])
    commit, program, library, plain = (line.rpartition(": ")[2] for line in lines)
    cases = {"its own": (passed, 0), "another commit's": (passed.replace(commit, "0" * 40), 1),
             "another program's": (passed.replace(program, "0" * 64), 1),
             "another library's": (passed.replace(library, "0" * 64), 1),
             "another plain library's": (passed.replace(plain, "0" * 64), 1), "no log": ("/bin/true\n", 4),
             "empty": ("", 4),
             "one of another end": (f"{passed}more\n", 1),
             "one that failed": (passed.replace("0 failed", "1 failed"), 1)}
    usual = set(release.faults(None))
    for name, (log, count) in cases.items():
        found = [line for line in release.faults(log) if line not in usual]
        yield f"log, {name}", len(found) == count, f"release, with the log of {name}: {found}"
    told = run(sys.executable, "-m", "dev.gate", cwd=TOP).stdout.decode().splitlines()
    yield "gate.py", told == lines, f"gate.py: {told}"
    yield "BUILD", "no gate passed" in release.NO_GATE, "BUILD doesn't say that no gate passed for it"


def commands(top):
    """The tools as a user has them: those of tools/README.md, each with a whole sentence in the manual, and with the
    program that was installed with them, whatever is on the PATH."""
    named = {name if "zk" in name else f"zk{name}"
             for name in re.findall(r"^\| \[(\w+)\.py\]", (TOP / "tools" / "README.md").read_text(), re.M)}
    found = {path.name for path in (top / "bin").iterdir()} - {"zkdump"}
    yield ("commands", found == named,
           f"commands that tools/README.md lacks, or that are not installed: {sorted(found ^ named)}")
    page = top / "share" / "man" / "man1" / "zkdump.1"
    if page.exists():
        said = re.findall(r"^\\fB(\w+)\\fR\(1\)\n\.RS 4\n(.*\.)(?:\\&)?$", page.read_text(), re.M)
        yield "manual", named <= {name for name, _ in said}, f"zkdump(1) has whole sentences of {said} alone"
    none = top / "none"
    none.mkdir()
    (none / "zkdump").write_text("#!/bin/sh\nexit 9\n")
    (none / "zkdump").chmod(0o755)
    found = run(top / "bin" / "zkstat", RECORDING, env={**os.environ, "PATH": f"{none}:{os.environ['PATH']}"})
    yield ("zkstat", found.returncode == 0 and b"whole" in found.stdout,
           f"zkstat: {found.returncode}, {found.stderr[-300:]}")


def completion():
    script = TOP / "packaging" / "completion" / "zkdump.bash"
    for words, wanted in COMPLETED:
        text = (f'. "{script}"; word=$1; shift; COMP_WORDS=("$@"); COMP_CWORD=$(($# - 1)); files=" files"; '
                'compopt() { files=; }; _zkdump zkdump "$word"; echo "${COMPREPLY[*]}$files"')
        word, _, rest = words[-1].partition("|")
        typed = ("" if word == "=" else word, *words[:-1], word + rest)
        wanted += " files" if words[-2] == "<" else ""
        found = run("bash", "-c", text, "bash", *typed).stdout.decode().rstrip("\n")
        yield words, found == wanted, f"completion of {words}: {found}, not {wanted}"
    usage = run(install.PROGRAM).stderr.decode()
    named = re.findall(r"--[a-z]+|[a-z]{4,}|\d\.\d", usage.partition("usage: zkdump ")[2])
    lacking = [word for word in named if word not in script.read_text()]
    yield "usage", named and not lacking, f"of the usage line completion lacks {lacking or usage}"


def header(top, work):
    """The header, in C and in C++."""
    for language, suffix, compilers in (("c11", "c", ("gcc", "clang")), ("c++17", "cpp", ("g++", "clang++"))):
        source = work / f"uses.{suffix}"
        source.write_text(USES)
        for compiler in filter(shutil.which, compilers):
            yield ends_well(f"zk.h, {compiler} -std={language}", compiler, f"-std={language}", *STRICT,
                            f"-I{top / 'include'}", "-c", "-o", os.devnull, source)


def levels(top, work):
    """The libraries for any x86-64: they have no instruction of a later level, and run on a processor that has none. The
    loader takes those of x86-64-v2 where the processor is one."""
    plain, fast = top / "lib", top / "lib" / make_library.FAST
    for folder, wanted in ((plain, False), (fast, True)):
        for name in ("libzk.a", make_library.SONAME):
            found = set(LATER.findall(run("objdump", "-d", "--no-show-raw-insn", folder / name).stdout.decode()))
            yield name, bool(found) == wanted, f"{folder.name}/{name} has {sorted(found)[:9]}"
    where = run("cc", *STRICT, f"-I{top / 'include'}", "-o", work / "fields", TOP / "examples" / "fields.c", f"-L{plain}",
                "-lzk")
    if where.returncode != 0:
        yield "fields.c", False, f"fields.c over {make_library.SONAME}: {where.stderr[-300:]}"
        return
    text = "/" + "äöü" * 8
    payload = struct.pack(">iii", 1, 3, len(text.encode())) + text.encode() + b"\0"
    words, loaded = (work / "fields", "request", "34", payload.hex()), {**os.environ, "LD_LIBRARY_PATH": str(plain)}
    debug = run(*words, env={**loaded, "LD_DEBUG": "libs"}).stderr.decode()
    used = re.findall(rf"calling init: (\S+/{re.escape(make_library.SONAME)})$", debug, re.M)
    is_later = {"ssse3", "sse4_1", "sse4_2", "popcnt"} <= set(pathlib.Path("/proc/cpuinfo").read_text().split())
    good = [pathlib.Path(path) for path in used] == [(fast if is_later else plain) / make_library.SONAME]
    yield "the loader", good, f"the loader takes {used}"
    if not skip("a processor without SSE4.1", "qemu-x86_64"):
        found = run("qemu-x86_64", "-cpu", "core2duo", *words, env=loaded)
        shown = run(*words, env=loaded).stdout
        good = found.returncode == 0 and found.stdout == shown and b"request exists xid=1" in shown
        yield "core2duo", good, f"fields.c on core2duo: status {found.returncode}, {found.stdout}{found.stderr[-300:]}"


def libraries(top, work):
    """Programs over both libraries of a prefix, and the names that these show."""
    archive, shared = top / "lib" / "libzk.a", top / "lib" / make_library.SONAME
    example, loaded = TOP / "examples" / "listing.c", {"LD_LIBRARY_PATH": str(top / "lib")}
    for name, words in (("libzk.a", ("-g", "--defined-only", archive)),
                        (shared.name, ("-D", "--defined-only", shared))):
        shown = {line.split()[2].split("@")[0] for line in run("nm", *words).stdout.decode().splitlines()
                 if len(line.split()) == 3 and line.split()[1] != "A"}
        yield name, shown == make_library.exports(), f"{name} shows {sorted(shown ^ make_library.exports())}"
    named = [line.split()[-2:] for line in run("nm", archive).stdout.decode().splitlines() if len(line.split()) > 1]
    called = {name for kind, name in named if kind == "U"} - {"_GLOBAL_OFFSET_TABLE_"}
    yield "called", called == CALLED, f"libzk.a calls {sorted(called)}, and not {sorted(CALLED)}"
    kept = {name for kind, name in named if kind in "bBdDC"} - KEPT
    kept |= set(re.findall(r" (\.tdata\S*|\.tbss\S*) ", run("readelf", "-SW", archive).stdout.decode()))
    yield "kept", not kept, f"libzk.a keeps {sorted(kept)}"
    needed = re.findall(r"\((NEEDED|SONAME)\).*\[(.*)\]", run("readelf", "-d", shared).stdout.decode())
    good = set(needed) - {("NEEDED", "ld-linux-x86-64.so.2")} == {("NEEDED", "libc.so.6"), ("SONAME", shared.name)}
    yield "needed", good, f"{shared.name}: {needed}"
    stack = re.search(r"GNU_STACK.*", run("readelf", "-lW", shared).stdout.decode())
    yield "stack", stack is not None and "E" not in stack[0].split()[-2], f"{shared.name}: {stack and stack[0]}"
    yield ends_well("cc with libzk.a", "cc", *STRICT, f"-I{top / 'include'}", "-o", work / "listing", example, archive)
    yield lists("listing.c over libzk.a", work / "listing", RECORDING)
    yield from levels(top, work)
    if not skip("zk.pc", "pkg-config", checks=2):
        found = run("pkg-config", "--cflags", "--libs", "zk",
                    env={**os.environ, "PKG_CONFIG_PATH": str(top / "lib/pkgconfig")})
        words = found.stdout.decode().split()
        yield ends_well("cc with zk.pc", "cc", *STRICT, "-o", work / "listing", example, *words)
        yield lists(f"listing.c over {shared.name}", work / "listing", RECORDING, **loaded)
    if not skip("the CMake files", "cmake", checks=4):
        (work / "CMakeLists.txt").write_text(CMAKE.replace("@VERSION@", install.VERSION))
        yield ends_well("cmake", "cmake", "-S", work, "-B", work / "made", f"-DCMAKE_PREFIX_PATH={top}")
        yield ends_well("cmake --build", "cmake", "--build", work / "made")
        for name in ("shared", "static"):
            yield ends_well(f"cmake, {name}", work / "made" / name)


def files(top):
    """Names below a folder, without folders."""
    return {str(path.relative_to(top)) for path in top.rglob("*") if path.is_symlink() or not path.is_dir()}


def packages(dist, root):
    """The Debian packages: installed below a folder, used, and removed."""
    if skip("the Debian packages", "dpkg", "dpkg-deb", checks=PACKAGES):
        return
    if os.geteuid() != 0:
        left_out.say("a release: the Debian packages", "only root may install them", PACKAGES)
        return
    state = root / "var" / "lib" / "dpkg"
    for folder in ("info", "updates"):
        (state / folder).mkdir(parents=True)
    (state / "status").touch()
    dpkg = ("dpkg", f"--root={root}", f"--log={root}.log", "--force-depends", "--force-script-chrootless",
            "--force-not-root")
    yield ends_well("dpkg --install", *dpkg, "--install", *sorted(dist.glob("*.deb")))
    yield lists("the package's program", root / "usr/bin/zkdump", "show")
    yield ends_well("the package's tool", root / "usr/bin/zkjson", "--help")
    names = files(root / "usr")
    wanted = {name for name in install.layout(debian.LIBDIR)} if shutil.which("scdoc") else set()
    wanted = {f"{name}.gz" if name.startswith("share/man/") else name for name in wanted}
    yield "packages", wanted <= names, f"the packages lack {sorted(wanted - names)}"
    yield ends_well("dpkg --remove", *dpkg, "--remove", *debian.FIELDS)
    yield "removed", not (root / "usr").exists() or not files(root / "usr"), f"there is still {sorted(files(root))[:9]}"


def installed(work):
    """What `make install` puts below a folder, and `make uninstall` takes away."""
    if skip("make install", "make", checks=8):
        return
    place, words = work / "place", (f"DESTDIR={work / 'place'}", "PREFIX=/opt/zk")
    yield ends_well("make install", "make", "-C", TOP, "install", *words)
    yield lists("the installed program", place / "opt/zk/bin/zkdump", "show")
    yield ends_well("make uninstall", "make", "-C", TOP, "uninstall", *words)
    yield "uninstalled", not files(place), f"there is still {sorted(files(place))[:9]}"
    usual, own = '--prefix "/usr/local" --libdir "lib"', '--prefix "/opt/zk" --libdir "lib64"'
    for prefix, libdir, words, wanted in (("", "", (), usual), ("", "", ("-e",), usual), ("/opt/zk", "lib64", (), own),
                                          ("/", "", ("PREFIX=/opt/zk", "LIBDIR=lib64"), own)):
        found = run("make", "-C", TOP, "-n", "install", *words, env={**os.environ, "PREFIX": prefix, "LIBDIR": libdir})
        yield (f"PREFIX={prefix}", wanted in found.stdout.decode(),
               f"make install {words}, PREFIX={prefix!r} and LIBDIR={libdir!r} exported: {found.stdout.decode()}")


def main():
    for path in (install.PROGRAM, install.LIBRARY, install.PLAIN):
        if not path.exists():
            print(f"{path.relative_to(TOP)} is not there: ./test makes it\n0 passed, 1 failed")
            return 1
    results = [*numbers(), *logs(), *completion()]
    with tempfile.TemporaryDirectory() as folder:
        work, dist, again = (pathlib.Path(folder, name) for name in ("work", "dist", "again"))
        for made in (work, dist, again):
            made.mkdir()
        for line in distribution.make(dist):
            what, _, why = line.partition(", since ")
            left_out.say(f"a release: {what}", why, 1)
        os.umask(0o077)
        list(distribution.make(again))
        os.umask(0o022)
        sums = [(made / "SHA256SUMS").read_text() for made in (dist, again)]
        results.append(("the same bytes", sums[0] == sums[1], f"two releases differ:\n{sums[0]}{sums[1]}"))
        results.append(ends_well("SHA256SUMS", "sha256sum", "--check", "SHA256SUMS", cwd=dist))
        with tarfile.open(dist / f"{distribution.NAME}.tar.gz") as archive:
            archive.extractall(work)
        top = work / distribution.NAME
        results.append(lists("the archive's program", top / "bin" / "zkdump", "show"))
        results += commands(top)
        if not skip("the libraries", *make_library.TOOLS, checks=LIBRARIES):
            results += [*header(top, work), *libraries(top, work)]
            columns = top / "lib" / "zkdump" / "zkcolumns"
            found = run(columns, "--json", "{", RECORDING)
            good = found.returncode == 0 and found.stdout.endswith(LISTING.splitlines()[-1])
            results += [("zkcolumns", good, f"zkcolumns: status {found.returncode}, {found.stderr[-300:]}"),
                        lists("zkcolumns --follow", columns, "--follow")]
        results += packages(dist, work / "root")
        results += installed(work)
    failures = [told for _, good, told in results if not good]
    print("\n".join(failures), end="\n" if failures else "")
    print(f"{len(results) - len(failures)} passed, {len(failures)} failed")
    return 1 if failures else 0


if __name__ == "__main__":
    sys.exit(main())
