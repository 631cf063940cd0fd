"""Compiles and runs the examples of examples/, and the tests in C.

header.py calls it. Each program in C is compiled as C11 without a warning, and with the address sanitizer where
the compiler has it. The examples print the listing of every recording of captures/. The proxy passes on each of them,
and many connections at once (example_proxy.py). The client speaks to small_server.py, and the fake server to the client
(example_server.py). The reader that comes late is in example_late.py.
"""

import itertools
import os
import pathlib
import platform
import re
import shutil
import socket
import subprocess
import sys
import threading

from examples import talk
from . import example_late, example_proxy, example_server, small_server
from .. import left_out
from .example_proxy import came, pieces, undelayed

TOP = pathlib.Path(__file__).resolve().parents[2]
CAPTURES, EXAMPLES = TOP / "captures", TOP / "examples"
HERE = TOP / "tests" / "library"
PROGRAMS = {path.stem: path for path in (*sorted(EXAMPLES.glob("*.c")),
                                         *(HERE / f"{name}.c" for name in ("beside", "calls", "nulls", "threads")))}
STRICT = ("-std=c11", "-Wall", "-Wextra", "-Wpedantic", "-Werror")
SAID = """connected: time_out=10000
create: OK path=/a
getData: OK data=hello version=6
multi: OK check setData version=6 create
getData: NONODE
closeSession: OK
"""
# What the client of the example says after its connect request, by docs/FORMATS.md.
ANYONE = "00000001 0000001f 00000005 776f726c64 00000006 616e796f6e65"
ASKED = (f"00000001 00000001 00000002 2f61 00000005 2268c3bc22 {ANYONE} 00000000",
         "00000002 00000004 00000002 2f61 00",
         "00000003 0000000e 0000000d 00 ffffffff 00000002 2f61 00000000 00000005 00 ffffffff 00000002 2f61 00000007"
         f"6368616e676564 00000000 00000001 00 ffffffff 00000008 2f612f62656c6f77 ffffffff {ANYONE} 00000000"
         "ffffffff 01 ffffffff",
         "00000004 00000004 00000008 2f6d697373696e67 00", "00000005 fffffff5")
# The reply to a multi: its results are that of a delete, and an error.
RESULTS = "00000001000000000000000600000000" "000000020000000000" "ffffffff00ffffff99ffffff99" "ffffffff01ffffffff"


def compiled(folder, archive, cc):
    """The programs by their names, linked with the library."""
    flags = ["-fsanitize=address", "-pthread"]
    for name, source in PROGRAMS.items():
        words = [cc, "-O2", "-g", *STRICT, f"-I{TOP / 'include'}", "-o", os.path.join(folder, name), source, archive]
        if subprocess.run([*words, *flags], stderr=subprocess.DEVNULL).returncode != 0:
            flags = ["-pthread"]
            left_out.say(f"{source.name} by the address sanitizer", "the compiler has none here", 1)
            subprocess.run([*words, *flags], check=True)
    return {name: os.path.join(folder, name) for name in PROGRAMS}


def ends_well(name, *words, **options):
    """Whether a program ends with the status 0; and its output."""
    found = subprocess.run(words, capture_output=True, text=True, **options)
    return name, found.returncode == 0, f"{name}: status {found.returncode}, {(found.stdout + found.stderr)[-500:]}"


# ---- The client


def measure_client(program):
    """Whether it goes on with reads, and with sessions one after another, each of which begins anew."""
    with small_server.Server() as server:
        threading.Thread(target=server.serve_forever, daemon=True).start()
        words = [program, "127.0.0.1", str(server.port), "/a", "", "20"]
        found = subprocess.run(words, capture_output=True, text=True)
        server.shutdown()
    closings = [bytes.fromhex(f"{xid:08x} fffffff5") for xid in (25, *(1,) * 20)]
    good = found.returncode == 0 and len(re.findall(r"^(?:getData|session): [0-9.]+ micro.* of 20$", found.stdout,
                                                    re.M)) == 2
    yield "client, rounds", good, f"client: {found.returncode}, {found.stdout}{found.stderr}"
    heard = [payload for payload in server.heard if payload[4:] == closings[0][4:]]
    yield "client, sessions", heard == closings, f"client: it ends sessions by {heard}"


def run_client(program):
    """Whether the client prints what the server has, and says what it should."""
    with small_server.Server() as server:
        threading.Thread(target=server.serve_forever, daemon=True).start()
        found = subprocess.run([program, "127.0.0.1", str(server.port), "/a", '"hü"'], capture_output=True, text=True)
        server.shutdown()
    good = (found.returncode, found.stdout) == (0, SAID)
    yield "client", good, f"client: {found.returncode}, {found.stdout}{found.stderr}"
    asked = [bytes.fromhex(digits) for digits in ASKED]
    yield "client, bytes", server.heard[1:] == asked, f"client: it says {[heard.hex() for heard in server.heard[1:]]}"
    yield from measure_client(program)
    with socket.create_server(("127.0.0.1", 0)) as listener:
        words = [program, "127.0.0.1", str(listener.getsockname()[1]), "/a", ""]
        with subprocess.Popen(words, stderr=subprocess.PIPE, text=True) as found:
            with undelayed(listener.accept()[0]) as server:
                came(server, 48)
                server.sendall(small_server.framed(b"nothing"))
                told = found.stderr.read()
    good = (found.returncode, told) == (1, "client: SHORT\n")
    yield "client, refused", good, f"client: {found.returncode}, {told}"


def try_addresses(folder, archive, cc):
    """Whether the client and the proxy find a server at a name's second address, where the first one refuses."""
    first = HERE / "refused_first.h"
    programs = {name: os.path.join(folder, f"{name}_second") for name in ("client", "proxy")}
    for name, program in programs.items():
        subprocess.run([cc, *STRICT, "-include", first, f"-I{TOP / 'include'}", "-o", program, EXAMPLES / f"{name}.c",
                        archive, "-pthread"], check=True)
    with small_server.Server() as server:
        threading.Thread(target=server.serve_forever, daemon=True).start()
        words = ["127.0.0.1", str(server.port), "/a", '"hü"']
        found = subprocess.run([programs["client"], *words], capture_output=True, text=True)
        yield "client, addresses", found.stdout == SAID, f"client, addresses: {found.stdout}{found.stderr}"
        proxy = example_proxy.Proxy(programs["proxy"], server.port)
        with proxy.connect() as client:
            client.sendall(example_proxy.HELLO)
            got = len(came(client, 41))
        status = proxy.end()
        server.shutdown()
    yield "proxy, addresses", (got, status) == (41, (0, "")), f"proxy, addresses: {got} bytes, {status}"


def wait_for_replies(folder, archive, cc):
    """Whether the proxy, made for one request that may wait, passes on each in its turn."""
    source, program = pathlib.Path(folder, "waits.c"), os.path.join(folder, "proxy_waits")
    source.write_text((EXAMPLES / "proxy.c").read_text().replace(f"WAITING = {example_proxy.WAITING}", "WAITING = 1"))
    subprocess.run([cc, *STRICT, f"-I{TOP / 'include'}", "-o", program, source, archive], check=True)
    yield from example_proxy.one_waits(program)


# ---- Listings and fields


def sides(recording):
    """The bytes of each side of a recording."""
    found = {b"C": b"", b"S": b""}
    for side, piece in pieces(recording):
        found[side] += piece
    return found


def list_recordings(name, *words):
    """Whether an example prints the listing of each recording; the one in Python says whole listings' lines again."""
    for path in sorted(CAPTURES.glob("*.zkr")):
        listing = path.with_suffix(".show")
        found = subprocess.run([*words, path], capture_output=True)
        good = (found.returncode, found.stdout) == (0, listing.read_bytes())
        yield path.stem, good, f"{name} {path.stem}: status {found.returncode}, {found.stderr.decode()[:200]}"
        if name == "talk.py" and b"\n. whole " in listing.read_bytes():
            found = subprocess.run([*words, "--say", listing], capture_output=True)
            good = found.returncode == 0 and sides(found.stdout) == sides(path.read_bytes())
            told = found.stderr.decode()[-200:]
            yield path.stem, good, f"{name} --say {path.stem}: status {found.returncode}, {told}"


def list_damaged(folder, name, words, *more):
    """Whether an example reports a recording that is damaged, and an output that can't be written."""
    for what, tail in (("whole", b""), ("a part of a head", b"C\0\0"), ("a part of a piece", b"C\0\0\0\5abcd"),
                       ("no side", b"X\0\0\0\1a"), ("a piece of no bytes", b"C\0\0\0\0"),
                       ("a piece of too many bytes", b"C\1\0\0\5" + bytes(16777221))):
        path = pathlib.Path(folder, "damaged.zkr")
        path.write_bytes((CAPTURES / "kazoo_basic.zkr").read_bytes() + tail)
        found = subprocess.run([*words, path, *more], capture_output=True, text=True)
        good = (found.returncode == 0) != bool(tail) and bool(found.stderr) == bool(tail)
        yield what, good, f"{name}, {what}: status {found.returncode}, {found.stderr}"
        if not tail and os.path.exists("/dev/full"):
            with open("/dev/full", "wb") as full:
                found = subprocess.run([*words, path, *more], stdout=full, stderr=subprocess.PIPE, text=True)
            yield "full", found.returncode != 0, f"{name}, a full disk: status {found.returncode}, {found.stderr}"


def fail_to_read(folder, archive, cc):
    """Whether a read that fails isn't taken for the end of the recording."""
    for left, (name, *more) in itertools.product((2, 4, 6, 11), (("listing",), ("late", "0"))):
        program = os.path.join(folder, f"{name}_within")
        subprocess.run([cc, *STRICT, f"-DLEFT={left}", "-include", HERE / "fails_within.h",
                        f"-I{TOP / 'include'}", "-o", program, EXAMPLES / f"{name}.c", archive], check=True)
        found = subprocess.run([program, "any.zkr", *more], capture_output=True, text=True)
        good = (found.returncode, found.stdout, found.stderr) == (2, "", f"{name}: Input/output error\n")
        yield (f"{name}, a read", good,
               f"{name}, a read fails after {left} bytes: {found.returncode}, {found.stdout}{found.stderr}")


def fail_within(shared):
    """Whether talk.py reports a line that can't be made, and doesn't end the listing there as if all were read."""
    library, status = talk.Library(str(shared)), None
    library.zk_talk_line = lambda *_: talk.Line(5, 0)  # NO_MEMORY
    try:
        lines = list(talk.listing(library, (CAPTURES / "kazoo_basic.zkr").read_bytes()))
    except talk.Refused as refused:
        lines, status = [], str(refused)
    good = status == "the library refuses this: status 5 of zk.h"
    yield "talk.py, no memory", good, f"talk.py, no memory: {lines}, {status}"


def say_lines(folder, *words):
    """Whether talk.py --say takes lines that a line feed ends, as zkdump build does, and no other mark."""
    first, _, rest = (CAPTURES / "kazoo_basic.show").read_bytes().partition(b"\n")
    path = pathlib.Path(folder, "said.show")
    for mark in (b"\n", b"\r", b"\r\n", b"\n\n", b"\f"):
        path.write_bytes(first + mark + rest)
        found = subprocess.run([*words, "--say", path], capture_output=True)
        good = (found.returncode == 0) == (mark == b"\n") == (not found.stderr)
        yield "--say", good, f"talk.py --say, {mark}: status {found.returncode}, {found.stderr}"


def show_fields(program):
    """Whether the example shows the fields of a payload, and those before a fault, and refuses other arguments."""
    for given, status, shown in (
        ("request 34 0000000100000003000000022f6101", 0, 'request exists xid=1\n12+2 path "/a"\n14+1 watch 1\n'),
        ("request 34 0000000100000003000000022f6102", 1, 'fault exists xid=1 BAD_BOOL at 14\n12+2 path "/a"\n'),
        ("request 34 0000000100000003000000011b01", 0, 'request exists xid=1\n12+1 path "\\x1b"\n13+1 watch 1\n'),
        ("request 34 0", 2, ""), ("request 34 0g", 2, ""), ("request 00", 2, ""), ("another 00", 2, ""),
        ("request abc 00", 2, ""), ("request 34x 00", 2, ""), ("request 36 00", 2, ""), ("reply exists 00", 2, ""),
        ("reply 4294967299 00", 2, ""), ("reply 3 1 00", 2, ""), ("reply 14 3 00", 2, ""), ("reply 14 delete 00", 2, ""),
        (f"reply 14 2 5 {RESULTS}", 0, "reply multi xid=1 zxid=6 err=0 OK\n16+9 delete\n25+9 error\n34+4 err -103\n"),
        (f"reply 14 2 2 {RESULTS}", 0, "reply multi xid=1 zxid=6 err=0 OK\n16+9 delete\n25+9 error\n34+4 err -103\n"),
        (f"reply 14 5 2 {RESULTS}", 1, "fault  xid=1 BAD_PART at 16\n"),
    ):
        found = subprocess.run([program, *given.split()], capture_output=True, text=True)
        good = (found.returncode, found.stdout) == (status, shown)
        yield given, good, f"fields {given}: status {found.returncode}, {found.stdout}"


def print_in_vain(programs):
    """Whether each program that prints what it found says that it can't, and has another status."""
    if not os.path.exists("/dev/full"):
        return
    with small_server.Server() as server, open("/dev/full", "wb") as full:
        threading.Thread(target=server.serve_forever, daemon=True).start()
        for name, *given in (("fields", "request", "34", "0000000100000003000000022f6101"), ("client_frames",),
                             ("client", "127.0.0.1", str(server.port), "/a", ""), ("server",),
                             ("proxy", "0", "127.0.0.1", str(server.port))):
            found = subprocess.run([programs[name], *given], stdout=full, stderr=subprocess.PIPE, text=True,
                                   timeout=example_proxy.PATIENCE)
            good = found.returncode > 0 and found.stderr == f"{name}: standard output can't be written\n"
            yield f"{name}, a full disk", good, f"{name}, a full disk: status {found.returncode}, {found.stderr}"
        server.shutdown()


def complain(programs):
    """Whether each program says in one line why it can't begin."""
    programs = {name: [program] for name, program in programs.items()}
    programs["talk.py"] = [sys.executable, EXAMPLES / "talk.py"]
    none, listing = "/no/such/file", CAPTURES / "kazoo_basic.show"
    for name, given, told in (
        ("listing", [], "listing: usage: listing RECORDING"),
        ("listing", [none], f"listing: {none}: No such file or directory"),
        ("listing", [listing], "listing: the file is no recording of format ZKR1"),
        ("late", [listing], "late: usage: late RECORDING COUNT"),
        ("late", [none, "2"], f"late: {none}: No such file or directory"),
        *(("late", [none, count], "late: usage: late RECORDING COUNT") for count in ("two", "-1")),
        ("talk.py", ["--say"], "usage: talk.py LIBRARY RECORDING, or talk.py LIBRARY --say LISTING"),
        ("talk.py", [none, listing], f"talk.py: {none}: cannot open shared object file: No such file or directory"),
        ("fields", ["another", "00"], "fields: usage: fields first|connected|event HEX, fields request PROFILE HEX, or "
                                      "fields reply OPERATION [PART ..] HEX"),
        ("fields", ["first", "0g"], "fields: HEX isn't pairs of hexadecimal digits"),
        ("client", ["127.0.0.1"], "client: usage: client SERVER PORT PATH DATA [ROUNDS]"),
        ("client", ["127.0.0.1", "1", "/a", ""], "client: Connection refused"),
        ("server", ["1", "2"], "server: usage: server [PORT]"),
        *(("server", [port], "server: PORT is no number up to 65535") for port in ("65536", "-1", "2181x", "")),
        ("client", ["127.0.0.1", "65536", "/a", ""], "client: PORT is above 65535"),
        *(("client", ["127.0.0.1", "1", "/a", "", rounds], "client: usage: client SERVER PORT PATH DATA [ROUNDS]")
          for rounds in ("20x", "-1", "")),
        ("proxy", ["0"], "proxy: usage: proxy PORT SERVER SERVERPORT"),
        ("proxy", ["65536", "127.0.0.1", "1"], "proxy: 65536: no port"),
        ("proxy", ["x", "127.0.0.1", "1"], "proxy: x: no port"),
        ("proxy", ["0", "127.0.0.1", "65537"], "proxy: 65537: no port"),
        ("proxy", ["0", "127.0.0.1", "no port"], "proxy: 127.0.0.1: Servname not supported for ai_socktype"),
    ):
        found = subprocess.run([*programs[name], *given], capture_output=True, text=True, timeout=example_proxy.PATIENCE)
        good = found.returncode > 0 and (found.stdout, found.stderr) == ("", f"{told}\n")
        yield f"{name} {given}", good, f"{name} {given}: status {found.returncode}, {found.stdout}{found.stderr}"


def listers(folder, programs, archive, shared):
    """The examples that print listings, with the words that run them."""
    yield "listing.c", programs["listing"]
    yield "talk.py", sys.executable, EXAMPLES / "talk.py", str(shared)
    if not shutil.which("rustc"):
        left_out.say("examples/listing.rs", "rustc is not here")
        return
    listing = os.path.join(folder, "listing_rs")
    subprocess.run(["rustc", "-O", "--edition", "2024", "-o", listing, EXAMPLES / "listing.rs",
                    "-C", f"link-arg={archive}"], check=True)
    yield "listing.rs", listing


# ---- Memory

# What tests/library/memory.c does, how often, and the most kilobytes that may then stay with the process (docs/PERF.md). Where
# little may stay, all goes back to the system; else no more than one handle's memory stays, however many there were.
STAYS = (
    ("talk 4194304 4194304 65536", 20, 1024), ("talk 16777216 16777216 65536", 5, 1024),
    ("talk 65536 65536 1024", 20, 1024), ("talk 1048576 4194304 65536", 20, 1024),
    ("talk 64 16777216 1048576", 5, 1024), ("speaker 4194304 4194304 65536", 20, 1536 + 512),
    ("speaker 4194304 4194304 1048576", 5, 24576 + 512), ("talk 4194304 4194304 65536", 20, 1024, "renew"),
)


def measure_memory(folder, archive, cc):
    """Whether no more memory stays after the last close than the table says."""
    if platform.libc_ver()[0] != "glibc":
        left_out.say("the memory that stays of closed talks", "this is not glibc", len(STAYS))
        return
    program = os.path.join(folder, "memory")
    words = [cc, "-O2", *STRICT, f"-I{TOP / 'include'}", "-o", program, HERE / "memory.c", archive]
    subprocess.run(words, check=True)
    for what, rounds, most, *renew in STAYS:
        done = subprocess.run([program, *what.split(), str(rounds), *renew], capture_output=True, text=True)
        found = done.stdout.split()
        good = done.returncode == 0 and int(found[-1]) <= most
        yield what, good, f"memory {what} {rounds} {renew}: {done.stdout.strip()} kB stay, and {most} may"


def check(folder, archive, shared, cc):
    """What the programs do."""
    programs = compiled(folder, archive, cc)
    for name, *words in listers(folder, programs, archive, shared):
        yield from list_recordings(name, *words)
        yield from list_damaged(folder, name, words)
    yield from fail_to_read(folder, archive, cc)
    yield from fail_within(shared)
    yield from say_lines(folder, sys.executable, EXAMPLES / "talk.py", str(shared))
    yield from example_late.come_late(programs["late"])
    yield from example_late.go_on(folder, programs["late"])
    yield from list_damaged(folder, "late.c", [programs["late"]], "2")
    yield from example_late.wait_late(folder, programs["late"])
    yield from show_fields(programs["fields"])
    yield from print_in_vain(programs)
    yield from complain(programs)
    found = subprocess.run([programs["first"]], capture_output=True, text=True)
    good = (found.returncode, found.stdout) == (0, "WELL: exists, 2 fields\npath at 12+2\nwatch at 14+1\n")
    yield "first", good, f"first: status {found.returncode}, {found.stdout}{found.stderr}"
    yield from example_proxy.check(programs["proxy"])
    yield from run_client(programs["client"])
    yield from try_addresses(folder, archive, cc)
    yield from wait_for_replies(folder, archive, cc)
    yield ends_well("client frames", programs["client_frames"])
    yield from example_server.check(programs["server"], programs["client"])
    yield ends_well("null pointers", programs["nulls"])
    yield ends_well("beside the proved calls", programs["beside"])
    yield ends_well("handles that go from thread to thread", programs["threads"])
    yield from measure_memory(folder, archive, cc)


def call_at_random(folder, seed, count):
    """Whether calls at random answer what they may; how often each status came is printed."""
    stored = sorted([*CAPTURES.glob("*.zkr"), *CAPTURES.glob("*.show")])
    name, good, told = ends_well("calls at random", os.path.join(folder, "calls"), str(seed), str(count), *stored)
    if good:
        print(told.partition(", ")[2].strip())
    return name, good, told


def compiler():
    """The compiler of C, or None."""
    return next(filter(shutil.which, filter(None, (os.environ.get("CC"), "cc"))), None)
