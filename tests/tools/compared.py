"""Compares what the tools print of recordings as columns with what they print of the lines of zkdump show.

    compared.py ZKCOLUMNS ZKDUMP FOLDER RECORDING ..

It needs numpy. Besides these recordings there are some that are made of VALUES, some of captures from which packets are
missing, and some that are cut and changed by chance, from a seed; these files go to the folder. All but the last are to
be read by ZKCOLUMNS itself: what it leaves to the lines is no comparison. It prints each difference, and `N runs, M
different`.
"""

import collections
import io
import itertools
import os
import pathlib
import random
import struct
import subprocess
import sys

from .support import TOOLS, run_main, zkr

from tools.zkdump_tools import columns

CHOICES = ((), ("--path", "/"), ("--path", "/a", "--path", "/kazoo"),
           ("--op", "event", "--op", "multi", "--op", "create"), ("--slower", "0.5"),
           ("--from", "1763843467121", "--to", "1763843467190"),
           ("--session", "0x100003780a60004"),
           ("--op", "connect", "--path", "/", "--slower", "0"), ("--profile", "3.4"))
FEW = CHOICES[:2]
OLDER = ("--profile", "3.4")
OF_NEWER = ((), OLDER, (*OLDER, "--path", "/a"), (*OLDER, "--op", "21", "--op", "whoAmI"), (*OLDER, "--slower", "30"),
            (*OLDER, "--limit", "64"))
LONG = 70_000
SMALL, E_ACUTE, BLANK = "612020", "c3a9", "e2808b"     # U+200B can't be printed
TEXTS = ('~', '""', '"/a"', '"/\\c3\\a9"', '"/\\22\\5c"', '"/\\0a\\7f"', '"/\\e2\\80\\8b\\c3\\a9"', f'"/{"x" * LONG}"',
         f'"/{"x" * LONG}\\c3\\a9\\01{"y" * LONG}\\c3\\a9"', '"/\\f0\\9f\\98\\80"')
BLOBS = ("~", "#", "#00", "#" + SMALL, "#0a0d09", "#7f", "#" + E_ACUTE, "#" + BLANK, "#ff", "#eda080", "#c0af",
         "#f4908080",
         "#" + E_ACUTE * LONG, "#" + "61" * LONG + BLANK, "#" + "62" * LONG, "#61c3")
LISTS = ("~", "[]", '["a"]', '["a","b"]', "[~]", '["a",~,"\\c3\\a9"]', '["\\22","b"]',
         "[" + ",".join(f'"{number}"' for number in range(14_000)) + "]", "[" + ",".join(['"\\00"'] * 7_000) + "]")
STAT = "(1,-2,3,4,5,6,7,-1,8,9,10)"
CONNECT = ("C connect version=0 zxid=-3 timeout=30000 session=7 passwd=#00ff ro=-",
           "S connect version=0 timeout=30000 session=72057832419491844 passwd=~ ro=1")
EVENTS = ("kind=1/NodeCreated", "kind=77", "kind=-1/None", "kind=0", "kind=7")  # zk.h alone names 7, and the err -125


def values():
    """A listing with values of each kind."""
    number = itertools.count(1)
    yield from CONNECT

    def exchange(request, reply):
        xid = next(number)
        return [f"C {xid} {request}", f"S {xid} {request.split(' ')[0]} zxid={xid - 3} {reply}".rstrip()]
    for text in TEXTS:
        yield from exchange(f"getACL path={text}", f"acl=[31:{text}:~,-1:\"world\":{text}] stat={STAT}")
        yield from exchange(f"sync path={text}", f"path={text}")
        yield from exchange(f"exists path={text} watch=1", "err=-999")
        yield from exchange(f"exists path={text} watch=0", "err=-125")
        yield from exchange(f"multi {{create path={text} blob=#61 acl=~ flags=1;check path=\"/a/b\" version=2}}",
                            "{fail err=-101/NONODE;fail err=-2/RUNTIMEINCONSISTENCY}")
        yield from (f"S event zxid=-1 {kind} state=3 path={text}" for kind in EVENTS)
    for blob in BLOBS:
        yield from exchange("getData path=\"/a\" watch=0", f"blob={blob} stat={STAT}")
        yield from exchange(f"setData path=\"/a\" blob={blob} version=-1", "err=-103/BADVERSION")
    for names in LISTS:
        yield from exchange("getChildren path=\"/a\" watch=0", f"names={names}")
        yield from (f"C -8 setWatches zxid=9 dataWatches={names} existWatches=[] childWatches=~",
                    "S -8 setWatches zxid=0")
    yield from exchange(f'getChildren path="/{"x" * LONG}" watch=0', 'names=["a","b"]')
    yield from exchange("multi {}", "{}")
    yield from exchange("multi {delete path=~ version=1}", "err=-4/CONNECTIONLOSS")
    yield from exchange("multi {delete path=~ version=1;setData path=~ blob=~ version=3}",
                        f"{{delete;setData stat={STAT}}}")
    yield from exchange("multi {delete path=\"/a\" version=1}", "{fail err=0/OK}")
    yield from ("C -2 ping", "C -4 auth kind=3 scheme=\"digest\" auth=#616263", "S -4 auth zxid=0",
                "C 900 closeSession")


def cut(data, chance):
    """The recording cut into other pieces, changed and truncated by chance; and the lines of its times."""
    head, sides = random_head(chance), list(zkr.Reader(io.BytesIO(data)))
    made, times, moment = bytearray(head.to_bytes()), [], 1763843467120.0
    for piece in sides:
        rest = bytearray(piece.data)
        if chance.random() < 0.004:
            rest[chance.randrange(len(rest))] = chance.randrange(256)
        while rest:
            size = chance.choice((1, 3, 7, 40, 1000, len(rest), len(rest)))
            moment += chance.choice((0, 0.001, 0.5, 1.25, 30, -0.4))
            made += head.piece(piece.side, moment if chance.random() < 0.97 else 0, bytes(rest[:size]))
            times.append(chance.choice(("%.3f", "%.0f", "%.9f", "%.1f")) % moment)
            del rest[:size]
    if chance.random() < 0.4:
        del made[chance.randrange(len(made)):]
    if chance.random() < 0.1:
        made += chance.choice((b"C", b"S\0\0", b"X", b"C\0\0\0\0", b"C\0\0\0\5", b"S" + b"\xff" * 4,
                               b"C\x80" + bytes(11)))
    return bytes(made), times


def late_times(data):
    """The recording with times of more digits than a float has, the least and the greatest of these, and others."""
    head = zkr.Head("zkr2")
    made = bytearray(head.to_bytes())
    for number, piece in enumerate(zkr.Reader(io.BytesIO(data))):
        made += head.piece(piece.side, (5000, 2**53 - 9, 2**53 + number, 2**63 - 999)[number % 4] + number, piece.data)
    return bytes(made)


def long_latencies(folder, data):
    """The recording with times of microseconds, after 1970 and, of every third piece, before the year 2224."""
    pieces = list(zkr.Reader(io.BytesIO(data)))
    made, head = folder / "long.zkr", zkr.Head()
    made.write_bytes(head.to_bytes() + b"".join(head.piece(piece.side, 0, piece.data) for piece in pieces))
    made.with_name("long.zkr.times").write_text("".join(
        f"{(1, 7_999_999_900_000, 5)[number % 3] + number}.{number * 7 % 1000:03}\n" for number in range(len(pieces))))
    return made


def multi(*parts):
    """The body of a multi with these parts, each an operation's number and a body."""
    return b"".join(struct.pack(">iBi", kind, 0, -1) + body for kind, body in parts) + struct.pack(">iBi", -1, 1, -1)


def newer_recordings(folder, chance):
    """Recordings of requests that profiles lack among others, with their replies: in their turn, seldom out of it, with
    other xids, errors and bodies, and with frames that are refused. Multis have parts of later releases, too."""
    numbers = (3, 3, 14, 15, 19, 21, 101, 105, 107, 4242, -77, 2**31 - 1)
    body = b"\0\0\0\2/a"
    bodies = {3: body + b"\0", 101: bytes(20)}
    check, data, create = body + bytes(4), body + b"\0\0\0\1x" + bytes(4), body + bytes(4) + bytes(4) + bytes(4)
    multis = [multi((13, check)), multi((2, check), (15, create)), multi((13, check), (1, create), (21, create + bytes(8))),
              multi((19, create)), multi((5, data), (21, b""))[:-9], multi((2, b"\0\0\0\1\xff" + bytes(4)), (21, create)),
              multi((9, body), (15, create)), multi((13, check), (19, b"\xff"))]
    for number in range(24):
        head, made, waiting, at = random_head(chance), bytearray(), collections.defaultdict(list), 0
        frames = [(b"C", bytes(24) + b"\0\0\0\x10" + bytes(17)), (b"S", bytes(20) + b"\0")]
        for xid in range(1, 60):
            if chance.random() < 0.55:
                kind = chance.choice((3, 14, 14, 19, 101, 4242) if number % 3 else numbers)
                own = chance.choice((xid, xid, xid, xid, -8 if kind in (101, 105) else xid, -2, 1))
                if chance.random() > 0.03 and (own == -2 or kind == 11):
                    own, kind = -2, 11
                asked = chance.choice(multis[:1] * 4 + multis * (number % 3)) if kind == 14 else \
                    bodies.get(kind, b"" if kind == 11 else body)
                waiting[own if own in (-2, -8) else None].append((own, kind))
                frames.append((b"C", struct.pack(">ii", own, kind) + asked + b"!" * (chance.random() < 0.004)))
            elif lanes := [lane for lane in waiting.values() if lane]:
                own, kind = chance.choice(lanes).pop(0 if chance.random() > 0.01 else -1)
                err = chance.choice((-101, -110, -121, -4242)) if kind not in (11, 101) else 0
                frames.append((b"S", struct.pack(">iqi", own, xid, err)))
        for side, payload in frames:
            at += chance.choice((0, 1, 7, 30))
            whole, cut = struct.pack(">i", len(payload)) + payload, chance.choice((1, 5, 20, 999))
            for begin in range(0, len(whole), cut):
                made += head.piece(side, 1763843467120 + at, whole[begin:begin + cut])
        if chance.random() < 0.3:
            del made[chance.randrange(len(made)):]
        path = folder / f"newer{number}.zkr"
        path.write_bytes(head.to_bytes() + made)
        yield path


def lossy_recordings(folder, paths):
    """Recordings with their facts and times, of captures of these, from which packets are missing."""
    chance = random.Random(3)
    for number, path in enumerate(paths):
        capture, prefix = folder / f"{number}.pcap", folder / f"lossy{number}"
        subprocess.run([sys.executable, TOOLS / "zkr2pcap.py", path, capture], check=True)
        whole = capture.read_bytes()
        kept, at = bytearray(whole[:24]), 24
        while at < len(whole):
            end = at + 16 + struct.unpack_from("<I", whole, at + 8)[0]
            if at < 500 or chance.random() > 0.06:
                kept += whole[at:end]
            at = end
        capture.write_bytes(kept)
        subprocess.run([sys.executable, TOOLS / "pcap2zkr.py", "--times", "--late", capture, prefix],
                       stdout=subprocess.DEVNULL,
                       check=False)
    found = sorted(folder.glob("lossy*.zkr"))
    if len(found) < len(paths):
        raise SystemExit(f"of {len(paths)} captures there are {len(found)} recordings")
    return found


def random_head(chance):
    if chance.random() < 0.5:
        return zkr.Head()
    return zkr.Head("zkr2", chance.choice((4_194_304, 16_777_216, 1000)), 4_194_304, chance.choice((65_536, 3)),
                    chance.choice([*zkr.PROFILES.values()]))


def recordings(zkdump, folder, paths):
    """The recordings that are compared, each with whether it was changed by chance, or is None for newer ones."""
    made = folder / "values.zkr"
    made.write_bytes(subprocess.run([zkdump, "build"], input="\n".join(values()).encode(), stdout=subprocess.PIPE,
                                    check=True).stdout)
    late = folder / "late.zkr"
    late.write_bytes(late_times(made.read_bytes()))
    lossy = lossy_recordings(folder, [path for path in paths if path.stat().st_size < 30_000][:6])
    long = long_latencies(folder, made.read_bytes())
    yield from ((path, False) for path in (*paths, made, late, long, *lossy))
    chance = random.Random(17)
    yield from ((path, None) for path in newer_recordings(folder, chance))
    for number, path in enumerate(chance.choices([path for path in paths if path.stat().st_size < 100_000], k=40)):
        path, (data, times) = folder / f"{number}.zkr", cut(path.read_bytes(), chance)
        path.write_bytes(data)
        if chance.random() < 0.7:
            try:
                times = (times + ["5"] * 9)[:zkr.Reader(io.BytesIO(data)).count() + (chance.random() < 0.05)]
            except zkr.Damaged:
                continue
            if times and chance.random() < 0.1:
                times[chance.randrange(len(times))] = chance.choice(("x", "1.", ".5", "1" * 20, "1.1234567890", "-1",
                                                                     " 1", ""))
            end = chance.choice(("\n", "\n", "\r\n", "\r"))
            path.with_name(path.name + ".times").write_bytes((end.join(times) + chance.choice(("", end))).encode())
        yield path, True


def run(tool, zkcolumns, words):
    """What a tool prints: its status, standard output and standard error."""
    os.environ["ZKCOLUMNS"] = zkcolumns
    return run_main(tool, words)


def compare(zkcolumns, path, choices, is_changed):
    """How many runs over a recording there were, and how many were different."""
    runs = different = 0
    if not is_changed and subprocess.run([zkcolumns, path], stdout=subprocess.DEVNULL, stderr=subprocess.DEVNULL,
                                         check=False).returncode == columns.NOT_READ:
        different += 1
        print(f"{path} is not read by {zkcolumns}")
    for tool, words in (("zkjson.py", ()), ("zkstat.py", ("--json",)), ("zkreport.py", ("--text",))):
        for choice in choices:
            fast, plain = (run(tool, which, (*words, *choice, path)) for which in (zkcolumns, ""))
            runs += 1
            if fast != plain:
                different += 1
                print(tool, *choice, path, fast[0], plain[0], fast[2][-300:], plain[2][-300:])
                lines = itertools.zip_longest(*(each[1].split(b"\n") for each in (fast, plain)))
                print(*next(((one[:500], two[:500]) for one, two in lines if one != two), ()), sep="\n")
    return runs, different


def main():
    zkcolumns, zkdump, folder, *paths = sys.argv[1:]
    columns.said, runs, different = True, 0, 0
    paths = [pathlib.Path(path) for path in paths]
    for path, is_changed in recordings(zkdump, pathlib.Path(folder), paths):
        is_small = path.stat().st_size < 20_000 and path in paths
        choices = OF_NEWER if is_changed is None else CHOICES if is_small or path.name == "values.zkr" else FEW
        found = compare(zkcolumns, path, choices, is_changed)
        runs, different = runs + found[0], different + found[1]
    print(f"{runs} runs, {different} different")


if __name__ == "__main__":
    main()
