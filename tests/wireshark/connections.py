"""Tests of the plugin for Wireshark that are about connections: pairs, losses, captures in disorder, and passes."""

import collections
import itertools
import json
import random
import re
import subprocess

from . import installed_plugin
from .installed_plugin import TOP, joined, lossy, pieces_of, wire, zkr
from ..tools.captured import disturbed
from ..stored_listings import listings_of

PROGRAM = TOP / "crates" / "zkdump" / "out" / "zkdump"
CAPTURES = sorted((TOP / "captures").glob("*.zkr"))
REFUSED = [path for path in CAPTURES if path.stem.startswith("refused")]
WHOLE = [path for path in CAPTURES if path not in REFUSED]
IN_ORDER = ("-o", "tcp.reassemble_out_of_order:TRUE")


def listings():
    """Each recording's path, a profile, and its listing under that."""
    for path in CAPTURES:
        for profile, listing in listings_of(path):
            yield path, profile, listing.read_text().splitlines()


def objects_of(path, profile):
    """The messages of a recording, as zkjson has them, which ends with status 1 where the recording is refused."""
    done = subprocess.run([TOP / "tools" / "zkjson.py", dict(listings_of(path))[profile]], capture_output=True,
                          text=True, check=False)
    if done.returncode not in (0, 1):
        raise OSError(f"zkjson.py ended with status {done.returncode}: {done.stderr}")
    return [json.loads(line) for line in done.stdout.splitlines()][:-1]


def refusals_of(path, profile):
    """What is said of each refusal of a recording, by the program: a frame that is refused is left out, with the reply
    to it, and what remains is read anew. So are those whose operation the profile lacks, of which nothing is said. A
    first frame, and a length that no frame has, end it."""
    cutter, frames, numbers, told = zkr.Cutter(), [], collections.Counter(), []
    for frame in itertools.chain.from_iterable(map(cutter.take, pieces_of(path))):
        numbers[frame.side] += 4 + len(frame.payload)
        frames.append((frame.side, frame.number, numbers[frame.side], frame.payload))
    while True:
        recording = b"ZKR1" + b"".join(side + b"".join(size.to_bytes(4, "big") for size in (4 + len(payload), len(payload)))
                                       + payload for side, _, _, payload in frames)
        ending = subprocess.run([PROGRAM, "check", "--profile", profile], input=recording, capture_output=True,
                                check=False).stdout.decode().splitlines()[-1]
        found = re.search(r" refused side=(.) frame=(\d+) offset=\d+ (place=\d+ reason=(\w+).*)", ending)
        if not found or found[4] == "LengthRange":
            return told
        mine = [frame for frame in frames if frame[0] == found[1].encode()]
        refused = mine[int(found[2])]
        if found[4] != "UnknownOp":
            told.append(f"side={found[1]} frame={refused[1]} offset={refused[2]} {found[3]}")
        if refused[1] == 0:
            return told
        at = frames.index(refused)
        reply = next((frame for frame in frames[at:] if frame[0] == zkr.SERVER and frame[3][:4] == refused[3][:4]), None)
        frames = [frame for frame in frames if frame is not refused and (frame is not reply or found[1] == "S")]


class Connections:
    """Each test_ gives pairs: whether it is as it should be, and what to print otherwise."""

    def test_pairs(self):
        """Each reply has its request, as zkjson pairs them, and the time since that; each request its reply."""
        for path, profile, _ in listings():
            objects = objects_of(path, profile)
            found = self.plugin.frames_of(path, profile)[:len(objects)]
            packets = {each["n"]: shown["packet"] for each, shown in zip(objects, found)}
            replies = [each for each in objects if "of" in each]
            asked = {each["n"]: packets[each["of"]] for each in replies}
            answered = {each["of"]: packets[each["n"]] for each in replies}
            wrong = []
            for each, shown in zip(objects, found):
                if each["n"] in asked:  # a packet is a millisecond after the one before it
                    took = (shown["packet"] - asked[each["n"]]) / 1000
                    if (shown["response_to"], shown["response_time"]) != ([str(asked[each["n"]])], [f"{took:.9f}"]):
                        wrong.append((each["n"], shown["response_to"], shown["response_time"]))
                elif each["n"] in answered and shown["response_in"] != [str(answered[each["n"]])]:
                    wrong.append((each["n"], shown["response_in"]))
            yield not wrong, f"{path.stem} under {profile}: {wrong[:3]}"

    def looked_over(self, capture, name, *words):
        """That nothing is refused, and each pair has one xid."""
        found = self.plugin.frames(capture, *words)
        asked = {(each["packet"], xid) for each in found if each["kind"] == ["2"] for xid in each["xid"]}
        refused = [each["line"] or each["xid"] for each in found if each["refused"] or each["malformed"]]
        # (a connect response has no xid)
        wrong = [each["packet"] for each in found if each["response_to"] and each["xid"] and
                 (int(each["response_to"][0]), each["xid"][0]) not in asked]
        pairs = sum(1 for each in found if each["response_to"])
        yield not self.plugin.trouble(), f"{name}: {self.plugin.trouble()}"
        yield not refused and not wrong, f"{name}: refused {refused[:3]}, wrong pairs {wrong[:3]}"
        yield pairs > 100, f"{name}: {pairs} pairs"

    def test_losses(self):
        """Of 2% and 10% of the packets that have data."""
        for share in (0.02, 0.1):
            for seed in range(self.words.seeds):
                chance = random.Random(seed)
                capture = joined(lossy(list(wire.conversation(pieces_of(path))), chance, share) for path in WHOLE)
                yield from self.looked_over(capture, f"{share} lost, seed {seed}")

    def test_losses_of_the_refused(self):
        """A connection that is refused is refused where the whole one is, or, after a loss, nowhere."""
        wanted = {told for path, profile, _ in listings() for told in refusals_of(path, profile)}
        for share in (0.02, 0.1):
            for seed in range(self.words.seeds):
                chance = random.Random(seed)
                for profile in installed_plugin.PROFILES:
                    capture = joined(lossy(list(wire.conversation(pieces_of(path))), chance, share)
                                     for path in REFUSED * 8)
                    text = self.plugin.read(capture, "-Y", "zookeeper.refused", "-T", "fields", "-e",
                                            "_ws.expert.message", profile=profile)
                    told = set(re.findall(r"Refused: (side=[^,\n]*)", text))
                    yield told and told <= wanted, f"{share} lost, seed {seed}, {profile}: {told}"

    def test_disturbed(self):
        """Captured twice, again with other cuts, in another order within eight."""
        for seed in range(self.words.seeds):
            chance = random.Random(seed)
            capture = joined(disturbed(list(wire.conversation(pieces_of(path))), chance) for path in WHOLE)
            yield from self.looked_over(capture, f"disturbed, seed {seed}")
            yield from self.looked_over(capture, f"disturbed, put in order, seed {seed}", *IN_ORDER)
            found = self.plugin.frames(capture, "-2", *IN_ORDER)
            left = [each for each in found if each["kind"] == ["4"] and not each["response_to"]]
            yield found and not left, f"disturbed, seed {seed}: {len(left)} of {len(found)} have no request"

    def test_begun_before_and_cut(self):
        for share in (3, 2):
            sent = [list(wire.conversation(pieces_of(path))) for path in WHOLE]
            yield from self.looked_over(joined(each[len(each) // share:] for each in sent), f"from 1/{share} on")
        packets = [packet for at, each in enumerate(sent) for packet in installed_plugin.packed(each, client=40_000 + at)]
        packets.sort(key=lambda each: each[0])
        yield from self.looked_over(wire.pcap(packets, snap=96), "96 bytes of each packet")

    def test_the_ends_without_a_syn(self):
        """Who is the server is known by what is said where no SYN says it, whichever port Decode As names; also where
        the first bytes are the front of a long frame."""
        for name in ("kazoo_basic", "kazoo_multi"):
            path, cutters = TOP / "captures" / f"{name}.zkr", zkr.Cutter()
            said = [("CS".index(side), xid) for side, xid in re.findall(
                r"^([CS]) (-?\d+|event|connect) ", path.with_suffix(".show").read_text(), re.M)]
            said = [([str(side)], {"connect": [], "event": ["-1"]}.get(xid, [xid])) for side, xid in said]
            sent = list(wire.conversation(pieces_of(path)))[3:-3]
            ended = [len(list(cutters.take(zkr.Piece(each.side, None, each.data)))) for each in sent]
            long = next((at for at in range(1, len(sent)) if ended[at - 1] == 1 and not any(ended[at:at + 5])), 9)
            for first, version, port in itertools.product((0, 6, long), (4, 6), (9999, 41822)):
                capture = wire.pcap(installed_plugin.packed(sent[first:], server=9999, version=version))
                found = self.plugin.frames(capture, "-d", f"tcp.port=={port},zookeeper")
                shown = [(each["side"], each["xid"]) for each in found]
                yield shown == said[sum(ended[:first]):], \
                    f"{name} from {first} on, IPv{version}, {port}: {len(shown)} of {sum(ended[first:])}, {shown[:2]}"

    def test_each_packet_has_words_in_the_list(self):
        """Also one that has the middle of a frame alone, and whose bytes wait for others."""
        sent = [list(wire.conversation(pieces_of(path), 37))[9:] for path in WHOLE if path.stat().st_size < 20_000]
        for words in ((), ("-2",)):
            told = self.plugin.read(joined(sent), *words, "-T", "fields", "-e", "_ws.col.Info").splitlines()
            wrong = [at + 1 for at, info in enumerate(told) if not info]
            yield told and not wrong, f"of {len(told)} packets {len(wrong)} have none: {wrong[:5]}"

    def test_the_ports_are_used_again(self):
        first, second = (list(wire.conversation(pieces_of(path), 1448, (number, 2 * number)))
                         for path, number in zip(WHOLE[-2:], (1000, 700_000)))
        capture = wire.pcap(installed_plugin.packed(first) + installed_plugin.packed(second))
        found = self.plugin.frames(capture)
        sessions = {each["session"][0] for each in found if each["kind"] == ["4"]}
        alone = [each["packet"] for each in found if each["kind"] == ["4"] and not each["response_to"]]
        yield len(sessions) == 2 and not alone, f"{sessions}, without a pair {alone}"

    def test_one_pass_is_two_passes(self):
        """But for what isn't known yet, in which packet a request will be answered, and where bytes that wait are
        shown."""
        for share in (0, 0.1):
            capture = joined(lossy(list(wire.conversation(pieces_of(path))), random.Random(1), share) for path in WHOLE)
            one, two = ([each for each in found if each["kind"]] for found in
                        (self.plugin.frames(capture), self.plugin.frames(capture, "-2")))
            for each in one + two:
                each.pop("response_in", None)
            early = {each["packet"] for each in two if each["kind"] == ["4"] and each["response_to"]} \
                - {each["packet"] for each in one if each["kind"] == ["4"] and each["response_to"]}
            one, two = ([each for each in found if each["packet"] not in early] for found in (one, two))
            other = [(a, b) for a, b in zip(one, two) if a != b]
            yield one and len(one) == len(two) and not other, f"{share} lost: {len(one)} and {len(two)}, {other[:1]}"
        begun = [list(wire.conversation(pieces_of(path), 37))[at:at + 60] for path in WHOLE for at in (11, 18, 22, 33)]
        one, two = (sorted(value for each in self.plugin.frames(joined(begun), *words) for value in each["no_frame"])
                    for words in ((), ("-2",)))
        yield one and one == two, f"bytes without a frame: {len(one)} times, and on later passes {len(two)}"
