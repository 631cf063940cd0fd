"""Tests of the plugin for Wireshark: refusals in captures that lack nothing, and what is shown of messages."""

import collections
import random
import re
import subprocess

from . import expectations
from .connections import IN_ORDER, PROGRAM, WHOLE
from .installed_plugin import capture_of, joined, packed, pieces_of, wire, zkr
from .unusual_captures import HEADS, piece

# Of a mutated byte; and reasons that the plugin has no refusal for, as it goes on there.
BYTES, NO_REFUSAL = (0, 1, 0x7F, 0x80, 0xFF), ("UnknownOp", "BadPart")
LATER = 21                  # createTTL
LONG = "00000000 00000bb8" + "61" * 3000 + "00" * 68     # the rest of a reply to getData, in three segments


def asked(xid):
    return piece(zkr.CLIENT, f"{xid:08x} 00000004 00000002 2f61 00")


def answered(xid):
    return piece(zkr.SERVER, f"{xid:08x} 0000000000000005 {LONG}")


def mutated(path, chance):
    """The pieces of a recording, of which one byte is another."""
    pieces = pieces_of(path)
    at = chance.randrange(sum(len(each.data) for each in pieces))
    for number, each in enumerate(pieces):
        if at < len(each.data):
            data = bytearray(each.data)
            data[at] = chance.choice((*BYTES, chance.randrange(256)))
            pieces[number] = each._replace(data=bytes(data))
            return pieces
        at -= len(each.data)


def ending_of(pieces):
    """The last line of zkdump check."""
    recording = b"ZKR1" + b"".join(each.side + len(each.data).to_bytes(4, "big") + each.data for each in pieces)
    words = [PROGRAM, "check", "--profile", [*zkr.PROFILES][-1]]
    return subprocess.run(words, input=recording, capture_output=True, check=False).stdout.decode().splitlines()[-1]


class Shown:
    """Each test_ gives pairs: whether it is as it should be, and what to print otherwise."""

    def refusals(self, capture, *words):
        """What is said of refusals, by the client's port."""
        told = collections.defaultdict(list)
        for line in self.plugin.read(capture, *words, "-Y", "zookeeper.refused", "-T", "fields", "-e", "tcp.srcport",
                                     "-e", "tcp.dstport", "-e", "_ws.expert.message").splitlines():
            *ports, text = line.split("\t")
            told[max(map(int, ports))] += re.findall(r"Refused: (side=[^,]*)", text)
        return told

    def test_refusals_in_several_segments(self):
        """A reply that nothing asked for, and one to the second request before the first, are refused at their last
        byte, in one segment and in several; so is a server that speaks first. All bytes were captured."""
        welcome, reply = len(HEADS[1].data), len(answered(1).data)
        for pieces, wanted in (
                ([*HEADS, asked(1), answered(1), answered(7)],
                 f"side=S frame=2 offset={welcome + 2 * reply} place=0 reason=Unasked"),
                ([*HEADS, answered(7)], f"side=S frame=1 offset={welcome + reply} place=0 reason=Unasked"),
                ([*HEADS, asked(1), asked(2), answered(2)],
                 f"side=S frame=1 offset={welcome + reply} place=0 reason=XidOrder expected=1 got=2"),
                (HEADS[::-1], f"side=S frame=0 offset={welcome} place=0 reason=Unasked")):
            for size in (1448, 16_000, 37):
                for words in ((), IN_ORDER):
                    told = self.refusals(wire.pcap(packed(wire.conversation(pieces, size))), *words)
                    yield [*told.values()] == [[wanted]], f"{size} bytes a segment, {words}: {told}, not {wanted}"

    def test_a_reply_that_was_held_back(self):
        """The request 2 isn't captured, and the last segment of reply 1, which has reply 2 after it and says that the
        server has more, comes before the one in the middle: TCP holds it back, and nothing is refused."""
        short = piece(zkr.SERVER, "00000002 0000000000000005 ffffff9b")
        parts = [answered(1).data[:2896], answered(1).data[2896:] + short.data]
        pieces = [*HEADS, asked(1), zkr.Piece(zkr.SERVER, 0, parts[0]), asked(2), zkr.Piece(zkr.SERVER, 0, parts[1])]
        sent = list(wire.conversation(pieces))
        first, middle, lost, last = range(6, 10)
        kept = [*sent[:middle], sent[last], sent[middle], *sent[last + 1:]]
        sides = b"".join(sent[at].side for at in (first, middle, lost, last))
        yield sides == b"SSCS", f"the segments are others: {sides}"
        for words in ((), IN_ORDER):
            found = self.plugin.frames(wire.pcap(packed(kept)), *words)
            yield found and not any(each["refused"] for each in found), f"{words}: refused"

    def test_refusals_of_mutated_recordings(self):
        """Each recording with a wrong byte that zkdump refuses, in segments as they come, is first refused with its
        words."""
        chance, cases = random.Random(85), []
        while len(cases) < 150:
            pieces = mutated(WHOLE[len(cases) % len(WHOLE)], chance)
            ending = ending_of(pieces)
            if ending.startswith(". refused") and not ending.endswith(NO_REFUSAL):
                cases.append((pieces, ending.partition(" refused ")[2]))
        told = self.refusals(joined(list(wire.conversation(pieces)) for pieces, _ in cases))
        for at, (_, wanted) in enumerate(cases):
            yield told[40_000 + at][:1] == [wanted], f"mutant {at}: {told[40_000 + at]}, not {wanted}"

    def test_what_follows_a_refusal(self):
        """It is judged, as of a connection that is seen late; the refused message is noted as passed over, and its reply
        isn't judged. After a length that no frame has, and a server that speaks first, nothing is judged."""
        pieces = [*HEADS, *(piece(side.encode(), digits) for side, digits, _ in expectations.RESUMED)]
        for words in ((), ("-2",)):
            found = self.plugin.frames(capture_of(pieces), *words)
            for (*_, fields), each in zip(expectations.RESUMED, found[2:]):
                names = {*fields, "line", "refused", "passed_over", "malformed"}
                shown = {name: each[name] for name in sorted(names) if each[name]}
                yield shown == {name: [fields[name]] for name in sorted(fields)}, f"{words}: {shown}, not {fields}"
            yield len(found) == len(pieces), f"{words}: {len(found)} messages of {len(pieces)}"
        told = self.refusals(capture_of(pieces))
        yield [*told.values()] == [expectations.REFUSED_TWICE], f"{told}, not {expectations.REFUSED_TWICE}"
        for pieces in ([*HEADS, zkr.Piece(zkr.CLIENT, 0, b"\xff" * 4), asked(1), answered(1)], [*HEADS[::-1], asked(1)]):
            found = self.plugin.frames(capture_of(pieces), "-2")
            yield not any(each["passed_over"] for each in found), "a refusal after which nothing is judged"
            yield found and {*found[-1]["verdict"]} <= {"2"}, f"the last verdict is {found[-1]['verdict']}"

    def test_connect_is_a_pair(self):
        """It takes the milliseconds between its packets, in a row of its own, on either pass, and whichever of the two
        was captured first; a connection without a response has none."""
        sent = list(wire.conversation(HEADS))
        begun, welcome = (next(at for at, each in enumerate(sent) if each.data and each.side == side)
                          for side in (zkr.CLIENT, zkr.SERVER))
        for words in ((), ("-2",)):
            request, response = self.plugin.frames(wire.pcap(packed(sent)), *words)
            took = f"{(sent[welcome].milliseconds - sent[begun].milliseconds) / 1000:.9f}"
            found = response["response_to"], response["response_time"], response["op"], request["op"]
            yield found == ([str(begun + 1)], [took], [], []), f"{words}: {found}"
            yield request["response_in"] == ([str(welcome + 1)] if words else []), f"{words}: {request['response_in']}"
        times = self.plugin.read(wire.pcap(packed(sent)), "-q", "-z", "zookeeper,srt")
        rows = re.findall(r"^ +-?\d+ +(\w+) +(\d+) .* ([\d.]+)$", times, re.M)
        yield rows == [("connect", "1", took[:8])], f"{rows}"
        alone, = self.plugin.frames(wire.pcap(packed(sent[:welcome])), "-2")
        yield not alone["response_in"], f"{alone['response_in']}"
        exchanged = [*sent[:begun], sent[welcome], sent[begun], *sent[welcome + 1:]]
        found = [(each["kind"], each["response_in"], each["response_to"]) for each in
                 self.plugin.frames(wire.pcap(packed(exchanged)), "-2", "-o", "tcp.analyze_sequence_numbers:FALSE")]
        yield found == [(["3"], [], [str(begun + 2)]), (["1"], [str(begun + 1)], [])], f"{found}"

    def test_a_multi_with_parts_of_later_releases(self):
        """It is noted as that, and is neither refused nor malformed; nor is its reply, or what follows. Its first part
        is read. A part that no release has is refused as before."""
        first = "0000000d 00 ffffffff 00000002 2f61 00000003"       # check /a
        last = "ffffffff 01 ffffffff"
        for later in (LATER, 9999):
            part = f"{later:08x} 00 ffffffff 00000002 2f62 00000000 00000000 00000005 0000000000000064"
            reply = (f"00000001 0000000000000005 00000000 0000000d 00 00000000 {later:08x} 00 00000000 00000002 2f62 "
                     f"{last}")
            pieces = [*HEADS, piece(zkr.CLIENT, f"00000001 0000000e {first} {part} {last}"), piece(zkr.SERVER, reply),
                      asked(2), piece(zkr.SERVER, "00000002 0000000000000005 ffffff9b")]
            found = self.plugin.frames(capture_of(pieces))
            wrong = [each["packet"] for each in found if each["refused"] or each["malformed"]]
            noted = [bool(each["newer"]) for each in found]
            if later == LATER:
                yield not wrong and noted == [False, False, True, True, False, False], f"{wrong}, {noted}"
                yield found[2]["path"] == ["/a"] and found[2]["part.op"] == ["13"], f"{found[2]['path']}"
            else:
                yield wrong == [found[2]["packet"]] and not any(noted), f"no release's: {wrong}, {noted}"
            pairs = [(each["packet"], reply["response_to"]) for each, reply in zip(found[2::2], found[3::2])]
            yield all([str(packet)] == to for packet, to in pairs), f"{pairs}"

    def test_data_as_text(self):
        """Printable UTF-8, with tabs and line ends, is shown as text; its bytes stay a field."""
        for data, shown in ((b"a 1", '"a 1"'), ("\u00e9\u4e2d\n\t".encode(), '"\u00e9\u4e2d\\n\\t"'), (b"a\0", None),
                            (b"a\x01", None), (b"\xff", None), (b"\xe4\xb8", None), (b"", None),
                            (b"x" * 300, f'"{"x" * 160}"..'), (b"x" * 160, f'"{"x" * 160}"'),
                            (b"x" * 159 + "\u4e2d".encode(), f'"{"x" * 159}"..')):
            text = f"00000001 00000005 00000002 2f61 {len(data):08x} {data.hex()} ffffffff"
            capture = capture_of([*HEADS, piece(zkr.CLIENT, text)])
            *_, found = self.plugin.frames(capture)
            told = re.findall(r"^ +Data: (.*)$", self.plugin.read(capture, "-V", "-O", "zookeeper"), re.M)
            wanted = [re.sub(r"\s", " ", data.decode())] if shown else []     # as an attribute of XML has it
            yield found["data"] == [":".join(f"{byte:02x}" for byte in data)] or not data, f"{data}: {found['data']}"
            yield found["data.text"] == wanted, f"{data}: {found['data.text']}"
            yield [each for each in told if each[0] == '"'] == ([shown] if shown else []), f"{data}: {told}"

    def test_flags_and_permissions_as_bits(self):
        """Each bit is a field; the modes of later releases are numbers, and no bits."""
        names = {0: "PERSISTENT", 1: "EPHEMERAL", 2: "PERSISTENT_SEQUENTIAL", 3: "EPHEMERAL_SEQUENTIAL", 4: "CONTAINER",
                 5: "PERSISTENT_WITH_TTL", 6: "PERSISTENT_SEQUENTIAL_WITH_TTL", 7: None, -1: None}
        bits = {"read": 1, "write": 2, "create": 4, "delete": 8, "admin": 16}
        for flags, name in names.items():
            perms = (flags + 1) * 5 % 32
            text = (f"00000001 00000001 00000002 2f61 00000000 00000001 {perms:08x} 00000005 776f726c64 00000006 "
                    "616e796f6e65")
            capture = capture_of([*HEADS, piece(zkr.CLIENT, f"{text} {flags & 0xffffffff:08x}")])
            *_, found = self.plugin.frames(capture)
            shown = [found[f"flags.{each}"] for each in ("ephemeral", "sequential")]
            wanted = [[str(flags & 1)], [str(flags >> 1)]] if 0 <= flags <= 3 else [[], []]
            yield (found["flags"], shown) == ([str(flags)], wanted), f"{flags}: {found['flags']}, {shown}"
            shown = {each: found[f"acl.perms.{each}"] for each in bits}
            yield shown == {each: [str(int(bool(perms & bit)))] for each, bit in bits.items()}, f"{perms}: {shown}"
            told = self.plugin.read(capture, "-V", "-O", "zookeeper")
            words = ", ".join(each.upper() for each, bit in bits.items() if perms & bit)
            line = f"{perms} ({words})" if words else f"{perms}"
            yield re.findall(r"^ +Permissions: (.*)$", told, re.M) == [line], told
            yield not name or f"Flags: {name} ({flags})\n" in told, told
