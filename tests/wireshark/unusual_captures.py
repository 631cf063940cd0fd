"""Tests of the plugin for Wireshark over captures that are legal but odd: lengths, packets that were cut, numbers."""

import re
import struct

from .installed_plugin import capture_of, packed, wire, zkr
from .. import unknown_operations
from . import expectations

HEADS = [zkr.Piece(side.encode(), 0, len(data := bytes.fromhex(digits)).to_bytes(4, "big") + data)
         for side, digits in expectations.CONNECTS]


def piece(side, digits, length=None):
    """A frame of this payload, with its own length or with another one."""
    data = bytes.fromhex(digits)
    return zkr.Piece(side, 0, struct.pack(">i", len(data) if length is None else length) + data)


class Odd:
    """Each test_ gives pairs: whether it is as it should be, and what to print otherwise."""

    def test_negative_lengths(self):
        """They are no payload's, also where the greatest payload is the greatest number of the preference."""
        text = "00000001 00000003 70000000 2f61 01"  # of which far more bytes are claimed than there are
        for limit in (4194304, 2**31 - 1, 2**32 - 1):
            for length in (-1, -2**31):
                capture = capture_of([*HEADS, piece(zkr.CLIENT, text, length)])
                found = self.plugin.frames(capture, "-o", f"zookeeper.limit:{limit}")
                trouble = self.plugin.trouble()
                shown = [(each["length"], each["kind"]) for each in found[2:3]]
                yield not trouble and shown == [([str(length)], [])], f"{length}, limit {limit}: {shown}, {trouble}"

    def test_what_is_no_message_is_not_counted(self):
        """Of a connect request, its response, and a length that no payload has, two are messages."""
        capture = capture_of([*HEADS, piece(zkr.CLIENT, "00000001", -1)])
        counts = re.findall(r"^Messages +(\d+) ", self.plugin.read(capture, "-q", "-z", "zookeeper,tree"), re.M)
        yield counts == ["2"], f"{counts}"

    def test_letters_within_a_message(self):
        """Where a capture begins within a data of letters, the messages after it are shown."""
        text = "00000001 00000005 00000002 2f61 00001000" + "61" * 4096 + "ffffffff"
        pieces = [*HEADS, piece(zkr.CLIENT, text), piece(zkr.SERVER, "00000001 0000000000000005 ffffff9b")]
        for xid in range(2, 6):
            pieces += (piece(zkr.CLIENT, f"{xid:08x} 00000003 00000002 2f61 01"),
                       piece(zkr.SERVER, f"{xid:08x} 0000000000000005 ffffff9b"))
        sent = list(wire.conversation(pieces))
        first = next(at for at, each in enumerate(sent) if each.data[:4] == b"aaaa")
        for begin in (sent[first:], sent[:3] + sent[first:]):  # without its SYNs, and with these
            found = self.plugin.frames(wire.pcap(packed(begin)), "-2")
            lost = {2, 3, 4, 5} - {int(each["xid"][0]) for each in found if each["kind"] == ["2"]}
            words = sum(1 for each in found if each["four_letters"])
            yield not lost and not words, f"requests {sorted(lost)} are not shown, {words} words of four letters"
        word = list(wire.conversation([zkr.Piece(zkr.CLIENT, 0, b"ruok\n"), zkr.Piece(zkr.SERVER, 0, b"imok")]))
        for begin in (word, word[3:]):
            found = [each["four_letters"][0].strip() for each in self.plugin.frames(wire.pcap(packed(begin)))]
            yield found == ["ruok", "imok"], f"{found}"

    def test_frames_within_a_data(self):
        """Where a capture begins, without its SYN, in a client's data that has replies, the sides aren't exchanged, also
        where a segment begins with these: the port is a server's, or messages come that say otherwise."""
        replies = "00000010 00000001 0000000000000005 00000000" * 3
        for before, port in ((2000, 2181), (1426, 2181), (2000, 9999), (1426, 9999)):  # 1448 bytes begin with 22 others
            data = "61" * before + replies + "61" * (2244 - before)
            pieces = [*HEADS, piece(zkr.CLIENT, f"00000001 00000005 00000002 2f61 00000900 {data} ffffffff"),
                      piece(zkr.SERVER, "00000001 0000000000000005 ffffff9b")]
            for xid in range(2, 6):
                pieces += (piece(zkr.CLIENT, f"{xid:08x} 00000003 00000002 2f61 01"),
                           piece(zkr.SERVER, f"{xid:08x} 0000000000000005 ffffff9b"))
            sent = list(wire.conversation(pieces))
            first = next(at for at, each in enumerate(sent) if bytes.fromhex(replies) in each.data)
            capture = wire.pcap(packed(sent[first:], server=port))
            found = self.plugin.frames(capture, "-2", "-d", f"tcp.port=={port},zookeeper")
            wrong = [each["packet"] for each in found if each["kind"] == ["4"] and each["side"] == ["0"]]
            shown = [(each["side"], each["xid"]) for each in found[-8:]]
            yield shown == [([side], [str(xid)]) for xid in range(2, 6) for side in "01"], f"{before}, {port}: {shown}"
            yield port != 2181 or not wrong, f"{before}, {port}: replies of the client in {wrong}"

    def test_secrets_that_are_not_read_are_hidden(self):
        """A credential after a fault, as of an auth under another xid, the front of one that was cut, and SASL's, also
        where the request was lost. Another reply whose request was lost is shown, a path too."""
        secret, password = "736563726574", "000102030405060708090a0b0c0d0e0f"
        auth = f"00000064 00000000 00000006 646967657374 0000000c {secret * 2}"
        welcome = "00000000 00007530 0100000000000001 00000010" + password
        pieces = [HEADS[0], piece(zkr.SERVER, welcome), piece(zkr.CLIENT, "00000001" + auth)]
        cut = [HEADS[0], piece(zkr.SERVER, welcome), piece(zkr.CLIENT, "fffffffc" + auth)]
        token = f"0000000c {secret * 2}"
        sasl = [HEADS[0], HEADS[1], piece(zkr.CLIENT, f"00000001 00000066 {token}"),
                piece(zkr.SERVER, f"00000001 0000000000000005 00000000 {token}")]
        sent = [list(wire.conversation(given)) for given in (pieces, cut, sasl)]
        alone = sent[2][:5] + sent[2][6:]
        for given, snap in ((sent[0], 65535), (sent[1], 54 + 36), (sent[2], 65535), (alone, 65535), (alone, 54 + 33)):
            capture = wire.pcap(packed(given), snap=snap)  # 54 bytes before TCP's data
            for hide in (True, False):
                found = [value.replace(":", "") for each in self.plugin.frames(capture, hide=hide)
                         for name, values in each.items() if name not in ("packet", "frame") for value in values]
                leaks = [value for value in found if secret in value or password[:24] in value]
                yield found and bool(leaks) != hide, f"hidden: {hide}, of packets of {snap} bytes: {leaks}"
        for body in ("00000003 2f6162", "00000002 00000002 6162 00000001 63", "00000002 6162" + "00" * 68):
            given = list(wire.conversation([*HEADS, piece(zkr.SERVER, f"00000001 0000000000000005 00000000 {body}")]))
            found = [value.replace(":", "") for each in self.plugin.frames(wire.pcap(packed(given)), hide=True)[2:]
                     for value in each["unread"]]
            yield found == [body.replace(" ", "")], f"hidden of a reply that is not SASL's: {body}, {found}"

    def test_a_stat_is_no_token(self):
        """A stat whose first zxid has the epoch 64 begins as a token of 64 bytes; of a token the second zxid isn't
        between the first one and that of the header."""
        for zxid, changed, of_children, hidden in ((0x40_0000_0009, 0x40_0000_0009, 0x40_0000_0005, False),
                                                   (0x40_0000_0009, 0x40_0000_000a, 0x40_0000_0005, True),
                                                   (0x41_0000_0009, 0x40_0000_0004, 0x40_0000_0005, True),
                                                   (0x41_0000_0009, 0x40_0000_0005, 0x41_0000_000a, True)):
            stat = f"0000004000000005 {changed:016x} {'00' * 44} {of_children:016x}"
            capture = capture_of([*HEADS, piece(zkr.SERVER, f"00000001 {zxid:016x} 00000000 {stat}")])
            found = [value.replace(":", "") for each in self.plugin.frames(capture, hide=True)[2:]
                     for value in each["unread"]]
            yield found == ([""] if hidden else [stat.replace(" ", "")]), f"{stat}: {found}"

    def test_credentials_in_lines(self):
        """A line's credential alone is hidden, whatever its scheme has; and nothing where the credential is null."""
        for digits, shown in (("00000001 41", "(hidden)"), ("00000000", "(hidden)"), ("ffffffff", "~")):
            scheme = b" auth=#41"
            auth = f"fffffffc 00000064 00000000 {len(scheme):08x} {scheme.hex()} {digits}"
            found = self.plugin.frames(capture_of([*HEADS, piece(zkr.CLIENT, auth)]), hide=True)
            lines = [line for each in found[2:] for line in each["line"]]
            yield lines == [f'C -4 auth kind=0 scheme=" auth=#41" auth={shown}'], f"{lines}"

    def test_zero_bytes_in_texts(self):
        """They are shown as in lines, and so are backslashes beside them; in other texts a backslash is itself."""
        def text(data):
            return struct.pack(">i", len(data)).hex() + data.hex()
        path, shown, stat = text(b"/a\0b\\c\0"), "/a\\00b\\5cc\\00", "00" * 68
        pieces = [piece(zkr.CLIENT, f"00000001 00000006 {path}"),
                  piece(zkr.SERVER, "00000001 0000000000000005 00000000 00000001 0000001f"
                                    f"{text(b'di' + bytes(1) + b'g')} {text(bytes(2))} {stat}"),
                  piece(zkr.CLIENT, f"00000002 00000008 {text(b'/a' + bytes([92]) + b'r')} 00"),
                  piece(zkr.SERVER, "00000002 0000000000000005 00000000 00000003"
                                    f"{text(b'x' + bytes(1) + b'y')} {text(b'q' + bytes([92]) + b'r')} {text(b'')}"),
                  piece(zkr.SERVER, f"ffffffff ffffffffffffffff 00000000 00000003 00000003 {path}"),
                  piece(zkr.CLIENT, f"00000003 0000000e 0000000d 00 ffffffff {path} 00000000 ffffffff 01 ffffffff")]
        capture = capture_of([*HEADS, *pieces])
        found = self.plugin.frames(capture, "-2")[2:]
        told = [(each["path"], each["scheme"], each["acl.id"], each["child"]) for each in found]
        wanted_of = [([shown], [], [], []), ([shown], ["di\\00g"], ["\\00\\00"], []), (["/a\\r"], [], [], []),
                     (["/a\\r"], [], [], ["x\\00y", "q\\r", ""]), ([shown], [], [], []), ([shown], [], [], [])]
        yield told == wanted_of, f"{told}"
        yield not any("stray" in self.plugin.read(capture, "-V", *words) for words in ((), ("-2",))), "stray characters"
        infos = self.plugin.read(capture, "-Y", "zookeeper.xid", "-T", "fields", "-e", "_ws.col.Info").splitlines()
        yield [info.rpartition(" ")[2] for info in infos] == [shown, shown, "/a\\r", "/a\\r", shown, "#3"], f"{infos}"
        tree = self.plugin.read(capture, "-V", "-O", "zookeeper", "-Y", "zookeeper.part.op")
        yield f"Part 1: check {shown}\n" in tree, tree[-900:]

    def ending_with_empty_texts(self):
        """A capture of a request, its reply and an event, each with an empty path at the end."""
        return capture_of([*HEADS, piece(zkr.CLIENT, "00000001 00000009 00000000"),
                           piece(zkr.SERVER, "00000001 0000000000000005 00000000 00000000"),
                           piece(zkr.SERVER, "ffffffff ffffffffffffffff 00000000 00000003 00000003 00000000")])

    def test_times_before_1970(self):
        """A node's times are longs, which may be negative."""
        stat = "0000000000000001 0000000000000002 {:016x} {:016x}" + "00000000" * 9
        for created, changed in ((-1, -86_400_000), (-1001, 1999), (0, 1_000), (-2**63, 2**63 - 1)):
            times = stat.format(created % 2**64, changed % 2**64)
            capture = capture_of([*HEADS, piece(zkr.CLIENT, "00000001 00000003 00000002 2f61 01"),
                                  piece(zkr.SERVER, f"00000001 0000000000000005 00000000 {times}")])
            for name, number in (("ctime", created), ("mtime", changed)):
                found = self.plugin.read(capture, "-T", "fields", "-e", f"zookeeper.stat.{name}", "-Y",
                                         f"zookeeper.stat.{name}").strip()
                seconds, part = divmod(number, 1000)
                year = "1969" if number < 0 else "1970"
                good = found and (abs(number) > 2**60 or year in found and f"{seconds % 60:02}.{part:03}" in found)
                yield good, f"{name} {number}: {found}"

    def test_headers_that_were_cut(self):
        """What isn't there of a header is named and counted as unknown, and not as 0."""
        sent = list(wire.conversation([*HEADS, piece(zkr.CLIENT, "00000001 00000003 00000002 2f61 01"),
                                       piece(zkr.SERVER, "00000001 0000000000000005 ffffff9b"),
                                       piece(zkr.SERVER, "ffffffff ffffffffffffffff 00000000 00000003 00000003 "
                                                         "00000002 2f61")]))
        asked, answer = ("request #1", "reply #1 ?"), {"Requests by operation": "?", "Replies by error": "?"}
        for there, infos, counts in (
                (4, ("request #?", "reply #? ?", "reply #? ?"), answer),
                (8, (*asked, "event ?"), {**answer, "Events by kind": "?"}),
                (12, ("exists #1", "exists #1 ?", "event ?"),
                 {"Requests by operation": "exists", "Replies by error": "?", "Events by kind": "?"}),
                (20, ("exists #1 /a", "exists #1 NONODE /a", "event ?"),
                 {"Requests by operation": "exists", "Replies by error": "NONODE", "Events by kind": "?"})):
            capture = wire.pcap(packed(sent), snap=54 + there)  # 54 bytes before TCP's data
            found = tuple(self.plugin.read(capture, "-Y", "zookeeper.side && frame.number > 5", "-T", "fields", "-e",
                                           "_ws.col.Info").splitlines())
            yield found == infos, f"{there} bytes: {found}"
            welcome = self.plugin.read(capture, "-Y", "frame.number == 5", "-T", "fields", "-e",
                                       "_ws.col.Info").strip()
            good = ("connected session" in welcome) if there == 20 else welcome == "connect response"
            yield good, f"{there} bytes: {welcome}"
            tree = self.plugin.read(capture, "-q", "-z", "zookeeper,tree")
            for name, row in counts.items():
                below = re.search(rf"^ {name} .*\n  (\S+) ", tree, re.M)
                yield below and below[1] == row, f"{there} bytes, {name}: {below and below[1]}"

    def test_times_of_operations_without_a_name(self):
        """Their response times are in the statistics, in a row of their own."""
        body = "00000002 2f61 01"
        pieces = [piece(zkr.CLIENT, f"{xid:08x} {op} {body}") for xid, op in ((1, unknown_operations.DIGITS), (2, "00000003"),
                                                                             (3, "000001f4"))]
        pieces += [piece(zkr.SERVER, f"{xid:08x} 0000000000000005 fffffffa") for xid in (1, 2, 3)]
        times = self.plugin.read(capture_of([*HEADS, *pieces]), "-q", "-z", "zookeeper,srt")
        found = re.findall(r"^ +-?\d+ +(\w+) +(\d+) .* ([\d.]+)$", times, re.M)
        yield found == [("connect", "1", "0.001000"), ("exists", "1", "0.003000"), ("others", "2", "0.006000")], f"{found}"

    def test_a_frame_far_in_a_segment(self):
        """After a loss, a frame is found that begins at byte 1,156 of a segment of 1,448 and goes on in the next ones.
        Of twelve frames of 2,026 bytes, the second segment has the end of the first and the front of the second."""
        text = "00000005 00000002 2f61 000007d0" + "62" * 2000 + "ffffffff"
        asked = b"".join(piece(zkr.CLIENT, f"{xid:08x} {text}").data for xid in range(1, 13))
        sent = list(wire.conversation([*HEADS, zkr.Piece(zkr.CLIENT, 0, asked)]))
        found = self.plugin.frames(wire.pcap(packed(sent[:6] + sent[7:])))
        shown = [int(each["xid"][0]) for each in found if each["kind"] == ["2"]]
        yield shown == list(range(3, 13)), f"{shown}"

    def test_what_waited_in_vain(self):
        """A request of 17 bytes with an empty path, of a capture that begins late, waits for more bytes. Before these
        come, a reply says that frames follow one another; then the request is one, and those after it wait on. Later
        passes get all in one packet, and show it there."""
        asked = "00000001 00000004 00000002 2f61 00", "00000002 00000003 00000000 00", \
            "00000003 00000005 00000002 2f61 00000800" + "61" * 2048 + "ffffffff"
        answers = [piece(zkr.SERVER, f"{xid:08x} 0000000000000005 ffffff9b") for xid in (1, 2, 3)]
        first, second, third = (piece(zkr.CLIENT, digits) for digits in asked)
        sent = list(wire.conversation([*HEADS, first, second, answers[0], third, *answers[1:]]))[5:-3]
        for words, packets in (((), (1, 4, 5)), (("-2",), (1, 5, 5))):
            found = self.plugin.frames(wire.pcap(packed(sent)), *words)
            shown = [(each["xid"], each["packet"]) for each in found if each["kind"] == ["2"]]
            links = [each["response_to"] for each in found if each["kind"] == ["4"]]
            wanted_of = [([str(at + 1)], packet) for at, packet in enumerate(packets)]
            yield shown == wanted_of and links == [[str(packet)] for packet in packets], f"{words}: {shown}, {links}"

    def test_what_waits_at_the_end(self):
        """What was shown before bytes that wait, with which it waited, is shown on later passes too, wherever the
        capture ends: of requests as above the third has 8,192 bytes of data, in six segments."""
        asked = "00000001 00000004 00000002 2f61 00", "00000002 00000003 00000000 00", \
            "00000003 00000005 00000002 2f61 00002000" + "61" * 8192 + "ffffffff"
        first, second, third = (piece(zkr.CLIENT, digits) for digits in asked)
        answer = piece(zkr.SERVER, "00000001 0000000000000005 ffffff9b")
        sent = list(wire.conversation([*HEADS, first, second, answer, third]))[5:-3]
        for end in range(2, len(sent) + 1):
            one, two = ([each["xid"] for each in self.plugin.frames(wire.pcap(packed(sent[:end])), *words)]
                        for words in ((), ("-2",)))
            wanted_of = [["1"], ["1"], ["2"], ["3"]][:{2: 1, 3: 2, len(sent): 4}.get(end, 3)]
            yield one == two == wanted_of, f"{end} packets: {one}, {two}"

    def test_replies_out_of_order(self):
        """Of each reply the oldest request before it that has no reply yet is noted, and nothing where there is none:
        of those to 3 and 2 that is 1. What was passed so is noted no more of later replies."""
        pieces = [piece(zkr.CLIENT, f"{xid:08x} 00000003 00000002 2f61 01") for xid in range(1, 6)]
        pieces += [piece(zkr.SERVER, f"{xid:08x} 0000000000000005 ffffff9b") for xid in (3, 2, 1, 5, 4)]
        found = self.plugin.frames(capture_of([*HEADS, *pieces]))
        noted = [(each["xid"], each["expected_xid"], len(each["order"])) for each in found if each["kind"] == ["4"]]
        yield noted == [(["3"], ["1"], 1), (["2"], ["1"], 1), (["1"], [], 0), (["5"], ["4"], 1), (["4"], [], 0)], noted

    def test_words_in_segments(self):
        """A word of four letters is one in whatever segments it comes; so is a connect request."""
        for cuts in ((1, 2, 3), (2,), (3, 4), (4,)):
            for data, shown in ((b"ruok\n", "four letters: ruok"), (HEADS[0].data, "connect")):
                parts = [zkr.Piece(zkr.CLIENT, 0, data[at:to]) for at, to in zip((0, *cuts), (*cuts, len(data)))]
                for words in ((), ("-2",)):
                    told = self.plugin.read(capture_of(parts), *words, "-Y", "zookeeper.side", "-T", "fields", "-e",
                                            "_ws.col.Info")
                    yield told.startswith(shown), f"{data[:5]}, cut at {cuts}: {told}"

    def test_a_capture_that_begins_in_disorder(self):
        """What comes before the first captured bytes of a side was not captured before. TCP's own analysis drops it."""
        pieces = [piece(zkr.CLIENT, f"{xid:08x} 00000003 00000002 2f61 01") for xid in range(1, 6)]
        sent = list(wire.conversation([*HEADS, *pieces]))[5:-3]
        found = self.plugin.frames(wire.pcap(packed([sent[at] for at in (2, 0, 1, 3, 4)])), "-o",
                                   "tcp.analyze_sequence_numbers:FALSE")
        shown = [each["xid"] for each in found if not each["again"]]
        yield shown == [["3"], ["1"], ["2"], ["4"], ["5"]], f"{shown}"

    def test_bytes_before_the_first_captured_ones(self):
        """In them no frame is known to begin, though later frames follow one another: the second and third segment of a
        frame of four come after its last one, and after a reply."""
        pieces = [piece(zkr.CLIENT, "00000001 00000005 00000002 2f61 00001388" + "61" * 5000 + "ffffffff")]
        for xid in range(1, 4):
            pieces += [piece(zkr.SERVER, f"{xid:08x} 0000000000000005 ffffff9b"),
                       piece(zkr.CLIENT, f"{xid + 1:08x} 00000003 00000002 2f61 01")]
        sent = list(wire.conversation([*HEADS, *pieces]))
        found = self.plugin.frames(wire.pcap(packed(sent[8:12] + sent[6:8] + sent[12:-3])), "-o",
                                   "tcp.analyze_sequence_numbers:FALSE")
        shown = [each["xid"] for each in found if each["length"]]
        yield shown == [["1"], ["2"], ["2"], ["3"], ["3"], ["4"]], f"{shown}"

    def test_more_than_two_gigabytes(self):
        """Of a capture that lacks most of a connection: the last bytes are 3 GB after the first, and captured twice."""
        pieces = [piece(zkr.CLIENT, f"{xid:08x} 00000003 00000002 2f61 01") for xid in range(1, 6)]
        sent = [each._replace(number=each.number + at // 2 * 1_500_000_000)
                for at, each in enumerate(list(wire.conversation([*HEADS, *pieces]))[5:-3])]
        found = self.plugin.frames(wire.pcap(packed([*sent, sent[-1]])), "-o", "tcp.analyze_sequence_numbers:FALSE")
        shown = [(each["xid"], len(each["again"])) for each in found]
        yield shown == [(["1"], 0), (["2"], 0), (["3"], 0), (["4"], 0), (["5"], 0), ([], 1)], f"{shown}"
