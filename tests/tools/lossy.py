"""Made conversations of today's clients, of which packets were not captured, and what may be said of them.

A Talk knows which messages were sent, which reply is to which request, and of which packets each consists. A Loss says
which bytes were captured. A Check holds what pcap2zkr.py makes of the capture against these two: its `faults` say what
is wrong.
"""

import collections
import struct

from . import wire
from .support import pieces, zkr

CLIENT, SERVER = zkr.CLIENT, zkr.SERVER
PING, AUTH, SET_WATCHES, EVENT = (number.to_bytes(4, "big", signed=True) for number in (-2, -4, -8, -1))
LANES = (PING, AUTH, SET_WATCHES)
STAT = struct.Struct(">qqqqiiiqiiq")
OPEN_ACL = struct.pack(">ii", 1, 31) + b"\0\0\0\5world\0\0\0\6anyone"
MADE_UP = {CLIENT: bytes((0, 0, 0, 28)) + b"\xff" * 28, SERVER: bytes((0, 0, 0, 20)) + b"\xff" * 20}


def buffer(data):
    return len(data).to_bytes(4, "big") + data


class Message:
    """A message that was sent: its number among all of the conversation, its side, and its frame; `of` is the request
    of a reply. `begin` and `end` are its places among its side's bytes."""

    def __init__(self, number, side, payload, of=None):
        self.number, self.side, self.data, self.of, self.reply = number, side, buffer(payload), of, None
        self.begin = self.end = 0

    def lane(self):
        return self.data[4:8] if self.data[4:8] in LANES else None


class Talk:
    """A random conversation: `messages` in the order in which they were sent."""

    def __init__(self, chance, count, depth):
        self.chance, self.messages, self.xid, self.zxid = chance, [], 0, 1 << 32 | chance.randrange(1, 1 << 20)
        self.session = chance.randrange(1, 1 << 63)
        self.overtaking, self.pings = chance.random() < 0.3, chance.choice([0, 0.05, 0.3, 0.9])
        self.events, self.silent = chance.choice([0, 0.05]), chance.random() < 0.2
        self.connect(count, depth)
        waiting = [each for each in self.messages if each.of is None and each.side == CLIENT and not each.reply]
        waiting = [each for each in waiting if each.number and not each.reply]
        while len(self.messages) < count or waiting and not (self.silent and chance.random() < 0.05):
            if chance.random() < self.events:
                self.event()
            elif len(self.messages) < count and len(waiting) < depth and (not waiting or chance.random() < 0.6):
                waiting.append(self.request())
            elif waiting:
                self.answer(waiting)
        if not waiting and chance.random() < 0.5:
            self.answer([self.say(CLIENT, self.header(-11))])

    def connect(self, count, depth):
        """The connect messages; some clients send requests at once, after their connect request."""
        begun = self.say(CLIENT, struct.pack(">iqiqi", 0, 0, 30_000, 0, 16) + bytes(16 + self.chance.choice([0, 1])))
        for _ in range(self.chance.choice([0, 0, 1, 2, 5]) if depth > 1 else 0):
            self.request()
        self.say(SERVER, struct.pack(">iiqi", 0, 30_000, self.session, 16) + self.chance.randbytes(16) + b"\0", begun)

    def say(self, side, payload, of=None):
        made = Message(len(self.messages), side, payload, of)
        if of is not None:
            of.reply = made
        self.messages.append(made)
        return made

    def header(self, kind):
        self.xid += 1
        return struct.pack(">ii", self.xid, kind)

    def path(self):
        return buffer(b"/p" * self.chance.choice([1, 3, 20]) + b"/%06d" % len(self.messages))

    def request(self):
        chance = self.chance
        if chance.random() < self.pings:
            return self.say(CLIENT, PING + struct.pack(">i", 11))
        if chance.random() < 0.03:
            return self.say(CLIENT, AUTH + struct.pack(">ii", 100, 0) + buffer(b"digest") + buffer(b"u:%d" % self.xid))
        if chance.random() < 0.03:
            sets = [buffer(b""), b"\0\0\0\1" + self.path(), bytes(4)]
            kind = chance.choice([101, 105])
            return self.say(CLIENT, SET_WATCHES + struct.pack(">iq", kind, self.zxid) + bytes(4) + sets[1] + bytes(4)
                            + (bytes(4) + sets[1]) * (kind == 105))
        kind = chance.choice([1, 2, 3, 3, 4, 4, 5, 6, 8, 9, 12, 14, 15, 18, 19, 21, 22, 102, 103, 104, 106, 107])
        data = chance.randbytes(chance.choice([0, 1, 40, 900]))
        create = self.path() + buffer(data) + OPEN_ACL + bytes(4)
        body = {1: create, 15: create, 19: create, 21: create + bytes(8), 2: self.path() + b"\xff\xff\xff\xff",
                3: self.path() + b"\1", 4: self.path() + b"\0", 8: self.path() + b"\0", 12: self.path() + b"\1",
                5: self.path() + buffer(data) + bytes(4), 6: self.path(), 9: self.path(), 103: self.path(),
                104: self.path(), 18: self.path() + struct.pack(">i", 3), 106: self.path() + bytes(4), 107: b"",
                102: buffer(data + b"token"),
                14: struct.pack(">i?i", 1, False, -1) + create + struct.pack(">i?i", -1, True, -1),
                22: struct.pack(">i?i", 4, False, -1) + self.path() + b"\0" + struct.pack(">i?i", -1, True, -1)}[kind]
        return self.say(CLIENT, self.header(kind) + body)

    def answer(self, waiting):
        """The reply to the oldest request that waits: or, of some servers, to that of another lane."""
        lanes = {}
        for each in waiting:
            lanes.setdefault(each.lane(), each)
        asked = waiting[0]
        if self.overtaking and asked.lane() is None:
            asked = self.chance.choice([each for each in lanes.values()])
            # No ping waits longer than an ordinary request that was asked after it.
            if asked.lane() is None:
                asked = waiting[0]
        waiting.remove(asked)
        self.zxid += 1
        head = asked.data[4:8] + self.zxid.to_bytes(8, "big")
        kind = int.from_bytes(asked.data[8:12], "big", signed=True)
        if asked.lane() or kind in (2, -11, 106, 18):
            return self.say(SERVER, head + bytes(4), asked)
        if kind not in (14, 22, 102) and self.chance.random() < 0.2:
            return self.say(SERVER, head + struct.pack(">i", -101), asked)
        stat = STAT.pack(self.zxid - 1, self.zxid, 1_700_000_000_000, 1_700_000_000_001, 1, 0, 0, 0, 4, 0, self.zxid)
        data, path = self.chance.randbytes(self.chance.choice([0, 1, 40, 900])), self.path()
        names = struct.pack(">i", 2) + buffer(b"n%d" % self.zxid) + buffer(b"m")
        end = struct.pack(">i?i", -1, True, -1)
        body = {1: path, 9: path, 15: path + stat, 19: path + stat, 21: path + stat, 3: stat, 5: stat,
                4: buffer(data) + stat, 6: OPEN_ACL + stat, 8: names, 12: names + stat, 103: names,
                104: struct.pack(">i", 7),
                14: struct.pack(">i?i", 1, False, 0) + path + end,
                22: struct.pack(">i?i", 4, False, 0) + buffer(data) + stat + end,
                102: buffer(data), 107: struct.pack(">i", 1) + buffer(b"world") + buffer(b"anyone")}[kind]
        return self.say(SERVER, head + bytes(4) + body, asked)

    def event(self):
        path = buffer(b"/w/%06d" % len(self.messages))
        return self.say(SERVER, EVENT + struct.pack(">qiii", -1, 0, self.chance.choice([1, 2, 3, 4]), 3) + path)

    def segments(self, begun=wire.BEGUN):
        """The segments: a message each, or several of one side together, or cut anywhere. Clients acknowledge at once
        or later, some with segments of their own, and the connection ends or not."""
        chance, places = self.chance, {CLIENT: 0, SERVER: 0}
        joins, most = chance.random() < 0.5, chance.choice([1448, 1448, 300, 60])
        said = []
        for each in self.messages:
            each.begin, each.end = places[each.side], places[each.side] + len(each.data)
            places[each.side] = each.end
            if said and joins and said[-1].side == each.side and chance.random() < 0.6:
                said[-1] = said[-1]._replace(data=said[-1].data + each.data)
            else:
                said.append(zkr.Piece(each.side, None, each.data))
        self.numbers = chance.choice([1000, (1 << 32) - 500]), chance.choice([2000, (1 << 32) - 700])
        ends = chance.choice(["fin", "fin", "open", "reset", "half"])
        sent = list(wire.conversation(said, most, self.numbers, ends == "fin"))
        late, made, now = chance.choice([0, 0.5]), [], begun
        acknowledged = self.numbers[1] + 1
        for at, each in enumerate(sent):
            now += chance.choice([1, 1, 1, 3])
            if each.side == CLIENT and each.flags == wire.PUSH | wire.ACK:
                acknowledged = each.acknowledged if chance.random() >= late else acknowledged
                each = each._replace(acknowledged=max(acknowledged, self.numbers[1] + 1))
            made.append(each._replace(milliseconds=float(now)))
            if each.side == SERVER and at > 3 and chance.random() < 0.2:
                acknowledged = each.number + len(each.data)
                now += 1
                made.append(wire.Sent(float(now), CLIENT, each.acknowledged, acknowledged, wire.ACK, b""))
        if ends in ("reset", "half"):
            side = chance.choice([CLIENT, SERVER])
            own = [each for each in sent if each.side == side][-1]
            other = [each for each in sent if each.side != side][-1]
            made.append(wire.Sent(float(now + 1), side, own.number + len(own.data), other.number + len(other.data),
                                  (wire.RST if ends == "reset" else wire.FIN) | wire.ACK, b""))
        return made


class Loss:
    """Which segments of a Talk were captured: `captured`, by their numbers among `sent`."""

    def __init__(self, talk, sent, captured):
        self.talk, self.sent, self.captured = talk, sent, captured
        self.first = dict(zip((CLIENT, SERVER), (number + 1 for number in talk.numbers)))
        self.spans = {CLIENT: [], SERVER: []}
        self.ends_of_packets = {CLIENT: [], SERVER: []}
        for at in sorted(captured):
            each = sent[at]
            if each.data:
                begin = each.number - self.first[each.side]
                self.spans[each.side].append((begin, begin + len(each.data)))
        self.size = {side: sum(end - begin for begin, end in spans) for side, spans in self.spans.items()}

    def begins(self):
        """Whether a SYN was captured before anything else that shows the connection; None where nothing shows it."""
        for at in sorted(self.captured):
            each = self.sent[at]
            if each.flags & wire.SYN or each.data:
                return bool(each.flags & wire.SYN)
        return None

    def has(self, message):
        """Whether each byte of a message was captured."""
        at = message.begin
        for begin, end in self.spans[message.side]:
            if begin <= at < end:
                at = end
        return at >= message.end

    def shows(self, message):
        """Whether the capture shows that the server sent more than the beginning of this reply, by what it acknowledged
        or by a later number; so that its missing bytes are known to be missing."""
        last = message.end - 2 + self.first[SERVER]
        for each in map(self.sent.__getitem__, self.captured):
            if each.side == SERVER and not each.flags & wire.SYN and each.number + len(each.data) > last \
                    or each.side == CLIENT and each.flags & wire.ACK and each.acknowledged > last:
                return True
        return False


def cut(recording):
    """The frames of a recording, each its side, its bytes and the number of its piece; and what is left of a side."""
    held, found = {CLIENT: b"", SERVER: b""}, []
    for number, piece in enumerate(pieces(recording)):
        data = held[piece.side] + piece.data
        while len(data) >= 4 and len(data) >= 4 + int.from_bytes(data[:4], "big"):
            size = 4 + int.from_bytes(data[:4], "big")
            found.append((piece.side, data[:size], number))
            data = data[size:]
        held[piece.side] = data
    return found, held


class Check:
    """What is wrong with the recordings that were made of a connection: `faults`. `made` has of each its bytes, its
    times and its facts, in the order of its parts, and `lines` are those that were printed."""

    def __init__(self, loss, made, lines):
        self.loss, self.talk, self.made, self.lines, self.faults = loss, loss.talk, made, lines, []
        self.used, self.by_data = set(), {}
        self.answered, self.flagged = set(), set()
        for each in self.talk.messages:
            self.by_data.setdefault((each.side, each.data), []).append(each)
        self.left = {CLIENT: 0, SERVER: 0}
        for recording, times, known in made:
            self.recording(recording, times, known)
        self.whole()
        self.counted()

    def fault(self, *words):
        self.faults.append(" ".join(map(str, words)))

    def at_time(self, side, moment):
        """The numbers of messages of this side that end in the packet of this time."""
        found = set()
        for each in self.loss.sent:
            if each.side == side and each.data and each.milliseconds == moment:
                begin = each.number - self.loss.first[side]
                found |= {message.number for message in self.talk.messages
                          if message.side == side and begin < message.end <= begin + len(each.data)}
        return found

    def message(self, side, data, moment):
        """The message that was sent, or None."""
        found = [each for each in self.by_data.get((side, data), ()) if each.number not in self.used]
        if len(found) > 1:
            near = self.at_time(side, moment)
            found = [each for each in found if each.number in near] or found
        if not found:
            return None
        self.used.add(found[0].number)
        return found[0]

    def recording(self, recording, times, known):
        frames, held = cut(recording)
        made_up = [frames.pop(0)[1] for _ in range(2)] if known.part > 1 or frames and frames[0][1] == MADE_UP[CLIENT] \
            else None
        if made_up and made_up != [MADE_UP[CLIENT], MADE_UP[SERVER]]:
            self.fault("part", known.part, "begins with", made_up)
        said, lanes, seen = {CLIENT: 0, SERVER: 0}, {lane: collections.deque() for lane in (*LANES, None)}, {}
        connect = None
        for side, data, number in frames:
            message = self.message(side, data, times[number])
            if not message:
                self.fault("part", known.part, side, "was not sent:", data[:40].hex(" ", 4), "at", times[number])
                continue
            if not self.loss.has(message):
                self.fault("message", message.number, "was not captured whole")
            if side in seen and seen[side] >= message.number:
                self.fault("message", message.number, "comes after message", seen[side])
            seen[side] = message.number
            said[side] += 1
            if message.number == 0 or message.of and message.of.number == 0:
                if made_up or said[side] > 1:
                    self.fault("the connect message", message.number, "is not the first one")
                if side == CLIENT:
                    connect = message
                elif not connect:
                    self.fault("a connect response comes before its request")
                else:
                    self.answered.add(0)
                    connect = None
            elif not made_up and said[side] == 1:
                self.fault("message", message.number, "is in the place of a connect message")
            elif side == CLIENT:
                lanes[message.lane()].append(message)
            elif message.of:
                lane = lanes[message.of.lane()]
                asked = lane.popleft() if lane else None
                if asked is not message.of and not (asked and message.of.lane() and self.are_alike(asked, message.of)):
                    self.fault("reply", message.number, "to", message.of.number, "is paired with",
                               asked and asked.number, "in part", known.part)
                elif asked:
                    self.answered.add(message.of.number)
        for side in (CLIENT, SERVER):
            self.left[side] += len(held[side])
            if made_up and held[side]:
                self.fault("part", known.part, "is cut", side)
        if not known.loses_replies():
            for each in [*([connect] if connect else []), *(each for lane in lanes.values() for each in lane)]:
                self.unanswered(each, known)
        else:
            self.flagged.update(each.number for lane in lanes.values() for each in lane)

    def are_alike(self, one, other):
        """Whether two pings ended in one packet, which can't be told apart."""
        return one.data == other.data and any(
            {one.number, other.number} <= self.at_time(CLIENT, each.milliseconds) for each in self.loss.sent
            if each.side == CLIENT and each.data)

    def unanswered(self, asked, known):
        reply = asked.reply
        if reply and self.loss.has(reply):
            self.fault("request", asked.number, "counts as unanswered in part", known.part, "and its reply was "
                       "captured")
        elif reply and self.loss.shows(reply):
            self.fault("request", asked.number, "counts as unanswered in part", known.part, "and its reply is known to "
                       "be lost")

    def whole(self):
        """Every request whose reply was captured whole is answered, or one of the two is counted as left out."""
        for each in self.talk.messages:
            if each.of is None and each.side == CLIENT and each.reply and self.loss.has(each) \
                    and self.loss.has(each.reply) and each.number not in self.answered \
                    and each.reply.number in self.used:
                self.fault("reply", each.reply.number, "is there, and its request", each.number, "is not answered")

    def counted(self):
        """What was captured is in a recording, or counted as left out."""
        written = {side: sum(len(piece.data) for recording, *_ in self.made for piece in pieces(recording)
                             if piece.side == side) for side in (CLIENT, SERVER)}
        later = sum(cut(recording)[0][:1] == [(CLIENT, MADE_UP[CLIENT], 0)] for recording, *_ in self.made)
        skipped, unasked = {CLIENT: 0, SERVER: 0}, 0
        for line in self.lines:
            for word in line.split()[12:]:
                name, _, value = word.partition("=")
                if name == "skipped":
                    for each in value.split(","):
                        skipped[each[:1].encode()] += int(each[2:])
                elif name == "unasked":
                    unasked += int(value)
        left = {side: self.loss.size[side] - (written[side] - later * len(MADE_UP[side])) - skipped[side]
                for side in (CLIENT, SERVER)}
        if left[CLIENT]:
            self.fault(left[CLIENT], "bytes of the client are not accounted for", written, skipped)
        sizes = sorted(len(each.data) for each in self.talk.messages if each.side == SERVER and self.loss.has(each)
                       and each.number not in self.used)
        if len(sizes) < unasked or not sum(sizes[:unasked]) <= left[SERVER] <= sum(sizes[len(sizes) - unasked:]):
            self.fault(left[SERVER], "bytes of the server are not accounted for by", unasked, "replies of", sizes,
                       written, skipped)
