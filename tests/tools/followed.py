"""What zkwatch says of a connection that goes on after a refusal, counted from its bytes alone: a model for tests.

It knows a few faults: a path that isn't UTF-8, a boolean of exists that is none, a connect response that is too short, a
reply to nothing and one out of its turn. After such a frame both sides begin anew (include/zk.h, zk_through_resume).
"""

import collections
import struct
from typing import NamedTuple, Optional

from .reckoned import EVENT, OPERATIONS

LANES = (-2, -4, -8)
WITH_PATH = ("create", "delete", "exists", "getData", "setData", "getChildren", "getChildren2")
NAMES = {0: "", -8: " err=-8/BADARGUMENTS", -101: " err=-101/NONODE", -110: " err=-110/NODEEXISTS"}
LEAST_CONNECTED, LIMIT = 36, 16_777_216


class Told(NamedTuple):
    """A line: the time of its frame's last byte, how it begins, or all of it where it is `whole`, and how long its reply
    took."""
    moment: float
    text: str
    whole: bool = True
    took: Optional[float] = None


class Asked(NamedTuple):
    """A request that waits: its xid, its name, the time of its last byte, and why it is left out, if it is."""
    xid: int
    name: str
    moment: float
    lacks: Optional[str]


class Followed:
    """What is said of a connection. `lacking` has the numbers of operations that the profile lacks."""

    def __init__(self, lacking):
        self.lacking, self.held, self.told = lacking, {"C": b"", "S": b""}, []
        self.count, self.size = {"C": 0, "S": 0}, {"C": 0, "S": 0}
        self.is_over = False
        self.begin(late=False)

    def begin(self, late):
        self.late, self.matched, self.waiting = late, False, collections.defaultdict(list)

    def take(self, side, data, moment):
        """Takes bytes of a side, which came at this time."""
        self.held[side] += data
        while not self.is_over and len(self.held[side]) >= 4:
            length = int.from_bytes(self.held[side][:4], "big", signed=True)
            if not 0 <= length <= LIMIT:
                self.is_over = True
                self.say(moment, f". refused side={side} frame={self.count[side]} offset={self.size[side] + 4} place=0 "
                                 "reason=LengthRange")
            elif len(self.held[side]) < 4 + length:
                break
            else:
                payload, self.held[side] = self.held[side][4:4 + length], self.held[side][4 + length:]
                (self.ask if side == "C" else self.answer)(payload, moment)
                self.count[side] += 1
                self.size[side] += 4 + length

    def say(self, *told, **more):
        self.told.append(Told(*told, **more))

    def refuse(self, side, payload, moment, why):
        """Passes a frame over."""
        size = 4 + len(payload)
        self.say(moment, f"refused: side={side} frame={self.count[side]} offset={self.size[side] + size} {why}, "
                         f"{size} bytes passed over")
        self.begin(late=True)

    def leave_out(self, side, payload, moment, why, took=None):
        xid, = struct.unpack_from(">i", payload)
        self.say(moment, f"left out: {side} frame={self.count[side]} xid={xid} {why}, {len(payload)} bytes", took=took)

    def ask(self, payload, moment):
        if self.count["C"] == 0 and not self.late:
            self.waiting[None].append(Asked(None, "connect", moment, None))
            self.say(moment, "C connect", whole=False)
            return
        xid, number = struct.unpack_from(">ii", payload)
        name, lacks = OPERATIONS.get(number, str(number)), self.lacking.get(number)
        if name == "auth" and xid != -4:
            lacks = "auth under an ordinary xid"
        if fault := fault_of(name, payload):
            self.refuse("C", payload, moment, fault)
            return
        self.waiting[xid if xid in LANES else 0].append(Asked(xid, name, moment, lacks))
        if lacks:
            self.leave_out("C", payload, moment, lacks)
        else:
            self.say(moment, f"C {xid} {name}", whole=False)

    def answer(self, payload, moment):
        if self.count["S"] == 0 and not self.late:
            self.connect(payload, moment)
            return
        xid, zxid, err = struct.unpack_from(">iqi", payload)
        if xid == EVENT:
            self.say(moment, "S event", whole=False)
            return
        lane = self.waiting[xid if xid in LANES else 0]
        mine, stays = [each for each in lane if each.xid == xid], [each for each in lane if not each.lacks]
        if self.late and not mine and (xid in LANES or not self.matched):
            self.leave_out("S", payload, moment, f"zxid={zxid}{NAMES[err]} not seen asked")
            return
        self.matched |= xid not in LANES
        if mine and mine[0].lacks:
            self.leave_out("S", payload, moment, mine[0].lacks, moment - mine[0].moment)
        elif not stays:
            self.refuse("S", payload, moment, "place=0 reason=Unasked")
            return
        elif stays[0].xid != xid:
            self.refuse("S", payload, moment, f"place=0 reason=XidOrder expected={stays[0].xid} got={xid}")
            return
        else:
            self.say(moment, f"S {xid} {mine[0].name} zxid={zxid}{NAMES[err]}", whole=False, took=moment - mine[0].moment)
        lane.remove(mine[0])

    def connect(self, payload, moment):
        """Takes the first frame of the server."""
        if not self.waiting[None]:
            self.refuse("S", payload, moment, "place=0 reason=Unasked")
        elif len(payload) < LEAST_CONNECTED:
            self.refuse("S", payload, moment, f"place={len(payload)} reason=Short")
        else:
            asked = self.waiting[None].pop()
            self.say(moment, "S connect", whole=False, took=moment - asked.moment)

    def end(self, moment):
        """The lines, with that of the end."""
        cut = next((side for side in "CS" if self.held[side]), None)
        if cut and not self.is_over:
            self.say(moment, f". cut side={cut} frame={self.count[cut]} got={len(self.held[cut])}")
        elif not self.is_over:
            self.say(moment, f". whole unanswered={sum(map(len, self.waiting.values()))}")
        return self.told


def fault_of(name, payload):
    """Why a request is refused, and where; None if it isn't."""
    if name in WITH_PATH:
        size = int.from_bytes(payload[8:12], "big")
        try:
            payload[12:12 + size].decode()
        except UnicodeDecodeError as error:
            return f"place={12 + error.start} reason=BadText"
        if name == "exists" and payload[12 + size] > 1:
            return f"place={12 + size} reason=BadBool"
    return None


def followed(said, lacking):
    """What is said of these pieces: of each its side, its time and its bytes."""
    model, moment = Followed(lacking), 0
    for side, moment, data in said:
        model.take(side, data, moment)
    return model.end(moment)
