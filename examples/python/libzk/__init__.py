"""ZooKeeper's client protocol by the proved library libzk: the fields of payloads, conversations, and frames.

    read_request(Profile.V34, payload)["path"]

    with Talk() as talk:
        for message in talk.feed(Side.CLIENT, received):
            print(message.operation, message.fields)

    frame = write_request(1, "exists", [(FieldKind.TEXT, "/a"), (FieldKind.BOOL, True)])

A client asks before it sends: `talk.offer(Side.CLIENT, frame)` returns the frame's message if it may come next, and
refuses it else.

What comes may be any bytes: what is no message raises Refused. So does a talk, a passage or a speaker that is closed.
"""

from ._held import Cut, Ending, Speaker, Talk, Waiting
from ._messages import Fault, Field, FieldKind, Kind, Message, Part, Refused, Right, Side, Value
from ._names import (ERRORS, EVENTS, FIELDS, FLAGS, OPERATIONS, STATES, STATUSES, Code, CreateFlags, EventType, Operation,
                     Permission, Profile, State, Status)
from ._payloads import (Item, judge_connected, judge_event, judge_first, judge_reply, judge_request, listing,
                        read_connected, read_event, read_first, read_reply, read_request, write_connected, write_event,
                        write_first, write_reply, write_request)
from ._through import Passed, Through, Went

__all__ = ["ERRORS", "EVENTS", "FIELDS", "FLAGS", "OPERATIONS", "STATES", "STATUSES", "Code", "CreateFlags", "EventType",
           "Operation", "Permission", "State", "Status", "Cut", "Ending", "Fault", "Field", "FieldKind",
           "Item", "Kind", "Message", "Part", "Passed", "Profile", "Right", "Refused", "Side", "Speaker", "Talk", "Through", "Value",
           "Waiting", "Went", "judge_connected", "judge_event", "judge_first", "judge_reply", "judge_request",
           "listing", "read_connected", "read_event", "read_first", "read_reply", "read_request", "write_connected",
           "write_event", "write_first", "write_reply", "write_request"]
