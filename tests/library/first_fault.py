"""The first fault of a payload, by a second reading of docs/FORMATS.md, sections 1 to 5, for fields.py; not of a multi.

Kinds of messages are those of the calls of include/zk.h, faults have the names of its statuses, and `of` are the items
of a message's fields (formats.items).
"""

INT, LONG = ("", "int"), ("", "long")
HEADERS = {"first": (), "connected": (), "request": (INT, INT), "reply": (INT, LONG, INT), "event": (INT, LONG, INT)}
PING, AUTH, SET_WATCHES = 11, 100, 101


class Fault(Exception):
    """Its name, and its place."""


def number_at(payload, place):
    return int.from_bytes(payload[place:place + 4], "big", signed=True)


def number(payload, place, size):
    if len(payload) - place < size:
        raise Fault("SHORT", place)
    return int.from_bytes(payload[place:place + size], "big", signed=True)


def after(payload, place, kind):
    """The place after an item."""
    if kind in ("int", "long", "bool"):
        size = {"int": 4, "long": 8, "bool": 1}[kind]
        if number(payload, place, size) not in (0, 1) and kind == "bool":
            raise Fault("BAD_BOOL", place)
        return place + size
    length = number(payload, place, 4)
    if length < -1:
        raise Fault("BAD_LENGTH", place)
    end = place + 4 + max(0, length)
    if len(payload) < end:
        raise Fault("SHORT", place)
    if kind == "text":
        try:
            payload[place + 4:end].decode()
        except UnicodeDecodeError as error:
            raise Fault("BAD_TEXT", place + 4 + error.start) from None
    return end


def after_all(payload, place, of):
    for _, kind in of:
        if isinstance(kind, str):
            place = after(payload, place, kind)
            continue
        count = number(payload, place, 4)
        if count < -1:
            raise Fault("BAD_LENGTH", place)
        place += 4
        for _ in range(count):
            place = after_all(payload, place, kind)
    return place


def is_allowed(xid, operation):
    return (xid != -1 and (xid == -2) == (operation == PING) and (xid == -4) == (operation == AUTH)
            and (xid != -8 or operation == SET_WATCHES))


def judge(payload, kind, known, of):
    """Raises the fault of a payload. `known` are the operations of requests, of which `of` has the items."""
    place = after_all(payload, 0, HEADERS[kind])
    if kind == "request":
        xid, operation = number(payload, 0, 4), number(payload, 4, 4)
        if operation not in known:
            raise Fault("UNKNOWN_OP", 4)
        if not is_allowed(xid, operation):
            raise Fault("XID_OP", 4)
    elif kind == "event" and number(payload, 12, 4) != 0:
        raise Fault("EVENT_ERR", 12)
    if kind in ("first", "connected"):
        # One boolean may follow the record.
        place = after_all(payload, place, of[:-1])
        of = of[-1:] if place < len(payload) else ()
    if kind != "reply" or number(payload, 12, 4) == 0:
        place = after_all(payload, place, of)
    if place < len(payload):
        raise Fault("TRAILING", place)


def first_fault(payload, kind, known, of):
    """The name and the place of the fault of a payload; WELL and 0 if it has none, and None if its xid is one of
    another kind: what is found first then is the call's choice."""
    if kind in ("reply", "event") and (number_at(payload, 0) == -1) != (kind == "event"):
        return None
    try:
        judge(payload, kind, known, of)
    except Fault as fault:
        return fault.args
    return "WELL", 0
