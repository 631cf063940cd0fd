"""ZooKeeper's operations: their numbers and names, the releases that have them, and the fields of their requests and
replies, as its records have them (docs/FORMATS.md, sections 5 and 9).

A field is NAME:KIND. Of those operations that zkdump reads the names and kinds are those of a listing's line.
"""

from typing import NamedTuple, Optional

# The bytes of a field, or the least that it has: a text, bytes or a list begins with a number of four.
SIZES = {"bit": 1, "number": 4, "long": 8, "hexadecimal": 8, "stat": 68}
LEAST = {"text": 4, "data": 4, "texts": 4, "acls": 4, "parts": 9, "results": 9}


class Operation(NamedTuple):
    """`release` is the first whose profile has it, None where zkdump has none; `xid` the xid of its own, if it has one,
    and `ordinary` says whether it may have another. `reply` has the fields after a reply's header; None: not known."""
    number: int
    name: str
    release: Optional[str]
    request: str
    reply: Optional[str] = None
    xid: Optional[int] = None
    ordinary: bool = True


CREATE, PATH = "path:text blob:data acl:acls flags:number", "path:text"
WATCH, VERSION = "path:text watch:bit", "path:text version:number"
WATCHES = "zxid:hexadecimal dataWatches:texts existWatches:texts childWatches:texts"
ALL = (
    # The lines from here on are written by dev/names.py; rows that the sources lack stay.
    Operation(1, "create", "3.4", CREATE, PATH),
    Operation(2, "delete", "3.4", VERSION, ""),
    Operation(3, "exists", "3.4", WATCH, "stat:stat"),
    Operation(4, "getData", "3.4", WATCH, "blob:data stat:stat"),
    Operation(5, "setData", "3.4", "path:text blob:data version:number", "stat:stat"),
    Operation(6, "getACL", "3.4", PATH, "acl:acls stat:stat"),
    Operation(7, "setACL", "3.4", "path:text acl:acls version:number", "stat:stat"),
    Operation(8, "getChildren", "3.4", WATCH, "names:texts"),
    Operation(9, "sync", "3.4", PATH, PATH),
    Operation(11, "ping", "3.4", "", "", -2, False),
    Operation(12, "getChildren2", "3.4", WATCH, "names:texts stat:stat"),
    Operation(13, "check", None, VERSION),              # in a multi alone
    Operation(14, "multi", "3.4", "parts:parts", "results:results"),
    Operation(15, "create2", "3.5", CREATE, "path:text stat:stat"),
    Operation(16, "reconfig", "3.7", "joining:text leaving:text members:text config:long", "blob:data stat:stat"),
    Operation(17, "checkWatches", "3.7", "path:text kind:number", ""),
    Operation(18, "removeWatches", "3.7", "path:text kind:number", ""),
    Operation(19, "createContainer", "3.7", CREATE, "path:text stat:stat"),
    Operation(20, "deleteContainer", None, PATH),
    Operation(21, "createTTL", "3.7", "path:text blob:data acl:acls flags:number ttl:long", "path:text stat:stat"),
    Operation(22, "multiRead", None, "parts:parts"),
    Operation(100, "auth", "3.4", "kind:number scheme:text auth:data", "", -4, False),
    Operation(101, "setWatches", "3.4", WATCHES, "", -8),
    Operation(102, "sasl", None, "token:data"),
    Operation(103, "getEphemerals", "3.7", PATH, "names:texts"),
    Operation(104, "getAllChildrenNumber", "3.7", PATH, "count:number"),
    Operation(105, "setWatches2", None, f"{WATCHES} persistentWatches:texts persistentRecursiveWatches:texts",
              xid=-8),
    Operation(106, "addWatch", "3.7", "path:text mode:number", "code:number"),
    Operation(107, "whoAmI", None, ""),
    Operation(-11, "closeSession", "3.4", "", ""),
    # Up to here.
)
BY_NAME = {operation.name: operation for operation in ALL}
BY_NUMBER = {operation.number: operation for operation in ALL}
# The number of each profile, by its release.
PROFILES = {release: int(release.replace(".", "")) for release in sorted({each.release for each in ALL} - {None})}


def kinds(fields):
    return [field.partition(":")[2] for field in fields.split()]


def least(fields):
    """The least number of bytes of these fields, and whether they have no more."""
    found = kinds(fields)
    return sum(SIZES.get(kind) or LEAST[kind] for kind in found), all(kind in SIZES for kind in found)
