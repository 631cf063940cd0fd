"""Names of numbers for readers, beyond those that the crates have for lines: of operations, errors and events of later
releases, of states, of the flags of a create request, and of permissions. dev/constants.py writes them where callers
of the library take them from.

The names are those of ZooKeeper's own sources (ZooDefs.OpCode, KeeperException.Code, Watcher.Event, CreateMode, ZooDefs.Perms).
"""

import re

from . import source

ERRORS = {-12: "UNKNOWNSESSION", -13: "NEWCONFIGNOQUORUM", -14: "RECONFIGINPROGRESS", -120: "EPHEMERALONLOCALSESSION",
          -121: "NOWATCHER", -122: "REQUESTTIMEOUT", -123: "RECONFIGDISABLED", -124: "SESSIONCLOSEDREQUIRESASLAUTH",
          -125: "QUOTAEXCEEDED", -127: "THROTTLEDOP"}
EVENTS = {5: "DataWatchRemoved", 6: "ChildWatchRemoved", 7: "PersistentWatchRemoved"}
STATES = {-112: "Expired", -1: "Unknown", 0: "Disconnected", 1: "NoSyncConnected", 3: "SyncConnected", 4: "AuthFailed",
          5: "ConnectedReadOnly", 6: "SaslAuthenticated", 7: "Closed"}
FLAGS = {0: "persistent", 1: "ephemeral", 2: "persistentSequential", 3: "ephemeralSequential", 4: "container",
         5: "persistentWithTTL", 6: "persistentSequentialWithTTL"}
PERMISSIONS = {1: "read", 2: "write", 4: "create", 8: "delete", 16: "admin", 31: "all"}
# The words of an error's name, which has none of its own.
WORDS = """System Error, Runtime Inconsistency, Data Inconsistency, Connection Loss, Marshalling Error, Unimplemented,
Operation Timeout, Bad Arguments, Unknown Session, New Config No Quorum, Reconfig In Progress, Api Error, No Node, No Auth,
Bad Version, No Children For Ephemerals, Node Exists, Not Empty, Session Expired, Invalid Callback, Invalid Acl, Auth Failed,
Session Moved, Not Read Only, Ephemeral On Local Session, No Watcher, Request Timeout, Reconfig Disabled,
Session Closed Require Sasl Auth, Quota Exceeded, Throttled Op, Ok"""


def operations():
    """The operations of later releases that the tools know."""
    known = source.python_names("tools/zkdump_tools/operations.py")
    return {each.number: each.name for each in known["ALL"]}


def names():
    """By kind, the name of each number: those of source.names(), with those of later releases, and more kinds."""
    known = source.names()
    return {**{kind: with_newer(known[kind], newer) for kind, newer in (
        ("operation", operations()), ("error", ERRORS), ("event", EVENTS))},
        "state": STATES, "flags": FLAGS, "field": known["field"], "status": known["status"]}


def with_newer(known, newer):
    """The names of the sources, with those of numbers and names that they don't have, in the order of the numbers."""
    more = {number: name for number, name in newer.items() if number not in known and name not in known.values()}
    return dict(sorted({**known, **more}.items()))


def words_of(kind, name):
    """The words of a name."""
    if kind == "error":
        return {words.replace(" ", "").upper(): words.split() for words in re.split(r",\s+", WORDS)}.get(name, [name])
    if kind == "status":
        return name.split("_")
    return re.sub(r"(?<=[a-z0-9])(?=[A-Z])", " ", name).split()


def upper(kind, name):
    """The name as a constant: NO_NODE."""
    return "_".join(words_of(kind, name)).upper()


def camel(kind, name):
    """The name as a type's: NoNode."""
    return "".join(word[0].upper() + word[1:].lower() for word in words_of(kind, name))
